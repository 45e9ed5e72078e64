//! What stands where in an archive, as a function of its version: places of the head's fields, widths, the length.
//!
//! Version 2 has an edition byte after the version byte, wider channels and wider sets; all else is the same. The
//! length field (bytes 0 and 1) and the version (byte 2) stand at the same places in both.

use crate::network::NO_CHANNEL;

/// Bytes below which nothing is an archive of any version.
pub const FEWEST: usize = 13;
/// The place of the version byte.
pub const VERSION_AT: usize = 2;

/// The places and widths of one version.
#[derive(Clone, Copy, PartialEq, Eq, Debug)]
pub struct Format {
    /// The place of the edition byte, if there is one.
    pub edition: Option<usize>,
    pub sites: usize,
    pub tries: usize,
    pub depth: usize,
    /// The first of four bytes.
    pub seed: usize,
    /// The first of two bytes.
    pub draws: usize,
    pub sends: usize,
    /// Bytes before the channels.
    pub head: usize,
    /// Bytes of a channel.
    pub channel_width: usize,
    /// Bytes of a send's set.
    pub set_width: usize,
}

impl Format {
    /// The format of version 1, and for every other number that of version 2.
    pub const fn of(version: u8) -> Format {
        let narrow = version == 1;
        let sites = if narrow { 3 } else { 4 };
        Format {
            edition: if narrow { None } else { Some(3) },
            sites,
            tries: sites + 1,
            depth: sites + 2,
            seed: sites + 3,
            draws: sites + 7,
            sends: sites + 9,
            head: sites + 10,
            channel_width: if narrow { 1 } else { 2 },
            set_width: if narrow { 2 } else { 8 },
        }
    }

    /// Where the channel of port m % 4 + 1 of site m / 4 begins.
    pub const fn channel_at(&self, m: usize) -> usize {
        self.head + self.channel_width * m
    }

    /// Where the route of this number, S x from + to, begins.
    pub const fn route_at(&self, sites: usize, number: usize) -> usize {
        self.channel_at(4 * sites) + 2 * number
    }

    /// Where send `number` begins: its draw number, two bytes further on its site, then its set.
    pub const fn send_at(&self, sites: usize, number: usize) -> usize {
        self.route_at(sites, sites * sites) + self.send_width() * number
    }

    /// Bytes of a send.
    pub const fn send_width(&self) -> usize {
        3 + self.set_width
    }

    /// The length of an archive with this many sites and sends.
    pub const fn length(&self, sites: usize, sends: usize) -> usize {
        self.send_at(sites, sends)
    }
}

/// The big-endian number of these bytes, at most eight.
pub fn number(bytes: &[u8]) -> u64 {
    bytes.iter().fold(0, |number, &byte| number << 8 | u64::from(byte))
}

/// The channel of these one or two bytes; all ones are none.
pub fn channel(bytes: &[u8]) -> u16 {
    match *bytes {
        [255] => NO_CHANNEL,
        _ => number(bytes) as u16,
    }
}
