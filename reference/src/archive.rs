//! The stored run: its reader (refusals 1, 2, 17, 3 to 8) and its writer (2, 17, 3 to 8, 14), in both versions.
//!
//! Each refusal is judged over the whole archive before the next one. `format` says what stands where.

use crate::format::{channel, number, Format, FEWEST, VERSION_AT};
use crate::network::{Network, EDITION, SITES};
use crate::refusal::Refusal;
use crate::sets::{is_target_set, Set};

/// Sends that an archive can hold.
pub const SENDS: usize = 255;
/// Bytes of the longest archive.
pub const LONGEST: usize = Format::of(2).length(SITES, SENDS);

/// A stored send, applied before draw `draw`.
#[derive(Clone, Copy, PartialEq, Eq, Debug)]
pub struct Send {
    pub draw: u16,
    pub site: u8,
    pub set: Set,
}

/// A stored run; its version and edition are the network's.
#[derive(Clone, PartialEq, Eq, Debug)]
pub struct Run {
    pub network: Network,
    pub seed: u32,
    pub draws: u16,
    pub sends: Vec<Send>,
}

/// The run that the bytes hold, or the first refusal of 1, 2, 17, 3 to 8.
pub fn read(bytes: &[u8]) -> Result<Run, Refusal> {
    check_length(bytes)?;
    let version = bytes[VERSION_AT];
    let format = Format::of(version);
    let mut network = Network {
        version,
        edition: format.edition.map_or(EDITION, |at| bytes[at]),
        sites: bytes[format.sites].into(),
        tries: bytes[format.tries],
        depth: bytes[format.depth].into(),
        ..Network::blank()
    };
    network.check_head()?;
    let seed = number(&bytes[format.seed..][..4]) as u32;
    check_seed(seed)?;
    let draws = number(&bytes[format.draws..][..2]) as u16;
    let sites = network.sites as usize;
    let sends = *bytes.get(format.sends).ok_or(Refusal::Size)?;
    if bytes.len() != format.length(sites, sends.into()) {
        return Err(Refusal::Size);
    }
    let (channels, routes) = (format.channel_at(0), format.route_at(sites, 0));
    let places = bytes[channels..routes].chunks_exact(format.channel_width);
    network.channels.iter_mut().zip(places).for_each(|(end, place)| *end = channel(place));
    network.check_channels()?;
    let places = bytes[routes..format.send_at(sites, 0)].chunks_exact(2);
    network.routes.iter_mut().zip(places).for_each(|(route, place)| *route = number(place) as u16);
    network.check_routes()?;
    let stored = |b: &[u8]| Send { draw: number(&b[..2]) as u16, site: b[2], set: number(&b[3..]) };
    let sends = bytes[format.send_at(sites, 0)..].chunks_exact(format.send_width()).map(stored).collect();
    let run = Run { network, seed, draws, sends };
    run.check_sends()?;
    Ok(run)
}

/// Refusal 1: fewer than 13 bytes, or the length field is not the slice's length.
pub fn check_length(bytes: &[u8]) -> Result<(), Refusal> {
    let good = bytes.len() >= FEWEST && number(&bytes[..2]) as usize == bytes.len();
    good.then_some(()).ok_or(Refusal::Length)
}

fn check_seed(seed: u32) -> Result<(), Refusal> {
    (seed != 0).then_some(()).ok_or(Refusal::Seed)
}

/// Writes the run at the front of the room and gives its length; a refusal writes nothing.
pub fn write(run: &Run, room: &mut [u8]) -> Result<usize, Refusal> {
    run.network.check_head()?;
    check_seed(run.seed)?;
    if run.sends.len() > SENDS {
        return Err(Refusal::Size);
    }
    run.network.check_channels()?;
    run.network.check_routes()?;
    run.check_sends()?;
    let bytes = run.bytes();
    let front = room.get_mut(..bytes.len()).ok_or(Refusal::Room)?;
    front.copy_from_slice(&bytes);
    Ok(bytes.len())
}

impl Run {
    /// Refusal 8, for S within its limits: sites, sets and draw numbers possible, and these not falling.
    fn check_sends(&self) -> Result<(), Refusal> {
        let sites = self.network.sites as usize;
        let possible =
            |s: &Send| (s.site as usize) < sites && is_target_set(s.set, sites) && s.draw <= self.draws;
        let rising = self.sends.windows(2).all(|two| two[0].draw <= two[1].draw);
        (rising && self.sends.iter().all(possible)).then_some(()).ok_or(Refusal::Send)
    }

    /// The archive's bytes with the fields as they are, good or bad. S is at most 64, D a byte, at most 255 sends.
    pub fn bytes(&self) -> Vec<u8> {
        let network = &self.network;
        let format = Format::of(network.version);
        let sites = (network.sites as usize).min(SITES);
        let length = format.length(sites, self.sends.len());
        let mut bytes = Vec::with_capacity(length);
        bytes.extend((length as u16).to_be_bytes());
        bytes.push(network.version);
        bytes.extend(format.edition.map(|_| network.edition));
        bytes.extend([network.sites as u8, network.tries, network.depth as u8]);
        bytes.extend(self.seed.to_be_bytes());
        bytes.extend(self.draws.to_be_bytes());
        bytes.push(self.sends.len() as u8);
        for end in &network.channels[..4 * sites] {
            bytes.extend(&end.to_be_bytes()[2 - format.channel_width..]);
        }
        for route in &network.routes[..sites * sites] {
            bytes.extend(route.to_be_bytes());
        }
        for send in &self.sends {
            bytes.extend(send.draw.to_be_bytes());
            bytes.push(send.site);
            bytes.extend(&send.set.to_be_bytes()[8 - format.set_width..]);
        }
        bytes
    }
}
