//! Damaged archives: each of the reader's refusals in many ways, on the bytes of a valid run of any version and
//! edition.
//!
//! A fault changes bytes only; which refusal comes out with several faults is for the reader to say.

use super::rng::Rng;
use crate::format::{number, Format, FEWEST, VERSION_AT};
use crate::network::most_sites;

/// The numbers that the reader can give.
pub const NUMBERS: [usize; 9] = [1, 2, 17, 3, 4, 5, 6, 7, 8];

/// What a valid archive's bytes say of its size, and its format.
struct Parts {
    version: u8,
    format: Format,
    sites: usize,
    sends: usize,
}

impl Parts {
    fn of(bytes: &[u8]) -> Parts {
        let version = bytes[VERSION_AT];
        let format = Format::of(version);
        Parts { version, format, sites: bytes[format.sites] as usize, sends: bytes[format.sends] as usize }
    }

    fn channel_at(&self, rng: &mut Rng) -> usize {
        self.format.channel_at(rng.below(4 * self.sites))
    }
}

/// Puts a big-endian number of so many bytes.
fn put(bytes: &mut [u8], at: usize, width: usize, value: usize) {
    bytes[at..at + width].copy_from_slice(&(value as u64).to_be_bytes()[8 - width..]);
}

/// Does one fault of this number to the archive `whole`, whose bytes may be damaged already. False if there is no
/// place for it.
fn fault(refusal: usize, rng: &mut Rng, whole: &[u8], bytes: &mut Vec<u8>) -> bool {
    let at = Parts::of(whole);
    match refusal {
        1 => wrong_length(rng, bytes),
        2 => bytes[VERSION_AT] = rng.pick(&[0, 3, 4, 255, 3 - at.version]),
        17 => match at.format.edition {
            Some(place) => bytes[place] = rng.pick(&[0, 4, 4, 9, 255]),
            None => bytes[VERSION_AT] = 2,
        },
        3 => wrong_limit(rng, &at, bytes),
        4 => put(bytes, at.format.seed, 4, 0),
        5 => wrong_size(rng, &at, bytes),
        6 => return bad_channel(rng, &at, whole, bytes),
        7 => bad_route(rng, &at, bytes),
        _ => return bad_send(rng, &at, bytes),
    }
    true
}

/// S, T or D outside its limits.
fn wrong_limit(rng: &mut Rng, at: &Parts, bytes: &mut [u8]) {
    let (Format { sites, tries, depth, .. }, most) = (at.format, most_sites(at.version) as u8);
    let limits =
        [(sites, 0), (sites, most + 1), (sites, 255), (tries, 0), (depth, 0), (depth, 9), (depth, 255)];
    let (place, value) = rng.pick(&limits);
    bytes[place] = value;
}

/// The length field unequal to the length, or too few bytes.
fn wrong_length(rng: &mut Rng, bytes: &mut Vec<u8>) {
    let length = bytes.len();
    match rng.below(7) {
        0 => bytes.truncate(rng.below(length)),
        1 => bytes.truncate(length - 1),
        2 => bytes.push(rng.value() as u8),
        3 => bytes.extend(std::iter::repeat_n(7, rng.within(1, 300))),
        4 => bytes.truncate(rng.below(FEWEST)),
        5 => bytes[0] ^= 1 << rng.below(8),
        _ => bytes[1] ^= 1 << rng.below(8),
    }
    if bytes.len() < FEWEST && bytes.len() > 1 && rng.one_in(2) {
        let short = bytes.len();
        put(bytes, 0, 2, short);
    }
}

/// The length field right, and the length not that of so many sites and sends.
fn wrong_size(rng: &mut Rng, at: &Parts, bytes: &mut Vec<u8>) {
    let most = most_sites(at.version);
    match rng.below(6) {
        0 => bytes[at.format.sends] = (at.sends + rng.within(1, 255)) as u8,
        1 => bytes[at.format.sites] = ((at.sites + rng.below(most - 1)) % most + 1) as u8,
        2 => bytes.truncate(rng.within(FEWEST, bytes.len() - 1)),
        3 => bytes.push(0),
        4 => bytes.truncate(at.format.head),
        _ => bytes.truncate(FEWEST),
    }
    let now = bytes.len();
    put(bytes, 0, 2, now);
}

fn bad_channel(rng: &mut Rng, at: &Parts, whole: &[u8], bytes: &mut [u8]) -> bool {
    let (width, ends) = (at.format.channel_width, 4 * at.sites);
    let highest = (1 << 8 * width) - 2;
    let place = at.channel_at(rng);
    let value = match rng.below(5) {
        0 => ends,
        1 => highest,
        2 => rng.within(ends, highest),
        3 => rng.pick(&[254, 255, 256, 511]).min(highest),
        _ => {
            let channels = whole[at.format.head..at.format.route_at(at.sites, 0)].chunks_exact(width);
            let fed: Vec<usize> =
                channels.map(|end| number(end) as usize).filter(|&end| end < ends).collect();
            if fed.is_empty() {
                return false;
            }
            let end = rng.pick(&fed);
            let other = at.channel_at(rng);
            put(bytes, other, width, end);
            end
        }
    };
    put(bytes, place, width, value);
    true
}

fn bad_route(rng: &mut Rng, at: &Parts, bytes: &mut [u8]) {
    let place = rng.below(at.sites * at.sites);
    let (from, to) = (place / at.sites, place % at.sites);
    let byte = at.format.route_at(at.sites, place);
    let old = number(&bytes[byte..byte + 2]) as u16;
    let no_channel = |port: usize| {
        let channel = at.format.channel_at(4 * from + port - 1);
        bytes[channel..channel + at.format.channel_width].iter().all(|&byte| byte == 255)
    };
    let missing = (1..=4).find(|&port| no_channel(port)).map(|port| port as u16);
    let new = match rng.below(8) {
        _ if from == to => rng.pick(&[1, 0x1000, 0x1234, 0xffff]),
        0 => 0,
        1 => old >> 4,
        2 => old & 0xf000 | old >> 4 & 0xf00,
        3 => old & 0xf000 | old >> 12,
        4 => old & 0x0fff | rng.pick(&[0x5000, 0x8000, 0xf000]),
        5 => old & 0xfff0 | rng.pick(&[5, 9, 15]),
        6 => missing.unwrap_or(5) << 12,
        _ => old & 0xf000 | missing.unwrap_or(6) << 8,
    };
    put(bytes, byte, 2, new.into());
}

fn bad_send(rng: &mut Rng, at: &Parts, bytes: &mut [u8]) -> bool {
    if at.sends == 0 {
        return false;
    }
    let format = &at.format;
    let byte = format.send_at(at.sites, rng.below(at.sends));
    let draws = number(&bytes[format.draws..][..2]) as usize;
    let last = number(&bytes[format.send_at(at.sites, at.sends - 1)..][..2]) as usize;
    let bits = 8 * format.set_width;
    match rng.below(7) {
        0 => bytes[byte + 2] = at.sites as u8,
        1 => bytes[byte + 2] = rng.within(at.sites, 255) as u8,
        2 => put(bytes, byte + 3, format.set_width, 0),
        3 if at.sites < bits => {
            let beyond = rng.within(at.sites, bits - 1);
            bytes[byte + 3 + (bits - 1 - beyond) / 8] |= 1 << (beyond % 8);
        }
        4 if draws < 65_535 => put(bytes, byte, 2, draws + 1),
        5 if last > 0 => put(bytes, format.draws, 2, last - 1),
        _ => put(bytes, format.send_at(at.sites, 0), 2, draws),
    }
    true
}

/// The archive with one to three faults, or of an extreme length.
pub fn damaged(rng: &mut Rng, whole: &[u8]) -> Vec<u8> {
    let mut bytes = whole.to_vec();
    if rng.one_in(200) {
        let long = rng.pick(&[65_535, 65_536, 65_537, 70_000]);
        bytes.resize(long, 0);
        put(&mut bytes, 0, 2, long);
        return bytes;
    }
    let count = rng.pick(&[1, 1, 1, 2, 2, 3]);
    let mut refusals: Vec<usize> = (0..count).map(|_| rng.pick(&NUMBERS)).collect();
    // The faults that move bytes come last.
    refusals.sort_unstable_by(|a, b| b.cmp(a));
    refusals.dedup();
    refusals.sort_by_key(|n| matches!(n, 1 | 5));
    for refusal in refusals {
        if bytes.len() >= FEWEST {
            fault(refusal, rng, whole, &mut bytes);
        }
    }
    bytes
}
