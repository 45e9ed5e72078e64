//! Run R, the bounds of document 01 and the extreme lengths, in version 1.

use super::{named, run_r, two_sites, Named};
use crate::archive::{Run, Send};
use crate::format::Format;
use crate::making::{graphs, routes};
use crate::network::{most_sites, Network};
use crate::sets;

pub(super) fn edited(bytes: &[u8], edits: &[(usize, u8)]) -> Vec<u8> {
    let mut bytes = bytes.to_vec();
    for &(place, value) in edits {
        bytes[place] = value;
    }
    bytes
}

/// The bytes cut or filled with zeros to this length, and the length field set to `field`.
pub(super) fn long(bytes: &[u8], length: usize, field: usize) -> Vec<u8> {
    let mut bytes = bytes.to_vec();
    bytes.resize(length, 0);
    for (byte, part) in bytes.iter_mut().zip((field as u16).to_be_bytes()) {
        *byte = part;
    }
    bytes
}

fn grid_of_16() -> Network {
    let mut network = graphs::grid(4, 4, true);
    routes::nearest(&mut network, 4);
    (network.tries, network.depth) = (3, 2);
    network
}

/// A one-way ring by its bytes, for one site too many too: T = 3, D = 2, no draws, the last of the sites that there
/// can be sends to all of these.
pub(super) fn ring(version: u8, sites: usize) -> Vec<u8> {
    let format = Format::of(version);
    let mut bytes = vec![0, 0, version];
    bytes.extend(format.edition.map(|_| 1));
    bytes.extend([sites as u8, 3, 2, 0, 0, 0, 7, 0, 0, 1]);
    let mut put = |width: usize, value: u64| bytes.extend(&value.to_be_bytes()[8 - width..]);
    for site in 0..sites {
        put(format.channel_width, 4 * ((site + 1) % sites) as u64);
        (0..3).for_each(|_| put(format.channel_width, u64::MAX));
    }
    for place in 0..sites * sites {
        put(2, if place / sites == place % sites { 0 } else { 0x1000 });
    }
    let senders = sites.min(most_sites(version));
    put(3, senders as u64 - 1);
    put(format.set_width, sets::all(senders));
    let whole = bytes.len();
    long(&bytes, whole, whole)
}

/// Short runs that are worked out by hand in the remarks of corpus/typed.
fn by_hand() -> Vec<Named> {
    let mut one = Run { seed: 539_674, ..one_site(1, 8, 2) };
    one.sends.extend([4, 8].map(|draw| Send { draw, site: 0, set: 1 }));
    let mut two = two_sites();
    (two.network.tries, two.network.depth) = (1, 1);
    two.sends.truncate(1);
    let abort = Run { seed: 28_965_721, draws: 17, ..two.clone() };
    let keep_local = Run { seed: 22_995_980, draws: 9, ..two };
    vec![
        named("hand-one-site", one.bytes()),
        named("hand-abort", abort.bytes()),
        named("hand-keep-local", keep_local.bytes()),
    ]
}

/// One site, no channels, `count` sends of {0} before the first draw.
pub(super) fn one_site(depth: u64, draws: u16, count: usize) -> Run {
    let send = Send { draw: 0, site: 0, set: 1 };
    Run { network: Network::bare(1, 1, depth), seed: 1, draws, sends: vec![send; count] }
}

fn lengths() -> Vec<Named> {
    let r = run_r();
    vec![
        named("bound-00-bytes", Vec::new()),
        named("bound-01-byte", vec![0]),
        named("bound-12-bytes", long(&r, 12, 12)),
        named("bound-13-bytes", long(&r, 13, 13)),
        named("bound-23-bytes", r[..23].to_vec()),
        named("bound-23-bytes-field-23", long(&r, 23, 23)),
        named("bound-24-bytes-field-25", long(&r, 24, 25)),
        named("bound-25-bytes", long(&r, 25, 24)),
        named("bound-65535-bytes", long(&r, 65_535, 65_535)),
        named("bound-65536-bytes", long(&r, 65_536, 65_535)),
        named("bound-65560-bytes", long(&r, 65_560, 24)),
    ]
}

pub fn all() -> Vec<Named> {
    let r = run_r();
    let sends = |draw, set| Send { draw, site: 15, set };
    let full = Run { network: grid_of_16(), seed: 7, draws: 9, sends: vec![sends(9, 0x8001); 255] };
    let last = Run { seed: u32::MAX, draws: 65_535, ..two_sites() };
    let mut all = vec![
        named("01-run-r", r.clone()),
        named("bound-sites-16", ring(1, 16)),
        named("bound-sites-17", ring(1, 17)),
        named("bound-sites-0", edited(&r, &[(3, 0)])),
        named("bound-depth-8", edited(&r, &[(5, 8)])),
        named("bound-depth-9", edited(&r, &[(5, 9)])),
        named("bound-depth-0", edited(&r, &[(5, 0)])),
        named("bound-tries-0", edited(&r, &[(4, 0)])),
        named("bound-tries-1", edited(&r, &[(4, 1)])),
        named("bound-tries-255", edited(&r, &[(4, 255)])),
        named("bound-seed-0", edited(&r, &[(9, 0)])),
        named("bound-seed-highest", edited(&r, &[(6, 255), (7, 255), (8, 255), (9, 255)])),
        named("bound-sends-0", one_site(8, 5, 0).bytes()),
        named("bound-sends-255", one_site(8, 0, 255).bytes()),
        named("bound-1864-bytes", full.bytes()),
        named("bound-draws-65535", last.bytes()),
    ];
    all.extend(lengths());
    all.extend(by_hand());
    all
}
