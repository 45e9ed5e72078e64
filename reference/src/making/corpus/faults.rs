//! Each refusal in several ways, and two or more faults at once so that their order shows, in both versions and all
//! editions.

use super::{named, two_sites, Named};
use crate::format::{Format, VERSION_AT};
use crate::network::NO_CHANNEL;

/// A change of the two-site archive: one field, good or bad.
#[derive(Clone, Copy)]
enum Edit {
    /// The length field, so much higher.
    Length(i32),
    Version(u8),
    Edition(u8),
    Sites(u8),
    Tries(u8),
    Depth(u8),
    Seed(u32),
    /// The number of sends that the head says.
    Sends(u8),
    Channel(usize, u16),
    Route(usize, u16),
    /// A send's draw number, site or set.
    Draw(usize, u16),
    Site(usize, u8),
    Set(usize, u64),
}
use Edit::*;

type Edits = &'static [Edit];

/// One clear fault for each of the refusals, in the reader's order; they touch different bytes.
type Order<'a> = &'a [(u8, Edits)];

const LATER: [(u8, Edits); 6] = [
    (3, &[Depth(9)]),
    (4, &[Seed(0)]),
    (5, &[Sends(4)]),
    (6, &[Channel(0, 8)]),
    (7, &[Route(0, 1)]),
    (8, &[Site(0, 2)]),
];
const LENGTH: (u8, Edits) = (1, &[Length(256)]);

/// Ways in both versions.
const WAYS: &[(&str, Edits)] = &[
    ("refuse-1-field-one-less", &[Length(-1)]),
    ("refuse-2-version-0", &[Version(0)]),
    ("refuse-2-version-255", &[Version(255)]),
    ("refuse-3-all-three", &[Sites(0), Tries(0), Depth(0)]),
    ("refuse-5-one-site-fewer", &[Sites(1)]),
    ("refuse-5-one-site-more", &[Sites(3)]),
    ("refuse-5-one-send-fewer", &[Sends(2)]),
    ("refuse-5-one-send-more", &[Sends(4)]),
    ("refuse-6-fed-twice", &[Channel(1, 0)]),
    ("refuse-6-fed-twice-one-site", &[Channel(1, 5), Channel(2, 5)]),
    ("refuse-7-no-channel-left", &[Channel(0, NO_CHANNEL)]),
    ("refuse-7-empty-list", &[Route(1, 0)]),
    ("refuse-7-zero-first", &[Route(1, 0x0100)]),
    ("refuse-7-zero-between", &[Channel(1, 1), Route(1, 0x1020)]),
    ("refuse-7-port-twice", &[Route(1, 0x1100)]),
    ("refuse-7-port-twice-apart", &[Channel(1, 1), Route(1, 0x1210)]),
    ("refuse-7-port-5", &[Route(1, 0x5000)]),
    ("refuse-7-port-15-last", &[Route(1, 0x100f)]),
    ("refuse-7-port-5-second", &[Route(1, 0x1500)]),
    ("refuse-7-port-without-channel", &[Route(1, 0x1200)]),
    ("refuse-7-to-itself", &[Route(0, 0x1000)]),
    ("refuse-7-to-itself-last-digit", &[Route(3, 1)]),
    ("refuse-8-site-2", &[Site(0, 2)]),
    ("refuse-8-site-255", &[Site(2, 255)]),
    ("refuse-8-set-empty", &[Set(0, 0)]),
    ("refuse-8-set-beyond-s", &[Set(0, 4)]),
    ("refuse-8-set-bit-15", &[Set(0, 1 << 15 | 3)]),
    ("refuse-8-draw-after-last", &[Draw(2, 401)]),
    ("refuse-8-draws-fall", &[Draw(2, 399)]),
    ("pass-list-of-two", &[Channel(1, 5), Route(1, 0x2100)]),
    ("pass-self-channel", &[Channel(3, 3)]),
    ("pass-send-at-last-draw", &[Draw(0, 399)]),
];

/// Ways in version 1 alone.
const WAYS_OF_1: &[(&str, Edits)] =
    &[("refuse-6-byte-4s", &[Channel(1, 8)]), ("refuse-6-byte-254", &[Channel(7, 254)])];

/// Ways in version 2 alone. 255 is the bytes 0 and 255, 65280 the bytes 255 and 0.
const WAYS_OF_2: &[(&str, Edits)] = &[
    ("refuse-2-version-3", &[Version(3)]),
    ("refuse-2-version-0-edition-2", &[Version(0), Edition(2)]),
    ("refuse-17-edition-255", &[Edition(255)]),
    ("refuse-6-channel-4s", &[Channel(1, 8)]),
    ("refuse-6-channel-255", &[Channel(1, 255)]),
    ("refuse-6-channel-65280", &[Channel(7, 65_280)]),
    ("refuse-6-channel-65534", &[Channel(7, 65_534)]),
    ("refuse-8-set-bit-63", &[Set(2, 1 << 63 | 2)]),
];

/// Ways in editions 2 and 3.
const WAYS_OF_EDITIONS: &[(&str, Edits)] = &[
    ("pass-two-sites", &[]),
    ("refuse-1-field-one-less", &[Length(-1)]),
    ("refuse-2-version-3", &[Version(3)]),
    ("refuse-3-depth-9", &[Depth(9)]),
    ("refuse-4-seed-0", &[Seed(0)]),
    ("refuse-5-one-send-more", &[Sends(4)]),
    ("refuse-6-channel-4s", &[Channel(1, 8)]),
    ("refuse-7-empty-list", &[Route(1, 0)]),
    ("refuse-8-site-2", &[Site(0, 2)]),
];

/// The edition beside that of the archives: 0, and those that there were not yet.
const OTHER_EDITIONS: &[(&str, Edits)] = &[
    ("e2-refuse-17-edition-0", &[Edition(0)]),
    ("e2-refuse-17-edition-3", &[Edition(3)]),
    ("e3-refuse-17-edition-4", &[Edition(4)]),
];

/// The two-site archive of this version with these changes.
fn damaged(version: u8, edits: impl IntoIterator<Item = Edits>) -> Vec<u8> {
    let mut run = two_sites();
    run.network.version = version;
    let mut heads = Vec::new();
    for edit in edits.into_iter().flatten() {
        match *edit {
            Edition(edition) => run.network.edition = edition,
            Tries(tries) => run.network.tries = tries,
            Depth(depth) => run.network.depth = depth.into(),
            Seed(seed) => run.seed = seed,
            Channel(place, end) => run.network.channels[place] = end,
            Route(place, route) => run.network.routes[place] = route,
            Draw(send, draw) => run.sends[send].draw = draw,
            Site(send, site) => run.sends[send].site = site,
            Set(send, set) => run.sends[send].set = set,
            Length(_) | Version(_) | Sites(_) | Sends(_) => heads.push(*edit),
        }
    }
    let mut bytes = run.bytes();
    let format = Format::of(version);
    for edit in heads {
        match edit {
            Length(more) => {
                let field = (bytes.len() as i32 + more) as u16;
                bytes[..2].copy_from_slice(&field.to_be_bytes());
            }
            Version(number) => bytes[VERSION_AT] = number,
            Sites(sites) => bytes[format.sites] = sites,
            Sends(sends) => bytes[format.sends] = sends,
            _ => unreachable!("the other fields are set in the run"),
        }
    }
    bytes
}

/// Each fault with the next one, and with all later ones, in an archive that has these changes already.
fn orders(version: u8, prefix: &str, base: Edits, order: Order) -> Vec<Named> {
    let with =
        |faults: Order| damaged(version, [base].into_iter().chain(faults.iter().map(|(_, edits)| *edits)));
    let mut all = Vec::new();
    for pair in order.windows(2) {
        all.push(named(&format!("{prefix}order-{}-before-{}", pair[0].0, pair[1].0), with(pair)));
    }
    for at in 0..order.len() - 2 {
        all.push(named(&format!("{prefix}order-{}-before-all-later", order[at].0), with(&order[at..])));
    }
    all
}

/// The orders of this edition, where 17 is left out, and then 17 of the next edition in its place.
fn orders_of_edition(prefix: &str, edition: Edits, next: Edits) -> Vec<Named> {
    let known = [&[LENGTH, (2, &[Version(3)])], &LATER[..]].concat();
    let unknown = [&[(2, &[Version(3)] as Edits), (17, next)], &LATER[..]].concat();
    let mut all = orders(2, prefix, edition, &known);
    all.extend(orders(2, prefix, &[], &unknown).into_iter().filter(|(name, _)| name.contains("17")));
    all
}

/// What editions 2 and 3 have; of edition 3 neighbours in the order, and for 17 all later ones.
fn of_editions() -> Vec<Named> {
    let mut all = Vec::new();
    for (prefix, edition) in [("e2-", &[Edition(2)] as Edits), ("e3-", &[Edition(3)])] {
        let way =
            |(way, edits): &(&str, Edits)| named(&format!("{prefix}{way}"), damaged(2, [edition, *edits]));
        all.extend(WAYS_OF_EDITIONS.iter().map(way));
    }
    all.extend(OTHER_EDITIONS.iter().map(|(name, edits)| named(name, damaged(2, [*edits]))));
    all.extend(orders_of_edition("e2-", &[Edition(2)], &[Edition(3)]));
    let of_3 = orders_of_edition("e3-", &[Edition(3)], &[Edition(4)]);
    let telling = |(name, _): &Named| name.contains("17") || !name.contains("all-later");
    all.extend(of_3.into_iter().filter(telling));
    all
}

pub fn all() -> Vec<Named> {
    let ways = |version, prefix: &str, ways: &[(&str, Edits)]| -> Vec<Named> {
        ways.iter().map(|(way, edits)| named(&format!("{prefix}{way}"), damaged(version, [*edits]))).collect()
    };
    // In the archives of version 1 the version byte of 2's fault is 2: it makes their S, 2, an edition byte.
    let of_1 = [&[LENGTH, (2, &[Version(2)])], &LATER[..]].concat();
    let of_2 = [&[LENGTH, (2, &[Version(3)]), (17, &[Edition(9)])], &LATER[..]].concat();
    let mut all = vec![
        named("pass-two-sites", damaged(1, [])),
        named("v2-pass-two-sites", damaged(2, [])),
        named("v2-order-2-before-all-later-version-0", damaged(2, zero_version(&of_2))),
    ];
    all.extend(ways(1, "", WAYS));
    all.extend(ways(1, "", WAYS_OF_1));
    all.extend(orders(1, "", &[], &of_1));
    all.extend(ways(2, "v2-", WAYS));
    all.extend(ways(2, "v2-", WAYS_OF_2));
    all.extend(orders(2, "v2-", &[], &of_2));
    all.extend(of_editions());
    all
}

/// The faults from 2 on, with the version byte 0.
fn zero_version(order: Order) -> Vec<Edits> {
    let later = order.iter().skip(2).map(|(_, edits)| *edits);
    std::iter::once(&[Version(0)] as Edits).chain(later).collect()
}
