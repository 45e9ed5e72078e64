//! Archives moved over to version 2 and back: typed bytes, each refusal, and their order.

use reference::archive::{Run, Send, LONGEST};
use reference::making::{graphs, routes};
use reference::moves::{back, over};
use reference::refusal::Refusal;

/// Run R, as typed in docs/FORMAT.md.
#[rustfmt::skip]
const R_1: [u8; 24] = [
    0, 0x18, 1, 1, 3, 1, 0, 0, 0, 1, 0, 2, 1,
    255, 255, 255, 255,
    0, 0,
    0, 0, 0, 0, 1,
];
#[rustfmt::skip]
const R_2: [u8; 35] = [
    0, 0x23, 2, 1, 1, 3, 1, 0, 0, 0, 1, 0, 2, 1,
    255, 255, 255, 255, 255, 255, 255, 255,
    0, 0,
    0, 0, 0, 0, 0, 0, 0, 0, 0, 0, 1,
];

/// Two sites and a multicast, the same.
#[rustfmt::skip]
const TWO_1: [u8; 39] = [
    0, 0x27, 1, 2, 8, 4, 0, 0, 0, 7, 0x03, 0xe8, 2,
    4, 255, 255, 255, 0, 255, 255, 255,
    0, 0, 0x10, 0, 0x10, 0, 0, 0,
    0, 0, 0, 0, 3,
    0x01, 0xf4, 1, 0, 1,
];
#[rustfmt::skip]
const TWO_2: [u8; 60] = [
    0, 0x3c, 2, 1, 2, 8, 4, 0, 0, 0, 7, 0x03, 0xe8, 2,
    0, 4, 255, 255, 255, 255, 255, 255, 0, 0, 255, 255, 255, 255, 255, 255,
    0, 0, 0x10, 0, 0x10, 0, 0, 0,
    0, 0, 0, 0, 0, 0, 0, 0, 0, 0, 3,
    0x01, 0xf4, 1, 0, 0, 0, 0, 0, 0, 0, 1,
];

pub type Move = fn(&[u8], &mut [u8]) -> Result<usize, Refusal>;

/// What the move gives with a room of so many bytes: the bytes at its front, or the number. All else in the room stays.
pub fn with_room(go: Move, file: &[u8], room: usize) -> Result<Vec<u8>, u8> {
    let before: Vec<u8> = (0..room).map(|at| (at * 7 + 3) as u8).collect();
    let mut lent = before.clone();
    let outcome = go(file, &mut lent);
    let length = *outcome.as_ref().unwrap_or(&0);
    assert_eq!(lent[length..], before[length..], "the rest stays");
    outcome.map(|_| lent[..length].to_vec()).map_err(Refusal::number)
}

pub fn moved(go: Move, file: &[u8]) -> Result<Vec<u8>, u8> {
    with_room(go, file, LONGEST + 9)
}

/// The bytes with these places changed.
fn with(bytes: &[u8], changes: &[(usize, u8)]) -> Vec<u8> {
    let mut bytes = bytes.to_vec();
    changes.iter().for_each(|&(place, value)| bytes[place] = value);
    bytes
}

/// A one-way ring with one send, from the last site to the first and the last one.
fn ring(version: u8, sites: usize) -> Run {
    let mut network = graphs::ring(sites, false).in_version(version);
    routes::nearest(&mut network, 1);
    let sends = vec![Send { draw: 0, site: sites as u8 - 1, set: 1 << (sites - 1) | 1 }];
    Run { network, seed: 5, draws: 300, sends }
}

#[test]
fn typed_bytes_both_ways() {
    for (narrow, wide) in [(&R_1[..], &R_2[..]), (&TWO_1[..], &TWO_2[..])] {
        assert_eq!(moved(over, narrow), Ok(wide.to_vec()));
        assert_eq!(moved(back, wide), Ok(narrow.to_vec()));
        assert_eq!(with_room(over, narrow, wide.len()), Ok(wide.to_vec()));
        assert_eq!(with_room(back, wide, narrow.len()), Ok(narrow.to_vec()));
    }
}

/// Rooms below the moved file's length; the file's own length does not count.
#[test]
fn room() {
    for room in [0, 1, 24, 34] {
        assert_eq!(with_room(over, &R_1, room), Err(14), "{room} bytes");
    }
    for room in [0, 1, 13, 23] {
        assert_eq!(with_room(back, &R_2, room), Err(14), "{room} bytes");
    }
    assert_eq!(with_room(over, &TWO_1, 59), Err(14));
    assert_eq!(with_room(back, &TWO_2, 38), Err(14));
}

/// Each number by one changed byte of the two sites.
#[test]
fn refusals_of_over() {
    for (place, value, number) in [
        (0, 1, 1),
        (1, 38, 1),
        (1, 40, 1),
        (2, 0, 2),
        (2, 2, 2),
        (2, 3, 2),
        (2, 255, 2),
        (3, 0, 3),
        (3, 17, 3),
        (4, 0, 3),
        (5, 0, 3),
        (5, 9, 3),
        (9, 0, 4),
        (3, 1, 5),
        (12, 3, 5),
        (14, 8, 6),
        (14, 254, 6),
        (14, 4, 6),
        (22, 1, 7),
        (23, 0, 7),
        (31, 2, 8),
        (33, 0, 8),
        (32, 1, 8),
        (33, 4, 8),
        (29, 2, 8),
        (29, 4, 8),
    ] {
        let file = with(&TWO_1, &[(place, value)]);
        assert_eq!(moved(over, &file), Err(number), "byte {place} is {value}");
        assert_eq!(with_room(over, &file, 0), Err(number), "byte {place} is {value}, no room");
    }
    assert_eq!(moved(over, &[]), Err(1));
    assert_eq!(moved(over, &with(&R_1[..12], &[(1, 12)])), Err(1));
    assert_eq!(moved(over, &with(&R_1[..13], &[(1, 13)])), Err(5));
}

#[test]
fn refusals_of_back() {
    for (place, value, number) in [
        (0, 1, 1),
        (1, 59, 1),
        (1, 61, 1),
        (2, 0, 2),
        (2, 1, 2),
        (2, 3, 2),
        (2, 255, 2),
        (3, 0, 17),
        (3, 2, 15),
        (3, 4, 17),
        (3, 255, 17),
        (4, 0, 3),
        (4, 65, 3),
        (5, 0, 3),
        (6, 0, 3),
        (6, 9, 3),
        (10, 0, 4),
        (4, 1, 5),
        (4, 17, 5),
        (13, 3, 5),
        (16, 0, 6),
        (17, 254, 6),
        (22, 1, 6),
        (23, 4, 6),
        (31, 1, 7),
        (32, 0, 7),
        (40, 2, 8),
        (48, 0, 8),
        (41, 128, 8),
        (47, 1, 8),
        (48, 4, 8),
        (38, 2, 8),
        (38, 4, 8),
    ] {
        let file = with(&TWO_2, &[(place, value)]);
        assert_eq!(moved(back, &file), Err(number), "byte {place} is {value}");
        assert_eq!(with_room(back, &file, 0), Err(number), "byte {place} is {value}, no room");
    }
    assert_eq!(moved(back, &[]), Err(1));
    assert_eq!(moved(back, &with(&R_2[..12], &[(1, 12)])), Err(1));
    assert_eq!(moved(back, &with(&R_2[..13], &[(1, 13)])), Err(5));
}

/// Two faults of the order and all from one on: the first is given, with room and without.
fn in_order(go: Move, whole: &[u8], faults: &[(u8, (usize, u8))]) {
    for (at, &(number, first)) in faults.iter().enumerate() {
        let rest: Vec<(usize, u8)> = faults[at..].iter().map(|fault| fault.1).collect();
        let pairs = faults[at..].iter().map(|&(_, later)| vec![first, later]);
        for changes in pairs.chain([rest]) {
            for room in [0, LONGEST] {
                assert_eq!(with_room(go, &with(whole, &changes), room), Err(number), "{changes:?}");
            }
        }
    }
}

#[test]
fn order_of_over() {
    let later = [(3, (4, 0)), (4, (9, 0)), (5, (12, 3)), (6, (20, 8)), (7, (22, 1)), (8, (31, 2))];
    for version in [0, 2, 3] {
        in_order(over, &TWO_1, &[&[(1, (1, 40)), (2, (2, version))], &later[..]].concat());
    }
}

#[test]
fn order_of_back() {
    let later = [(3, (5, 0)), (4, (10, 0)), (5, (13, 3)), (6, (28, 0)), (7, (31, 1)), (8, (40, 2))];
    for version in [0, 1, 3] {
        in_order(back, &TWO_2, &[&[(1, (1, 61)), (2, (2, version)), (17, (3, 4))], &later[..]].concat());
    }
    // 17 sites: channels from 14 on, routes from 150, the send from 728.
    let far = [(5, (13, 2)), (6, (16, 0)), (7, (151, 1)), (8, (730, 17))];
    let wide = ring(2, 17).bytes();
    in_order(back, &wide, &[&[(1, (1, 0)), (2, (2, 1)), (17, (3, 0))], &later[..2], &far[..]].concat());
    for room in [0, 1, 738, 739, LONGEST] {
        assert_eq!(with_room(back, &wide, room), Err(15), "{room} bytes");
    }
}

/// Editions 2 and 3 are 15, behind 8 and before 14, whatever the sites.
#[test]
fn later_editions_do_not_go_back() {
    [2, 3].into_iter().for_each(does_not_go_back);
}

fn does_not_go_back(edition: u8) {
    let two = with(&TWO_2, &[(3, edition)]);
    let faults =
        [(1, (1, 61)), (2, (2, 1)), (3, (5, 0)), (4, (10, 0)), (5, (13, 3)), (6, (28, 0)), (7, (31, 1))];
    in_order(back, &two, &[&faults[..], &[(8, (40, 2))]].concat());
    for room in [0, 38, 39, LONGEST] {
        assert_eq!(with_room(back, &two, room), Err(15), "{room} bytes");
        assert_eq!(with_room(back, &with(&R_2, &[(3, edition)]), room), Err(15), "run R, {room} bytes");
    }
    for sites in 1..=64 {
        let mut run = ring(2, sites);
        run.network.edition = edition;
        assert_eq!(moved(back, &run.bytes()), Err(15), "{sites} sites");
    }
    assert_eq!(moved(over, &two), Err(2));
}

/// A file of the other version is 2 whatever stands behind the version; a wrong length is 1.
#[test]
fn files_of_the_other_version() {
    for changes in [&[][..], &[(3, 0)], &[(3, 17)], &[(9, 0)], &[(12, 9)], &[(14, 4)], &[(22, 1)], &[(31, 9)]]
    {
        assert_eq!(moved(back, &with(&TWO_1, changes)), Err(2), "{changes:?}");
    }
    for changes in [&[][..], &[(3, 0)], &[(4, 0)], &[(4, 17)], &[(10, 0)], &[(13, 9)], &[(16, 0)], &[(40, 9)]]
    {
        assert_eq!(moved(over, &with(&TWO_2, changes)), Err(2), "{changes:?}");
    }
    assert_eq!(moved(back, &R_1[..23]), Err(1));
    assert_eq!(moved(over, &R_2[..34]), Err(1));
    for go in [over as Move, back] {
        assert_eq!(moved(go, &with(&TWO_2, &[(2, 3), (3, 0), (4, 0)])), Err(2));
    }
    assert_eq!(moved(back, &with(&TWO_2, &[(3, 0), (4, 0)])), Err(17));
}

/// A valid file of version 2 moves back exactly if it has at most 16 sites.
#[test]
fn sites_that_go_back() {
    for sites in 1..=64 {
        let wide = ring(2, sites).bytes();
        let narrow = if sites <= 16 { Ok(ring(1, sites).bytes()) } else { Err(15) };
        assert_eq!(moved(back, &wide), narrow, "{sites} sites");
    }
    let (narrow, wide) = (ring(1, 16).bytes(), ring(2, 16).bytes());
    assert_eq!((narrow.len(), wide.len()), (594, 665));
    assert_eq!(with_room(back, &wide, 594), Ok(narrow.clone()));
    assert_eq!(with_room(back, &wide, 593), Err(14));
    assert_eq!(with_room(over, &narrow, 665), Ok(wide));
    assert_eq!(with_room(over, &narrow, 664), Err(14));
}
