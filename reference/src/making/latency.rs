//! The rows of the stored table of latencies, by their arguments t, L, D, n and W. The table is only added to, and so
//! new rows go behind the old ones.

use super::rng::Rng;
use crate::latency::{Arguments, LARGEST};
use std::collections::BTreeSet;

/// Arguments in range, one of which is replaced.
const GOOD: Arguments = [8, 256, 8, 4, 8];

/// Every argument at 1, 2, 65534 or 65535.
fn bounds() -> Vec<Arguments> {
    let ends = [1, 2, LARGEST - 1, LARGEST];
    (0..4 << 8).map(|row: usize| [8, 6, 4, 2, 0].map(|at| ends[row >> at & 3])).collect()
}

/// Rows that are refused: each argument outside alone, also a good one with a bit more than 16 or 32 bits hold; two of
/// them outside, one at each end; all of them.
fn outside() -> Vec<Arguments> {
    let far = [0, 65_536, 65_537, 131_072, u32::MAX.into(), 1 << 32, u64::MAX];
    let with = |place: usize, value: u64| {
        let mut row = GOOD;
        row[place] = value;
        row
    };
    let mut rows = Vec::new();
    for (place, good) in GOOD.into_iter().enumerate() {
        rows.extend(far.map(|value| with(place, value)));
        rows.extend([good + (1 << 16), good + (1 << 32)].map(|value| with(place, value)));
    }
    for (one, other) in (0..5).flat_map(|one| (0..5).map(move |other| (one, other))) {
        if one != other {
            let mut row = with(one, 0);
            row[other] = LARGEST + 1;
            rows.push(row);
        }
    }
    rows.extend(far.map(|value| [value; 5]));
    rows
}

/// t and L around W and 2W, where a ceiling steps.
fn steps() -> Vec<Arguments> {
    let mut rows = Vec::new();
    for w in [5, 8, LARGEST / 2] {
        let around = [w - 1, w, w + 1, 2 * w - 1, 2 * w, 2 * w + 1];
        for (t, l) in around.into_iter().flat_map(|t| around.map(|l| (t, l))) {
            let turn = rows.len() as u64;
            rows.push([t, l, 1 + turn % 7, 2 + turn % 5, w]);
        }
    }
    rows
}

/// A number of 1 to 16 bits, each length as often as another.
fn any_length(rng: &mut Rng) -> u64 {
    let length = rng.within(1, 16);
    rng.within(1 << (length - 1), (1 << length) - 1) as u64
}

/// So many rows of any numbers up to `most`.
fn up_to(rng: &mut Rng, most: u64, count: usize) -> Vec<Arguments> {
    (0..count).map(|_| [(); 5].map(|()| rng.within(1, most as usize) as u64)).collect()
}

/// So many rows of numbers of every length.
pub fn of_any_length(rng: &mut Rng, count: usize) -> Vec<Arguments> {
    (0..count).map(|_| [(); 5].map(|()| any_length(rng))).collect()
}

/// A number whose fraction over `w` has this ceiling.
fn with_ceiling(rng: &mut Rng, ceiling: usize, w: usize) -> u64 {
    ((ceiling - 1) * w + rng.within(1, w)) as u64
}

/// Three rows with two or more targets, of which ceiling(t / W) times D is one below, equal to and one above
/// ceiling(L / W).
pub fn around_equality(rng: &mut Rng) -> [Arguments; 3] {
    let (w, target) = (rng.within(1, 64), rng.within(1, 5));
    let (least, most) = (2usize.div_ceil(target), (LARGEST as usize / w - 1) / target);
    let (near, many) = (rng.pick(&[3, 10, most]), rng.within(4, LARGEST as usize));
    let (d, n) = (rng.within(least, near), rng.pick(&[2, 3, many]));
    [1, 0, -1].map(|more| {
        let data = (target * d).checked_add_signed(more).expect("two or more");
        let [t, l] = [target, data].map(|ceiling| with_ceiling(rng, ceiling, w));
        [t, l, d as u64, n as u64, w as u64]
    })
}

/// All of them, none twice.
pub fn rows() -> Vec<Arguments> {
    let mut rng = Rng::new(2414);
    let mut rows = [bounds(), outside(), steps()].concat();
    for row in [up_to(&mut rng, 12, 15), of_any_length(&mut rng, 15)].concat() {
        rows.push([row[0], row[1], row[2], 1, row[4]]);
    }
    rows.extend((0..25).flat_map(|_| around_equality(&mut rng)));
    rows.extend(up_to(&mut rng, LARGEST, 60));
    rows.extend(of_any_length(&mut rng, 70));
    rows.extend(up_to(&mut rng, 12, 70));
    let mut seen = BTreeSet::new();
    rows.retain(|&row| seen.insert(row));
    rows
}
