//! Version 2 under load: some runs of version 1 again, and networks of 17 to 64 sites; some of these in editions 2
//! and 3 too.

use super::loads::{self, loaded, nearest, random};
use super::{in_edition, named, Named};
use crate::archive::{Run, Send};
use crate::making::{graphs, rng::Rng};

/// The eight by eight torus: 255 sends spread over 65,535 draws.
fn spread() -> Run {
    let mut rng = Rng::new(88);
    let mut network = nearest(graphs::grid(8, 8, true), 4);
    (network.tries, network.depth) = (3, 4);
    let sends = (0..255)
        .map(|i| Send { draw: 250 * i, site: rng.below(64) as u8, set: rng.target_set(64) })
        .collect();
    Run { network, seed: 20_268, draws: 65_535, sends }
}

/// The torus again: each site in turn, 63 first, sends to itself and to two sites next to it.
fn neighbours() -> Run {
    let mut run = spread();
    let near = |site: usize| 1 << site | 1 << ((site + 1) % 64) | 1u64 << ((site + 8) % 64);
    run.sends = (0..255)
        .map(|i| Send { draw: 200 * i as u16, site: (63 - i % 64) as u8, set: near(63 - i % 64) })
        .collect();
    run
}

/// The runs of version 1 that are there in version 2 too.
const AGAIN: [&str; 9] = [
    "load-one-site",
    "load-two-sites-bundle",
    "load-star-5",
    "load-torus-4x4",
    "load-ring-one-way-3",
    "load-ring-both-ways-6",
    "load-mesh-2x2",
    "load-torus-4x4-at-once",
    "load-routes-loop-ring",
];

/// The runs of version 2 that are there in editions 2 and 3 too.
const IN_ALL: [&str; 13] = [
    "load-one-site",
    "load-two-sites-bundle",
    "load-star-5",
    "load-torus-4x4",
    "load-ring-one-way-3",
    "load-ring-both-ways-6",
    "load-mesh-2x2",
    "load-torus-4x4-at-once",
    "load-routes-loop-ring",
    "load-ring-one-way-17",
    "load-torus-8x8",
    "load-torus-8x8-short",
    "load-torus-8x8-neighbours",
];

pub fn all() -> Vec<Named> {
    let torus = nearest(graphs::grid(8, 8, true), 2);
    let mut all = loads::runs();
    all.retain(|(name, _)| AGAIN.contains(name));
    all.extend([
        ("load-ring-one-way-17", loaded(nearest(graphs::ring(17, false), 1), (2, 1), 15_000, 60, 41)),
        ("load-ring-both-ways-33", loaded(nearest(graphs::ring(33, true), 2), (3, 2), 40_000, 90, 42)),
        ("load-random-40", loaded(nearest(random(43, 40, 60), 4), (2, 2), 50_000, 120, 43)),
        ("load-star-64", loaded(nearest(graphs::star(64), 2), (3, 4), 65_535, 120, 44)),
        ("load-mesh-8x5", loaded(nearest(graphs::grid(8, 5, false), 3), (1, 3), 40_000, 120, 45)),
        ("load-torus-8x8", spread()),
        ("load-torus-8x8-short", loaded(nearest(graphs::grid(8, 8, true), 4), (2, 3), 3_000, 60, 49)),
        ("load-torus-8x8-neighbours", neighbours()),
        ("load-torus-8x8-at-once", loaded(torus, (1, 8), 65_535, 255, 48)),
    ]);
    let mut archives = Vec::new();
    for (name, run) in all {
        if IN_ALL.contains(&name) {
            let within = |edition| in_edition(edition, run.clone()).bytes();
            archives.extend([2, 3].map(|edition| named(&format!("e{edition}-{name}"), within(edition))));
        }
        archives.push(named(&format!("v2-{name}"), in_edition(1, run).bytes()));
    }
    archives
}
