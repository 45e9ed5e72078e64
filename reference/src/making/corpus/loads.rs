//! Networks of each shape under load, and runs that stand for one thing, in version 1.

use super::{named, two_sites, Named};
use crate::archive::{Run, Send};
use crate::making::{graphs, rng::Rng, routes, runs};
use crate::network::Network;
use crate::player::Play;
use crate::step::{Answer, Machine};

/// A run on the network: T, D, the draws and the number of sends given, the rest from the seed.
pub(super) fn loaded(mut network: Network, limits: (u8, u64), draws: u16, count: usize, seed: u64) -> Run {
    let mut rng = Rng::new(seed);
    (network.tries, network.depth) = limits;
    let sends = runs::load(&mut rng, network.sites as usize, draws, count);
    Run { network, seed: (rng.value() as u32).max(1), draws, sends }
}

pub(super) fn nearest(mut network: Network, most: usize) -> Network {
    routes::nearest(&mut network, most);
    network
}

fn anyhow(mut network: Network, seed: u64) -> Network {
    routes::anyhow(&mut network, &mut Rng::new(seed));
    network
}

/// The archive that speed is measured with: a 4x4 torus, 255 sends spread over 65,535 draws.
fn torus_load() -> Run {
    let mut rng = Rng::new(44);
    let mut network = nearest(graphs::grid(4, 4, true), 4);
    (network.tries, network.depth) = (3, 4);
    let sends = (0..255)
        .map(|i| Send { draw: 250 * i, site: rng.below(16) as u8, set: rng.target_set(16) })
        .collect();
    Run { network, seed: 20_261, draws: 65_535, sends }
}

/// Two sites, D = T = 1, both send {0,1}, with a seed under which the run ends with every RUN answering 0
/// and pairs owed.
fn jam() -> Run {
    let mut run = two_sites();
    (run.network.tries, run.network.depth) = (1, 1);
    run.draws = 3_000;
    run.sends = vec![Send { draw: 0, site: 0, set: 3 }, Send { draw: 0, site: 1, set: 3 }];
    let jams = |seed: &u32| {
        let run = Run { seed: *seed, ..run.clone() };
        let wiring = run.network.wiring().expect("a valid network");
        let mut play = Play::start(&run, &wiring, ());
        for _ in 0..run.draws {
            play.draw();
        }
        play.sends();
        let mut state = play.state.clone();
        let mut machine = Machine { wiring: &wiring, state: &mut state, watch: &mut () };
        play.counts.serviced < play.counts.pairs
            && (0..26).all(|m| machine.run(m / 13, m % 13) == Answer::Nothing)
    };
    run.seed = (1..10_000).find(jams).expect("some seed jams");
    run
}

pub(super) fn random(seed: u64, sites: usize, density: usize) -> Network {
    graphs::random(&mut Rng::new(seed), sites, density)
}

pub fn all() -> Vec<Named> {
    runs().into_iter().map(|(name, run)| named(name, run.bytes())).collect()
}

/// The runs by name.
pub(super) fn runs() -> Vec<(&'static str, Run)> {
    vec![
        ("jam-two-sites", jam()),
        ("load-one-site", loaded(graphs::loops(0), (1, 1), 600, 20, 1)),
        ("load-one-site-self-channels", loaded(graphs::loops(4), (2, 3), 2_000, 40, 2)),
        ("load-two-sites-bundle", loaded(nearest(graphs::bundle(4), 4), (2, 2), 3_000, 60, 3)),
        ("load-ring-one-way-3", loaded(nearest(graphs::ring(3, false), 1), (1, 1), 3_000, 30, 4)),
        ("load-ring-one-way-16", loaded(nearest(graphs::ring(16, false), 1), (2, 1), 9_000, 60, 5)),
        ("load-ring-both-ways-6", loaded(nearest(graphs::ring(6, true), 2), (3, 2), 6_000, 60, 6)),
        ("load-mesh-2x2", loaded(nearest(graphs::grid(2, 2, false), 2), (1, 2), 5_000, 60, 7)),
        ("load-mesh-4x3", loaded(nearest(graphs::grid(4, 3, false), 4), (4, 3), 9_000, 90, 8)),
        ("load-torus-2x2", loaded(nearest(graphs::grid(2, 2, true), 4), (2, 1), 6_000, 60, 9)),
        ("load-torus-3x3", loaded(nearest(graphs::grid(3, 3, true), 4), (255, 8), 9_000, 99, 10)),
        ("load-torus-4x4", torus_load()),
        ("load-torus-4x4-at-once", loaded(nearest(graphs::grid(4, 4, true), 2), (1, 8), 20_000, 255, 30)),
        ("load-star-5", loaded(nearest(graphs::star(5), 1), (2, 2), 6_000, 60, 12)),
        ("load-star-16", loaded(nearest(graphs::star(16), 2), (3, 4), 12_000, 90, 13)),
        ("load-random-7", loaded(nearest(random(14, 7, 60), 4), (2, 2), 6_000, 60, 14)),
        ("load-random-13-sparse", loaded(nearest(random(15, 13, 10), 4), (2, 1), 9_000, 60, 15)),
        ("load-routes-loop-4", loaded(anyhow(random(16, 4, 70), 16), (3, 2), 6_000, 60, 16)),
        ("load-routes-loop-16", loaded(anyhow(random(17, 16, 90), 17), (2, 3), 15_000, 99, 17)),
        ("load-routes-loop-ring", loaded(anyhow(graphs::ring(5, true), 18), (1, 1), 6_000, 60, 18)),
    ]
}
