//! Valid stored runs: random ones under contention, and runs cut where a rare place owes.

use super::{graphs, rng::Rng, routes};
use crate::archive::{Run, Send};
use crate::network::{Network, EDITIONS};
use crate::owing::{self, Debt, DEBTS};
use crate::player::Play;
use crate::step::Answer;

/// A network of version 1, of any shape, with routes, T and D.
pub fn any_network(rng: &mut Rng) -> Network {
    let network = graphs::any(rng);
    furnished(rng, network)
}

/// The same in version 2, of up to 64 sites, in any edition.
pub fn wide_network(rng: &mut Rng) -> Network {
    let network = graphs::any_wide(rng).in_edition(rng.pick(&EDITIONS));
    furnished(rng, network)
}

/// The network with routes, T and D.
pub fn furnished(rng: &mut Rng, mut network: Network) -> Network {
    routes::any(&mut network, rng);
    network.tries = match rng.below(4) {
        0 => 1,
        1 => rng.within(1, 255) as u8,
        _ => rng.within(1, 6) as u8,
    };
    network.depth = rng.pick(&[1, 1, 1, 2, 2, 3, 4, 8, 5, 6, 7]);
    network
}

/// Sends over the draws: all at the start, spread, or in bursts.
pub fn load(rng: &mut Rng, sites: usize, draws: u16, count: usize) -> Vec<Send> {
    let burst = rng.within(0, draws as usize);
    let kind = rng.below(3);
    let mut sends: Vec<Send> = (0..count)
        .map(|_| {
            let draw = match kind {
                0 => 0,
                1 => rng.within(0, draws as usize),
                _ => rng.pick(&[0, burst, draws as usize]),
            };
            Send { draw: draw as u16, site: rng.below(sites) as u8, set: rng.target_set(sites) }
        })
        .collect();
    sends.sort_by_key(|s| s.draw);
    sends
}

/// A valid run of version 1. `long` allows the longest ones.
pub fn any_run(rng: &mut Rng, long: bool) -> Run {
    let network = any_network(rng);
    run_on(rng, network, long)
}

/// The same in version 2, in any edition.
pub fn wide_run(rng: &mut Rng, long: bool) -> Run {
    let network = wide_network(rng);
    run_on(rng, network, long)
}

/// A valid run of either version and any edition.
pub fn either_run(rng: &mut Rng, long: bool) -> Run {
    if rng.one_in(2) {
        any_run(rng, long)
    } else {
        wide_run(rng, long)
    }
}

/// The run of version 2 in the other editions.
pub fn twins(run: &Run) -> Vec<Run> {
    let others = EDITIONS.into_iter().filter(|&edition| edition != run.network.edition);
    let within = |edition| Run { network: run.network.clone().in_edition(edition), ..run.clone() };
    others.map(within).collect()
}

/// A run on the network.
pub fn run_on(rng: &mut Rng, network: Network, long: bool) -> Run {
    let sites = network.sites as usize;
    let draws = match rng.below(if long { 20 } else { 19 }) {
        0 => rng.below(3),
        1..=9 => rng.within(1, 60 * sites),
        10..=18 => rng.within(1, 400 * sites),
        _ => rng.pick(&[65_535, 65_534, 30_000]),
    } as u16;
    let count = match rng.below(6) {
        0 => rng.within(0, 2),
        1 => rng.within(0, 255),
        _ => rng.within(1, 30),
    };
    let seed = (rng.value() as u32).max(1);
    let sends = load(rng, sites, draws, count);
    let run = Run { network, seed, draws, sends };
    if rng.one_in(2) {
        ends_owing(rng, run)
    } else {
        run
    }
}

/// The run with fewer draws and the sends up to there.
pub fn cut(mut run: Run, draws: u16) -> Run {
    run.draws = draws;
    run.sends.retain(|s| s.draw <= draws);
    run
}

/// For each kind of owing place the numbers of draws after which such a place owes.
pub fn moments(run: &Run) -> Vec<Vec<u16>> {
    let wiring = run.network.wiring().expect("a valid network");
    let mut play = Play::start(run, &wiring, ());
    let mut found = vec![Vec::new(); DEBTS.len()];
    let mut now: Vec<Debt> = Vec::new();
    for _ in 0..run.draws.min(5_000) {
        let (draw, answer) = play.draw();
        if answer != Answer::Nothing {
            now.clear();
            owing::each(&play.state, |kind, _, _| now.push(kind));
        }
        for (kind, moments) in DEBTS.iter().map(|(kind, _)| kind).zip(&mut found) {
            if now.contains(kind) {
                moments.push(draw + 1);
            }
        }
    }
    found
}

/// The run cut where a place of a rare kind owes; as it is if no such place ever does.
fn ends_owing(rng: &mut Rng, run: Run) -> Run {
    let mut seen = moments(&run);
    seen.retain(|moments| !moments.is_empty());
    seen.sort_by_key(Vec::len);
    if seen.is_empty() {
        return run;
    }
    let rare = if rng.one_in(2) { 0 } else { rng.below(seen.len().min(4)) };
    let draws = rng.pick(&seen[rare]);
    cut(run, draws)
}
