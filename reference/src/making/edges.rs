//! Single event cases of the second form at the limits of both versions, one by one.

use super::{graphs, routes};
use crate::network::{Network, NO_CHANNEL, OUTPUTS, PORTS};
use crate::sets::all;
use crate::single::Event;
use crate::state::{InEntry, Input, OutEntry, Output, Phase, State, Terminator};
use crate::text::{Case, Form};

const FIRST: Event = Event::Send { site: 0, set: 1 };

/// A one-way ring of this version, T = 3, D = 2.
fn ring(version: u8, sites: usize) -> Network {
    let mut network = graphs::ring(sites, false).in_version(version);
    routes::nearest(&mut network, 1);
    (network.tries, network.depth) = (3, 2);
    network
}

/// The ring with port 2 of site 0 joined to this input.
fn joined(version: u8, sites: usize, end: u16) -> Network {
    let mut network = ring(version, sites);
    network.channels[1] = end;
    network
}

fn case(network: Network, state: State, event: Event) -> Case {
    Case { form: Form::Second, network, state, event }
}

fn from_empty(network: Network, event: Event) -> Case {
    case(network, State::empty(), event)
}

/// Refusals 2, 17 and 3, alone and together.
fn heads() -> Vec<Case> {
    let head = |version, edition, sites| {
        let network = Network { version, edition, sites, ..ring(2, 2) };
        from_empty(network, FIRST)
    };
    let heads = [(0, 1, 2), (3, 1, 2), (255, 1, 2), (0, 2, 2), (3, 2, 65), (1, 0, 2), (1, 2, 2), (1, 2, 17)];
    let wide = [(2, 0, 2), (2, 9, 2), (2, 255, 2), (2, 9, 65), (2, 1, 0), (2, 1, 65), (2, 1, 1 << 32 | 2)];
    let bare = [heads.as_slice(), wide.as_slice(), &[(1, 1, 2), (2, 1, 2)]].concat();
    let mut cases: Vec<Case> = bare.into_iter().map(|(v, e, s)| head(v, e, s)).collect();
    let rings = [(1, 16), (1, 17), (1, 64), (2, 16), (2, 17), (2, 64)];
    cases.extend(rings.into_iter().map(|(version, sites)| from_empty(ring(version, sites), FIRST)));
    cases
}

/// Channels around 4S and none.
fn ends() -> Vec<Case> {
    let run = Event::Run { site: 0, code: 12 };
    let ends = [
        (2, 64, 254),
        (2, 64, 255),
        (2, 64, 256),
        (2, 64, 65_534),
        (2, 64, NO_CHANNEL),
        (2, 63, 255),
        (2, 16, 63),
        (2, 16, 64),
        (2, 16, 255),
        (2, 16, NO_CHANNEL),
        (1, 16, 63),
        (1, 16, 64),
        (1, 16, 255),
        (1, 16, 256),
        (1, 16, NO_CHANNEL),
    ];
    let with = |(version, sites, end)| from_empty(joined(version, sites, end), run);
    let mut cases: Vec<Case> = ends.into_iter().map(with).collect();
    let mut twice = joined(2, 64, 255);
    twice.channels[2] = 255;
    cases.push(from_empty(twice, run));
    cases
}

/// Sites and sets at and beyond S.
fn addresses() -> Vec<Case> {
    let sends = [
        (64, 63, 1 << 63),
        (64, 63, u64::MAX),
        (64, 64, 1),
        (63, 0, 1 << 63),
        (17, 16, 1 << 16),
        (17, 0, 1 << 17),
        (16, 15, 1 << 16),
    ];
    let runs =
        [(64, 63, 12), (64, 63, 13), (64, 64, 0), (17, 16, 0), (17, 17, 0), (2, 64, 0), (2, 1 << 32, 0)];
    let sends =
        sends.into_iter().map(|(sites, site, set)| from_empty(ring(2, sites), Event::Send { site, set }));
    let runs =
        runs.into_iter().map(|(sites, site, code)| from_empty(ring(2, sites), Event::Run { site, code }));
    sends.chain(runs).collect()
}

/// Something in a state beyond S: refusal 13, and next to it what passes.
fn beyond() -> Vec<Case> {
    let places =
        [(1, 2, 16), (1, 16, 16), (1, 16, 63), (2, 2, 15), (2, 2, 16), (2, 2, 63), (2, 17, 17), (2, 63, 63)];
    let mut cases = Vec::new();
    for (turn, (version, sites, site)) in places.into_iter().enumerate() {
        let mut state = State { counter: 1, ..State::empty() };
        match turn % 4 {
            0 => state.inputs[PORTS * site].tries = 1,
            1 => state.outputs[OUTPUTS * site + 4].head = true,
            2 => state.out_queues[site].entries[7].packet = 1,
            _ => state.in_queues[site].count = 1,
        }
        cases.push(case(ring(version, sites), state, FIRST));
    }
    for (sites, set) in [(17, 1 << 16), (17, 1 << 17), (64, 1 << 63)] {
        let mut state = State { counter: 1, ..State::empty() };
        state.in_queues[0].push(InEntry { packet: 0, set, terminator: Terminator::End });
        cases.push(case(ring(2, sites), state, Event::Run { site: 0, code: 11 }));
    }
    cases
}

/// The last site at work, and a network with junk beyond its sites.
fn last_site() -> Vec<Case> {
    let mut cases = Vec::new();
    for set in [1 << 63, 1 << 63 | 1, 1 << 62 | 1] {
        let mut state = State { counter: 1, ..State::empty() };
        state.in_queues[63].push(InEntry { packet: 0, set, terminator: Terminator::End });
        cases.push(case(ring(2, 64), state, Event::Run { site: 63, code: 11 }));
    }
    let mut state = State { counter: 1, ..State::empty() };
    state.outputs[2] = Output { used: true, set: 1 << 63, ..Output::default() };
    cases.push(case(joined(2, 64, 255), state, Event::Run { site: 0, code: 7 }));
    let mut state = State { counter: 9, ..State::empty() };
    state.inputs[PORTS * 63] = Input { phase: Phase::Seek, set: all(64), packet: 8, ..Input::default() };
    cases.push(case(ring(2, 64), state, Event::Run { site: 63, code: 0 }));
    for version in [1, 2] {
        let mut network = ring(version, 2);
        network.channels[8..].fill(300);
        network.routes[4..].fill(0xabcd);
        cases.push(from_empty(network, Event::Send { site: 1, set: 3 }));
    }
    cases
}

/// A SEND with every fault that there is but the first so many, in the order 2, 17, 3, 6, 7, 13, 9, 10, 12, 11.
fn repaired(version: u8, repairs: usize) -> Case {
    let here = |place: usize| place >= repairs;
    let mut network = ring(version, 2);
    network.depth = 1;
    network.version = if here(0) { 3 } else { version };
    network.edition = if here(1) { 9 } else { 1 };
    network.tries = if here(2) { 0 } else { 3 };
    network.channels[7] = if here(3) { 8 } else { NO_CHANNEL };
    network.routes[0] = here(4).into();
    let mut state = State { counter: if here(8) { 255 } else { 1 }, ..State::empty() };
    state.inputs[PORTS * 63 + 4].tries = here(5).into();
    if here(9) {
        state.out_queues[1].push(OutEntry { set: 1, ..OutEntry::default() });
    }
    let (site, set) = (if here(6) { 2 } else { 1 }, if here(7) { 0 } else { 3 });
    case(network, state, Event::Send { site, set })
}

/// All of them, in one order.
pub fn cases() -> Vec<Case> {
    let ladders =
        [1, 2].map(|version| (0..=10).map(|repairs| repaired(version, repairs)).collect::<Vec<Case>>());
    [heads(), ends(), addresses(), beyond(), last_site(), ladders.concat()].concat()
}
