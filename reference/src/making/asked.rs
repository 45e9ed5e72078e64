//! Single event cases of which the outputs in the way are told, one by one: the router's failures in each edition and
//! what stands beside them, events that ask no router, and refused ones. And parts of the random ones.

use super::held::{case, with};
use super::marks::closing;
use super::{graphs, rng::Rng, routes, runs};
use crate::archive::Run;
use crate::network::{Network, EDITION, EDITIONS, EDITION_2, EDITION_3, OUTPUTS, PORTS, SITES, SPLIT};
use crate::sets::all;
use crate::single::Event;
use crate::state::{Connection, Input, Output, Phase, State, Terminator};
use crate::text::Case;
use crate::why;

const ASK: Event = Event::Ask { site: 0, code: 0 };

/// Set, tries, and outputs in use.
type Seek<'a> = (u64, u8, &'a [usize]);

/// Site 0 in the middle of four, T = 3, D = 2. Its lists are 1, 2 to site 1; 2, 3 to site 2; 3 to site 3; 4, 1, 3 to
/// site 4.
fn hub(edition: u8) -> Network {
    let mut network = graphs::star(5).in_edition(edition);
    routes::nearest(&mut network, 1);
    for (to, list) in [(1, 0x1200), (2, 0x2300), (3, 0x3000), (4, 0x4130)] {
        network.set_route(0, to, list);
    }
    (network.tries, network.depth) = (3, 2);
    network
}

/// Net-input `port` of the site in seek, and the outputs in use by packet 0 of net-input 4.
fn seeks(site: usize, port: usize, (set, tries, busy): Seek) -> State {
    with(|state| {
        state.inputs[PORTS * site + port] = Input { phase: Phase::Seek, set, tries, ..Input::default() };
        let used = Output { used: true, set: 1, input: 4, ..Output::default() };
        busy.iter().for_each(|&output| state.outputs[OUTPUTS * site + output] = used);
    })
}

fn asks(network: Network, seek: Seek) -> Case {
    case(network, seeks(0, 0, seek), ASK)
}

/// Below T, at T, which is 3, and handed on, for the own site, one other target, and more.
const SEEKS: [Seek; 22] = [
    (0b00001, 0, &[]),
    (0b00001, 2, &[0]),
    (0b00001, 3, &[0, 1, 2, 3, 4]),
    (0b00010, 0, &[1, 2]),
    (0b00010, 0, &[1]),
    (0b10000, 2, &[1, 4]),
    (0b10000, 2, &[0, 1, 3, 4]),
    (0b01000, 3, &[3]),
    (0b01000, 3, &[0, 3]),
    (0b01010, 0, &[1, 2]),
    (0b01010, 1, &[0, 1, 2]),
    (0b01010, 2, &[1, 2, 3]),
    (0b01010, 0, &[1, 3]),
    (0b11000, 0, &[3]),
    (0b10100, 0, &[0, 2, 3, 4]),
    (0b00110, 3, &[0, 1, 2, 3]),
    (0b00011, 0, &[1, 2]),
    (0b00011, 2, &[0, 1, 2]),
    (0b01001, 0, &[3]),
    (0b11111, 1, &[0, 1, 2, 3, 4]),
    (0b11111, 3, &[1, 2, 3, 4]),
    (0b01011, 3, &[0, 1, 2, 3]),
];

/// The same in edition 3 with the split output in use.
const SPLIT_SEEKS: [Seek; 7] = [
    (0b00001, 0, &[0, SPLIT]),
    (0b00001, 0, &[SPLIT]),
    (0b00010, 0, &[1, 2, SPLIT]),
    (0b00011, 0, &[SPLIT]),
    (0b00011, 0, &[1, 2, SPLIT]),
    (0b01010, 2, &[1, 2, SPLIT]),
    (0b00011, 3, &[0, 1, 2, SPLIT]),
];

/// The same in editions 2 and 3 with closing outputs behind those in use.
const CLOSING_SEEKS: [(Seek, &[usize]); 5] = [
    ((0b00010, 0, &[]), &[1, 2]),
    ((0b00010, 0, &[]), &[1]),
    ((0b00010, 0, &[1]), &[2]),
    ((0b01010, 1, &[0, 2]), &[1, 3]),
    ((0b01000, 3, &[0]), &[3]),
];

fn seeking_cases() -> Vec<Case> {
    let mut cases = Vec::new();
    for edition in EDITIONS {
        cases.extend(SEEKS.iter().map(|&seek| asks(hub(edition), seek)));
    }
    cases.extend(SEEKS[1..3].iter().map(|&seek| asks(hub(EDITION).in_version(1), seek)));
    cases.extend(SPLIT_SEEKS.iter().map(|&seek| asks(hub(EDITION_3), seek)));
    for edition in [EDITION_2, EDITION_3] {
        for (seek, closings) in CLOSING_SEEKS {
            let mut state = seeks(0, 0, seek);
            closings.iter().for_each(|&output| state.outputs[output] = closing());
            cases.push(case(hub(edition), state, ASK));
        }
    }
    let most: [(u8, Seek); 4] = [
        (EDITION, (0b01010, 254, &[1, 2])),
        (EDITION_2, (0b01010, 255, &[0, 1, 2])),
        (EDITION_3, (0b01010, 255, &[0, 1, 2])),
        (EDITION, (0b01010, 255, &[1, 2])),
    ];
    let at_most = |(edition, seek)| asks(Network { tries: 255, ..hub(edition) }, seek);
    cases.extend(most.into_iter().map(at_most));
    cases
}

/// The eight by eight torus, two ports a list: its last sites ask, and site 0 for the last one.
fn last_sites() -> Vec<Case> {
    let asks: [(u8, usize, usize, Seek); 6] = [
        (1, 63, 0, (1 << 63, 0, &[0])),
        (2, 63, 4, (1, 2, &[1, 3])),
        (3, 63, 1, (1 << 63 | 1 << 62, 3, &[0, 1, 2, 3, 4, SPLIT])),
        (2, 63, 2, (all(SITES), 0, &[0, 1, 2, 3, 4])),
        (1, 62, 3, (1 << 63 | 1 << 61, 0, &[1, 2])),
        (3, 0, 0, (1 << 63, 0, &[2, 4])),
    ];
    let last = |(edition, site, port, seek): (u8, usize, usize, Seek)| {
        let mut network = graphs::grid(8, 8, true).in_edition(edition);
        routes::nearest(&mut network, 2);
        (network.tries, network.depth) = (3, 2);
        case(network, seeks(site, port, seek), Event::Ask { site: site as u64, code: port as u64 })
    };
    asks.into_iter().map(last).collect()
}

/// Net-input 1 would fail, and net-input 0 is in another state, fed to output 1 or, in abort, to output 0.
fn not_in_seek() -> Vec<Case> {
    use Phase::{Abort, Done, FinAbort, Free, Last, Open, Wait};
    let phases = [(Free, 1), (Open, 2), (Wait, 3), (Done, 1), (Last, 3), (Abort, 1), (FinAbort, 2)];
    let idle = |(phase, edition): (Phase, u8)| {
        let aborts = matches!(phase, Abort | FinAbort);
        let receives = matches!(phase, Done | Last | FinAbort);
        let mut state = seeks(0, 1, (0b00010, 0, &[0, 1, 2]));
        (0..2).for_each(|output| state.outputs[output].input = 0);
        if phase != Free {
            let connection = if aborts { Connection::SomeLocal } else { Connection::Unicast };
            let received = if receives { Terminator::End } else { Terminator::None };
            let outputs = if aborts { 1 } else { 2 };
            state.inputs[0] =
                Input { phase, connection, received, set: 0b00010, outputs, ..Input::default() };
        }
        case(hub(edition), state, ASK)
    };
    phases.into_iter().map(idle).collect()
}

/// Net-input 0 would fail: other codes, and every refusal of a RUN.
fn others() -> Vec<Case> {
    let failing = |tries| seeks(0, 0, (0b00010, tries, &[1, 2]));
    let run = |edition, site, code| case(hub(edition), failing(0), Event::Ask { site, code });
    let codes = [(1, 5), (2, 6), (3, 7), (1, 8), (2, 9), (3, 10), (1, 11), (2, 12), (3, 13), (3, 14)];
    let mut cases: Vec<Case> = codes.into_iter().map(|(edition, code)| run(edition, 0, code)).collect();
    let strange = [(1, 5, 0), (2, 1 << 32, 0), (1, 0, 13), (2, 0, 14), (3, 0, 15), (3, 64, 0)];
    cases.extend(strange.into_iter().map(|(edition, site, code)| run(edition, site, code)));
    cases.extend(EDITIONS.into_iter().map(|edition| case(hub(edition), failing(4), ASK)));
    let good = hub(EDITION);
    let (mut twice, mut looped) = (good.clone(), good.clone());
    twice.channels[1] = twice.channels[0];
    looped.routes[0] = 0x1000;
    let networks = [
        Network { version: 3, ..good.clone() },
        Network { edition: 4, ..good.clone() },
        Network { version: 1, edition: 2, ..good.clone() },
        Network { tries: 0, ..good },
        twice,
        looped,
    ];
    cases.extend(networks.into_iter().map(|network| case(network, failing(0), ASK)));
    cases
}

/// All of them, in one order.
pub fn cases() -> Vec<Case> {
    [seeking_cases(), last_sites(), not_in_seek(), others()].concat()
}

/// The event as a RUN of which the outputs in the way are told; a SEND becomes one of some net-input.
pub(super) fn asking(rng: &mut Rng, event: Event) -> Event {
    match event {
        Event::Send { site, .. } => Event::Ask { site, code: rng.below(PORTS) as u64 },
        Event::Run { site, code } | Event::Ask { site, code } => Event::Ask { site, code },
    }
}

/// The sites and codes of the net-inputs in seek.
pub(super) fn seeking(state: &State) -> Vec<(usize, usize)> {
    let places = (0..state.inputs.len()).filter(|&place| state.inputs[place].phase == Phase::Seek);
    places.map(|place| (place / PORTS, place % PORTS)).collect()
}

/// The run cut before one of its failed asks; as it is if it has none.
pub(super) fn cut(rng: &mut Rng, run: Run) -> Run {
    let wiring = run.network.wiring().expect("a valid network");
    let mut draws = Vec::new();
    why::walk(&run, &wiring, &mut (), |failure| draws.push(failure.draw));
    if draws.is_empty() {
        return run;
    }
    runs::cut(run, rng.pick(&draws))
}
