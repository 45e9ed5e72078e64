//! Single event cases of edition 2, one by one: 17, each clause of the mark's range, the rule with the input in each of
//! its states, and the router, to which a closing output is one in use. Each of the rule's cases comes in edition 1
//! too.

use super::marks::closing;
use super::{graphs, routes};
use crate::network::{Network, EDITION, EDITION_2, NO_CHANNEL, OUTPUTS, PORTS};
use crate::single::Event;
use crate::state::{Connection, InEntry, Input, Output, Phase, State, Terminator, PHASES};
use crate::text::{Case, Form};

/// Output 1 of site 0, and input 1 of site 1, which it feeds.
const HERE: usize = 1;
const FAR: usize = PORTS + 1;
const STEP: Event = Event::Run { site: 0, code: 6 };
const ASK: Event = Event::Run { site: 0, code: 0 };

/// Two sites joined on ports 1 and 2 both ways, lists 1, 2, T = 3, D = 2.
pub(super) fn two(edition: u8) -> Network {
    let mut network = graphs::ring(2, false).in_edition(edition);
    network.join((0, 2), (1, 2));
    network.join((1, 2), (0, 2));
    routes::nearest(&mut network, 2);
    (network.tries, network.depth) = (3, 2);
    network
}

pub(super) fn case(network: Network, state: State, event: Event) -> Case {
    Case { form: Form::Second, network, state, event }
}

/// The state with one packet accepted and these changes.
pub(super) fn with(change: impl FnOnce(&mut State)) -> State {
    let mut state = State { counter: 1, ..State::empty() };
    change(&mut state);
    state
}

/// An input in this state number, in range: what it has to be connected to stands at the same site.
fn put_input(state: &mut State, place: usize, phase: Phase) {
    let (site, port) = (place / PORTS, place % PORTS);
    if phase == Phase::Free {
        return;
    }
    let input = &mut state.inputs[place];
    *input = Input { phase, set: 2, ..Input::default() };
    if phase == Phase::Seek {
        return;
    }
    if matches!(phase, Phase::Done | Phase::Last | Phase::FinAbort) {
        input.received = Terminator::End;
    }
    (input.connection, input.outputs) = (Connection::SomeLocal, 1);
    let local = Output { used: true, set: 2, input: port as u8, head: true, ..Output::default() };
    state.outputs[OUTPUTS * site] = local;
}

/// 17 in both versions, and 2 and 3 beside it.
fn heads() -> Vec<Case> {
    let kinds = [
        (2, 2, 2),
        (2, 3, 2),
        (1, 2, 2),
        (1, 3, 2),
        (0, 2, 2),
        (3, 2, 2),
        (2, 2, 65),
        (2, 3, 65),
        (1, 2, 17),
    ];
    let send = Event::Send { site: 0, set: 1 };
    let head = |(version, edition, sites)| Network { version, edition, sites, ..two(EDITION) };
    kinds.into_iter().map(|kind| case(head(kind), State::empty(), send)).collect()
}

/// The mark where it may stand, and for each clause where it may not.
fn marks() -> Vec<Case> {
    let outputs = [
        (HERE, closing()),
        (4, closing()),
        (0, closing()),
        (HERE, Output { closing: true, ..Output::default() }),
        (HERE, Output { used: false, ..closing() }),
        (HERE, Output { head: false, ..closing() }),
        (HERE, Output { terminator: Terminator::End, ..closing() }),
        (HERE, Output { terminator: Terminator::Abort, ..closing() }),
        (HERE, Output { set: 0, ..closing() }),
        (HERE, Output { packet: 1, ..closing() }),
        (HERE, Output { input: 5, ..closing() }),
        (OUTPUTS * 2 + 1, Output { closing: true, ..Output::default() }),
        (OUTPUTS * 63 + 4, closing()),
    ];
    let at = |(place, output): (usize, Output)| with(|state| state.outputs[place] = output);
    let mut cases = vec![case(two(EDITION), at(outputs[0]), STEP)];
    cases.push(case(two(EDITION).in_version(1), at(outputs[0]), STEP));
    let connection = Connection::Unicast;
    let connected = Input { phase: Phase::Open, connection, set: 1, outputs: 2, ..Input::default() };
    let mut state = at(outputs[0]);
    state.inputs[0] = connected;
    cases.push(case(two(EDITION_2), state, STEP));
    cases.extend(outputs.into_iter().map(|output| case(two(EDITION_2), at(output), STEP)));
    cases
}

/// A closing output and its input in each of the eight states; without a channel; with a channel to its own site.
fn steps() -> Vec<Case> {
    let mut cases = Vec::new();
    for phase in PHASES {
        let state = with(|state| {
            state.outputs[HERE] = closing();
            put_input(state, FAR, phase);
        });
        cases.push(case(two(EDITION_2), state, STEP));
    }
    let state = with(|state| state.outputs[3] = closing());
    cases.push(case(two(EDITION_2), state.clone(), Event::Run { site: 0, code: 8 }));
    let mut own = two(EDITION_2);
    own.channels[2] = 2;
    cases.push(case(own.clone(), state.clone(), Event::Run { site: 0, code: 8 }));
    let busy = State { inputs: with(|state| put_input(state, 3, Phase::Seek)).inputs, ..state };
    cases.push(case(own, busy, Event::Run { site: 0, code: 8 }));
    cases
}

/// End and abort delivered to open and to abort, and not to the other states, in both editions; and to an in-queue, after
/// which output 0 is empty in both.
fn deliveries() -> Vec<Case> {
    let mut cases = Vec::new();
    for edition in [EDITION, EDITION_2] {
        let state = with(|state| {
            state.outputs[0] = Output { closing: false, terminator: Terminator::End, ..closing() };
            state.in_queues[0].push(InEntry { set: 1, ..InEntry::default() });
        });
        cases.push(case(two(edition), state, Event::Run { site: 0, code: 5 }));
        for terminator in [Terminator::End, Terminator::Abort] {
            for phase in [Phase::Open, Phase::Abort, Phase::Wait, Phase::Free] {
                let state = with(|state| {
                    state.outputs[HERE] = Output { closing: false, terminator, ..closing() };
                    put_input(state, FAR, phase);
                });
                cases.push(case(two(edition), state, STEP));
            }
        }
    }
    cases
}

/// A packet to {1} at site 0 whose list's outputs are closing: both, or the first; below T and at T.
fn asks() -> Vec<Case> {
    let seek = |tries| Input { phase: Phase::Seek, set: 2, tries, ..Input::default() };
    let asked = |outputs: &[usize], tries| {
        with(|state| {
            state.inputs[0] = seek(tries);
            outputs.iter().for_each(|&place| state.outputs[place] = closing());
        })
    };
    let mut single = two(EDITION_2);
    (single.channels[1], single.routes[1]) = (NO_CHANNEL, 0x1000);
    let mut cases = Vec::new();
    for (outputs, tries) in [(&[1][..], 0), (&[2], 0), (&[1, 2], 2), (&[1, 2], 3)] {
        cases.push(case(two(EDITION_2), asked(outputs, tries), ASK));
    }
    cases.extend([0, 3].into_iter().map(|tries| case(single.clone(), asked(&[1], tries), ASK)));
    cases
}

/// All of them, in one order.
pub fn cases() -> Vec<Case> {
    [heads(), marks(), steps(), deliveries(), asks()].concat()
}
