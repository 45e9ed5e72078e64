//! Single event cases of edition 3, one by one: 17 and 9, each clause of the split output's range, the router, the
//! split output and its operator, the net-input of a split, timeouts and channels that close.

use super::branches::{break_clause, CLAUSES};
use super::held::{case, two, with};
use super::marks::closing;
use super::{graphs, rng::Rng, routes};
use crate::network::{Network, EDITION, EDITIONS, EDITION_2, EDITION_3, OUTPUTS, PORTS, SPLIT};
use crate::single::Event;
use crate::state::{Connection, InEntry, Input, OutEntry, Output, Phase, Queue, State, Terminator};
use crate::text::Case;

const ASK: Event = Event::Run { site: 0, code: 0 };
const SPLIT_STEP: Event = Event::Run { site: 0, code: 13 };
const SPLIT_OPERATOR: Event = Event::Run { site: 0, code: 14 };

/// An output in use by packet 0 of input 0, head not taken, without a terminator.
fn used(set: u64) -> Output {
    Output { used: true, set, ..Output::default() }
}

fn entry(set: u64, terminator: Terminator) -> InEntry {
    InEntry { packet: 0, set, terminator }
}

/// 17 in both versions, and 2 and 3 beside it.
fn heads() -> Vec<Case> {
    let kinds = [
        (2, 3, 2),
        (1, 3, 2),
        (2, 4, 2),
        (1, 4, 2),
        (3, 3, 2),
        (0, 4, 2),
        (2, 3, 65),
        (2, 4, 65),
        (1, 3, 17),
    ];
    let head = |(version, edition, sites)| Network { version, edition, sites, ..two(EDITION) };
    let send = Event::Send { site: 1, set: 3 };
    kinds.into_iter().map(|kind| case(head(kind), State::empty(), send)).collect()
}

/// The last codes of each edition, and those beyond.
fn codes() -> Vec<Case> {
    let codes = [(1, 13), (1, 14), (2, 13), (2, 14), (3, 12), (3, 13), (3, 14), (3, 15), (3, 255)];
    let of = |(edition, code)| case(two(edition), State::empty(), Event::Run { site: 1, code });
    let mut cases: Vec<Case> = codes.into_iter().map(of).collect();
    cases.push(case(two(EDITION).in_version(1), State::empty(), SPLIT_STEP));
    cases
}

/// Net-input 0 of site 0 asks for this set with so many tries while these outputs are in use.
fn asking(network: Network, set: u64, tries: u8, busy: &[usize]) -> Case {
    let state = with(|state| {
        state.inputs[0] = Input { phase: Phase::Seek, set, tries, ..Input::default() };
        busy.iter().for_each(|&port| state.outputs[port] = Output { input: 4, ..used(1) });
    });
    case(network, state, ASK)
}

/// Both sites, their own alone and the other alone, with these outputs in use; below T and at T, which is 3.
fn asks() -> Vec<Case> {
    let asks: [(u64, u8, &[usize]); 14] = [
        (0b11, 0, &[]),
        (0b11, 2, &[0]),
        (0b11, 0, &[1]),
        (0b11, 0, &[0, 1]),
        (0b11, 0, &[SPLIT]),
        (0b11, 0, &[1, SPLIT]),
        (0b11, 2, &[1, 2]),
        (0b11, 3, &[1, 2]),
        (0b11, 3, &[0, 1, 2]),
        (0b11, 3, &[1, 2, SPLIT]),
        (0b01, 0, &[]),
        (0b01, 0, &[0]),
        (0b01, 3, &[0]),
        (0b10, 0, &[SPLIT]),
    ];
    let mut cases: Vec<Case> =
        asks.into_iter().map(|(set, tries, busy)| asking(two(EDITION_3), set, tries, busy)).collect();
    cases.extend([EDITION, EDITION_2].into_iter().map(|edition| asking(two(edition), 0b11, 0, &[])));
    let mut three = graphs::ring(3, true).in_edition(EDITION_3);
    routes::nearest(&mut three, 2);
    (three.tries, three.depth) = (3, 2);
    let wide: [(u64, &[usize]); 5] =
        [(0b110, &[]), (0b110, &[SPLIT]), (0b110, &[1]), (0b111, &[]), (0b111, &[SPLIT])];
    cases.extend(wide.into_iter().map(|(set, busy)| asking(three.clone(), set, 0, busy)));
    cases
}

/// The split output in each of its states, its in-queue empty, with room, or full at D, which is 2.
fn outputs() -> Vec<Case> {
    use Terminator::{Abort, End, None};
    let taken = Output { head: true, ..used(1) };
    let steps: [(Output, &[Terminator]); 10] = [
        (Output::default(), &[None]),
        (used(1), &[]),
        (used(1), &[End]),
        (used(3), &[End, End]),
        (Output { terminator: End, ..used(1) }, &[]),
        (taken, &[None]),
        (Output { terminator: End, ..taken }, &[End, None]),
        (Output { terminator: Abort, ..taken }, &[None]),
        (Output { terminator: End, ..taken }, &[]),
        (Output { terminator: End, ..taken }, &[None, End]),
    ];
    let step = |(output, queue): (Output, &[Terminator])| {
        let state = with(|state| {
            state.outputs[SPLIT] = output;
            state.in_queues[0].push(entry(2, None));
            queue.iter().for_each(|&terminator| state.split_queues[0].push(entry(1, terminator)));
        });
        case(two(EDITION_3), state, SPLIT_STEP)
    };
    steps.into_iter().map(step).collect()
}

/// The split in-queue's operator: each terminator, the own site in the set or not, room for a rest or none; and the
/// operator of the in-queue beside it.
fn operators() -> Vec<Case> {
    use Terminator::{Abort, End, KeepLocal, None};
    let fronts = [
        (1, None, 0),
        (1, End, 2),
        (3, End, 1),
        (3, End, 2),
        (2, End, 0),
        (3, Abort, 0),
        (3, KeepLocal, 2),
        (2, KeepLocal, 0),
    ];
    let state = |(set, terminator, waiting): (u64, Terminator, usize)| {
        with(|state| {
            state.split_queues[0].push(entry(set, terminator));
            state.split_queues[0].push(entry(1, End));
            (0..waiting).for_each(|_| state.out_queues[0].push(OutEntry { set: 2, ..OutEntry::default() }));
        })
    };
    let operator = |front| case(two(EDITION_3), state(front), SPLIT_OPERATOR);
    let mut cases: Vec<Case> = fronts.into_iter().map(operator).collect();
    let local = with(|state| state.in_queues[0].push(entry(1, End)));
    cases.push(case(two(EDITION_3), local.clone(), SPLIT_OPERATOR));
    let both = State { split_queues: state(fronts[1]).split_queues, ..local };
    cases.push(case(two(EDITION_3), both, Event::Run { site: 0, code: 11 }));
    cases
}

/// Net-input 0 of site 0 in this state, connected to the split output and output 1, whose far input is open; each
/// with its head taken or not.
fn splitting(phase: Phase, received: Terminator, heads: [bool; 2]) -> State {
    with(|state| {
        let connected = Input { phase, received, connection: Connection::Split, set: 3, ..Input::default() };
        state.inputs[0] = Input { outputs: 1 << SPLIT | 2, ..connected };
        state.outputs[1] = Output { head: heads[0], ..used(2) };
        state.outputs[SPLIT] = Output { head: heads[1], ..used(1) };
        if heads[1] {
            state.split_queues[0].push(entry(1, Terminator::None));
        }
        if heads[0] {
            let open =
                Input { phase: Phase::Open, connection: Connection::Unicast, set: 2, ..Input::default() };
            state.inputs[PORTS + 1] = Input { outputs: 1, ..open };
            state.outputs[OUTPUTS] = Output { input: 1, ..used(2) };
        }
    })
}

/// The net-input of a split in each of its states, and a timeout while the split's heads wait.
fn inputs() -> Vec<Case> {
    use Phase::{Done, Last, Open, Wait};
    use Terminator::{Abort, End, None};
    let states = [
        (Open, None, [true, true]),
        (Open, None, [true, false]),
        (Wait, None, [false, true]),
        (Wait, None, [true, true]),
        (Done, End, [true, true]),
        (Done, Abort, [true, true]),
        (Done, End, [true, false]),
        (Last, End, [true, true]),
    ];
    let state = |(phase, received, heads)| splitting(phase, received, heads);
    let mut cases: Vec<Case> =
        states.into_iter().map(|kind| case(two(EDITION_3), state(kind), ASK)).collect();
    let timeout = Event::Run { site: 0, code: 12 };
    cases.push(case(two(EDITION_3), state(states[0]), timeout));
    cases.push(case(two(EDITION_3), state(states[4]), timeout));
    cases.push(case(two(EDITION_3), state(states[4]), Event::Send { site: 0, set: 3 }));
    cases
}

/// The terminator that output 1 of a split delivers in each edition's way, and a closing output beside a split output.
fn channels() -> Vec<Case> {
    let step = Event::Run { site: 0, code: 6 };
    let delivers = |edition: u8| {
        let mut state = splitting(Phase::Open, Terminator::None, [true, true]);
        (state.inputs[0], state.outputs[SPLIT]) = (Input::default(), Output::default());
        state.split_queues[0] = Queue::default();
        state.outputs[1].terminator = Terminator::End;
        case(two(edition), state, step)
    };
    let mut cases: Vec<Case> = EDITIONS.into_iter().map(delivers).collect();
    let held = with(|state| {
        state.outputs[1] = closing();
        state.outputs[SPLIT] = used(1);
    });
    cases.push(case(two(EDITION_3), held.clone(), step));
    let busy = Input { phase: Phase::Seek, set: 1, ..Input::default() };
    cases.push(case(
        two(EDITION_3),
        State { inputs: with(|s| s.inputs[PORTS + 1] = busy).inputs, ..held },
        step,
    ));
    cases
}

/// For each clause a state that breaks it alone.
fn clauses() -> Vec<Case> {
    let mut rng = Rng::new(u64::from(EDITION_3));
    let broken = |clause: usize| {
        let mut case = case(two(EDITION_3), with(|_| ()), SPLIT_STEP);
        break_clause(&mut rng, &mut case, clause % 2, clause);
        case
    };
    (0..CLAUSES.len()).map(broken).collect()
}

/// All of them, in one order.
pub fn cases() -> Vec<Case> {
    [heads(), codes(), asks(), outputs(), operators(), inputs(), channels(), clauses()].concat()
}
