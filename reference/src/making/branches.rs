//! The split output of edition 3: for each clause of its range a fault, each in a state that breaks no other clause.

use super::rng::Rng;
use crate::network::{EDITION, EDITION_2, OUTPUTS, PORTS, SITES, SITES_OF_1, SPLIT};
use crate::sets::only;
use crate::state::{Connection, InEntry, Input, Output, Phase, Queue, State, Terminator};
use crate::text::Case;

/// The clauses, in words.
pub const CLAUSES: [&str; 22] = [
    "connection 6, the split output not connected",
    "the split output connected, another connection",
    "connection 3 or 4 in edition 3",
    "abort or fin-abort in edition 3",
    "connected split output empty",
    "connected split output with a terminator",
    "connected split output fed by another input",
    "split output, set empty or beyond S",
    "split output, packet not below the counter",
    "split output, fed by no input",
    "split output with keep-local",
    "split output closing",
    "empty split output with a field",
    "split in-queue beyond D",
    "split in-queue, an entry's set or packet",
    "split in-queue, room beyond the count",
    "connection 6 in edition 1 or 2",
    "split output in edition 1 or 2",
    "split output connected in edition 1 or 2",
    "split in-queue in edition 1 or 2",
    "split output beyond S",
    "split in-queue beyond S",
];

const MARK: u8 = 1 << SPLIT;

/// Breaks one clause at some site of a case in edition 3 whose state is in range, and gives its place in `CLAUSES`.
pub fn break_branch(rng: &mut Rng, case: &mut Case) -> usize {
    let clause = rng.below(CLAUSES.len());
    let site = rng.below(case.network.sites as usize);
    break_clause(rng, case, site, clause);
    clause
}

/// Breaks this clause at this site; those beyond S only where there is room.
pub fn break_clause(rng: &mut Rng, case: &mut Case, site: usize, clause: usize) {
    let input = some_branch(site, &mut case.state);
    match clause {
        0..=3 => break_connection(rng, &mut case.state, input, clause),
        4..=12 => break_output(rng, case, input, clause),
        13..=15 => break_queue(rng, case, site, clause),
        16..=19 => in_other_editions(rng, case, site, clause),
        _ => beyond(rng, case, clause),
    }
}

/// A packet 0 for the site that came by this input, at the split output.
fn split_output(site: usize, input: u8) -> Output {
    Output { used: true, set: only(site), input, ..Output::default() }
}

/// The place of an input of the site that is connected to the split output and another one; made if there is none.
fn some_branch(site: usize, state: &mut State) -> usize {
    let splits = |i: &Input| i.connection == Connection::Split && i.outputs > MARK;
    if let Some(port) = state.inputs_of(site).iter().position(splits) {
        return PORTS * site + port;
    }
    state.counter = state.counter.max(1);
    state.inputs[PORTS * site..][..PORTS].fill(Input::default());
    let (connection, outputs) = (Connection::Split, MARK | 2);
    state.inputs[PORTS * site] =
        Input { phase: Phase::Open, connection, set: only(site), outputs, ..Input::default() };
    state.outputs[OUTPUTS * site + 1] = split_output(site, 0);
    state.outputs[OUTPUTS * site + SPLIT] = split_output(site, 0);
    PORTS * site
}

fn break_connection(rng: &mut Rng, state: &mut State, place: usize, clause: usize) {
    let (site, port) = (place / PORTS, place % PORTS);
    let local = Output { input: port as u8, ..split_output(site, 0) };
    let input = &mut state.inputs[place];
    if clause >= 2 {
        input.connection = rng.pick(&[Connection::AllRemote, Connection::SomeLocal]);
        for other in &mut state.inputs[PORTS * site..][..PORTS] {
            other.outputs &= !1;
            if other.outputs == 0 {
                *other = Input::default();
            }
        }
        state.inputs[place].outputs = 1;
        state.outputs[OUTPUTS * site] = local;
    }
    let input = &mut state.inputs[place];
    match clause {
        0 => input.outputs &= !MARK,
        1 => input.connection = rng.pick(&[Connection::Unicast, Connection::Passthru, Connection::Handed]),
        2 => (),
        _ if input.received == Terminator::None => input.phase = Phase::Abort,
        _ => input.phase = Phase::FinAbort,
    }
}

/// A fault at the split output of the site, connected to this input or, from the clause 9 on, to none.
fn break_output(rng: &mut Rng, case: &mut Case, place: usize, clause: usize) {
    let (sites, counter) = (case.network.sites as usize, case.state.counter);
    let (site, port) = (place / PORTS, place % PORTS);
    if clause >= 9 {
        case.state.inputs[place] = Input::default();
    }
    let output = &mut case.state.outputs[OUTPUTS * site + SPLIT];
    match clause {
        4 => *output = Output::default(),
        5 => output.terminator = rng.pick(&[Terminator::End, Terminator::Abort]),
        6 => output.input = ((port + 1) % PORTS) as u8,
        7 if sites == SITES => output.set = 0,
        7 => output.set = rng.pick(&[0, only(sites), output.set | only(SITES - 1)]),
        8 => output.packet = rng.pick(&[counter, 255]),
        9 => output.input = rng.pick(&[5, 6, 255]),
        10 => output.terminator = Terminator::KeepLocal,
        11 => (output.head, output.terminator, output.closing) = (true, Terminator::None, true),
        _ => {
            let empty = Output::default();
            let terminator = Terminator::End;
            let faults = [
                Output { set: 1, ..empty },
                Output { packet: 1, ..empty },
                Output { input: 1, ..empty },
                Output { head: true, ..empty },
                Output { terminator, ..empty },
                Output { closing: true, ..empty },
            ];
            *output = rng.pick(&faults);
        }
    }
}

fn break_queue(rng: &mut Rng, case: &mut Case, site: usize, clause: usize) {
    let (depth, counter) = (case.network.depth, case.state.counter);
    let queue = &mut case.state.split_queues[site];
    let good = InEntry { set: only(site), ..InEntry::default() };
    *queue = Queue::default();
    let last = rng.below(depth as usize);
    (0..last).for_each(|_| queue.push(good));
    match clause {
        13 => {
            queue.entries[..(depth as usize + 1).min(8)].fill(good);
            queue.count = depth + 1;
        }
        14 => queue.push(rng.pick(&[InEntry { set: 0, ..good }, InEntry { packet: counter, ..good }])),
        _ => {
            let terminator = Terminator::End;
            let packet = InEntry { packet: 1, ..InEntry::default() };
            queue.entries[last] = rng.pick(&[good, packet, InEntry { terminator, ..InEntry::default() }]);
        }
    }
}

/// The state without anything of the split output but this, in edition 1 of either version or in edition 2.
fn in_other_editions(rng: &mut Rng, case: &mut Case, site: usize, clause: usize) {
    let state = &mut case.state;
    for input in &mut state.inputs {
        input.outputs &= !MARK;
        if input.connection == Connection::Split {
            input.connection = Connection::Unicast;
        }
        if input.connection != Connection::None && input.outputs == 0 {
            *input = Input::default();
        }
    }
    (0..SITES).for_each(|site| state.outputs[OUTPUTS * site + SPLIT] = Output::default());
    state.split_queues = [Queue::default(); SITES];
    state.outputs.iter_mut().filter(|output| output.closing).for_each(|output| output.closing = false);
    let connected = PORTS * site + some_connected(site, state);
    match clause {
        16 => state.inputs[connected].connection = Connection::Split,
        17 => state.outputs[OUTPUTS * site + SPLIT] = split_output(site, 4),
        18 => state.inputs[connected].outputs |= MARK,
        _ => state.split_queues[site].push(InEntry { set: only(site), ..InEntry::default() }),
    }
    (case.network.version, case.network.edition) = match rng.below(3) {
        0 if case.network.sites <= SITES_OF_1 as u64 => (1, EDITION),
        1 => (2, EDITION),
        _ => (2, EDITION_2),
    };
}

/// The port of a connected input of the site; made if there is none.
fn some_connected(site: usize, state: &mut State) -> usize {
    if let Some(port) = state.inputs_of(site).iter().position(|input| input.outputs != 0) {
        return port;
    }
    let input =
        Input { phase: Phase::Open, connection: Connection::Unicast, set: only(site), ..Input::default() };
    state.inputs[PORTS * site] = Input { outputs: 2, ..input };
    state.outputs[OUTPUTS * site + 1] = split_output(site, 0);
    0
}

fn beyond(rng: &mut Rng, case: &mut Case, clause: usize) {
    let (sites, room) = (case.network.sites as usize, case.form.room());
    if sites == room {
        return;
    }
    let site = rng.within(sites, room - 1);
    match clause {
        20 => case.state.outputs[OUTPUTS * site + SPLIT] = rng.pick(&[split_output(0, 0), closing_alone()]),
        _ => case.state.split_queues[site].push(InEntry { set: 1, ..InEntry::default() }),
    }
}

fn closing_alone() -> Output {
    Output { closing: true, ..Output::default() }
}
