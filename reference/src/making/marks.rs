//! The mark closing of editions 2 and 3: states in range that have it, and for each clause of its range a fault.

use super::rng::Rng;
use crate::network::{Network, EDITION, OUTPUTS, PORTS, SITES_OF_1};
use crate::state::{Connection, Input, Output, Phase, State, Terminator};
use crate::text::Case;

/// The places of the outputs 1 to 4 of this site.
fn remote(site: usize) -> std::ops::Range<usize> {
    OUTPUTS * site + 1..OUTPUTS * site + PORTS
}

/// Whether an input of the output's site is connected to it.
fn is_connected(state: &State, place: usize) -> bool {
    state.inputs_of(place / OUTPUTS).iter().any(|input| input.outputs >> (place % OUTPUTS) & 1 == 1)
}

/// A closing output of packet 0, fed by input 0.
pub fn closing() -> Output {
    Output { used: true, set: 1, head: true, closing: true, ..Output::default() }
}

/// Some outputs 1 to 4 in use that no input is connected to are closing.
pub fn close_some(rng: &mut Rng, network: &Network, state: &mut State) {
    for place in (0..network.sites as usize).flat_map(remote) {
        let may = state.outputs[place].used && !is_connected(state, place);
        if may && !rng.one_in(3) {
            let output = &mut state.outputs[place];
            (output.head, output.terminator, output.closing) = (true, Terminator::None, true);
        }
    }
}

/// One output of the site that is closing; made if there is none.
fn some_closing(rng: &mut Rng, site: usize, state: &mut State) -> usize {
    if let Some(place) = remote(site).find(|&place| state.outputs[place].closing) {
        return place;
    }
    let place = OUTPUTS * site + rng.within(1, PORTS - 1);
    state.inputs[PORTS * site..][..PORTS].fill(Input::default());
    state.outputs[place] = closing();
    state.counter = state.counter.max(1);
    place
}

/// Breaks one clause of the mark's range at some site of a case in edition 2 or 3; one in nine it keeps the range.
pub fn break_mark(rng: &mut Rng, case: &mut Case) {
    let (sites, room) = (case.network.sites as usize, case.form.room());
    let site = rng.below(sites);
    let state = &mut case.state;
    let place = some_closing(rng, site, state);
    let output = state.outputs[place];
    match rng.below(9) {
        0 => case.network.edition = EDITION,
        1 if sites <= SITES_OF_1 => (case.network.version, case.network.edition) = (1, EDITION),
        2 => state.outputs[OUTPUTS * site] = Output { closing: true, ..output },
        3 => state.outputs[place].used = false,
        4 => state.outputs[place] = Output { closing: true, ..Output::default() },
        5 => state.outputs[place].head = false,
        6 => state.outputs[place].terminator = rng.pick(&[Terminator::End, Terminator::Abort]),
        7 => connect(rng, state, place),
        8 if sites < room => state.outputs[OUTPUTS * rng.within(sites, room - 1) + 1].closing = true,
        _ => (),
    }
}

/// The input that feeds this output is open or done, and connected to it alone.
fn connect(rng: &mut Rng, state: &mut State, place: usize) {
    let Output { input, packet, set, .. } = state.outputs[place];
    let outputs = 1 << (place % OUTPUTS);
    let open = Input {
        phase: Phase::Open,
        connection: Connection::Unicast,
        packet,
        set,
        outputs,
        ..Input::default()
    };
    let done = Input { phase: Phase::Done, received: Terminator::End, ..open };
    state.inputs[place / OUTPUTS * PORTS + input as usize] = rng.pick(&[open, done]);
}

/// The versions and editions that a spoiled network of edition 2 or 3 has.
pub fn spoil_edition(rng: &mut Rng, network: &mut Network) {
    match rng.below(3) {
        0 => network.version = 1,
        1 => network.version = 3,
        _ => network.edition = rng.pick(&[0, network.edition - 1, network.edition + 1, 255]),
    }
}
