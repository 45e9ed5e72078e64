//! Faults aimed at the clauses of in range that a random change seldom meets alone.

use super::rng::Rng;
use crate::network::{Network, DEPTH, OUTPUTS, PORTS};
use crate::state::{Connection, Input, Output, Phase, State, Terminator};

/// A site of a network, in a case with room for so many.
struct Spot<'a> {
    network: &'a Network,
    room: usize,
    site: usize,
}

/// A fault at a site; false if the site has no place for it.
type Fault = fn(&mut Rng, &Spot, &mut State) -> bool;

const FAULTS: [Fault; 9] = [
    empty_connected,
    stop_connected,
    abort_with_others,
    split_without_local,
    abort_unsplit,
    start_second,
    overfill,
    keep_local_remote,
    copy_beyond,
];

/// Breaks one clause at one site, if some try finds a place for it; the state has room for so many sites.
pub fn break_clause(rng: &mut Rng, network: &Network, room: usize, state: &mut State) {
    for _ in 0..40 {
        let site = rng.below((network.sites as usize).clamp(1, room));
        if rng.pick(&FAULTS)(rng, &Spot { network, room, site }, state) {
            return;
        }
    }
}

/// An input of the site for which this holds, net-input 0 before the others.
fn input_where(state: &mut State, site: usize, holds: impl Fn(&Input) -> bool) -> Option<&mut Input> {
    state.inputs[PORTS * site..][..PORTS].iter_mut().find(|input| holds(input))
}

fn splits(input: &Input) -> bool {
    matches!(input.connection, Connection::AllRemote | Connection::SomeLocal)
}

fn aborts(input: &Input) -> bool {
    matches!(input.phase, Phase::Abort | Phase::FinAbort)
}

/// A connected output is empty.
fn empty_connected(_: &mut Rng, &Spot { site, .. }: &Spot, state: &mut State) -> bool {
    let Some(input) = input_where(state, site, |i| i.outputs != 0) else { return false };
    let port = input.outputs.trailing_zeros() as usize;
    state.outputs[OUTPUTS * site + port] = Output::default();
    true
}

/// A connected output has a terminator.
fn stop_connected(rng: &mut Rng, &Spot { site, .. }: &Spot, state: &mut State) -> bool {
    let Some(input) = input_where(state, site, |i| i.outputs != 0) else { return false };
    let port = input.outputs.trailing_zeros() as usize;
    state.outputs[OUTPUTS * site + port].terminator = rng.pick(&[Terminator::End, Terminator::Abort]);
    true
}

/// A split on several outputs is aborting.
fn abort_with_others(_: &mut Rng, &Spot { site, .. }: &Spot, state: &mut State) -> bool {
    let Some(input) = input_where(state, site, |i| splits(i) && i.outputs > 1) else { return false };
    input.phase = if input.received == Terminator::None { Phase::Abort } else { Phase::FinAbort };
    true
}

/// A split is not connected to output 0.
fn split_without_local(_: &mut Rng, &Spot { site, .. }: &Spot, state: &mut State) -> bool {
    let Some(input) = input_where(state, site, |i| splits(i) && i.outputs > 1) else { return false };
    input.outputs &= !1;
    true
}

/// An aborting input is under another connection.
fn abort_unsplit(rng: &mut Rng, &Spot { site, .. }: &Spot, state: &mut State) -> bool {
    let Some(input) = input_where(state, site, aborts) else { return false };
    input.connection = rng.pick(&[Connection::Unicast, Connection::Passthru, Connection::Handed]);
    true
}

/// An entry after the front is started.
fn start_second(rng: &mut Rng, &Spot { site, .. }: &Spot, state: &mut State) -> bool {
    let queue = &mut state.out_queues[site];
    if queue.count < 2 {
        return false;
    }
    queue.entries[rng.within(1, queue.count as usize - 1)].started = true;
    true
}

/// A queue has good entries beyond D.
fn overfill(rng: &mut Rng, &Spot { network, site, .. }: &Spot, state: &mut State) -> bool {
    let depth = network.depth as usize;
    let (out, inn) = (&mut state.out_queues[site], &mut state.in_queues[site]);
    if depth >= DEPTH || out.count == 0 || inn.count == 0 {
        return false;
    }
    if rng.one_in(2) {
        let entry = crate::state::OutEntry { started: false, ..out.entries[0] };
        (out.count as usize..=depth).for_each(|_| out.push(entry));
    } else {
        let entry = inn.entries[0];
        (inn.count as usize..=depth).for_each(|_| inn.push(entry));
    }
    true
}

/// An output 1 to 4 has keep-local.
fn keep_local_remote(_: &mut Rng, &Spot { site, .. }: &Spot, state: &mut State) -> bool {
    let remote = &mut state.outputs[OUTPUTS * site + 1..][..PORTS - 1];
    let Some(output) = remote.iter_mut().find(|o| o.terminator != Terminator::None) else { return false };
    output.terminator = Terminator::KeepLocal;
    true
}

/// A site beyond S holds what a site within holds.
fn copy_beyond(rng: &mut Rng, &Spot { network, room, site }: &Spot, state: &mut State) -> bool {
    let sites = network.sites as usize;
    if sites >= room || state.is_zero_site(site) {
        return false;
    }
    let to = rng.pick(&[sites, sites, room - 1]);
    state.inputs.copy_within(PORTS * site..PORTS * (site + 1), PORTS * to);
    state.outputs.copy_within(OUTPUTS * site..OUTPUTS * (site + 1), OUTPUTS * to);
    state.out_queues[to] = state.out_queues[site];
    state.in_queues[to] = state.in_queues[site];
    state.split_queues[to] = state.split_queues[site];
    true
}
