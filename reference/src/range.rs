//! In range: which states the single events take (refusal 13). Clause by clause as document 01 lists them, and those of
//! the mark closing and of the split output.

use crate::network::{Wiring, DEPTH, OUTPUTS, PORTS, SITES, SPLIT};
use crate::sets::{is_target_set, Set};
use crate::state::{Connection, InEntry, Input, OutEntry, Output, Phase, Queue, State, Terminator};

/// Whether the state is in range for the network of this wiring.
pub fn in_range(wiring: &Wiring, state: &State) -> bool {
    let &Wiring { sites, tries, closes, restricted, .. } = wiring;
    let bounds = Bounds { sites, tries, closes, restricted, counter: state.counter };
    (0..SITES).all(|site| {
        if site >= wiring.sites {
            return state.is_zero_site(site);
        }
        let outputs = state.outputs_of(site);
        (0..PORTS).all(|port| bounds.input(port, &state.inputs_of(site)[port], outputs))
            && (0..OUTPUTS).all(|port| bounds.output(port, &outputs[port]))
            && queue(&state.out_queues[site], wiring.depth, |i, e| bounds.out_entry(i, e))
            && queue(&state.in_queues[site], wiring.depth, |_, e| bounds.in_entry(e))
            && queue(&state.split_queues[site], wiring.depth, |_, e| bounds.in_entry(e))
            && (restricted || state.is_zero_split(site))
    })
}

struct Bounds {
    sites: usize,
    tries: u8,
    closes: bool,
    restricted: bool,
    counter: u8,
}

impl Bounds {
    /// What holds of the packet and the set of every used place.
    fn carries(&self, packet: u8, set: Set) -> bool {
        packet < self.counter && is_target_set(set, self.sites)
    }

    fn input(&self, port: usize, input: &Input, outputs: &[Output]) -> bool {
        if input.phase == Phase::Free {
            return *input == Input::default();
        }
        let seeks = input.phase == Phase::Seek;
        let received = matches!(input.phase, Phase::Done | Phase::Last | Phase::FinAbort);
        let aborting = matches!(input.phase, Phase::Abort | Phase::FinAbort);
        let splits = matches!(input.connection, Connection::AllRemote | Connection::SomeLocal);
        let connected = |p: usize| input.outputs >> p & 1 == 1;
        self.carries(input.packet, input.set)
            && input.tries <= self.tries
            && (input.connection == Connection::None) == seeks
            && (input.outputs == 0) == seeks
            && input.outputs < 1 << OUTPUTS
            && (input.received != Terminator::None) == received
            && input.received != Terminator::KeepLocal
            && (0..OUTPUTS).all(|p| !connected(p) || takes_from(&outputs[p], port))
            && (!splits || connected(0) && !self.restricted)
            && (input.connection == Connection::Split) == connected(SPLIT)
            && (!aborting || splits && input.outputs == 1)
    }

    fn output(&self, port: usize, output: &Output) -> bool {
        if !output.used {
            return *output == Output::default();
        }
        self.carries(output.packet, output.set)
            && (output.input as usize) < PORTS
            && (port == 0 || output.terminator != Terminator::KeepLocal)
            && (!output.closing || self.may_close(port, output))
    }

    /// The mark of an output in use: in editions 2 and 3, at outputs 1 to 4, head taken, without a terminator; that no
    /// input is connected to it says `takes_from`.
    fn may_close(&self, port: usize, output: &Output) -> bool {
        self.closes && (1..PORTS).contains(&port) && output.head && output.terminator == Terminator::None
    }

    fn out_entry(&self, place: usize, entry: &OutEntry) -> bool {
        self.carries(entry.packet, entry.set) && (place == 0 || !entry.started)
    }

    fn in_entry(&self, entry: &InEntry) -> bool {
        self.carries(entry.packet, entry.set)
    }
}

/// A connected output: in use, fed by that input, without a terminator and not closing.
fn takes_from(output: &Output, port: usize) -> bool {
    let Output { used, input, terminator, closing, .. } = *output;
    used && input as usize == port && terminator == Terminator::None && !closing
}

/// The count at most D, every entry good, the room beyond the count zero.
fn queue<E>(queue: &Queue<E>, depth: usize, good: impl Fn(usize, &E) -> bool) -> bool
where
    E: Copy + Default + PartialEq,
{
    queue.count <= depth as u64
        && (0..DEPTH).all(|i| {
            let entry = &queue.entries[i];
            if (i as u64) < queue.count {
                good(i, entry)
            } else {
                *entry == E::default()
            }
        })
}
