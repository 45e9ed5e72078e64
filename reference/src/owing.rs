//! Owing: which place owes which targets of which packet, place by place.

use crate::network::{SITES, SPLIT};
use crate::sets::{only, size, Set};
use crate::state::{Phase, State, Terminator};

/// The kinds of place that can owe.
#[derive(Clone, Copy, PartialEq, Eq, Debug)]
pub enum Debt {
    OutQueue,
    OutQueueStarted,
    InputDone,
    InputLast,
    InputFinAbort,
    LocalEnd,
    LocalKeepLocal,
    RemoteEnd,
    InQueueEnd,
    InQueueKeepLocal,
    SplitEnd,
    SplitQueueEnd,
}

/// Kinds of place that owe in runs of edition 1; those of the split output come behind them.
pub const DEBTS_OF_1: usize = 10;

/// Every kind with its words, in the order of the enum.
pub const DEBTS: [(Debt, &str); 12] = [
    (Debt::OutQueue, "out-queue entry, not started"),
    (Debt::OutQueueStarted, "out-queue entry, started"),
    (Debt::InputDone, "net-input done with end"),
    (Debt::InputLast, "net-input last with end"),
    (Debt::InputFinAbort, "net-input fin-abort with end"),
    (Debt::LocalEnd, "output 0 with end"),
    (Debt::LocalKeepLocal, "output 0 with keep-local"),
    (Debt::RemoteEnd, "output 1 to 4 with end"),
    (Debt::InQueueEnd, "in-queue entry with end"),
    (Debt::InQueueKeepLocal, "in-queue entry with keep-local"),
    (Debt::SplitEnd, "split output with end"),
    (Debt::SplitQueueEnd, "split in-queue entry with end"),
];

/// What a place with this terminator owes of its set. A closing output holds none and owes nothing.
fn due(terminator: Terminator, set: Set, site: usize) -> Set {
    match terminator {
        Terminator::End => set,
        Terminator::KeepLocal => set & only(site),
        Terminator::Abort | Terminator::None => 0,
    }
}

/// Calls `owes(kind, packet, targets)` for every place that owes something.
pub fn each(state: &State, mut owes: impl FnMut(Debt, u8, Set)) {
    let mut tell = |kind, packet, targets| {
        if targets != 0 {
            owes(kind, packet, targets)
        }
    };
    for site in 0..SITES {
        for e in state.out_queues[site].items() {
            tell(if e.started { Debt::OutQueueStarted } else { Debt::OutQueue }, e.packet, e.set);
        }
        for i in state.inputs_of(site) {
            let kind = match i.phase {
                Phase::Last => Debt::InputLast,
                Phase::FinAbort => Debt::InputFinAbort,
                _ => Debt::InputDone,
            };
            tell(kind, i.packet, due(i.received, i.set, site));
        }
        for (port, o) in state.outputs_of(site).iter().enumerate() {
            let kind = match (port, o.terminator) {
                (0, Terminator::KeepLocal) => Debt::LocalKeepLocal,
                (0, _) => Debt::LocalEnd,
                (SPLIT, _) => Debt::SplitEnd,
                _ => Debt::RemoteEnd,
            };
            tell(kind, o.packet, due(o.terminator, o.set, site));
        }
        for (queue, end) in [(&state.in_queues, Debt::InQueueEnd), (&state.split_queues, Debt::SplitQueueEnd)]
        {
            for e in queue[site].items() {
                let keeps = e.terminator == Terminator::KeepLocal;
                let kind = if keeps { Debt::InQueueKeepLocal } else { end };
                tell(kind, e.packet, due(e.terminator, e.set, site));
            }
        }
    }
}

/// The owed pairs, counted over the state.
pub fn owed(state: &State) -> u32 {
    let mut pairs = 0;
    each(state, |_, _, targets| pairs += size(targets));
    pairs
}
