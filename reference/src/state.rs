//! The state: every net-input, net-output and queue in flat arrays, and the packet counter; one state for all editions.
//!
//! A state here can hold anything that its types allow, in range or not. The zero value of every type is
//! the empty place.

use crate::network::{DEPTH, OUTPUTS, PORTS, SITES, SPLIT};
use crate::sets::Set;

/// A net-input's state number.
#[derive(Clone, Copy, PartialEq, Eq, Debug, Default)]
#[repr(u8)]
pub enum Phase {
    #[default]
    Free,
    Seek,
    Open,
    Wait,
    Done,
    Last,
    Abort,
    FinAbort,
}

#[derive(Clone, Copy, PartialEq, Eq, Debug, Default)]
#[repr(u8)]
pub enum Connection {
    #[default]
    None,
    Unicast,
    Passthru,
    AllRemote,
    SomeLocal,
    Handed,
    /// Edition 3: the own site by the split output, the rest onward.
    Split,
}

#[derive(Clone, Copy, PartialEq, Eq, Debug, Default)]
#[repr(u8)]
pub enum Terminator {
    #[default]
    None,
    End,
    Abort,
    KeepLocal,
}

pub const PHASES: [Phase; 8] = [
    Phase::Free,
    Phase::Seek,
    Phase::Open,
    Phase::Wait,
    Phase::Done,
    Phase::Last,
    Phase::Abort,
    Phase::FinAbort,
];
pub const CONNECTIONS: [Connection; 7] = [
    Connection::None,
    Connection::Unicast,
    Connection::Passthru,
    Connection::AllRemote,
    Connection::SomeLocal,
    Connection::Handed,
    Connection::Split,
];
pub const TERMINATORS: [Terminator; 4] =
    [Terminator::None, Terminator::End, Terminator::Abort, Terminator::KeepLocal];

#[derive(Clone, Copy, PartialEq, Eq, Debug, Default)]
pub struct Input {
    pub set: Set,
    pub phase: Phase,
    pub connection: Connection,
    /// The received terminator: none, end or abort.
    pub received: Terminator,
    pub packet: u8,
    /// The connected outputs: bit p is output p.
    pub outputs: u8,
    pub tries: u8,
}

#[derive(Clone, Copy, PartialEq, Eq, Debug, Default)]
pub struct Output {
    pub set: Set,
    pub used: bool,
    pub packet: u8,
    /// The input that feeds it.
    pub input: u8,
    /// Whether its head has been taken.
    pub head: bool,
    pub terminator: Terminator,
    /// Editions 2 and 3: its terminator is delivered, and it is held until its channel's input is free.
    pub closing: bool,
}

#[derive(Clone, Copy, PartialEq, Eq, Debug, Default)]
pub struct OutEntry {
    pub set: Set,
    pub packet: u8,
    pub started: bool,
}

#[derive(Clone, Copy, PartialEq, Eq, Debug, Default)]
pub struct InEntry {
    pub set: Set,
    pub packet: u8,
    pub terminator: Terminator,
}

/// A queue, front first; the room beyond the count is zero in a state in range.
#[derive(Clone, Copy, PartialEq, Eq, Debug, Default)]
pub struct Queue<E> {
    pub entries: [E; DEPTH],
    pub count: u64,
}

impl<E: Copy + Default> Queue<E> {
    /// The entries that count (a count beyond the room sees the whole room).
    #[inline]
    pub fn items(&self) -> &[E] {
        &self.entries[..(self.count as usize).min(DEPTH)]
    }

    #[inline]
    pub fn is_full(&self, depth: usize) -> bool {
        self.count as usize >= depth
    }

    #[inline]
    pub fn last(&self) -> Option<&E> {
        self.items().last()
    }

    #[inline]
    pub fn last_mut(&mut self) -> Option<&mut E> {
        let place = (self.count as usize).min(DEPTH).checked_sub(1)?;
        Some(&mut self.entries[place])
    }

    /// Appends; the queue has room.
    #[inline]
    pub fn push(&mut self, entry: E) {
        self.entries[self.count as usize] = entry;
        self.count += 1;
    }

    /// Takes the front off; the others move up and the freed room becomes zero.
    #[inline]
    pub fn pop(&mut self) {
        self.entries.copy_within(1.., 0);
        self.entries[DEPTH - 1] = E::default();
        self.count -= 1;
    }
}

#[derive(Clone, PartialEq, Eq, Debug)]
pub struct State {
    pub inputs: [Input; PORTS * SITES],
    pub outputs: [Output; OUTPUTS * SITES],
    pub out_queues: [Queue<OutEntry>; SITES],
    pub in_queues: [Queue<InEntry>; SITES],
    /// The in-queues of the split outputs.
    pub split_queues: [Queue<InEntry>; SITES],
    /// The packets accepted so far: the number of the next one.
    pub counter: u8,
}

impl State {
    pub fn empty() -> State {
        State {
            inputs: [Input::default(); PORTS * SITES],
            outputs: [Output::default(); OUTPUTS * SITES],
            out_queues: [Queue::default(); SITES],
            in_queues: [Queue::default(); SITES],
            split_queues: [Queue::default(); SITES],
            counter: 0,
        }
    }

    pub fn inputs_of(&self, site: usize) -> &[Input] {
        &self.inputs[PORTS * site..][..PORTS]
    }

    pub fn outputs_of(&self, site: usize) -> &[Output] {
        &self.outputs[OUTPUTS * site..][..OUTPUTS]
    }

    /// The in-queue of output 0, or that of the split output.
    pub fn in_queue(&self, site: usize, port: usize) -> &Queue<InEntry> {
        if port == SPLIT {
            &self.split_queues[site]
        } else {
            &self.in_queues[site]
        }
    }

    pub fn in_queue_mut(&mut self, site: usize, port: usize) -> &mut Queue<InEntry> {
        if port == SPLIT {
            &mut self.split_queues[site]
        } else {
            &mut self.in_queues[site]
        }
    }

    /// Whether every field of the site is zero.
    pub fn is_zero_site(&self, site: usize) -> bool {
        self.inputs_of(site).iter().all(|i| *i == Input::default())
            && self.outputs_of(site).iter().all(|o| *o == Output::default())
            && self.out_queues[site] == Queue::default()
            && self.in_queues[site] == Queue::default()
            && self.split_queues[site] == Queue::default()
    }

    /// Whether the split output of the site, its marks at the inputs and its in-queue are zero.
    pub fn is_zero_split(&self, site: usize) -> bool {
        self.inputs_of(site).iter().all(|i| i.outputs >> SPLIT & 1 == 0)
            && self.outputs_of(site)[SPLIT] == Output::default()
            && self.split_queues[site] == Queue::default()
    }
}
