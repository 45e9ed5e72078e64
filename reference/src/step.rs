//! RUN: one component of one site takes one step, in place.
//!
//! The state is in range and the site and code exist; `single` checks that for callers from outside. The
//! counter is not touched. Two places of one site may be the two ends of a channel.

mod asks;
mod inputs;
mod outputs;
mod queues;

use crate::network::{Wiring, NO_INPUT, OUTPUTS, SPLIT};
use crate::sets::Set;
use crate::state::{Input, Phase, State, Terminator};
use crate::watch::{Rule, Watch};

/// The answer of RUN: 0, 1, or 2 with packet and site.
#[derive(Clone, Copy, PartialEq, Eq, Debug)]
pub enum Answer {
    Nothing,
    Changed,
    Serviced { packet: u8, site: u8 },
}

/// The network and its state while events run, and who watches.
pub struct Machine<'a, W: Watch> {
    pub wiring: &'a Wiring,
    pub state: &'a mut State,
    pub watch: &'a mut W,
}

impl<W: Watch> Machine<'_, W> {
    /// RUN (site, code).
    #[inline]
    pub fn run(&mut self, site: usize, code: usize) -> Answer {
        match code {
            0..=4 => self.net_input(site, code),
            5 => self.local_output(site, 0),
            6..=9 => self.remote_output(site, code - 5),
            10 => self.out_queue(site),
            11 => self.operator(site, 0),
            12 => self.timeout(site),
            13 => self.local_output(site, SPLIT),
            14 => self.operator(site, SPLIT),
            _ => unreachable!("the codes of every edition are above"),
        }
    }

    /// In use, head taken, and either output 0, the split output, or its channel's input open or abort.
    fn is_ready(&self, site: usize, port: usize) -> bool {
        let place = OUTPUTS * site + port;
        let output = &self.state.outputs[place];
        output.used && output.head && (matches!(port, 0 | SPLIT) || self.far_takes_terminator(place))
    }

    /// Whether the output has a channel whose input is open or abort.
    fn far_takes_terminator(&self, place: usize) -> bool {
        let far = self.wiring.far[place];
        far != NO_INPUT && takes_terminator(&self.state.inputs[far as usize])
    }

    /// Leaves the state as it is: answer 0.
    fn nothing(&mut self, rule: Rule) -> Answer {
        self.watch.saw(rule);
        Answer::Nothing
    }

    /// The state has been changed: answer 1.
    fn changed(&mut self, rule: Rule) -> Answer {
        self.watch.saw(rule);
        Answer::Changed
    }

    /// The operator of the site has serviced the packet there: answer 2.
    fn serviced(&mut self, rule: Rule, packet: u8, site: usize) -> Answer {
        self.watch.saw(rule);
        Answer::Serviced { packet, site: site as u8 }
    }
}

/// Open and abort take a terminator.
fn takes_terminator(input: &Input) -> bool {
    matches!(input.phase, Phase::Open | Phase::Abort)
}

/// A free input takes a packet: to seek with no tries.
fn take_packet(input: &mut Input, packet: u8, set: Set) {
    *input = Input { phase: Phase::Seek, packet, set, ..Input::default() };
}

/// Delivery of a terminator to an input that takes one: open to done, abort to fin-abort.
fn deliver(input: &mut Input, terminator: Terminator) {
    input.received = terminator;
    input.phase = if input.phase == Phase::Open { Phase::Done } else { Phase::FinAbort };
}
