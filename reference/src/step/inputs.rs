//! The rules of a net-input, codes 0 to 4: seek, open, wait, done, last and fin-abort.

use super::{Answer, Machine};
use crate::network::{OUTPUTS, PORTS};
use crate::router::{Choice, Request, Verdict};
use crate::state::{Connection, Input, Output, Phase, Terminator};
use crate::watch::{Rule, Watch};

/// What an output gets when its input, all outputs ready, has received this terminator.
fn given(received: Terminator, connection: Connection, port: usize) -> Terminator {
    match (received, connection, port) {
        (Terminator::Abort, _, _) => Terminator::Abort,
        (_, Connection::AllRemote, 0) => Terminator::Abort,
        (_, Connection::SomeLocal, 0) => Terminator::KeepLocal,
        _ => Terminator::End,
    }
}

/// The rule's name for the same.
fn giving(received: Terminator, connection: Connection) -> Rule {
    let splits = matches!(connection, Connection::AllRemote | Connection::SomeLocal);
    match (received, connection) {
        (Terminator::Abort, Connection::Split) => Rule::DoneAbortBranch,
        (_, Connection::Split) => Rule::DoneBranch,
        (Terminator::Abort, _) if splits => Rule::DoneAbortSplit,
        (Terminator::Abort, _) => Rule::DoneAbort,
        (_, Connection::Passthru) => Rule::DonePassthru,
        (_, Connection::AllRemote) => Rule::DoneAllRemote,
        (_, Connection::SomeLocal) => Rule::DoneSomeLocal,
        (_, Connection::Handed) => Rule::DoneHanded,
        _ => Rule::DoneUnicast,
    }
}

impl<'a, W: Watch> Machine<'a, W> {
    pub(super) fn net_input(&mut self, site: usize, port: usize) -> Answer {
        let place = PORTS * site + port;
        match self.state.inputs[place].phase {
            Phase::Free | Phase::Abort => self.nothing(Rule::InputIdle),
            Phase::Seek => self.seek(site, port),
            Phase::Open if self.all_ready(site, place) => self.nothing(Rule::OpenStays),
            Phase::Open => self.goes(place, Phase::Wait, Rule::OpenToWait),
            Phase::Wait if self.all_ready(site, place) => self.goes(place, Phase::Open, Rule::WaitToOpen),
            Phase::Wait => self.nothing(Rule::WaitStays),
            Phase::Last if self.all_ready(site, place) => self.goes(place, Phase::Done, Rule::LastToDone),
            Phase::Last => self.nothing(Rule::LastStays),
            Phase::Done if self.all_ready(site, place) => self.finish(site, place),
            Phase::Done => self.goes(place, Phase::Last, Rule::DoneToLast),
            Phase::FinAbort if self.is_ready(site, 0) => self.finish_abort(site, place),
            Phase::FinAbort => self.nothing(Rule::FinAbortStays),
        }
    }

    fn goes(&mut self, place: usize, phase: Phase, rule: Rule) -> Answer {
        self.state.inputs[place].phase = phase;
        self.changed(rule)
    }

    /// Whether all connected outputs of the input are ready.
    fn all_ready(&self, site: usize, place: usize) -> bool {
        let mut connected = self.state.inputs[place].outputs;
        while connected != 0 {
            if !self.is_ready(site, connected.trailing_zeros() as usize) {
                return false;
            }
            connected &= connected - 1;
        }
        true
    }

    /// Done with all outputs ready: every connected output gets its terminator, the input goes free.
    fn finish(&mut self, site: usize, place: usize) -> Answer {
        let input = std::mem::take(&mut self.state.inputs[place]);
        for port in 0..OUTPUTS {
            if input.outputs >> port & 1 == 1 {
                let terminator = given(input.received, input.connection, port);
                self.state.outputs[OUTPUTS * site + port].terminator = terminator;
            }
        }
        self.changed(giving(input.received, input.connection))
    }

    /// Fin-abort with output 0 ready: it gets the received terminator, the input goes free.
    fn finish_abort(&mut self, site: usize, place: usize) -> Answer {
        let Input { received, .. } = std::mem::take(&mut self.state.inputs[place]);
        self.state.outputs[OUTPUTS * site].terminator = received;
        self.changed(if received == Terminator::End { Rule::FinAbortEnd } else { Rule::FinAbortAbort })
    }

    /// What a net-input in seek asks the router.
    #[inline]
    pub(super) fn request(&self, site: usize, port: usize) -> Request<'a> {
        let Input { set, tries, .. } = self.state.inputs[PORTS * site + port];
        let outputs = self.state.outputs_of(site);
        let empty = (0..OUTPUTS).filter(|&p| !outputs[p].used).fold(0, |mask, p| mask | 1 << p);
        Request { wiring: self.wiring, site, set, empty, tries }
    }

    /// Seek: ask the router.
    fn seek(&mut self, site: usize, port: usize) -> Answer {
        match self.request(site, port).decide(self.watch) {
            Verdict::Connect(choice) => self.connect(site, port, choice),
            Verdict::OneMoreTry => {
                self.state.inputs[PORTS * site + port].tries += 1;
                Answer::Changed
            }
            Verdict::Fail => Answer::Nothing,
        }
    }

    /// Success: the input goes to open, its outputs in use, head not taken, no terminator.
    fn connect(&mut self, site: usize, port: usize, choice: Choice) -> Answer {
        let input = &mut self.state.inputs[PORTS * site + port];
        input.phase = Phase::Open;
        input.connection = choice.connection;
        for (p, &set) in choice.shares.iter().enumerate().filter(|(_, set)| **set != 0) {
            input.outputs |= 1 << p;
            let fresh =
                Output { used: true, packet: input.packet, set, input: port as u8, ..Output::default() };
            self.state.outputs[OUTPUTS * site + p] = fresh;
        }
        Answer::Changed
    }
}
