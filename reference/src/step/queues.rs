//! The rules of a site's queues: the out-queue (code 10), the operator (11), the timeout (12) and the operator of the
//! split in-queue (14).

use super::{deliver, take_packet, takes_terminator, Answer, Machine};
use crate::network::{OUTPUTS, PORTS, SPLIT};
use crate::sets::{has, without};
use crate::state::{Connection, InEntry, OutEntry, Phase, Terminator};
use crate::watch::{Rule, Watch};

impl<W: Watch> Machine<'_, W> {
    pub(super) fn out_queue(&mut self, site: usize) -> Answer {
        let queue = &mut self.state.out_queues[site];
        let input = &mut self.state.inputs[PORTS * site];
        if queue.count == 0 {
            return self.nothing(Rule::OutQueueEmpty);
        }
        let front = &mut queue.entries[0];
        if !front.started {
            if input.phase != Phase::Free {
                return self.nothing(Rule::FrontWaits);
            }
            take_packet(input, front.packet, front.set);
            front.started = true;
            return self.changed(Rule::FrontTaken);
        }
        if !takes_terminator(input) {
            return self.nothing(Rule::FrontEndWaits);
        }
        let open = input.phase == Phase::Open;
        deliver(input, Terminator::End);
        queue.pop();
        self.changed(if open { Rule::FrontEndOpen } else { Rule::FrontEndAbort })
    }

    /// The operator of the in-queue of output 0, or of the split output.
    #[inline(always)]
    pub(super) fn operator(&mut self, site: usize, port: usize) -> Answer {
        let queue = self.state.in_queue_mut(site, port);
        if queue.count == 0 {
            return self.nothing(Rule::InQueueEmpty.at(port));
        }
        let front = queue.entries[0];
        let local = has(front.set, site);
        match front.terminator {
            Terminator::None => self.nothing(Rule::InQueueWaits.at(port)),
            Terminator::End => self.service_and_requeue(site, port, front),
            Terminator::Abort => {
                queue.pop();
                self.changed(Rule::OperatorAbort.at(port))
            }
            Terminator::KeepLocal => {
                queue.pop();
                if local {
                    self.serviced(Rule::KeepLocalServiced.at(port), front.packet, site)
                } else {
                    self.changed(Rule::KeepLocalDropped.at(port))
                }
            }
        }
    }

    /// End: service the own site if in the set; the rest, if any, needs room in the out-queue.
    fn service_and_requeue(&mut self, site: usize, port: usize, front: InEntry) -> Answer {
        let rest = without(front.set, site);
        let out = &mut self.state.out_queues[site];
        if rest != 0 {
            if out.is_full(self.wiring.depth) {
                return self.nothing(Rule::EndBlocked.at(port));
            }
            out.push(OutEntry { packet: front.packet, set: rest, started: false });
        }
        self.state.in_queue_mut(site, port).pop();
        match (has(front.set, site), rest != 0) {
            (true, true) => self.serviced(Rule::EndServicedRest.at(port), front.packet, site),
            (true, false) => self.serviced(Rule::EndServiced.at(port), front.packet, site),
            (false, _) => self.changed(Rule::EndRest.at(port)),
        }
    }

    /// The last in-queue entry has waited too long: the split that feeds output 0 is aborted. In edition 3 nothing.
    pub(super) fn timeout(&mut self, site: usize) -> Answer {
        if self.wiring.restricted {
            let waits = self.branch_waits(site);
            return self.nothing(if waits { Rule::TimeoutBranch } else { Rule::TimeoutRestricted });
        }
        let waits = self.state.in_queues[site].last().is_some_and(|e| e.terminator == Terminator::None);
        if !waits {
            return self.nothing(Rule::TimeoutNoEntry);
        }
        let local = &self.state.outputs[OUTPUTS * site];
        if !local.used || !local.head || local.terminator != Terminator::None {
            return self.nothing(Rule::TimeoutNoOutput);
        }
        let input = &mut self.state.inputs[PORTS * site + local.input as usize];
        let (to, rule) = match input.phase {
            Phase::Open => (Phase::Abort, Rule::TimeoutOpen),
            Phase::Wait => (Phase::Abort, Rule::TimeoutWait),
            Phase::Done => (Phase::FinAbort, Rule::TimeoutDone),
            Phase::Last => (Phase::FinAbort, Rule::TimeoutLast),
            _ => return self.nothing(Rule::TimeoutPhase),
        };
        let kind = match input.connection {
            Connection::AllRemote => Rule::TimeoutAllRemote,
            Connection::SomeLocal => Rule::TimeoutSomeLocal,
            _ => return self.nothing(Rule::TimeoutConnection),
        };
        let remote = input.outputs & !1;
        input.outputs &= 1;
        input.phase = to;
        for port in 1..PORTS {
            if remote >> port & 1 == 1 {
                self.state.outputs[OUTPUTS * site + port].terminator = Terminator::Abort;
            }
        }
        self.watch.saw(kind);
        self.changed(rule)
    }

    /// Whether the split output is where output 0 has to be for a timeout in edition 1: its in-queue's last entry lacks
    /// a terminator, and so does the output, whose head is taken.
    fn branch_waits(&self, site: usize) -> bool {
        let output = &self.state.outputs_of(site)[SPLIT];
        let last = self.state.split_queues[site].last();
        last.is_some_and(|entry| entry.terminator == Terminator::None)
            && output.head
            && output.terminator == Terminator::None
    }
}
