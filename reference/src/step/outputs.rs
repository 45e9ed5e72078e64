//! The rules of a net-output, codes 5 to 9 and 13: the head first, the terminator at a later step. In editions 2 and 3
//! outputs 1 to 4 are closing after that, and a step later on empties them.

use super::{deliver, take_packet, takes_terminator, Answer, Machine};
use crate::network::{NO_INPUT, OUTPUTS, PORTS};
use crate::state::{InEntry, Output, Phase, Terminator};
use crate::watch::{Rule, Watch};

impl<W: Watch> Machine<'_, W> {
    /// Output 0 or the split output, which end at an in-queue each. (Inlined, it is as fast as with one of them.)
    #[inline(always)]
    pub(super) fn local_output(&mut self, site: usize, port: usize) -> Answer {
        let place = OUTPUTS * site + port;
        let Output { used, head, packet, set, terminator, .. } = self.state.outputs[place];
        let queue = self.state.in_queue_mut(site, port);
        if !used {
            return self.nothing(Rule::OutputEmpty.at(port));
        }
        if !head {
            if queue.is_full(self.wiring.depth) {
                return self.nothing(Rule::HeadQueueFull.at(port));
            }
            queue.push(InEntry { packet, set, terminator: Terminator::None });
            self.state.outputs[place].head = true;
            return self.changed(Rule::HeadQueued.at(port));
        }
        if terminator == Terminator::None {
            return self.nothing(Rule::TerminatorNone.at(port));
        }
        match queue.last_mut() {
            Some(last) if last.terminator == Terminator::None => last.terminator = terminator,
            _ => return self.nothing(Rule::TerminatorRefused.at(port)),
        }
        self.state.outputs[place] = Output::default();
        let rule = match terminator {
            Terminator::End => Rule::EndQueued,
            Terminator::Abort => Rule::AbortQueued,
            _ => Rule::KeepLocalQueued,
        };
        self.changed(rule.at(port))
    }

    /// Outputs 1 to 4, which end at an input, of any site, if they have a channel.
    pub(super) fn remote_output(&mut self, site: usize, port: usize) -> Answer {
        let place = OUTPUTS * site + port;
        let Output { used, head, packet, set, terminator, closing, .. } = self.state.outputs[place];
        if !used {
            return self.nothing(Rule::OutputEmpty);
        }
        let far = self.wiring.far[place];
        if far == NO_INPUT {
            return self.nothing(if closing { Rule::ClosingNoChannel } else { Rule::OutputNoChannel });
        }
        let input = &mut self.state.inputs[far as usize];
        if !head {
            if input.phase != Phase::Free {
                return self.nothing(Rule::HeadInputBusy);
            }
            take_packet(input, packet, set);
            self.state.outputs[place].head = true;
            if terminator == Terminator::Abort {
                self.watch.saw(Rule::HeadPassedAborted);
            }
            let own = far as usize / PORTS == site;
            return self.changed(if own { Rule::HeadPassedSelf } else { Rule::HeadPassed });
        }
        if terminator == Terminator::None {
            return if closing { self.closing(place, far) } else { self.nothing(Rule::TerminatorNone) };
        }
        if !takes_terminator(input) {
            return self.nothing(Rule::TerminatorNotReady);
        }
        let open = input.phase == Phase::Open;
        deliver(input, terminator);
        self.delivered(place);
        self.changed(match (terminator, open) {
            (Terminator::End, true) => Rule::EndToOpen,
            (Terminator::End, false) => Rule::EndToAbort,
            (_, true) => Rule::AbortToOpen,
            (_, false) => Rule::AbortToAbort,
        })
    }

    /// The terminator of this output, 1 to 4, is delivered: edition 1 empties it, in editions 2 and 3 it is closing,
    /// holds no terminator and keeps all else.
    fn delivered(&mut self, place: usize) {
        let output = &mut self.state.outputs[place];
        if self.wiring.closes {
            (output.terminator, output.closing) = (Terminator::None, true);
            self.watch.saw(Rule::Closing);
        } else {
            *output = Output::default();
        }
    }

    /// Closing: emptied if the input at the end of its channel is free.
    fn closing(&mut self, place: usize, far: u16) -> Answer {
        if self.state.inputs[far as usize].phase != Phase::Free {
            return self.nothing(Rule::ClosingHeld);
        }
        self.state.outputs[place] = Output::default();
        self.changed(Rule::ClosingEmptied)
    }
}
