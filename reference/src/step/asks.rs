//! What a net-input's step passes on where the router failed: the outputs in the way. They are asked for before the
//! step, by those who want them; the player does not.

use super::Machine;
use crate::network::{ports, OUTPUTS, PORTS, SPLIT};
use crate::router::{Request, Verdict};
use crate::sets::{members, size, without};
use crate::state::{Connection, Phase};
use crate::watch::{Rule, Watch};

impl<W: Watch> Machine<'_, W> {
    /// The outputs in the way of RUN (site, code), the event to come: those of the router's answer where a net-input in
    /// seek asks it, else none. Bit p is output p.
    pub fn in_the_way(&self, site: usize, code: usize) -> u8 {
        if self.asks(site, code) {
            self.request(site, code).blocking()
        } else {
            0
        }
    }

    /// Whether RUN (site, code) asks the router.
    fn asks(&self, site: usize, code: usize) -> bool {
        code < PORTS && self.state.inputs_of(site)[code].phase == Phase::Seek
    }

    /// Tells the watch what the outputs in the way are like.
    pub fn tell_way(&mut self, site: usize, code: usize) {
        if !self.asks(site, code) {
            return;
        }
        let request = self.request(site, code);
        match request.decide(&mut ()) {
            Verdict::Connect(choice) if choice.connection == Connection::Handed => {
                self.watch.saw(Rule::WayHanded);
            }
            Verdict::Connect(_) => (),
            Verdict::OneMoreTry => self.tell_failed(&request, Rule::WayBelowT),
            Verdict::Fail => self.tell_failed(&request, Rule::WayAtT),
        }
    }

    /// Tells the watch of the outputs in the way of an ask that failed by this rule.
    fn tell_failed(&mut self, request: &Request, rule: Rule) {
        let &Request { wiring, site, set, empty, .. } = request;
        let outputs = request.blocking();
        let used_besides = !empty & !outputs;
        let several = size(set) > 1;
        let is_closing = |port: &usize| self.state.outputs_of(site)[*port].closing;
        let closing = mask((0..OUTPUTS).filter(is_closing));
        let lists = mask(members(without(set, site)).flat_map(|target| ports(wiring.list(site, target))));
        let sights = [
            (rule, true),
            (Rule::WayOwnSite, outputs == 1),
            (Rule::WaySeveral, outputs.count_ones() > 1),
            (Rule::WayLocalEmpty, several && empty & 1 != 0),
            (Rule::WayLocalUsed, several && used_besides & 1 != 0),
            (Rule::WayOtherEmpty, lists & empty != 0),
            (Rule::WayOtherUsed, lists & used_besides != 0),
            (Rule::WayClosing, closing & outputs != 0),
            (Rule::WaySplitUsed, used_besides >> SPLIT & 1 != 0),
        ];
        sights.into_iter().filter(|(_, seen)| *seen).for_each(|(rule, _)| self.watch.saw(rule));
    }
}

/// These outputs: bit p is output p.
fn mask(outputs: impl Iterator<Item = usize>) -> u8 {
    outputs.fold(0, |mask, port| mask | 1 << port)
}
