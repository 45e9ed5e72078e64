//! The router: which empty outputs of a site a packet gets, and under which connection.
//!
//! It reads the network and the outputs that are empty, and changes nothing. The set is a target set. A closing output
//! is in use, and serves nobody.

use crate::network::{ports, Wiring, OUTPUTS, SPLIT};
use crate::sets::{has, members, only, without, Set};
use crate::state::Connection;
use crate::watch::{Rule, Watch};

/// The outputs that a packet gets: `shares[p]` is the set for output p, empty where it is not chosen.
pub struct Choice {
    pub connection: Connection,
    pub shares: [Set; OUTPUTS],
}

pub enum Verdict {
    Connect(Choice),
    /// Failed below T.
    OneMoreTry,
    /// Failed at T with nothing handed.
    Fail,
}

/// What the router sees: the site, the packet's set, and which outputs are empty (bit p is output p).
pub struct Request<'a> {
    pub wiring: &'a Wiring,
    pub site: usize,
    pub set: Set,
    pub empty: u8,
    pub tries: u8,
}

fn whole(connection: Connection, port: usize, set: Set) -> Choice {
    let mut shares = [0; OUTPUTS];
    shares[port] = set;
    Choice { connection, shares }
}

impl Request<'_> {
    pub fn decide(&self, watch: &mut impl Watch) -> Verdict {
        if let Some(choice) = self.found(watch) {
            return Verdict::Connect(choice);
        }
        if self.tries < self.wiring.tries {
            watch.saw(Rule::OneMoreTry);
            if self.is_empty(0) {
                watch.saw(Rule::OneMoreTryRoom);
            }
            return Verdict::OneMoreTry;
        }
        if self.is_empty(0) {
            watch.saw(Rule::Handed);
            return Verdict::Connect(whole(Connection::Handed, 0, self.set));
        }
        watch.saw(Rule::FailedAtT);
        Verdict::Fail
    }

    /// What the rules find, the handed rule left aside.
    #[inline]
    fn found(&self, watch: &mut impl Watch) -> Option<Choice> {
        if self.set.is_power_of_two() {
            self.unicast(watch)
        } else {
            self.multicast(watch)
        }
    }

    /// At a failure the outputs whose emptying would each, alone, have let this packet connect, the handed rule left
    /// aside; else none. Bit p is output p.
    pub fn blocking(&self) -> u8 {
        if let Verdict::Connect(_) = self.decide(&mut ()) {
            return 0;
        }
        let emptied = |port: usize| Request { empty: self.empty | 1 << port, ..*self };
        (0..OUTPUTS)
            .filter(|&port| !self.is_empty(port) && emptied(port).found(&mut ()).is_some())
            .fold(0, |outputs, port| outputs | 1 << port)
    }

    fn is_empty(&self, port: usize) -> bool {
        self.empty >> port & 1 == 1
    }

    /// The first port of the target's list that is among these.
    fn first(&self, target: usize, among: u8) -> Option<usize> {
        ports(self.wiring.list(self.site, target)).find(|&p| among >> p & 1 == 1)
    }

    /// The only target is the own site or another one.
    fn unicast(&self, watch: &mut impl Watch) -> Option<Choice> {
        let target = self.set.trailing_zeros() as usize;
        if target == self.site && self.wiring.restricted && !self.is_empty(0) && self.is_empty(SPLIT) {
            watch.saw(Rule::LocalAloneBusy);
        }
        let port = if target == self.site {
            self.is_empty(0).then_some(0)?
        } else {
            self.first(target, self.empty)?
        };
        watch.saw(match port {
            0 => Rule::UnicastLocal,
            _ if self.first(target, u8::MAX) == Some(port) => Rule::UnicastFirst,
            _ => Rule::UnicastLater,
        });
        Some(whole(Connection::Unicast, port, self.set))
    }

    /// Two or more targets: a split where there is one, else passthru.
    fn multicast(&self, watch: &mut impl Watch) -> Option<Choice> {
        if self.wiring.restricted {
            return self.onward(watch);
        }
        if self.is_empty(0) {
            if let Some(shares) = self.shares(watch) {
                return Some(self.split(shares, watch));
            }
        }
        let port = self.way()?;
        watch.saw(if self.is_empty(0) { Rule::PassthruPartial } else { Rule::PassthruBusy });
        Some(whole(Connection::Passthru, port, self.set))
    }

    /// The first empty output in the list of the lowest target but the own site.
    fn way(&self) -> Option<usize> {
        self.first(self.lowest(), self.empty)
    }

    fn lowest(&self) -> usize {
        without(self.set, self.site).trailing_zeros() as usize
    }

    /// Edition 3: the own site to the split output and the rest that way, if it is a target and the split output is
    /// empty; else the whole set that way.
    fn onward(&self, watch: &mut impl Watch) -> Option<Choice> {
        let local = has(self.set, self.site);
        let Some(port) = self.way() else {
            if self.is_empty(SPLIT) {
                watch.saw(Rule::BranchNoOnward);
            }
            return None;
        };
        if !local || !self.is_empty(SPLIT) {
            watch.saw(if local { Rule::OnwardBranchBusy } else { Rule::OnwardElsewhere });
            return Some(whole(Connection::Passthru, port, self.set));
        }
        watch.saw(Rule::BranchTaken);
        if self.first(self.lowest(), u8::MAX) != Some(port) {
            watch.saw(Rule::BranchLater);
        }
        if !self.is_empty(0) {
            watch.saw(Rule::BranchLocalBusy);
        }
        let mut choice = whole(Connection::Split, port, without(self.set, self.site));
        choice.shares[SPLIT] = only(self.site);
        Some(choice)
    }

    /// For each target but the own site, ascending, the first output empty or already chosen.
    fn shares(&self, watch: &mut impl Watch) -> Option<[Set; OUTPUTS]> {
        let mut shares = [0; OUTPUTS];
        for target in members(without(self.set, self.site)) {
            // An output chosen for this packet was empty before, so it is still among the empty ones here.
            let port = self.first(target, self.empty)?;
            if shares[port] != 0 {
                watch.saw(Rule::SplitShared);
            }
            shares[port] |= only(target);
        }
        Some(shares)
    }

    fn split(&self, mut shares: [Set; OUTPUTS], watch: &mut impl Watch) -> Choice {
        let local = has(self.set, self.site);
        let single = shares.iter().filter(|&&s| s != 0).count() == 1;
        if single && !local {
            watch.saw(Rule::PassthruSingle);
            return Choice { connection: Connection::Passthru, shares };
        }
        watch.saw(match (single, local) {
            (true, _) => Rule::SplitOneRemote,
            (_, true) => Rule::SplitSomeLocal,
            _ => Rule::SplitAllRemote,
        });
        shares[0] = self.set;
        let connection = if local { Connection::SomeLocal } else { Connection::AllRemote };
        Choice { connection, shares }
    }
}
