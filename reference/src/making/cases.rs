//! Single event cases: states in range, and refused calls with one fault or two.
//!
//! Of the events that a state allows, those whose rules the cases so far show least are preferred.

use super::{asked, branches, clauses, graphs, marks, rng::Rng, runs, spoil, states};
use crate::network::{Network, EDITION, EDITION_2, EDITION_3, SITES, SITES_OF_1};
use crate::single::Event;
use crate::state::State;
use crate::step::Machine;
use crate::text::{Case, Form};
use crate::watch::{is_of_an_ask, is_of_the_way, Rule, Tally, OF_CLOSING};

/// The kinds of case, with the share of each in a hundred.
pub const KINDS: [(&str, usize); 6] = [
    ("state in range, reached or not", 44),
    ("state that a run reaches", 14),
    ("network spoiled", 10),
    ("state spoiled", 18),
    ("site, code or set at or beyond the limit", 8),
    ("two faults at once", 6),
];

/// The shares of the same where the outputs in the way are told.
const ASKED: [usize; KINDS.len()] = [50, 30, 4, 8, 4, 4];

/// States looked at for one case.
const TURNS: usize = 14;

/// How much oftener than others the rules that edition 2 brings are shown in its cases, and what the outputs in the way
/// are like where they are told.
const OFTENER: u64 = 5;

pub struct Maker {
    rng: Rng,
    form: Form,
    edition: u8,
    /// Whether every case is a RUN of which the outputs in the way are told.
    asks: bool,
    /// The rules that the cases so far take, of the second form those in version 2, of edition 2 or 3 those in it.
    pub shown: Tally,
    /// How many cases so far break each of `branches::CLAUSES` on purpose.
    pub broken: [u64; branches::CLAUSES.len()],
}

impl Maker {
    /// Cases of edition 1, in the first form of version 1, in the second of both versions.
    pub fn new(seed: u64, form: Form) -> Maker {
        let (rng, shown) = (Rng::new(seed), Tally::default());
        Maker { rng, form, edition: EDITION, asks: false, shown, broken: [0; branches::CLAUSES.len()] }
    }

    /// Cases of edition 2 or 3, in the second form, from numbers of their own.
    pub fn of_edition(seed: u64, edition: u8) -> Maker {
        Maker { edition, ..Maker::new(seed ^ u64::from(edition) << 32, Form::Second) }
    }

    /// Cases of this edition of which the outputs in the way are told, in the second form, from numbers of their own.
    pub fn asking(seed: u64, edition: u8) -> Maker {
        let rng = Rng::new(seed ^ u64::from(edition) << 40);
        Maker { rng, asks: true, ..Maker::of_edition(seed, edition) }
    }

    /// Counts the rules that these cases take as shown.
    pub fn show(&mut self, cases: &[Case]) {
        for case in cases {
            if self.counts(&case.network) {
                case.outcome(&mut self.shown);
            }
        }
    }

    /// Draws a kind of case, its place in `KINDS`, by its share.
    pub fn any_kind(&mut self) -> usize {
        let ticket = self.rng.below(100);
        let mut upto = 0;
        let here = |share| {
            upto += share;
            ticket < upto
        };
        let shares = if self.asks { ASKED } else { KINDS.map(|(_, share)| share) };
        shares.into_iter().position(here).expect("the shares make a hundred")
    }

    /// A case of the kind with this place in `KINDS`.
    pub fn any_case(&mut self, kind: usize) -> Case {
        loop {
            let mut case = self.telling_case(kind == 1, if kind < 2 || self.asks { TURNS } else { 1 });
            let (rng, form, later) = (&mut self.rng, self.form, self.edition > EDITION);
            let mut broken = None;
            match kind {
                2 if later && rng.one_in(3) => marks::spoil_edition(rng, &mut case.network),
                2 => spoil::spoil_network(rng, form, &mut case.network),
                3 if self.edition == EDITION_3 && rng.one_in(2) => {
                    broken = Some(branches::break_branch(rng, &mut case));
                }
                3 if later && rng.one_in(2) => marks::break_mark(rng, &mut case),
                3 if rng.one_in(3) => clauses::break_clause(rng, &case.network, form.room(), &mut case.state),
                3 => spoil::spoil_state(rng, form, &case.network, &mut case.state),
                4 => case.event = spoil::stray_event(rng, form, &case.network),
                5 => two_faults(rng, &mut case),
                _ => (),
            }
            if self.asks {
                case.event = asked::asking(rng, case.event);
            }
            if rng.one_in(3) {
                spoil::junk_beyond(rng, form, &mut case.network);
            }
            if case.is_representable() {
                if self.counts(&case.network) {
                    case.outcome(&mut self.shown);
                }
                broken.iter().for_each(|&clause: &usize| self.broken[clause] += 1);
                return case;
            }
        }
    }

    /// Whether the rules that a case on this network takes are counted as shown.
    fn counts(&self, network: &Network) -> bool {
        match self.form {
            Form::First => true,
            Form::Second if self.edition > EDITION => network.version == 2 && network.edition == self.edition,
            Form::Second => network.version == 2,
        }
    }

    /// One in five a SEND, else a RUN: that of so many whose rules have been shown least, or any.
    fn telling_case(&mut self, reached: bool, turns: usize) -> Case {
        let (send, any) = (!self.asks && self.rng.one_in(5), self.rng.one_in(4));
        let turns = if send || any { 1 } else { turns };
        let cases: Vec<Case> = (0..turns).map(|_| self.case(reached, send)).collect();
        cases.into_iter().min_by_key(|case| self.shown_least(case)).expect("at least one turn")
    }

    fn case(&mut self, reached: bool, send: bool) -> Case {
        let (network, state) = match self.form {
            Form::First => self.narrow(reached),
            Form::Second => self.wide(reached),
        };
        self.with_event(network, state, send)
    }

    /// A network of version 1 and a state of it.
    fn narrow(&mut self, reached: bool) -> (Network, State) {
        loop {
            let (network, state) = if reached {
                states::reached(&mut self.rng)
            } else {
                let network = runs::any_network(&mut self.rng);
                let state = states::any_state(&mut self.rng, &network);
                (network, state)
            };
            if is_small(&mut self.rng, &network) {
                return (network, state);
            }
        }
    }

    /// A network of up to 64 sites, in version 2 or, where it can, sometimes 1, or in edition 2 or 3, and a state of
    /// it. Most have few sites, and of many few hold anything, so that the texts stay small.
    fn wide(&mut self, reached: bool) -> (Network, State) {
        let rng = &mut self.rng;
        let sites = match rng.below(24) {
            0 | 1 => SITES_OF_1 + 1,
            2..=4 => SITES,
            5 => rng.within(5, SITES - 1),
            _ => rng.within(1, 4),
        };
        let network = graphs::of_size(rng, sites);
        let mut network = runs::furnished(rng, network);
        if self.edition > EDITION {
            network.edition = self.edition;
        } else if sites <= SITES_OF_1 && rng.one_in(6) {
            network.version = 1;
        }
        if reached {
            let mut run = runs::run_on(rng, network, false);
            run.sends.truncate(if self.asks { 12 } else { 4 });
            return states::end_of(if self.asks { asked::cut(rng, run) } else { run });
        }
        let mut state = states::sparse_state(rng, &network);
        if self.edition > EDITION {
            marks::close_some(rng, &network, &mut state);
        }
        (network, state)
    }

    /// A SEND, or a RUN: any, or the one whose rules have been shown least.
    fn with_event(&mut self, network: Network, state: State, send: bool) -> Case {
        let rng = &mut self.rng;
        let (sites, codes) = (network.sites as usize, network.codes());
        let site = rng.below(sites) as u64;
        let mut event = Event::Run { site, code: rng.below(codes) as u64 };
        if send {
            event = Event::Send { site, set: rng.target_set(sites) };
        } else if !rng.one_in(5) {
            let addresses = self.addresses(sites, codes, &state);
            let (site, code) = self.least_shown(&network, &state, addresses);
            event = Event::Run { site: site as u64, code: code as u64 };
        }
        if self.asks {
            event = asked::asking(&mut self.rng, event);
        }
        Case { form: self.form, network, state, event }
    }

    /// Sites and codes in any order: those of four sites; where the outputs in the way are told, the net-inputs in seek
    /// if there are any.
    fn addresses(&mut self, sites: usize, codes: usize, state: &State) -> Vec<(usize, usize)> {
        let mut order: Vec<usize> = (0..sites.min(4) * codes).collect();
        self.rng.shuffle(&mut order);
        let mut seeking = if self.asks { asked::seeking(state) } else { Vec::new() };
        self.rng.shuffle(&mut seeking);
        if seeking.is_empty() {
            return order.into_iter().map(|m| (self.looked_at(sites, m / codes), m % codes)).collect();
        }
        seeking
    }

    /// The first four sites; in the second form the first and the last, the second and the last but one.
    fn looked_at(&self, sites: usize, turn: usize) -> usize {
        match self.form {
            Form::First => turn,
            Form::Second if turn % 2 == 0 => turn / 2,
            Form::Second => sites - 1 - turn / 2,
        }
    }

    /// Of these sites and codes the one whose rules have been shown least, in a state in range.
    fn least_shown(
        &self,
        network: &Network,
        state: &State,
        addresses: Vec<(usize, usize)>,
    ) -> (usize, usize) {
        let wiring = network.wiring().expect("a valid network");
        let shown = |&(site, code): &(usize, usize)| {
            let (mut state, mut rules) = (state.clone(), Vec::new());
            let mut machine = Machine { wiring: &wiring, state: &mut state, watch: &mut rules };
            if self.asks {
                machine.tell_way(site, code);
            }
            machine.run(site, code);
            self.least(&rules)
        };
        addresses.into_iter().min_by_key(shown).expect("there are codes")
    }

    /// How often the least shown of the case's rules has been shown.
    fn shown_least(&self, case: &Case) -> u64 {
        let mut rules: Vec<Rule> = Vec::new();
        case.outcome(&mut rules);
        self.least(&rules)
    }

    /// How often the least shown of these has been shown, of an ask's alone where the outputs in the way are told.
    fn least(&self, rules: &[Rule]) -> u64 {
        let closes = |rule: &Rule| self.edition == EDITION_2 && OF_CLOSING.contains(rule);
        let oftener = |rule: &Rule| closes(rule) || self.asks && is_of_the_way(*rule);
        let shown = |rule: &Rule| self.shown.count(*rule) / if oftener(rule) { OFTENER } else { 1 };
        let counts = |rule: &&Rule| !self.asks || is_of_an_ask(**rule);
        rules.iter().filter(counts).map(shown).min().unwrap_or(u64::MAX)
    }
}

/// Two of: a spoiled state, a stray event, a spoiled network (once or twice).
fn two_faults(rng: &mut Rng, case: &mut Case) {
    let left_out = rng.below(3);
    if left_out != 0 {
        spoil::spoil_state(rng, case.form, &case.network, &mut case.state);
    }
    if left_out != 1 {
        case.event = spoil::stray_event(rng, case.form, &case.network);
    }
    if left_out != 2 {
        spoil::spoil_network(rng, case.form, &mut case.network);
    }
    if rng.one_in(4) {
        spoil::spoil_network(rng, case.form, &mut case.network);
    }
}

/// Most networks have few sites, so that the texts stay small.
fn is_small(rng: &mut Rng, network: &Network) -> bool {
    network.sites <= 2 && rng.one_in(2) || network.sites <= 4 && rng.one_in(2) || rng.one_in(60)
}
