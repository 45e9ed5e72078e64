//! Runs of edition 2: one that shows each of its rules, and what a closing output does to the router; runs that end
//! with a closing output; and runs, each in both editions, that do not end the same in both.

use super::searched::{kebab, shows, small_runs, UNREACHED};
use super::{in_edition, named, two_sites, Named};
use crate::archive::{Run, Send};
use crate::draws::{event, Draws};
use crate::making::runs;
use crate::network::{ports, Wiring, NO_INPUT, OUTPUTS, PORTS};
use crate::player::Play;
use crate::state::{Phase, State};
use crate::watch::{Rule, OF_CLOSING};

/// Small runs of edition 2, one after another.
fn held_runs(seed: u64) -> impl Iterator<Item = Run> {
    small_runs(seed).map(|run| in_edition(2, run))
}

/// A draw: the state before it, its event, and the rules that it takes.
struct Seen<'a> {
    wiring: &'a Wiring,
    before: &'a State,
    site: usize,
    code: usize,
    rules: &'a [Rule],
}

impl Seen<'_> {
    fn takes(&self, rule: Rule) -> bool {
        self.rules.contains(&rule)
    }

    fn is_closing(&self, port: usize) -> bool {
        self.before.outputs_of(self.site)[port].closing
    }

    /// The outputs in the list of the lowest target of the net-input that steps, but for the own site.
    fn list(&self) -> Vec<usize> {
        let targets = crate::sets::without(self.before.inputs_of(self.site)[self.code].set, self.site);
        match targets {
            0 => Vec::new(),
            _ => ports(self.wiring.list(self.site, targets.trailing_zeros() as usize)).collect(),
        }
    }

    /// Whether the rule is taken, and every output of that list is closing.
    fn all_closing(&self, rule: Rule) -> bool {
        self.takes(rule) && !self.list().is_empty() && self.list().iter().all(|&port| self.is_closing(port))
    }

    /// Whether the first output of the list is closing.
    fn first_closing(&self) -> bool {
        self.list().first().is_some_and(|&port| self.is_closing(port))
    }

    /// The state of the input at the end of the channel of the output that steps.
    fn far(&self) -> Option<Phase> {
        let far = self.wiring.far[OUTPUTS * self.site + self.code - 5];
        (far != NO_INPUT).then(|| self.before.inputs[far as usize].phase)
    }

    fn held_in(&self, phase: Phase) -> bool {
        self.takes(Rule::ClosingHeld) && self.far() == Some(phase)
    }

    /// Whether a closing output with a channel to its own site is emptied.
    fn emptied_at_home(&self) -> bool {
        let here = || OUTPUTS * self.site + self.code - 5;
        self.takes(Rule::ClosingEmptied) && self.wiring.far[here()] as usize / PORTS == self.site
    }
}

type Sight = fn(&Seen) -> bool;

/// What a draw has to be like, by name.
const SIGHTS: [(&str, Sight); 9] = [
    ("closing-held-done", |seen| seen.held_in(Phase::Done)),
    ("closing-held-last", |seen| seen.held_in(Phase::Last)),
    ("closing-held-fin-abort", |seen| seen.held_in(Phase::FinAbort)),
    ("closing-emptied-own-site", |seen| seen.emptied_at_home()),
    ("one-more-try-all-closing", |seen| seen.all_closing(Rule::OneMoreTry)),
    ("unicast-later-first-closing", |seen| seen.takes(Rule::UnicastLater) && seen.first_closing()),
    ("handed-all-closing", |seen| seen.all_closing(Rule::Handed)),
    ("failed-at-t-all-closing", |seen| seen.all_closing(Rule::FailedAtT)),
    ("passthru-busy-first-closing", |seen| seen.takes(Rule::PassthruBusy) && seen.first_closing()),
];

/// Whether some draw of the run is like that, and two services come after it.
fn meets(sight: Sight, run: &Run) -> bool {
    let wiring = run.network.wiring().expect("a valid network");
    let mut play = Play::start(run, &wiring, Vec::new());
    let mut draws = Draws::new(run.seed);
    let mut services_before = None;
    for _ in 0..run.draws {
        let (site, code) = event(draws.next_value(), wiring.sites, wiring.codes());
        play.sends();
        play.watch.clear();
        let before = play.state.clone();
        play.draw();
        let seen = Seen { wiring: &wiring, before: &before, site, code, rules: &play.watch };
        if services_before.is_none() && sight(&seen) {
            services_before = Some(play.counts.serviced);
        }
    }
    services_before.is_some_and(|before| play.counts.serviced >= before + 2)
}

/// The first small run, from this seed, cut where an output is closing and its input in this state.
fn ending(phase: Phase, seed: u64) -> Run {
    let is_there = |state: &State, wiring: &Wiring| {
        let closing = |place: &usize| state.outputs[*place].closing;
        (0..OUTPUTS * wiring.sites)
            .filter(closing)
            .any(|place| state.inputs[wiring.far[place] as usize].phase == phase)
    };
    let cut = |run: Run| {
        let wiring = run.network.wiring().expect("a valid network");
        let mut play = Play::start(&run, &wiring, ());
        let mut there = (0..run.draws).filter(|_| {
            play.draw();
            is_there(&play.state, &wiring)
        });
        let draws = there.nth(3)? + 1;
        Some(runs::cut(run, draws))
    };
    held_runs(seed).find_map(cut).expect("such an end")
}

/// Two sites joined on ports 1 both ways with these T and D, and these sends of site 0: draw and set.
pub(super) fn from_site_0(limits: (u8, u64), seed: u32, draws: u16, sends: &[(u16, u64)]) -> Run {
    let mut run = Run { seed, draws, ..two_sites() };
    (run.network.tries, run.network.depth) = limits;
    run.sends = sends.iter().map(|&(draw, set)| Send { draw, site: 0, set }).collect();
    run
}

/// Runs that end otherwise in edition 2 than in edition 1: worked out by hand in the remarks of corpus/typed; with
/// other books after the fewest draws and in the fewest bytes that a search over seeds found.
pub(super) fn differing() -> Vec<(&'static str, Run)> {
    vec![
        ("hand-held", from_site_0((3, 1), 4_278_228_110, 17, &[(0, 2), (10, 2), (17, 2)])),
        ("differs-53-draws", from_site_0((1, 2), 1_154_959_373, 53, &[(0, 2), (0, 3)])),
        ("differs-49-bytes", from_site_0((1, 1), 894_894, 151, &[(0, 3)])),
    ]
}

pub fn all() -> Vec<Named> {
    let mut all = Vec::new();
    for rule in OF_CLOSING.into_iter().filter(|rule| !UNREACHED.contains(rule)) {
        let run = held_runs(2_000 + rule as u64).find(|run| shows(rule, run)).expect("the rule is reached");
        all.push(named(&format!("e2-rule-{}", kebab(&format!("{rule:?}"))), run.bytes()));
    }
    for (at, (name, sight)) in SIGHTS.into_iter().enumerate() {
        let run = held_runs(3_000 + at as u64).find(|run| meets(sight, run)).expect("such a draw");
        all.push(named(&format!("e2-rule-{name}"), run.bytes()));
    }
    for (at, phase) in [Phase::Done, Phase::Last, Phase::FinAbort, Phase::Free].into_iter().enumerate() {
        let name = format!("e2-ends-closing-{}", kebab(&format!("{phase:?}")));
        all.push(named(&name, ending(phase, 4_000 + at as u64).bytes()));
    }
    for (name, run) in differing() {
        all.push(named(&format!("v2-{name}"), in_edition(1, run.clone()).bytes()));
        all.push(named(&format!("e2-{name}"), in_edition(2, run).bytes()));
    }
    all
}
