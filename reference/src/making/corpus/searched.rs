//! Runs of edition 1 found by search over seeds: for each rule one that shows it, and runs that end where each kind of
//! place owes.

use super::Named;
use crate::archive::Run;
use crate::making::{rng::Rng, runs};
use crate::owing::{DEBTS, DEBTS_OF_1};
use crate::player::Play;
use crate::watch::{is_of_edition_3, is_of_the_way, Rule, Tally, OF_CLOSING, RULES};

/// Rules that no run from the empty state reaches; the single event cases have them.
pub const UNREACHED: [Rule; 5] = [
    Rule::FinAbortStays,
    Rule::OutputNoChannel,
    Rule::TerminatorRefused,
    Rule::KeepLocalDropped,
    Rule::ClosingNoChannel,
];

/// What no run of edition 2 reaches besides: its outputs are emptied while the input is free that they alone feed, so
/// that no head ever waits.
pub const UNREACHED_IN_EDITION_2: [Rule; 1] = [Rule::HeadInputBusy];

/// What no run of edition 3 reaches besides: the same; no abort and no keep-local arises, and at a split output and
/// in its in-queue every set is that of the own site alone.
pub const UNREACHED_IN_EDITION_3: [Rule; 17] = [
    Rule::HeadInputBusy,
    Rule::HeadPassedAborted,
    Rule::DoneAbort,
    Rule::AbortToOpen,
    Rule::AbortQueued,
    Rule::OperatorAbort,
    Rule::KeepLocalQueued,
    Rule::KeepLocalServiced,
    Rule::DoneAbortBranch,
    Rule::SplitTerminatorRefused,
    Rule::SplitAbortQueued,
    Rule::SplitOperatorAbort,
    Rule::SplitKeepLocalServiced,
    Rule::SplitKeepLocalDropped,
    Rule::SplitEndServicedRest,
    Rule::SplitEndRest,
    Rule::SplitEndBlocked,
];

/// Rules that every run shows, without files of their own.
const PLAIN: [Rule; 30] = [
    Rule::SendTaken,
    Rule::InputIdle,
    Rule::OpenStays,
    Rule::OpenToWait,
    Rule::WaitStays,
    Rule::LastStays,
    Rule::DoneUnicast,
    Rule::UnicastLocal,
    Rule::UnicastFirst,
    Rule::OneMoreTry,
    Rule::OutputEmpty,
    Rule::HeadQueued,
    Rule::HeadPassed,
    Rule::HeadInputBusy,
    Rule::TerminatorNone,
    Rule::TerminatorNotReady,
    Rule::EndToOpen,
    Rule::AbortToOpen,
    Rule::EndQueued,
    Rule::OutQueueEmpty,
    Rule::FrontTaken,
    Rule::FrontWaits,
    Rule::FrontEndOpen,
    Rule::FrontEndWaits,
    Rule::InQueueEmpty,
    Rule::InQueueWaits,
    Rule::OperatorAbort,
    Rule::EndServiced,
    Rule::TimeoutNoEntry,
    Rule::TimeoutNoOutput,
];

/// Runs that a search looks at before it gives up.
const SEARCHED: usize = 20_000;

/// Small valid runs, one after another.
pub(super) fn small_runs(seed: u64) -> impl Iterator<Item = Run> {
    let mut rng = Rng::new(seed);
    std::iter::repeat_with(move || runs::any_run(&mut rng, false))
        .take(SEARCHED)
        .filter(|run| run.network.sites <= 6 && run.sends.len() <= 20 && run.draws <= 1_500)
}

/// Whether the run takes the rule and services something twice after that.
pub(super) fn shows(rule: Rule, run: &Run) -> bool {
    let wiring = run.network.wiring().expect("a valid network");
    let mut play = Play::start(run, &wiring, Tally::default());
    let mut services_before = None;
    for _ in 0..run.draws {
        play.draw();
        if services_before.is_none() && play.watch.count(rule) > 0 {
            services_before = Some(play.counts.serviced);
        }
    }
    services_before.is_some_and(|before| play.counts.serviced >= before + 2)
}

/// The first small run that does so.
fn showing(rule: Rule) -> Run {
    small_runs(1_000 + rule as u64).find(|run| shows(rule, run)).expect("every other rule is reached")
}

/// The first small run, from this seed, with a moment at which a place of this kind owes, cut there.
fn ending(kind: usize, seed: u64) -> Run {
    small_runs(seed)
        .find_map(|run| {
            let moments = runs::moments(&run).swap_remove(kind);
            let middle = moments.get(moments.len() / 2).copied()?;
            Some(runs::cut(run, middle))
        })
        .expect("every kind of place owes at some time")
}

/// `OpenToWait` as `open-to-wait`.
pub(super) fn kebab(name: &str) -> String {
    let mut words = String::new();
    for c in name.chars() {
        if c.is_uppercase() && !words.is_empty() {
            words.push('-');
        }
        words.extend(c.to_lowercase());
    }
    words
}

pub fn all() -> Vec<Named> {
    let mut all = Vec::new();
    let lists = [&UNREACHED[..], &PLAIN, &OF_CLOSING];
    let of_others = |rule: Rule| is_of_edition_3(rule) || is_of_the_way(rule);
    let left_out = |rule: &Rule| of_others(*rule) || lists.iter().any(|list| list.contains(rule));
    for (rule, _) in RULES.iter().filter(|(rule, _)| !left_out(rule)) {
        all.push((format!("rule-{}.bin", kebab(&format!("{rule:?}"))), showing(*rule).bytes()));
    }
    for (kind, (debt, _)) in DEBTS[..DEBTS_OF_1].iter().enumerate() {
        for turn in 1..=2 {
            let name = format!("ends-{}-{turn}.bin", kebab(&format!("{debt:?}")));
            all.push((name, ending(kind, 9_000 * turn + kind as u64).bytes()));
        }
    }
    all
}
