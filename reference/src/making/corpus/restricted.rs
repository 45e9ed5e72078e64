//! Runs of edition 3: one that shows each rule that a run reaches there first; runs that end where the split output
//! or its in-queue owes; and runs, each in all editions, that do not end the same in all.

use super::held::{differing, from_site_0};
use super::searched::{kebab, shows, small_runs, UNREACHED, UNREACHED_IN_EDITION_3};
use super::{in_edition, named, Named};
use crate::archive::{Run, Send};
use crate::making::runs;
use crate::owing::{DEBTS, DEBTS_OF_1};
use crate::watch::{is_of_edition_3, Rule, RULES};

/// Small runs of edition 3, one after another.
fn restricted_runs(seed: u64) -> impl Iterator<Item = Run> {
    small_runs(seed).map(|run| in_edition(3, run))
}

/// Rules of other editions that do their part in edition 3: {s} alone, the handed rule and what comes of it, channels
/// that close.
const SHARED: [Rule; 6] = [
    Rule::UnicastLocal,
    Rule::Handed,
    Rule::EndServicedRest,
    Rule::Closing,
    Rule::ClosingHeld,
    Rule::ClosingEmptied,
];

/// The first small run, from this seed, cut where a place of this kind owes, in the middle of such moments.
fn ending(kind: usize, seed: u64) -> Run {
    let cut = |run: Run| {
        let moments = runs::moments(&run).swap_remove(kind);
        let middle = moments.get(moments.len() / 2).copied()?;
        Some(runs::cut(run, middle))
    };
    restricted_runs(seed).find_map(cut).expect("such an end")
}

/// Two sites: two runs worked out by hand in the remarks of corpus/typed, and one whose books differ in all editions, of
/// the fewest draws that a search over seeds found.
fn in_all_editions() -> Vec<(&'static str, Run)> {
    vec![
        ("hand-split", from_site_0((1, 1), HAND_SPLIT.0, HAND_SPLIT.1, &[(0, 3)])),
        ("hand-branches", hand_branches()),
        ("differs-thrice", from_site_0((1, 2), THRICE.0, THRICE.1, &[(0, 3), (0, 3)])),
    ]
}

/// In edition 3 a packet splits, and the next one goes on whole and is handed. Two ways from site 0 to site 1, one back.
fn hand_branches() -> Run {
    let mut run = from_site_0((1, 2), HAND_BRANCHES.0, HAND_BRANCHES.1, &[(0, 3), (0, 3)]);
    run.network.channels[1] = 5;
    run.network.routes[1] = 0x1200;
    run.sends.push(Send { draw: 0, site: 1, set: 1 });
    run
}

/// Seeds and numbers of draws.
const HAND_SPLIT: (u32, u16) = (319_091_970, 15);
const HAND_BRANCHES: (u32, u16) = (145_004_844, 69);
const THRICE: (u32, u16) = (11_339, 133);

pub fn all() -> Vec<Named> {
    let mut all = Vec::new();
    let new = RULES.iter().map(|(rule, _)| *rule).filter(|rule| is_of_edition_3(*rule));
    let reached = |rule: &Rule| !UNREACHED.contains(rule) && !UNREACHED_IN_EDITION_3.contains(rule);
    for rule in new.filter(reached).chain(SHARED) {
        let mut runs = restricted_runs(5_000 + rule as u64);
        let run = runs.find(|run| shows(rule, run)).expect("the rule is reached");
        all.push(named(&format!("e3-rule-{}", kebab(&format!("{rule:?}"))), run.bytes()));
    }
    for (kind, (debt, _)) in DEBTS.iter().enumerate().skip(DEBTS_OF_1) {
        for turn in 1..=2 {
            let name = format!("e3-ends-{}-{turn}", kebab(&format!("{debt:?}")));
            all.push(named(&name, ending(kind, 6_000 * turn + kind as u64).bytes()));
        }
    }
    for (name, run) in differing() {
        all.push(named(&format!("e3-{name}"), in_edition(3, run).bytes()));
    }
    for (name, run) in in_all_editions() {
        for (prefix, edition) in [("v2", 1), ("e2", 2), ("e3", 3)] {
            all.push(named(&format!("{prefix}-{name}"), in_edition(edition, run.clone()).bytes()));
        }
    }
    all
}
