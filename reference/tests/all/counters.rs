//! Made archives and made cases meet every refusal that there is, in each version and edition.

use reference::archive::read;
use reference::coverage::{kind, kind_of, Coverage};
use reference::making::cases::{Maker, KINDS};
use reference::making::{damage::damaged, edges, held, restricted, rng::Rng, runs::either_run};
use reference::single::Event;
use reference::text::{Case, Form};

/// In which columns (version 1, version 2, edition 2, edition 3, neither) a refusal is met: 2 says that the version is
/// neither.
fn check(coverage: &Coverage, numbers: &[u8], met: impl Fn(u8) -> [bool; 5]) {
    for &number in numbers {
        assert_eq!(coverage.refusals(number).map(|count| count > 0), met(number), "refusal {number}");
    }
}

#[test]
fn archives() {
    let mut rng = Rng::new(61);
    let mut coverage = Coverage::default();
    for _ in 0..3_000 {
        let bytes = either_run(&mut rng, false).bytes();
        let bytes = damaged(&mut rng, &bytes);
        let number = read(&bytes).err().map_or(0, |refusal| refusal.number());
        coverage.refused(kind_of(&bytes), number, 1);
    }
    // An archive of version 1 has no edition byte; 1 comes before the version is looked at.
    check(&coverage, &[1, 2, 17, 3, 4, 5, 6, 7, 8], |number| match number {
        1 => [true; 5],
        2 => [false, false, false, false, true],
        17 => [false, true, false, false, false],
        _ => [true, true, true, true, false],
    });
}

/// The refusals of single events that these cases meet.
fn met_by<'a>(cases: impl Iterator<Item = &'a Case>) -> Coverage {
    let mut coverage = Coverage::default();
    for case in cases {
        let told = case.outcome(&mut ()).told;
        coverage.refused(kind(&case.network), told.err().map_or(0, |refusal| refusal.number()), 1);
    }
    coverage
}

const SINGLE: [u8; 11] = [0, 2, 17, 3, 6, 7, 13, 9, 10, 12, 11];

fn in_both(number: u8) -> [bool; 5] {
    let neither = number == 2;
    [!neither, !neither, false, false, neither]
}

#[test]
fn cases_at_the_limits() {
    check(&met_by(edges::cases().iter()), &SINGLE, in_both);
}

#[test]
fn cases_of_the_second_form() {
    let mut maker = Maker::new(62, Form::Second);
    let cases: Vec<Case> = (0..3_000).map(|turn| maker.any_case(turn % KINDS.len())).collect();
    check(&met_by(cases.iter()), &SINGLE, in_both);
    for sites in [1, 2, 17, 64] {
        assert!(cases.iter().any(|case| case.network.sites == sites), "{sites} sites");
    }
}

#[test]
fn cases_of_the_first_form() {
    let mut maker = Maker::new(6, Form::First);
    let cases: Vec<Case> = (0..3_000).map(|turn| maker.any_case(turn % KINDS.len())).collect();
    check(&met_by(cases.iter()), &[3, 6, 7, 13, 9, 10, 12, 11], |_| [true, false, false, false, false]);
}

/// A later edition has no 17 of its own: its cases have it in version 1, and in editions that there are not.
fn cases_of_edition(edition: u8, given: &[Case]) -> Vec<Case> {
    let mut maker = Maker::of_edition(63, edition);
    let cases: Vec<Case> = (0..3_000).map(|turn| maker.any_case(turn % KINDS.len())).collect();
    let coverage = met_by(cases.iter().chain(given));
    for number in [0, 3, 6, 7, 13, 9, 10, 12, 11] {
        // In other editions they come up where a mark is refused, and a spoiled edition is one of the faults.
        let met = coverage.refusals(number);
        assert!(met[edition as usize] > 0 && met[4] == 0, "refusal {number}: {met:?}");
    }
    check(&coverage, &[2, 17], |number| [number == 17, number == 17, false, false, number == 2]);
    let marked = |case: &&Case| case.state.outputs.iter().any(|output| output.closing);
    assert!(cases.iter().filter(marked).count() > 1_000);
    cases
}

#[test]
fn cases_of_edition_2() {
    cases_of_edition(2, &held::cases());
}

#[test]
fn cases_of_edition_3() {
    let cases = cases_of_edition(3, &restricted::cases());
    let splits = |case: &&Case| (0..64).any(|site| !case.state.is_zero_split(site));
    assert!(cases.iter().filter(splits).count() > 1_000);
    for code in 0..15 {
        let of = |case: &Case| matches!(case.event, Event::Run { code: c, .. } if c == code);
        assert!(cases.iter().any(of), "code {code}");
    }
}
