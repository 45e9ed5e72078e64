//! `cases SEED COUNT WIDE HELD RESTRICTED ASKED INPUT EXPECTED`: writes single event cases and their outcomes, COUNT of
//! the first form, then of the second WIDE in edition 1, HELD in edition 2, RESTRICTED in edition 3, and ASKED in any
//! edition of which the outputs in the way are told. The first of these are those of `making::edges`, `making::held`,
//! `making::restricted` and `making::asked`.
//!
//! It prints how many cases there are of each kind, how many break each clause of the split output's range on purpose,
//! and the refusals and rules that they reach, for each version and edition.

use reference::coverage::{kind, line, Coverage};
use reference::making::branches::CLAUSES;
use reference::making::cases::{Maker, KINDS};
use reference::making::{asked, edges, held, restricted};
use reference::network::{EDITIONS, EDITION_2, EDITION_3};
use reference::text::{read_cases, Case, Form, Writer};
use std::process::exit;

/// So many cases, the first of them those that are given, the others by the makers in turn; how many are given, and how
/// many there are of each other kind.
fn made(makers: &mut [Maker], given: Vec<Case>, count: u64) -> (Vec<Case>, Vec<usize>) {
    let mut cases = given;
    cases.truncate(count as usize);
    let mut kinds = vec![cases.len()];
    kinds.resize(1 + KINDS.len(), 0);
    let makers_in_turn = (0..makers.len()).cycle();
    for turn in makers_in_turn.take(count as usize - cases.len()) {
        let kind = makers[turn].any_kind();
        kinds[1 + kind] += 1;
        cases.push(makers[turn].any_case(kind));
    }
    (cases, kinds)
}

fn main() -> std::io::Result<()> {
    let args: Vec<String> = std::env::args().skip(1).collect();
    let [numbers @ .., input, expected] = &args[..] else { usage() };
    let numbers: Result<Vec<u64>, _> = numbers.iter().map(|word| word.parse()).collect();
    let Ok([seed, counts @ ..]) = numbers.as_deref() else { usage() };
    let [count, wide, held, restricted, asked] = *counts else { usage() };
    let mut last = [Maker::of_edition(*seed, EDITION_3)];
    last[0].show(&restricted::cases());
    let mut asking = EDITIONS.map(|edition| Maker::asking(*seed, edition));
    asking.iter_mut().for_each(|maker| maker.show(&asked::cases()));
    let parts = [
        made(&mut [Maker::new(*seed, Form::First)], Vec::new(), count),
        made(&mut [Maker::new(*seed, Form::Second)], edges::cases(), wide),
        made(&mut [Maker::of_edition(*seed, EDITION_2)], held::cases(), held),
        made(&mut last, restricted::cases(), restricted),
        made(&mut asking, asked::cases(), asked),
    ];
    let kinds = parts.each_ref().map(|(_, kinds)| kinds.clone());
    let cases = parts.map(|(cases, _)| cases).concat();
    let mut text = Writer::default();
    text.cases(&cases);
    std::fs::write(input, &text.text)?;

    let mut coverage = Coverage::default();
    let mut outcomes = Writer::default();
    for case in read_cases(&text.text) {
        let kind = kind(&case.network);
        let outcome = case.outcome(coverage.rules(kind));
        coverage.refused(kind, outcome.told.err().map_or(0, |refusal| refusal.number()), 1);
        outcomes.outcome(&outcome);
    }
    std::fs::write(expected, &outcomes.text)?;
    let parts = ["first form", "second form", "edition 2", "edition 3", "asked"];
    println!("{}", parts.map(|words| format!("{words:>12}")).concat());
    let words = KINDS.iter().map(|(words, _)| *words);
    for (at, words) in std::iter::once("one by one, at a limit or for a rule").chain(words).enumerate() {
        println!("{}  case: {words}", kinds.each_ref().map(|kinds| format!("{:>12}", kinds[at])).concat());
    }
    for (count, words) in last[0].broken.iter().zip(CLAUSES) {
        println!("{count:>48}  broken: {words}");
    }
    println!("{}", Coverage::heading());
    line(coverage.refusals(0), "not refused");
    coverage.print(&[2, 17, 3, 6, 7, 13, 9, 10, 12, 11]);
    Ok(())
}

fn usage() -> ! {
    eprintln!("usage: cases SEED COUNT WIDE HELD RESTRICTED ASKED INPUT EXPECTED");
    exit(2);
}
