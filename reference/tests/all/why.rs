//! The lines of `trace --why`.

use reference::archive::{read, Run};
use reference::making::{rng::Rng, runs::wide_run};
use reference::network::EDITIONS;
use reference::player::play_run;
use reference::trace::trace;
use reference::watch::{is_of, is_of_the_way, Rule, Tally, RULES};
use reference::why::{walk, why};
use std::collections::BTreeMap;
use std::path::PathBuf;
use std::process::{Command, Output};

fn corpus() -> PathBuf {
    PathBuf::from(concat!(env!("CARGO_MANIFEST_DIR"), "/../corpus"))
}

fn stored(name: &str) -> Vec<u8> {
    std::fs::read(corpus().join(format!("{name}.bin"))).expect("in the corpus")
}

/// One site, T = 1, D = 2, seed 39253086, 14 draws, packets 0 and 1 to {0}. The codes drawn are 10, 0, 4, 5, 10, 0, 10,
/// 10, 0, 0, 4, 0, 5, 0: packet 0 leaves its end at output 0 by draw 5, packet 1 seeks from draw 6 on, fails below T at
/// draw 8 and at T at draws 9 and 11, output 0 is empty after draw 12, and it connects at draw 13.
const TYPED: [u8; 29] = [
    0, 29, 1, 1, 1, 2, 0x02, 0x56, 0xf4, 0x5e, 0, 14, 2, 255, 255, 255, 255, 0, 0, 0, 0, 0, 0, 1, 0, 0, 0, 0,
    1,
];

#[test]
fn an_archive_typed_by_hand() {
    let lines = "8 0 0 1 {0}\n9 0 0 1 {0}\n11 0 0 1 {0}\noutput 0 of site 0: 3\n";
    assert_eq!(why(&TYPED).as_deref(), Ok(lines));
    let tried = "draw 8: site 0, net-input 0: packet 1, seek, try 1 of 1\n";
    assert!(trace(&TYPED, false).is_ok_and(|text| text.contains(tried)));
}

/// The runs that the remarks of corpus/typed work out: all of their asks that fail.
#[test]
fn the_runs_worked_out_by_hand() {
    for (name, lines) in [
        ("e3-hand-branches", "55 1 2 1 {1}\noutput 1 of site 1: 1\n"),
        ("e2-hand-held", "15 0 0 1 {1}\noutput 1 of site 0: 1\n"),
        ("v2-hand-held", ""),
        ("e2-hand-branches", ""),
        ("e3-hand-split", ""),
        ("hand-abort", ""),
        ("hand-keep-local", ""),
        ("hand-one-site", ""),
        ("01-run-r", ""),
    ] {
        assert_eq!(why(&stored(name)).as_deref(), Ok(lines), "{name}");
    }
}

#[test]
fn a_refused_archive_has_none() {
    let mut bytes = TYPED;
    bytes[6..10].fill(0);
    assert_eq!(why(&bytes).map_err(|refusal| refusal.number()), Err(4));
    assert_eq!(why(&bytes[1..]).map_err(|refusal| refusal.number()), Err(1));
}

/// The numbers of a line `DRAW SITE INPUT PACKET {OUTPUTS}`.
fn ask(line: &str) -> ([u32; 4], Vec<u32>) {
    let (numbers, outputs) = line.split_once(" {").expect("a set");
    let number = |word: &str| word.parse().expect("a number");
    let numbers: Vec<u32> = numbers.split(' ').map(number).collect();
    let outputs = outputs.strip_suffix('}').expect("a set").split(',').map(number).collect();
    (numbers.try_into().expect("four numbers"), outputs)
}

/// The counts behind the asks' lines, from these lines.
fn counted(asks: &[([u32; 4], Vec<u32>)]) -> Vec<String> {
    let mut times = BTreeMap::new();
    for ([_, site, ..], outputs) in asks {
        outputs.iter().for_each(|output| *times.entry((*site, *output)).or_insert(0) += 1);
    }
    let mut times: Vec<(i32, (u32, u32))> = times.into_iter().map(|(place, times)| (-times, place)).collect();
    times.sort_unstable();
    times
        .iter()
        .map(|(times, (site, output))| format!("output {output} of site {site}: {}", -times))
        .collect()
}

/// Of every valid archive of up to 5,000 draws: the asks that failed below T are those of the trace, there are as many
/// lines as the router fails, and the counts are those of the lines.
#[test]
fn the_corpus() {
    let (mut several, mut ties, mut none) = (0, 0, 0);
    for entry in std::fs::read_dir(corpus()).expect("the folder") {
        let path = entry.expect("an entry").path();
        let bytes = std::fs::read(&path).unwrap_or_default();
        let Some(run) = read(&bytes).ok().filter(|run| run.draws <= 5_000) else { continue };
        let text = why(&bytes).expect("valid");
        let (counts, lines): (Vec<&str>, Vec<&str>) =
            text.lines().partition(|line| line.starts_with("output"));
        let asks: Vec<_> = lines.iter().map(|line| ask(line)).collect();
        assert!(text.lines().take(lines.len()).eq(lines.iter().copied()), "the asks come first");
        assert_eq!(counts, counted(&asks), "{path:?}");
        let (failed, tried) = failures(&run, &bytes);
        assert!(asks.len() == failed && asks.is_sorted_by_key(|([draw, ..], _)| *draw), "{path:?}");
        let tries = tried.iter().filter(|tried| asks.iter().any(|(numbers, _)| numbers == *tried));
        assert_eq!(tries.count(), tried.len(), "{path:?}");
        several += asks.iter().filter(|(_, outputs)| outputs.len() > 1).count();
        ties +=
            counts.windows(2).filter(|two| two[0].split(": ").nth(1) == two[1].split(": ").nth(1)).count();
        none += usize::from(text.is_empty());
    }
    assert!(several > 500 && ties > 50 && none > 20, "{several} {ties} {none}");
}

/// How often the router fails in the run, and draw, site, net-input and packet of every try in its trace.
fn failures(run: &Run, bytes: &[u8]) -> (usize, Vec<[u32; 4]>) {
    let wiring = run.network.wiring().expect("valid");
    let mut tally = Tally::default();
    play_run(run, &wiring, &mut tally, |_| ());
    let text = trace(bytes, false).expect("valid");
    let tries = text.lines().filter(|line| line.contains(", seek, try "));
    let numbers = |line: &str| {
        let words = line.split(|c: char| !c.is_ascii_digit()).filter(|word| !word.is_empty());
        let numbers: Vec<u32> = words.take(4).map(|word| word.parse().expect("a number")).collect();
        numbers.try_into().expect("four numbers")
    };
    let failed = tally.count(Rule::OneMoreTry) + tally.count(Rule::FailedAtT);
    (failed as usize, tries.map(numbers).collect())
}

/// Runs reach every kind of failed ask that their edition has.
#[test]
fn made_runs_reach_every_kind() {
    for edition in EDITIONS {
        let (mut rng, mut tally, mut failures) = (Rng::new(75), Tally::default(), 0);
        for _ in 0..600 {
            let run = wide_run(&mut rng, false);
            let run = Run { network: run.network.clone().in_edition(edition), ..run };
            let wiring = run.network.wiring().expect("valid");
            walk(&run, &wiring, &mut tally, |_| failures += 1);
        }
        assert_eq!(failures, tally.count(Rule::WayBelowT) + tally.count(Rule::WayAtT));
        for (rule, words) in RULES {
            let there = is_of_the_way(*rule) && is_of(edition, *rule);
            assert_eq!(tally.count(*rule) > 0, there, "edition {edition}: {words}");
        }
    }
}

fn program(words: &[&str]) -> Output {
    let run = Command::new(env!("CARGO_BIN_EXE_trace")).current_dir(corpus()).args(words).output();
    run.expect("it runs")
}

#[test]
fn the_program_and_its_words() {
    let told = program(&["--why", "e3-hand-branches.bin"]);
    assert_eq!(
        (told.status.code(), &told.stdout[..]),
        (Some(0), &b"55 1 2 1 {1}\noutput 1 of site 1: 1\n"[..])
    );
    let refused = program(&["--why", "e3-refuse-4-seed-0.bin"]);
    assert_eq!((refused.status.code(), &refused.stdout[..]), (Some(1), &b"refused 4\n"[..]));
    let name = "01-run-r.bin";
    for words in [
        &["--why", "--all", name][..],
        &["--all", "--why", name],
        &["--why", "--all"],
        &["--why"],
        &[name; 2],
    ] {
        let told = program(words);
        assert_eq!((told.status.code(), told.stdout.len()), (Some(2), 0), "{words:?}");
        assert_eq!(told.stderr, b"usage: trace [--all | --why | --apart] FILE\n");
    }
}
