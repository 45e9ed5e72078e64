//! Runs of edition 3 from the empty start, and the same archive in all editions.

use reference::making::rng::Rng;
use reference::making::runs::wide_run;
use reference::network::EDITIONS;
use reference::player::Play;
use reference::print::report;
use reference::sets::only;
use reference::state::Connection::{AllRemote, SomeLocal};
use reference::state::{Phase, State, Terminator};
use reference::step::Answer;
use reference::trace::trace;
use reference::watch::Rule;

/// The split output's number.
const SPLIT: usize = 5;

/// Everything that places hold, of a run of edition 3 from the empty start: no abort, no keep-local, and at a split
/// output the own site alone.
fn check_places(state: &State, sites: usize) {
    for site in 0..sites {
        let bad = |terminator| matches!(terminator, Terminator::Abort | Terminator::KeepLocal);
        for input in state.inputs_of(site) {
            assert!(!bad(input.received) && !matches!(input.phase, Phase::Abort | Phase::FinAbort));
            assert!(!matches!(input.connection, AllRemote | SomeLocal));
        }
        assert!(!state.outputs_of(site).iter().any(|output| bad(output.terminator)));
        let entries = state.in_queues[site].items().iter().chain(state.split_queues[site].items());
        assert!(!entries.into_iter().any(|entry| bad(entry.terminator)));
        assert!(state.split_queues[site].items().iter().all(|entry| entry.set == only(site)));
        let split = &state.outputs_of(site)[SPLIT];
        assert!(!split.used || split.set == only(site) && !split.closing);
    }
}

#[test]
fn from_an_empty_start_no_abort_arises() {
    let mut rng = Rng::new(91);
    let (mut branches, mut timeouts) = (0, 0);
    for _ in 0..250 {
        let mut run = wide_run(&mut rng, false);
        run.network.edition = 3;
        let wiring = run.network.wiring().expect("valid");
        let mut play = Play::start(&run, &wiring, Vec::new());
        for _ in 0..run.draws {
            if play.draw().1 != Answer::Nothing {
                check_places(&play.state, wiring.sites);
            }
        }
        branches += play.watch.iter().filter(|rule| **rule == Rule::DoneBranch).count();
        timeouts += play.watch.iter().filter(|rule| **rule == Rule::TimeoutBranch).count();
    }
    assert!(branches > 50 && timeouts > 100, "{branches} splits, {timeouts} timeouts beside them");
}

fn stored(name: &str) -> Vec<u8> {
    std::fs::read(format!("{}/../corpus/{name}.bin", env!("CARGO_MANIFEST_DIR"))).expect("in the corpus")
}

/// The archives of the corpus that are there in all editions differ in the edition byte alone, and in their books.
#[test]
fn triples_of_the_corpus() {
    let folder = std::fs::read_dir(concat!(env!("CARGO_MANIFEST_DIR"), "/../corpus")).expect("the folder");
    let names = folder.map(|entry| entry.expect("an entry").file_name().into_string().expect("a name"));
    let kinds = ["e3-load-", "e3-differs-", "e3-hand-"];
    let (mut triples, mut differ) = (0, Vec::new());
    for name in names.filter(|name| kinds.iter().any(|kind| name.starts_with(kind)) && name.ends_with(".bin"))
    {
        let name = name.trim_start_matches("e3-").trim_end_matches(".bin");
        let mut files = ["v2", "e2", "e3"].map(|edition| stored(&format!("{edition}-{name}")));
        let books = files.each_ref().map(|bytes| report(bytes).services);
        for (edition, file) in (1..).zip(&mut files) {
            assert_eq!(std::mem::replace(&mut file[3], 0), edition, "{name}");
        }
        assert!(files[0] == files[1] && files[1] == files[2], "{name}: the same but for the edition");
        triples += 1;
        if books[0] != books[1] && books[0] != books[2] && books[1] != books[2] {
            differ.push(name.to_string());
        }
    }
    assert_eq!(triples, 19);
    for name in ["differs-thrice", "load-torus-4x4", "load-torus-8x8", "load-ring-one-way-3", "load-star-5"] {
        assert!(differ.contains(&name.to_string()), "{name}: {differ:?}");
    }
}

fn at_root(name: &str) -> Vec<u8> {
    std::fs::read(format!("{}/../{name}", env!("CARGO_MANIFEST_DIR"))).expect("a file")
}

/// What examples/README.md shows of its three: every book, and every line of a trace.
#[test]
fn the_example() {
    let readme = String::from_utf8(at_root("examples/README.md")).expect("text");
    let mut files = [1, 2, 3].map(|edition| at_root(&format!("examples/branch-e{edition}.bin")));
    let mut parts = readme.split("\n**Edition ").skip(1);
    for (edition, file) in (1..).zip(&mut files) {
        let report = report(file);
        let book: String =
            (report.services + &report.line).lines().map(|line| format!("    {line}\n")).collect();
        assert!(readme.contains(&format!("\n\n{book}\n")), "the book of edition {edition}");
        let trace = trace(file, false).expect("valid");
        let part = parts.next().expect("a part for each edition").split("\n## ").next().expect("a part");
        let shown: Vec<&str> = part.lines().filter_map(|line| line.strip_prefix("    ")).collect();
        assert!(shown.len() >= 2, "edition {edition}: lines of its trace");
        for line in shown {
            assert!(trace.lines().any(|traced| traced == line), "edition {edition}: {line}");
        }
        assert_eq!(std::mem::replace(&mut file[3], 0), edition);
    }
    assert!(files[0] == files[1] && files[1] == files[2]);
}

/// Two sites, T = D = 1, 15 draws, one send of {0,1}; corpus/typed/e3-hand-split.hex works it out.
#[test]
fn lines_of_the_trace() {
    let lines = trace(&stored("e3-hand-split"), true).expect("valid");
    for line in [
        "draw 1: site 0, timeout: nothing",
        "draw 2: site 0, net-input 0: packet 0, seek to open, split, output 1 gets {1}, split output gets {0}",
        "draw 7: site 1, split operator: nothing",
        "draw 8: site 0, split output: packet 0 enters the split in-queue",
        "draw 11: site 0, net-input 0: packet 0, done to free, output 1 gets end, split output gets end",
        "draw 13: site 0, split output: end of packet 0 enters the split in-queue",
        "draw 14: site 0, split operator: packet 0 serviced at site 0",
    ] {
        assert!(lines.contains(&format!("{line}\n")), "{line}");
    }
}

/// In editions 1 and 2 aborts do arise, and the split output stays zero.
#[test]
fn the_split_output_is_of_edition_3_alone() {
    let mut rng = Rng::new(92);
    let (mut split, mut aborted) = ([0; 4], [0; 4]);
    for turn in 0..300 {
        let mut run = wide_run(&mut rng, false);
        run.network.edition = EDITIONS[turn % 3];
        let wiring = run.network.wiring().expect("valid");
        let mut play = Play::start(&run, &wiring, Vec::new());
        for _ in 0..run.draws {
            play.draw();
        }
        let edition = run.network.edition as usize;
        split[edition] += (0..64).filter(|&site| !play.state.is_zero_split(site)).count();
        aborted[edition] += play.watch.iter().filter(|rule| **rule == Rule::AbortQueued).count();
    }
    assert!(split[1] + split[2] == 0 && split[3] > 10, "{split:?}");
    assert!(aborted[1] > 10 && aborted[2] > 10 && aborted[3] == 0, "{aborted:?}");
}
