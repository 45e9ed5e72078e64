//! Tests of the C and Rust library against the second model: `library CORPUS COUNT SEED`.
//!
//! Every archive of the folder CORPUS and COUNT fresh ones of SEED, of both versions and all editions, a third of them
//! damaged, go through each function of include/fennqualo.h, with lent slices of many lengths between guards, and
//! through the Rust wrapper. One in three of the fresh ones of version 2 comes in every edition. Prints one line; panics
//! at the first difference, naming the archive and the call.

mod calls;
mod guarded;
mod judged;
mod wrapper;

use reference::archive::Run;
use reference::coverage::kind_of;
use reference::making::damage::damaged;
use reference::making::rng::Rng;
use reference::making::runs::{any_run, either_run, twins, wide_run};
use reference::network::EDITIONS;
use std::path::Path;

/// What was compared, and the wrapper's player, which plays them all.
#[derive(Default)]
pub struct Tally {
    archives: usize,
    refused: [usize; 18],
    over: [usize; 18],
    back: [usize; 18],
    calls: usize,
    /// Archives of version 2 that were played with services, by edition.
    served: [usize; 4],
    services: u64,
    longest: usize,
    player: fennqualo::Player,
}

impl Tally {
    fn archive(&mut self, name: &str, bytes: &[u8], rng: &mut Rng) {
        let judged = judged::Judged::of(bytes);
        self.archives += 1;
        self.refused[judged.refusal as usize] += 1;
        self.over[refusal(&judged.over)] += 1;
        self.back[refusal(&judged.back)] += 1;
        let services = judged.counts.map_or(0, |counts| counts[2]);
        if let (Some(2), Some(edition), 1..) = (kind_of(bytes).0, kind_of(bytes).1, services) {
            self.served[edition as usize] += 1;
        }
        self.services += services;
        self.longest = self.longest.max(bytes.len());
        self.calls += calls::compare(name, bytes, &judged, rng);
        self.calls += wrapper::compare(name, bytes, &judged, &mut self.player);
    }

    fn print(&self) {
        let Tally { archives, longest, services, calls, over, back, .. } = self;
        for number in 0..=8 {
            for (call, met) in [("play", &self.refused), ("over", over), ("back", back)] {
                assert!(met[number] > 0, "no archive gets {number} of {call}: the comparison has a gap");
            }
        }
        let others = self.refused[17] > 0 && back[17] > 0 && back[15] > 0;
        assert!(others, "no archive is refused with 15 or 17: the comparison has a gap");
        let served = EDITIONS.into_iter().all(|edition| self.served[edition as usize] > 0);
        assert!(served, "an edition without services: the comparison has a gap");
        let played = self.refused[0];
        let refused = archives - played;
        print!("library: {archives} archives of up to {longest} bytes, {played} played with {services} services, ");
        println!("{refused} refused, {} moved over, {} back; {calls} calls, 0 differences", over[0], back[0]);
    }
}

/// The refusal of a call that writes, or 0.
fn refusal(written: &judged::Written) -> usize {
    written.as_ref().err().map_or(0, |&number| number.into())
}

/// The archives of a folder, by name.
fn corpus(folder: &Path) -> Vec<(String, Vec<u8>)> {
    let files = std::fs::read_dir(folder).expect("the corpus can be listed");
    let mut found: Vec<(String, Vec<u8>)> = files
        .map(|file| file.expect("the corpus can be listed").path())
        .filter(|path| path.extension().map_or(false, |end| end == "bin"))
        .map(|path| (path.display().to_string(), std::fs::read(&path).expect("an archive can be read")))
        .collect();
    found.sort();
    assert!(!found.is_empty(), "{} has no archive", folder.display());
    found
}

/// The next run: the one that waits, or a fresh one, of which one in three of version 2 lets the other editions wait.
fn fresh(rng: &mut Rng, waiting: &mut Vec<Run>) -> Run {
    if let Some(run) = waiting.pop() {
        return run;
    }
    let run = either_run(rng, true);
    if run.network.version == 2 && rng.one_in(3) {
        waiting.extend(twins(&run));
    }
    run
}

fn main() {
    let args: Vec<String> = std::env::args().collect();
    let [_, folder, count, seed] = &args[..] else {
        eprintln!("usage: library CORPUS COUNT SEED");
        std::process::exit(2);
    };
    let count: usize = count.parse().expect("COUNT is a number");
    let mut rng = Rng::new(seed.parse().expect("SEED is a number"));
    let mut tally = Tally::default();
    for (name, bytes) in corpus(Path::new(folder)) {
        tally.archive(&name, &bytes, &mut rng);
    }
    let mut waiting = Vec::new();
    for at in 0..count {
        let mut bytes = fresh(&mut rng, &mut waiting).bytes();
        if rng.one_in(3) {
            bytes = damaged(&mut rng, &bytes);
        }
        tally.archive(&format!("archive {at} of seed {seed}"), &bytes, &mut rng);
    }
    // Every length of one short archive of version 1, and of one of version 2 in each edition, from 0 on.
    let mut short = vec![any_run(&mut rng, false)];
    for edition in EDITIONS {
        let run = wide_run(&mut rng, false);
        short.push(Run { network: run.network.in_edition(edition), ..run });
    }
    for whole in short.iter().map(Run::bytes) {
        for length in 0..whole.len() {
            tally.archive(
                &format!("{length} bytes of an archive of {}", whole.len()),
                &whole[..length],
                &mut rng,
            );
        }
    }
    tally.print();
}
