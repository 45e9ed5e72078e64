//! `generate SEED COUNT [FOLDER]`: makes COUNT archives of both versions and all editions, a third of them damaged,
//! and prints what they reach, for each version and edition. One in three of version 2 is followed by itself in the
//! other two editions.
//!
//! With a folder each archive becomes a file there; their names, sorted, are in the order of making.

use reference::archive::{self, Run};
use reference::coverage::{column, kind, kind_of, line, Coverage, COLUMNS};
use reference::making::rng::Rng;
use reference::making::{damage::damaged, runs};
use reference::owing::{self, DEBTS};
use reference::player::{play, play_run, Service, BOOK};
use reference::refusal::Refusal;
use reference::why;
use std::path::PathBuf;
use std::process::exit;

/// How often each rule, each refusal and each owing place at a run's end was met.
#[derive(Default)]
struct Reached {
    coverage: Coverage,
    debts: [[u64; COLUMNS.len()]; DEBTS.len()],
    played: [u64; COLUMNS.len()],
    /// Runs that are made in the other editions too, and those of them with another book in one of these.
    twins: [u64; COLUMNS.len()],
    differ: [u64; COLUMNS.len()],
}

/// The services of a valid run.
fn book(run: &Run) -> Vec<Service> {
    let wiring = run.network.wiring().expect("a valid network");
    let mut services = Vec::new();
    play_run(run, &wiring, (), |service| services.push(service));
    services
}

impl Reached {
    fn archive(&mut self, bytes: &[u8]) {
        match archive::read(bytes) {
            Ok(run) => self.run(&run, bytes),
            Err(refusal) => self.coverage.refused(kind_of(bytes), refusal.number(), 1),
        }
    }

    fn run(&mut self, run: &Run, bytes: &[u8]) {
        let kind = kind(&run.network);
        let column = column(kind);
        self.played[column] += 1;
        let wiring = run.network.wiring().expect("read archives have valid networks");
        let (counts, state) = play_run(run, &wiring, self.coverage.rules(kind), |_| ());
        assert_eq!(counts.pairs, counts.serviced + counts.owed, "pairs are serviced or owed");
        why::walk(run, &wiring, self.coverage.rules(kind), |_| ());
        let refused = run.sends.len() as u64 - u64::from(counts.accepted);
        self.coverage.refused(kind, Refusal::Full.number(), refused);
        owing::each(&state, |kind, _, _| self.debts[kind as usize][column] += 1);
        self.short_room(run, bytes);
    }

    /// The run in the other editions, of one in three of version 2.
    fn twins(&mut self, rng: &mut Rng, run: &Run) -> Vec<Run> {
        if run.network.version == 1 || !rng.one_in(3) {
            return Vec::new();
        }
        let twins = runs::twins(run);
        let column = column(kind(&run.network));
        self.twins[column] += 1;
        self.differ[column] += u64::from(twins.iter().any(|twin| book(run) != book(twin)));
        twins
    }

    /// Refusal 14, at one byte too few.
    fn short_room(&mut self, run: &Run, bytes: &[u8]) {
        let most = run.sends.iter().map(|s| 4 * s.set.count_ones() as usize).sum::<usize>();
        let mut book = [0; BOOK];
        if most > 0 && play(bytes, &mut book[..most - 1]) == Err(Refusal::Room) {
            self.coverage.refused(kind(&run.network), Refusal::Room.number(), 1);
        }
    }

    fn print(&self) {
        println!("{}", Coverage::heading());
        line(self.played, "played");
        line(self.twins, "played in the other editions too");
        line(self.differ, "of these with another book in one of them");
        self.coverage.print(&[1, 2, 17, 3, 4, 5, 6, 7, 8, 11, 14]);
        for (kind, words) in DEBTS {
            line(self.debts[kind as usize], &format!("owes at the end: {words}"));
        }
    }
}

fn main() {
    let args: Vec<String> = std::env::args().skip(1).collect();
    let number = |at: usize| args.get(at).and_then(|a| a.parse::<u64>().ok());
    let (Some(seed), Some(count)) = (number(0), number(1)) else {
        eprintln!("usage: generate SEED COUNT [FOLDER]");
        exit(2);
    };
    let folder = args.get(2).map(PathBuf::from);
    let mut rng = Rng::new(seed);
    let mut reached = Reached::default();
    let mut twins = Vec::new();
    for at in 0..count {
        let run = match twins.pop() {
            Some(run) => run,
            None => {
                let run = runs::either_run(&mut rng, true);
                twins = reached.twins(&mut rng, &run);
                run
            }
        };
        let mut bytes = run.bytes();
        if rng.one_in(3) {
            bytes = damaged(&mut rng, &bytes);
        }
        reached.archive(&bytes);
        if let Some(folder) = &folder {
            let name = folder.join(format!("{seed}-{at:06}.bin"));
            if let Err(error) = std::fs::write(&name, &bytes) {
                eprintln!("{}: {error}", name.display());
                exit(1);
            }
        }
    }
    reached.print();
}
