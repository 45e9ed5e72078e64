//! `speed FILE..`: the time of one draw for each archive, in nanoseconds, the best of several plays.
//!
//! What is timed is the run alone, from the empty state to the counts, without reading and printing.

use reference::archive::read;
use reference::player::play_run;
use std::hint::black_box;
use std::time::Instant;

const PLAYS: usize = 40;

fn main() {
    for name in std::env::args().skip(1) {
        let run = match std::fs::read(&name).map(|bytes| read(&bytes)) {
            Ok(Ok(run)) if run.draws > 0 => run,
            _ => {
                eprintln!("{name}: no valid archive with draws");
                std::process::exit(1);
            }
        };
        let wiring = run.network.wiring().expect("read archives have valid networks");
        let best = (0..PLAYS).map(|_| {
            let start = Instant::now();
            black_box(play_run(black_box(&run), &wiring, (), |_| ()));
            start.elapsed()
        });
        let nanoseconds = best.min().unwrap_or_default().as_nanos() as f64;
        println!("{name}: {:.1} ns a draw", nanoseconds / f64::from(run.draws));
    }
}
