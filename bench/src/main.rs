//! `bench [ROUNDS]`: the product's times against the second model's, as tables in Markdown.
//!
//! Both work by turns in this one process, on the same bytes, and their answers are compared; a figure is the median of
//! the rounds (21). Times are of the thread's own work.

mod archives;
mod clock;
mod product;
mod second;

use clock::{medians, timed};
use reference::player::BOOK;
use std::hint::black_box;

const DRAWS: usize = 65_535;
const TIMES: usize = 1_000;

fn main() {
    let rounds = std::env::args().nth(1).and_then(|word| word.parse().ok()).unwrap_or(21);
    player(rounds);
    reader_and_writer(rounds);
    single_events(rounds);
    copies(rounds);
}

type Player = fn(&[u8], &mut [u8]) -> usize;

fn player(rounds: usize) {
    println!("| player, 255 sends, 65,535 draws | second model, ns a draw | product, ns a draw | ratio |");
    println!("|---|---:|---:|---:|");
    let players: [(&str, Player); 2] = [("", product::play), (", by the book", product::play_by_book)];
    for (how, play) in players {
        for (name, bytes) in archives::runs() {
            let (mut theirs, mut ours) = (vec![0; BOOK], vec![0; BOOK]);
            assert_eq!(second::play(&bytes, &mut theirs), play(&bytes, &mut ours), "services of {name}");
            assert!(theirs == ours, "the book of {name}");
            let a = || timed(|| second::play(&bytes, &mut theirs)).0;
            let b = || timed(|| play(&bytes, &mut ours)).0;
            let (a, b) = medians(rounds, DRAWS as f64, a, b);
            println!("| {name}{how} | {a:.1} | {b:.1} | {:.2} |", b / a);
        }
    }
    println!();
}

/// Reading, checking and writing. Of the checks the refusals are compared, also with the last send at site 255.
fn reader_and_writer(rounds: usize) {
    println!("| bytes | work | second model, ns | product, ns | ratio |");
    println!("|---:|---|---:|---:|---:|");
    for bytes in archives::sizes() {
        let (mut theirs, mut ours) = (bytes.clone(), bytes.clone());
        let a = || timed(|| second::read(&mut theirs, TIMES)).0;
        let b = || timed(|| product::read(&mut ours, TIMES)).0;
        row(&format!("{} | read", bytes.len()), medians(rounds, TIMES as f64, a, b));
        let length = bytes.len();
        let mut spoiled = bytes.clone();
        spoiled[length - second::site_from_end(&bytes)] = 255;
        let refusals = [second::check(&mut spoiled, TIMES), product::check(&mut spoiled, TIMES)];
        assert_eq!(refusals, [8 * TIMES; 2], "the refusals of {length} bytes");
        let a = || timed(|| assert_eq!(second::check(&mut theirs, TIMES), 0)).0;
        let b = || timed(|| assert_eq!(product::check(&mut ours, TIMES), 0)).0;
        row(&format!("{} | check", bytes.len()), medians(rounds, TIMES as f64, a, b));
        let (mut theirs, mut ours) = (vec![0; bytes.len()], vec![0; bytes.len()]);
        let a = || timed(|| assert_eq!(second::write(&bytes, &mut theirs, TIMES), length)).0;
        let b = || timed(|| assert_eq!(product::write(&bytes, &mut ours, TIMES), length)).0;
        row(&format!("{} | write", bytes.len()), medians(rounds, TIMES as f64, a, b));
        assert!(theirs == ours, "what is written");
    }
    println!();
}

/// Public SEND and RUN with all their checks. What comes before the timed events is timed by itself and taken off.
fn single_events(rounds: usize) {
    println!("| sites | public event | second model, ns | product, ns | ratio |");
    println!("|---:|---|---:|---:|---:|");
    for (sites, sends, bytes) in [(16, 64, archives::big()), (64, 255, archives::wide())] {
        events(rounds, sites, sends, &bytes);
    }
}

fn events(rounds: usize, sites: usize, sends: usize, bytes: &[u8]) {
    let mixed = [(0, 0), (TIMES, 0)];
    row(&format!("{sites} | RUN, the events of the first 1,000 draws"), runs(rounds, bytes, 0, mixed));
    let same = [(300, 0), (300, TIMES)];
    row(&format!("{sites} | RUN (0, 12), 1,000 times after 300 draws"), runs(rounds, bytes, 12, same));
    assert_eq!(second::sends(bytes, sends), product::sends(bytes, sends), "the state after the sends");
    let a = || timed(|| second::sends(bytes, sends)).0 - timed(|| second::sends(bytes, 0)).0;
    let b = || timed(|| product::sends(bytes, sends)).0 - timed(|| product::sends(bytes, 0)).0;
    row(&format!("{sites} | SEND (s, {{0}}), the {sends} that fit"), medians(rounds, sends as f64, a, b));
}

/// The times of 1,000 RUNs at site 0: of what the second pair of draws and repeats has over the first.
fn runs(rounds: usize, bytes: &[u8], code: usize, pairs: [(usize, usize); 2]) -> (f64, f64) {
    let [(d, t), (draws, times)] = pairs;
    let theirs = |draws, times| second::runs(bytes, draws, 0, code, times);
    let ours = |draws, times| product::runs(bytes, draws, 0, code, times);
    assert_eq!(theirs(draws, times), ours(draws, times), "the state after the runs");
    let a = || timed(|| theirs(draws, times)).0 - timed(|| theirs(d, t)).0;
    let b = || timed(|| ours(draws, times)).0 - timed(|| ours(d, t)).0;
    medians(rounds, TIMES as f64, a, b)
}

/// What a copy of a value costs, its bytes at hand.
fn copies(rounds: usize) {
    println!("\n| a copy of | bytes | ns |");
    println!("|---|---:|---:|");
    for (name, size) in [("a Site", 624), ("a Network", 8_728), ("a Run", 12_824), ("a State", 39_944)] {
        let (from, mut to) = (vec![1u8; size], vec![0u8; size]);
        let mut copy = || {
            for _ in 0..TIMES {
                black_box(&mut to).copy_from_slice(black_box(&from));
            }
        };
        let (ns, _) = medians(rounds, TIMES as f64, || timed(&mut copy).0, || 0.0);
        println!("| {name} | {size} | {ns:.0} |");
    }
}

fn row(name: &str, (a, b): (f64, f64)) {
    println!("| {name} | {a:.0} | {b:.0} | {:.2} |", b / a);
}
