//! How document 01's networks, runs and books are read, point by point.

use crate::helpers::{one_site, two_sites};
use reference::archive::{read, write, Run, Send};
use reference::network::{Network, NO_CHANNEL};
use reference::player::play;
use reference::print::report;
use reference::refusal::Refusal;
use reference::single::{run, send};
use reference::state::{OutEntry, State};
use reference::step::Answer;

#[test]
fn r19_room_beyond_s_of_a_network_is_not_looked_at() {
    let mut network = two_sites();
    network.channels[8..].fill(3);
    network.routes[4..].fill(0xabcd);
    assert_eq!(send(&network, &mut State::empty(), 0, 1), Ok(0));
    let run = Run { network, seed: 1, draws: 0, sends: Vec::new() };
    let mut room = [0; 100];
    let length = write(&run, &mut room).expect("written");
    let back = read(&room[..length]).expect("read");
    assert!(back.network.channels[8..].iter().all(|&byte| byte == 0));
    assert!(back.network.routes[4..].iter().all(|&word| word == 0));
}

#[test]
fn r21_a_site_without_a_channel_out_is_7() {
    let network = Network::bare(2, 1, 1);
    assert_eq!(network.wiring().err(), Some(Refusal::Route));
    assert!(Network::bare(1, 1, 1).wiring().is_ok());
}

#[test]
fn r22_each_number_is_judged_over_the_whole_archive() {
    let send = |site| Send { draw: 0, site, set: 1 };
    let mut run = Run { network: two_sites(), seed: 1, draws: 0, sends: vec![send(9)] };
    run.network.routes[0] = 1;
    run.network.channels[7] = 9;
    assert_eq!(read(&run.bytes()), Err(Refusal::Channel));
    run.network.channels[7] = NO_CHANNEL;
    run.network.routes[0] = 0;
    run.network.routes[3] = 1;
    assert_eq!(read(&run.bytes()), Err(Refusal::Route));
    run.network.routes[3] = 0;
    assert_eq!(read(&run.bytes()), Err(Refusal::Send));
}

/// One site, D = 1, seed 539674: its draws are codes 10, 0, 5, 10, 0, 5, 5, 11.
fn served(sends: &[u16]) -> Run {
    let sends = sends.iter().map(|&draw| Send { draw, site: 0, set: 1 }).collect();
    Run { network: Network::bare(1, 1, 1), seed: 539_674, draws: 8, sends }
}

#[test]
fn r23_r27_the_book() {
    let bytes = served(&[0, 0]).bytes();
    let mut book = [9; 12];
    assert_eq!(play(&bytes, &mut book[..7]), Err(Refusal::Room));
    assert_eq!(book, [9; 12]);
    let counts = play(&bytes, &mut book).expect("played");
    assert_eq!((counts.accepted, counts.pairs, counts.serviced, counts.owed), (1, 1, 1, 0));
    assert_eq!(book, [0, 7, 0, 0, 9, 9, 9, 9, 9, 9, 9, 9]);
}

#[test]
fn r25_sends_at_the_number_of_draws_count() {
    let report = report(&served(&[0, 8, 8]).bytes());
    assert_eq!(report.services + &report.line, "7 0 0\naccepted 2 pairs 2 serviced 1 owed 1");
}

#[test]
fn r26_12_stands_before_11() {
    let mut network = one_site();
    network.depth = 1;
    let mut state = State { counter: 255, ..State::empty() };
    state.out_queues[0].push(OutEntry { set: 1, ..OutEntry::default() });
    assert_eq!(send(&network, &mut state, 0, 1), Err(Refusal::Spent));
}

#[test]
fn r29_two_sites_can_jam() {
    let name = concat!(env!("CARGO_MANIFEST_DIR"), "/../corpus/jam-two-sites.bin");
    let bytes = std::fs::read(name).expect("in the corpus");
    let stored = read(&bytes).expect("valid");
    assert_eq!((stored.network.tries, stored.network.depth), (1, 1));
    let wiring = stored.network.wiring().expect("valid");
    let (counts, mut state) = reference::player::play_run(&stored, &wiring, (), |_| ());
    assert!(counts.owed > 0);
    for (site, code) in (0..2).flat_map(|site| (0..13).map(move |code| (site, code))) {
        let answer = run(&stored.network, &mut state, site, code).map(|(answer, _)| answer);
        assert_eq!(answer, Ok(Answer::Nothing));
    }
}
