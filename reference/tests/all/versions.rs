//! Version 2: its bounds, editions, channels and sets; what both versions share; sixty-four sites at work.

use crate::helpers::{one_site, two_sites, Bench};
use reference::archive::{read, write, Run, Send, LONGEST};
use reference::format::Format;
use reference::making::corpus::run_r;
use reference::making::rng::Rng;
use reference::making::runs::any_run;
use reference::making::{graphs, routes};
use reference::network::{Network, NO_CHANNEL};
use reference::player::{play, Counts, BOOK};
use reference::print::report;
use reference::refusal::Refusal;
use reference::single::{run, send};
use reference::state::{InEntry, State, Terminator};
use reference::step::Answer;

/// Run R in version 2, edition 1, byte by byte.
fn wide_r() -> Vec<u8> {
    let head = [0, 35, 2, 1, 1, 3, 1, 0, 0, 0, 1, 0, 2, 1];
    let send = [0, 0, 0, 0, 0, 0, 0, 0, 0, 0, 1];
    [&head[..], &[255; 8], &[0; 2], &send].concat()
}

fn with(place: usize, value: u8) -> Vec<u8> {
    let mut bytes = wide_r();
    bytes[place] = value;
    bytes
}

/// The bytes cut or filled to this length, and the length field set to it.
fn of_length(length: usize) -> Vec<u8> {
    let mut bytes = wide_r();
    bytes.resize(length, 0);
    bytes[1] = length as u8;
    bytes
}

fn line(bytes: &[u8]) -> String {
    report(bytes).line
}

/// A one-way ring in this version, T = 3, D = 2.
fn ring(version: u8, sites: usize) -> Network {
    let mut network = graphs::ring(sites, false).in_version(version);
    routes::nearest(&mut network, 1);
    (network.tries, network.depth) = (3, 2);
    network
}

fn without_draws(network: Network, sends: &[(u8, u64)]) -> Run {
    let sends = sends.iter().map(|&(site, set)| Send { draw: 0, site, set }).collect();
    Run { network, seed: 7, draws: 0, sends }
}

#[test]
fn run_r_in_version_2() {
    let stored = read(&wide_r()).expect("valid");
    assert_eq!((stored.network.version, stored.network.edition), (2, 1));
    assert_eq!(line(&wide_r()), "accepted 1 pairs 1 serviced 0 owed 1");
    let narrow = read(&run_r()).expect("valid");
    assert_eq!((narrow.network.version, narrow.network.edition), (1, 1));
    assert_eq!(Run { network: narrow.network.in_version(2), ..narrow }, stored);
}

#[test]
fn lengths() {
    assert_eq!(Format::of(2).length(1, 1), 35);
    assert_eq!(Format::of(2).length(64, 255), 11_523);
    assert_eq!(LONGEST, 11_523);
    assert_eq!(BOOK, 65_280);
    for (length, refused) in [(12, Refusal::Length), (13, Refusal::Size), (14, Refusal::Size)] {
        assert_eq!(read(&of_length(length)), Err(refused), "{length} bytes");
    }
    assert_eq!(read(&of_length(34)), Err(Refusal::Size));
    assert_eq!(read(&of_length(36)), Err(Refusal::Size));
    assert_eq!(read(&wide_r()[..34]), Err(Refusal::Length));
}

/// In 13 bytes of version 2 N is not there: 5, and every earlier number before it.
#[test]
fn thirteen_bytes() {
    for (place, value, refused) in [
        (1, 12, Refusal::Length),
        (2, 3, Refusal::Version),
        (3, 4, Refusal::Edition),
        (3, 2, Refusal::Size),
        (3, 3, Refusal::Size),
        (4, 65, Refusal::Limits),
        (5, 0, Refusal::Limits),
        (6, 9, Refusal::Limits),
        (10, 0, Refusal::Seed),
        (12, 9, Refusal::Size),
    ] {
        let mut bytes = of_length(13);
        bytes[place] = value;
        assert_eq!(read(&bytes), Err(refused), "byte {place} is {value}");
        assert_eq!(play(&bytes, &mut []), Err(refused));
    }
}

#[test]
fn versions_and_editions() {
    for version in [0, 3, 4, 255] {
        assert_eq!(read(&with(2, version)), Err(Refusal::Version));
    }
    for edition in (0..=255).filter(|edition| ![1, 2, 3].contains(edition)) {
        assert_eq!(read(&with(3, edition)).err(), Some(Refusal::Edition), "edition {edition}");
    }
    for edition in [1, 2, 3] {
        assert_eq!(read(&with(3, edition)).map(|run| run.network.edition), Ok(edition));
    }
    // Run R with the version byte 2: edition 1, S = 3, T = 1, D = 0.
    let mut bytes = run_r();
    bytes[2] = 2;
    assert_eq!(read(&bytes), Err(Refusal::Limits));
}

#[test]
fn versions_and_editions_in_memory() {
    for version in 0..=255 {
        for edition in [0, 1, 2, 3, 4, 255] {
            let network = Network { version, edition, ..one_site() };
            let expected = match (version, edition) {
                (1 | 2, 1) | (2, 2 | 3) => None,
                (1 | 2, _) => Some(Refusal::Edition),
                _ => Some(Refusal::Version),
            };
            assert_eq!(network.wiring().err(), expected);
            assert_eq!(send(&network, &mut State::empty(), 0, 1).err(), expected);
            assert_eq!(run(&network, &mut State::empty(), 0, 0).err(), expected);
            assert_eq!(write(&without_draws(network, &[]), &mut [0; 40]).err(), expected);
        }
    }
}

#[test]
fn sites() {
    for (version, sites, good) in
        [(1, 16, true), (1, 17, false), (1, 64, false), (2, 17, true), (2, 64, true)]
    {
        let expected = (!good).then_some(Refusal::Limits);
        let network = ring(version, sites);
        assert_eq!(send(&network, &mut State::empty(), 0, 1).err(), expected, "{sites} in version {version}");
        let stored = without_draws(network, &[]);
        assert_eq!(write(&stored, &mut [0; LONGEST]).err(), expected);
        assert_eq!(read(&stored.bytes()).err(), expected);
    }
    for sites in [0, 65, 255, 256, 1 << 32 | 1, u64::MAX] {
        let network = Network { sites, ..ring(2, 2) };
        assert_eq!(network.check_limits(), Err(Refusal::Limits));
    }
    assert_eq!(read(&with(4, 0)), Err(Refusal::Limits));
    assert_eq!(read(&with(4, 65)), Err(Refusal::Limits));
}

/// One value for none in both versions; 255 is port 4 of site 63.
#[test]
fn channels() {
    for (version, sites, end, good) in [
        (2, 64, 255, true),
        (2, 64, 256, false),
        (2, 64, 65_534, false),
        (2, 64, NO_CHANNEL, true),
        (2, 63, 251, true),
        (2, 63, 252, false),
        (2, 63, 255, false),
        (2, 16, 255, false),
        (2, 16, 63, true),
        (1, 16, 63, true),
        (1, 16, 64, false),
        (1, 16, 254, false),
        (1, 16, 255, false),
        (1, 16, 65_534, false),
        (1, 16, NO_CHANNEL, true),
    ] {
        let mut network = ring(version, sites);
        network.channels[1] = end;
        let expected = if good { Ok(()) } else { Err(Refusal::Channel) };
        assert_eq!(network.check_channels(), expected, "{end} of {sites} in version {version}");
        network.channels[2] = end;
        let twice = if end == NO_CHANNEL { Ok(()) } else { Err(Refusal::Channel) };
        assert_eq!(network.check_channels(), twice, "{end} of {sites} in version {version}, twice");
    }
    let wiring = {
        let mut network = ring(2, 64);
        network.channels[4 * 62] = 255;
        network.wiring().expect("valid")
    };
    assert_eq!(wiring.far[6 * 62 + 1], 5 * 63 + 4);
}

/// The channel bytes: one byte 255 is none in version 1, two of them in version 2, and 0 255 is input 255.
#[test]
fn channel_bytes() {
    assert_eq!(read(&run_r()).expect("valid").network.channels[..5], [65_535, 65_535, 65_535, 65_535, 0]);
    assert_eq!(read(&wide_r()).expect("valid").network.channels[..5], [65_535, 65_535, 65_535, 65_535, 0]);
    assert_eq!(read(&with(14, 0)), Err(Refusal::Channel));
    assert_eq!(read(&with(15, 254)), Err(Refusal::Channel));
    let mut network = ring(2, 64);
    network.channels[4 * 62] = 255;
    let bytes = without_draws(network.clone(), &[]).bytes();
    assert_eq!(bytes[14 + 8 * 62..][..4], [0, 255, 255, 255]);
    assert_eq!(read(&bytes).expect("valid").network, network);
}

#[test]
fn sets_of_eight_bytes() {
    let judge = |sites, site, set| {
        let stored = without_draws(ring(2, sites), &[(site, set)]);
        let read = read(&stored.bytes()).map(|back| back.sends[0].set);
        assert_eq!(write(&stored, &mut [0; LONGEST]).err(), read.err());
        assert_eq!(send(&stored.network, &mut State::empty(), site.into(), set).is_ok(), read.is_ok());
        read
    };
    assert_eq!(judge(64, 63, 1 << 63), Ok(1 << 63));
    assert_eq!(judge(64, 63, u64::MAX), Ok(u64::MAX));
    assert_eq!(judge(17, 0, 1 << 16), Ok(1 << 16));
    assert_eq!(judge(33, 0, 1 << 32 | 1 << 31), Ok(1 << 32 | 1 << 31));
    for (sites, set) in [(63, 1 << 63), (17, 1 << 17), (16, 1 << 16), (2, 1 << 63 | 1), (64, 0)] {
        assert_eq!(judge(sites, 0, set), Err(Refusal::Send), "{set:x} of {sites}");
    }
    assert_eq!(judge(64, 64, 1), Err(Refusal::Send));
}

#[test]
fn the_same_run_plays_the_same_in_both_versions() {
    let mut rng = Rng::new(51);
    for _ in 0..300 {
        let narrow = any_run(&mut rng, false);
        let wide = Run { network: narrow.network.clone().in_version(2), ..narrow.clone() };
        let mut books = [vec![7; BOOK], vec![7; BOOK]];
        let played = [(narrow, 0), (wide, 1)].map(|(run, at)| play(&run.bytes(), &mut books[at]));
        assert!(played[0].is_ok());
        assert_eq!(played[0], played[1]);
        assert_eq!(books[0], books[1]);
    }
    for name in ["one-site", "two-sites-bundle", "star-5", "torus-4x4"] {
        let stored = |prefix: &str| {
            let file = format!("{}/../corpus/{prefix}load-{name}.bin", env!("CARGO_MANIFEST_DIR"));
            report(&std::fs::read(file).expect("in the corpus"))
        };
        let (narrow, wide) = (stored(""), stored("v2-"));
        assert_eq!((narrow.services, narrow.line), (wide.services, wide.line), "{name}");
    }
}

/// P7 of document 01 between site 62 and input 255, that is port 4 of site 63.
#[test]
fn a_split_between_the_last_two_sites() {
    let mut network = ring(2, 64);
    network.channels[4 * 62] = 255;
    let mut bench = Bench::new(network);
    assert_eq!(bench.send(62, 1 << 63 | 1 << 62), 0);
    bench.steps(62, &[10, 0, 5, 6]);
    assert_eq!(bench.input(63, 4).set, 1 << 63);
    bench.steps(63, &[4]);
    bench.steps(62, &[10, 0]);
    assert_eq!(bench.output(62, 0).terminator, Terminator::KeepLocal);
    bench.steps(62, &[6, 5]);
    assert_eq!(bench.answer(62, 11), Ok(Answer::Serviced { packet: 0, site: 62 }));
    bench.steps(63, &[5, 4, 5]);
    assert_eq!(bench.answer(63, 11), Ok(Answer::Serviced { packet: 0, site: 63 }));
    assert_eq!(bench.state, State { counter: 1, ..State::empty() });
}

#[test]
fn site_63_services_and_requeues() {
    let mut bench = Bench::new(ring(2, 64));
    bench.state.counter = 1;
    bench.state.in_queues[63].push(InEntry { packet: 0, set: 1 << 63 | 1, terminator: Terminator::End });
    assert_eq!(bench.answer(63, 11), Ok(Answer::Serviced { packet: 0, site: 63 }));
    assert_eq!(bench.state.out_queues[63].items()[0].set, 1);
    assert_eq!(bench.answer(64, 11), Err(Refusal::Address));
}

/// The last event of a draw: 13 x 64 - 1 is code 12 of site 63, with 15 codes 15 x 64 - 1 is code 14.
#[test]
fn draws_name_832_events_or_960() {
    use reference::draws::event;
    assert_eq!(event(831, 64, 13), (63, 12));
    assert_eq!(event(832, 64, 13), (0, 0));
    assert_eq!(event(270_369, 64, 13), (270_369 % 832 / 13, 270_369 % 832 % 13));
    assert_eq!(event(959, 64, 15), (63, 14));
    assert_eq!(event(960, 64, 15), (0, 0));
    assert_eq!(event(270_369, 64, 15), (270_369 % 960 / 15, 270_369 % 960 % 15));
}

#[test]
fn the_corpus_has_services_at_site_63() {
    let file = concat!(env!("CARGO_MANIFEST_DIR"), "/../corpus/v2-load-torus-8x8-neighbours.bin");
    let mut book = [0; BOOK];
    let counts: Counts = play(&std::fs::read(file).expect("in the corpus"), &mut book).expect("valid");
    let entries = book.chunks_exact(4).take(counts.serviced as usize);
    assert!(entries.filter(|entry| entry[3] == 63).count() > 0);
}

/// Room beyond S is not looked at, and the reader leaves it zero; `two_sites` in version 2.
#[test]
fn room_beyond_s_sites() {
    let mut network = two_sites().in_version(2);
    network.channels[8..].fill(255);
    network.routes[4..].fill(0xabcd);
    assert_eq!(send(&network, &mut State::empty(), 0, 1), Ok(0));
    let mut room = [9; 100];
    let length = write(&without_draws(network, &[]), &mut room).expect("written");
    assert_eq!(length, 38);
    let back = read(&room[..length]).expect("read");
    assert!(back.network.channels[8..].iter().all(|&end| end == 0));
    assert!(back.network.routes[4..].iter().all(|&route| route == 0));
}
