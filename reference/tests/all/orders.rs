//! The order of the refusals in both versions, editions 2 and 3 in version 2: reader, writer, player and single events,
//! each pair of neighbours.

use crate::helpers::{one_site, two_sites};
use reference::archive::{read, write, Run, Send};
use reference::network::{Network, NO_CHANNEL};
use reference::player::play;
use reference::refusal::Refusal::{self, *};
use reference::single::{run, send};
use reference::state::{OutEntry, State};

/// A version and an edition.
type Kind = (u8, u8);

const KINDS: [Kind; 3] = [(1, 1), (2, 2), (2, 3)];

/// An edition that this version has not.
fn unknown(version: u8) -> u8 {
    2 * version
}

/// A run of this version and edition with one fault for each refusal of `faults` that it can hold (2, 17, 3, 4, 5, 6,
/// 7, 8).
fn faulty((version, edition): Kind, faults: &[Refusal]) -> Run {
    let send = Send { draw: 0, site: 0, set: 1 };
    let network = Network { version, edition, ..two_sites() };
    let mut run = Run { network, seed: 1, draws: 2, sends: vec![send; 3] };
    for fault in faults {
        match fault {
            Version => run.network.version = 3,
            Edition => run.network.edition = unknown(version),
            Limits => run.network.tries = 0,
            Seed => run.seed = 0,
            Size => run.sends.resize(256, send),
            Channel => run.network.channels[7] = 8,
            Route => run.network.routes[0] = 1,
            Send => run.sends[0].site = 2,
            _ => (),
        }
    }
    run
}

/// The bytes of it, with the faults that are made in the bytes (1, 2, 5).
fn faulty_bytes(kind: Kind, faults: &[Refusal]) -> Vec<u8> {
    let others: Vec<Refusal> = faults.iter().copied().filter(|f| !matches!(f, Version | Size)).collect();
    let mut bytes = faulty(kind, &others).bytes();
    for fault in faults {
        match fault {
            Length => bytes[1] += 1,
            Version => bytes[2] = 7,
            Size => bytes[if kind.0 == 1 { 12 } else { 13 }] += 1,
            _ => (),
        }
    }
    bytes
}

/// The reader's order, then 14; in version 1 there is no edition byte.
fn reader_and_player(kind: Kind, order: &[Refusal]) {
    let bytes = |faults: &[Refusal]| faulty_bytes(kind, faults);
    assert!(read(&bytes(&[])).is_ok());
    for (at, first) in order.iter().enumerate() {
        assert_eq!(read(&bytes(&[*first])), Err(*first));
        assert_eq!(read(&bytes(&order[at..])), Err(*first));
        for later in &order[at + 1..] {
            assert_eq!(read(&bytes(&[*first, *later])), Err(*first), "{first:?} {later:?}");
        }
        let mut book = [5; 3];
        assert_eq!(play(&bytes(&[*first]), &mut book), Err(*first));
        assert_eq!(book, [5; 3]);
    }
    assert_eq!(play(&bytes(&[]), &mut [5; 3]), Err(Room));
}

#[test]
fn reader_and_player_of_version_1() {
    reader_and_player((1, 1), &[Length, Version, Limits, Seed, Size, Channel, Route, Send]);
}

#[test]
fn reader_and_player_of_version_2() {
    for edition in [2, 3] {
        reader_and_player(
            (2, edition),
            &[Length, Version, Edition, Limits, Seed, Size, Channel, Route, Send],
        );
    }
}

#[test]
fn writer_2_17_3_to_8_then_14() {
    let order = [Version, Edition, Limits, Seed, Size, Channel, Route, Send];
    for kind in KINDS {
        for (at, first) in order.iter().enumerate() {
            let mut room = [5; 10];
            assert_eq!(write(&faulty(kind, &[*first]), &mut room), Err(*first));
            assert_eq!(write(&faulty(kind, &order[at..]), &mut room), Err(*first));
            for later in &order[at + 1..] {
                assert_eq!(write(&faulty(kind, &[*first, *later]), &mut room), Err(*first));
            }
            assert_eq!(room, [5; 10]);
        }
        assert_eq!(write(&faulty(kind, &[]), &mut [5; 10]), Err(Room));
    }
}

/// Single events: 2, 17, 3, 6, 7, 13, 9, 10, 12, 11.
const SINGLE: [Refusal; 10] = [Full, Spent, Set, Address, Range, Route, Channel, Limits, Edition, Version];

/// The place in the reverse order: a fault's rank is above those that come after it.
fn rank(fault: Refusal) -> usize {
    SINGLE.iter().position(|f| *f == fault).expect("a refusal of single events")
}

#[test]
fn single_send() {
    for kind in KINDS {
        for last in SINGLE {
            // All faults that come before `last` in the order are left out.
            let absent = |fault: Refusal| rank(fault) > rank(last);
            assert_eq!(send_without(kind, absent), Err(last));
        }
        assert_eq!(send_without(kind, |_| true), Ok(1));
    }
}

/// SEND in this version and edition with every fault but those that are absent.
fn send_without((version, edition): Kind, absent: impl Fn(Refusal) -> bool) -> Result<u8, Refusal> {
    let mut network = two_sites().in_version(version);
    let mut state = State { counter: 1, ..State::empty() };
    network.depth = 1;
    let here = |fault: Refusal| !absent(fault);
    if here(Version) {
        network.version = 0;
    }
    network.edition = if here(Edition) { unknown(version) } else { edition };
    network.tries = if here(Limits) { 0 } else { 1 };
    network.channels[7] = if here(Channel) { 8 } else { NO_CHANNEL };
    network.routes[0] = here(Route) as u16;
    state.inputs[79].tries = here(Range) as u8;
    let site = if here(Address) { 2 } else { 0 };
    let set = if here(Set) { 0 } else { 1 };
    state.counter = if here(Spent) { 255 } else { 1 };
    if here(Full) {
        state.out_queues[0].push(OutEntry { set: 1, ..OutEntry::default() });
    }
    let before = state.clone();
    let answer = send(&network, &mut state, site, set);
    assert!(answer.is_ok() || state == before);
    answer
}

#[test]
fn single_run() {
    let network = two_sites();
    let mut state = State::empty();
    assert_eq!(run(&network, &mut state, 2, 0), Err(Address));
    assert_eq!(run(&network, &mut state, 0, 13), Err(Address));
    assert_eq!(run(&network, &mut state, 256, 0), Err(Address));
    assert_eq!(run(&network, &mut state, 0, 256), Err(Address));
    state.inputs[0].tries = 1;
    let before = state.clone();
    assert_eq!(run(&network, &mut state, 2, 13), Err(Range));
    let mut bad = network.clone();
    bad.routes[0] = 1;
    assert_eq!(run(&bad, &mut state, 2, 13), Err(Route));
    bad.channels[0] = 9;
    assert_eq!(run(&bad, &mut state, 2, 13), Err(Channel));
    bad.depth = 9;
    assert_eq!(run(&bad, &mut state, 2, 13), Err(Limits));
    bad.edition = 0;
    assert_eq!(run(&bad, &mut state, 2, 13), Err(Edition));
    bad.version = 3;
    assert_eq!(run(&bad, &mut state, 2, 13), Err(Version));
    assert_eq!(state, before);
}

#[test]
fn single_send_numbers() {
    let network = one_site();
    let mut state = State { counter: 254, ..State::empty() };
    assert_eq!(send(&network, &mut state, 1, 1), Err(Address));
    assert_eq!(send(&network, &mut state, 0, 0), Err(Set));
    assert_eq!(send(&network, &mut state, 0, 2), Err(Set));
    assert_eq!(send(&network, &mut state, 0, 1 << 63 | 1), Err(Set));
    assert_eq!(send(&network, &mut state, 0, 1), Ok(254));
    assert_eq!(state.counter, 255);
    assert_eq!(send(&network, &mut state, 0, 1), Err(Spent));
}
