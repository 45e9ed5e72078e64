//! Edition 3: a packet splits only into its own site and one way onward, through the split output.

use crate::helpers::{hub, one_site, two_sites, Bench};
use reference::network::Network;
use reference::owing::owed;
use reference::refusal::Refusal;
use reference::router::{Request, Verdict};
use reference::state::Connection::{self, *};
use reference::state::{InEntry, Input, OutEntry, Output, Phase, State, Terminator};
use reference::step::Answer;

/// The split output's number.
const SPLIT: usize = 5;

fn bench(edition: u8, network: Network) -> Bench {
    let mut bench = Bench::new(network.in_edition(edition));
    bench.state.counter = 1;
    bench
}

/// What site 0 of the hub, where site 1 is reached by outputs 1 and then 2, gives the set.
fn decide(set: u64, empty: u8, tries: u8) -> Result<(Connection, [u64; 6]), bool> {
    let mut network = hub().in_edition(3);
    network.set_route(0, 1, 0x1200);
    let wiring = network.wiring().expect("a valid network");
    match (Request { wiring: &wiring, site: 0, set, empty, tries }).decide(&mut ()) {
        Verdict::Connect(choice) => Ok((choice.connection, choice.shares)),
        Verdict::OneMoreTry => Err(true),
        Verdict::Fail => Err(false),
    }
}

const ALL: u8 = 0b111111;

#[test]
fn the_own_site_and_one_way_onward() {
    assert_eq!(decide(0b0011, ALL, 0), Ok((Split, [0, 0b0010, 0, 0, 0, 1])));
    assert_eq!(decide(0b1101, ALL, 0), Ok((Split, [0, 0, 0b1100, 0, 0, 1])));
    assert_eq!(decide(0b1111, ALL, 0), Ok((Split, [0, 0b1110, 0, 0, 0, 1])));
    // A later choice of the lowest target's list; output 0 in use is no obstacle.
    assert_eq!(decide(0b1111, ALL & !0b10, 0), Ok((Split, [0, 0, 0b1110, 0, 0, 1])));
    assert_eq!(decide(0b1011, ALL & !0b1, 0), Ok((Split, [0, 0b1010, 0, 0, 0, 1])));
}

#[test]
fn the_whole_set_that_way() {
    // The split output in use.
    assert_eq!(decide(0b1111, 0b011111, 0), Ok((Passthru, [0, 0b1111, 0, 0, 0, 0])));
    assert_eq!(decide(0b1111, 0b011101, 0), Ok((Passthru, [0, 0, 0b1111, 0, 0, 0])));
    // The own site not among them.
    assert_eq!(decide(0b1110, ALL, 0), Ok((Passthru, [0, 0b1110, 0, 0, 0, 0])));
    assert_eq!(decide(0b1100, ALL, 0), Ok((Passthru, [0, 0, 0b1100, 0, 0, 0])));
    assert_eq!(decide(0b1010, 0b011110, 0), Ok((Passthru, [0, 0b1010, 0, 0, 0, 0])));
}

/// Without a way onward the ask fails, the split output empty or not; other targets' lists are not looked at.
#[test]
fn no_way_onward() {
    for empty in [0b111001, 0b011001] {
        assert_eq!(decide(0b1011, empty, 2), Err(true));
        assert_eq!(decide(0b1010, empty, 2), Err(true));
        assert_eq!(decide(0b1011, empty, 3), Ok((Handed, [0b1011, 0, 0, 0, 0, 0])));
        assert_eq!(decide(0b1011, empty & !1, 3), Err(false));
    }
}

#[test]
fn one_target_as_in_edition_1() {
    assert_eq!(decide(0b0001, ALL, 0), Ok((Unicast, [1, 0, 0, 0, 0, 0])));
    assert_eq!(decide(0b0001, ALL & !1, 0), Err(true));
    assert_eq!(decide(0b0001, ALL & !1, 3), Err(false));
    assert_eq!(decide(0b0010, ALL, 0), Ok((Unicast, [0, 2, 0, 0, 0, 0])));
    assert_eq!(decide(0b0010, 0b011101, 0), Ok((Unicast, [0, 0, 2, 0, 0, 0])));
    assert_eq!(decide(0b0010, 0b111001, 3), Ok((Handed, [2, 0, 0, 0, 0, 0])));
}

/// SEND 0 {0,1} on two sites up to the service at site 0 by code 14 and at site 1 by code 11.
#[test]
fn a_split_from_send_to_service() {
    let mut bench = Bench::new(two_sites().in_edition(3));
    bench.send(0, 0b11);
    bench.steps(0, &[10, 0]);
    let input = *bench.input(0, 0);
    assert_eq!((input.phase, input.connection, input.outputs), (Phase::Open, Split, 0b100010));
    assert_eq!(*bench.output(0, SPLIT), Output { used: true, set: 1, ..Output::default() });
    assert_eq!(*bench.output(0, 1), Output { used: true, set: 2, ..Output::default() });
    bench.steps(0, &[13, 6]);
    assert_eq!(bench.state.split_queues[0].items(), [InEntry { set: 1, ..InEntry::default() }]);
    assert_eq!((bench.run(0, 12), bench.run(0, 14), bench.run(0, 13)), (0, 0, 0));
    bench.steps(1, &[1]);
    assert_eq!(bench.run(0, 0), 0);
    bench.steps(0, &[10, 0]);
    assert_eq!(bench.output(0, SPLIT).terminator, Terminator::End);
    assert_eq!(bench.output(0, 1).terminator, Terminator::End);
    assert_eq!((*bench.input(0, 0), owed(&bench.state)), (Input::default(), 2));
    bench.steps(0, &[13]);
    assert_eq!((*bench.output(0, SPLIT), bench.run(0, 11)), (Output::default(), 0));
    assert_eq!(bench.answer(0, 14), Ok(Answer::Serviced { packet: 0, site: 0 }));
    bench.steps(0, &[6]);
    assert!(bench.output(0, 1).closing && bench.state.is_zero_split(0));
    bench.steps(1, &[5, 1, 5]);
    assert_eq!(bench.answer(1, 11), Ok(Answer::Serviced { packet: 0, site: 1 }));
    bench.steps(0, &[6]);
    assert_eq!(bench.state, State { counter: 1, ..State::empty() });
}

/// The split output is ready when its head is taken; the input of a split waits for it as for the other one.
#[test]
fn a_split_waits_for_both() {
    let mut bench = Bench::new(two_sites().in_edition(3));
    bench.send(0, 0b11);
    bench.steps(0, &[10, 0, 6]);
    bench.steps(1, &[1]);
    bench.steps(0, &[0]);
    assert_eq!((bench.input(0, 0).phase, bench.run(0, 0)), (Phase::Wait, 0));
    bench.steps(0, &[13, 0, 10]);
    bench.output(0, SPLIT).head = false;
    bench.steps(0, &[0]);
    assert_eq!((bench.input(0, 0).phase, bench.run(0, 0)), (Phase::Last, 0));
    bench.output(0, SPLIT).head = true;
    bench.steps(0, &[0, 0]);
    assert_eq!(bench.input(0, 0).phase, Phase::Free);
}

/// Both branches get the received terminator.
#[test]
fn both_branches_get_what_was_received() {
    for received in [Terminator::End, Terminator::Abort] {
        let mut bench = bench(3, hub());
        let done = Input { phase: Phase::Done, received, connection: Split, set: 3, ..Input::default() };
        *bench.input(0, 2) = Input { outputs: 0b100011, ..done };
        for (port, set) in [(0, 3), (1, 2), (SPLIT, 1)] {
            *bench.output(0, port) = Output { used: true, set, input: 2, head: true, ..Output::default() };
        }
        *bench.input(1, 1) = Input { phase: Phase::Open, connection: Unicast, set: 2, ..Input::default() };
        bench.input(1, 1).outputs = 1;
        *bench.output(1, 0) = Output { used: true, set: 2, input: 1, ..Output::default() };
        bench.steps(0, &[2]);
        for port in [0, 1, SPLIT] {
            assert_eq!(bench.output(0, port).terminator, received, "output {port}");
        }
    }
}

/// Room for a head, and the last entry of its own queue for a terminator.
#[test]
fn the_split_output_and_its_queue() {
    let head = Output { used: true, set: 1, input: 3, ..Output::default() };
    let mut bench = bench(3, Network { depth: 2, ..one_site() });
    assert_eq!(bench.run(0, 13), 0);
    *bench.output(0, SPLIT) = head;
    let entry = |terminator| InEntry { packet: 0, set: 1, terminator };
    (0..2).for_each(|_| bench.state.in_queues[0].push(entry(Terminator::None)));
    bench.state.split_queues[0].push(entry(Terminator::End));
    bench.state.split_queues[0].push(entry(Terminator::End));
    assert_eq!(bench.run(0, 13), 0);
    bench.state.split_queues[0].pop();
    bench.steps(0, &[13]);
    assert_eq!((*bench.output(0, SPLIT), bench.run(0, 13)), (Output { head: true, ..head }, 0));
    assert_eq!(bench.state.split_queues[0].items()[1], entry(Terminator::None));
    for terminator in [Terminator::End, Terminator::Abort] {
        *bench.output(0, SPLIT) = Output { head: true, terminator, ..head };
        bench.state.split_queues[0].entries[1] = entry(Terminator::None);
        bench.steps(0, &[13]);
        assert_eq!(bench.state.split_queues[0].items()[1], entry(terminator));
        assert_eq!(*bench.output(0, SPLIT), Output::default());
    }
    *bench.output(0, SPLIT) = Output { head: true, terminator: Terminator::End, ..head };
    assert_eq!(bench.run(0, 13), 0);
    bench.state.split_queues[0] = Default::default();
    assert_eq!(bench.run(0, 13), 0);
    assert_eq!(bench.state.in_queues[0].items(), [entry(Terminator::None); 2]);
}

/// The same rule as the operator's, each on its own queue.
#[test]
fn the_split_operator() {
    use Terminator::{Abort, End, KeepLocal, None};
    let cases = [
        (0b11, None, 0, None, 1),
        (0b01, End, 2, End, 0),
        (0b11, End, 2, End, 0),
        (0b10, End, 1, End, 0),
        (0b01, KeepLocal, 2, End, 0),
        (0b10, KeepLocal, 1, End, 0),
        (0b01, Abort, 1, End, 0),
    ];
    for (set, terminator, answer, _, left) in cases {
        for (code, other) in [(11, 14), (14, 11)] {
            let mut bench = bench(3, two_sites());
            let entry = InEntry { packet: 0, set, terminator };
            match code {
                11 => bench.state.in_queues[0].push(entry),
                _ => bench.state.split_queues[0].push(entry),
            }
            assert_eq!((bench.run(0, other), bench.run(0, code)), (0, answer), "{terminator:?} {set:b}");
            let queues = bench.state.in_queues[0].count + bench.state.split_queues[0].count;
            assert_eq!(queues, left, "{terminator:?} {set:b}");
            let rest = if terminator == End { set & !1 } else { 0 };
            let expected = OutEntry { set: rest, ..OutEntry::default() };
            assert_eq!(bench.state.out_queues[0].items().first(), (rest > 0).then_some(&expected));
        }
    }
}

#[test]
fn the_split_operator_needs_room_for_a_rest() {
    let mut bench = bench(3, Network { depth: 1, ..two_sites() });
    bench.state.out_queues[0].push(OutEntry { set: 1, ..OutEntry::default() });
    bench.state.split_queues[0].push(InEntry { packet: 0, set: 3, terminator: Terminator::End });
    assert_eq!(bench.run(0, 14), 0);
    bench.state.split_queues[0].entries[0].set = 1;
    assert_eq!(bench.run(0, 14), 2);
}

/// A second split finds the split output in use, and its packet goes on whole.
#[test]
fn a_second_packet_goes_on_whole() {
    let mut network = hub().in_edition(3);
    network.set_route(0, 1, 0x1200);
    let mut bench = Bench::new(network);
    bench.send(0, 0b0011);
    bench.steps(0, &[10, 0]);
    *bench.input(0, 2) = Input { phase: Phase::Seek, set: 0b0011, ..Input::default() };
    bench.steps(0, &[2]);
    assert_eq!((bench.input(0, 2).connection, bench.input(0, 2).outputs), (Passthru, 0b100));
    assert_eq!(bench.output(0, 2).set, 0b0011);
}

#[test]
fn codes_by_edition() {
    for (edition, codes) in [(1, 13), (2, 13), (3, 15)] {
        let mut bench = bench(edition, two_sites());
        for code in 0..20 {
            let expected = if code < codes { Ok(Answer::Nothing) } else { Err(Refusal::Address) };
            assert_eq!(bench.answer(1, code), expected, "edition {edition} code {code}");
        }
        assert_eq!(bench.answer(2, 14), Err(Refusal::Address));
        bench.state.split_queues[1].count = 9;
        assert_eq!(bench.answer(1, 15), Err(Refusal::Range), "13 stands before 9");
    }
    let mut bench = Bench::new(two_sites());
    assert_eq!(bench.answer(0, 13), Err(Refusal::Address), "version 1");
}

/// What P5 does in edition 1, a timeout at a split, in edition 3 is nothing.
#[test]
fn timeouts_do_nothing() {
    for (edition, answer) in [(1, 1), (2, 1), (3, 0)] {
        let mut bench = Bench::new(two_sites().in_edition(edition));
        bench.send(0, 0b11);
        bench.steps(0, &[10, 0, if edition == 3 { 13 } else { 5 }]);
        assert_eq!(bench.run(0, 12), answer, "edition {edition}");
    }
}
