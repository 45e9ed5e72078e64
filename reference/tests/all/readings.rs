//! How document 01's rules are read, point by point; what other files test is not repeated here.

use crate::helpers::{hub, one_site, two_sites, Bench};
use reference::state::{Connection, InEntry, Input, OutEntry, Output, Phase, Terminator};
use reference::step::Answer;

#[test]
fn r1_r2_passthru_with_output_0_empty_leaves_nothing_of_the_split() {
    let mut bench = Bench::new(hub());
    bench.send(0, 0b1110);
    bench.occupy(0, 3);
    bench.steps(0, &[10, 0]);
    let input = *bench.input(0, 0);
    assert_eq!((input.connection, input.outputs, input.phase), (Connection::Passthru, 0b10, Phase::Open));
    assert_eq!(bench.output(0, 1).set, 0b1110);
    assert_eq!(*bench.output(0, 2), Output::default());
    assert_eq!(*bench.output(0, 0), Output::default());
}

#[test]
fn r3_one_remote_output_and_the_own_site_is_a_split() {
    let mut bench = Bench::new(two_sites());
    bench.send(0, 0b11);
    bench.steps(0, &[10, 0]);
    assert_eq!((bench.input(0, 0).connection, bench.input(0, 0).outputs), (Connection::SomeLocal, 0b11));
}

#[test]
fn r4_tries_stay_after_success_and_at_t_a_failed_ask_answers_0() {
    let mut bench = Bench::new(two_sites());
    bench.send(0, 0b10);
    bench.occupy(0, 1);
    bench.occupy(0, 0);
    bench.steps(0, &[10, 0, 0, 0]);
    assert_eq!(bench.input(0, 0).tries, 3);
    assert_eq!(bench.run(0, 0), 0);
    *bench.output(0, 1) = Output::default();
    bench.steps(0, &[0]);
    assert_eq!((bench.input(0, 0).phase, bench.input(0, 0).tries), (Phase::Open, 3));
    bench.steps(0, &[6]);
    bench.steps(1, &[1]);
    bench.steps(0, &[10, 0]);
    assert_eq!(*bench.input(0, 0), Input::default());
}

#[test]
fn r4_below_t_output_0_is_not_handed() {
    let mut bench = Bench::new(two_sites());
    bench.send(0, 0b10);
    bench.occupy(0, 1);
    bench.steps(0, &[10, 0, 0, 0]);
    assert_eq!(bench.input(0, 0).phase, Phase::Seek);
    bench.steps(0, &[0]);
    assert_eq!((bench.input(0, 0).connection, bench.output(0, 0).set), (Connection::Handed, 0b10));
}

#[test]
fn r5_free_and_abort_have_no_rule() {
    let mut bench = Bench::new(two_sites());
    assert_eq!(bench.run(0, 0), 0);
    bench.send(0, 0b11);
    bench.steps(0, &[10, 0, 5, 12]);
    assert_eq!(bench.input(0, 0).phase, Phase::Abort);
    assert_eq!(bench.run(0, 0), 0);
}

#[test]
fn r6_an_input_just_connected_takes_a_terminator() {
    let mut bench = Bench::new(two_sites());
    bench.send(0, 0b10);
    bench.steps(0, &[10, 0, 10]);
    assert_eq!((bench.input(0, 0).phase, bench.input(0, 0).received), (Phase::Done, Terminator::End));
    assert!(!bench.output(0, 1).head);
    bench.steps(0, &[0]);
    assert_eq!(bench.input(0, 0).phase, Phase::Last);
}

#[test]
fn r7_a_channel_to_its_own_site_carries() {
    let mut network = one_site();
    network.join((0, 2), (0, 3));
    let mut bench = Bench::new(network);
    bench.occupy(0, 2);
    bench.steps(0, &[7]);
    let taken = Input { phase: Phase::Seek, set: 1, ..Input::default() };
    assert_eq!((*bench.input(0, 3), bench.output(0, 2).head), (taken, true));
    bench.output(0, 2).terminator = Terminator::End;
    assert_eq!(bench.run(0, 7), 0);
    bench.steps(0, &[3, 7]);
    assert_eq!((bench.input(0, 3).phase, *bench.output(0, 2)), (Phase::Done, Output::default()));
}

#[test]
fn r7_an_output_without_a_channel_never_moves() {
    let mut bench = Bench::new(two_sites());
    bench.occupy(0, 4);
    assert_eq!(bench.run(0, 9), 0);
    let open = Input { phase: Phase::Open, connection: Connection::Unicast, set: 1, ..Input::default() };
    *bench.input(0, 4) = Input { outputs: 0b10000, ..open };
    bench.output(0, 4).head = true;
    bench.steps(0, &[4]);
    assert_eq!(bench.input(0, 4).phase, Phase::Wait);
    assert_eq!(bench.run(0, 4), 0);
    *bench.input(0, 4) = Input::default();
    bench.output(0, 4).terminator = Terminator::End;
    assert_eq!(bench.run(0, 9), 0);
}

#[test]
fn r8_the_table_goes_by_the_output() {
    let mut bench = Bench::new(two_sites());
    bench.state.counter = 1;
    let done =
        Input { phase: Phase::Done, received: Terminator::End, set: 3, outputs: 1, ..Input::default() };
    for (connection, expected) in [
        (Connection::Unicast, Terminator::End),
        (Connection::Passthru, Terminator::End),
        (Connection::Handed, Terminator::End),
        (Connection::AllRemote, Terminator::Abort),
        (Connection::SomeLocal, Terminator::KeepLocal),
    ] {
        for (received, expected) in [(Terminator::End, expected), (Terminator::Abort, Terminator::Abort)] {
            *bench.output(0, 0) = Output { used: true, set: 3, input: 2, head: true, ..Output::default() };
            *bench.input(0, 2) = Input { connection, received, ..done };
            bench.steps(0, &[2]);
            assert_eq!(bench.output(0, 0).terminator, expected, "{connection:?} {received:?}");
            assert_eq!(*bench.input(0, 2), Input::default());
        }
    }
}

#[test]
fn r9_an_aborted_branch_still_sends_its_head() {
    let mut bench = Bench::new(two_sites());
    bench.send(0, 0b11);
    bench.steps(0, &[10, 0, 5, 12, 6]);
    assert_eq!(bench.input(1, 1).phase, Phase::Seek);
    let output = *bench.output(0, 1);
    assert_eq!((output.head, output.terminator), (true, Terminator::Abort));
    assert_eq!(bench.run(0, 6), 0);
    bench.steps(1, &[1]);
    bench.steps(0, &[6]);
    assert_eq!((bench.input(1, 1).phase, bench.input(1, 1).received), (Phase::Done, Terminator::Abort));
}

#[test]
fn r10_a_terminator_that_the_in_queue_does_not_take_stays() {
    let mut bench = Bench::new(one_site());
    bench.occupy(0, 0);
    (bench.output(0, 0).head, bench.output(0, 0).terminator) = (true, Terminator::End);
    assert_eq!(bench.run(0, 5), 0);
    bench.state.in_queues[0].push(InEntry { set: 1, packet: 0, terminator: Terminator::None });
    bench.state.in_queues[0].push(InEntry { set: 1, packet: 0, terminator: Terminator::Abort });
    assert_eq!(bench.run(0, 5), 0);
    assert_eq!(bench.output(0, 0).terminator, Terminator::End);
}

#[test]
fn r11_r12_the_operator_needs_room_only_for_a_rest() {
    let mut bench = Bench::new(two_sites());
    bench.network.depth = 1;
    bench.state.counter = 3;
    bench.state.out_queues[0].push(OutEntry { set: 2, packet: 2, started: true });
    let entry = |set| InEntry { set, packet: 1, terminator: Terminator::End };
    bench.state.in_queues[0].push(entry(0b11));
    assert_eq!(bench.run(0, 11), 0);
    bench.state.in_queues[0].entries[0] = entry(0b10);
    assert_eq!(bench.run(0, 11), 0);
    bench.state.in_queues[0].entries[0] = entry(0b01);
    assert_eq!(bench.answer(0, 11), Ok(Answer::Serviced { packet: 1, site: 0 }));
    bench.state.in_queues[0].push(entry(0b10));
    bench.state.out_queues[0].pop();
    bench.steps(0, &[11]);
    assert_eq!(bench.state.out_queues[0].entries[0], OutEntry { set: 2, packet: 1, started: false });
    assert_eq!(bench.state.in_queues[0].entries[0], InEntry::default());
}

#[test]
fn the_rest_goes_to_the_back_of_the_out_queue() {
    let mut bench = Bench::new(two_sites());
    bench.state.counter = 2;
    let waiting = OutEntry { set: 1, packet: 0, started: false };
    bench.state.out_queues[0].push(waiting);
    bench.state.in_queues[0].push(InEntry { set: 0b10, packet: 1, terminator: Terminator::End });
    bench.steps(0, &[11]);
    let rest = OutEntry { set: 0b10, packet: 1, started: false };
    assert_eq!(bench.state.out_queues[0].items(), [waiting, rest]);
}

#[test]
fn r13_r14_the_timeout_keeps_terminator_tries_and_output_fields() {
    let mut bench = Bench::new(two_sites());
    bench.send(0, 0b11);
    bench.steps(0, &[10, 0, 5, 10]);
    bench.input(0, 0).tries = 2;
    let (local, remote) = (*bench.output(0, 0), *bench.output(0, 1));
    bench.steps(0, &[12]);
    let input = *bench.input(0, 0);
    assert_eq!((input.phase, input.received, input.tries), (Phase::FinAbort, Terminator::End, 2));
    assert_eq!((input.outputs, input.connection), (1, Connection::SomeLocal));
    assert_eq!(*bench.output(0, 0), local);
    assert_eq!(*bench.output(0, 1), Output { terminator: Terminator::Abort, ..remote });
    assert_eq!(bench.run(0, 12), 0);
}

#[test]
fn timeout_is_ignored_otherwise() {
    let split = || {
        let mut bench = Bench::new(two_sites());
        bench.send(0, 0b11);
        bench.steps(0, &[10, 0, 5]);
        bench
    };
    for connection in [Connection::Unicast, Connection::Passthru, Connection::Handed] {
        let mut bench = split();
        bench.input(0, 0).connection = connection;
        assert_eq!(bench.run(0, 12), 0, "{connection:?}");
    }
    let mut bench = split();
    bench.state.in_queues[0].entries[0].terminator = Terminator::Abort;
    assert_eq!(bench.run(0, 12), 0);
    let mut bench = split();
    bench.state.in_queues[0].pop();
    assert_eq!(bench.run(0, 12), 0);
    let mut bench = split();
    bench.output(0, 0).head = false;
    assert_eq!(bench.run(0, 12), 0);
}
