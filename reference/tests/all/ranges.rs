//! In range: a state that passes, and for each clause of the sentence states that it alone refuses.

use crate::helpers::{two_sites, Bench};
use reference::range::in_range;
use reference::state::{Connection, InEntry, Input, OutEntry, Output, Phase, Queue, State, Terminator};

/// Two sites, T = 3, D = 4, counter 5. At site 0: input 0 abort on output 0 (all-remote), input 1 open on
/// outputs 1 and 2 (passthru), input 2 done with end on output 3 (unicast), input 3 seek, input 4 free,
/// output 4 with end; two entries in each queue. At site 1: input 1 open on outputs 0 and 1 (some-local).
fn good() -> Bench {
    let mut bench = Bench::new(two_sites());
    bench.network.depth = 4;
    bench.state.counter = 5;
    let input = |phase, connection, received, outputs| Input {
        phase,
        connection,
        received,
        outputs,
        packet: 4,
        set: 3,
        tries: 3,
    };
    use Terminator::{End, None};
    *bench.input(0, 0) = input(Phase::Abort, Connection::AllRemote, None, 0b00001);
    *bench.input(0, 1) = input(Phase::Open, Connection::Passthru, None, 0b00110);
    *bench.input(0, 2) = input(Phase::Done, Connection::Unicast, End, 0b01000);
    *bench.input(0, 3) = input(Phase::Seek, Connection::None, None, 0);
    *bench.input(1, 1) = input(Phase::Open, Connection::SomeLocal, None, 0b00011);
    let output = |input, terminator| {
        let (used, head, closing) = (true, true, false);
        Output { used, packet: 4, set: 2, input, head, terminator, closing }
    };
    for (site, port, feeder, terminator) in [
        (0, 0, 0, None),
        (0, 1, 1, None),
        (0, 2, 1, None),
        (0, 3, 2, None),
        (0, 4, 4, End),
        (1, 0, 1, None),
        (1, 1, 1, None),
    ] {
        *bench.output(site, port) = output(feeder, terminator);
    }
    for started in [true, false] {
        bench.state.out_queues[0].push(OutEntry { packet: 4, set: 1, started });
    }
    for terminator in [Terminator::KeepLocal, None] {
        bench.state.in_queues[0].push(InEntry { packet: 0, set: 3, terminator });
    }
    bench
}

fn holds(bench: &Bench) -> bool {
    in_range(&bench.network.wiring().expect("a valid network"), &bench.state)
}

/// One change, and whether the state is in range then.
type Change = fn(&mut Bench);

fn check(expected: bool, changes: &[(&str, Change)]) {
    assert!(holds(&good()), "the state to start from");
    for (words, change) in changes {
        let mut bench = good();
        change(&mut bench);
        assert!(bench.state != good().state || bench.network != good().network, "{words}: nothing changed");
        assert_eq!(holds(&bench), expected, "{words}");
    }
}

#[test]
fn sets_and_packets_of_used_places() {
    check(
        false,
        &[
            ("input, set empty", |b| b.input(0, 3).set = 0),
            ("input, set beyond S", |b| b.input(0, 3).set = 4),
            ("input, set with bit 63", |b| b.input(0, 1).set |= 1 << 63),
            ("output, set empty", |b| b.output(0, 4).set = 0),
            ("output, set beyond S", |b| b.output(0, 4).set = 6),
            ("out-queue, set empty", |b| b.state.out_queues[0].entries[1].set = 0),
            ("out-queue, set beyond S", |b| b.state.out_queues[0].entries[0].set = 4),
            ("in-queue, set empty", |b| b.state.in_queues[0].entries[0].set = 0),
            ("in-queue, set beyond S", |b| b.state.in_queues[0].entries[1].set = 8),
            ("input, packet not below the counter", |b| b.input(0, 3).packet = 5),
            ("output, packet not below the counter", |b| b.output(0, 4).packet = 5),
            ("out-queue, packet not below the counter", |b| b.state.out_queues[0].entries[1].packet = 5),
            ("in-queue, packet not below the counter", |b| b.state.in_queues[0].entries[1].packet = 255),
            ("counter lower", |b| b.state.counter = 4),
            ("tries above T", |b| b.input(0, 3).tries = 4),
            ("tries above T while connected", |b| b.input(0, 1).tries = 255),
            ("T lower", |b| b.network.tries = 2),
        ],
    );
}

#[test]
fn connections_and_terminators_of_inputs() {
    check(
        false,
        &[
            ("open without connection", |b| b.input(0, 1).connection = Connection::None),
            ("seek with a connection", |b| b.input(0, 3).connection = Connection::Unicast),
            ("open without outputs", |b| b.input(0, 1).outputs = 0),
            ("done without outputs", |b| b.input(0, 2).outputs = 0),
            ("seek with an output", |b| {
                b.input(0, 3).outputs = 16;
                *b.output(0, 4) = Output { terminator: Terminator::None, input: 3, ..*b.output(0, 4) };
            }),
            ("open with a terminator", |b| b.input(0, 1).received = Terminator::End),
            ("abort with a terminator", |b| b.input(0, 0).received = Terminator::Abort),
            ("seek with a terminator", |b| b.input(0, 3).received = Terminator::End),
            ("done without terminator", |b| b.input(0, 2).received = Terminator::None),
            ("done with keep-local", |b| b.input(0, 2).received = Terminator::KeepLocal),
            ("last without terminator", |b| {
                (b.input(0, 2).phase, b.input(0, 2).received) = (Phase::Last, Terminator::None)
            }),
            ("fin-abort without terminator", |b| b.input(0, 0).phase = Phase::FinAbort),
            ("wait with a terminator", |b| b.input(0, 2).phase = Phase::Wait),
        ],
    );
}

#[test]
fn connected_outputs() {
    check(
        false,
        &[
            ("connected output empty", |b| *b.output(0, 3) = Output::default()),
            ("connected output fed by another", |b| b.output(0, 3).input = 1),
            ("connected output with end", |b| b.output(0, 3).terminator = Terminator::End),
            ("connected output with abort", |b| b.output(0, 2).terminator = Terminator::Abort),
            ("two inputs at one output", |b| b.input(0, 2).outputs |= 0b00010),
            ("some-local without output 0", |b| b.input(1, 1).outputs = 0b00010),
            ("all-remote without output 0", |b| b.input(0, 1).connection = Connection::AllRemote),
            ("abort under unicast", |b| b.input(0, 0).connection = Connection::Unicast),
            ("abort under passthru", |b| b.input(0, 0).connection = Connection::Passthru),
            ("abort under handed", |b| b.input(0, 0).connection = Connection::Handed),
            ("abort with a second output", |b| b.input(1, 1).phase = Phase::Abort),
            ("fin-abort with a second output", |b| {
                (b.input(1, 1).phase, b.input(1, 1).received) = (Phase::FinAbort, Terminator::End)
            }),
            ("fin-abort under unicast", |b| b.input(0, 2).phase = Phase::FinAbort),
            ("keep-local at output 4", |b| b.output(0, 4).terminator = Terminator::KeepLocal),
            ("feeder 5", |b| b.output(0, 4).input = 5),
            ("feeder 255", |b| b.output(0, 4).input = 255),
        ],
    );
}

#[test]
fn queues() {
    check(
        false,
        &[
            ("out-queue above D", |b| {
                let entry = b.state.out_queues[0].entries[1];
                (0..3).for_each(|_| b.state.out_queues[0].push(entry));
            }),
            ("in-queue above D", |b| {
                let entry = b.state.in_queues[0].entries[1];
                (0..3).for_each(|_| b.state.in_queues[0].push(entry));
            }),
            ("count far above", |b| b.state.in_queues[0].count = u64::MAX),
            ("count one less", |b| b.state.out_queues[0].count = 1),
            ("count one more", |b| b.state.in_queues[0].count = 3),
            ("second entry started", |b| b.state.out_queues[0].entries[1].started = true),
            ("packet beyond the count", |b| b.state.out_queues[0].entries[2].packet = 1),
            ("set beyond the count", |b| b.state.out_queues[0].entries[7].set = 1),
            ("started beyond the count", |b| b.state.out_queues[1].entries[0].started = true),
            ("in-queue packet beyond the count", |b| b.state.in_queues[0].entries[2].packet = 1),
            ("in-queue set beyond the count", |b| b.state.in_queues[1].entries[0].set = 1),
            ("in-queue terminator beyond the count", |b| {
                b.state.in_queues[0].entries[7].terminator = Terminator::End
            }),
        ],
    );
}

#[test]
fn empty_places_and_sites_beyond() {
    check(
        false,
        &[
            ("free input with packet", |b| b.input(0, 4).packet = 1),
            ("free input with set", |b| b.input(0, 4).set = 1),
            ("free input with output", |b| b.input(0, 4).outputs = 16),
            ("free input with tries", |b| b.input(0, 4).tries = 1),
            ("free input with connection", |b| b.input(0, 4).connection = Connection::Handed),
            ("free input with terminator", |b| b.input(0, 4).received = Terminator::End),
            ("empty output with packet", |b| b.output(1, 4).packet = 1),
            ("empty output with set", |b| b.output(1, 4).set = 1),
            ("empty output with feeder", |b| b.output(1, 4).input = 1),
            ("empty output with head", |b| b.output(1, 4).head = true),
            ("empty output with terminator", |b| b.output(1, 4).terminator = Terminator::End),
            ("site 2, input in use", |b| *b.input(2, 0) = *b.input(0, 3)),
            ("site 15, input tries", |b| b.input(15, 4).tries = 1),
            ("site 2, output in use", |b| *b.output(2, 4) = *b.output(0, 4)),
            ("site 2, out-queue entry", |b| b.state.out_queues[2] = b.state.out_queues[0]),
            ("site 15, out-queue count", |b| b.state.out_queues[15].count = 1),
            ("site 15, in-queue entry", |b| b.state.in_queues[15].entries[7].packet = 1),
            ("site 2, in-queue count", |b| b.state.in_queues[2].count = 1),
            ("site 16, input tries", |b| b.input(16, 0).tries = 1),
            ("site 16, output head", |b| b.output(16, 4).head = true),
            ("site 40, output in use", |b| *b.output(40, 4) = *b.output(0, 4)),
            ("site 63, input in use", |b| *b.input(63, 0) = *b.input(0, 3)),
            ("site 63, out-queue entry", |b| b.state.out_queues[63].entries[7].set = 1),
            ("site 63, in-queue count", |b| b.state.in_queues[63].count = 1),
        ],
    );
}

/// In range is the sentence and no more.
#[test]
fn states_that_no_run_reaches_pass() {
    check(
        true,
        &[
            ("everything empty", |b| b.state = State::empty()),
            ("counter 255", |b| b.state.counter = 255),
            ("several outputs under unicast", |b| b.input(0, 1).connection = Connection::Unicast),
            ("split on output 0 alone", |b| {
                b.input(1, 1).outputs = 1;
                *b.output(1, 1) = Output::default();
            }),
            ("handed on a remote output", |b| b.input(0, 2).connection = Connection::Handed),
            ("output fed by a free input", |b| b.output(0, 4).terminator = Terminator::None),
            ("feeder not connected to it", |b| b.output(0, 4).input = 0),
            ("keep-local at output 0, set without the site", |b| {
                *b.output(1, 0) = Output { terminator: Terminator::KeepLocal, set: 1, ..*b.output(1, 0) };
                *b.input(1, 1) = Input::default();
            }),
            ("started front and input 0 free", |b| {
                *b.input(0, 0) = Input::default();
            }),
            ("in-queue entry without terminator before the last", |b| {
                b.state.in_queues[0].entries[0].terminator = Terminator::None
            }),
            ("queue full at D", |b| {
                let entry = b.state.in_queues[0].entries[1];
                (0..2).for_each(|_| b.state.in_queues[0].push(entry));
            }),
            ("queues empty", |b| b.state.in_queues[0] = Queue::default()),
            ("all-remote with the own site in the set", |b| b.input(1, 1).connection = Connection::AllRemote),
            ("head not taken, terminator there", |b| b.output(0, 4).head = false),
            ("input's and outputs' packets differ", |b| b.output(0, 3).packet = 0),
        ],
    );
}
