//! The split output: where it and its connection are in range, clause by clause, and its place in the text forms.

use crate::helpers::{two_sites, Bench};
use reference::making::branches::{break_clause, CLAUSES};
use reference::making::{marks::closing, rng::Rng, states::any_state};
use reference::network::Network;
use reference::owing::{each, owed, Debt};
use reference::range::in_range;
use reference::refusal::Refusal;
use reference::single::{run, send, Event};
use reference::state::{Connection, InEntry, Input, Output, Phase, Queue, State, Terminator};
use reference::text::{read_cases, Case, Form, Writer};

const SPLIT: usize = 5;
const MARK: u8 = 1 << SPLIT;

fn output(input: u8, terminator: Terminator) -> Output {
    Output { used: true, set: 1, input, head: true, terminator, ..Output::default() }
}

fn entry(terminator: Terminator) -> InEntry {
    InEntry { packet: 1, set: 3, terminator }
}

/// Two sites in edition 3, D = 3, counter 2. At site 0: input 0 open on the split output and output 1, input 1 done
/// with abort on output 0 (handed), an entry in the split in-queue. At site 1: the split output with end, connected
/// to none.
fn good() -> Bench {
    let mut bench = Bench::new(Network { depth: 3, ..two_sites() }.in_edition(3));
    bench.state.counter = 2;
    let open = Input { phase: Phase::Open, connection: Connection::Split, set: 3, ..Input::default() };
    *bench.input(0, 0) = Input { outputs: MARK | 2, ..open };
    let done = Input { phase: Phase::Done, connection: Connection::Handed, set: 3, ..Input::default() };
    *bench.input(0, 1) = Input { outputs: 1, received: Terminator::Abort, ..done };
    *bench.output(0, SPLIT) = output(0, Terminator::None);
    *bench.output(0, 1) = output(0, Terminator::None);
    *bench.output(0, 0) = output(1, Terminator::None);
    *bench.output(1, SPLIT) = output(4, Terminator::End);
    bench.state.split_queues[0].push(entry(Terminator::None));
    bench
}

/// One change, and whether the state is in range then; if not, both events are refused with 13 and change nothing.
type Change = fn(&mut Bench);

fn check(expected: bool, changes: &[(&str, Change)]) {
    for (words, change) in changes {
        let mut bench = good();
        change(&mut bench);
        let wiring = bench.network.wiring().expect("a valid network");
        assert_eq!(in_range(&wiring, &bench.state), expected, "{words}");
        let mut state = bench.state.clone();
        let refused = (!expected).then_some(Refusal::Range);
        assert_eq!(run(&bench.network, &mut state, 1, 12).err(), refused, "{words}");
        assert_eq!(state, bench.state, "{words}");
        assert_eq!(send(&bench.network, &mut state, 1, 1).err(), refused, "{words}");
    }
}

/// Without anything of the split output.
fn plain(b: &mut Bench) {
    (*b.input(0, 0), *b.output(0, SPLIT), *b.output(1, SPLIT)) = Default::default();
    b.state.split_queues[0] = Queue::default();
}

#[test]
fn what_passes() {
    check(
        true,
        &[
            ("as it is", |_| ()),
            ("the split output alone", |b| b.input(0, 0).outputs = MARK),
            ("with output 0 too", |b| {
                (b.input(0, 0).outputs, b.output(0, 0).input) = (MARK | 3, 0);
                *b.input(0, 1) = Input::default();
            }),
            ("in done, with abort", |b| {
                (b.input(0, 0).phase, b.input(0, 0).received) = (Phase::Done, Terminator::Abort);
            }),
            ("in wait", |b| b.input(0, 0).phase = Phase::Wait),
            ("in last", |b| (b.input(0, 0).phase, b.input(0, 0).received) = (Phase::Last, Terminator::End)),
            ("head not taken", |b| b.output(0, SPLIT).head = false),
            ("the split output with abort", |b| b.output(1, SPLIT).terminator = Terminator::Abort),
            ("more targets than the own site", |b| b.output(1, SPLIT).set = 3),
            ("without the own site", |b| b.output(1, SPLIT).set = 1),
            ("a full in-queue", |b| {
                (0..2).for_each(|_| b.state.split_queues[0].push(entry(Terminator::None)));
            }),
            ("keep-local in the in-queues and at output 0", |b| {
                b.state.split_queues[0].push(entry(Terminator::KeepLocal));
                b.state.in_queues[0].push(entry(Terminator::KeepLocal));
                *b.input(0, 1) = Input::default();
                b.output(0, 0).terminator = Terminator::KeepLocal;
            }),
            ("an output 1 to 4 closing", |b| *b.output(0, 4) = closing()),
            ("nothing of it", plain),
            ("nothing of it, in edition 1", |b| {
                plain(b);
                b.network.edition = 1;
            }),
        ],
    );
}

#[test]
fn connections() {
    check(
        false,
        &[
            ("6 without the split output", |b| b.input(0, 0).outputs = 2),
            ("6 without, the split output empty", |b| {
                (b.input(0, 0).outputs, *b.output(0, SPLIT)) = (2, Output::default());
            }),
            ("1 with the split output", |b| b.input(0, 0).connection = Connection::Unicast),
            ("2 with the split output", |b| b.input(0, 0).connection = Connection::Passthru),
            ("5 with the split output", |b| b.input(0, 0).connection = Connection::Handed),
            ("3", |b| b.input(0, 1).connection = Connection::AllRemote),
            ("4", |b| b.input(0, 1).connection = Connection::SomeLocal),
            ("4, open", |b| {
                let connection = Connection::SomeLocal;
                *b.input(0, 1) =
                    Input { phase: Phase::Open, connection, set: 3, outputs: 1, ..Input::default() };
            }),
            ("abort", |b| {
                let connection = Connection::SomeLocal;
                *b.input(0, 1) =
                    Input { phase: Phase::Abort, connection, set: 3, outputs: 1, ..Input::default() };
            }),
            ("fin-abort", |b| {
                (b.input(0, 1).phase, b.input(0, 1).connection) = (Phase::FinAbort, Connection::AllRemote);
            }),
            ("abort, 6", |b| b.input(0, 0).phase = Phase::Abort),
            ("seek, the split output marked", |b| {
                *b.input(1, 2) = Input { phase: Phase::Seek, set: 1, outputs: MARK, ..Input::default() };
            }),
            ("free, the split output marked", |b| b.input(1, 2).outputs = MARK),
            ("a seventh output marked", |b| b.input(0, 0).outputs |= 64),
            ("two inputs connected to it", |b| {
                *b.input(0, 2) = Input { outputs: MARK, ..*b.input(0, 0) };
            }),
            ("connected, empty", |b| *b.output(0, SPLIT) = Output::default()),
            ("connected, with end", |b| b.output(0, SPLIT).terminator = Terminator::End),
            ("connected, with abort", |b| b.output(0, SPLIT).terminator = Terminator::Abort),
            ("connected, fed by another", |b| b.output(0, SPLIT).input = 1),
        ],
    );
}

#[test]
fn places() {
    check(
        false,
        &[
            ("keep-local", |b| b.output(1, SPLIT).terminator = Terminator::KeepLocal),
            ("closing", |b| *b.output(1, SPLIT) = closing()),
            ("closing, connected", |b| b.output(0, SPLIT).closing = true),
            ("set empty", |b| b.output(1, SPLIT).set = 0),
            ("set beyond S", |b| b.output(1, SPLIT).set = 5),
            ("packet not below the counter", |b| b.output(1, SPLIT).packet = 2),
            ("feeder 5", |b| b.output(1, SPLIT).input = 5),
            ("not in use", |b| b.output(1, SPLIT).used = false),
            ("empty, head taken", |b| *b.output(1, SPLIT) = Output { head: true, ..Output::default() }),
            ("empty, closing", |b| *b.output(1, SPLIT) = Output { closing: true, ..Output::default() }),
            ("in-queue beyond D", |b| {
                (0..3).for_each(|_| b.state.split_queues[0].push(entry(Terminator::End)));
            }),
            ("in-queue, count 9", |b| b.state.split_queues[0].count = 9),
            ("in-queue, count lower", |b| b.state.split_queues[0].count = 0),
            ("in-queue, count higher", |b| b.state.split_queues[0].count = 2),
            ("in-queue, set empty", |b| b.state.split_queues[0].entries[0].set = 0),
            ("in-queue, set beyond S", |b| b.state.split_queues[0].entries[0].set = 4),
            ("in-queue, packet", |b| b.state.split_queues[0].entries[0].packet = 2),
            ("in-queue, room", |b| b.state.split_queues[0].entries[7].terminator = Terminator::End),
            ("beyond S", |b| *b.output(2, SPLIT) = output(0, Terminator::None)),
            ("beyond S, a mark", |b| b.input(63, 4).outputs = MARK),
            ("beyond S, in-queue", |b| b.state.split_queues[63].count = 1),
        ],
    );
}

#[test]
fn in_editions_1_and_2() {
    let changes: [(&str, Change); 6] = [
        ("the split output", |b| *b.output(1, SPLIT) = output(4, Terminator::End)),
        ("a field of it", |b| b.output(0, SPLIT).input = 1),
        ("its in-queue", |b| b.state.split_queues[1].push(entry(Terminator::End))),
        ("room of its in-queue", |b| b.state.split_queues[1].entries[7].packet = 1),
        ("its mark", |b| b.input(0, 1).outputs |= MARK),
        ("connection 6", |b| b.input(0, 1).connection = Connection::Split),
    ];
    for (version, edition) in [(1, 1), (2, 1), (2, 2)] {
        for (words, change) in changes {
            let mut bench = good();
            plain(&mut bench);
            (bench.network.version, bench.network.edition) = (version, edition);
            assert_eq!(run(&bench.network, &mut bench.state.clone(), 0, 0).err(), None);
            change(&mut bench);
            assert_eq!(run(&bench.network, &mut bench.state, 0, 0), Err(Refusal::Range), "{words}");
        }
    }
}

/// Each clause that the makers break is broken, in states that were in range.
#[test]
fn every_clause_that_is_broken_on_purpose() {
    let mut rng = Rng::new(93);
    for (clause, words) in CLAUSES.iter().enumerate() {
        for _ in 0..40 {
            let network = Network { depth: 3, ..two_sites() }.in_edition(3);
            let state = any_state(&mut rng, &network);
            let event = Event::Run { site: 0, code: 12 };
            let mut case = Case { form: Form::Second, network, state, event };
            assert!(case.outcome(&mut ()).told.is_ok());
            break_clause(&mut rng, &mut case, 1, clause);
            assert_eq!(case.outcome(&mut ()).told, Err(Refusal::Range), "{words}");
        }
    }
}

#[test]
fn what_they_owe() {
    let mut state = State { counter: 2, ..State::empty() };
    state.outputs[SPLIT] = output(0, Terminator::End);
    for terminator in [Terminator::End, Terminator::KeepLocal, Terminator::Abort, Terminator::None] {
        state.split_queues[0].push(entry(terminator));
    }
    let mut debts = Vec::new();
    each(&state, |kind, packet, targets| debts.push((kind, packet, targets)));
    let keeps = (Debt::InQueueKeepLocal, 1, 1);
    assert_eq!(debts, [(Debt::SplitEnd, 0, 1), (Debt::SplitQueueEnd, 1, 3), keeps]);
    state.outputs[SPLIT].terminator = Terminator::Abort;
    assert_eq!(owed(&state), 3);
}

/// The line of site 0 in a case of this form with this state.
fn line(form: Form, state: State) -> String {
    let network = if form == Form::First { two_sites() } else { two_sites().in_edition(3) };
    let case = Case { form, network, state, event: Event::Run { site: 0, code: 13 } };
    let mut text = Writer::default();
    text.cases(std::slice::from_ref(&case));
    assert!(read_cases(&text.text) == [case]);
    text.text.lines().nth(5).expect("site 0").to_string()
}

#[test]
fn the_split_output_in_the_text() {
    let zeros = |count: usize| " 0".repeat(count);
    for form in [Form::First, Form::Second] {
        let mut state = State { counter: 1, ..State::empty() };
        state.outputs[SPLIT] = Output { closing: true, packet: 9, ..output(7, Terminator::KeepLocal) };
        let split = " 3 9 1 7 1 3";
        assert_eq!(line(form, state.clone()), format!("2{}{}{split}{}", zeros(135), zeros(5), zeros(25)));
        state.inputs[3].outputs = MARK | 2;
        state.split_queues[0].push(entry(Terminator::Abort));
        let inputs = format!("{} 1{}", zeros(33 + 6), zeros(4 + 11));
        let queue = format!(" 1 1 3 2{}", zeros(21));
        let expected = format!("2{inputs}{} 0 0 0 1 0{split}{queue}", zeros(80));
        assert_eq!(line(form, state.clone()), expected);
        state.outputs[SPLIT] = Output::default();
        state.split_queues[0] = Queue::default();
        assert!(line(form, state.clone()).starts_with("2 0"));
        state.inputs[3].outputs = 2;
        assert!(line(form, state).starts_with("1 0"));
    }
}

/// A reader takes the mark 2 with 36 zeros too.
#[test]
fn the_mark_2_with_zeros() {
    let site = format!("2 2 1 0 0 1 0 1{}{}\n", " 0".repeat(128), " 0".repeat(36));
    let rest = format!("0\n{site}{}1 0 13\n", "0\n".repeat(63));
    let [case] = &read_cases(&format!("0 1\n2 3 1 3 2\n65535 0\n0 0\n{rest}"))[..] else {
        panic!("one case")
    };
    assert_eq!((case.network.edition, case.state.inputs[0].outputs), (3, 2));
    assert!(case.state.is_zero_split(0) && case.event == Event::Run { site: 0, code: 13 });
}
