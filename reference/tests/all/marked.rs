//! The mark closing: where it is in range, clause by clause, and its place in the text forms.

use crate::helpers::{two_sites, Bench};
use reference::making::cases::Maker;
use reference::making::marks::closing;
use reference::range::in_range;
use reference::refusal::Refusal;
use reference::single::{run, send, Event};
use reference::state::{Connection, Input, Output, Phase, State, Terminator};
use reference::text::{read_cases, Case, Form, Writer};

/// Two sites in edition 2, counter 2: output 1 of site 0 closing, input 0 open on output 2, output 4 with abort.
fn good() -> Bench {
    let mut bench = Bench::new(two_sites().in_edition(2));
    bench.state.counter = 2;
    *bench.output(0, 1) = closing();
    let connection = Connection::Unicast;
    *bench.input(0, 0) = Input { phase: Phase::Open, connection, set: 2, outputs: 4, ..Input::default() };
    *bench.output(0, 2) = Output { used: true, set: 2, head: true, ..Output::default() };
    *bench.output(0, 4) = Output { used: true, set: 2, terminator: Terminator::Abort, ..Output::default() };
    bench
}

/// One change, and whether the state is in range then; if not, both events are refused with 13 and change nothing.
type Change = fn(&mut Bench);

fn check(expected: bool, changes: &[(&str, Change)]) {
    for (words, change) in changes {
        let mut bench = good();
        change(&mut bench);
        let wiring = bench.network.wiring().expect("a valid network");
        assert_eq!(in_range(&wiring, &bench.state), expected, "{words}");
        let mut state = bench.state.clone();
        let refused = (!expected).then_some(Refusal::Range);
        assert_eq!(run(&bench.network, &mut state, 1, 12).err(), refused, "{words}");
        assert_eq!(state, bench.state, "{words}");
        assert_eq!(send(&bench.network, &mut state, 1, 1).err(), refused, "{words}");
    }
}

#[test]
fn where_the_mark_may_stand() {
    check(
        true,
        &[
            ("at output 1", |_| ()),
            ("at output 3", |b| *b.output(0, 3) = closing()),
            ("at output 4", |b| *b.output(0, 4) = closing()),
            ("at site 1, without a channel", |b| *b.output(1, 2) = closing()),
            ("fed by an input that is connected to another output", |b| b.output(0, 1).input = 0),
            ("fed by a free input", |b| b.output(0, 1).input = 4),
            ("nowhere", |b| b.output(0, 1).closing = false),
            ("nowhere, in edition 1", |b| {
                b.output(0, 1).closing = false;
                b.network.edition = 1;
            }),
        ],
    );
}

#[test]
fn where_it_may_not() {
    check(
        false,
        &[
            ("in edition 1", |b| b.network.edition = 1),
            ("in version 1", |b| (b.network.version, b.network.edition) = (1, 1)),
            ("at output 0", |b| *b.output(0, 0) = closing()),
            ("at an empty place", |b| b.output(0, 3).closing = true),
            ("not in use", |b| b.output(0, 1).used = false),
            ("head not taken", |b| b.output(0, 1).head = false),
            ("with end", |b| b.output(0, 1).terminator = Terminator::End),
            ("with abort", |b| b.output(0, 1).terminator = Terminator::Abort),
            ("with abort, head not taken", |b| b.output(0, 4).closing = true),
            ("connected", |b| b.output(0, 2).closing = true),
            ("connected with another one", |b| b.input(0, 0).outputs = 0b110),
            ("beyond S", |b| b.output(2, 1).closing = true),
            ("beyond S, in use", |b| *b.output(63, 4) = closing()),
            ("set empty", |b| b.output(0, 1).set = 0),
            ("packet not below the counter", |b| b.output(0, 1).packet = 2),
            ("feeder 5", |b| b.output(0, 1).input = 5),
        ],
    );
}

/// Made cases break each clause of the mark: they are refused with 13 by cases in which a mark stands so.
#[test]
fn made_cases_break_every_clause() {
    type Fault = fn(&Case, usize) -> bool;
    let faults: [(&str, Fault); 9] = [
        ("version 1", |case, _| case.network.version == 1),
        ("version 2, edition 1", |case, _| case.network.version == 2 && case.network.edition == 1),
        ("output 0", |_, place| place % 6 == 0),
        ("empty", |case, place| case.state.outputs[place] == Output { closing: true, ..Output::default() }),
        ("not in use", |case, place| !case.state.outputs[place].used && case.state.outputs[place].head),
        ("head not taken", |case, place| case.state.outputs[place].used && !case.state.outputs[place].head),
        ("with a terminator", |case, place| case.state.outputs[place].terminator != Terminator::None),
        ("connected", |case, place| {
            case.state.inputs_of(place / 6).iter().any(|input| input.outputs >> (place % 6) & 1 == 1)
        }),
        ("beyond S", |case, place| place as u64 / 6 >= case.network.sites),
    ];
    let mut maker = Maker::of_edition(64, 2);
    let cases: Vec<Case> = (0..1_500).map(|_| maker.any_case(3)).collect();
    let refused = |case: &&Case| case.outcome(&mut ()).told.err() == Some(Refusal::Range);
    for (words, fault) in faults {
        let shows =
            |case: &Case| (0..384).any(|place| case.state.outputs[place].closing && fault(case, place));
        assert!(cases.iter().filter(refused).any(shows), "{words}");
    }
}

/// The six numbers of output 1 of site 0 in a case with this output.
fn numbers(form: Form, output: Output) -> Vec<u64> {
    let mut state = State { counter: 1, ..State::empty() };
    state.outputs[1] = output;
    let network = if form == Form::First { two_sites() } else { two_sites().in_edition(2) };
    let case = Case { form, network, state, event: Event::Run { site: 0, code: 6 } };
    let mut text = Writer::default();
    text.cases(std::slice::from_ref(&case));
    assert!(read_cases(&text.text) == [case]);
    let line = text.text.lines().nth(5).expect("site 0");
    line.split(' ').skip(1 + 5 * 11 + 6).take(6).map(|word| word.parse().expect("a number")).collect()
}

#[test]
fn the_mark_in_the_text() {
    for form in [Form::First, Form::Second] {
        assert_eq!(numbers(form, closing()), [3, 0, 1, 0, 1, 0]);
        assert_eq!(numbers(form, Output { closing: false, ..closing() }), [1, 0, 1, 0, 1, 0]);
        assert_eq!(numbers(form, Output { closing: true, ..Output::default() }), [2, 0, 0, 0, 0, 0]);
        assert_eq!(numbers(form, Output { input: 255, ..Output::default() }), [0, 0, 0, 255, 0, 0]);
    }
}
