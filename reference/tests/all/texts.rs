//! The text forms of single event cases.

use crate::helpers::{one_site, two_sites};
use reference::making::cases::{Maker, KINDS};
use reference::making::edges;
use reference::network::{Network, NO_CHANNEL};
use reference::single::Event;
use reference::state::State;
use reference::text::{read_cases, Case, Form, Writer};

/// So many cases of the form, of every kind.
fn made(seed: u64, form: Form, count: usize) -> Vec<Case> {
    let mut maker = Maker::new(seed, form);
    (0..count).map(|turn| maker.any_case(turn % KINDS.len())).collect()
}

fn text(cases: &[Case]) -> String {
    let mut text = Writer::default();
    text.cases(cases);
    text.text
}

fn outcome(case: &Case) -> String {
    let mut outcome = Writer::default();
    outcome.outcome(&case.outcome(&mut ()));
    outcome.text
}

#[test]
fn texts_read_back() {
    let mut cases = made(5, Form::First, 300);
    cases.extend(edges::cases());
    cases.extend(made(5, Form::Second, 200));
    let text = text(&cases);
    assert!(read_cases(&text) == cases);
    assert!(text.bytes().all(|b| b.is_ascii_digit() || b == b' ' || b == b'\n'));
    assert!(!text.contains("  ") && !text.contains(" \n") && !text.contains("\n\n"));
    for case in &cases {
        assert_eq!(outcome(case).lines().count(), 2 + case.form.room());
    }
}

/// The site line after SEND 0 {0} from the empty state: one entry in the out-queue.
fn sent() -> String {
    let inputs = " 0 0 0 0 0 0 0 0 0 0 0".repeat(5);
    let outputs = " 0 0 0 0 0 0".repeat(5);
    let queues = format!(" 1 0 1 0{} 0{}", " 0 0 0".repeat(7), " 0 0 0".repeat(8));
    format!("1{inputs}{outputs}{queues}\n")
}

fn send_0(form: Form, network: Network) -> Case {
    Case { form, network, state: State::empty(), event: Event::Send { site: 0, set: 1 } }
}

/// One case and its outcome, number by number: one site without channels, D = 2, SEND 0 {0}.
#[test]
fn the_first_form_number_by_number() {
    let case = send_0(Form::First, Network { depth: 2, ..one_site() });
    let nothing = "0\n".repeat(16);
    let expected = format!("1 0\n1 3 2\n0 4 255 255 255 255\n0 0\n0\n{nothing}2 0 1\n");
    assert_eq!(text(std::slice::from_ref(&case)), expected);
    assert_eq!(outcome(&case), format!("0 0 0 0\n1\n{}{}", sent(), "0\n".repeat(15)));
}

/// The same in the second form, version 2.
#[test]
fn the_second_form_number_by_number() {
    let case = send_0(Form::Second, Network { depth: 2, ..one_site() }.in_version(2));
    let nothing = "0\n".repeat(64);
    let expected = format!("0 1\n2 1 1 3 2\n0 4 65535 65535 65535 65535\n0 0\n0\n{nothing}2 0 1\n");
    assert_eq!(text(std::slice::from_ref(&case)), expected);
    assert_eq!(outcome(&case), format!("0 0 0 0\n1\n{}{}", sent(), "0\n".repeat(63)));
}

/// Versions and editions 0 to 255, channels and routes 0 to 65535, in the second form alone.
#[test]
fn the_second_form_holds_everything() {
    let mut network = Network { version: 255, edition: 0, sites: u64::MAX, ..two_sites() };
    (network.channels[0], network.channels[255]) = (255, 256);
    (network.routes[4095], network.routes[0]) = (0xffff, 0xfffe);
    let case = send_0(Form::Second, network);
    assert!(read_cases(&text(std::slice::from_ref(&case))) == [case]);
}

/// 255 is none in the first form, in the fill too; in the second it is an input.
#[test]
fn none_in_both_forms() {
    let rest = format!("0\n{}2 0 1\n", "0\n".repeat(16));
    let [case] = &read_cases(&format!("1 0\n1 3 2\n255 2 255 3\n0 0\n{rest}"))[..] else {
        panic!("one case")
    };
    assert_eq!((case.network.version, case.network.edition), (1, 1));
    assert_eq!(case.network.channels[..4], [NO_CHANNEL, 3, NO_CHANNEL, NO_CHANNEL]);
    assert!(case.network.channels[4..64].iter().all(|&end| end == NO_CHANNEL));
    assert!(case.network.channels[64..].iter().all(|&end| end == 0));
    let rest = format!("0\n{}2 0 1\n", "0\n".repeat(64));
    let [case] = &read_cases(&format!("0 1\n2 1 1 3 2\n65535 2 255 3\n0 0\n{rest}"))[..] else {
        panic!("one case")
    };
    assert_eq!(case.network.channels[..3], [255, 3, NO_CHANNEL]);
    assert_eq!(case.network.channels[255], NO_CHANNEL);
}

#[test]
fn a_refusal_gives_the_state_back_junk_included() {
    for case in made(6, Form::First, 1_500).iter().chain(&made(6, Form::Second, 600)).chain(&edges::cases()) {
        let outcome = case.outcome(&mut ());
        assert!(outcome.told.is_ok() || outcome.state == case.state);
    }
}
