//! P1 to P9 and run R of document 01, and what its list of errors warns of.

use crate::helpers::{hub, one_site, two_sites, Bench};
use reference::archive::read;
use reference::draws::{event, Draws};
use reference::making::corpus::run_r;
use reference::player::{play, Counts};
use reference::print::report;
use reference::refusal::Refusal;
use reference::single::send;
use reference::state::{OutEntry, Phase, State, Terminator};
use reference::step::Answer;

#[test]
fn p1_to_p3_draws() {
    let mut draws = Draws::new(1);
    let values = [draws.next_value(), draws.next_value()];
    assert_eq!(values, [270_369, 67_634_689]);
    assert_eq!(values.map(|value| event(value, 1, 13)), [(0, 8), (0, 5)]);
    assert_eq!(event(270_369, 2, 13), (1, 8));
}

#[test]
fn p4_one_site_services() {
    let mut bench = Bench::new(one_site());
    assert_eq!(bench.send(0, 0b1), 0);
    bench.steps(0, &[10, 0, 5, 10, 0, 5]);
    assert_eq!(bench.answer(0, 11), Ok(Answer::Serviced { packet: 0, site: 0 }));
    assert_eq!(bench.state, State { counter: 1, ..State::empty() });
}

/// P5: the bench after SEND 0 {0,1} and codes 10, 0, 5, 12 at site 0.
fn aborted() -> Bench {
    let mut bench = Bench::new(two_sites());
    bench.send(0, 0b11);
    bench.steps(0, &[10, 0, 5, 12]);
    bench
}

#[test]
fn p5_timeout_aborts() {
    let mut bench = aborted();
    assert_eq!(bench.input(0, 0).phase, Phase::Abort);
    assert_eq!(bench.output(0, 1).terminator, Terminator::Abort);
}

#[test]
fn p6_services_and_requeues() {
    let mut bench = aborted();
    bench.steps(0, &[10, 0, 5]);
    assert_eq!(bench.answer(0, 11), Ok(Answer::Serviced { packet: 0, site: 0 }));
    let rest = OutEntry { packet: 0, set: 0b10, started: false };
    assert_eq!(bench.state.out_queues[0].items(), [rest]);
}

#[test]
fn p7_keep_local_and_end() {
    let mut bench = Bench::new(two_sites());
    bench.send(0, 0b11);
    bench.steps(0, &[10, 0, 5, 6]);
    bench.steps(1, &[1]);
    bench.steps(0, &[10, 0]);
    assert_eq!(bench.output(0, 0).terminator, Terminator::KeepLocal);
    assert_eq!(bench.output(0, 1).terminator, Terminator::End);
}

#[test]
fn p8_second_send_is_full() {
    let mut network = one_site();
    network.depth = 1;
    let mut state = State::empty();
    assert_eq!(send(&network, &mut state, 0, 1), Ok(0));
    assert_eq!(send(&network, &mut state, 0, 1), Err(Refusal::Full));
}

#[test]
fn p9_seed_0() {
    let mut bytes = run_r();
    bytes[9] = 0;
    assert_eq!(read(&bytes), Err(Refusal::Seed));
    assert_eq!(report(&bytes).line, "refused 4");
}

#[test]
fn run_r_owes_its_packet() {
    let counts = Counts { accepted: 1, pairs: 1, serviced: 0, owed: 1 };
    assert_eq!(play(&run_r(), &mut [0; 4]), Ok(counts));
    let report = report(&run_r());
    assert_eq!(
        (report.services.as_str(), report.line.as_str()),
        ("", "accepted 1 pairs 1 serviced 0 owed 1")
    );
}

#[test]
fn a_branch_is_not_serviced_before_its_terminator() {
    let mut bench = Bench::new(one_site());
    bench.send(0, 1);
    bench.steps(0, &[10, 0, 5]);
    assert_eq!(bench.run(0, 11), 0);
}

#[test]
fn a_split_gives_output_0_the_whole_set() {
    let mut bench = Bench::new(hub());
    bench.send(0, 0b1011);
    bench.steps(0, &[10, 0]);
    let sets = [0, 1, 2, 3].map(|port| bench.output(0, port).set);
    assert_eq!(sets, [0b1011, 0b0010, 0, 0b1000]);
}

#[test]
fn terminators_are_given_at_one_stroke() {
    let mut bench = Bench::new(hub());
    bench.send(0, 0b1110);
    bench.steps(0, &[10, 0, 5, 6, 7, 8]);
    (1..4).for_each(|site| bench.steps(site, &[1]));
    bench.steps(0, &[10, 0]);
    let given = [0, 1, 2, 3].map(|port| bench.output(0, port).terminator);
    assert_eq!(given, [Terminator::Abort, Terminator::End, Terminator::End, Terminator::End]);
    assert_eq!(bench.input(0, 0).phase, Phase::Free);
}

#[test]
fn a_received_abort_stays_abort_at_a_split() {
    let mut bench = Bench::new(hub());
    bench.send(1, 0b1011);
    bench.steps(1, &[10, 0, 5, 6]);
    // The hub splits what it gets, {0,3}, again.
    bench.steps(0, &[1, 5, 8]);
    bench.steps(3, &[1]);
    // Site 1 aborts its branch to the hub.
    bench.steps(1, &[12, 6]);
    assert_eq!(bench.input(0, 1).received, Terminator::Abort);
    bench.steps(0, &[1]);
    let given = [0, 3].map(|port| bench.output(0, port).terminator);
    assert_eq!(given, [Terminator::Abort, Terminator::Abort]);
}
