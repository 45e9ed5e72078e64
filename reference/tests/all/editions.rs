//! Edition 2: a terminator delivered leaves outputs 1 to 4 closing, until the input at the end of the channel is free.

use crate::helpers::{hub, one_site, two_sites, Bench};
use reference::archive::Run;
use reference::making::rng::Rng;
use reference::making::runs::{twins, wide_run};
use reference::network::Network;
use reference::owing::owed;
use reference::player::Play;
use reference::print::report;
use reference::state::{Connection, InEntry, Input, Output, Phase, State, Terminator, PHASES};
use reference::trace::trace;
use reference::watch::Rule;

/// Packet 0 to {1}, fed by input 3, its terminator delivered.
const CLOSING: Output = Output {
    set: 2,
    used: true,
    packet: 0,
    input: 3,
    head: true,
    terminator: Terminator::None,
    closing: true,
};

fn bench(edition: u8, network: Network) -> Bench {
    let mut bench = Bench::new(network.in_edition(edition));
    bench.state.counter = 1;
    bench
}

/// An input in this state, connected to output 0 of its site where it has to be.
fn put(bench: &mut Bench, site: usize, port: usize, phase: Phase) {
    let input = Input { phase, set: 2, packet: 0, ..Input::default() };
    let split = Input { connection: Connection::SomeLocal, outputs: 1, ..input };
    *bench.input(site, port) = match phase {
        Phase::Free => Input::default(),
        Phase::Seek => input,
        Phase::Done | Phase::Last | Phase::FinAbort => Input { received: Terminator::End, ..split },
        _ => split,
    };
    if !matches!(phase, Phase::Free | Phase::Seek) {
        let local = Output { set: 2, used: true, input: port as u8, head: true, ..Output::default() };
        *bench.output(site, 0) = local;
    }
}

#[test]
fn a_terminator_delivered() {
    for terminator in [Terminator::End, Terminator::Abort] {
        for (phase, next) in [(Phase::Open, Phase::Done), (Phase::Abort, Phase::FinAbort)] {
            for (edition, after) in [(1, Output::default()), (2, CLOSING)] {
                let mut bench = bench(edition, two_sites());
                put(&mut bench, 1, 1, phase);
                *bench.output(0, 1) = Output { terminator, closing: false, ..CLOSING };
                let mut expected = bench.state.clone();
                expected.outputs[1] = after;
                (expected.inputs[6].phase, expected.inputs[6].received) = (next, terminator);
                bench.steps(0, &[6]);
                assert_eq!(bench.state, expected, "edition {edition} {terminator:?} {phase:?}");
            }
        }
    }
}

#[test]
fn a_closing_output_steps() {
    for phase in PHASES {
        let mut bench = bench(2, two_sites());
        put(&mut bench, 1, 1, phase);
        let free = bench.state.clone();
        *bench.output(0, 1) = CLOSING;
        let held = bench.state.clone();
        let (answer, after) = if phase == Phase::Free { (1, free) } else { (0, held) };
        assert_eq!(bench.run(0, 6), answer, "{phase:?}");
        assert_eq!(bench.state, after, "{phase:?}");
    }
}

#[test]
fn without_a_channel_it_never_moves() {
    let mut bench = bench(2, two_sites());
    *bench.output(0, 2) = CLOSING;
    let before = bench.state.clone();
    assert_eq!(bench.run(0, 7), 0);
    assert_eq!(bench.state, before);
}

#[test]
fn a_channel_to_its_own_site() {
    let mut network = one_site();
    network.join((0, 2), (0, 3));
    let mut bench = bench(2, network);
    *bench.output(0, 2) = Output { set: 1, ..CLOSING };
    *bench.input(0, 3) = Input { phase: Phase::Seek, set: 1, ..Input::default() };
    assert_eq!(bench.run(0, 7), 0);
    *bench.input(0, 3) = Input::default();
    bench.steps(0, &[7]);
    assert_eq!(bench.state, State { counter: 1, ..State::empty() });
}

#[test]
fn output_0_never_closes() {
    for edition in [1, 2] {
        let mut bench = bench(edition, one_site());
        bench.state.in_queues[0].push(InEntry { set: 1, ..InEntry::default() });
        *bench.output(0, 0) = Output { set: 1, terminator: Terminator::End, closing: false, ..CLOSING };
        bench.steps(0, &[5]);
        assert_eq!(*bench.output(0, 0), Output::default());
    }
}

#[test]
fn a_closing_output_owes_nothing() {
    let mut state = State { counter: 1, ..State::empty() };
    state.outputs[1] = CLOSING;
    assert_eq!(owed(&state), 0);
    state.outputs[1] = Output { closing: false, terminator: Terminator::End, ..CLOSING };
    assert_eq!(owed(&state), 1);
}

/// The hub, where site 1 is reached by outputs 1 and then 2, and a packet to it asks at input 0.
fn asking(tries: u8, closing: &[usize]) -> Bench {
    let mut bench = bench(2, hub());
    bench.network.set_route(0, 1, 0x1200);
    *bench.input(0, 0) = Input { phase: Phase::Seek, set: 2, tries, ..Input::default() };
    closing.iter().for_each(|&port| *bench.output(0, port) = CLOSING);
    bench
}

#[test]
fn the_router_takes_no_closing_output() {
    let mut bench = asking(0, &[1]);
    bench.steps(0, &[0]);
    assert_eq!((bench.input(0, 0).connection, bench.input(0, 0).outputs), (Connection::Unicast, 0b100));
    assert_eq!(*bench.output(0, 1), CLOSING);
    let mut bench = asking(2, &[1, 2]);
    bench.steps(0, &[0]);
    assert_eq!((bench.input(0, 0).phase, bench.input(0, 0).tries), (Phase::Seek, 3));
    bench.steps(0, &[0]);
    assert_eq!((bench.input(0, 0).connection, bench.input(0, 0).outputs), (Connection::Handed, 1));
    let mut bench = asking(3, &[1, 2]);
    bench.occupy(0, 0);
    assert_eq!(bench.run(0, 0), 0);
}

/// Two or more targets: a split fails where a target's only output is closing, and passes through another one.
#[test]
fn a_split_without_a_closing_output() {
    let mut bench = bench(2, hub());
    *bench.input(0, 0) = Input { phase: Phase::Seek, set: 0b1010, ..Input::default() };
    *bench.output(0, 3) = CLOSING;
    bench.steps(0, &[0]);
    assert_eq!((bench.input(0, 0).connection, bench.input(0, 0).outputs), (Connection::Passthru, 0b10));
    assert_eq!(bench.output(0, 1).set, 0b1010);
    assert_eq!(*bench.output(0, 3), CLOSING);
}

/// A timeout gives abort to connected outputs alone.
#[test]
fn a_timeout_leaves_a_closing_output_alone() {
    let mut bench = bench(2, hub());
    bench.send(0, 0b101);
    bench.steps(0, &[10, 0, 5]);
    *bench.output(0, 1) = CLOSING;
    bench.steps(0, &[12]);
    assert_eq!(bench.output(0, 2).terminator, Terminator::Abort);
    assert_eq!(*bench.output(0, 1), CLOSING);
}

/// Two packets to {1} from site 0: in edition 1 the second takes the channel while the first is still at work there.
#[test]
fn the_next_packet_waits_for_the_channel() {
    let before = [(0, 10), (0, 0), (0, 6), (1, 1), (1, 5), (0, 10), (0, 0), (0, 6), (0, 10)];
    for edition in [1, 2] {
        let mut bench = Bench::new(Network { depth: 2, ..two_sites() }.in_edition(edition));
        assert_eq!((bench.send(0, 2), bench.send(0, 2)), (0, 1));
        before.into_iter().for_each(|(site, code)| bench.steps(site, &[code]));
        assert_eq!(bench.output(0, 1).closing, edition == 2);
        bench.steps(0, &[0]);
        bench.steps(1, &[1]);
        assert_eq!(*bench.input(1, 1), Input::default());
        let (asked, output) = (*bench.input(0, 0), *bench.output(0, 1));
        bench.steps(0, &[6]);
        if edition == 1 {
            assert_eq!((asked.phase, output.packet, output.head), (Phase::Open, 1, false));
            assert_eq!((bench.input(1, 1).phase, bench.input(1, 1).packet), (Phase::Seek, 1));
        } else {
            assert_eq!((asked.phase, asked.tries, output), (Phase::Seek, 1, Output { input: 0, ..CLOSING }));
            assert_eq!(*bench.output(0, 1), Output::default());
            assert_eq!(*bench.input(1, 1), Input::default());
        }
    }
}

/// From the empty start an output 1 to 4 of editions 2 and 3 is emptied while its input is free: a head passes at once.
#[test]
fn in_later_editions_no_head_waits() {
    let mut rng = Rng::new(81);
    let (mut passed, mut waited) = ([0, 0], [0, 0]);
    for _ in 0..300 {
        let run = wide_run(&mut rng, false);
        let wiring = run.network.wiring().expect("valid");
        let mut play = Play::start(&run, &wiring, Vec::new());
        (0..run.draws).for_each(|_| {
            play.draw();
        });
        let count = |rules: &[Rule]| play.watch.iter().filter(|rule| rules.contains(rule)).count();
        passed[wiring.closes as usize] += count(&[Rule::HeadPassed, Rule::HeadPassedSelf]);
        waited[wiring.closes as usize] += count(&[Rule::HeadInputBusy]);
    }
    assert!(passed[0] > 0 && passed[1] > 0 && waited[0] > 0);
    assert_eq!(waited[1], 0);
}

/// Without a channel nothing closes; with channels some runs of editions 1 and 2 differ.
#[test]
fn the_same_archive_in_editions_1_and_2() {
    let mut rng = Rng::new(82);
    let (mut alone, mut differ) = (0, 0);
    for _ in 0..600 {
        let run = wide_run(&mut rng, false);
        let [_, early, held, _] = editions(&run);
        let same = early == held;
        if run.network.sites == 1 {
            assert!(same);
            alone += 1;
        }
        differ += usize::from(!same);
    }
    assert!(alone > 10 && differ > 20, "{alone} of one site, {differ} that differ");
}

/// What `play` prints of the run in each edition, by its number.
fn editions(run: &Run) -> [String; 4] {
    let mut printed = [const { String::new() }; 4];
    for run in std::iter::once(run).chain(&twins(run)) {
        let report = report(&run.bytes());
        printed[run.network.edition as usize] = report.services + &report.line;
    }
    printed
}

fn at_root(name: &str) -> Vec<u8> {
    std::fs::read(format!("{}/../{name}.bin", env!("CARGO_MANIFEST_DIR"))).expect("an archive")
}

fn stored(name: &str) -> Vec<u8> {
    at_root(&format!("corpus/{name}"))
}

/// What examples/README.md says of its pair.
#[test]
fn the_example() {
    let [early, mut held] = ["e1", "e2"].map(|edition| at_root(&format!("examples/held-{edition}")));
    let books = [&early, &held].map(|bytes| report(bytes).services);
    assert_eq!(books, ["100 0 1\n166 1 1\n", "100 0 1\n190 1 1\n"]);
    let lines = [&early, &held].map(|bytes| trace(bytes, false).expect("valid"));
    assert!(lines[0]
        .contains("draw 79: site 0, net-output 1: packet 1 goes to site 1, net-input 1, free to seek\n"));
    assert!(lines[1]
        .contains("draw 79: site 0, net-output 1: packet 0 gives up its channel to site 1, net-input 1\n"));
    held[3] = 1;
    assert!(held == early);
}

/// The archives of the corpus that are there in both editions differ in the edition byte alone, and some in their
/// books.
#[test]
fn pairs_of_the_corpus() {
    let folder = std::fs::read_dir(concat!(env!("CARGO_MANIFEST_DIR"), "/../corpus")).expect("the folder");
    let names = folder.map(|entry| entry.expect("an entry").file_name().into_string().expect("a name"));
    let mut differ = Vec::new();
    let mut pairs = 0;
    for name in names.filter(|name| name.starts_with("e2-load-") || name.starts_with("e2-differs-")) {
        let name = name.trim_start_matches("e2-").trim_end_matches(".bin");
        let [mut held, early] = ["e2", "v2"].map(|edition| stored(&format!("{edition}-{name}")));
        let books = [&held, &early].map(|bytes| report(bytes).services);
        assert_eq!((held[3], early[3]), (2, 1), "{name}");
        held[3] = 1;
        assert!(held == early, "{name}: the same but for the edition");
        pairs += 1;
        if books[0] != books[1] {
            differ.push(name.to_string());
        }
    }
    differ.sort();
    assert_eq!(pairs, 16);
    assert!(!differ.contains(&"load-one-site".to_string()));
    for name in ["differs-49-bytes", "differs-53-draws", "load-torus-4x4", "load-torus-8x8"] {
        assert!(differ.contains(&name.to_string()), "{name}: {differ:?}");
    }
}

/// Two sites, T = 3, D = 1, 17 draws, three sends of {1}; corpus/typed/e2-hand-held.hex works it out.
#[test]
fn lines_of_the_trace() {
    let file = |edition: &str| stored(&format!("{edition}-hand-held"));
    let lines = |name| trace(&file(name), false).expect("valid");
    let end = "draw 13: site 0, net-output 1: end of packet 0 goes to site 1, net-input 1, open to done";
    assert!(lines("v2").contains(&format!("{end}\n")));
    assert!(lines("e2").contains(&format!("{end}, closing\n")));
    assert!(lines("e2").contains("draw 15: site 0, net-input 0: packet 1, seek, try 1 of 3\n"));
    let mut longer = file("e2");
    (longer[11], longer[12]) = (3, 232);
    for packet in [0, 1] {
        let emptied =
            format!(": site 0, net-output 1: packet {packet} gives up its channel to site 1, net-input 1\n");
        assert_eq!(trace(&longer, false).expect("valid").matches(&emptied).count(), 1, "packet {packet}");
    }
}
