//! Sites far apart, typed by hand; events there in both orders, and the lines of `trace --apart`.

use crate::helpers::{two_sites, Bench};
use reference::apart::{apart, far_apart};
use reference::archive::Run;
use reference::making::{graphs, routes};
use reference::network::{Network, EDITIONS, SITES};
use reference::refusal::Refusal;
use reference::state::{Input, Output, Phase};
use std::path::Path;
use std::process::{Command, Output as Printed};

/// Five sites. Output 4 of site 0 feeds input 2 of site 1, outputs 1 of sites 1 and 3 feed inputs 1 and 4 of site 2,
/// and output 3 of site 2 its own input 3. Site 4 has no channel.
fn five_sites() -> Network {
    let mut network = Network::bare(5, 1, 1);
    network.join((0, 4), (1, 2));
    network.join((1, 1), (2, 1));
    network.join((3, 1), (2, 4));
    network.join((2, 3), (2, 3));
    network
}

/// For each site those far apart from it: none is joined with itself, a channel joins in both directions, and two that
/// feed one third site are far apart.
#[test]
fn far_apart_typed_by_hand() {
    let apart = [&[2, 3, 4][..], &[3, 4], &[0, 4], &[0, 1, 4], &[0, 1, 2, 3]];
    for edition in EDITIONS {
        let network = five_sites().in_edition(edition);
        for (one, others) in apart.iter().enumerate() {
            for other in 0..5 {
                assert_eq!(far_apart(&network, one, other), others.contains(&other), "{one} and {other}");
            }
        }
    }
}

/// One channel joins its two sites, from any output and to any input, at the last sites too.
#[test]
fn every_port_joins() {
    for (sites, from, to) in [(3, 0, 1), (3, 1, 0), (16, 14, 15), (SITES, 0, 63), (SITES, 63, 62)] {
        for (output, input) in (1..5).flat_map(|output| (1..5).map(move |input| (output, input))) {
            let mut network = Network::bare(sites, 1, 1).in_version(2);
            network.join((from, output), (to, input));
            for (one, other) in (0..sites).flat_map(|one| (0..sites).map(move |other| (one, other))) {
                let joined = (one, other) == (from, to) || (one, other) == (to, from);
                assert_eq!(far_apart(&network, one, other), one != other && !joined, "{one} and {other}");
            }
        }
    }
}

/// Whatever stands in the room beyond S, a site there has no channels.
#[test]
fn sites_that_the_network_does_not_have() {
    for channel in [0, 3, 4, 7, 8, 255, 65_535] {
        let mut network = two_sites();
        network.channels[8..].fill(channel);
        assert!(!far_apart(&network, 0, 1) && !far_apart(&network, 1, 0));
        for stray in [2, 3, 15, 16, 63, 64, 16_383, usize::MAX] {
            for other in [0, 1, 4, 62, 65, 1 << 32] {
                assert!(far_apart(&network, stray, other) && far_apart(&network, other, stray));
            }
            assert!(!far_apart(&network, stray, stray));
        }
    }
    let endless = Network { sites: u64::MAX, ..two_sites() };
    assert!(far_apart(&endless, 1, 64) && far_apart(&endless, 64, 65) && !far_apart(&endless, 0, 1));
}

/// Each site to the next one by port 1, the last one to site 0; T = 3, D = 2.
fn ring(sites: usize) -> Network {
    let mut network = graphs::ring(sites, false);
    routes::nearest(&mut network, 1);
    Network { tries: 3, depth: 2, ..network }
}

/// Both ask for the next packet number.
#[test]
fn two_sends_do_not_commute() {
    for edition in EDITIONS {
        let network = ring(4).in_edition(edition);
        assert!(far_apart(&network, 0, 2));
        let (mut one, mut other) = (Bench::new(network.clone()), Bench::new(network));
        assert_eq!((one.send(0, 0b0010), one.send(2, 0b1000)), (0, 1));
        assert_eq!((other.send(2, 0b1000), other.send(0, 0b0010)), (0, 1));
        assert!(one.state != other.state);
        let packets = |bench: &Bench| [0, 2].map(|site| bench.state.out_queues[site].entries[0].packet);
        assert_eq!((packets(&one), packets(&other)), ([0, 1], [1, 0]));
    }
}

/// Output 1 of site 0 holds packet 0, head not taken, and net-input 1 of site 2 seeks with packet 1 for site 3.
fn passing(network: Network) -> Bench {
    let mut bench = Bench::new(network);
    bench.state.counter = 2;
    *bench.output(0, 1) = Output { used: true, set: 0b0010, ..Output::default() };
    *bench.input(2, 1) = Input { phase: Phase::Seek, packet: 1, set: 0b1000, ..Input::default() };
    bench
}

/// In a ring of four the head that site 0 passes goes to site 1: site 2 answers the same before and after it, site 1
/// does not.
#[test]
fn runs_in_both_orders() {
    for edition in EDITIONS {
        let network = ring(4).in_edition(edition);
        let told = |events: [(u64, u64); 2]| {
            let mut bench = passing(network.clone());
            (events.map(|(site, code)| bench.asked(site, code)), bench.state)
        };
        let (passes, connects, asks) = ((0, 6), (2, 1), (1, 1));
        let (one, other) = (told([passes, connects]), told([connects, passes]));
        assert!(one.0 == [(1, 0); 2] && one == other && one.1 != passing(network.clone()).state);
        assert!(!far_apart(&network, 0, 1));
        let (one, other) = (told([passes, asks]), told([asks, passes]));
        assert!(one.0 == [(1, 0), (1, 0)] && other.0 == [(0, 0), (1, 0)] && one.1 != other.1);
    }
}

/// A network or a state that is turned down is so in both orders.
#[test]
fn refused_in_both_orders() {
    let good = passing(ring(4));
    let (mut spoiled, mut twice, mut looped) = (good.state.clone(), ring(4), ring(4));
    spoiled.inputs[0].tries = 1;
    twice.channels[1] = twice.channels[0];
    looped.routes[0] = 0x1000;
    let with = |network: Network| Bench { network, state: good.state.clone() };
    for (bench, refusal) in [
        (Bench { network: ring(4), state: spoiled }, Refusal::Range),
        (with(Network { version: 3, ..ring(4) }), Refusal::Version),
        (with(Network { version: 1, edition: 2, ..ring(4) }), Refusal::Edition),
        (with(Network { tries: 0, ..ring(4) }), Refusal::Limits),
        (with(twice), Refusal::Channel),
        (with(looped), Refusal::Route),
    ] {
        for events in [[(0, 6), (2, 1)], [(2, 1), (0, 6)], [(0, 13), (9, 1)]] {
            let mut next = Bench { network: bench.network.clone(), state: bench.state.clone() };
            assert_eq!(events.map(|(site, code)| next.answer(site, code)), [Err(refusal); 2]);
            assert!(next.state == bench.state);
        }
    }
}

fn stored(network: Network) -> Vec<u8> {
    Run { network, seed: 1, draws: 0, sends: Vec::new() }.bytes()
}

#[test]
fn lines() {
    for edition in EDITIONS {
        let of = |network: Network| apart(&stored(network.in_edition(edition)));
        assert_eq!(of(ring(4)).as_deref(), Ok("0 {2}\n1 {3}\n2 {0}\n3 {1}\n"));
        assert_eq!(of(ring(5)).as_deref(), Ok("0 {2,3}\n1 {3,4}\n2 {0,4}\n3 {0,1}\n4 {1,2}\n"));
        assert_eq!(of(ring(3)).as_deref(), Ok("0 {}\n1 {}\n2 {}\n"));
        assert_eq!(of(Network::bare(1, 1, 1)).as_deref(), Ok("0 {}\n"));
    }
    let bytes = stored(ring(4));
    assert_eq!(apart(&bytes).as_deref(), Ok("0 {2}\n1 {3}\n2 {0}\n3 {1}\n"));
    let number = |bytes: &[u8]| apart(bytes).map_err(Refusal::number);
    assert_eq!(number(&bytes[..bytes.len() - 1]), Err(1));
    assert_eq!(number(&stored(Network { tries: 0, ..ring(4) })), Err(3));
    assert_eq!(number(&stored(Network::bare(4, 1, 1))), Err(7));
}

fn program(words: &[&str]) -> Printed {
    let root = Path::new(concat!(env!("CARGO_MANIFEST_DIR"), "/.."));
    let run = Command::new(env!("CARGO_BIN_EXE_trace")).current_dir(root).args(words).output();
    run.expect("it runs")
}

/// Sites 0 and 63 of the eight by eight torus are joined with 1, 7, 8, 56 and with 7, 55, 56, 62.
#[test]
fn the_program_and_its_words() {
    let told = program(&["--apart", "examples/two-sites.bin"]);
    assert_eq!((told.status.code(), &told.stdout[..]), (Some(0), &b"0 {}\n1 {}\n"[..]));
    let torus = program(&["--apart", "examples/torus-8x8.bin"]);
    let text = String::from_utf8(torus.stdout).expect("a text");
    let without = |joined: [u32; 5]| {
        let others = (0..64).filter(|other| !joined.contains(other)).map(|other| other.to_string());
        format!("{} {{{}}}", joined[0], others.collect::<Vec<_>>().join(","))
    };
    let lines: Vec<&str> = text.lines().collect();
    assert_eq!(lines.len(), 64);
    assert_eq!((lines[0], lines[63]), (&*without([0, 1, 7, 8, 56]), &*without([63, 7, 55, 56, 62])));
    for (name, line) in [("bound-23-bytes", "refused 1\n"), ("e3-refuse-4-seed-0", "refused 4\n")] {
        let refused = program(&["--apart", &format!("corpus/{name}.bin")]);
        assert_eq!((refused.status.code(), &refused.stdout[..]), (Some(1), line.as_bytes()));
    }
    let name = "examples/two-sites.bin";
    for words in [
        &["--apart", "--all", name][..],
        &["--why", "--apart", name],
        &["--apart", "--apart", name],
        &["--apart"],
        &["--apart", name, name],
    ] {
        let told = program(words);
        assert_eq!((told.status.code(), told.stdout.len()), (Some(2), 0), "{words:?}");
        assert_eq!(told.stderr, b"usage: trace [--all | --why | --apart] FILE\n");
    }
}
