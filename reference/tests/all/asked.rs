//! The outputs in the way: at a failure those whose emptying would each, alone, have let the packet connect.

use crate::helpers::{two_sites, Bench};
use reference::coverage::{kind, Coverage};
use reference::draws::{event, Draws};
use reference::making::cases::{Maker, KINDS};
use reference::making::runs::{wide_network, wide_run};
use reference::making::{asked, marks::close_some, rng::Rng, states::any_state};
use reference::network::{Network, EDITIONS, OUTPUTS, PORTS};
use reference::player::Play;
use reference::refusal::Refusal;
use reference::router::Request;
use reference::single::{run, Event};
use reference::state::{Connection, Input, Output, Phase, State, Terminator};
use reference::step::{Answer, Machine};
use reference::text::{read_cases, Case, Form, Writer};
use reference::watch::{is_of, is_of_the_way, Tally, RULES};

/// The split output's number.
const SPLIT: usize = 5;

/// Site 0 with channels to sites 1 to 4, T = 2. Its lists are 1, 2 to site 1; 2, 3 to site 2; 3 to site 3; 4, 1, 3 to
/// site 4.
fn network(edition: u8) -> Network {
    let mut network = Network::bare(5, 2, 1).in_edition(edition);
    for (site, list) in [(1, 0x1200), (2, 0x2300), (3, 0x3000), (4, 0x4130)] {
        network.join((0, site), (site, 1));
        network.join((site, 1), (0, site));
        network.set_route(0, site, list);
        (0..5).filter(|&to| to != site).for_each(|to| network.set_route(site, to, 0x1000));
    }
    network
}

/// The outputs in the way of the set at site 0 with these in use and so many tries.
fn way(edition: u8, set: u64, used: u8, tries: u8) -> u8 {
    let wiring = network(edition).wiring().expect("a valid network");
    Request { wiring: &wiring, site: 0, set, empty: !used & 0b111111, tries }.blocking()
}

#[test]
fn the_own_site_alone() {
    for edition in EDITIONS {
        assert_eq!(way(edition, 0b00001, 0b00001, 0), 0b00001);
        assert_eq!(way(edition, 0b00001, 0b11111, 1), 0b00001);
        assert_eq!(way(edition, 0b00001, 0b11111, 2), 0b00001);
        assert_eq!(way(edition, 0b00001, 0b11110, 0), 0);
    }
    assert_eq!(way(3, 0b00001, 0b100001, 0), 0b00001);
    assert_eq!(way(3, 0b00001, 0b100000, 0), 0);
}

#[test]
fn one_other_target() {
    for edition in EDITIONS {
        assert_eq!(way(edition, 0b00010, 0b00110, 0), 0b00110);
        assert_eq!(way(edition, 0b00010, 0b11111, 2), 0b00110);
        assert_eq!(way(edition, 0b10000, 0b11011, 1), 0b11010);
        assert_eq!(way(edition, 0b01000, 0b01000, 1), 0b01000);
        // One of its list is empty: it connects.
        assert_eq!(way(edition, 0b00010, 0b11011, 0), 0);
        assert_eq!(way(edition, 0b00010, 0b11101, 0), 0);
        assert_eq!(way(edition, 0b10000, 0b10011, 0), 0);
    }
}

/// The lowest target but the own site is the one that has to find an output; the others' outputs alone help nobody.
#[test]
fn several_targets() {
    for edition in EDITIONS {
        for local in [0, 1] {
            assert_eq!(way(edition, 0b01010 | local, 0b00110, 0), 0b00110, "output 3 is empty");
            assert_eq!(way(edition, 0b01010 | local, 0b01110, 0), 0b00110, "output 3 is in use");
            assert_eq!(way(edition, 0b01010 | local, 0b00111, 1), 0b00110, "output 0 is in use");
            assert_eq!(way(edition, 0b11110 | local, 0b11111, 2), 0b00110, "all are in use");
            assert_eq!(way(edition, 0b11000 | local, 0b01000, 0), 0b01000, "output 3 is in both lists");
            assert_eq!(way(edition, 0b10100 | local, 0b11101, 0), 0b01100);
            assert_eq!(way(edition, 0b01010 | local, 0b01010, 0), 0, "output 2 connects");
            assert_eq!(way(edition, 0b01010 | local, 0b11011, 0), 0, "output 2 connects");
        }
    }
    for set in [0b00011, 0b01011, 0b01010] {
        assert_eq!(way(3, set, 0b100110, 0), 0b00110, "the split output is in use");
        assert_eq!(way(3, set, 0b100111, 2), 0b00110);
        assert_eq!(way(3, set, 0b100010, 0), 0);
    }
}

/// A net-input of site 0 in seek for the set, and these outputs in use by packets of input 4.
fn seeking(edition: u8, set: u64, tries: u8, used: &[usize]) -> Bench {
    let mut bench = Bench::new(network(edition));
    bench.state.counter = 1;
    *bench.input(0, 1) = Input { phase: Phase::Seek, set, tries, ..Input::default() };
    used.iter().for_each(|&port| bench.occupy(0, port));
    bench
}

/// Below T answer 1, at T with output 0 in use answer 0; handed on there are none.
#[test]
fn with_the_answer() {
    for edition in EDITIONS {
        let mut bench = seeking(edition, 0b01010, 0, &[0, 1, 2, 3]);
        assert_eq!(bench.asked(0, 1), (1, 0b00110));
        assert_eq!(bench.asked(0, 1), (1, 0b00110));
        let before = bench.state.clone();
        assert_eq!((bench.asked(0, 1), bench.input(0, 1).tries), ((0, 0b00110), 2));
        assert!(bench.state == before);
        *bench.output(0, 0) = Output::default();
        assert_eq!((bench.asked(0, 1), bench.input(0, 1).connection), ((1, 0), Connection::Handed));
        assert_eq!(seeking(edition, 0b00001, 2, &[0]).asked(0, 1), (0, 0b00001));
        assert_eq!(seeking(edition, 0b00001, 2, &[1]).asked(0, 1), (1, 0));
    }
}

#[test]
fn closing_outputs_are_in_use() {
    for edition in [2, 3] {
        for (set, used, closing, outputs) in [
            (0b00010, &[][..], &[1, 2][..], 0b00110),
            (0b00010, &[1], &[2], 0b00110),
            (0b00010, &[], &[1], 0),
            (0b01010, &[0, 2], &[1, 3], 0b00110),
        ] {
            let mut bench = seeking(edition, set, 0, used);
            for &port in closing {
                bench.occupy(0, port);
                (bench.output(0, port).head, bench.output(0, port).closing) = (true, true);
            }
            assert_eq!(bench.asked(0, 1), (1, outputs), "edition {edition} {set:b}");
        }
    }
}

/// Other codes, net-inputs in other states, and refused events.
#[test]
fn where_the_router_is_not_asked() {
    for edition in EDITIONS {
        let bench = || seeking(edition, 0b01010, 0, &[0, 1, 2]);
        let codes = bench().network.codes() as u64;
        for code in (0..codes).filter(|&code| code != 1) {
            assert_eq!(bench().asked(0, code).1, 0, "edition {edition} code {code}");
        }
        assert_eq!(bench().answer(0, codes), Err(Refusal::Address));
        assert_eq!(bench().answer(5, 1), Err(Refusal::Address));
        let mut spoiled = bench();
        spoiled.input(0, 1).tries = 3;
        assert_eq!(spoiled.answer(0, 1), Err(Refusal::Range));
        for phase in [Phase::Open, Phase::Wait, Phase::Done, Phase::Last] {
            let mut bench = bench();
            let connected =
                Input { phase, connection: Connection::Unicast, outputs: 2, ..*bench.input(0, 1) };
            *bench.input(0, 1) = connected;
            bench.output(0, 1).input = 1;
            if matches!(phase, Phase::Done | Phase::Last) {
                bench.input(0, 1).received = Terminator::End;
            }
            assert_eq!(bench.asked(0, 1).1, 0, "edition {edition} {phase:?}");
        }
    }
}

/// The same by another statement: output 0 for the own site alone, else the outputs in use in the list of the lowest
/// other target.
fn by_the_list(network: &Network, state: &State, site: usize, set: u64) -> u8 {
    let others = set & !(1 << site);
    if others == 0 {
        return 1;
    }
    let route = network.routes[network.sites as usize * site + others.trailing_zeros() as usize];
    let ports = [route >> 12, route >> 8 & 15, route >> 4 & 15, route & 15].map(usize::from);
    let used = |port: &&usize| **port != 0 && state.outputs_of(site)[**port].used;
    ports.iter().filter(used).fold(0, |outputs, port| outputs | 1 << port)
}

/// The state with this output emptied; a net-input that is connected to it is free.
fn emptied(state: &State, site: usize, port: usize) -> State {
    let mut state = state.clone();
    state.outputs[OUTPUTS * site + port] = Output::default();
    let connected = |input: &&mut Input| input.outputs >> port & 1 == 1;
    let inputs = state.inputs[PORTS * site..][..PORTS].iter_mut();
    inputs.filter(connected).for_each(|input| *input = Input::default());
    state
}

/// Whether RUN connects the net-input, handed left aside.
fn connects(network: &Network, mut state: State, site: usize, port: usize) -> bool {
    let (answer, _) = run(network, &mut state, site as u64, port as u64).expect("in range");
    let Input { phase, connection, .. } = state.inputs_of(site)[port];
    answer == Answer::Changed && phase == Phase::Open && connection != Connection::Handed
}

/// Asks for the net-input and holds what is told to the definition's sentences; the outputs in the way.
fn check(network: &Network, state: &State, site: usize, port: usize) -> u8 {
    let wiring = network.wiring().expect("valid");
    let (mut stepped, mut next) = (state.clone(), state.clone());
    let answer = Machine { wiring: &wiring, state: &mut stepped, watch: &mut () }.run(site, port);
    let told = run(network, &mut next, site as u64, port as u64).expect("in range");
    assert!(told.0 == answer && next == stepped, "answers and next states are those of the step");
    let Input { phase, set, .. } = state.inputs_of(site)[port];
    let failed = phase == Phase::Seek && next.inputs_of(site)[port].phase == Phase::Seek;
    let outputs = told.1;
    assert_eq!(outputs != 0, failed, "not empty exactly at a failure");
    if !failed {
        return 0;
    }
    assert_eq!(outputs, by_the_list(network, state, site, set));
    assert!(outputs & 1 == 0 || set == 1 << site, "output 0 for the own site alone");
    assert_eq!(outputs >> SPLIT, 0, "never the split output");
    for output in 0..OUTPUTS {
        let named = outputs >> output & 1 == 1;
        let used = state.outputs_of(site)[output].used;
        assert!(used || !named, "only outputs in use");
        if used {
            let connected = connects(network, emptied(state, site, output), site, port);
            assert_eq!(connected, named, "site {site} input {port} output {output}");
        }
    }
    outputs
}

/// What the asks of a made state were like, by edition, and how many connected.
#[derive(Default)]
struct Met {
    ways: [Tally; 4],
    connected: [u32; 4],
}

impl Met {
    fn check(&mut self, network: &Network, state: &mut State, site: usize, port: usize) {
        let edition = network.edition as usize;
        let outputs = check(network, state, site, port);
        self.connected[edition] += u32::from(outputs == 0);
        let wiring = network.wiring().expect("valid");
        Machine { wiring: &wiring, state, watch: &mut self.ways[edition] }.tell_way(site, port);
    }

    /// Every kind that the edition has at least so often, and no other.
    fn has_all(&self, least: u64) {
        for edition in EDITIONS {
            assert!(u64::from(self.connected[edition as usize]) >= least, "{:?}", self.connected);
            shown(edition, &self.ways[edition as usize], least);
        }
    }
}

fn shown(edition: u8, tally: &Tally, least: u64) {
    for (rule, words) in RULES.iter().filter(|(rule, _)| is_of_the_way(*rule)) {
        let count = tally.count(*rule);
        let expected = if is_of(edition, *rule) { count >= least } else { count == 0 };
        assert!(expected, "edition {edition}: {words}, {count} times");
    }
}

fn in_seek(state: &State, site: usize) -> Vec<usize> {
    (0..PORTS).filter(|&port| state.inputs_of(site)[port].phase == Phase::Seek).collect()
}

/// Nothing is in the way of the other events of a site.
fn check_others(network: &Network, state: &State, site: usize) {
    let seeking = in_seek(state, site);
    for code in (0..network.codes()).filter(|code| !seeking.contains(code)) {
        let told = run(network, &mut state.clone(), site as u64, code as u64);
        assert_eq!(told.expect("in range").1, 0, "site {site} code {code}");
    }
}

#[test]
fn from_any_state_in_range() {
    let mut rng = Rng::new(71);
    let mut met = Met::default();
    for turn in 0..3_000 {
        let network = wide_network(&mut rng).in_edition(EDITIONS[turn % 3]);
        let mut state = any_state(&mut rng, &network);
        if network.edition > 1 {
            close_some(&mut rng, &network, &mut state);
        }
        for _ in 0..4 {
            let site = rng.below(network.sites as usize);
            if rng.one_in(2) {
                state = emptied(&state, site, rng.pick(&[0, 0, 1, 2, 3, 4, SPLIT]));
            }
            in_seek(&state, site).into_iter().for_each(|port| met.check(&network, &mut state, site, port));
            if turn % 8 < 3 {
                check_others(&network, &state, site);
            }
        }
    }
    met.has_all(80);
}

#[test]
fn from_states_that_runs_reach() {
    let mut rng = Rng::new(72);
    let mut met = Met::default();
    for turn in 0..360 {
        let stored = wide_run(&mut rng, false);
        let network = stored.network.clone().in_edition(EDITIONS[turn % 3]);
        let wiring = network.wiring().expect("valid");
        let mut play = Play::start(&stored, &wiring, ());
        let mut draws = Draws::new(stored.seed);
        for _ in 0..stored.draws {
            play.sends();
            let (site, code) = event(draws.next_value(), wiring.sites, wiring.codes());
            if code < PORTS && in_seek(&play.state, site).contains(&code) {
                met.check(&network, &mut play.state, site, code);
            }
            play.draw();
        }
    }
    met.has_all(10);
}

/// What comes of the cases in `making::asked`: answer and outputs, or the refusal.
#[test]
fn cases_one_by_one() {
    let told: Vec<Result<(u64, u64), u8>> = asked::cases()
        .iter()
        .map(|case| match case.outcome(&mut ()).told {
            Ok([answer, _, _, outputs]) => Ok((answer, outputs)),
            Err(refusal) => Err(refusal.number()),
        })
        .collect();
    let own = [(1, 0), (1, 1), (0, 1)];
    let one = [(1, 6), (1, 0), (1, 0), (1, 26), (1, 0), (0, 8)];
    let several = [(1, 6), (1, 6), (1, 6), (1, 0), (1, 8), (1, 12), (0, 6)];
    let with_own = [(1, 6), (1, 6), (1, 8), (1, 6), (1, 0), (0, 6)];
    let seeks = [&own[..], &one, &several, &with_own].concat();
    let first = [(1, 1), (0, 1)];
    let split = [(1, 1), (1, 0), (1, 6), (1, 0), (1, 6), (1, 6), (0, 6)];
    let closing = [(1, 6), (1, 0), (1, 6), (1, 6), (0, 8)];
    let most = [(1, 6), (0, 6), (0, 6), (1, 0)];
    let far = [(1, 1), (1, 10), (0, 6), (1, 10), (1, 6), (1, 20)];
    let failing = [&seeks[..], &seeks, &seeks, &first, &split, &closing, &closing, &most, &far].concat();
    let failing: Vec<Result<(u64, u64), u8>> = failing.into_iter().map(Ok).collect();
    let (failed, others) = told.split_at(failing.len());
    assert_eq!(failed, failing);
    let (quiet, refused) = others.split_at(17);
    assert!(quiet.iter().all(|told| matches!(told, Ok((_, 0)))), "{quiet:?}");
    assert_eq!(refused, [9, 9, 9, 9, 9, 9, 13, 13, 13, 2, 17, 17, 3, 6, 7].map(Err));
}

#[test]
fn made_cases_meet_everything() {
    for edition in EDITIONS {
        let mut given = Tally::default();
        let of_edition = |case: &&Case| case.network.edition == edition;
        for case in asked::cases().iter().filter(of_edition) {
            case.outcome(&mut given);
        }
        shown(edition, &given, 1);
        let mut maker = Maker::asking(73, edition);
        let mut coverage = Coverage::default();
        for turn in 0..360 {
            let case = maker.any_case(turn % KINDS.len());
            assert!(matches!(case.event, Event::Ask { .. }));
            let number = case.outcome(&mut ()).told.err().map_or(0, |refusal| refusal.number());
            coverage.refused(kind(&case.network), number, 1);
        }
        shown(edition, &maker.shown, 5);
        for (number, met) in
            [(2, 4), (17, 1), (3, edition), (6, edition), (7, edition), (13, edition), (9, edition)]
        {
            assert!(coverage.refusals(number)[met as usize] > 0, "edition {edition}: refusal {number}");
        }
        assert!([10, 12, 11].into_iter().all(|number| coverage.refusals(number) == [0; 5]));
    }
}

fn texts(case: &Case) -> (String, String) {
    let (mut input, mut expected) = (Writer::default(), Writer::default());
    input.cases(std::slice::from_ref(case));
    expected.outcome(&case.outcome(&mut ()));
    (input.text, expected.text)
}

/// One try more of packet 0 to {0}, output 0 in use: kind 3 has the fifth number and kind 1 has not, in both forms.
#[test]
fn the_text_form() {
    for (form, network) in [(Form::First, two_sites()), (Form::Second, two_sites().in_edition(3))] {
        let mut state = State { counter: 1, ..State::empty() };
        state.inputs[0] = Input { phase: Phase::Seek, set: 1, tries: 1, ..Input::default() };
        state.outputs[0] = Output { used: true, set: 1, input: 4, ..Output::default() };
        let of = |event| Case { form, network: network.clone(), state: state.clone(), event };
        let asked = of(Event::Ask { site: 0, code: 0 });
        let plain = of(Event::Run { site: 0, code: 0 });
        let (asked_text, plain_text) = (texts(&asked), texts(&plain));
        assert!(asked_text.0.ends_with("\n3 0 0\n") && plain_text.0.ends_with("\n1 0 0\n"));
        assert_eq!(asked_text.0.trim_end_matches("3 0 0\n"), plain_text.0.trim_end_matches("1 0 0\n"));
        let state = plain_text.1.strip_prefix("0 1 0 0\n1\n1 1 0 0 0 1 0 0 0 0 0 2 ").expect("four numbers");
        assert!(asked_text.1 == format!("0 1 0 0 1\n1\n1 1 0 0 0 1 0 0 0 0 0 2 {state}"));
        assert!(read_cases(&asked_text.0) == [asked] && read_cases(&plain_text.0) == [plain]);
        let refused = texts(&of(Event::Ask { site: 2, code: 0 })).1;
        assert!(refused.starts_with("9 0 0 0 0\n1\n"));
        assert!(texts(&of(Event::Run { site: 2, code: 0 })).1.starts_with("9 0 0 0\n1\n"));
    }
}

#[test]
fn texts_of_made_cases_read_back() {
    let mut makers = EDITIONS.map(|edition| Maker::asking(74, edition));
    let made = (0..120).map(|turn| makers[turn % 3].any_case(turn % KINDS.len()));
    let cases: Vec<Case> = asked::cases().into_iter().chain(made).collect();
    let mut text = Writer::default();
    text.cases(&cases);
    assert!(read_cases(&text.text) == cases);
    for case in &cases {
        let (_, outcome) = texts(case);
        let first = outcome.lines().next().expect("a line");
        assert_eq!((first.split(' ').count(), outcome.lines().count()), (5, 66));
        // The same without the set.
        let Event::Ask { site, code } = case.event else { panic!("asked") };
        let (_, plain) = texts(&Case { event: Event::Run { site, code }, ..case.clone() });
        let (numbers, state) = plain.split_once('\n').expect("lines");
        assert!(first.starts_with(&format!("{numbers} ")) && outcome.ends_with(state));
    }
}
