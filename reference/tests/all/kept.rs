//! What holds of every run and every step: pairs serviced or owed, range kept, answers, round trips.

use reference::archive::{read, write, Run, LONGEST};
use reference::draws::{event, Draws};
use reference::making::corpus::{UNREACHED, UNREACHED_IN_EDITION_2, UNREACHED_IN_EDITION_3};
use reference::making::runs::{any_network, any_run, either_run, wide_network, wide_run};
use reference::making::{cases::Maker, marks::close_some, rng::Rng, states::any_state};
use reference::network::{Network, EDITIONS, SITES, SITES_OF_1};
use reference::owing;
use reference::player::{play_run, Play, Service};
use reference::range::in_range;
use reference::refusal::Refusal;
use reference::sets::members;
use reference::single::{run, send};
use reference::state::State;
use reference::step::Answer;
use reference::text::Form;
use reference::watch::{is_of, is_of_the_way, Tally, RULES};
use std::collections::HashMap;

type Pairs = HashMap<(u8, usize), u32>;

/// How often each pair of packet and site is serviced or owed.
fn settled(services: &[Service], state: &State) -> Pairs {
    let mut pairs = Pairs::new();
    for service in services {
        *pairs.entry((service.packet, service.site as usize)).or_default() += 1;
    }
    owing::each(state, |_, packet, targets| {
        members(targets).for_each(|site| *pairs.entry((packet, site)).or_default() += 1);
    });
    pairs
}

#[test]
fn every_accepted_pair_is_serviced_or_owed_once() {
    let mut rng = Rng::new(31);
    let mut served = [0; 4];
    for _ in 0..700 {
        let stored = either_run(&mut rng, false);
        let wiring = stored.network.wiring().expect("valid");
        let mut services = Vec::new();
        let (counts, state) = play_run(&stored, &wiring, (), |service| services.push(service));
        let pairs = settled(&services, &state);
        assert!(pairs.values().all(|&times| times == 1), "{pairs:?}");
        assert_eq!(pairs.len() as u32, counts.pairs);
        assert_eq!(counts.serviced + counts.owed, counts.pairs);
        served[stored.network.edition as usize] += counts.serviced;
    }
    assert!(EDITIONS.into_iter().all(|edition| served[edition as usize] > 30), "{served:?}");
}

#[test]
fn every_step_of_a_run_keeps_the_count() {
    let mut rng = Rng::new(32);
    for _ in 0..80 {
        let stored = either_run(&mut rng, false);
        let wiring = stored.network.wiring().expect("valid");
        let mut play = Play::start(&stored, &wiring, ());
        for _ in 0..stored.draws {
            play.draw();
            assert_eq!(play.counts.serviced + owing::owed(&play.state), play.counts.pairs);
            assert!(in_range(&wiring, &play.state));
        }
    }
}

#[test]
fn from_any_state_in_range_the_answer_is_0_exactly_if_nothing_changed() {
    let mut rng = Rng::new(33);
    let (mut closed, mut split) = (0, 0);
    for turn in 0..900 {
        let network = if turn % 2 == 0 { wide_network(&mut rng) } else { any_network(&mut rng) };
        let wiring = network.wiring().expect("valid");
        let mut state = any_state(&mut rng, &network);
        if wiring.closes {
            close_some(&mut rng, &network, &mut state);
        }
        assert!(in_range(&wiring, &state), "made in range");
        for code in 0..wiring.codes() as u64 {
            let mut next = state.clone();
            let site = rng.below(wiring.sites) as u64;
            let (answer, _) = run(&network, &mut next, site, code).expect("not refused");
            assert_eq!(answer == Answer::Nothing, next == state, "site {site} code {code}");
            if wiring.closes && state.outputs != next.outputs {
                closed += next.outputs.iter().filter(|output| output.closing).count();
            }
            split += usize::from(state.outputs_of(site as usize)[5] != next.outputs_of(site as usize)[5]);
            assert!(in_range(&wiring, &next), "site {site} code {code}");
        }
    }
    assert!(closed > 100, "closing outputs among those that a step changed: {closed}");
    assert!(split > 15, "split outputs that a step changed: {split}");
}

#[test]
fn a_played_run_is_its_single_events_in_order() {
    let mut rng = Rng::new(34);
    for _ in 0..60 {
        let stored = either_run(&mut rng, false);
        let wiring = stored.network.wiring().expect("valid");
        let mut booked = Vec::new();
        let (counts, end) = play_run(&stored, &wiring, (), |service| booked.push(service));
        let (mut state, mut accepted, mut services) = (State::empty(), 0, Vec::new());
        let mut draws = Draws::new(stored.seed);
        for draw in 0..=stored.draws {
            for s in stored.sends.iter().filter(|s| s.draw == draw) {
                accepted += send(&stored.network, &mut state, s.site as u64, s.set).is_ok() as u32;
            }
            if draw < stored.draws {
                let (site, code) = event(draws.next_value(), wiring.sites, wiring.codes());
                let answer = run(&stored.network, &mut state, site as u64, code as u64);
                if let (Answer::Serviced { packet, site }, _) = answer.expect("not refused") {
                    services.push(Service { draw, packet, site });
                }
            }
        }
        assert_eq!((accepted, services, state), (counts.accepted, booked, end));
    }
}

#[test]
fn round_trips() {
    let mut rng = Rng::new(35);
    let mut kinds = [[0; 4]; 3];
    for _ in 0..800 {
        let stored = either_run(&mut rng, true);
        kinds[stored.network.version as usize][stored.network.edition as usize] += 1;
        let mut room = [7; LONGEST + 9];
        let length = write(&stored, &mut room).expect("written");
        assert_eq!(read(&room[..length]).as_ref(), Ok(&stored));
        assert!(room[length..].iter().all(|&byte| byte == 7));
        let mut again = [0; LONGEST];
        assert_eq!(write(&read(&room[..length]).expect("read"), &mut again), Ok(length));
        assert_eq!(again[..length], room[..length]);
        assert_eq!(write(&stored, &mut again[..length - 1]), Err(Refusal::Room));
    }
    assert!(kinds[1][1] > 300 && kinds[2][1..].iter().all(|&count| count > 100), "{kinds:?}");
}

#[test]
fn made_networks_are_valid_and_of_every_size() {
    let mut rng = Rng::new(36);
    let mut sizes = [[0; SITES + 1]; 2];
    let makers: [(usize, fn(&mut Rng) -> Network); 2] = [(2_000, any_network), (10_000, wide_network)];
    for (at, (count, make)) in makers.into_iter().enumerate() {
        for _ in 0..count {
            let network = make(&mut rng);
            assert!(network.wiring().is_ok());
            assert_eq!(network.version as usize, at + 1);
            sizes[at][network.sites as usize] += 1;
        }
    }
    assert!(sizes[0][1..=SITES_OF_1].iter().all(|&count| count > 0), "{:?}", sizes[0]);
    assert!(sizes[1][1..].iter().all(|&count| count > 0), "{:?}", sizes[1]);
}

/// The rules that so many made runs reach.
fn reached(count: usize, mut made: impl FnMut() -> Run) -> Tally {
    let mut seen = Tally::default();
    for _ in 0..count {
        let stored = made();
        let wiring = stored.network.wiring().expect("valid");
        let mut play = Play::start(&stored, &wiring, Tally::default());
        for _ in 0..stored.draws {
            play.draw();
        }
        play.sends();
        seen.add(&play.watch);
    }
    seen
}

#[test]
fn made_runs_and_cases_reach_every_rule() {
    let of_editions = [2, 3].map(|edition| (edition, Maker::of_edition(37, edition), 800));
    let makers =
        [(1, Maker::new(37, Form::First), 1_000), (1, Maker::new(37, Form::Second), 800)].into_iter();
    for (edition, mut maker, turns) in makers.chain(of_editions) {
        for _ in 0..turns {
            let kind = maker.any_kind();
            maker.any_case(kind);
        }
        for (rule, words) in RULES.iter().filter(|(rule, _)| !is_of_the_way(*rule)) {
            assert_eq!(maker.shown.count(*rule) > 0, is_of(edition, *rule), "edition {edition}: {words}");
        }
        assert!(maker.broken.iter().all(|&cases| (cases > 0) == (edition == 3)), "{:?}", maker.broken);
    }
    let mut rng = Rng::new(37);
    check_reached("version 1", 1, reached(3_000, || any_run(&mut rng, false)));
    for edition in EDITIONS {
        let mut rng = Rng::new(38);
        let made = || {
            let run = wide_run(&mut rng, false);
            Run { network: run.network.in_edition(edition), ..run }
        };
        check_reached(&format!("edition {edition}"), edition, reached(2_000, made));
    }
}

/// Every rule of the edition but those that no run reaches.
fn check_reached(what: &str, edition: u8, seen: Tally) {
    let unreached = match edition {
        1 => &[],
        2 => &UNREACHED_IN_EDITION_2[..],
        _ => &UNREACHED_IN_EDITION_3,
    };
    for (rule, words) in RULES.iter().filter(|(rule, _)| !is_of_the_way(*rule)) {
        let there = is_of(edition, *rule) && !UNREACHED.contains(rule) && !unreached.contains(rule);
        assert_eq!(seen.count(*rule) > 0, there, "by runs of {what}: {words}");
    }
}
