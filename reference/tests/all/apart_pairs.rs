//! Two events at sites far apart, from any state in range: the same final state and each its same answer in both
//! orders. Where one channel joins the sites, and at one site, the order matters.

use crate::apart_states::{apply, feeders, made, Answered, Met};
use reference::apart::far_apart;
use reference::coverage::{column, kind};
use reference::making::rng::Rng;
use reference::network::{Network, Wiring};
use reference::single::Event;
use reference::state::State;
use reference::step::{Answer, Machine};

/// Both events from the state, in this order: the final state, and what each answers.
fn in_order(network: &Network, state: &State, one: Event, other: Event) -> (State, Answered, Answered) {
    let mut state = state.clone();
    let one = apply(network, &mut state, one);
    let other = apply(network, &mut state, other);
    (state, one, other)
}

/// What both events answer, if that and the final state are the same in both orders.
fn commute(network: &Network, state: &State, one: Event, other: Event) -> Option<[Answered; 2]> {
    let (end, first, second) = in_order(network, state, one, other);
    let (other_end, second_before, first_after) = in_order(network, state, other, one);
    (end == other_end && first == first_after && second == second_before).then_some([first, second])
}

/// A RUN with what it does alone: whether it changes the state, whether it services, and the other site of which it
/// changes an input.
struct Look {
    site: usize,
    event: Event,
    changes: bool,
    services: bool,
    feeds: Option<usize>,
}

impl Look {
    fn new(wiring: &Wiring, state: &State, site: usize, code: usize) -> Look {
        let event = Event::Run { site: site as u64, code: code as u64 };
        let still = Look { site, event, changes: false, services: false, feeds: None };
        if site >= wiring.sites || code >= wiring.codes() {
            return still;
        }
        let mut after = state.clone();
        let answer = Machine { wiring, state: &mut after, watch: &mut () }.run(site, code);
        if answer == Answer::Nothing {
            return still;
        }
        let fed = |&other: &usize| other != site && after.inputs_of(other) != state.inputs_of(other);
        let services = matches!(answer, Answer::Serviced { .. });
        Look { changes: true, services, feeds: (0..wiring.sites).find(fed), ..still }
    }

    /// Whether both change inputs of one site.
    fn feeds_with(&self, other: &Look) -> bool {
        self.feeds.is_some() && self.feeds == other.feeds
    }
}

/// The RUNs of some sites, nine at most and sometimes two that there are not, and one code too many at each.
fn looks(rng: &mut Rng, network: &Network, state: &State) -> Vec<Look> {
    let mut sites: Vec<usize> = (0..network.sites as usize).collect();
    rng.shuffle(&mut sites);
    sites.truncate(9);
    if rng.one_in(4) {
        sites.extend([0, 1].map(|more| network.sites as usize + more));
    }
    let wiring = network.wiring().expect("valid");
    let events = sites.into_iter().flat_map(|site| (0..=network.codes()).map(move |code| (site, code)));
    events.map(|(site, code)| Look::new(&wiring, state, site, code)).collect()
}

/// What is counted of pairs.
const KINDS: [&str; 6] =
    ["tried", "both changed", "both fed one site", "both serviced", "outputs in the way", "refused"];

/// Both orders of two events give the same. Whether both feed one site is told.
fn check(met: &mut Met, network: &Network, state: &State, [one, other]: [Event; 2], fed_one: bool) {
    let answers = commute(network, state, one, other);
    let answers = answers.unwrap_or_else(|| panic!("{one:?} and {other:?}"));
    let all = |is: fn(Answered) -> bool| answers.into_iter().all(is);
    let any = |is: fn(Answered) -> bool| answers.into_iter().any(is);
    let (changed, serviced) = (all(Answered::is_changed), all(Answered::is_serviced));
    let (way, refused) = (any(Answered::has_way), any(Answered::is_refused));
    met.count(network, [true, changed, fed_one, serviced, way, refused]);
}

/// Whether one changes an input of a site that a channel joins with the other's site.
fn meet(network: &Network, one: &Look, other: &Look) -> bool {
    let beside = |one: &Look, other: &Look| one.feeds.is_some_and(|fed| !far_apart(network, fed, other.site));
    beside(one, other) || beside(other, one)
}

/// Of how many pairs like this one is tried.
fn share(network: &Network, one: &Look, other: &Look) -> usize {
    match (one.changes, other.changes) {
        (true, true) if one.feeds_with(other) || one.services && other.services => 1,
        (true, true) if meet(network, one, other) => 2,
        (true, true) => 20,
        (false, false) => 2_000,
        _ if meet(network, one, other) => 20,
        _ => 200,
    }
}

/// RUNs of sites far apart.
fn check_runs(seed: u64, turns: usize, reached: bool) -> Met {
    let (mut rng, mut met) = (Rng::new(seed), Met::default());
    for turn in 0..turns {
        let (network, state) = made(&mut rng, turn, reached);
        let looks = looks(&mut rng, &network, &state);
        for (at, one) in looks.iter().enumerate() {
            for other in &looks[..at] {
                if rng.one_in(share(&network, one, other)) && far_apart(&network, one.site, other.site) {
                    let fed_one = one.feeds_with(other);
                    check(&mut met, &network, &state, [one.event, other.event], fed_one);
                }
            }
        }
    }
    met
}

#[test]
fn runs_from_any_state_in_range() {
    check_runs(121, 1_600, false).has(KINDS, [3_500, 1_800, 30, 40, 700, 350]);
}

#[test]
fn runs_from_states_that_runs_reach() {
    check_runs(122, 2_000, true).has(KINDS, [3_000, 950, 15, 90, 280, 380]);
}

/// SENDs of a site, one in eight to no site, beside RUNs of sites far apart from it.
fn check_sends(seed: u64, turns: usize, reached: bool) -> Met {
    let (mut rng, mut met) = (Rng::new(seed), Met::default());
    for turn in 0..turns {
        let (network, state) = made(&mut rng, turn, reached);
        let sites = network.sites as usize;
        let site = rng.below(sites);
        let looks = looks(&mut rng, &network, &state);
        for other in looks.iter().filter(|other| far_apart(&network, site, other.site)) {
            let set = if rng.one_in(8) { 0 } else { rng.target_set(sites) };
            if rng.one_in(if other.changes { 3 } else { 30 }) {
                let send = Event::Send { site: site as u64, set };
                check(&mut met, &network, &state, [send, other.event], false);
            }
        }
    }
    met
}

#[test]
fn a_send_beside_a_run() {
    check_sends(123, 800, false).has(KINDS, [550, 110, 0, 0, 55, 320]);
    check_sends(124, 800, true).has(KINDS, [430, 65, 0, 0, 28, 270]);
}

/// How many pairs of RUNs of two such sites do not commute, by version and edition.
fn differing(seed: u64, reached: bool, are: impl Fn(&Network, usize, usize) -> bool) -> [u32; 4] {
    let (mut rng, mut found) = (Rng::new(seed), [0; 4]);
    for turn in 0..400 {
        let (network, state) = made(&mut rng, turn, reached);
        let looks = looks(&mut rng, &network, &state);
        for one in looks.iter().filter(|one| one.changes) {
            for other in looks.iter().filter(|other| are(&network, one.site, other.site)) {
                if rng.one_in(if one.feeds == Some(other.site) { 1 } else { 30 }) {
                    assert!(!far_apart(&network, one.site, other.site));
                    let same = commute(&network, &state, one.event, other.event).is_some();
                    found[column(kind(&network))] += u32::from(!same);
                }
            }
        }
    }
    found
}

/// The channels from one site to the other and back.
fn between(network: &Network, one: usize, other: usize) -> usize {
    let count = |from, to| feeders(network, to).into_iter().filter(|(site, _)| *site == from).count();
    count(one, other) + count(other, one)
}

/// One channel between the sites is enough.
#[test]
fn the_order_matters_where_a_channel_joins() {
    let joined = |network: &Network, one, other| one != other && between(network, one, other) == 1;
    for (seed, reached) in [(125, false), (126, true)] {
        let found = differing(seed, reached, joined);
        assert!(found.iter().all(|&count| count >= 6), "{found:?}");
    }
}

#[test]
fn the_order_matters_at_one_site() {
    for (seed, reached) in [(127, false), (128, true)] {
        let found = differing(seed, reached, |_, one, other| one == other);
        assert!(found.iter().all(|&count| count >= 28), "{found:?}");
    }
}
