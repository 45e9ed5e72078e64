//! Two lists of events, each of one far apart from each of the other: one after the other, the other first, or mixed,
//! they give the same final state, and every event answers what it answers where its list is alone.

use crate::apart_states::{apply, made, Answered, Met};
use reference::apart::far_apart;
use reference::making::rng::Rng;
use reference::network::Network;
use reference::single::Event;
use reference::state::State;

/// Events in a list at most.
const LONGEST: usize = 12;
/// Sites in a group at most.
const WIDEST: usize = 3;
/// The code of the operator, which is picked oftener than the others.
const OPERATOR: usize = 11;

type Groups = [Vec<usize>; 2];

/// Two groups of sites, none empty, each site of one far apart from each of the other.
fn groups(rng: &mut Rng, network: &Network) -> Option<Groups> {
    let mut sites: Vec<usize> = (0..network.sites as usize).collect();
    rng.shuffle(&mut sites);
    let apart = |&one: &usize| Some((one, *sites.iter().find(|&&other| far_apart(network, one, other))?));
    let (one, other) = sites.iter().find_map(apart)?;
    let mut groups = [vec![one], vec![other]];
    for site in sites.into_iter().filter(|&site| site != one && site != other) {
        let side = rng.below(2);
        let apart = groups[1 - side].iter().all(|&other| far_apart(network, site, other));
        if apart && groups[side].len() < WIDEST {
            groups[side].push(site);
        }
    }
    Some(groups)
}

/// An event at one of these sites: one in ten has one code too many, and one in five is a SEND where the list has any.
fn any_event(rng: &mut Rng, network: &Network, group: &[usize], sends: bool) -> Event {
    let (site, codes) = (rng.pick(group) as u64, network.codes());
    if sends && rng.one_in(5) {
        return Event::Send { site, set: rng.target_set(network.sites as usize) };
    }
    let any = rng.below(codes);
    let code = rng.pick(&[any, any, any, any, any, any, any, OPERATOR, OPERATOR, codes]);
    Event::Run { site, code: code as u64 }
}

/// Up to twelve events. Most change the state where the list is alone, if one of four does.
fn any_list(rng: &mut Rng, network: &Network, state: &State, group: &[usize], sends: bool) -> Vec<Event> {
    let (mut state, mut list) = (state.clone(), Vec::new());
    for _ in 0..rng.within(1, LONGEST) {
        let turns = rng.pick(&[1, 4, 4]);
        for turn in 1..=turns {
            let event = any_event(rng, network, group, sends);
            let before = state.clone();
            apply(network, &mut state, event);
            if state != before || turn == turns {
                list.push(event);
                break;
            }
        }
    }
    list
}

/// The events of two lists in one order, told by the list that each event is taken from: the final state, and the
/// answers by list.
fn played(
    network: &Network,
    state: &State,
    lists: &[Vec<Event>; 2],
    order: &[usize],
) -> (State, [Vec<Answered>; 2]) {
    let (mut state, mut answers) = (state.clone(), [Vec::new(), Vec::new()]);
    for &side in order {
        let event = lists[side][answers[side].len()];
        answers[side].push(apply(network, &mut state, event));
    }
    (state, answers)
}

/// What is counted of pairs of lists.
const KINDS: [&str; 6] =
    ["tried", "both changed", "some serviced", "both serviced", "a SEND accepted", "refused"];

/// Plays two lists in three orders and holds them to what each answers alone; the kinds that the pair is of.
fn check(rng: &mut Rng, network: &Network, state: &State, lists: &[Vec<Event>; 2]) -> [bool; 6] {
    let all_of = |side: usize| vec![side; lists[side].len()];
    let alone = [0, 1].map(|side| played(network, state, lists, &all_of(side)));
    let answers = [0, 1].map(|side| alone[side].1[side].clone());
    let in_turn = [all_of(0), all_of(1)].concat();
    let mut mixed = in_turn.clone();
    rng.shuffle(&mut mixed);
    let (end, _) = played(network, state, lists, &in_turn);
    for order in [in_turn, [all_of(1), all_of(0)].concat(), mixed] {
        let (other_end, told) = played(network, state, lists, &order);
        assert_eq!(told, answers, "{lists:?} in the order {order:?}");
        assert!(other_end == end, "{lists:?} in the order {order:?}");
    }
    let any = |is: fn(Answered) -> bool| answers.iter().flatten().any(|&answer| is(answer));
    let services = |answers: &Vec<Answered>| answers.iter().any(|answer| answer.is_serviced());
    [
        true,
        alone.iter().all(|(end, _)| end != state),
        any(Answered::is_serviced),
        answers.iter().all(services),
        any(|answer| matches!(answer, Answered::Send(Ok(_)))),
        any(Answered::is_refused),
    ]
}

/// Pairs of lists by turns, from any states in range or from reached ones.
fn check_lists(seed: u64, turns: usize, reached: bool) -> Met {
    let (mut rng, mut met) = (Rng::new(seed), Met::default());
    for turn in 0..turns {
        let (network, state) = made(&mut rng, turn, reached);
        let Some(groups) = groups(&mut rng, &network) else { continue };
        let sending = rng.below(3);
        let mut list = |side: usize| any_list(&mut rng, &network, &state, &groups[side], side == sending);
        let lists = [list(0), list(1)];
        met.count(&network, check(&mut rng, &network, &state, &lists));
    }
    met
}

#[test]
fn lists_from_any_state_in_range() {
    check_lists(129, 800, false).has(KINDS, [140, 90, 38, 2, 30, 85]);
}

#[test]
fn lists_from_states_that_runs_reach() {
    check_lists(130, 800, true).has(KINDS, [120, 50, 20, 2, 28, 85]);
}
