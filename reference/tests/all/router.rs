//! The router's rules, each from outputs that are empty or not.

use reference::making::graphs::grid;
use reference::making::routes::nearest;
use reference::network::Network;
use reference::router::{Request, Verdict};
use reference::state::Connection::{self, *};

/// Site 0 with channels on all ports to sites 1 to 4; lists as given, at T = 2.
fn network(lists: &[(usize, u16)]) -> Network {
    let mut network = Network::bare(5, 2, 1);
    for site in 1..5 {
        network.join((0, site), (site, 1));
        network.join((site, 1), (0, site));
        network.set_route(0, site, (site as u16) << 12);
        for to in (0..5).filter(|&to| to != site) {
            network.set_route(site, to, 0x1000);
        }
    }
    for &(to, route) in lists {
        network.set_route(0, to, route);
    }
    network
}

/// The connection and the shares that site 0 gives the set, with the outputs of `empty` (bit p) empty.
fn decide(network: &Network, set: u64, empty: u8, tries: u8) -> Result<(Connection, [u64; 5]), bool> {
    let wiring = network.wiring().expect("a valid network");
    match (Request { wiring: &wiring, site: 0, set, empty, tries }).decide(&mut ()) {
        Verdict::Connect(choice) => {
            let [shares @ .., split] = choice.shares;
            assert_eq!(split, 0, "editions 1 and 2 have no split output");
            Ok((choice.connection, shares))
        }
        Verdict::OneMoreTry => Err(true),
        Verdict::Fail => Err(false),
    }
}

const ALL: u8 = 0b11111;
const TRY: Result<(Connection, [u64; 5]), bool> = Err(true);
const FAIL: Result<(Connection, [u64; 5]), bool> = Err(false);

#[test]
fn one_target() {
    let net = network(&[(1, 0x2130)]);
    assert_eq!(decide(&net, 0b00001, ALL, 0), Ok((Unicast, [1, 0, 0, 0, 0])));
    assert_eq!(decide(&net, 0b00001, 0b11110, 0), TRY);
    assert_eq!(decide(&net, 0b00010, ALL, 0), Ok((Unicast, [0, 0, 2, 0, 0])));
    assert_eq!(decide(&net, 0b00010, 0b11010, 0), Ok((Unicast, [0, 2, 0, 0, 0])));
    assert_eq!(decide(&net, 0b00010, 0b11000, 0), Ok((Unicast, [0, 0, 0, 2, 0])));
    assert_eq!(decide(&net, 0b00010, 0b10001, 0), TRY);
}

#[test]
fn split_all_remote_and_some_local() {
    let net = network(&[]);
    assert_eq!(decide(&net, 0b00110, ALL, 0), Ok((AllRemote, [6, 2, 4, 0, 0])));
    assert_eq!(decide(&net, 0b00111, ALL, 0), Ok((SomeLocal, [7, 2, 4, 0, 0])));
    assert_eq!(decide(&net, 0b00101, ALL, 0), Ok((SomeLocal, [5, 0, 4, 0, 0])));
    assert_eq!(decide(&net, 0b11111, ALL, 0), Ok((SomeLocal, [31, 2, 4, 8, 16])));
}

#[test]
fn an_output_already_chosen_serves_again() {
    let net = network(&[(2, 0x1200), (3, 0x4300)]);
    assert_eq!(decide(&net, 0b00110, ALL, 0), Ok((Passthru, [0, 6, 0, 0, 0])));
    assert_eq!(decide(&net, 0b01110, ALL, 0), Ok((AllRemote, [14, 6, 0, 0, 8])));
    assert_eq!(decide(&net, 0b11100, ALL, 0), Ok((AllRemote, [28, 4, 0, 0, 24])));
    // Ascending: 1 takes output 1 before 2 asks; the list's order goes before "already chosen".
    let other = network(&[(2, 0x2100)]);
    assert_eq!(decide(&other, 0b00110, ALL, 0), Ok((AllRemote, [6, 2, 4, 0, 0])));
    assert_eq!(decide(&other, 0b00110, 0b11011, 0), Ok((Passthru, [0, 6, 0, 0, 0])));
}

#[test]
fn single_remote_output_without_the_own_site_is_passthru() {
    let net = network(&[(2, 0x1000)]);
    assert_eq!(decide(&net, 0b00110, ALL, 0), Ok((Passthru, [0, 6, 0, 0, 0])));
    assert_eq!(decide(&net, 0b00111, ALL, 0), Ok((SomeLocal, [7, 6, 0, 0, 0])));
}

#[test]
fn passthru_where_a_split_did_not_come_about() {
    let net = network(&[]);
    // Output 0 in use: the lowest other target's list.
    assert_eq!(decide(&net, 0b01110, 0b11110, 0), Ok((Passthru, [0, 14, 0, 0, 0])));
    assert_eq!(decide(&net, 0b01101, 0b11110, 0), Ok((Passthru, [0, 0, 13, 0, 0])));
    // Output 0 empty, and a target without an output.
    assert_eq!(decide(&net, 0b00110, 0b00011, 0), Ok((Passthru, [0, 6, 0, 0, 0])));
    // Only the lowest other target's list is asked.
    assert_eq!(decide(&net, 0b00110, 0b00101, 0), TRY);
    assert_eq!(decide(&net, 0b00111, 0b11100, 0), TRY);
}

#[test]
fn tries_and_handing() {
    let net = network(&[]);
    assert_eq!(decide(&net, 0b00110, 0b00001, 1), TRY);
    assert_eq!(decide(&net, 0b00110, 0b00001, 2), Ok((Handed, [6, 0, 0, 0, 0])));
    assert_eq!(decide(&net, 0b00100, 0b00001, 2), Ok((Handed, [4, 0, 0, 0, 0])));
    assert_eq!(decide(&net, 0b00110, 0, 2), FAIL);
    assert_eq!(decide(&net, 0b00001, 0b11110, 2), FAIL);
    assert_eq!(decide(&net, 0b00110, 0, 1), TRY);
}

/// By the definition's words, slowly: what the split rule gives each output.
fn split_by_words(network: &Network, site: usize, set: u64, empty: u8) -> Option<[u64; 5]> {
    let mut chosen = [0u64; 5];
    for target in (0..64).filter(|&t| t != site && set >> t & 1 == 1) {
        let route = network.routes[network.sites as usize * site + target];
        let list = [route >> 12, route >> 8 & 15, route >> 4 & 15, route & 15];
        let serves = |&&port: &&u16| port != 0 && (empty >> port & 1 == 1 || chosen[port as usize] != 0);
        chosen[*list.iter().find(serves)? as usize] |= 1 << target;
    }
    Some(chosen)
}

#[test]
fn splits_on_a_torus_by_the_words() {
    splits_by_the_words(grid(4, 4, true), 0xffff);
    splits_by_the_words(grid(8, 8, true).in_version(2), u64::MAX);
}

/// Sets within `all`, all sites and outputs in use, against the words.
fn splits_by_the_words(mut net: Network, all: u64) {
    nearest(&mut net, 4);
    let wiring = net.wiring().expect("a valid network");
    for turn in 0..2_000u64 {
        let mixed = turn.wrapping_mul(0x9e37_79b9_7f4a_7c15);
        let (site, set) = ((turn % net.sites) as usize, (mixed ^ mixed >> 29) & all);
        let empty = (turn * 7 / 3) as u8 & 0b11110 | 1;
        if set.count_ones() < 2 {
            continue;
        }
        let verdict = Request { wiring: &wiring, site, set, empty, tries: 0 }.decide(&mut ());
        let split = split_by_words(&net, site, set, empty);
        if let (Verdict::Connect(choice), Some(mut shares)) = (verdict, split) {
            if matches!(choice.connection, AllRemote | SomeLocal) {
                shares[0] = set;
            }
            assert_eq!(choice.shares[..5], shares, "site {site} set {set:x} empty {empty:05b}");
        } else {
            assert!(split.is_none(), "site {site} set {set:x} empty {empty:05b}");
        }
    }
}
