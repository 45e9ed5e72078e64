//! The bounds of document 01, in version 1: lengths, sites, depth, tries, sends, room.

use reference::archive::{read, write, Run, Send};
use reference::format::Format;
use reference::making::corpus::run_r;
use reference::making::graphs::grid;
use reference::making::routes::nearest;
use reference::network::{Network, NO_CHANNEL};
use reference::player::play;
use reference::print::{read_seen, report};
use reference::refusal::Refusal;

fn line(bytes: &[u8]) -> String {
    report(bytes).line
}

fn with(place: usize, value: u8) -> Vec<u8> {
    let mut bytes = run_r();
    bytes[place] = value;
    bytes
}

fn length(sites: usize, sends: usize) -> usize {
    Format::of(1).length(sites, sends)
}

fn small(sends: usize) -> Run {
    let send = Send { draw: 0, site: 0, set: 1 };
    Run { network: Network::bare(1, 3, 1), seed: 1, draws: 2, sends: vec![send; sends] }
}

#[test]
fn lengths() {
    assert_eq!(run_r().len(), 24);
    assert!(read(&run_r()).is_ok());
    assert_eq!(read(&run_r()[..23]), Err(Refusal::Length));
    assert_eq!(read(&[]), Err(Refusal::Length));
    assert_eq!(read(&[0, 12, 1, 1, 1, 1, 0, 0, 0, 1, 0, 0]), Err(Refusal::Length));
    assert_eq!(read(&[0, 13, 1, 1, 1, 1, 0, 0, 0, 1, 0, 0, 0]), Err(Refusal::Size));
    assert_eq!(length(16, 255), 1_864);
}

#[test]
fn input_is_seen_up_to_65536_bytes() {
    let mut long = run_r();
    long.resize(65_535, 0);
    (long[0], long[1]) = (255, 255);
    assert_eq!(line(&long), "refused 5");
    long.push(0);
    (long[0], long[1]) = (0, 0);
    assert_eq!(line(&long), "refused 1");
    long.push(0);
    assert_eq!(read_seen(&long[..]).unwrap().len(), 65_536);
    // Seen as 65,535 bytes, this one would pass the length field.
    (long[0], long[1]) = (255, 255);
    assert_eq!(line(&read_seen(&long[..]).unwrap()), "refused 1");
}

#[test]
fn sites_depth_tries() {
    let mut network = grid(4, 4, true);
    nearest(&mut network, 4);
    let run = Run { network, seed: 1, draws: 0, sends: Vec::new() };
    let mut bytes = run.bytes();
    assert_eq!(line(&bytes), "accepted 0 pairs 0 serviced 0 owed 0");
    bytes[3] = 17;
    assert_eq!(line(&bytes), "refused 3");
    assert_eq!(line(&with(3, 0)), "refused 3");
    assert_eq!(line(&with(5, 8)), "accepted 1 pairs 1 serviced 0 owed 1");
    assert_eq!(line(&with(5, 9)), "refused 3");
    assert_eq!(line(&with(5, 0)), "refused 3");
    assert_eq!(line(&with(4, 0)), "refused 3");
    assert_eq!(line(&with(4, 255)), "accepted 1 pairs 1 serviced 0 owed 1");
    assert_eq!(line(&with(2, 0)), "refused 2");
}

#[test]
fn sends_in_the_writer() {
    let mut room = [0; 2_000];
    assert_eq!(write(&small(255), &mut room), Ok(length(1, 255)));
    assert_eq!(read(&room[..length(1, 255)]), Ok(small(255)));
    assert_eq!(write(&small(256), &mut room), Err(Refusal::Size));
}

#[test]
fn room_of_writer_and_book() {
    let run = small(1);
    let mut room = [9; 25];
    assert_eq!(write(&run, &mut room[..23]), Err(Refusal::Room));
    assert_eq!(room, [9; 25]);
    assert_eq!(write(&run, &mut room[..24]), Ok(24));
    assert_eq!(room[24], 9);
    let two = small(2).bytes();
    assert_eq!(play(&two, &mut [0; 7]), Err(Refusal::Room));
    assert!(play(&two, &mut [0; 8]).is_ok());
    assert!(play(&small(0).bytes(), &mut []).is_ok());
}

#[test]
fn routes_and_channels_at_their_limits() {
    let mut network = Network::bare(1, 1, 1);
    network.channels[..4].copy_from_slice(&[3, 2, 1, 0]);
    assert_eq!(network.check_channels(), Ok(()));
    network.channels[..4].copy_from_slice(&[4, NO_CHANNEL, NO_CHANNEL, NO_CHANNEL]);
    assert_eq!(network.check_channels(), Err(Refusal::Channel));
    network.channels[..4].copy_from_slice(&[254, NO_CHANNEL, NO_CHANNEL, NO_CHANNEL]);
    assert_eq!(network.check_channels(), Err(Refusal::Channel));
    network.channels[..4].copy_from_slice(&[0, 1, 0, NO_CHANNEL]);
    assert_eq!(network.check_channels(), Err(Refusal::Channel));
}

#[test]
fn every_way_a_route_is_bad() {
    let mut network = crate::helpers::two_sites();
    network.join((0, 2), (1, 2));
    network.join((0, 3), (1, 3));
    let check = |from, to, route| {
        let mut changed = network.clone();
        changed.set_route(from, to, route);
        changed.check_routes()
    };
    for good in [0x1000, 0x2000, 0x1200, 0x3210, 0x2130] {
        assert_eq!(check(0, 1, good), Ok(()), "{good:04x}");
    }
    for bad in
        [0, 0x0100, 0x0001, 0x1020, 0x1002, 0x1100, 0x1210, 0x1231, 0x4000, 0x1400, 0x5000, 0xf000, 0x1005]
    {
        assert_eq!(check(0, 1, bad), Err(Refusal::Route), "{bad:04x}");
    }
    assert_eq!(check(1, 1, 0x1000), Err(Refusal::Route));
    assert_eq!(check(0, 0, 0x0001), Err(Refusal::Route));
}

#[test]
fn every_way_a_send_is_bad() {
    let network = crate::helpers::two_sites();
    let judge = |sends: &[(u16, u8, u64)]| {
        let sends = sends.iter().map(|&(draw, site, set)| Send { draw, site, set }).collect();
        let run = Run { network: network.clone(), seed: 1, draws: 5, sends };
        write(&run, &mut [0; 200]).map(|_| ())
    };
    assert_eq!(judge(&[(0, 1, 3), (5, 0, 1), (5, 0, 2)]), Ok(()));
    for bad in [(0, 2, 1), (0, 255, 1), (0, 0, 0), (0, 0, 4), (0, 0, 1 << 16 | 1), (6, 0, 1)] {
        assert_eq!(judge(&[bad]), Err(Refusal::Send), "{bad:?}");
    }
    assert_eq!(judge(&[(4, 0, 1), (3, 0, 1)]), Err(Refusal::Send));
}
