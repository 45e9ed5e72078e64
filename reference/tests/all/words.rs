//! What is wrong with an archive in words, in version 2, and where version 1 says something else.

use reference::faults::told;
use reference::network::NO_CHANNEL;

/// Two sites joined on ports 1 both ways, T = 2, D = 2, seed 1, 1000 draws, sends at 512 and 600: 60 bytes.
fn good() -> Vec<u8> {
    let mut bytes = vec![0, 60, 2, 1, 2, 2, 2, 0, 0, 0, 1, 0x03, 0xe8, 2];
    for end in [4, NO_CHANNEL, NO_CHANNEL, NO_CHANNEL, 0, NO_CHANNEL, NO_CHANNEL, NO_CHANNEL] {
        bytes.extend(end.to_be_bytes());
    }
    bytes.extend([0, 0, 0x10, 0, 0x10, 0, 0, 0]);
    bytes.extend([0x02, 0x00, 0, 0, 0, 0, 0, 0, 0, 0, 3]);
    bytes.extend([0x02, 0x58, 1, 0, 0, 0, 0, 0, 0, 0, 1]);
    bytes
}

/// The line with these bytes changed.
fn with(edits: &[(usize, u8)]) -> String {
    let mut bytes = good();
    edits.iter().for_each(|&(place, value)| bytes[place] = value);
    told(&bytes)
}

#[test]
fn a_good_one() {
    assert_eq!(with(&[]), "an archive of 60 bytes, version 2, edition 1: 2 sites, 2 sends, 1000 draws");
    assert_eq!(with(&[(3, 2)]), "an archive of 60 bytes, version 2, edition 2: 2 sites, 2 sends, 1000 draws");
    assert_eq!(with(&[(3, 3)]), "an archive of 60 bytes, version 2, edition 3: 2 sites, 2 sends, 1000 draws");
}

#[test]
fn heads() {
    for (place, value, words) in [
        (1, 61, "refused 1: 60 bytes, but bytes 0 and 1 say 61"),
        (2, 9, "refused 2: byte 2, the version, is 9, not 1 or 2"),
        (2, 0, "refused 2: byte 2, the version, is 0, not 1 or 2"),
        (3, 4, "refused 17: byte 3, the edition, is 4, not 1, 2 or 3"),
        (3, 0, "refused 17: byte 3, the edition, is 0, not 1, 2 or 3"),
        (4, 65, "refused 3: byte 4, the number of sites, is 65, not 1 to 64"),
        (5, 0, "refused 3: byte 5, the limit of tries, is 0, not 1 to 255"),
        (6, 9, "refused 3: byte 6, the depth of the queues, is 9, not 1 to 8"),
        (10, 0, "refused 4: bytes 7 to 10, the seed, are 0"),
        (13, 3, "refused 5: 60 bytes, but 2 sites and 3 sends make 71"),
        (4, 1, "refused 5: 60 bytes, but 1 site and 2 sends make 46"),
    ] {
        assert_eq!(with(&[(place, value)]), words);
    }
    let mut short = good();
    short.truncate(13);
    short[1] = 13;
    assert_eq!(told(&short), "refused 5: 13 bytes, fewer than the 14 of a head of version 2");
    short.truncate(12);
    assert_eq!(told(&short), "refused 1: 12 bytes, fewer than the 13 of a head");
}

#[test]
fn channels() {
    let the = "refused 6: the channel of site 0, port 2, bytes 16 and 17";
    assert_eq!(with(&[(16, 0), (17, 77)]), format!("{the}, is 77, and 2 sites have inputs 0 to 7"));
    assert_eq!(with(&[(16, 0)]), format!("{the}, is 255, and 2 sites have inputs 0 to 7"));
    assert_eq!(with(&[(17, 254)]), format!("{the}, is 65534, and 2 sites have inputs 0 to 7"));
    assert_eq!(with(&[(16, 0), (17, 4)]), format!("{the}, leads to input 4, as site 0, port 1 does"));
}

#[test]
fn routes() {
    for (edits, words) in [
        (&[(30, 0x12)], "from site 0 to itself, bytes 30 and 31, is 1200, not 0000"),
        (&[(32, 0)], "from site 0 to site 1, bytes 32 and 33, lists no port"),
        (&[(34, 0x50)], "from site 1 to site 0, bytes 34 and 35, names port 5, and ports are 1 to 4"),
        (&[(34, 0x11)], "from site 1 to site 0, bytes 34 and 35, names port 1 twice"),
        (&[(34, 0x12)], "from site 1 to site 0, bytes 34 and 35, names port 2, which has no channel"),
        (&[(34, 0x01)], "from site 1 to site 0, bytes 34 and 35, is 0100, with a 0 left of a port"),
    ] {
        assert_eq!(with(edits), format!("refused 7: the route {words}"));
    }
}

#[test]
fn sends() {
    for (edits, words) in [
        (&[(40, 2)][..], "send 0, byte 40, is from site 2, and there are sites 0 to 1"),
        (&[(48, 0)], "send 0, bytes 41 to 48, has an empty set"),
        (&[(59, 4)], "send 1, bytes 52 to 59, goes to site 2, and there are sites 0 to 1"),
        (&[(52, 0x80)], "send 1, bytes 52 to 59, goes to site 63, and there are sites 0 to 1"),
        (&[(49, 3), (50, 0xe9)], "send 1, bytes 49 and 50, has draw number 1001, and there are 1000 draws"),
        (&[(49, 1)], "send 1, bytes 49 and 50, has draw number 344, below the 512 of the send before it"),
    ] {
        assert_eq!(with(edits), format!("refused 8: {words}"));
    }
}

#[test]
fn version_1_says() {
    let r = reference::making::corpus::run_r();
    assert_eq!(told(&r), "an archive of 24 bytes: 1 site, 1 send, 2 draws");
    let with = |place: usize, value: u8| {
        let mut bytes = r.clone();
        bytes[place] = value;
        told(&bytes)
    };
    assert_eq!(with(2, 9), "refused 2: byte 2, the version, is 9, not 1 or 2");
    assert_eq!(with(3, 17), "refused 3: byte 3, the number of sites, is 17, not 1 to 16");
    assert_eq!(with(9, 0), "refused 4: bytes 6 to 9, the seed, are 0");
    assert_eq!(
        with(14, 4),
        "refused 6: the channel of site 0, port 2, byte 14, is 4, and 1 site has inputs 0 to 3"
    );
    assert_eq!(with(23, 0), "refused 8: send 0, bytes 22 and 23, has an empty set");
}
