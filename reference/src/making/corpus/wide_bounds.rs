//! The bounds of version 2: lengths, editions, sites, channels and sets at their limits; those of editions 2 and 3.

use super::bounds::{edited, long, one_site, ring};
use super::{in_version, named, run_r, Named};
use crate::archive::{read, Run, Send};
use crate::format::Format;
use crate::making::{graphs, routes};

/// Run R in version 2, edition 1: 35 bytes.
fn wide_run_r() -> Vec<u8> {
    in_version(2, read(&run_r()).expect("run R is valid")).bytes()
}

/// A one-way ring of so many sites in version 2 whose last channel but one leads to this input. The last site but one
/// sends to the last one, that to itself and site 0, and site 0 to the last but one.
fn ring_into(sites: usize, end: u16, draws: u16) -> Run {
    let mut network = graphs::ring(sites, false).in_version(2);
    routes::nearest(&mut network, 1);
    (network.tries, network.depth) = (3, 2);
    network.channels[4 * (sites - 2)] = end;
    let last = sites - 1;
    let send = |site: usize, set| Send { draw: 0, site: site as u8, set };
    let sends = vec![send(last - 1, 1 << last), send(last, 1 << last | 1), send(0, 1 << (last - 1))];
    Run { network, seed: 20_263, draws, sends }
}

/// A one-way ring of so many sites with one send from site 0 to this set, without draws.
fn set_of(sites: usize, set: u64) -> Vec<u8> {
    let mut run = ring_into(sites, 4 * (sites as u16 - 1), 0);
    run.sends = vec![Send { draw: 0, site: 0, set }];
    run.bytes()
}

/// 13 bytes of version 2, in which N is not there, with each fault that comes before 5.
fn thirteen_bytes() -> Vec<Named> {
    let r = long(&wide_run_r(), 13, 13);
    let format = Format::of(2);
    vec![
        named("v2-bound-13-bytes", r.clone()),
        named("v2-bound-13-bytes-field-14", long(&r, 13, 14)),
        named("v2-bound-13-bytes-version-3", edited(&r, &[(2, 3)])),
        named("v2-bound-13-bytes-edition-9", edited(&r, &[(3, 9)])),
        named("v2-bound-13-bytes-sites-65", edited(&r, &[(format.sites, 65)])),
        named("v2-bound-13-bytes-seed-0", edited(&r, &[(format.seed + 3, 0)])),
    ]
}

/// The longest archive: an eight by eight torus and 255 sends.
fn longest() -> Vec<u8> {
    let mut network = graphs::grid(8, 8, true).in_version(2);
    routes::nearest(&mut network, 4);
    (network.tries, network.depth) = (3, 2);
    let send = Send { draw: 9, site: 63, set: 1 << 63 | 1 };
    Run { network, seed: 7, draws: 9, sends: vec![send; 255] }.bytes()
}

/// Run R in this edition, and editions, lengths and sites at their limits there.
fn of_edition(edition: u8) -> Vec<Named> {
    let within = |bytes: &[u8]| edited(bytes, &[(3, edition)]);
    let (r, next) = (within(&wide_run_r()), edition + 1);
    let short = long(&r, 13, 13);
    let named = |name: &str, bytes| named(&format!("e{edition}-{name}"), bytes);
    vec![
        named("01-run-r-version-byte-1", edited(&r, &[(2, 1)])),
        named(&format!("bound-edition-{next}"), edited(&r, &[(3, next)])),
        named("bound-edition-255", edited(&r, &[(3, 255)])),
        named("bound-12-bytes", long(&r, 12, 12)),
        named("bound-13-bytes", short.clone()),
        named(&format!("bound-13-bytes-edition-{next}"), edited(&short, &[(3, next)])),
        named("bound-34-bytes-field-34", long(&r, 34, 34)),
        named("bound-11523-bytes", within(&longest())),
        named("bound-sites-16", within(&ring(2, 16))),
        named("bound-sites-17", within(&ring(2, 17))),
        named("bound-sites-64", within(&ring(2, 64))),
        named("bound-sites-65", within(&ring(2, 65))),
        named("01-run-r", r),
    ]
}

fn lengths() -> Vec<Named> {
    let r = wide_run_r();
    let full = longest();
    vec![
        named("v2-bound-12-bytes", long(&r, 12, 12)),
        named("v2-bound-14-bytes", long(&r, 14, 14)),
        named("v2-bound-34-bytes", r[..34].to_vec()),
        named("v2-bound-34-bytes-field-34", long(&r, 34, 34)),
        named("v2-bound-36-bytes", long(&r, 36, 35)),
        named("v2-bound-36-bytes-field-36", long(&r, 36, 36)),
        named("v2-bound-11523-bytes", full.clone()),
        named("v2-bound-11524-bytes", long(&full, 11_524, 11_524)),
    ]
}

/// Channels and sets at the limits of S.
fn ends_and_sets() -> Vec<Named> {
    vec![
        named("v2-channel-255-of-64-sites", ring_into(64, 255, 65_535).bytes()),
        named("v2-channel-255-of-64-sites-no-draws", ring_into(64, 255, 0).bytes()),
        named("v2-channel-256-of-64-sites", ring_into(64, 256, 0).bytes()),
        named("v2-channel-65534-of-64-sites", ring_into(64, 65_534, 0).bytes()),
        named("v2-channel-65535-of-64-sites", ring_into(64, 65_535, 0).bytes()),
        named("v2-channel-251-of-63-sites", ring_into(63, 251, 0).bytes()),
        named("v2-channel-252-of-63-sites", ring_into(63, 252, 0).bytes()),
        named("v2-channel-255-of-63-sites", ring_into(63, 255, 0).bytes()),
        named("v2-channel-0-of-64-sites-fed-twice", ring_into(64, 0, 0).bytes()),
        named("v2-channel-64-of-16-sites", ring_into(16, 64, 0).bytes()),
        named("v2-channel-67-of-17-sites", ring_into(17, 67, 0).bytes()),
        named("v2-set-bit-63-of-64-sites", set_of(64, 1 << 63)),
        named("v2-set-all-of-64-sites", set_of(64, u64::MAX)),
        named("v2-set-bit-63-of-63-sites", set_of(63, 1 << 63 | 1)),
        named("v2-set-bit-16-of-17-sites", set_of(17, 1 << 16)),
        named("v2-set-bit-17-of-17-sites", set_of(17, 1 << 17)),
        named("v2-set-bit-16-of-16-sites", set_of(16, 1 << 16)),
        named("v2-set-bit-32-of-33-sites", set_of(33, 1 << 32)),
    ]
}

pub fn all() -> Vec<Named> {
    let r = wide_run_r();
    let at = Format::of(2);
    let wide = |run| in_version(2, run).bytes();
    let set = |place, value| edited(&r, &[(place, value)]);
    let mut all = vec![
        named("v2-01-run-r", r.clone()),
        named("v2-01-run-r-version-byte-1", set(2, 1)),
        named("v2-version-byte-of-01-run-r", edited(&run_r(), &[(2, 2)])),
        named("v2-bound-edition-0", set(3, 0)),
        named("v2-bound-edition-2", set(3, 2)),
        named("v2-bound-sites-0", set(at.sites, 0)),
        named("v2-bound-sites-16", ring(2, 16)),
        named("v2-bound-sites-17", ring(2, 17)),
        named("v2-bound-sites-64", ring(2, 64)),
        named("v2-bound-sites-65", ring(2, 65)),
        named("v2-bound-depth-8", set(at.depth, 8)),
        named("v2-bound-depth-9", set(at.depth, 9)),
        named("v2-bound-tries-0", set(at.tries, 0)),
        named("v2-bound-tries-255", set(at.tries, 255)),
        named("v2-bound-seed-0", set(at.seed + 3, 0)),
        named("v2-bound-sends-0", wide(one_site(8, 5, 0))),
        named("v2-bound-sends-255", wide(one_site(8, 0, 255))),
    ];
    all.extend(thirteen_bytes());
    all.extend(lengths());
    all.extend(ends_and_sets());
    all.extend(of_edition(2));
    all.extend(of_edition(3).into_iter().filter(|(name, _)| !name.contains("edition-255")));
    all
}
