//! The lines of `trace`, typed from document 01 and docs/TRACE.md.

use reference::archive::{Run, Send};
use reference::making::{graphs, routes};
use reference::trace::trace;

/// Run R, then the same with D and the sends changed.
fn run_r(depth: u8, draws: u8, sends: &[[u8; 5]]) -> Vec<u8> {
    let head = [0, (19 + 5 * sends.len()) as u8, 1, 1, 3, depth, 0, 0, 0, 1, 0, draws, sends.len() as u8];
    [&head[..], &[255; 4], &[0; 2], &sends.concat()].concat()
}

#[test]
fn run_r_with_its_idle_draws() {
    let bytes = run_r(1, 2, &[[0, 0, 0, 0, 1]]);
    let send = "send 0 before draw 0: site 0 to {0}: packet 0\n";
    let draws = "draw 0: site 0, net-output 3: nothing\ndraw 1: site 0, net-output 0: nothing\n";
    let last = "accepted 1 pairs 1 serviced 0 owed 1\n";
    assert_eq!(trace(&bytes, true).as_deref(), Ok(&*[send, draws, last].concat()));
    assert_eq!(trace(&bytes, false).as_deref(), Ok(&*[send, last].concat()));
}

#[test]
fn refused_sends_take_no_number() {
    let bytes = run_r(1, 1, &[[0, 0, 0, 0, 1], [0, 0, 0, 0, 1], [0, 1, 0, 0, 1]]);
    let expected = "send 0 before draw 0: site 0 to {0}: packet 0\n\
                    send 1 before draw 0: site 0 to {0}: passed over, refused 11\n\
                    send 2 after the last draw: site 0 to {0}: passed over, refused 11\n\
                    accepted 1 pairs 1 serviced 0 owed 1\n";
    assert_eq!(trace(&bytes, false).as_deref(), Ok(expected));
    let deeper = trace(&run_r(2, 0, &[[0, 0, 0, 0, 1], [0, 0, 0, 0, 1]]), false);
    let expected = "send 0 after the last draw: site 0 to {0}: packet 0\n\
                    send 1 after the last draw: site 0 to {0}: packet 1\n\
                    accepted 2 pairs 2 serviced 0 owed 2\n";
    assert_eq!(deeper.as_deref(), Ok(expected));
}

#[test]
fn a_refused_archive_has_no_trace() {
    let mut bytes = run_r(1, 2, &[]);
    bytes[9] = 0;
    assert_eq!(trace(&bytes, true).map_err(|refusal| refusal.number()), Err(4));
}

/// Version 2 with 64 sites and no draws: site 63 sends to sites 0, 16 and 63.
#[test]
fn sites_above_15() {
    let mut network = graphs::ring(64, false).in_version(2);
    routes::nearest(&mut network, 1);
    let sends = vec![Send { draw: 0, site: 63, set: 1 << 63 | 1 << 16 | 1 }];
    let bytes = Run { network, seed: 1, draws: 0, sends }.bytes();
    let expected = "send 0 after the last draw: site 63 to {0,16,63}: packet 0\n\
                    accepted 1 pairs 3 serviced 0 owed 3\n";
    assert_eq!(trace(&bytes, true).as_deref(), Ok(expected));
}
