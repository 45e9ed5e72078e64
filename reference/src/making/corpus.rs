//! The corpus: archives by name, made anew from the recipes here. A name says what its file is about; one that begins
//! with `v2-` is laid out as version 2 in edition 1, one that begins with `e2-` or `e3-` as version 2 in edition 2 or
//! 3.

mod bounds;
mod faults;
mod held;
mod loads;
mod restricted;
mod searched;
mod wide_bounds;
mod wide_loads;

pub use searched::{UNREACHED, UNREACHED_IN_EDITION_2, UNREACHED_IN_EDITION_3};

use crate::archive::{Run, Send};
use crate::making::{graphs, routes};

/// A name and the bytes of the archive.
pub type Named = (String, Vec<u8>);

/// The whole corpus, sorted by name.
pub fn all() -> Vec<Named> {
    let mut all = bounds::all();
    all.extend(faults::all());
    all.extend(loads::all());
    all.extend(searched::all());
    all.extend(wide_bounds::all());
    all.extend(wide_loads::all());
    all.extend(held::all());
    all.extend(restricted::all());
    all.sort();
    all
}

/// The run with its network in another version.
fn in_version(version: u8, run: Run) -> Run {
    Run { network: run.network.in_version(version), ..run }
}

/// The run with its network in version 2 and this edition.
fn in_edition(edition: u8, run: Run) -> Run {
    Run { network: run.network.in_edition(edition), ..run }
}

/// Run R of document 01.
pub fn run_r() -> Vec<u8> {
    let head = [0x00, 0x18, 1, 1, 3, 1, 0, 0, 0, 1, 0, 2, 1];
    let rest = [0xff, 0xff, 0xff, 0xff, 0, 0, 0, 0, 0, 0, 1];
    [&head[..], &rest[..]].concat()
}

/// Two sites joined on ports 1 both ways; three sends, the last two marked with the number of draws, 400.
fn two_sites() -> Run {
    let mut network = graphs::ring(2, false);
    routes::nearest(&mut network, 1);
    (network.tries, network.depth) = (2, 2);
    let send = |draw, site, set| Send { draw, site, set };
    Run { network, seed: 1, draws: 400, sends: vec![send(0, 0, 3), send(400, 1, 3), send(400, 0, 2)] }
}

fn named(name: &str, bytes: Vec<u8>) -> Named {
    (format!("{name}.bin"), bytes)
}
