//! The archives that are timed, made by the second model's code.

use reference::archive::{Run, Send};
use reference::making::{graphs, rng::Rng, routes};
use reference::network::Network;

/// 255 sends over 65,535 draws, one each 250 draws.
fn loaded(mut network: Network, limits: (u8, u64)) -> Vec<u8> {
    let sites = network.sites as usize;
    let mut rng = Rng::new(44);
    (network.tries, network.depth) = limits;
    let sends = (0..255)
        .map(|i| Send { draw: 250 * i, site: rng.below(sites) as u8, set: rng.target_set(sites) })
        .collect();
    Run { network, seed: 20_261, draws: 65_535, sends }.bytes()
}

fn torus(wide: usize, high: usize) -> Network {
    let mut network = graphs::grid(wide, high, true);
    routes::nearest(&mut network, 4);
    network
}

/// The 4x4 torus: the longest archive of version 1, 1,864 bytes.
pub fn big() -> Vec<u8> {
    loaded(torus(4, 4), (3, 4))
}

/// The 8x8 torus in version 2: the longest archive, 11,523 bytes.
pub fn wide() -> Vec<u8> {
    loaded(torus(8, 8).in_version(2), (3, 4))
}

/// The runs that the player is timed on, of version 1 and of version 2, there in every edition.
pub fn runs() -> Vec<(&'static str, Vec<u8>)> {
    vec![
        ("4x4 torus, T = 3, D = 4", big()),
        ("4x4 torus, T = D = 1", loaded(torus(4, 4), (1, 1))),
        ("one site, T = 3, D = 4", loaded(graphs::loops(0), (3, 4))),
        ("4x4 torus, version 2, T = 3, D = 4", loaded(torus(4, 4).in_version(2), (3, 4))),
        ("8x8 torus, version 2, T = 3, D = 4", wide()),
        ("8x8 torus, version 2, T = D = 1", loaded(torus(8, 8).in_version(2), (1, 1))),
        ("4x4 torus, edition 2, T = 3, D = 4", loaded(torus(4, 4).in_edition(2), (3, 4))),
        ("8x8 torus, edition 2, T = 3, D = 4", loaded(torus(8, 8).in_edition(2), (3, 4))),
        ("4x4 torus, edition 3, T = 3, D = 4", loaded(torus(4, 4).in_edition(3), (3, 4))),
        ("8x8 torus, edition 3, T = 3, D = 4", loaded(torus(8, 8).in_edition(3), (3, 4))),
    ]
}

/// Archives of 24 (run R), 498 and 1,864 bytes of version 1, and of 11,523 bytes of version 2.
pub fn sizes() -> Vec<Vec<u8>> {
    let sends = vec![Send { draw: 0, site: 0, set: 1 }];
    let r = Run { network: Network::bare(1, 3, 1), seed: 1, draws: 2, sends };
    let mut rng = Rng::new(45);
    let sends = (0..65).map(|i| Send { draw: i, site: rng.below(8) as u8, set: rng.target_set(8) }).collect();
    let mut network = torus(4, 2);
    (network.tries, network.depth) = (3, 4);
    let half = Run { network, seed: 20_261, draws: 65_535, sends };
    vec![r.bytes(), half.bytes(), big(), wide()]
}
