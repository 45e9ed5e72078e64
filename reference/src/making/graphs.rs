//! Networks by shape, with channels and without routes; in version 1 if nothing else is said.

use super::rng::Rng;
use crate::network::{Network, NO_CHANNEL, PORTS, SITES};

impl Network {
    /// A network without channels and routes.
    pub fn bare(sites: usize, tries: u8, depth: u64) -> Network {
        let mut network = Network { sites: sites as u64, tries, depth, ..Network::blank() };
        network.channels[..4 * sites].fill(NO_CHANNEL);
        network
    }

    /// The same in another version.
    pub fn in_version(self, version: u8) -> Network {
        Network { version, ..self }
    }

    /// The same in version 2 and this edition.
    pub fn in_edition(self, edition: u8) -> Network {
        Network { version: 2, edition, ..self }
    }

    /// A channel from an output to an input, both 1 to 4.
    pub fn join(&mut self, from: (usize, usize), to: (usize, usize)) {
        self.channels[4 * from.0 + from.1 - 1] = (4 * to.0 + to.1 - 1) as u16;
    }

    pub fn set_route(&mut self, from: usize, to: usize, route: u16) {
        self.routes[self.sites as usize * from + to] = route;
    }

    /// The ports of a site that have channels.
    pub fn joined(&self, site: usize) -> Vec<usize> {
        (1..PORTS).filter(|p| self.channels[4 * site + p - 1] != NO_CHANNEL).collect()
    }
}

/// Each site to the next one by port 1; both ways: and to the one before by port 2.
pub fn ring(sites: usize, both: bool) -> Network {
    let mut network = Network::bare(sites, 1, 1);
    for site in 0..sites {
        let next = (site + 1) % sites;
        network.join((site, 1), (next, 1));
        if both {
            network.join((next, 2), (site, 2));
        }
    }
    network
}

/// A grid, ports 1 east, 2 west, 3 south, 4 north; a torus wraps around, also where a side is 1 or 2 long.
pub fn grid(wide: usize, high: usize, torus: bool) -> Network {
    let mut network = Network::bare(wide * high, 1, 1);
    for y in 0..high {
        for x in 0..wide {
            let site = y * wide + x;
            if torus || x + 1 < wide {
                let east = y * wide + (x + 1) % wide;
                network.join((site, 1), (east, 1));
                network.join((east, 2), (site, 2));
            }
            if torus || y + 1 < high {
                let south = (y + 1) % high * wide + x;
                network.join((site, 3), (south, 3));
                network.join((south, 4), (site, 4));
            }
        }
    }
    network
}

/// Site 0 in the middle of up to four arms; a longer arm goes on by port 2.
pub fn star(sites: usize) -> Network {
    let mut network = Network::bare(sites, 1, 1);
    for site in 1..sites {
        let (inner, port) = if site <= 4 { (0, site) } else { (site - 4, 2) };
        network.join((inner, port), (site, 1));
        network.join((site, 1), (inner, port));
    }
    network
}

/// Outputs joined at random to inputs of any site, its own too; with two sites or more each has a channel.
pub fn random(rng: &mut Rng, sites: usize, density: usize) -> Network {
    let mut network = Network::bare(sites, 1, 1);
    let mut inputs: Vec<u16> = (0..4 * sites as u16).collect();
    rng.shuffle(&mut inputs);
    for site in 0..sites {
        let sure = rng.below(4);
        for port in 0..4 {
            if rng.below(100) < density || sites > 1 && port == sure {
                network.channels[4 * site + port] = inputs.pop().expect("as many inputs as outputs");
            }
        }
    }
    network
}

/// Two sites with several channels each way.
pub fn bundle(ways: usize) -> Network {
    let mut network = Network::bare(2, 1, 1);
    for port in 1..=ways {
        network.join((0, port), (1, PORTS - port));
        network.join((1, port), (0, port));
    }
    network
}

/// One site whose first outputs feed its own inputs.
pub fn loops(ways: usize) -> Network {
    let mut network = Network::bare(1, 1, 1);
    for port in 1..=ways {
        network.join((0, port), (0, PORTS - port));
    }
    network
}

/// Some shape of 1 to 16 sites, small ones more often.
pub fn any(rng: &mut Rng) -> Network {
    let sites = if rng.one_in(3) { rng.within(2, 16) } else { rng.within(2, 5) };
    shaped(rng, sites, 4)
}

/// Some shape of 1 to 64 sites in version 2, small ones more often; the eight by eight torus among them.
pub fn any_wide(rng: &mut Rng) -> Network {
    let sites = match rng.below(12) {
        0 => rng.within(2, SITES),
        1 => rng.pick(&[16, 17, 63, SITES]),
        2 | 3 => rng.within(2, 16),
        _ => rng.within(2, 5),
    };
    let network = if rng.one_in(60) {
        grid(8, 8, true)
    } else {
        let side = rng.pick(&[4, 4, 4, 8]);
        shaped(rng, sites, side)
    };
    network.in_version(2)
}

/// One shape of those above: of so many sites, 2 or more, where the shape allows it, grids at most so wide and high.
fn shaped(rng: &mut Rng, sites: usize, side: usize) -> Network {
    match rng.below(9) {
        0 => loops(rng.within(0, 4)),
        1 => ring(sites, rng.one_in(2)),
        2 => bundle(rng.within(1, 4)),
        3 => star(sites),
        4 | 5 => {
            let wide = rng.within(1, side);
            grid(wide, rng.within(1, side), rng.one_in(2))
        }
        _ => {
            let sites = if rng.one_in(8) { 1 } else { sites };
            let density = rng.pick(&[10, 40, 70, 100]);
            random(rng, sites, density)
        }
    }
}

/// A ring, a star or any channels, of exactly so many sites; with 64 also the eight by eight torus. In version 2.
pub fn of_size(rng: &mut Rng, sites: usize) -> Network {
    let network = match rng.below(4) {
        0 if sites == SITES => grid(8, 8, true),
        0 | 1 if sites > 1 => ring(sites, rng.one_in(2)),
        2 => star(sites),
        _ => {
            let density = rng.pick(&[10, 40, 70, 100]);
            random(rng, sites, density)
        }
    };
    network.in_version(2)
}
