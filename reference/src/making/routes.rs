//! Route lists for a network with channels: towards the target, one way only, or anyhow (they may loop).

use super::rng::Rng;
use crate::network::Network;

const FAR: usize = usize::MAX;

/// Hops to `target` from every site, by the ends of its channels.
fn distances(ends: &[Vec<usize>], target: usize) -> Vec<usize> {
    let mut hops = vec![FAR; ends.len()];
    hops[target] = 0;
    let mut moved = true;
    while moved {
        moved = false;
        for (site, ends) in ends.iter().enumerate() {
            let nearest = ends.iter().map(|&end| hops[end]).min().unwrap_or(FAR);
            if nearest < hops[site].saturating_sub(1) {
                hops[site] = nearest + 1;
                moved = true;
            }
        }
    }
    hops
}

/// The site that the channel of this port leads to.
fn end(network: &Network, site: usize, port: usize) -> usize {
    network.channels[4 * site + port - 1] as usize / 4
}

/// A route of these ports, at most four.
pub fn route(ports: &[usize]) -> u16 {
    let mut digits = [0; 4];
    for (digit, &port) in digits.iter_mut().zip(ports) {
        *digit = port as u16;
    }
    digits.iter().fold(0, |route, digit| route << 4 | digit)
}

/// Fills all lists; `list` orders and cuts the ports with channels, nearest end first, of one pair.
fn fill(network: &mut Network, mut list: impl FnMut(&mut Vec<usize>)) {
    let sites = network.sites as usize;
    let ends_of = |site| network.joined(site).into_iter().map(|port| end(network, site, port)).collect();
    let ends: Vec<Vec<usize>> = (0..sites).map(ends_of).collect();
    for to in 0..sites {
        let hops = distances(&ends, to);
        for from in (0..sites).filter(|&from| from != to) {
            let mut ports = network.joined(from);
            ports.sort_by_key(|&p| hops[end(network, from, p)]);
            list(&mut ports);
            network.set_route(from, to, route(&ports));
        }
    }
}

/// The nearest ways first, at most `most` ports a list.
pub fn nearest(network: &mut Network, most: usize) {
    fill(network, |ports| ports.truncate(most));
}

/// Any lists: often loops.
pub fn anyhow(network: &mut Network, rng: &mut Rng) {
    fill(network, |ports| {
        rng.shuffle(ports);
        ports.truncate(rng.within(1, ports.len()));
    });
}

/// One of the ways above.
pub fn any(network: &mut Network, rng: &mut Rng) {
    match rng.below(4) {
        0 => anyhow(network, rng),
        1 => nearest(network, 1),
        _ => nearest(network, rng.within(1, 4)),
    }
}
