//! Sites far apart, whose RUNs give the same in either order, and the lines of `trace --apart`: for every site of a
//! network those far apart from it.

use crate::archive;
use crate::network::{Network, NO_CHANNEL, SITES};
use crate::refusal::Refusal;
use crate::sets::only;
use crate::trace::set_text;
use std::fmt::Write;

/// Whether the sites differ and no channel joins them, in either direction. A site that the network does not have has
/// no channels.
pub fn far_apart(network: &Network, one: usize, other: usize) -> bool {
    one != other && !feeds(network, one, other) && !feeds(network, other, one)
}

/// Whether a channel of the site ends at the other one.
fn feeds(network: &Network, site: usize, other: usize) -> bool {
    let ends_there = |&end: &u16| end != NO_CHANNEL && usize::from(end / 4) == other;
    channels(network, site).iter().any(ends_there)
}

/// The channels of the site's outputs 1 to 4.
fn channels(network: &Network, site: usize) -> &[u16] {
    let sites = network.sites.min(SITES as u64) as usize;
    if site < sites {
        &network.channels[4 * site..][..4]
    } else {
        &[]
    }
}

/// The lines of an archive.
pub fn apart(bytes: &[u8]) -> Result<String, Refusal> {
    let network = archive::read(bytes)?.network;
    let sites = 0..network.sites as usize;
    let mut text = String::new();
    for site in sites.clone() {
        let others = sites.clone().filter(|&other| far_apart(&network, site, other));
        let _ = writeln!(text, "{site} {}", set_text(others.fold(0, |set, other| set | only(other))));
    }
    Ok(text)
}
