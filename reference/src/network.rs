//! The network as handed in, its refusals 2, 17, 3, 6 and 7, and the wiring made from one that passes.
//!
//! `Network` can hold anything; a `Wiring` can only be had from a network that is not refused.

use crate::refusal::Refusal;

/// Sites that a network can have at most.
pub const SITES: usize = 64;
/// Sites that a network of version 1 can have at most.
pub const SITES_OF_1: usize = 16;
/// The edition of version 1: an output is empty as soon as its terminator is delivered.
pub const EDITION: u8 = 1;
/// The edition, of version 2 alone, in which outputs 1 to 4 are closing after that.
pub const EDITION_2: u8 = 2;
/// The edition, of version 2 alone, in which a packet splits only into its own site and one way onward, through the
/// split output; outputs 1 to 4 are closing there too, and timeouts do nothing.
pub const EDITION_3: u8 = 3;
/// The editions that there are.
pub const EDITIONS: [u8; 3] = [EDITION, EDITION_2, EDITION_3];
/// Net-inputs of a site, and net-outputs with these numbers; port 0 is local.
pub const PORTS: usize = 5;
/// Net-outputs of a site, the split output among them.
pub const OUTPUTS: usize = 6;
/// The number of the split output, which edition 3 alone uses.
pub const SPLIT: usize = 5;
/// Places in each queue at most.
pub const DEPTH: usize = 8;
/// Event codes of a site in editions 1 and 2.
pub const CODES: usize = 13;
/// Event codes of a site in edition 3: the split output, 13, and its operator, 14, are the last.
pub const CODES_OF_3: usize = 15;
/// The channel of an output without one, in both versions.
pub const NO_CHANNEL: u16 = 65_535;
/// In a wiring: no input at the end of this output.
pub const NO_INPUT: u16 = 65_535;

/// A network as it is handed in, S and D of any size; room beyond S sites is not looked at.
#[derive(Clone, PartialEq, Eq, Debug)]
pub struct Network {
    pub version: u8,
    pub edition: u8,
    pub sites: u64,
    pub tries: u8,
    pub depth: u64,
    /// At 4 * site + port - 1: 65535, or 4 * site + port - 1 of the input that the channel feeds.
    pub channels: [u16; 4 * SITES],
    /// At S * from + to: four hex digits, first choice highest.
    pub routes: [u16; SITES * SITES],
}

/// What the rules ask of a valid network.
#[derive(Clone)]
pub struct Wiring {
    pub sites: usize,
    pub tries: u8,
    pub depth: usize,
    /// Editions 2 and 3: an output 1 to 4 that has delivered its terminator is closing.
    pub closes: bool,
    /// Edition 3: a packet splits through the split output alone, and timeouts do nothing.
    pub restricted: bool,
    /// For each output place, the input place that its channel feeds, or `NO_INPUT`.
    pub far: [u16; OUTPUTS * SITES],
    /// At S * from + to: the route list.
    lists: [u16; SITES * SITES],
}

impl Wiring {
    /// The route list from a site to another one.
    #[inline]
    pub fn list(&self, from: usize, to: usize) -> u16 {
        self.lists[(from * self.sites + to) % (SITES * SITES)]
    }

    /// Event codes of a site.
    #[inline]
    pub fn codes(&self) -> usize {
        codes(self.restricted)
    }
}

/// The ports of a route list, first choice first.
#[inline]
pub fn ports(list: u16) -> impl Iterator<Item = usize> {
    let mut rest = list;
    std::iter::from_fn(move || {
        let port = (rest >> 12) as usize;
        rest <<= 4;
        (port != 0).then_some(port)
    })
}

fn codes(restricted: bool) -> usize {
    if restricted {
        CODES_OF_3
    } else {
        CODES
    }
}

/// Sites that a network of this version, 1 or 2, can have at most.
pub fn most_sites(version: u8) -> usize {
    if version == 1 {
        SITES_OF_1
    } else {
        SITES
    }
}

impl Network {
    /// Version 1 and edition 1, everything else zero.
    pub fn blank() -> Network {
        let (channels, routes) = ([0; 4 * SITES], [0; SITES * SITES]);
        Network { version: 1, edition: EDITION, sites: 0, tries: 0, depth: 0, channels, routes }
    }

    /// The first of the refusals 2, 17, 3.
    pub fn check_head(&self) -> Result<(), Refusal> {
        self.check_version()?;
        self.check_edition()?;
        self.check_limits()
    }

    /// Refusal 2: version neither 1 nor 2.
    pub fn check_version(&self) -> Result<(), Refusal> {
        matches!(self.version, 1 | 2).then_some(()).ok_or(Refusal::Version)
    }

    /// Refusal 17, for a known version: an edition unknown, or not 1 in version 1.
    pub fn check_edition(&self) -> Result<(), Refusal> {
        let known = EDITIONS.contains(&self.edition) && (self.edition == EDITION || self.version != 1);
        known.then_some(()).ok_or(Refusal::Edition)
    }

    /// Event codes of a site in the network's edition.
    pub fn codes(&self) -> usize {
        codes(self.edition == EDITION_3)
    }

    /// Refusal 3, for a known version: S 1 to 16 or to 64, T 1 to 255, D 1 to 8.
    pub fn check_limits(&self) -> Result<(), Refusal> {
        let good = (1..=most_sites(self.version) as u64).contains(&self.sites)
            && self.tries >= 1
            && (1..=DEPTH as u64).contains(&self.depth);
        good.then_some(()).ok_or(Refusal::Limits)
    }

    /// Refusal 6, for S within its limits: each channel none or below 4S, no input fed twice.
    pub fn check_channels(&self) -> Result<(), Refusal> {
        let ends = 4 * self.sites as usize;
        let mut fed = [false; 4 * SITES];
        for &end in &self.channels[..ends] {
            if end == NO_CHANNEL {
                continue;
            }
            let end = end as usize;
            if end >= ends || fed[end] {
                return Err(Refusal::Channel);
            }
            fed[end] = true;
        }
        Ok(())
    }

    /// Refusal 7, for S within its limits.
    pub fn check_routes(&self) -> Result<(), Refusal> {
        let sites = self.sites as usize;
        for from in 0..sites {
            for to in 0..sites {
                let route = self.routes[sites * from + to];
                let good = if from == to { route == 0 } else { self.is_list(from, route) };
                if !good {
                    return Err(Refusal::Route);
                }
            }
        }
        Ok(())
    }

    /// One to four different ports with channels, zeros only after the last port.
    fn is_list(&self, from: usize, route: u16) -> bool {
        let digits = [route >> 12, route >> 8 & 15, route >> 4 & 15, route & 15];
        let length = digits.iter().position(|&d| d == 0).unwrap_or(4);
        let (list, rest) = digits.split_at(length);
        let joined = |d: u16| d <= 4 && self.channels[4 * from + d as usize - 1] != NO_CHANNEL;
        length >= 1
            && rest.iter().all(|&d| d == 0)
            && list.iter().all(|&d| joined(d))
            && list.iter().enumerate().all(|(i, d)| !list[..i].contains(d))
    }

    /// The wiring, or the first of the refusals 2, 17, 3, 6, 7.
    pub fn wiring(&self) -> Result<Wiring, Refusal> {
        self.check_head()?;
        self.check_channels()?;
        self.check_routes()?;
        Ok(self.wired())
    }

    fn wired(&self) -> Wiring {
        let sites = self.sites as usize;
        let mut far = [NO_INPUT; OUTPUTS * SITES];
        let mut lists = [0; SITES * SITES];
        for site in 0..sites {
            for port in 1..PORTS {
                let end = self.channels[4 * site + port - 1];
                if end != NO_CHANNEL {
                    far[OUTPUTS * site + port] = end / 4 * PORTS as u16 + end % 4 + 1;
                }
            }
        }
        lists[..sites * sites].copy_from_slice(&self.routes[..sites * sites]);
        let (tries, depth) = (self.tries, self.depth as usize);
        let (closes, restricted) = (self.edition >= EDITION_2, self.edition == EDITION_3);
        Wiring { sites, tries, depth, closes, restricted, far, lists }
    }
}
