//! In words what is wrong with an archive, and where: the line that `inspect` prints of it, without the file's name.
//!
//! The number is the reader's; the place is the first channel, route or send that is not as the format asks.

use crate::archive::read;
use crate::format::{channel, number, Format, FEWEST, VERSION_AT};
use crate::network::{most_sites, NO_CHANNEL};
use crate::print::SEEN;
use crate::refusal::Refusal;
use crate::sets::{all, Set};

/// `an archive of ..`, or `refused N: ` and what is wrong.
pub fn told(bytes: &[u8]) -> String {
    match read(bytes) {
        Ok(run) => {
            let network = &run.network;
            let (sites, sends) = (many(network.sites as usize, "site"), many(run.sends.len(), "send"));
            let form = match network.version {
                1 => String::new(),
                version => format!(", version {version}, edition {}", network.edition),
            };
            let (long, draws) = (many(bytes.len(), "byte"), many(run.draws as usize, "draw"));
            format!("an archive of {long}{form}: {sites}, {sends}, {draws}")
        }
        Err(refusal) => format!("refused {}: {}", refusal.number(), Held::new(bytes).fault(refusal)),
    }
}

/// A number of things.
fn many(count: usize, thing: &str) -> String {
    format!("{count} {thing}{}", if count == 1 { "" } else { "s" })
}

/// Which bytes these are.
fn places(at: usize, width: usize) -> String {
    match width {
        1 => format!("byte {at}"),
        2 => format!("bytes {at} and {}", at + 1),
        _ => format!("bytes {at} to {}", at + width - 1),
    }
}

/// The bytes of a refused archive. Only what the earlier numbers vouch for is read.
struct Held<'a> {
    bytes: &'a [u8],
    version: u8,
    format: Format,
}

impl<'a> Held<'a> {
    fn new(bytes: &'a [u8]) -> Held<'a> {
        let version = bytes.get(VERSION_AT).copied().unwrap_or(1);
        Held { bytes, version, format: Format::of(version) }
    }

    fn byte(&self, at: usize) -> usize {
        self.bytes[at] as usize
    }

    fn word(&self, at: usize) -> usize {
        number(&self.bytes[at..at + 2]) as usize
    }

    fn sites(&self) -> usize {
        self.byte(self.format.sites)
    }

    fn sends(&self) -> usize {
        self.byte(self.format.sends)
    }

    fn fault(&self, refusal: Refusal) -> String {
        match refusal {
            Refusal::Length => self.length(),
            Refusal::Version => format!("byte {VERSION_AT}, the version, is {}, not 1 or 2", self.version),
            Refusal::Edition => self.edition(),
            Refusal::Limits => self.limit(),
            Refusal::Seed => format!("{}, the seed, are 0", places(self.format.seed, 4)),
            Refusal::Size => self.size(),
            Refusal::Channel => self.channel(),
            Refusal::Route => self.route(),
            Refusal::Send => self.send(),
            other => unreachable!("the reader gives no {}", other.number()),
        }
    }

    fn length(&self) -> String {
        let seen = self.bytes.len();
        if seen < FEWEST {
            return format!("{}, fewer than the {FEWEST} of a head", many(seen, "byte"));
        }
        let named = self.word(0);
        if seen as u64 == SEEN {
            return format!("more than 65535 bytes, but bytes 0 and 1 say {named}");
        }
        format!("{seen} bytes, but bytes 0 and 1 say {named}")
    }

    fn edition(&self) -> String {
        let at = self.format.edition.expect("the reader refuses editions of version 2 alone");
        format!("byte {at}, the edition, is {}, not 1, 2 or 3", self.byte(at))
    }

    fn size(&self) -> String {
        let (seen, head) = (self.bytes.len(), self.format.head);
        if seen < head {
            return format!("{seen} bytes, fewer than the {head} of a head of version {}", self.version);
        }
        let made = self.format.length(self.sites(), self.sends());
        let (sites, sends) = (many(self.sites(), "site"), many(self.sends(), "send"));
        format!("{seen} bytes, but {sites} and {sends} make {made}")
    }

    fn limit(&self) -> String {
        let Format { sites, tries, depth, .. } = self.format;
        let limits = [
            (sites, "number of sites", most_sites(self.version)),
            (tries, "limit of tries", 255),
            (depth, "depth of the queues", 8),
        ];
        let wrong = limits.iter().find(|(at, _, most)| !(1..=*most).contains(&self.byte(*at)));
        let (at, words, most) = wrong.expect("one of S, T and D is outside its limits");
        format!("byte {at}, the {words}, is {}, not 1 to {most}", self.byte(*at))
    }

    /// The channel of port m % 4 + 1 of site m / 4.
    fn end(&self, m: usize) -> u16 {
        channel(&self.bytes[self.format.channel_at(m)..self.format.channel_at(m + 1)])
    }

    fn channel(&self) -> String {
        let ends = 4 * self.sites();
        let port = |m: usize| format!("site {}, port {}", m / 4, m % 4 + 1);
        for m in 0..ends {
            let end = self.end(m);
            if end == NO_CHANNEL {
                continue;
            }
            let bytes = places(self.format.channel_at(m), self.format.channel_width);
            let the = format!("the channel of {}, {bytes}", port(m));
            if end as usize >= ends {
                let sites =
                    if self.sites() == 1 { "1 site has" } else { &format!("{} sites have", self.sites()) };
                return format!("{the}, is {end}, and {sites} inputs 0 to {}", ends - 1);
            }
            if let Some(other) = (0..m).find(|&before| self.end(before) == end) {
                return format!("{the}, leads to input {end}, as {} does", port(other));
            }
        }
        unreachable!("a channel is at fault")
    }

    fn route(&self) -> String {
        let sites = self.sites();
        for from in 0..sites {
            for to in 0..sites {
                let at = self.format.route_at(sites, sites * from + to);
                if let Some(wrong) = self.list(from, to, self.word(at)) {
                    let there = if from == to { "itself".to_string() } else { format!("site {to}") };
                    return format!("the route from site {from} to {there}, {}, {wrong}", places(at, 2));
                }
            }
        }
        unreachable!("a route is at fault")
    }

    /// What is wrong with this route, if anything.
    fn list(&self, from: usize, to: usize, route: usize) -> Option<String> {
        if from == to {
            return (route != 0).then(|| format!("is {route:04x}, not 0000"));
        }
        if route == 0 {
            return Some("lists no port".to_string());
        }
        let digits = [route >> 12, route >> 8 & 15, route >> 4 & 15, route & 15];
        let ports: Vec<usize> = digits.into_iter().filter(|&d| d != 0).collect();
        if let Some(port) = ports.iter().find(|&&p| p > 4) {
            return Some(format!("names port {port}, and ports are 1 to 4"));
        }
        let mut seen = Vec::new();
        for port in &ports {
            if seen.contains(port) {
                return Some(format!("names port {port} twice"));
            }
            seen.push(*port);
        }
        let joined = |port: usize| self.end(4 * from + port - 1) != NO_CHANNEL;
        if let Some(port) = ports.iter().find(|&&p| !joined(p)) {
            return Some(format!("names port {port}, which has no channel"));
        }
        let rest = &digits[digits.iter().position(|&d| d == 0).unwrap_or(4)..];
        rest.iter().any(|&d| d != 0).then(|| format!("is {route:04x}, with a 0 left of a port"))
    }

    fn send(&self) -> String {
        let draws = self.word(self.format.draws);
        let mut last = 0;
        for m in 0..self.sends() {
            let at = self.format.send_at(self.sites(), m);
            let draw = self.word(at);
            if let Some(wrong) = self.target(at) {
                return format!("send {m}, {wrong}");
            }
            let has = format!("send {m}, {}, has draw number {draw}", places(at, 2));
            if draw > draws {
                let are = if draws == 1 { "is" } else { "are" };
                return format!("{has}, and there {are} {}", many(draws, "draw"));
            }
            if draw < last {
                return format!("{has}, below the {last} of the send before it");
            }
            last = draw;
        }
        unreachable!("a send is at fault")
    }

    /// What is wrong with the site or the set of the send that begins here, if anything.
    fn target(&self, at: usize) -> Option<String> {
        let (sites, site) = (self.sites(), self.byte(at + 2));
        let are = match sites {
            1 => "there is site 0 alone".to_string(),
            _ => format!("there are sites 0 to {}", sites - 1),
        };
        if site >= sites {
            return Some(format!("{}, is from site {site}, and {are}", places(at + 2, 1)));
        }
        let (set_at, width) = (at + 3, self.format.set_width);
        let set: Set = number(&self.bytes[set_at..set_at + width]);
        let bytes = places(set_at, width);
        if set == 0 {
            return Some(format!("{bytes}, has an empty set"));
        }
        let beyond = set & !all(sites);
        (beyond != 0).then(|| format!("{bytes}, goes to site {}, and {are}", beyond.trailing_zeros()))
    }
}
