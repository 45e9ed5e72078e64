//! Faults of single events: networks and states with one field changed, and numbers at and beyond the limits.
//!
//! A changed field may also be good by chance; the model says what comes of it.

use super::rng::Rng;
use crate::network::{Network, CODES, EDITION_3, NO_CHANNEL, OUTPUTS, PORTS, SPLIT};
use crate::single::Event;
use crate::state::{Connection, InEntry, Input, Output, Phase, Queue, State, Terminator};
use crate::state::{CONNECTIONS, PHASES, TERMINATORS};
use crate::text::Form;

/// Spoils the network of a case of this form so that it may get 3, 6 or 7, in the second form also 2 or 17.
pub fn spoil_network(rng: &mut Rng, form: Form, network: &mut Network) {
    if form == Form::Second && rng.one_in(3) {
        return spoil_version(rng, network);
    }
    match rng.below(3) {
        0 => spoil_limits(rng, form, network),
        1 => spoil_channel(rng, form, network),
        _ => spoil_route(rng, form, network),
    }
}

/// Another version or another edition.
fn spoil_version(rng: &mut Rng, network: &mut Network) {
    match rng.below(3) {
        0 => network.version = rng.pick(&[0, 3, 3, 255]),
        1 => network.version = 3 - network.version.clamp(1, 2),
        _ => network.edition = rng.pick(&[0, 9, 9, 99, 17, 255]),
    }
}

fn spoil_limits(rng: &mut Rng, form: Form, network: &mut Network) {
    match (rng.below(4), form) {
        (0, Form::First) => network.sites = rng.pick(&[0, 17, 18, 128, 255]),
        (0, Form::Second) => network.sites = rng.pick(&[0, 17, 64, 65, 65, 66, 255, 256 + 2, 1 << 32 | 2]),
        (1, _) => network.tries = 0,
        _ => network.depth = rng.pick(&[0, 9, 10, 255]),
    }
}

fn spoil_channel(rng: &mut Rng, form: Form, network: &mut Network) {
    let ends = 4 * (network.sites as usize).clamp(1, form.room());
    let (place, other) = (rng.below(ends), rng.below(ends));
    network.channels[place] = match (rng.below(4), form) {
        (0, _) => ends as u16,
        (1, Form::First) => 254,
        (2, Form::First) => rng.within(ends, 254) as u16,
        (1, Form::Second) => rng.pick(&[254, 255, 255, 256, 65_534, NO_CHANNEL]),
        (2, Form::Second) => rng.within(ends, 65_534) as u16,
        _ => network.channels[other],
    };
}

fn spoil_route(rng: &mut Rng, form: Form, network: &mut Network) {
    let sites = (network.sites as usize).clamp(1, form.room());
    let (from, to) = (rng.below(sites), rng.below(sites));
    let missing = (1..PORTS).find(|p| network.channels[4 * from + p - 1] == NO_CHANNEL).unwrap_or(5) as u16;
    let route = &mut network.routes[sites * from + to];
    let old = *route;
    *route = match rng.below(9) {
        0 => 0,
        1 => old >> 4,
        2 => old & 0xf000 | old >> 4 & 0xf00,
        3 => old & 0xf000 | old >> 12,
        4 => old & 0xf000 | old >> 4 & 0xf00 | old >> 12 << 4,
        5 => old & 0x0fff | rng.pick(&[0x5000, 0x9000, 0xf000]),
        6 => old & 0xfff0 | rng.pick(&[5, 15]),
        7 => missing << 12,
        _ => old & 0xf000 | missing << 8,
    };
}

/// Fills room of the network beyond its sites with junk, which is not looked at.
pub fn junk_beyond(rng: &mut Rng, form: Form, network: &mut Network) {
    let room = form.room();
    let sites = (network.sites as usize).min(room);
    let same = !rng.one_in(8);
    let any_end = |rng: &mut Rng| match (rng.value(), form) {
        (value, Form::First) if value as u8 == 255 => NO_CHANNEL,
        (value, Form::First) => u16::from(value as u8),
        (value, Form::Second) => value as u16,
    };
    let (end, route) = (any_end(rng), rng.value() as u16);
    network.channels[4 * sites..4 * room].fill_with(|| if same { end } else { any_end(rng) });
    network.routes[sites * sites..room * room].fill_with(|| if same { route } else { rng.value() as u16 });
}

/// The limits that a changed field is set around.
struct Limits {
    sites: usize,
    tries: u8,
    depth: u64,
    counter: u8,
    /// Whether the edition has a split output.
    restricted: bool,
}

/// Changes one field of one place; one time in four at a site beyond S, if there is one. In edition 3 one time in
/// three of the split output or its in-queue.
pub fn spoil_state(rng: &mut Rng, form: Form, network: &Network, state: &mut State) {
    let room = form.room();
    let sites = (network.sites as usize).clamp(1, room);
    let beyond = sites < room && rng.one_in(4);
    let site = if beyond { rng.within(sites, room - 1) } else { rng.below(sites) };
    let &Network { tries, depth, edition, .. } = network;
    let restricted = edition == EDITION_3;
    let limits = Limits { sites, tries, depth, counter: state.counter, restricted };
    if restricted && rng.one_in(3) {
        return match rng.below(2) {
            0 => limits.output(rng, &mut state.outputs[OUTPUTS * site + SPLIT]),
            _ => limits.in_queue(rng, &mut state.split_queues[site]),
        };
    }
    let port = rng.below(PORTS);
    match rng.below(5) {
        0 | 1 => limits.input(rng, &mut state.inputs[PORTS * site + port]),
        2 => limits.output(rng, &mut state.outputs[OUTPUTS * site + port]),
        3 => {
            let queue = &mut state.out_queues[site];
            let entry = &mut queue.entries[some_place(rng, queue.count)];
            match rng.below(4) {
                0 => entry.packet = limits.packet(rng),
                1 => entry.set = limits.set(rng, entry.set),
                2 => entry.started = !entry.started,
                _ => limits.count(rng, queue),
            }
        }
        _ => limits.in_queue(rng, &mut state.in_queues[site]),
    }
}

/// An entry below, at or beyond the count.
fn some_place(rng: &mut Rng, count: u64) -> usize {
    let at = count.min(7) as usize;
    let random = rng.below(8);
    rng.pick(&[0, at, at.saturating_sub(1), 7, random])
}

impl Limits {
    fn packet(&self, rng: &mut Rng) -> u8 {
        rng.pick(&[self.counter, self.counter, self.counter.wrapping_sub(1), 255, 1])
    }

    fn set(&self, rng: &mut Rng, old: u64) -> u64 {
        let beyond = 1u64.checked_shl(self.sites as u32).unwrap_or(0);
        rng.pick(&[0, 0, beyond, old | beyond, old | 1 << 15, old | 1 << 16, old | 1 << 63, u64::MAX])
    }

    fn count<E>(&self, rng: &mut Rng, queue: &mut Queue<E>) {
        let more = queue.count + 1;
        queue.count = rng.pick(&[more, self.depth + 1, 8, 9, 255, u64::MAX, queue.count.saturating_sub(1)]);
    }

    fn in_queue(&self, rng: &mut Rng, queue: &mut Queue<InEntry>) {
        let entry = &mut queue.entries[some_place(rng, queue.count)];
        match rng.below(4) {
            0 => entry.packet = self.packet(rng),
            1 => entry.set = self.set(rng, entry.set),
            2 => entry.terminator = rng.pick(&TERMINATORS),
            _ => self.count(rng, queue),
        }
    }

    fn input(&self, rng: &mut Rng, input: &mut Input) {
        match rng.below(7) {
            0 => input.packet = self.packet(rng),
            1 => input.set = self.set(rng, input.set),
            2 | 3 => input.outputs ^= 1 << rng.below(if self.restricted { OUTPUTS } else { PORTS }),
            4 => input.tries = rng.pick(&[self.tries, self.tries.wrapping_add(1), 255, 1]),
            5 if input.connection != Connection::None => {
                let all = CONNECTIONS.len() - usize::from(!self.restricted);
                input.connection = rng.pick(&CONNECTIONS[1..all]);
            }
            _ => self.phase(rng, input),
        }
    }

    /// Another phase; connection and received terminator come and go with it.
    fn phase(&self, rng: &mut Rng, input: &mut Input) {
        input.phase = rng.pick(&PHASES);
        let connects = !matches!(input.phase, Phase::Free | Phase::Seek);
        if !connects {
            input.connection = Connection::None;
        } else if input.connection == Connection::None {
            input.connection = rng.pick(&[Connection::Unicast, Connection::SomeLocal]);
        }
        let receives = matches!(input.phase, Phase::Done | Phase::Last | Phase::FinAbort);
        if !receives {
            input.received = Terminator::None;
        } else if input.received == Terminator::None {
            input.received = rng.pick(&[Terminator::End, Terminator::Abort]);
        }
    }

    fn output(&self, rng: &mut Rng, output: &mut Output) {
        match rng.below(6) {
            0 => output.used = !output.used,
            1 => output.packet = self.packet(rng),
            2 => output.set = self.set(rng, output.set),
            3 => output.input = rng.pick(&[4, 5, 6, 255, 1]),
            4 => output.head = !output.head,
            _ => output.terminator = rng.pick(&TERMINATORS),
        }
    }
}

/// An event whose site, code or set may be at or beyond the limit.
pub fn stray_event(rng: &mut Rng, form: Form, network: &Network) -> Event {
    let sites = network.sites as usize;
    let (limit, room) = (sites as u64, form.room());
    let last = limit.saturating_sub(1);
    let far = rng.pick(&[limit + 1, room as u64, 255]);
    let site = rng.pick(&[0, 0, last, last, limit, far]);
    if rng.one_in(2) {
        let codes = if network.codes() == CODES { [0, 12, 13, 14, 255] } else { [0, 12, 14, 15, 255] };
        return Event::Run { site, code: rng.pick(&codes) };
    }
    let inside = rng.target_set(sites.clamp(1, room));
    let beyond = 1 << sites.min(63);
    let set = rng.pick(&[inside, inside, 0, beyond, inside | beyond, inside | 1 << 16, 1 << 63, u64::MAX]);
    Event::Send { site, set }
}
