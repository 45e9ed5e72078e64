//! The text forms of single event cases and of their outcomes: decimal numbers, one space or newline between.
//!
//! docs/TESTING.md gives the forms number by number. Only states that an enum of phases can hold are written:
//! connection and received terminator stand exactly where the phase has them.

mod reading;

pub use reading::read_cases;

use crate::network::{Network, NO_CHANNEL, PORTS, SITES, SITES_OF_1, SPLIT};
use crate::refusal::Refusal;
use crate::single::{ask_seen, run_seen, send_seen, Event, Told};
use crate::state::{Connection, InEntry, Output, Phase, Queue, State, Terminator};
use crate::step::Answer;
use crate::watch::Watch;

/// The two forms of a case.
#[derive(Clone, Copy, PartialEq, Eq, Debug)]
pub enum Form {
    /// Version 1 and edition 1 without saying so, room for 16 sites, 255 for no channel.
    First,
    /// Any version and edition, room for 64 sites, 65535 for no channel.
    Second,
}

impl Form {
    /// Sites that a case of the form has room for.
    pub fn room(self) -> usize {
        match self {
            Form::First => SITES_OF_1,
            Form::Second => SITES,
        }
    }
}

/// One event with the network and the state that it is handed; what the form has no room for is zero.
#[derive(Clone, PartialEq, Eq, Debug)]
pub struct Case {
    pub form: Form,
    pub network: Network,
    pub state: State,
    pub event: Event,
}

/// What comes back: the answer's numbers, or the refusal, and the state.
pub struct Outcome {
    pub form: Form,
    /// Whether the outputs in the way are told.
    pub asked: bool,
    /// Answer, packet, site and the outputs in the way.
    pub told: Result<[u64; 4], Refusal>,
    pub state: State,
}

/// The numbers of a RUN.
fn run_numbers((answer, outputs): Told) -> [u64; 4] {
    let [answer, packet, site] = match answer {
        Answer::Nothing => [0, 0, 0],
        Answer::Changed => [1, 0, 0],
        Answer::Serviced { packet, site } => [2, packet, site],
    };
    [answer, packet, site, outputs].map(u64::from)
}

impl Case {
    pub fn outcome(&self, watch: &mut impl Watch) -> Outcome {
        let mut state = self.state.clone();
        let told = match self.event {
            Event::Send { site, set } => {
                send_seen(&self.network, &mut state, site, set, watch).map(|packet| [packet as u64, 0, 0, 0])
            }
            Event::Run { site, code } => {
                run_seen(&self.network, &mut state, site, code, watch).map(run_numbers)
            }
            Event::Ask { site, code } => {
                ask_seen(&self.network, &mut state, site, code, watch).map(run_numbers)
            }
        };
        Outcome { form: self.form, asked: matches!(self.event, Event::Ask { .. }), told, state }
    }

    /// Whether an enum of phases can hold every net-input.
    pub fn is_representable(&self) -> bool {
        self.state.inputs.iter().all(|input| {
            let connects = !matches!(input.phase, Phase::Free | Phase::Seek);
            let receives = matches!(input.phase, Phase::Done | Phase::Last | Phase::FinAbort);
            connects == (input.connection != Connection::None)
                && receives == (input.received != Terminator::None)
                && input.received != Terminator::KeepLocal
        })
    }
}

/// Writes numbers, lines apart.
#[derive(Default)]
pub struct Writer {
    pub text: String,
}

impl Writer {
    fn line(&mut self, numbers: &[u64]) {
        let words: Vec<String> = numbers.iter().map(u64::to_string).collect();
        self.text.push_str(&words.join(" "));
        self.text.push('\n');
    }

    /// How many cases there are of each form, and the cases, those of the first form before the others.
    pub fn cases(&mut self, cases: &[Case]) {
        assert!(cases.is_sorted_by_key(|case| case.form == Form::Second), "the first form comes first");
        let first = cases.iter().filter(|case| case.form == Form::First).count();
        self.line(&[first, cases.len() - first].map(|count| count as u64));
        for case in cases {
            self.network(case.form, &case.network);
            self.state(case.form, &case.state);
            self.line(&match case.event {
                Event::Run { site, code } => [1, site, code],
                Event::Send { site, set } => [2, site, set],
                Event::Ask { site, code } => [3, site, code],
            });
        }
    }

    pub fn outcome(&mut self, outcome: &Outcome) {
        let numbers = match outcome.told {
            Ok([answer, packet, site, outputs]) => [0, answer, packet, site, outputs],
            Err(refusal) => [refusal.number() as u64, 0, 0, 0, 0],
        };
        self.line(&numbers[..if outcome.asked { 5 } else { 4 }]);
        self.state(outcome.form, &outcome.state);
    }

    fn network(&mut self, form: Form, network: &Network) {
        let limits = [network.sites, network.tries as u64, network.depth];
        match form {
            Form::First => self.line(&limits),
            Form::Second => {
                self.line(&[&[network.version as u64, network.edition as u64], &limits[..]].concat())
            }
        }
        let shown = |end: &u16| match (form, *end) {
            (Form::First, NO_CHANNEL) => 255,
            (_, end) => u64::from(end),
        };
        let room = form.room();
        self.filled(&network.channels[..4 * room].iter().map(shown).collect::<Vec<u64>>());
        self.filled(&network.routes[..room * room].iter().map(|&route| route.into()).collect::<Vec<u64>>());
    }

    /// The number that fills the end of the room, how many come before it, and these.
    fn filled(&mut self, room: &[u64]) {
        let fill = room[room.len() - 1];
        let count = room.iter().rposition(|&n| n != fill).map_or(0, |last| last + 1);
        self.line(&[&[fill, count as u64], &room[..count]].concat());
    }

    fn state(&mut self, form: Form, state: &State) {
        self.line(&[state.counter as u64]);
        for site in 0..form.room() {
            if state.is_zero_site(site) {
                self.line(&[0]);
            } else {
                self.line(&site_numbers(state, site));
            }
        }
    }
}

/// The numbers of a site, the mark first: 1, or 2 where the last 36 numbers, those of the split output, come too.
fn site_numbers(state: &State, site: usize) -> Vec<u64> {
    let splits = !state.is_zero_split(site);
    let mut numbers = vec![1 + splits as u64];
    for i in state.inputs_of(site) {
        numbers.extend([i.phase as u64, i.connection as u64, i.received as u64, i.packet as u64, i.set]);
        numbers.extend((0..PORTS).map(|p| (i.outputs >> p & 1) as u64));
        numbers.push(i.tries as u64);
    }
    numbers.extend(state.outputs_of(site)[..PORTS].iter().flat_map(output_numbers));
    numbers.push(state.out_queues[site].count);
    for e in &state.out_queues[site].entries {
        numbers.extend([e.packet as u64, e.set, e.started as u64]);
    }
    numbers.extend(queue_numbers(&state.in_queues[site]));
    if splits {
        numbers.extend(state.inputs_of(site).iter().map(|i| (i.outputs >> SPLIT & 1) as u64));
        numbers.extend(output_numbers(&state.outputs_of(site)[SPLIT]));
        numbers.extend(queue_numbers(&state.split_queues[site]));
    }
    numbers
}

fn output_numbers(o: &Output) -> [u64; 6] {
    let used = o.used as u64 + 2 * o.closing as u64;
    [used, o.packet as u64, o.set, o.input as u64, o.head as u64, o.terminator as u64]
}

/// The numbers of an in-queue.
fn queue_numbers(queue: &Queue<InEntry>) -> Vec<u64> {
    let entries = queue.entries.iter().flat_map(|e| [e.packet as u64, e.set, e.terminator as u64]);
    std::iter::once(queue.count).chain(entries).collect()
}
