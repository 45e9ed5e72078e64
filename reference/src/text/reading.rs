//! The reader of single event cases.

use super::{Case, Form};
use crate::network::{Network, DEPTH, NO_CHANNEL, OUTPUTS, PORTS, SPLIT};
use crate::single::Event;
use crate::state::{InEntry, Input, OutEntry, Output, Queue, State, Terminator};
use crate::state::{CONNECTIONS, PHASES, TERMINATORS};

/// Reads numbers one after another; it panics on a text that is not of the form.
struct Reader<'a>(std::str::SplitAsciiWhitespace<'a>);

/// The cases of a text.
pub fn read_cases(text: &str) -> Vec<Case> {
    let mut reader = Reader(text.split_ascii_whitespace());
    let (first, second) = (reader.number(), reader.number());
    let forms = (0..first).map(|_| Form::First).chain((0..second).map(|_| Form::Second));
    forms.map(|form| reader.case(form)).collect()
}

impl Reader<'_> {
    fn number(&mut self) -> u64 {
        self.0.next().expect("another number").parse().expect("a decimal number")
    }

    fn byte(&mut self) -> u8 {
        self.number().try_into().expect("a number below 256")
    }

    fn word(&mut self) -> u16 {
        self.number().try_into().expect("a number below 65536")
    }

    fn mark(&mut self) -> bool {
        self.number() == 1
    }

    fn terminator(&mut self) -> Terminator {
        TERMINATORS[self.number() as usize]
    }

    fn case(&mut self, form: Form) -> Case {
        let network = self.network(form);
        let state = self.state(form);
        let (kind, site, number) = (self.number(), self.number(), self.number());
        let event = match kind {
            1 => Event::Run { site, code: number },
            2 => Event::Send { site, set: number },
            3 => Event::Ask { site, code: number },
            _ => panic!("no event of kind {kind}"),
        };
        Case { form, network, state, event }
    }

    fn network(&mut self, form: Form) -> Network {
        let mut network = Network::blank();
        if form == Form::Second {
            (network.version, network.edition) = (self.byte(), self.byte());
        }
        (network.sites, network.tries, network.depth) = (self.number(), self.byte(), self.number());
        let room = form.room();
        self.fill(&mut network.channels[..4 * room], |reader| reader.channel(form));
        self.fill(&mut network.routes[..room * room], Reader::word);
        network
    }

    fn channel(&mut self, form: Form) -> u16 {
        match form {
            Form::First => match self.byte() {
                255 => NO_CHANNEL,
                end => end.into(),
            },
            Form::Second => self.word(),
        }
    }

    /// The number that fills the room, and those that stand at its front.
    fn fill(&mut self, room: &mut [u16], next: impl Fn(&mut Self) -> u16) {
        room.fill(next(self));
        let count = self.number() as usize;
        room[..count].fill_with(|| next(self));
    }

    fn state(&mut self, form: Form) -> State {
        let mut state = State { counter: self.byte(), ..State::empty() };
        for site in 0..form.room() {
            let mark = self.number();
            if mark > 0 {
                self.site(&mut state, site);
            }
            if mark > 1 {
                self.split(&mut state, site);
            }
        }
        state
    }

    fn site(&mut self, state: &mut State, site: usize) {
        state.inputs[PORTS * site..][..PORTS].fill_with(|| self.input());
        state.outputs[OUTPUTS * site..][..PORTS].fill_with(|| self.output());
        state.out_queues[site].count = self.number();
        for place in 0..DEPTH {
            let (packet, set, started) = (self.byte(), self.number(), self.mark());
            state.out_queues[site].entries[place] = OutEntry { packet, set, started };
        }
        state.in_queues[site] = self.in_queue();
    }

    /// The split output of a site: its marks at the inputs, itself, its in-queue.
    fn split(&mut self, state: &mut State, site: usize) {
        for input in &mut state.inputs[PORTS * site..][..PORTS] {
            input.outputs |= (self.mark() as u8) << SPLIT;
        }
        state.outputs[OUTPUTS * site + SPLIT] = self.output();
        state.split_queues[site] = self.in_queue();
    }

    fn in_queue(&mut self) -> Queue<InEntry> {
        let mut queue = Queue { count: self.number(), ..Queue::default() };
        queue.entries.fill_with(|| {
            let (packet, set, terminator) = (self.byte(), self.number(), self.terminator());
            InEntry { packet, set, terminator }
        });
        queue
    }

    fn input(&mut self) -> Input {
        let phase = PHASES[self.number() as usize];
        let connection = CONNECTIONS[self.number() as usize];
        let received = self.terminator();
        let (packet, set) = (self.byte(), self.number());
        let outputs = (0..PORTS).fold(0, |marks, port| marks | (self.mark() as u8) << port);
        Input { phase, connection, received, packet, set, outputs, tries: self.byte() }
    }

    fn output(&mut self) -> Output {
        let (marks, packet, set) = (self.number(), self.byte(), self.number());
        assert!(marks < 4, "in use, and 2 more for closing");
        let (input, head, terminator) = (self.byte(), self.mark(), self.terminator());
        Output { used: marks % 2 == 1, packet, set, input, head, terminator, closing: marks > 1 }
    }
}
