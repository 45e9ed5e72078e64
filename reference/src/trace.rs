//! The lines of `trace`: what each event of a stored run did, in the words of docs/TRACE.md.
//!
//! Every draw is run by the model's own step functions. What it did is told from the state before it and the
//! state after it, and from the answer.

use crate::archive::{Run, Send};
use crate::draws::{event, Draws};
use crate::network::{Wiring, OUTPUTS, PORTS, SPLIT};
use crate::owing::owed;
use crate::refusal::Refusal;
use crate::sets::{members, size, Set};
use crate::single::accept;
use crate::state::{Connection, Phase, State, Terminator};
use crate::step::{Answer, Machine};

/// `{0,2,63}`, ascending.
pub(crate) fn set_text(set: Set) -> String {
    let numbers: Vec<String> = members(set).map(|number| number.to_string()).collect();
    format!("{{{}}}", numbers.join(","))
}

fn phase_name(phase: Phase) -> &'static str {
    match phase {
        Phase::Free => "free",
        Phase::Seek => "seek",
        Phase::Open => "open",
        Phase::Wait => "wait",
        Phase::Done => "done",
        Phase::Last => "last",
        Phase::Abort => "abort",
        Phase::FinAbort => "fin-abort",
    }
}

fn connection_name(connection: Connection) -> &'static str {
    match connection {
        Connection::None => unreachable!("a net-input in open has a connection"),
        Connection::Unicast => "unicast",
        Connection::Passthru => "passthru",
        Connection::AllRemote => "all-remote",
        Connection::SomeLocal => "some-local",
        Connection::Handed => "handed",
        Connection::Split => "split",
    }
}

fn terminator_name(terminator: Terminator) -> &'static str {
    match terminator {
        Terminator::None => unreachable!("a terminator that is passed on"),
        Terminator::End => "end",
        Terminator::Abort => "abort",
        Terminator::KeepLocal => "keep-local",
    }
}

fn component_name(code: usize) -> String {
    match code {
        0..=4 => format!("net-input {code}"),
        5..=9 => format!("net-output {}", code - 5),
        10 => "out-queue".to_string(),
        11 => "operator".to_string(),
        12 => "timeout".to_string(),
        13 => "split output".to_string(),
        _ => "split operator".to_string(),
    }
}

/// One draw seen from both sides: what RUN (site, code) made of a state.
struct Seen<'a> {
    wiring: &'a Wiring,
    before: &'a State,
    after: &'a State,
    site: usize,
}

impl Seen<'_> {
    fn what(&self, code: usize, answer: Answer) -> String {
        match (answer, code) {
            (Answer::Nothing, _) => "nothing".to_string(),
            (_, 0..=4) => self.net_input(code),
            (_, 5) => format!("{} enters the in-queue", self.carried(0)),
            (_, 6..=9) => self.remote_output(code - 5),
            (_, 10) => self.out_queue(),
            (_, 11) => self.operator(0, answer),
            (_, 12) => self.timeout(),
            (_, 13) => format!("{} enters the split in-queue", self.carried(SPLIT)),
            _ => self.operator(SPLIT, answer),
        }
    }

    /// `FROM to TO` of the net-input at this place.
    fn turn(&self, place: usize) -> String {
        let (from, to) = (self.before.inputs[place].phase, self.after.inputs[place].phase);
        format!("{} to {}", phase_name(from), phase_name(to))
    }

    /// For each of these outputs `, output J gets ..`, for the split output `, split output gets ..`.
    fn gets(&self, outputs: u8, what: impl Fn(usize) -> String) -> String {
        let name = |port: usize| match port {
            SPLIT => "split output".to_string(),
            _ => format!("output {port}"),
        };
        let marked = (0..OUTPUTS).filter(|port| outputs >> port & 1 == 1);
        marked.map(|port| format!(", {} gets {}", name(port), what(OUTPUTS * self.site + port))).collect()
    }

    fn terminators(&self, outputs: u8) -> String {
        self.gets(outputs, |place| terminator_name(self.after.outputs[place].terminator).to_string())
    }

    fn net_input(&self, port: usize) -> String {
        let place = PORTS * self.site + port;
        let (old, new) = (&self.before.inputs[place], &self.after.inputs[place]);
        let packet = format!("packet {}, ", old.packet);
        packet
            + &match (old.phase, new.phase) {
                (Phase::Seek, Phase::Seek) => format!("seek, try {} of {}", new.tries, self.wiring.tries),
                (Phase::Seek, _) => {
                    let connection = connection_name(new.connection);
                    let sets = self.gets(new.outputs, |output| set_text(self.after.outputs[output].set));
                    format!("{}, {connection}{sets}", self.turn(place))
                }
                (_, Phase::Free) => self.turn(place) + &self.terminators(old.outputs),
                _ => self.turn(place),
            }
    }

    /// What an output passed on: the packet, that is its head, or the packet's terminator.
    fn carried(&self, port: usize) -> String {
        let output = &self.before.outputs_of(self.site)[port];
        match output.head {
            false => format!("packet {}", output.packet),
            true => format!("{} of packet {}", terminator_name(output.terminator), output.packet),
        }
    }

    fn remote_output(&self, port: usize) -> String {
        let place = OUTPUTS * self.site + port;
        let far = self.wiring.far[place] as usize;
        let end = format!("to site {}, net-input {}", far / PORTS, far % PORTS);
        let (old, new) = (&self.before.outputs[place], &self.after.outputs[place]);
        if old.closing {
            return format!("packet {} gives up its channel {end}", old.packet);
        }
        let closing = if new.closing { ", closing" } else { "" };
        format!("{} goes {end}, {}{closing}", self.carried(port), self.turn(far))
    }

    fn out_queue(&self) -> String {
        let front = &self.before.out_queues[self.site].entries[0];
        let verb = if front.started { "ends" } else { "starts" };
        format!("packet {} {verb}, net-input 0 {}", front.packet, self.turn(PORTS * self.site))
    }

    /// The operator of the in-queue of output 0, or of the split output.
    fn operator(&self, port: usize, answer: Answer) -> String {
        let front = self.before.in_queue(self.site, port).entries[0];
        let (old, new) = (&self.before.out_queues[self.site], &self.after.out_queues[self.site]);
        let requeued = new.last().filter(|_| new.count > old.count).map(|entry| set_text(entry.set));
        let packet = format!("packet {}", front.packet);
        match (answer, requeued) {
            (Answer::Serviced { packet, site }, None) => format!("packet {packet} serviced at site {site}"),
            (Answer::Serviced { packet, site }, Some(rest)) => {
                format!("packet {packet} serviced at site {site}, {rest} requeued")
            }
            (_, Some(rest)) => format!("{packet} requeued, {rest}"),
            (_, None) => format!("{packet} cleared"),
        }
    }

    fn timeout(&self) -> String {
        let feeder = self.before.outputs_of(self.site)[0].input as usize;
        let place = PORTS * self.site + feeder;
        let input = &self.before.inputs[place];
        let cut = self.terminators(input.outputs & !1);
        format!("net-input {feeder} cut, packet {}, {}{cut}", input.packet, self.turn(place))
    }
}

/// A run being traced.
struct Trace<'a> {
    run: &'a Run,
    wiring: &'a Wiring,
    state: State,
    accepted: u32,
    pairs: u32,
    text: String,
}

impl Trace<'_> {
    fn line(&mut self, line: String) {
        self.text.push_str(&line);
        self.text.push('\n');
    }

    fn send(&mut self, number: usize, send: &Send) {
        let when = if send.draw == self.run.draws {
            "after the last draw".to_string()
        } else {
            format!("before draw {}", send.draw)
        };
        let outcome = match accept(self.wiring, &mut self.state, send.site as usize, send.set) {
            Ok(packet) => {
                self.accepted += 1;
                self.pairs += size(send.set);
                format!("packet {packet}")
            }
            Err(refusal) => format!("passed over, refused {}", refusal.number()),
        };
        self.line(format!("send {number} {when}: site {} to {}: {outcome}", send.site, set_text(send.set)));
    }

    /// The sends that are marked with this draw number.
    fn sends(&mut self, draw: u16) {
        let run = self.run;
        for (number, send) in run.sends.iter().enumerate().filter(|(_, send)| send.draw == draw) {
            self.send(number, send);
        }
    }

    /// A draw that names this event; whether it serviced.
    fn draw(&mut self, draw: u16, site: usize, code: usize, all: bool) -> bool {
        let before = self.state.clone();
        let mut machine = Machine { wiring: self.wiring, state: &mut self.state, watch: &mut () };
        let answer = machine.run(site, code);
        if all || answer != Answer::Nothing {
            let seen = Seen { wiring: self.wiring, before: &before, after: &self.state, site };
            let what = seen.what(code, answer);
            self.line(format!("draw {draw}: site {site}, {}: {what}", component_name(code)));
        }
        matches!(answer, Answer::Serviced { .. })
    }
}

/// The lines of an archive; with `all` those of idle draws too.
pub fn trace(bytes: &[u8], all: bool) -> Result<String, Refusal> {
    let run = crate::archive::read(bytes)?;
    let wiring = run.network.wiring()?;
    let state = State::empty();
    let mut trace = Trace { run: &run, wiring: &wiring, state, accepted: 0, pairs: 0, text: String::new() };
    let mut draws = Draws::new(run.seed);
    let mut serviced = 0;
    for draw in 0..run.draws {
        trace.sends(draw);
        let (site, code) = event(draws.next_value(), wiring.sites, wiring.codes());
        serviced += trace.draw(draw, site, code, all) as u32;
    }
    trace.sends(run.draws);
    let (accepted, pairs, owed) = (trace.accepted, trace.pairs, owed(&trace.state));
    trace.line(format!("accepted {accepted} pairs {pairs} serviced {serviced} owed {owed}"));
    Ok(trace.text)
}
