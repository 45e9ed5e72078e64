//! For events at sites far apart: networks and states in range to try them in, what an event answers, and counts.

use reference::archive::Run;
use reference::coverage::{column, kind, COLUMNS};
use reference::making::runs::{furnished, load};
use reference::making::states::{any_state, end_of};
use reference::making::{graphs, marks::close_some, rng::Rng};
use reference::network::{Network, NO_CHANNEL, OUTPUTS, PORTS, SITES, SITES_OF_1};
use reference::range::in_range;
use reference::refusal::Refusal;
use reference::single::{run, send, Event, Told};
use reference::state::{Connection, Input, Output, Phase, State, Terminator};
use reference::step::{Answer, Machine};

/// What an event answers: a SEND its packet, a RUN its answer and the outputs in the way, or the refusal.
#[derive(Clone, Copy, PartialEq, Eq, Debug)]
pub enum Answered {
    Send(Result<u8, Refusal>),
    Run(Result<Told, Refusal>),
}

impl Answered {
    pub fn is_refused(self) -> bool {
        matches!(self, Answered::Send(Err(_)) | Answered::Run(Err(_)))
    }

    pub fn is_changed(self) -> bool {
        !self.is_refused() && !matches!(self, Answered::Run(Ok((Answer::Nothing, _))))
    }

    pub fn is_serviced(self) -> bool {
        matches!(self, Answered::Run(Ok((Answer::Serviced { .. }, _))))
    }

    pub fn has_way(self) -> bool {
        matches!(self, Answered::Run(Ok((_, 1..))))
    }
}

/// The single event, in place.
pub fn apply(network: &Network, state: &mut State, event: Event) -> Answered {
    match event {
        Event::Send { site, set } => Answered::Send(send(network, state, site, set)),
        Event::Run { site, code } | Event::Ask { site, code } => {
            Answered::Run(run(network, state, site, code))
        }
    }
}

/// How often each of six kinds was met, by version and edition.
#[derive(Default)]
pub struct Met([[u32; 6]; COLUMNS.len() - 1]);

impl Met {
    /// Counts something that is of these kinds.
    pub fn count(&mut self, network: &Network, kinds: [bool; 6]) {
        let counts = self.0[column(kind(network))].iter_mut();
        counts.zip(kinds).for_each(|(count, there)| *count += u32::from(there));
    }

    /// Each of the kinds, by their names, at least so often.
    pub fn has(&self, names: [&str; 6], least: [u32; 6]) {
        for (counts, column) in self.0.iter().zip(COLUMNS) {
            let enough = counts.iter().zip(least).all(|(count, least)| *count >= least);
            assert!(enough, "{column}: {counts:?} of {names:?}, {:?}", self.0);
        }
    }
}

/// A grid, ring, star or any channels, most of 3 to 9 sites; by turns of version 1 and, in each edition, of version 2.
fn any_network(rng: &mut Rng, turn: usize) -> Network {
    let edition = (turn % 4) as u8;
    let most = if edition == 0 { SITES_OF_1 } else { SITES };
    let sites = if rng.one_in(20) { rng.within(10, most) } else { rng.within(3, 9) };
    let network = match rng.below(4) {
        0 => graphs::grid(rng.within(2, 4), rng.within(1, 4), rng.one_in(2)),
        _ => graphs::of_size(rng, sites),
    };
    let network = furnished(rng, network);
    if edition == 0 {
        network.in_version(1)
    } else {
        network.in_edition(edition)
    }
}

/// A network and a state in range of it: any, or one that a run reaches.
pub fn made(rng: &mut Rng, turn: usize, reached: bool) -> (Network, State) {
    let network = any_network(rng, turn);
    let (network, state) = if reached { made_by_a_run(rng, network) } else { made_up(rng, network) };
    assert!(in_range(&network.wiring().expect("valid"), &state));
    (network, state)
}

/// The state that a run ends in; every third goes on without its operators.
fn made_by_a_run(rng: &mut Rng, network: Network) -> (Network, State) {
    let (network, mut state) = end_of(loaded(rng, network));
    if rng.one_in(3) {
        hold_operators(rng, &network, &mut state);
    }
    (network, state)
}

/// Any state; every second has a site at which much arrives.
fn made_up(rng: &mut Rng, network: Network) -> (Network, State) {
    let mut state = any_state(rng, &network);
    if network.edition > 1 {
        close_some(rng, &network, &mut state);
    }
    if state.counter > 0 && rng.one_in(2) {
        let site = rng.below(network.sites as usize);
        crowd(rng, &network, &mut state, site);
    }
    (network, state)
}

/// A run under any load, in half of them of packets to one site each.
fn loaded(rng: &mut Rng, network: Network) -> Run {
    let sites = network.sites as usize;
    let (seed, draws) = (rng.value() as u32 | 1, rng.within(1, 100 * sites) as u16);
    let count = rng.within(1, 255);
    let mut sends = load(rng, sites, draws, count);
    if rng.one_in(2) {
        sends.iter_mut().for_each(|send| send.set = 1 << rng.below(sites));
    }
    Run { network, seed, draws, sends }
}

/// Goes on with RUNs of all but the operators, so that in-queues fill.
fn hold_operators(rng: &mut Rng, network: &Network, state: &mut State) {
    let wiring = network.wiring().expect("valid");
    let codes: Vec<usize> = (0..wiring.codes()).filter(|code| ![11, 14].contains(code)).collect();
    for _ in 0..100 * wiring.sites {
        let (site, code) = (rng.below(wiring.sites), rng.pick(&codes));
        Machine { wiring: &wiring, state: &mut *state, watch: &mut () }.run(site, code);
    }
}

/// The outputs, by site and port, whose channels end at the site.
pub fn feeders(network: &Network, site: usize) -> Vec<(usize, usize)> {
    let outputs = (0..network.sites as usize).flat_map(|from| (1..PORTS).map(move |port| (from, port)));
    let ends_here = |&(from, port): &(usize, usize)| {
        let end = network.channels[4 * from + port - 1];
        end != NO_CHANNEL && usize::from(end) / 4 == site
    };
    outputs.filter(ends_here).collect()
}

/// The net-inputs of the site are free, or 1 to 4 are open, each for the output of its number; the outputs in use that
/// feed them have a head to pass, or a terminator if no net-input is connected to them. Some that are closing stay so.
fn crowd(rng: &mut Rng, network: &Network, state: &mut State, site: usize) {
    state.inputs[PORTS * site..][..PORTS].fill(Input::default());
    let open = rng.one_in(2);
    for port in (1..PORTS).filter(|_| open) {
        let unicast = Input { phase: Phase::Open, connection: Connection::Unicast, ..Input::default() };
        state.inputs[PORTS * site + port] = Input { set: 1, outputs: 1 << port, ..unicast };
        let fed = Output { used: true, set: 1, input: port as u8, ..Output::default() };
        state.outputs[OUTPUTS * site + port] = fed;
    }
    for (from, port) in feeders(network, site) {
        let connected = state.inputs_of(from).iter().any(|input| input.outputs >> port & 1 == 1);
        let output = &mut state.outputs[OUTPUTS * from + port];
        let keeps = output.closing && rng.one_in(2);
        if output.used && !keeps && !(open && connected) {
            let terminator = if open { Terminator::End } else { output.terminator };
            *output = Output { head: open, terminator, closing: false, ..*output };
        }
    }
}
