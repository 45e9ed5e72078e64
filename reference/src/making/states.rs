//! Random states in range, reachable or not.

use super::{rng::Rng, runs};
use crate::archive::Run;
use crate::network::{Network, EDITION_3, OUTPUTS, PORTS, SPLIT};
use crate::player::Play;
use crate::state::{Connection, InEntry, Input, OutEntry, Output, Phase, State, Terminator, TERMINATORS};

/// What the places of one state are filled with.
struct Filling<'a> {
    rng: &'a mut Rng,
    network: &'a Network,
    counter: u8,
    /// Of a hundred places, how many are used.
    fullness: usize,
    /// Whether the edition has a split output, and neither connections 3 and 4 nor abort and fin-abort.
    restricted: bool,
}

/// A state in range for the valid network, nearly always one that no run reaches.
pub fn any_state(rng: &mut Rng, network: &Network) -> State {
    let all: Vec<usize> = (0..network.sites as usize).collect();
    filled_state(rng, network, &all)
}

/// The same with the first and the last two sites and another two filled at most.
pub fn sparse_state(rng: &mut Rng, network: &Network) -> State {
    let sites = network.sites as usize;
    let mut some = [0, 1, sites - 1, sites.saturating_sub(2), rng.below(sites), rng.below(sites)].to_vec();
    some.sort_unstable();
    some.dedup();
    some.retain(|&site| site < sites);
    filled_state(rng, network, &some)
}

/// A state in range with things at these sites.
fn filled_state(rng: &mut Rng, network: &Network, sites: &[usize]) -> State {
    let mut state = State::empty();
    let random = rng.within(1, 255) as u8;
    state.counter = rng.pick(&[0, 1, 2, 3, 9, 253, 254, 254, 255, 255, random, random, random]);
    if state.counter == 0 {
        return state;
    }
    let fullness = rng.pick(&[10, 30, 50, 50, 70, 90, 100]);
    let restricted = network.edition == EDITION_3;
    let mut filling = Filling { network, counter: state.counter, fullness, restricted, rng };
    for &site in sites {
        let outputs = &mut state.outputs[OUTPUTS * site..][..OUTPUTS];
        filling.outputs(&mut outputs[..if restricted { OUTPUTS } else { PORTS }]);
        filling.inputs(&mut state.inputs[PORTS * site..][..PORTS], outputs);
        filling.queues(&mut state, site);
    }
    state
}

/// A network, and a state that one of its runs reaches.
pub fn reached(rng: &mut Rng) -> (Network, State) {
    end_of(runs::any_run(rng, false))
}

/// The run's network, and the state at its end.
pub fn end_of(run: Run) -> (Network, State) {
    let wiring = run.network.wiring().expect("a valid network");
    let mut play = Play::start(&run, &wiring, ());
    for _ in 0..run.draws {
        play.draw();
    }
    play.sends();
    let state = play.state;
    (run.network, state)
}

impl Filling<'_> {
    fn is_used(&mut self) -> bool {
        self.rng.below(100) < self.fullness
    }

    fn packet(&mut self) -> u8 {
        self.rng.below(self.counter as usize) as u8
    }

    fn set(&mut self) -> u64 {
        self.rng.target_set(self.network.sites as usize)
    }

    fn tries(&mut self) -> u8 {
        let limit = self.network.tries;
        let random = self.rng.within(0, limit as usize) as u8;
        self.rng.pick(&[0, limit, limit, random])
    }

    fn output(&mut self, terminator: Terminator) -> Output {
        let (packet, set) = (self.packet(), self.set());
        let (input, head) = (self.rng.below(PORTS) as u8, !self.rng.one_in(3));
        Output { used: true, packet, set, input, head, terminator, closing: false }
    }

    fn outputs(&mut self, outputs: &mut [Output]) {
        use Terminator::{Abort, End, KeepLocal, None};
        for (port, output) in outputs.iter_mut().enumerate() {
            if self.is_used() {
                let remote = [None, None, End, Abort];
                let local = [None, None, None, End, Abort, KeepLocal];
                let terminator = self.rng.pick(if port == 0 { &local[..] } else { &remote });
                *output = self.output(terminator);
            }
        }
    }

    /// Inputs in any order; each takes the outputs that it is connected to from those not yet taken.
    fn inputs(&mut self, inputs: &mut [Input], outputs: &mut [Output]) {
        let mut order = [0, 1, 2, 3, 4];
        self.rng.shuffle(&mut order);
        let mut taken = 0;
        for port in order {
            if self.is_used() {
                inputs[port] = self.input(port, outputs, &mut taken);
            }
        }
    }

    fn input(&mut self, port: usize, outputs: &mut [Output], taken: &mut u8) -> Input {
        use Phase::{Abort, Done, FinAbort, Last, Open, Seek, Wait};
        let (packet, set, tries) = (self.packet(), self.set(), self.tries());
        let phases = [Seek, Seek, Open, Open, Wait, Done, Done, Last, Abort, FinAbort];
        let phase = self.rng.pick(&phases[..if self.restricted { 8 } else { 10 }]);
        let seeking = Input { phase: Seek, packet, set, tries, ..Input::default() };
        let aborting = matches!(phase, Abort | FinAbort);
        let split = aborting || self.rng.one_in(3);
        let connection = self.connection(split);
        let sure = 1 << if self.restricted { SPLIT } else { 0 };
        let mut wanted = 0;
        if split {
            wanted = if aborting { sure } else { sure | self.rng.below(32) as u8 & self.rng.below(32) as u8 };
        } else if phase != Seek {
            wanted = 1 << self.rng.below(PORTS) | self.rng.below(32) as u8 & self.rng.below(32) as u8;
        }
        let connected = wanted & !*taken;
        if phase == Seek || connected == 0 || split && connected & sure == 0 {
            return seeking;
        }
        *taken |= connected;
        for p in (0..OUTPUTS).filter(|p| connected >> p & 1 == 1) {
            if !outputs[p].used {
                outputs[p] = self.output(Terminator::None);
            }
            outputs[p].input = port as u8;
            outputs[p].terminator = Terminator::None;
        }
        let receives = matches!(phase, Done | Last | FinAbort);
        let kinds = [Terminator::End, Terminator::End, Terminator::Abort];
        let received = if receives { self.rng.pick(&kinds) } else { Terminator::None };
        Input { phase, connection, received, outputs: connected, ..seeking }
    }

    fn connection(&mut self, splits: bool) -> Connection {
        use Connection::{AllRemote, Handed, Passthru, SomeLocal, Unicast};
        if splits && self.restricted {
            Connection::Split
        } else if splits {
            self.rng.pick(&[AllRemote, SomeLocal])
        } else {
            self.rng.pick(&[Unicast, Passthru, Handed])
        }
    }

    fn queues(&mut self, state: &mut State, site: usize) {
        let depth = self.network.depth as usize;
        let count = |rng: &mut Rng| {
            let random = rng.within(0, depth);
            rng.pick(&[0, 1, depth, depth, random])
        };
        for place in 0..count(self.rng) {
            let (packet, set) = (self.packet(), self.set());
            let started = place == 0 && self.rng.one_in(2);
            state.out_queues[site].push(OutEntry { packet, set, started });
        }
        for _ in 0..count(self.rng) {
            state.in_queues[site].push(self.in_entry());
        }
        if self.restricted {
            for _ in 0..count(self.rng) {
                state.split_queues[site].push(self.in_entry());
            }
        }
    }

    fn in_entry(&mut self) -> InEntry {
        let (packet, set) = (self.packet(), self.set());
        InEntry { packet, set, terminator: self.rng.pick(&TERMINATORS) }
    }
}
