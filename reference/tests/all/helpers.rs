//! Small networks and shorthand for the tests.

use reference::network::{Network, OUTPUTS, PORTS};
use reference::refusal::Refusal;
use reference::single::{run, send};
use reference::state::{Input, Output, State};
use reference::step::Answer;

/// One site without channels, T = 3, D = 8.
pub fn one_site() -> Network {
    Network::bare(1, 3, 8)
}

/// Two sites joined on ports 1 both ways, each route port 1, T = 3, D = 8.
pub fn two_sites() -> Network {
    let mut network = Network::bare(2, 3, 8);
    network.join((0, 1), (1, 1));
    network.join((1, 1), (0, 1));
    network.set_route(0, 1, 0x1000);
    network.set_route(1, 0, 0x1000);
    network
}

/// Site 0 joined to sites 1, 2, 3 on ports 1, 2, 3 both ways; the others route by port 1. T = 3, D = 8.
pub fn hub() -> Network {
    let mut network = Network::bare(4, 3, 8);
    for site in 1..4 {
        network.join((0, site), (site, 1));
        network.join((site, 1), (0, site));
        network.set_route(0, site, (site as u16) << 12);
        for to in (0..4).filter(|&to| to != site) {
            network.set_route(site, to, 0x1000);
        }
    }
    network
}

/// A network and a state, stepped by single events that must not be refused.
pub struct Bench {
    pub network: Network,
    pub state: State,
}

impl Bench {
    pub fn new(network: Network) -> Bench {
        Bench { network, state: State::empty() }
    }

    pub fn send(&mut self, site: u64, set: u64) -> u8 {
        send(&self.network, &mut self.state, site, set).expect("accepted")
    }

    /// RUN, with 0 and 1 as numbers; a service answers 2.
    pub fn run(&mut self, site: u64, code: u64) -> u8 {
        self.asked(site, code).0
    }

    /// The same, and the outputs in the way.
    pub fn asked(&mut self, site: u64, code: u64) -> (u8, u8) {
        let (answer, outputs) = run(&self.network, &mut self.state, site, code).expect("not refused");
        let number = match answer {
            Answer::Nothing => 0,
            Answer::Changed => 1,
            Answer::Serviced { .. } => 2,
        };
        (number, outputs)
    }

    /// RUNs at one site; every one must answer 1.
    pub fn steps(&mut self, site: u64, codes: &[u64]) {
        for &code in codes {
            assert_eq!(self.run(site, code), 1, "site {site} code {code}");
        }
    }

    pub fn answer(&mut self, site: u64, code: u64) -> Result<Answer, Refusal> {
        run(&self.network, &mut self.state, site, code).map(|(answer, _)| answer)
    }

    pub fn input(&mut self, site: usize, port: usize) -> &mut Input {
        &mut self.state.inputs[PORTS * site + port]
    }

    pub fn output(&mut self, site: usize, port: usize) -> &mut Output {
        &mut self.state.outputs[OUTPUTS * site + port]
    }

    /// Marks an output as in use by a packet 0 of input 4, head not taken.
    pub fn occupy(&mut self, site: usize, port: usize) {
        self.state.counter = self.state.counter.max(1);
        *self.output(site, port) = Output { used: true, set: 1, input: 4, ..Output::default() };
    }
}
