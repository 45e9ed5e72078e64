//! Single SEND and RUN, for any network, state and numbers. Refusals in the order
//! 2, 17, 3, 6, 7, 13, 9, 10, 12, 11.
//!
//! A refusal leaves the state as it was handed in.

use crate::network::{Network, Wiring};
use crate::range::in_range;
use crate::refusal::Refusal;
use crate::sets::{is_target_set, Set};
use crate::state::{OutEntry, State};
use crate::step::{Answer, Machine};
use crate::watch::{Rule, Watch};

/// A SEND or a RUN with any numbers.
#[derive(Clone, Copy, PartialEq, Eq, Debug)]
pub enum Event {
    Send {
        site: u64,
        set: Set,
    },
    Run {
        site: u64,
        code: u64,
    },
    /// A RUN of which the outputs in the way are told too.
    Ask {
        site: u64,
        code: u64,
    },
}

/// The answer of RUN, and the outputs in the way, bit p for output p: none where the router was not asked or did not
/// fail.
pub type Told = (Answer, u8);

/// SEND (site, set): the packet number, or the refusal.
pub fn send(network: &Network, state: &mut State, site: u64, set: Set) -> Result<u8, Refusal> {
    send_seen(network, state, site, set, &mut ())
}

/// RUN (site, code): the answer and the outputs in the way, or the refusal.
pub fn run(network: &Network, state: &mut State, site: u64, code: u64) -> Result<Told, Refusal> {
    run_seen(network, state, site, code, &mut ())
}

/// SEND with a watch.
pub fn send_seen(
    network: &Network,
    state: &mut State,
    site: u64,
    set: Set,
    watch: &mut impl Watch,
) -> Result<u8, Refusal> {
    let wiring = checked(network, state)?;
    if site >= wiring.sites as u64 {
        return Err(Refusal::Address);
    }
    if !is_target_set(set, wiring.sites) {
        return Err(Refusal::Set);
    }
    let packet = accept(&wiring, state, site as usize, set)?;
    watch.saw(Rule::SendTaken);
    Ok(packet)
}

/// RUN with a watch.
pub fn run_seen(
    network: &Network,
    state: &mut State,
    site: u64,
    code: u64,
    watch: &mut impl Watch,
) -> Result<Told, Refusal> {
    let wiring = addressed(network, state, site, code)?;
    let (site, code) = (site as usize, code as usize);
    let mut machine = Machine { wiring: &wiring, state, watch };
    let outputs = machine.in_the_way(site, code);
    Ok((machine.run(site, code), outputs))
}

/// RUN with a watch that is told what the outputs in the way are like.
pub fn ask_seen(
    network: &Network,
    state: &mut State,
    site: u64,
    code: u64,
    watch: &mut impl Watch,
) -> Result<Told, Refusal> {
    let wiring = addressed(network, state, site, code)?;
    Machine { wiring: &wiring, state, watch }.tell_way(site as usize, code as usize);
    run_seen(network, state, site, code, watch)
}

/// The wiring for a RUN of this site and code.
fn addressed(network: &Network, state: &State, site: u64, code: u64) -> Result<Wiring, Refusal> {
    let wiring = checked(network, state)?;
    if site >= wiring.sites as u64 || code >= wiring.codes() as u64 {
        return Err(Refusal::Address);
    }
    Ok(wiring)
}

fn checked(network: &Network, state: &State) -> Result<Wiring, Refusal> {
    let wiring = network.wiring()?;
    if !in_range(&wiring, state) {
        return Err(Refusal::Range);
    }
    Ok(wiring)
}

/// The end of SEND, for a site and a target set of the network: refusals 12, 11, else the packet number.
pub fn accept(wiring: &Wiring, state: &mut State, site: usize, set: Set) -> Result<u8, Refusal> {
    let packet = state.counter;
    let queue = &mut state.out_queues[site];
    if packet == 255 {
        return Err(Refusal::Spent);
    }
    if queue.is_full(wiring.depth) {
        return Err(Refusal::Full);
    }
    queue.push(OutEntry { packet, set, started: false });
    state.counter = packet + 1;
    Ok(packet)
}
