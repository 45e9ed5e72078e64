//! The lines of `trace --why`: every failed ask of a stored run with the outputs in the way, and how often each of them
//! was in the way.

use crate::archive::{self, Run};
use crate::draws::{event, Draws};
use crate::network::{Wiring, OUTPUTS, SITES};
use crate::player::Play;
use crate::refusal::Refusal;
use crate::sets::{members, Set};
use crate::step::Machine;
use crate::trace::set_text;
use crate::watch::Watch;
use std::cmp::Reverse;
use std::fmt::Write;

/// A failed ask: its draw (counted from 0), the site, the net-input and its packet, and the outputs in the way.
#[derive(Clone, Copy, PartialEq, Eq, Debug)]
pub struct Failure {
    pub draw: u16,
    pub site: usize,
    pub input: usize,
    pub packet: u8,
    pub outputs: u8,
}

/// Plays a valid run to its end. `failed` gets every failed ask in order, the watch what the outputs in the way are
/// like.
pub fn walk(run: &Run, wiring: &Wiring, watch: &mut impl Watch, mut failed: impl FnMut(Failure)) {
    let mut play = Play::start(run, wiring, ());
    let mut draws = Draws::new(run.seed);
    for draw in 0..run.draws {
        play.sends();
        let (site, code) = event(draws.next_value(), wiring.sites, wiring.codes());
        let mut machine = Machine { wiring, state: &mut play.state, watch: &mut *watch };
        machine.tell_way(site, code);
        let outputs = machine.in_the_way(site, code);
        if outputs != 0 {
            let packet = play.state.inputs_of(site)[code].packet;
            failed(Failure { draw, site, input: code, packet, outputs });
        }
        play.draw();
    }
}

/// The lines of an archive.
pub fn why(bytes: &[u8]) -> Result<String, Refusal> {
    let run = archive::read(bytes)?;
    let wiring = run.network.wiring()?;
    let mut text = String::new();
    let mut times = [0u32; OUTPUTS * SITES];
    walk(&run, &wiring, &mut (), |Failure { draw, site, input, packet, outputs }| {
        let outputs = Set::from(outputs);
        let _ = writeln!(text, "{draw} {site} {input} {packet} {}", set_text(outputs));
        members(outputs).for_each(|port| times[OUTPUTS * site + port] += 1);
    });
    let mut places: Vec<usize> = (0..times.len()).filter(|&place| times[place] > 0).collect();
    places.sort_by_key(|&place| Reverse(times[place]));
    for place in places {
        let (site, port) = (place / OUTPUTS, place % OUTPUTS);
        let _ = writeln!(text, "output {port} of site {site}: {}", times[place]);
    }
    Ok(text)
}
