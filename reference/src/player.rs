//! The player: a stored run from the empty state, draw by draw, with its book and counts.

use crate::archive::{self, Run, Send, SENDS};
use crate::draws::{event, Draws};
use crate::network::{Wiring, SITES};
use crate::owing::owed;
use crate::refusal::Refusal;
use crate::sets::size;
use crate::single::accept;
use crate::state::State;
use crate::step::{Answer, Machine};
use crate::watch::{Rule, Watch};

/// Room that every book fits in: 255 sends to 64 sites each, 4 bytes a service.
pub const BOOK: usize = 4 * SENDS * SITES;

/// What the player answers beside the book.
#[derive(Clone, Copy, PartialEq, Eq, Debug, Default)]
pub struct Counts {
    pub accepted: u32,
    pub pairs: u32,
    pub serviced: u32,
    pub owed: u32,
}

/// A service: the draw (counted from 0) that made it, the packet and the site.
#[derive(Clone, Copy, PartialEq, Eq, Debug)]
pub struct Service {
    pub draw: u16,
    pub packet: u8,
    pub site: u8,
}

/// A run under way.
pub struct Play<'a, W: Watch> {
    pub wiring: &'a Wiring,
    pub state: State,
    pub watch: W,
    pub counts: Counts,
    draws: Draws,
    draw: u16,
    waiting: &'a [Send],
}

impl<'a, W: Watch> Play<'a, W> {
    pub fn start(run: &'a Run, wiring: &'a Wiring, watch: W) -> Play<'a, W> {
        Play {
            wiring,
            state: State::empty(),
            watch,
            counts: Counts::default(),
            draws: Draws::new(run.seed),
            draw: 0,
            waiting: &run.sends,
        }
    }

    /// Applies the sends marked with the next draw's number; refused ones are passed over.
    pub fn sends(&mut self) {
        while let Some((send, rest)) = self.waiting.split_first().filter(|(s, _)| s.draw == self.draw) {
            self.waiting = rest;
            if accept(self.wiring, &mut self.state, send.site as usize, send.set).is_ok() {
                self.watch.saw(Rule::SendTaken);
                self.counts.accepted += 1;
                self.counts.pairs += size(send.set);
            }
        }
    }

    /// The next draw, with the sends before it: the answer of the event that it names.
    #[inline]
    pub fn draw(&mut self) -> (u16, Answer) {
        self.sends();
        let (site, code) = event(self.draws.next_value(), self.wiring.sites, self.wiring.codes());
        let mut machine = Machine { wiring: self.wiring, state: &mut self.state, watch: &mut self.watch };
        let answer = machine.run(site, code);
        let draw = self.draw;
        self.draw = draw.wrapping_add(1);
        if let Answer::Serviced { .. } = answer {
            self.counts.serviced += 1;
        }
        (draw, answer)
    }
}

/// Plays a valid run to its end. `booked` gets every service in order.
pub fn play_run<W: Watch>(
    run: &Run,
    wiring: &Wiring,
    watch: W,
    mut booked: impl FnMut(Service),
) -> (Counts, State) {
    let mut play = Play::start(run, wiring, watch);
    for _ in 0..run.draws {
        if let (draw, Answer::Serviced { packet, site }) = play.draw() {
            booked(Service { draw, packet, site });
        }
    }
    play.sends();
    play.counts.owed = owed(&play.state);
    (play.counts, play.state)
}

/// Plays an archive: the reader's refusals, then 14. The book goes to the front of the lent room, the rest stays.
pub fn play(bytes: &[u8], book: &mut [u8]) -> Result<Counts, Refusal> {
    let run = archive::read(bytes)?;
    let wiring = run.network.wiring()?;
    let most: u32 = run.sends.iter().map(|s| size(s.set)).sum();
    if book.len() < 4 * most as usize {
        return Err(Refusal::Room);
    }
    let mut free = book.chunks_exact_mut(4);
    let (counts, _) = play_run(&run, &wiring, (), |s| {
        let entry = free.next().expect("a book has room for every pair");
        entry[..2].copy_from_slice(&s.draw.to_be_bytes());
        entry[2..].copy_from_slice(&[s.packet, s.site]);
    });
    Ok(counts)
}
