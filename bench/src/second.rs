//! The same work by the second model.

use reference::archive;
use reference::draws::{event, Draws};
use reference::network::{Network, SITES};
use reference::single;
use reference::state::State;
use std::hint::black_box;

/// Plays the archive into the book: its services.
pub fn play(bytes: &[u8], book: &mut [u8]) -> usize {
    reference::player::play(black_box(bytes), book).map_or(0, |counts| counts.serviced as usize)
}

/// Where the last byte of the seed stands, and from the end on the site of the last send.
fn last_of_seed(bytes: &[u8]) -> usize {
    if bytes[2] == 1 {
        9
    } else {
        10
    }
}

pub fn site_from_end(bytes: &[u8]) -> usize {
    if bytes[2] == 1 {
        3
    } else {
        9
    }
}

/// Reads the archive so many times, each time with another seed.
pub fn read(bytes: &mut [u8], times: usize) {
    let last = last_of_seed(bytes);
    for k in 1..=times {
        bytes[last] = (k % 255 + 1) as u8;
        let _ = black_box(archive::read(black_box(bytes)));
    }
}

/// What `product::check` answers. The second model has no check of its own: it reads, and the refusal alone is
/// looked at.
pub fn check(bytes: &mut [u8], times: usize) -> usize {
    let mut sum = 0;
    let last = last_of_seed(bytes);
    for k in 1..=times {
        bytes[last] = (k % 255 + 1) as u8;
        let refusal = black_box(archive::read(black_box(bytes)).err());
        sum = sum % 65_536 + refusal.map_or(0, |refusal| usize::from(refusal.number()));
    }
    sum
}

/// Reads the archive and writes it so many times: its length.
pub fn write(bytes: &[u8], room: &mut [u8], times: usize) -> usize {
    let mut run = archive::read(bytes).expect("a valid archive");
    let mut length = 0;
    for k in 1..=times {
        run.seed = (k % 65_535 + 1) as u32;
        length = black_box(archive::write(black_box(&run), room)).unwrap_or(0);
    }
    length
}

/// What `product::runs` answers: of the state after the archive's sends, so many draws and so many RUNs.
pub fn runs(bytes: &[u8], draws: usize, site: usize, code: usize, times: usize) -> usize {
    let run = archive::read(bytes).expect("a valid archive");
    let mut state = State::empty();
    for send in &run.sends {
        let _ = single::send(&run.network, &mut state, u64::from(send.site), send.set);
    }
    let mut values = Draws::new(run.seed);
    for _ in 0..draws {
        let (site, code) = event(values.next_value(), run.network.sites as usize, run.network.codes());
        one_run(&run.network, &mut state, site, code);
    }
    for _ in 0..times {
        one_run(&run.network, &mut state, site, code);
    }
    picked(&state, times)
}

fn one_run(network: &Network, state: &mut State, site: usize, code: usize) {
    let _ = black_box(single::run(black_box(network), state, site as u64, code as u64));
}

/// What `product::sends` answers.
pub fn sends(bytes: &[u8], times: usize) -> usize {
    let run = archive::read(bytes).expect("a valid archive");
    let mut state = State::empty();
    for k in 0..times {
        let site = k as u64 % run.network.sites;
        let _ = black_box(single::send(black_box(&run.network), &mut state, site, 1));
    }
    picked(&state, times)
}

fn picked(state: &State, k: usize) -> usize {
    usize::from(state.counter) + state.out_queues[k % SITES].count as usize % 16
}
