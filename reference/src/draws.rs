//! Draws: Marsaglia's 32 bit xorshift with shifts 13, 17, 5, and the event that a draw names.

use crate::network::{CODES, CODES_OF_3};

pub struct Draws(u32);

impl Draws {
    pub fn new(seed: u32) -> Draws {
        Draws(seed)
    }

    /// Advances, and gives the value.
    #[inline]
    pub fn next_value(&mut self) -> u32 {
        self.0 ^= self.0 << 13;
        self.0 ^= self.0 >> 17;
        self.0 ^= self.0 << 5;
        self.0
    }
}

/// The site and code that a value names in a network of `sites` sites with `codes` event codes each, 13 or 15.
#[inline]
pub fn event(value: u32, sites: usize, codes: usize) -> (usize, usize) {
    // The codes as constants, by which a division is fast.
    match codes {
        CODES => of::<{ CODES as u32 }>(value, sites as u32),
        _ => of::<{ CODES_OF_3 as u32 }>(value, sites as u32),
    }
}

#[inline]
fn of<const CODES: u32>(value: u32, sites: u32) -> (usize, usize) {
    let m = value % (CODES * sites);
    ((m / CODES) as usize, (m % CODES) as usize)
}
