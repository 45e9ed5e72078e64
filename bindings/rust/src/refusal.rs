//! The refusals of an archive, by name, each with its number of docs/MODEL.md, "Refusals".

use std::error::Error;
use std::fmt::{self, Display, Formatter};

/// Why an archive is turned down.
#[derive(Clone, Copy, PartialEq, Eq, PartialOrd, Ord, Hash, Debug)]
#[repr(u8)]
pub enum Refusal {
    Length = 1,
    Version = 2,
    Limits = 3,
    Seed = 4,
    Size = 5,
    Channel = 6,
    Route = 7,
    Send = 8,
    Room = 14,
    Back = 15,
    Edition = 17,
}

/// Each refusal in words.
const WORDS: [(Refusal, &str); 11] = [
    (Refusal::Length, "fewer than 13 bytes, or the length field is not the number of bytes"),
    (Refusal::Version, "the version is neither 1 nor 2, or not the one that is moved from"),
    (Refusal::Edition, "the edition is unknown: it is none of 1, 2 and 3"),
    (Refusal::Limits, "sites, limit of tries or depth of queues outside their limits"),
    (Refusal::Seed, "the seed is 0"),
    (Refusal::Size, "the length is not that of the version with so many sites and sends"),
    (Refusal::Channel, "a channel that names no input, or an input fed twice"),
    (Refusal::Route, "a route not as described"),
    (Refusal::Send, "a send's site, set or draw number impossible, or draw numbers falling"),
    (Refusal::Back, "it cannot go back to version 1: more than 16 sites, or an edition other than 1"),
    (Refusal::Room, "a lent slice is too short"),
];

impl Refusal {
    /// Its number: 1 to 8, 14, 15 or 17.
    pub fn number(self) -> u8 {
        self as u8
    }

    /// The library's answer as a result: it is proved to be 0 or one of these numbers.
    pub(crate) fn check(answer: u8) -> Result<(), Refusal> {
        if answer == 0 {
            return Ok(());
        }
        let found = WORDS.iter().find(|(refusal, _)| refusal.number() == answer);
        Err(found.expect("the library answers 0 or a refusal of its table").0)
    }
}

impl Display for Refusal {
    fn fmt(&self, to: &mut Formatter<'_>) -> fmt::Result {
        let words = WORDS.iter().find(|(refusal, _)| refusal == self).map_or("", |(_, words)| words);
        write!(to, "refused {}: {words}", self.number())
    }
}

impl Error for Refusal {}
