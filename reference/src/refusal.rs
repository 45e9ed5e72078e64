//! The numbers given back when something is turned down, by name.

/// The refusals of document 01 and of the later requests; `number` gives the number.
#[derive(Clone, Copy, PartialEq, Eq, PartialOrd, Ord, Debug)]
#[repr(u8)]
pub enum Refusal {
    /// Fewer than 13 bytes, or the length field is not the slice's length.
    Length = 1,
    /// The version is neither 1 nor 2; in a move, not the one that is moved from.
    Version = 2,
    /// S, T or D outside its limits.
    Limits = 3,
    Seed = 4,
    /// The length is not 13 + 4S + 2S² + 5N, in version 2 14 + 8S + 2S² + 11N; in the writer, more than 255 sends.
    Size = 5,
    Channel = 6,
    Route = 7,
    Send = 8,
    /// RUN or SEND: no such site, or no such code in the edition.
    Address = 9,
    /// SEND: set empty or outside S.
    Set = 10,
    /// The out-queue is full.
    Full = 11,
    /// 255 packets already accepted.
    Spent = 12,
    /// The state is not in range.
    Range = 13,
    /// The lent output is too short.
    Room = 14,
    /// The file can't go back to version 1: more than 16 sites, or an edition other than 1.
    Back = 15,
    /// The edition is unknown, or not 1 in version 1.
    Edition = 17,
    /// An argument of a latency is outside 1 to 65,535.
    Argument = 20,
}

/// Room for a count by number.
pub const NUMBERS: usize = 21;

impl Refusal {
    pub fn number(self) -> u8 {
        self as u8
    }
}
