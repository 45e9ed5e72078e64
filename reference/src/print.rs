//! The lines that `play` and `batch` print for one archive.

use crate::player::{play, Counts, BOOK};
use crate::refusal::Refusal;
use std::fmt::Write;
use std::io::{self, Read};

/// Bytes of an input that are seen.
pub const SEEN: u64 = 65_536;

/// Reads an input as far as it is seen.
pub fn read_seen(input: impl Read) -> io::Result<Vec<u8>> {
    let mut bytes = Vec::new();
    input.take(SEEN).read_to_end(&mut bytes)?;
    Ok(bytes)
}

/// An archive as played: the service lines and the last line, each without a name before it.
pub struct Report {
    pub outcome: Result<Counts, Refusal>,
    /// Each service as a line `draw packet site`.
    pub services: String,
    /// The counts, or the refusal.
    pub line: String,
}

pub fn report(bytes: &[u8]) -> Report {
    let mut book = [0; BOOK];
    let outcome = play(bytes, &mut book);
    let mut services = String::new();
    let line = match &outcome {
        Err(refusal) => format!("refused {}", refusal.number()),
        Ok(counts) => {
            for entry in book.chunks_exact(4).take(counts.serviced as usize) {
                let draw = u16::from_be_bytes([entry[0], entry[1]]);
                let _ = writeln!(services, "{draw} {} {}", entry[2], entry[3]);
            }
            let Counts { accepted, pairs, serviced, owed } = counts;
            format!("accepted {accepted} pairs {pairs} serviced {serviced} owed {owed}")
        }
    };
    Report { outcome, services, line }
}
