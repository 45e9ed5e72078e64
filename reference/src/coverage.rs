//! Counters of what archives or cases reach, apart for each version and edition, and the lines that show them.

use crate::format::{Format, VERSION_AT};
use crate::network::{Network, EDITION_2, EDITION_3};
use crate::refusal::NUMBERS;
use crate::watch::{Tally, Watch, RULES};

/// The columns: version 1, version 2 in edition 1 or one that there is not, version 2 in edition 2, in edition 3, and
/// neither (another version, or no version byte).
pub const COLUMNS: [&str; 5] = ["version 1", "version 2", "edition 2", "edition 3", "neither"];

/// The version and the edition of an archive or of a network, as far as it has them.
pub type Kind = (Option<u8>, Option<u8>);

/// The kind of these bytes.
pub fn kind_of(bytes: &[u8]) -> Kind {
    let version = bytes.get(VERSION_AT).copied();
    let edition = version.and_then(|version| bytes.get(Format::of(version).edition?).copied());
    (version, edition)
}

/// The kind of a network.
pub fn kind(network: &Network) -> Kind {
    (Some(network.version), Some(network.edition))
}

/// The column of a kind.
pub fn column(kind: Kind) -> usize {
    match kind {
        (Some(1), _) => 0,
        (Some(2), Some(EDITION_2)) => 2,
        (Some(2), Some(EDITION_3)) => 3,
        (Some(2), _) => 1,
        _ => 4,
    }
}

/// How often each rule and each refusal was met; refusal 0 is none.
#[derive(Clone, Default)]
pub struct Coverage {
    rules: [Tally; COLUMNS.len()],
    refusals: [[u64; NUMBERS]; COLUMNS.len()],
}

impl Coverage {
    /// Where the rules of this kind are counted.
    pub fn rules(&mut self, kind: Kind) -> &mut impl Watch {
        &mut self.rules[column(kind)]
    }

    /// Counts a refusal by its number.
    pub fn refused(&mut self, kind: Kind, number: u8, times: u64) {
        self.refusals[column(kind)][number as usize] += times;
    }

    /// How often this refusal was met, column by column.
    pub fn refusals(&self, number: u8) -> [u64; COLUMNS.len()] {
        self.refusals.map(|counts| counts[number as usize])
    }

    /// The line above the columns.
    pub fn heading() -> String {
        columns(COLUMNS)
    }

    /// The lines of these refusals, then those of the rules.
    pub fn print(&self, numbers: &[u8]) {
        for &number in numbers {
            line(self.refusals(number), &format!("refusal {number}"));
        }
        for (rule, words) in RULES {
            line(std::array::from_fn(|column| self.rules[column].count(*rule)), words);
        }
    }
}

fn columns<T: std::fmt::Display>(items: [T; COLUMNS.len()]) -> String {
    items.map(|item| format!("{item:>12}")).concat()
}

/// Prints one line of counts.
pub fn line(counts: [u64; COLUMNS.len()], words: &str) {
    println!("{}  {words}", columns(counts));
}
