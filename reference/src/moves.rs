//! Archives moved from version 1 to version 2, and back: the same run, stored in the other version.
//!
//! The refusals are the reader's, with 2 for every version but the one that is moved from; then 15, then 14.

use crate::archive::{check_length, read, write, Run};
use crate::format::VERSION_AT;
use crate::network::{Network, SITES_OF_1};
use crate::refusal::Refusal;

/// Moves an archive of version 1 to version 2, to the front of the room, and gives its length there; a refusal (1 to 8,
/// 14) writes nothing.
pub fn over(file: &[u8], room: &mut [u8]) -> Result<usize, Refusal> {
    moved(1, 2, file, room)
}

/// The same from version 2 to version 1; refusals 1, 2, 17, 3 to 8, 15, 14.
pub fn back(file: &[u8], room: &mut [u8]) -> Result<usize, Refusal> {
    moved(2, 1, file, room)
}

fn moved(from: u8, to: u8, file: &[u8], room: &mut [u8]) -> Result<usize, Refusal> {
    check_length(file)?;
    if file[VERSION_AT] != from {
        return Err(Refusal::Version);
    }
    let run = read(file)?;
    if to == 1 && !fits_version_1(&run.network) {
        return Err(Refusal::Back);
    }
    write(&Run { network: Network { version: to, ..run.network }, ..run }, room)
}

/// What version 1 can hold of the networks that version 2 can.
fn fits_version_1(network: &Network) -> bool {
    network.sites <= SITES_OF_1 as u64 && network.edition == 1
}
