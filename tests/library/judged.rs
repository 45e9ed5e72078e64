//! What the second model says of an archive: what every call is held to.

use reference::archive::{self, LONGEST};
use reference::moves;
use reference::player::{play, BOOK};
use reference::refusal::Refusal;

/// What a call that writes an archive into lent room writes if there is room enough, or its refusal.
pub type Written = Result<Vec<u8>, u8>;

/// An archive as the second model sees it, with room enough for everything.
pub struct Judged {
    /// 0, 1 to 8, or 17.
    pub refusal: u8,
    /// Accepted, pairs, serviced, owed, of an archive that is not refused.
    pub counts: Option<[u64; 4]>,
    /// The services, 4 bytes each.
    pub book: Vec<u8>,
    /// The bytes that a book must have.
    pub room: usize,
    /// The archive itself, moved over to version 2, and moved back to version 1.
    pub copied: Written,
    pub over: Written,
    pub back: Written,
}

/// What a move writes.
fn moved(go: fn(&[u8], &mut [u8]) -> Result<usize, Refusal>, bytes: &[u8]) -> Written {
    let mut room = vec![0; LONGEST];
    let length = go(bytes, &mut room).map_err(Refusal::number)?;
    room.truncate(length);
    Ok(room)
}

impl Judged {
    pub fn of(bytes: &[u8]) -> Judged {
        let (over, back) = (moved(moves::over, bytes), moved(moves::back, bytes));
        let run = match archive::read(bytes) {
            Err(refusal) => {
                let refusal = refusal.number();
                let (book, copied) = (Vec::new(), Err(refusal));
                return Judged { refusal, counts: None, book, room: 0, copied, over, back };
            }
            Ok(run) => run,
        };
        let room = run.sends.iter().map(|send| 4 * send.set.count_ones() as usize).sum();
        let mut book = vec![0; BOOK];
        let counts = play(bytes, &mut book).expect("a book of this length is never too short");
        book.truncate(4 * counts.serviced as usize);
        let counts = [counts.accepted, counts.pairs, counts.serviced, counts.owed].map(u64::from);
        Judged { refusal: 0, counts: Some(counts), book, room, copied: Ok(bytes.to_vec()), over, back }
    }

    /// The answer of the player with a book of `length` bytes: the refusal, then 14, then 0.
    pub fn with_book(&self, length: usize) -> u8 {
        match self.refusal {
            0 if length < self.room => 14,
            refusal => refusal,
        }
    }
}
