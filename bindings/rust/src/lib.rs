//! Fennqualo for Rust: archives, of version 1 and of version 2 in all its editions, played, checked, copied and moved
//! from one version to the other by the proved library, with Rust's own types.
//!
//! A [`Player`] owns the book that it lends to the library, and the functions here make every other buffer themselves,
//! so no slice is too short, none overlaps another, and none is seen while the library writes it.
//!
//! ```no_run
//! let mut player = fennqualo::Player::new();
//! let played = player.play(&std::fs::read("run.bin").unwrap())?;
//! for service in played.services() {
//!     println!("{} {} {}", service.draw, service.packet, service.site);
//! }
//! println!("owed {}", played.counts.owed);
//! # Ok::<(), fennqualo::Refusal>(())
//! ```

mod refusal;

pub use refusal::Refusal;

/// The functions of include/fennqualo.h. Only this file calls them.
mod library {
    #[link(name = "fennqualo", kind = "static")]
    extern "C" {
        pub fn fennqualo_play(
            archive: *const u8,
            archive_length: usize,
            book: *mut u8,
            book_length: usize,
            counts: *mut u64,
            counts_length: usize,
        ) -> u8;
        pub fn fennqualo_check(archive: *const u8, archive_length: usize) -> u8;
        pub fn fennqualo_copy(
            archive: *const u8,
            archive_length: usize,
            out: *mut u8,
            out_length: usize,
        ) -> u8;
        pub fn fennqualo_over(
            archive: *const u8,
            archive_length: usize,
            out: *mut u8,
            out_length: usize,
        ) -> u8;
        pub fn fennqualo_back(
            archive: *const u8,
            archive_length: usize,
            out: *mut u8,
            out_length: usize,
        ) -> u8;
    }
}

/// Room for the book of every archive: 255 sends to 64 sites each, 4 bytes a service.
const BOOK: usize = 4 * 255 * 64;
/// Room for every archive, and for every one of version 1.
const ARCHIVE: usize = 11_523;
const FIRST: usize = 1_864;

/// What is counted over a run.
#[derive(Clone, Copy, PartialEq, Eq, Debug)]
pub struct Counts {
    /// Packets accepted.
    pub accepted: u64,
    /// Their summed set sizes: pairs of packet and target.
    pub pairs: u64,
    /// Services, as many as the book has.
    pub serviced: u64,
    /// Pairs still owed at the end.
    pub owed: u64,
}

/// A service: the draw (counted from 0) that made it, the packet and the site.
#[derive(Clone, Copy, PartialEq, Eq, Debug)]
pub struct Service {
    pub draw: u16,
    pub packet: u8,
    pub site: u8,
}

impl Service {
    /// The service that 4 bytes of a book stand for.
    pub fn of(entry: [u8; 4]) -> Service {
        Service { draw: u16::from_be_bytes([entry[0], entry[1]]), packet: entry[2], site: entry[3] }
    }
}

/// A played archive: its counts, and its book until the player plays the next one.
#[derive(Clone, Copy, PartialEq, Eq, Debug)]
pub struct Played<'a> {
    pub counts: Counts,
    book: &'a [u8],
}

impl<'a> Played<'a> {
    /// The book as bytes, 4 a service: the form of a delivery log.
    pub fn book(&self) -> &'a [u8] {
        self.book
    }

    /// The services in order.
    pub fn services(&self) -> impl ExactSizeIterator<Item = Service> + 'a {
        self.book.chunks_exact(4).map(|entry| Service::of([entry[0], entry[1], entry[2], entry[3]]))
    }
}

/// Plays archives, one after the other, into a book of its own.
pub struct Player {
    book: Box<[u8]>,
}

impl Player {
    pub fn new() -> Player {
        Player { book: vec![0; BOOK].into_boxed_slice() }
    }

    /// Plays an archive; any bytes may be handed in.
    pub fn play(&mut self, archive: &[u8]) -> Result<Played<'_>, Refusal> {
        let mut counts = [0u64; 4];
        // SAFETY: three slices that are there; book and counts are borrowed by this call alone, so nothing overlaps.
        let answer = unsafe {
            library::fennqualo_play(
                archive.as_ptr(),
                archive.len(),
                self.book.as_mut_ptr(),
                self.book.len(),
                counts.as_mut_ptr(),
                counts.len(),
            )
        };
        Refusal::check(answer)?;
        let [accepted, pairs, serviced, owed] = counts;
        let book = &self.book[..4 * serviced as usize];
        Ok(Played { counts: Counts { accepted, pairs, serviced, owed }, book })
    }
}

impl Default for Player {
    fn default() -> Player {
        Player::new()
    }
}

/// Whether the bytes are an archive, and if not, why.
pub fn check(archive: &[u8]) -> Result<(), Refusal> {
    // SAFETY: a slice that is there, and nothing is written.
    Refusal::check(unsafe { library::fennqualo_check(archive.as_ptr(), archive.len()) })
}

/// Checks an archive and copies it: the same bytes, in a buffer of their own.
pub fn copy(archive: &[u8]) -> Result<Vec<u8>, Refusal> {
    written(library::fennqualo_copy, archive, archive.len())
}

/// Moves an archive of version 1 over to version 2: the same run, and [`back`] gives the same bytes again.
///
/// An archive of version 2 is refused with [`Refusal::Version`].
pub fn over(archive: &[u8]) -> Result<Vec<u8>, Refusal> {
    written(library::fennqualo_over, archive, ARCHIVE)
}

/// Moves an archive of version 2 back to version 1: the same run, and [`over`] gives the same bytes again.
///
/// An archive of version 1 is refused with [`Refusal::Version`], one of more than 16 sites or of edition 2 or 3 with
/// [`Refusal::Back`].
pub fn back(archive: &[u8]) -> Result<Vec<u8>, Refusal> {
    written(library::fennqualo_back, archive, FIRST)
}

/// What a function of the library writes into room for `most` bytes: an archive, whose first two bytes hold its length.
fn written(
    function: unsafe extern "C" fn(*const u8, usize, *mut u8, usize) -> u8,
    archive: &[u8],
    most: usize,
) -> Result<Vec<u8>, Refusal> {
    let mut out = vec![0; most];
    // SAFETY: two slices that are there; `out` was made here, so the two do not overlap.
    let answer = unsafe { function(archive.as_ptr(), archive.len(), out.as_mut_ptr(), out.len()) };
    Refusal::check(answer)?;
    out.truncate(u16::from_be_bytes([out[0], out[1]]).into());
    out.shrink_to_fit();
    Ok(out)
}
