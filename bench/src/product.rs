//! The functions of crate timing, with slices and numbers. In C a slice is a pointer and a length.

mod c {
    extern "C" {
        pub fn timing_play(bytes: *const u8, n: usize, book: *mut u8, room: usize) -> usize;
        pub fn timing_by_book(bytes: *const u8, n: usize, book: *mut u8, room: usize) -> usize;
        pub fn timing_read(bytes: *mut u8, n: usize, times: usize) -> usize;
        pub fn timing_check(bytes: *mut u8, n: usize, times: usize) -> usize;
        pub fn timing_write(bytes: *const u8, n: usize, out: *mut u8, room: usize, times: usize) -> usize;
        pub fn timing_runs(
            bytes: *const u8,
            n: usize,
            draws: usize,
            site: usize,
            code: usize,
            times: usize,
        ) -> usize;
        pub fn timing_sends(bytes: *const u8, n: usize, times: usize) -> usize;
    }
}

// Safe: each function takes any bytes and numbers, and touches only what is lent (it is proved).

/// Plays the archive into the book: its services.
pub fn play(bytes: &[u8], book: &mut [u8]) -> usize {
    unsafe { c::timing_play(bytes.as_ptr(), bytes.len(), book.as_mut_ptr(), book.len()) }
}

/// The same by the book.
pub fn play_by_book(bytes: &[u8], book: &mut [u8]) -> usize {
    unsafe { c::timing_by_book(bytes.as_ptr(), bytes.len(), book.as_mut_ptr(), book.len()) }
}

/// Reads the archive so many times, each time with another seed.
pub fn read(bytes: &mut [u8], times: usize) -> usize {
    unsafe { c::timing_read(bytes.as_mut_ptr(), bytes.len(), times) }
}

/// Checks the archive so many times, each time with another seed: the refusals, added up.
pub fn check(bytes: &mut [u8], times: usize) -> usize {
    unsafe { c::timing_check(bytes.as_mut_ptr(), bytes.len(), times) }
}

/// Reads the archive and writes it so many times: its length.
pub fn write(bytes: &[u8], room: &mut [u8], times: usize) -> usize {
    unsafe { c::timing_write(bytes.as_ptr(), bytes.len(), room.as_mut_ptr(), room.len(), times) }
}

/// The archive's sends, so many draws, then RUN (site, code) so many times, by public events.
pub fn runs(bytes: &[u8], draws: usize, site: usize, code: usize, times: usize) -> usize {
    unsafe { c::timing_runs(bytes.as_ptr(), bytes.len(), draws, site, code, times) }
}

/// So many public SENDs from the empty state, to {0} at site after site.
pub fn sends(bytes: &[u8], times: usize) -> usize {
    unsafe { c::timing_sends(bytes.as_ptr(), bytes.len(), times) }
}
