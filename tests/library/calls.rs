//! The functions of include/fennqualo.h, called with slices of many lengths, each between guards. The wrapper links the
//! library.

use crate::guarded::{bytes, copied, numbers, Guarded};
use crate::judged::{Judged, Written};
use reference::archive::LONGEST;
use reference::making::rng::Rng;
use reference::player::BOOK;

extern "C" {
    fn fennqualo_play(
        archive: *const u8,
        archive_length: usize,
        book: *mut u8,
        book_length: usize,
        counts: *mut u64,
        counts_length: usize,
    ) -> u8;
    fn fennqualo_check(archive: *const u8, archive_length: usize) -> u8;
    fn fennqualo_copy(archive: *const u8, archive_length: usize, out: *mut u8, out_length: usize) -> u8;
    fn fennqualo_over(archive: *const u8, archive_length: usize, out: *mut u8, out_length: usize) -> u8;
    fn fennqualo_back(archive: *const u8, archive_length: usize, out: *mut u8, out_length: usize) -> u8;
}

/// A function that writes an archive into lent room, by its name.
type Writer = (&'static str, unsafe extern "C" fn(*const u8, usize, *mut u8, usize) -> u8);

/// One archive handed in again and again; every call is held to what the second model says of it.
struct Calls<'a> {
    name: &'a str,
    archive: Guarded<u8>,
    whole: &'a [u8],
    judged: &'a Judged,
    made: usize,
}

impl Calls<'_> {
    fn held(&mut self, call: &str, is_right: bool, what: &str) {
        assert!(is_right, "{}: {call}: {what}", self.name);
    }

    fn ended(&mut self, call: &str, answer: u8, expected: u8) {
        self.made += 1;
        let kept = self.archive.holds(self.whole);
        self.held(call, kept, "the archive handed in, or a byte beside it, changed");
        self.held(call, answer == expected, &format!("answered {answer}, not {expected}"));
    }

    fn check(&mut self, rng: &mut Rng) {
        let answer = unsafe { fennqualo_check(self.archive.lent(rng), self.archive.length()) };
        self.ended("check", answer, self.judged.refusal);
    }

    fn play(&mut self, room: usize, places: usize, rng: &mut Rng) {
        let call = format!("play with {room} bytes and {places} places");
        let mut book = bytes(room, rng);
        let mut counts = numbers(places, rng);
        let archive = self.archive.lent(rng);
        let length = self.archive.length();
        let answer =
            unsafe { fennqualo_play(archive, length, book.lent(rng), room, counts.lent(rng), places) };
        // The book's 14 and that of the counts: the same number, after 1 to 8.
        let expected = match self.judged.with_book(room) {
            0 if places < 4 => 14,
            answer => answer,
        };
        self.ended(&call, answer, expected);
        let (services, four): (&[u8], &[u64]) = match &self.judged.counts {
            Some(four) if expected == 0 => (&self.judged.book, four),
            _ => (&[], &[]),
        };
        self.held(&call, book.holds(services), "the book, or a byte beside it, is not as it must be");
        self.held(&call, counts.holds(four), "the counts, or a number beside them, are not as they must be");
    }

    fn write(&mut self, (name, function): Writer, written: &Written, room: usize, rng: &mut Rng) {
        let call = format!("{name} with {room} bytes");
        let mut out = bytes(room, rng);
        let archive = self.archive.lent(rng);
        let answer = unsafe { function(archive, self.archive.length(), out.lent(rng), room) };
        let (expected, front): (u8, &[u8]) = match written {
            Err(refusal) => (*refusal, &[]),
            Ok(whole) if room < whole.len() => (14, &[]),
            Ok(whole) => (0, whole),
        };
        self.ended(&call, answer, expected);
        self.held(&call, out.holds(front), "the room, or a byte beside it, is not as it must be");
    }
}

/// Calls each function on an archive, with room enough, exact, one short and none; answers how many calls were made.
pub fn compare(name: &str, whole: &[u8], judged: &Judged, rng: &mut Rng) -> usize {
    let archive = copied(whole, rng);
    let mut calls = Calls { name, archive, whole, judged, made: 0 };
    let exact = judged.room;
    calls.check(rng);
    calls.play(exact, 4, rng);
    calls.play(rng.within(exact, BOOK + 9), rng.within(4, 9), rng);
    // Refused by a slice too short, which is told before anything is played.
    for places in 0..4 {
        let room = rng.pick(&[0, exact, BOOK]);
        calls.play(room, places, rng);
    }
    if exact > 0 {
        calls.play(exact - 1, 4, rng);
        calls.play(rng.below(exact), rng.within(4, 6), rng);
        calls.play(0, 4, rng);
        calls.play(exact - 1, 3, rng);
    }
    let length = whole.len();
    let copy: Writer = ("copy", fennqualo_copy);
    for room in rooms(length, rng) {
        calls.write(copy, &judged.copied, room, rng);
    }
    let moves: [Writer; 2] = [("over", fennqualo_over), ("back", fennqualo_back)];
    for (go, written) in moves.into_iter().zip([&judged.over, &judged.back]) {
        let rooms = match written {
            Ok(moved) => rooms(moved.len(), rng),
            Err(_) => vec![rng.pick(&[0, length, LONGEST])],
        };
        for room in rooms {
            calls.write(go, written, room, rng);
        }
    }
    calls.made
}

/// Room for so many bytes: exact, longer, one short, shorter, none.
fn rooms(length: usize, rng: &mut Rng) -> Vec<usize> {
    let mut rooms = vec![length, length + rng.within(1, 70)];
    if length > 0 {
        rooms.extend([length - 1, rng.below(length)]);
    }
    rooms.push(0);
    rooms
}
