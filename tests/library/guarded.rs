//! A slice to lend, between guards that nobody may touch. Slice and guards are filled with numbers that follow from a
//! seed, so that a single changed element shows.

use reference::making::rng::Rng;

/// Elements before and behind the slice.
const GUARD: usize = 67;

pub struct Guarded<T> {
    before: Vec<T>,
    all: Vec<T>,
    length: usize,
}

impl<T: Copy + PartialEq> Guarded<T> {
    /// A slice of this length, every element made by `fill`.
    pub fn new(length: usize, mut fill: impl FnMut() -> T) -> Guarded<T> {
        let all: Vec<T> = (0..GUARD + length + GUARD).map(|_| fill()).collect();
        Guarded { before: all.clone(), all, length }
    }

    /// The slice's pointer; NULL now and then for an empty one, which the header allows.
    pub fn lent(&mut self, rng: &mut Rng) -> *mut T {
        if self.length == 0 && rng.one_in(2) {
            return std::ptr::null_mut();
        }
        self.all[GUARD..].as_mut_ptr()
    }

    pub fn length(&self) -> usize {
        self.length
    }

    /// Whether the slice now begins with `front` and everything else, guards too, is as it was made.
    pub fn holds(&self, front: &[T]) -> bool {
        let end = GUARD + front.len();
        front.len() <= self.length
            && self.all[..GUARD] == self.before[..GUARD]
            && self.all[GUARD..end] == *front
            && self.all[end..] == self.before[end..]
    }
}

/// A lent slice of bytes.
pub fn bytes(length: usize, rng: &mut Rng) -> Guarded<u8> {
    Guarded::new(length, || rng.value() as u8)
}

/// A lent slice of numbers.
pub fn numbers(length: usize, rng: &mut Rng) -> Guarded<u64> {
    Guarded::new(length, || rng.value())
}

/// Bytes to hand in, between guards.
pub fn copied(from: &[u8], rng: &mut Rng) -> Guarded<u8> {
    let mut made = bytes(from.len(), rng);
    made.all[GUARD..GUARD + from.len()].copy_from_slice(from);
    made.before.copy_from_slice(&made.all);
    made
}
