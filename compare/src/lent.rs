//! Buffers lent from the middle of larger ones, with guards around and stale contents inside.

use reference::generate::random::Random;

/// What a buffer is made of.
pub trait Element: Copy + PartialEq {
    fn of(bits: u64) -> Self;
}

impl Element for u8 {
    fn of(bits: u64) -> u8 {
        bits as u8
    }
}

impl Element for u32 {
    fn of(bits: u64) -> u32 {
        bits as u32
    }
}

impl Element for u64 {
    fn of(bits: u64) -> u64 {
        bits
    }
}

/// Elements in front of and behind a lent part, at least.
const GUARD: usize = 16;

pub struct Lent<T> {
    all: Vec<T>,
    before: Vec<T>,
    start: usize,
    length: usize,
}

impl<T: Element> Lent<T> {
    /// A part of this length. Its contents are random, all bits set or all clear; the guards are random.
    pub fn new(random: &mut Random, length: usize) -> Lent<T> {
        // The start moves, so that the part begins at any address that its type allows.
        let start = GUARD + random.below(16) as usize;
        let mut all: Vec<T> = (0..start + length + GUARD)
            .map(|_| T::of(random.next_u64()))
            .collect();
        match random.below(4) {
            0 => all[start..start + length].fill(T::of(0)),
            1 => all[start..start + length].fill(T::of(u64::MAX)),
            _ => {}
        }
        Lent {
            before: all.clone(),
            all,
            start,
            length,
        }
    }

    /// A part with these contents.
    pub fn of(random: &mut Random, contents: &[T]) -> Lent<T> {
        let mut lent = Lent::new(random, contents.len());
        lent.lend().copy_from_slice(contents);
        lent.before = lent.all.clone();
        lent
    }

    pub fn lend(&mut self) -> &mut [T] {
        &mut self.all[self.start..self.start + self.length]
    }

    pub fn now(&self) -> &[T] {
        &self.all[self.start..self.start + self.length]
    }

    /// Whether nothing but the first `used` elements of the part has changed.
    pub fn kept_past(&self, used: usize) -> bool {
        let part = self.start..self.start + used;
        self.all[..part.start] == self.before[..part.start]
            && self.all[part.end..] == self.before[part.end..]
    }

    /// Whether nothing outside the part has changed.
    pub fn guards_kept(&self) -> bool {
        self.kept_past(self.length)
    }
}
