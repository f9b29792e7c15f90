//! Buffers that end at a page which cannot be touched, with noise in every cell that holds
//! nothing else.

use crate::system::{pages_before_a_guard, PAGE};

/// Bytes that can be lent at most.
const SIZE: usize = 64 * PAGE;

/// Bytes before a buffer that are looked at too.
const BEFORE: usize = 64;

/// What buffers are made of: numbers without padding, of which every pattern of bits is one.
pub trait Cell: Copy + PartialEq {}

impl Cell for u8 {}
impl Cell for u16 {}

/// Memory for one buffer at a time.
pub struct Arena {
    end: *mut u8,
    /// What all of it holds while nothing is lent.
    noise: Vec<u8>,
}

impl Arena {
    /// With noise that differs from another number's in each bit.
    pub fn new(number: usize) -> Arena {
        let flipped = if number % 2 == 0 { 0 } else { 0xFF };
        let noise = (0..SIZE).map(|at| (at * 37 + at / 256 * 11) as u8 ^ flipped).collect();
        let mut arena = Arena { end: pages_before_a_guard(SIZE / PAGE), noise };
        let noise = arena.noise.clone();
        arena.last(SIZE).copy_from_slice(&noise);
        arena
    }

    /// The last bytes.
    fn last(&mut self, bytes: usize) -> &mut [u8] {
        self.cells(bytes)
    }

    /// The last cells.
    fn cells<T: Cell>(&mut self, length: usize) -> &mut [T] {
        let bytes = length * size_of::<T>();
        assert!(bytes + BEFORE <= SIZE || bytes == SIZE, "{bytes} bytes cannot be lent");
        // SAFETY: so many bytes before the end are this arena's alone, and aligned since the end
        // of a page is; every pattern of bits is a cell.
        unsafe { std::slice::from_raw_parts_mut(self.end.sub(bytes).cast(), length) }
    }

    /// Lends so many cells of noise.
    pub fn lend<T: Cell>(&mut self, length: usize) -> &mut [T] {
        self.cells(length)
    }

    /// Lends cells that hold something.
    pub fn hold<T: Cell>(&mut self, contents: &[T]) -> &mut [T] {
        let cells = self.cells(contents.len());
        cells.copy_from_slice(contents);
        cells
    }

    /// Whether of so many cells that are lent the first hold this and the others, and the bytes
    /// before them, what they were lent with. Then all holds noise again.
    pub fn holds<T: Cell>(&mut self, length: usize, answer: &[T]) -> bool {
        if answer.len() > length {
            return false;
        }
        let is_answer = self.cells::<T>(length)[..answer.len()] == *answer;
        let [all, written] = [length, answer.len()].map(|cells| cells * size_of::<T>());
        let start = SIZE - all;
        let noise = std::mem::take(&mut self.noise);
        let (before, behind) = (start.saturating_sub(BEFORE), start + written);
        let bytes = self.last(SIZE);
        let is_kept = bytes[before..start] == noise[before..start];
        let is_same = is_answer && is_kept && bytes[behind..] == noise[behind..];
        match is_same {
            true => bytes[start..behind].copy_from_slice(&noise[start..behind]),
            false => bytes.copy_from_slice(&noise),
        }
        self.noise = noise;
        is_same
    }
}
