//! A buffer as a call is lent it, with items around it that no call may change,
//! beside what the call has to leave there.

/// A byte or a word.
pub trait Item: Copy + PartialEq + std::fmt::Display {
    /// What the k-th item holds before a call. Neighbours differ.
    fn filler(k: usize, fill: Fill) -> Self;
}

/// Which of two values an item holds before a call. They differ in every bit, so
/// that over both a stray write of any value is seen.
#[derive(Clone, Copy, Debug, PartialEq, Eq)]
pub enum Fill {
    One,
    Other,
}

pub const FILLS: [Fill; 2] = [Fill::One, Fill::Other];

impl Item for u8 {
    fn filler(k: usize, fill: Fill) -> u8 {
        let byte = (k * 37 + 11) as u8;
        match fill {
            Fill::One => byte,
            Fill::Other => !byte,
        }
    }
}

impl Item for u64 {
    fn filler(k: usize, fill: Fill) -> u64 {
        let word = (k as u64 + 3).wrapping_mul(0x0123_4567_89ab_cdef);
        match fill {
            Fill::One => word,
            Fill::Other => !word,
        }
    }
}

/// How many items stand on each side.
const GUARD: usize = 16;

pub struct Guarded<T> {
    memory: Vec<T>,
    expected: Vec<T>,
}

impl<T: Item> Guarded<T> {
    /// A buffer of `room` items, which a call has to leave as it is.
    pub fn new(room: usize, fill: Fill) -> Self {
        let memory: Vec<T> = (0..room + 2 * GUARD).map(|k| T::filler(k, fill)).collect();
        Guarded {
            expected: memory.clone(),
            memory,
        }
    }

    /// A buffer of `room` items that begins with these, as many of them as fit.
    pub fn holding(content: &[T], room: usize, fill: Fill) -> Self {
        let mut buffer = Guarded::new(room, fill);
        let fits = content.len().min(room);
        buffer.lent()[..fits].copy_from_slice(&content[..fits]);
        buffer.expected()[..fits].copy_from_slice(&content[..fits]);
        buffer
    }

    pub fn room(&self) -> usize {
        self.memory.len() - 2 * GUARD
    }

    /// What is lent to the call.
    pub fn lent(&mut self) -> &mut [T] {
        let end = self.memory.len() - GUARD;
        &mut self.memory[GUARD..end]
    }

    /// A copy of the memory, to which a model writes what the call has to leave.
    pub fn expected(&mut self) -> &mut [T] {
        let end = self.expected.len() - GUARD;
        &mut self.expected[GUARD..end]
    }

    /// What the call left.
    pub fn left(&self) -> &[T] {
        &self.memory[GUARD..self.memory.len() - GUARD]
    }

    /// That every item, around the buffer too, is what is expected.
    pub fn agrees(&self) -> Result<(), String> {
        let mut items = self.memory.iter().zip(&self.expected);
        match items.position(|(item, expected)| item != expected) {
            Some(k) => {
                let place = k as i64 - GUARD as i64;
                let (item, expected) = (self.memory[k], self.expected[k]);
                Err(format!("at {place} stands {item} instead of {expected}"))
            }
            None => Ok(()),
        }
    }
}
