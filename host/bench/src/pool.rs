//! Inputs of one size and shape, of which each call meets the next one.
//!
//! The processor learns the branches of an input that it meets again and again, and keeps
//! it in its nearest cache, as long as the input is small. A large one is new to it each
//! time, and the growth from the one to the other is then the processor's and not the
//! code's. So there are as many inputs of any size that neither branches nor bytes of one
//! are still known when its turn comes again.
//!
//! ```text
//!   8,192 rows   8 inputs         1,024 rows   64 inputs        64 rows   1,024 inputs
//! ```
//!
//! All sizes have as many rows in all, and so as many bytes: 16 MiB of tables, or 28 MiB
//! of waiting rows.

use crate::measure::AT_A_TIME;
use compare::inputs::Random;

/// How many inputs there are of the largest size.
const LARGEST: usize = 8;

pub struct Pool<T> {
    inputs: Vec<T>,
}

impl<T> Pool<T> {
    /// Inputs of `rows` rows, as many as have together the rows of eight inputs of `most`
    /// rows. Each is made of random numbers of its own.
    pub fn of(rows: usize, most: usize, one: impl FnMut(Random) -> T) -> Pool<T> {
        let count = LARGEST * most / rows;
        let randoms = (1..=count as u64).map(Random);
        Pool {
            inputs: randoms.map(one).collect(),
        }
    }

    /// What is made of each input.
    pub fn map<'a, U>(&'a self, one: impl FnMut(&'a T) -> U) -> Pool<U> {
        Pool {
            inputs: self.inputs.iter().map(one).collect(),
        }
    }

    /// One input for all calls.
    pub fn alone(one: impl FnOnce(Random) -> T) -> Pool<T> {
        Pool {
            inputs: vec![one(Random(1))],
        }
    }

    /// A line's note, after what is lent.
    pub fn note(&self, note: &str) -> String {
        match self.inputs.len() {
            1 => format!("one input for all calls; {note}"),
            count => format!("{count} inputs in turn; {note}"),
        }
    }

    /// How many copies are made of what the crate takes away or changes: of each input one,
    /// so that a copy isn't nearer than an input is.
    pub fn at_a_time(&self) -> usize {
        self.inputs.len().max(AT_A_TIME)
    }

    pub fn iter(&self) -> std::slice::Iter<'_, T> {
        self.inputs.iter()
    }

    /// Gives an input after the other, and after the last the first again. Each side of a
    /// line has a turn of its own.
    pub fn turn<'a>(&'a self) -> impl FnMut() -> &'a T {
        let mut inputs = self.inputs.iter().cycle();
        move || inputs.next().expect("a pool has inputs")
    }
}
