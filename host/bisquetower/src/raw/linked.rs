//! The exported functions, called as they are.

use std::marker::PhantomData;

/// Many calls. Here each is made at once; where the library is emulated, one
/// exchange with the emulator serves them all.
#[must_use = "what the calls write is there once the batch is run"]
#[derive(Default)]
pub struct Batch<'a>(PhantomData<&'a mut [u8]>);

impl Batch<'_> {
    /// No calls yet.
    #[inline]
    pub fn new() -> Self {
        Batch(PhantomData)
    }

    /// Gives back what was lent to the calls, written.
    #[inline]
    pub fn run(self) {}
}

/// What a thread takes of its stack before and beside the calls that it makes.
const THREAD: usize = 16 << 10;

/// Makes calls on a thread that has a stack of `bytes` bytes for each of them. Tells,
/// where that can be known, how many were used.
pub fn on_stack<T: Send>(bytes: usize, calls: impl FnOnce() -> T + Send) -> (T, Option<usize>) {
    std::thread::scope(|scope| {
        let thread = std::thread::Builder::new().stack_size(bytes + THREAD);
        let made = thread
            .spawn_scoped(scope, calls)
            .expect("a thread starts")
            .join();
        let made = made.unwrap_or_else(|why| std::panic::resume_unwind(why));
        (made, None)
    })
}
