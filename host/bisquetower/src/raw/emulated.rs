//! The exported functions, run by an emulator: build.rs links libbisquetower.a into the
//! program caller.c, which takes calls from its standard input and writes what
//! they leave to its standard output. caller.c says how the bytes stand.

use super::calls::NAMES;
use super::UNWRITTEN;
use std::cell::{Cell, RefCell};
use std::io::{Read as _, Write as _};
use std::process::{Child, ChildStdin, ChildStdout, Command, Stdio};

/// An argument in C. Memory that is written goes there and comes back whole, so
/// that every item which the library changed, and no other, changes here.
// Which of them are used depends on the functions that are exported.
#[allow(dead_code)]
pub enum Arg<'i, 'a> {
    Number(u64),
    Bytes(&'i [u8]),
    Words(&'i [u64]),
    BytesOut(&'a mut [u8]),
    WordsOut(&'a mut [u64]),
    /// Words that a call writes and doesn't read: they needn't go there.
    Answer(&'a mut [u64]),
    /// How many items the argument before this one has.
    Length,
}

/// How caller.c takes an argument.
#[derive(Clone, Copy)]
enum Kind {
    Number,
    Read,
    Written,
    Fresh,
}

/// What comes back of a call.
enum Out<'a> {
    Bytes(&'a mut [u8]),
    Words(&'a mut [u64]),
}

impl Out<'_> {
    /// In bytes.
    fn size(&self) -> usize {
        match self {
            Out::Bytes(bytes) => bytes.len(),
            Out::Words(words) => words.len() * WORD,
        }
    }

    fn take(self, from: &[u8]) {
        match self {
            Out::Bytes(bytes) => bytes.copy_from_slice(&from[..bytes.len()]),
            Out::Words(words) => {
                for (word, bytes) in words.iter_mut().zip(from.chunks_exact(WORD)) {
                    *word = u64::from_le_bytes(bytes.try_into().expect("eight bytes"));
                }
            }
        }
    }
}

/// How many bytes go or come in one exchange, but for the last call's: enough
/// that exchanges cost little, few enough to stay near the processor. caller.c
/// has room for more.
const EXCHANGE: usize = 1 << 18;

const WORD: usize = 8;

/// Words before a request's arguments, and how many kinds stand in one of them.
const HEAD: usize = 3;
const KINDS: usize = 32;

/// How caller.c ends when the bytes around a lent buffer changed: this and the
/// call's number.
const WROTE_OUTSIDE: usize = 16;

thread_local! {
    // One program a thread, so that threads don't wait for each other.
    static CALLER: RefCell<Caller> = RefCell::new(Caller::start());
    /// How many bytes of stack a call has, 0 for the program's own, and how many of
    /// them were used.
    static STACK: Cell<Stack> = const { Cell::new(Stack { bytes: 0, used: 0 }) };
}

#[derive(Clone, Copy)]
struct Stack {
    bytes: usize,
    used: usize,
}

/// Has each call that `calls` makes on this thread run on a stack of just `bytes`
/// bytes, up to 4 MiB. Tells, where that can be known, how many were used.
pub fn on_stack<T: Send>(bytes: usize, calls: impl FnOnce() -> T + Send) -> (T, Option<usize>) {
    /// The stack that was there before, even after a panic.
    struct Before(Stack);
    impl Drop for Before {
        fn drop(&mut self) {
            STACK.set(self.0);
        }
    }
    let before = Before(STACK.get());
    STACK.set(Stack { bytes, used: 0 });
    let made = calls();
    let used = STACK.get().used;
    drop(before);
    (made, Some(used))
}

/// Many calls. One exchange with the emulator serves them all; where the library
/// is linked, each is made at once.
#[must_use = "what the calls write is there once the batch is run"]
#[derive(Default)]
pub struct Batch<'a> {
    requests: Vec<u8>,
    outs: Vec<Out<'a>>,
    coming: usize,
    calls: u64,
}

impl<'a> Batch<'a> {
    /// No calls yet.
    pub fn new() -> Self {
        Batch::default()
    }

    /// Makes the calls, and gives back what was lent to them, written.
    pub fn run(mut self) {
        self.exchange();
    }

    /// Adds a call: its head, a word for each argument, what stands in memory.
    pub(super) fn call<const N: usize>(&mut self, number: u64, args: [Arg<'_, 'a>; N]) {
        let start = self.requests.len();
        self.requests.resize(start + (HEAD + N) * WORD, 0);
        let mut kinds = [0; HEAD - 1];
        let mut items = 0;
        for (k, arg) in args.into_iter().enumerate() {
            let (kind, word) = match arg {
                Arg::Number(n) => (Kind::Number, n),
                Arg::Length => (Kind::Number, items),
                memory => {
                    let (kind, size, length) = self.lend(memory);
                    items = length as u64;
                    (kind, (length * size) as u64)
                }
            };
            kinds[k / KINDS] |= (kind as u64) << (2 * (k % KINDS));
            self.set_word(start + (HEAD + k) * WORD, word);
        }
        self.set_word(start, number | (N as u64) << 32);
        for (k, kinds) in kinds.into_iter().enumerate() {
            self.set_word(start + (1 + k) * WORD, kinds);
        }
        self.calls += 1;
        if self.requests.len().max(self.coming) >= EXCHANGE {
            self.exchange();
        }
    }

    /// Adds what stands in an argument's memory; returns its kind, the size of
    /// its items and how many there are.
    fn lend(&mut self, arg: Arg<'_, 'a>) -> (Kind, usize, usize) {
        match arg {
            Arg::Number(_) | Arg::Length => unreachable!("it isn't memory"),
            Arg::Bytes(bytes) => {
                self.add_bytes(bytes);
                (Kind::Read, 1, bytes.len())
            }
            Arg::Words(words) => {
                self.add_words(words);
                (Kind::Read, WORD, words.len())
            }
            Arg::BytesOut(bytes) => {
                self.add_bytes(bytes);
                (Kind::Written, 1, self.comes(Out::Bytes(bytes)))
            }
            Arg::WordsOut(words) => {
                self.add_words(words);
                (Kind::Written, WORD, self.comes(Out::Words(words)))
            }
            Arg::Answer(words) => (Kind::Fresh, WORD, self.comes(Out::Words(words))),
        }
    }

    fn set_word(&mut self, place: usize, word: u64) {
        self.requests[place..place + WORD].copy_from_slice(&word.to_le_bytes());
    }

    /// Adds bytes, up to a whole word.
    fn add_bytes(&mut self, bytes: &[u8]) {
        self.requests.extend_from_slice(bytes);
        let whole = self.requests.len().next_multiple_of(WORD);
        self.requests.resize(whole, 0);
    }

    fn add_words(&mut self, words: &[u64]) {
        for word in words {
            self.requests.extend_from_slice(&word.to_le_bytes());
        }
    }

    /// Keeps memory until the calls are made; returns how many items it has.
    fn comes(&mut self, out: Out<'a>) -> usize {
        self.coming += out.size().next_multiple_of(WORD);
        let items = match &out {
            Out::Bytes(bytes) => bytes.len(),
            Out::Words(words) => words.len(),
        };
        self.outs.push(out);
        items
    }

    fn exchange(&mut self) {
        let mut stack = STACK.get();
        CALLER.with_borrow_mut(|caller| {
            let mut left = caller.exchange(&self.requests, stack.bytes, self.coming + 2 * WORD);
            for out in self.outs.drain(..) {
                let (mine, others) = left.split_at(out.size().next_multiple_of(WORD));
                out.take(mine);
                left = others;
            }
            let (calls, used) = left.split_at(WORD);
            assert_eq!(calls, self.calls.to_le_bytes(), "every call was made");
            let used = u64::from_le_bytes(used.try_into().expect("eight bytes"));
            stack.used = stack.used.max(used as usize);
        });
        STACK.set(stack);
        self.requests.clear();
        self.coming = 0;
        self.calls = 0;
    }
}

struct Caller {
    program: Child,
    input: Option<ChildStdin>,
    output: ChildStdout,
    answer: Vec<u8>,
}

impl Caller {
    fn start() -> Caller {
        let mut program = Command::new(env!("EMULATOR"))
            .arg(env!("CALLER"))
            // The emulator takes orders from its environment too.
            .env_clear()
            .stdin(Stdio::piped())
            .stdout(Stdio::piped())
            // What it says of a signal, its exit status says too.
            .stderr(Stdio::null())
            .spawn()
            .expect("the emulator that build.rs found starts");
        let output = program.stdout.take().expect("a pipe");
        Caller {
            input: program.stdin.take(),
            output,
            program,
            answer: Vec::new(),
        }
    }

    /// The program answers a batch once it has all of it, so neither side waits
    /// on a full pipe that the other doesn't empty.
    fn exchange(&mut self, batch: &[u8], stack: usize, answer_length: usize) -> &[u8] {
        self.answer.resize(answer_length, 0);
        if let Err(error) = self.try_exchange(batch, stack) {
            drop(self.input.take());
            let end = self.program.wait().expect("it was started");
            let code = end.code().and_then(|code| usize::try_from(code).ok());
            let outside = code.and_then(|code| NAMES.get(code.checked_sub(WROTE_OUTSIDE)?));
            match outside {
                Some(name) => panic!("{name} of libbisquetower.a wrote outside its buffers"),
                None => panic!("the calls of libbisquetower.a broke off: {error}, {end}"),
            }
        }
        &self.answer
    }

    fn try_exchange(&mut self, batch: &[u8], stack: usize) -> std::io::Result<()> {
        let input = self.input.as_mut().expect("open until the drop");
        for word in [batch.len() as u64, UNWRITTEN, stack as u64] {
            input.write_all(&word.to_le_bytes())?;
        }
        input.write_all(batch)?;
        self.output.read_exact(&mut self.answer)
    }
}

impl Drop for Caller {
    /// The end of its input ends the program.
    fn drop(&mut self) {
        drop(self.input.take());
        let _ = self.program.wait();
    }
}
