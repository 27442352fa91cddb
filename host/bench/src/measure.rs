//! One line a measurement: what a call takes in the library and in the crate.

use std::hint::black_box;
use std::time::{Duration, Instant};

/// How many batches each side gets in a run, in turn, so that both see the same
/// machine; the best one counts, since all that disturbs a batch makes it longer.
pub const BATCHES: usize = 10;

/// How long a batch takes at least.
const BATCH: Duration = Duration::from_millis(4);

/// After how long no more runs are put into a batch: what a short call is given may take
/// long to make.
const MAKING: Duration = Duration::from_millis(60);

/// What the name of a line ends in that measures a part of another line's calls; the
/// table then has the difference of the two as well.
pub const REST: &str = ": rest";

/// Rows of the tables that are measured. They are chosen so that figures can be held
/// against earlier ones, and don't follow the limits.
pub const SIZES: [(&str, usize); 5] = [
    ("64 rows", 64),
    ("256 rows", 256),
    ("1,024 rows", 1_024),
    ("4,096 rows", 4_096),
    ("8,192 rows", 8_192),
];

/// The most of these rows.
pub const MOST_ROWS: usize = SIZES[SIZES.len() - 1].1;

/// How many copies of what the crate takes away or changes are made at a time.
pub const AT_A_TIME: usize = 8;

/// What is measured.
pub struct Line<'a> {
    pub name: &'a str,
    pub size: &'a str,
    /// How many calls a run of either side makes.
    pub calls: usize,
    /// What a reader must know to compare the two.
    pub note: &'a str,
}

/// What was measured: nanoseconds a call.
pub struct Times {
    pub name: String,
    pub size: String,
    pub library: f64,
    pub published: f64,
    pub note: String,
}

impl Times {
    fn write(&self) {
        let Times {
            name,
            size,
            library,
            published,
            note,
        } = self;
        println!("{name}\t{size}\t{library}\t{published}\t{note}");
    }

    /// From a line as `write` leaves it.
    pub fn read(line: &str) -> Option<Times> {
        let mut parts = line.split('\t');
        Some(Times {
            name: parts.next()?.to_string(),
            size: parts.next()?.to_string(),
            library: parts.next()?.parse().ok()?,
            published: parts.next()?.parse().ok()?,
            note: parts.next()?.to_string(),
        })
    }
}

/// Measures both sides. A run of a side makes all of the calls and returns a
/// number made of their answers; the two must be equal, so that neither side can
/// be fast by doing something else.
pub fn line(what: Line, mut library: impl FnMut() -> u64, mut published: impl FnMut() -> u64) {
    assert_eq!(library(), published(), "{}, {}", what.name, what.size);
    let library = |runs| time(&mut library, runs);
    let published = |runs| time(&mut published, runs);
    measure(what, library, published);
}

/// Measures a line whose call of the crate changes what it is given: each run gets one
/// of its own, made before the clock starts, `at_a_time` at a time, and ended after it.
pub fn line_of<T>(
    what: Line,
    mut library: impl FnMut() -> u64,
    at_a_time: usize,
    mut given: impl FnMut() -> T,
    mut published: impl FnMut(&mut T) -> u64,
) {
    let theirs = published(&mut given());
    assert_eq!(library(), theirs, "{}, {}", what.name, what.size);
    let library = |runs| time(&mut library, runs);
    let published = |runs: usize| {
        let mut time = Duration::ZERO;
        let mut left = runs;
        while left > 0 {
            let mut some: Vec<T> = (0..left.min(at_a_time)).map(|_| given()).collect();
            left -= some.len();
            let start = Instant::now();
            for one in &mut some {
                black_box(published(one));
            }
            time += start.elapsed();
        }
        time
    };
    measure(what, library, published);
}

/// Measures two sides that each tell how long a number of runs takes.
fn measure(
    what: Line,
    mut library: impl FnMut(usize) -> Duration,
    mut published: impl FnMut(usize) -> Duration,
) {
    let library_runs = runs_in_a_batch(&mut library);
    let published_runs = runs_in_a_batch(&mut published);
    let (mut ours, mut theirs) = (f64::MAX, f64::MAX);
    let nanoseconds = |time: Duration, runs: usize| time.as_nanos() as f64 / runs as f64;
    for _ in 0..BATCHES {
        ours = ours.min(nanoseconds(library(library_runs), library_runs));
        theirs = theirs.min(nanoseconds(published(published_runs), published_runs));
    }
    let times = Times {
        name: what.name.to_string(),
        size: what.size.to_string(),
        library: ours / what.calls as f64,
        published: theirs / what.calls as f64,
        note: what.note.to_string(),
    };
    times.write();
}

/// How many runs fill a batch, or as many as there is time to make what they are given.
/// Finding it out warms the side up.
fn runs_in_a_batch(side: &mut impl FnMut(usize) -> Duration) -> usize {
    let start = Instant::now();
    let mut runs = 1;
    while side(runs) < BATCH && start.elapsed() < MAKING {
        runs *= 2;
    }
    runs
}

fn time(side: &mut impl FnMut() -> u64, runs: usize) -> Duration {
    let start = Instant::now();
    for _ in 0..runs {
        black_box(side());
    }
    start.elapsed()
}
