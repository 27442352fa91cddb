//! `count`: what the filters of a night did, capture by capture, by station and in all.
//!
//! ```text
//!   manifest   the night's lines, one after the other
//!     |
//!   capture    a line's files, counted by the library; several lines at a time
//!     |
//!   night      the totals, by station and in all, in the manifest's order
//!     |
//!   lines, json, csv, svg
//! ```

mod capture;
mod csv;
mod json;
mod lines;
mod manifest;
mod night;
mod svg;

use crate::args::{Args, Options};
use crate::failure::Failure;
use crate::progress::Line as Progress;
use crate::text::{count, number};
use crate::{files, output};
use bisquetower::{Captured, Counts, Refusal};
use capture::{look_at, Looked};
pub use manifest::NAME as MANIFEST;
use manifest::{Line, Manifest};
use night::Night;
use std::ffi::OsString;
use std::path::Path;
use std::thread::available_parallelism;

const OPTIONS: Options = Options {
    command: "count",
    switches: &["--json", "--csv", "--force"],
    valued: &["--svg", "--threads"],
};

/// The most threads that may be asked for.
const MOST_THREADS: u64 = 256;

/// How many lines are looked at between two looks at the clock, by each thread. Only what
/// came of them is held meanwhile: of files each thread has those of one line.
const AT_A_TIME: usize = 32;

/// What is shown of a capture, and in the end.
#[derive(Clone, Copy, PartialEq, Eq)]
enum Form {
    /// A line a bad capture, and a table.
    Lines,
    Json,
    Csv,
    /// Nothing, for the drawing is all that is shown.
    None,
}

/// A capture of a line: of a message's have, which is told by its number from 1.
struct Capture<'a> {
    line: &'a Line,
    have: Option<usize>,
    counted: Result<Counts, Refusal>,
}

pub fn run(words: &[OsString]) -> Result<String, Failure> {
    let args = OPTIONS.read(words)?;
    let [folder] = OPTIONS.names(&args, "one folder")?;
    let form = form(&args)?;
    let svg = args.value("--svg").filter(|out| *out != files::STANDARD);
    let force = args.has("--force");
    if let Some(out) = svg {
        files::may_write(Path::new(out), force)?;
    }
    let threads = OPTIONS.number_in(&args, "--threads", 1..=MOST_THREADS)?;
    let threads = threads.map_or_else(cores, |threads| threads as usize);
    let mut counting = Counting::of(Path::new(&folder), form, threads)?;
    // The drawing is of the whole night, whoever reads the rest.
    let ended = counting.go(svg.is_some());
    counting.progress.clear();
    if !ended? {
        return Ok(String::new());
    }
    let night = counting.night;
    let mut shown = match form {
        Form::Lines => lines::night(&night),
        Form::Json => json::night(&night),
        Form::Csv => String::new(),
        Form::None => svg::draw(&night),
    };
    if let Some(out) = svg {
        files::write(Path::new(out), svg::draw(&night).as_bytes(), force)?;
        if form == Form::Lines {
            shown += &format!("The night is drawn in {}.\n", out.display());
        }
    }
    judged(&night, shown)
}

fn form(args: &Args) -> Result<Form, Failure> {
    let alone = args
        .value("--svg")
        .is_some_and(|out| out == files::STANDARD);
    match (args.has("--json"), args.has("--csv"), alone) {
        (false, false, false) => Ok(Form::Lines),
        (true, false, false) => Ok(Form::Json),
        (false, true, false) => Ok(Form::Csv),
        (false, false, true) => Ok(Form::None),
        _ => {
            Err(OPTIONS
                .wrong("standard output can be the JSON, the CSV or the drawing, one of them"))
        }
    }
}

fn cores() -> usize {
    available_parallelism().map_or(1, usize::from)
}

/// A night that is counted line by line.
struct Counting<'a> {
    folder: &'a Path,
    manifest: Manifest,
    threads: usize,
    form: Form,
    night: Night,
    progress: Progress,
}

impl<'a> Counting<'a> {
    fn of(folder: &'a Path, form: Form, threads: usize) -> Result<Counting<'a>, Failure> {
        Ok(Counting {
            folder,
            manifest: Manifest::open(folder)?,
            threads,
            form,
            night: Night::default(),
            progress: Progress::on_terminals(),
        })
    }

    /// Counts all of it, and shows what is shown of captures; whether it came to the end. Once
    /// nobody reads that any more it goes on only if it is wanted for more.
    fn go(&mut self, wanted: bool) -> Result<bool, Failure> {
        let mut read = self.print(match self.form {
            Form::Csv => csv::HEADS.to_string(),
            _ => String::new(),
        })?;
        loop {
            let lines = self.manifest.next_lines(AT_A_TIME * self.threads)?;
            if lines.is_empty() {
                return Ok(true);
            }
            let looked = look_at(self.folder, lines, self.threads);
            let shown: String = looked.iter().map(|one| self.take(one)).collect();
            read = read && self.print(shown)?;
            if !read && !wanted {
                return Ok(false);
            }
            self.progress.show(&self.far());
        }
    }

    /// Adds what came of a line to the night; what is shown of it.
    fn take(&mut self, looked: &Looked) -> String {
        let (line, captures) = match &looked.found {
            Ok(found) => found,
            Err(why) => {
                self.night.unread += 1;
                return match self.form {
                    Form::Lines => lines::unread(looked.number, why),
                    Form::Json => json::unread(looked.number, why),
                    Form::Csv => csv::unread(looked.number, why),
                    Form::None => String::new(),
                };
            }
        };
        let mut shown = String::new();
        for (have, counted) in captures {
            let capture = Capture {
                line,
                have: *have,
                counted: self.night.add(&line.station, counted),
            };
            shown += &match self.form {
                Form::Lines => lines::capture(&capture),
                Form::Json => json::capture(&capture),
                Form::Csv => csv::capture(&capture),
                Form::None => String::new(),
            };
        }
        if captures.is_empty() && self.form == Form::Lines {
            shown += &lines::without_haves(line);
        }
        shown
    }

    fn print(&mut self, shown: String) -> Result<bool, Failure> {
        if shown.is_empty() {
            return Ok(true);
        }
        self.progress.clear();
        output::print(&shown)
    }

    fn far(&self) -> String {
        let all = &self.night.all;
        let captures = count(all.captures as usize, "capture");
        let refused = number(all.refused as usize);
        format!(
            "{} %: {captures}, {refused} refused",
            self.manifest.percent()
        )
    }
}

impl Capture<'_> {
    /// The file that is refused.
    fn bad_file(&self, refusal: &Refusal) -> &str {
        match refusal.cause().and_then(|cause| cause.captured()) {
            Some(Captured::Sender) => &self.line.sender,
            Some(Captured::Listener) => &self.line.listener,
            Some(Captured::Filter) | None => &self.line.file,
        }
    }
}

/// What is shown of a night in which all was counted; another is shown and has failed.
fn judged(night: &Night, shown: String) -> Result<String, Failure> {
    let (refused, unread) = (night.all.refused as usize, night.unread);
    let captures = count(night.all.captures as usize, "capture");
    let refused_of = format!(
        "{} of {captures} refused, which add to no total",
        number(refused)
    );
    let unread_lines = format!(
        "{} of {} that can't be read",
        count(unread, "line"),
        MANIFEST
    );
    let failure = match (refused, unread) {
        (0, 0) => return Ok(shown),
        (_, 0) => Failure::refused(
            refused_of,
            "look at the files that are named, with `bisquetower inspect`, and have them captured again.",
        ),
        (0, _) => Failure::file(unread_lines, NEXT_UNREAD),
        _ => Failure::file(format!("{unread_lines}; {refused_of}"), NEXT_UNREAD),
    };
    Err(failure.showing(shown))
}

const NEXT_UNREAD: &str =
    "look at the lines that are named; `bisquetower count --help` says what stands in one.";
