//! `catch-up`: two units talk through the proved sessions.

mod both;
mod json;
mod lines;
mod premises;
mod svg;
mod talk;

use crate::args::{Args, Options};
use crate::failure::Failure;
use crate::text::number;
use crate::{files, settings, table};
use bisquetower::Choice;
use std::ffi::OsString;
use std::path::Path;

use both::Both;
pub use talk::{Said, Talk};

const OPTIONS: Options = Options {
    command: "catch-up",
    switches: &["--both", "--json", "--force"],
    valued: &["--svg", "--settings", "--station", "--at", "--budget"],
};

/// What to do next where tables contradict each other, where a change doesn't fit, and where
/// what must not happen did.
const FIND_OUT: &str =
    "find out which table is wrong: a change depends on the same changes everywhere.";
const TOO_SMALL: &str = "give a budget that takes the largest change: what doesn't fit never goes.";
const KEEP: &str = "keep both tables: this must not happen, and they show how it did.";

pub fn run(words: &[OsString]) -> Result<String, Failure> {
    let args = OPTIONS.read(words)?;
    let names = OPTIONS.names(&args, "a station's table and a validator's")?;
    if names.iter().all(|name| name == files::STANDARD) {
        return Err(OPTIONS.wrong("standard input can be one of the tables, not both"));
    }
    if args.has("--json") && drawn_alone(&args) {
        return Err(OPTIONS.wrong("standard output can be the JSON or the drawing, not both"));
    }
    let choice = chosen(&args)?;
    let budget = OPTIONS.number(&args, "--budget")?;
    let [station, validator] = names.map(|name| table::read(&name));
    let (station, validator) = (station?, validator?);
    if args.has("--both") {
        let both = Both::of(&station, &validator, choice, budget)?;
        let ways = [both::json, both::lines, both::draw];
        return both::judged(&both, shown(&args, &both, ways, "exchanges")?);
    }
    let talk = Talk::of(&station, &validator, choice, budget)?;
    let ways = [json::text, lines::text, svg::draw];
    judged(&talk, shown(&args, &talk, ways, "rounds")?)
}

/// Whether the drawing is all that is shown.
fn drawn_alone(args: &Args) -> bool {
    let svg = args.value("--svg");
    svg.is_some_and(|file| file == files::STANDARD)
}

/// What is shown of a talk, of which there is JSON, lines and a drawing; the drawing is
/// written if a file is named.
fn shown<T>(
    args: &Args,
    talk: &T,
    [json, lines, draw]: [fn(&T) -> String; 3],
    what: &str,
) -> Result<String, Failure> {
    if drawn_alone(args) {
        return Ok(draw(talk));
    }
    let mut drawn = String::new();
    if let Some(file) = args.value("--svg") {
        let drawing = draw(talk);
        files::write(Path::new(file), drawing.as_bytes(), args.has("--force"))?;
        drawn = format!("The {what} are drawn in {}.\n", file.display());
    }
    Ok(match args.has("--json") {
        true => json(talk),
        false => lines(talk) + &drawn,
    })
}

/// What the station has by a settings list, at a version or at the newest; the crate's
/// choice without a list.
fn chosen(args: &Args) -> Result<Choice, Failure> {
    let number = |option: &str| OPTIONS.number_in(args, option, 0..=u32::MAX.into());
    let (station, at) = (number("--station")?, number("--at")?);
    match (args.value("--settings"), station) {
        (Some(file), Some(station)) => {
            settings::choice(file, station as u32, at.map(|at| at as u32))
        }
        (None, None) if at.is_none() => Ok(Choice::default()),
        _ => Err(OPTIONS.wrong("--settings and --station go together, and --at with both")),
    }
}

/// What is shown of a talk that ended well; of another it is shown and has failed.
fn judged(talk: &Talk, shown: String) -> Result<String, Failure> {
    if talk.ended_well() {
        return Ok(shown);
    }
    let (what, next) = match talk.contradiction() {
        Some(row) => (
            format!(
                "the tables contradict each other at row {} of the validator's",
                number(row.row)
            ),
            FIND_OUT,
        ),
        None if !talk.all_fit() => (lines::ended(talk), TOO_SMALL),
        None => (lines::ended(talk), KEEP),
    };
    Err(Failure::refused(what, next).showing(shown))
}
