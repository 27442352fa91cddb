//! `inspect`: what a file holds, in columns, or why it is refused and where.

mod kind;
mod shown;

use crate::args::{Args, Options};
use crate::failure::Failure;
use crate::text::{count, number};
use crate::{files, hex, settings};
use bisquetower::{Message, Refusal};
pub use kind::Kind;
use kind::NAMES;
use std::ffi::{OsStr, OsString};

const OPTIONS: Options = Options {
    command: "inspect",
    switches: &["--full", "--heads"],
    valued: &["--as"],
};

pub fn run(words: &[OsString]) -> Result<String, Failure> {
    let args = OPTIONS.read(words)?;
    let [file] = OPTIONS.names(&args, "one file")?;
    if args.has("--heads") {
        return heads(&file, &args);
    }
    let named = match args.value("--as") {
        Some(name) => Some(Kind::named(name).ok_or_else(|| {
            let name = name.display();
            OPTIONS.wrong(format!("{name} is no kind: {NAMES}"))
        })?),
        None => Kind::of_file(&file),
    };
    let bytes = match named {
        Some(Kind::Settings) => settings::read_bytes(&file)?,
        _ => files::read(&file)?,
    };
    let kind = named.unwrap_or_else(|| Kind::guess(&bytes));
    let shown = kind.show(&bytes, args.has("--full"));
    let shown = shown.map_err(|refusal| refused(&file, kind, &bytes, refusal))?;
    let shown = format!("{}: {shown}", file.display());
    match named {
        Some(_) => Ok(shown),
        None => guessed(&file, kind, &bytes, shown),
    }
}

/// What is shown of a kind that was guessed: with what else the bytes may be, and as a
/// failure if most of them are ignored.
fn guessed(file: &OsStr, kind: Kind, bytes: &[u8], shown: String) -> Result<String, Failure> {
    let shown = shown + &kind.hint(bytes);
    let ignored = kind.ignored(bytes);
    if ignored <= bytes.len() / 2 {
        return Ok(shown);
    }
    let many = match bytes.len() as u64 == files::most() {
        true => "most of its bytes".to_string(),
        false => format!("{} of its {}", number(ignored), count(bytes.len(), "byte")),
    };
    let file = file.display();
    Err(Failure::refused(
        format!("{file} was taken for a {kind}, which is doubtful: {many} are ignored"),
        format!("say what it is with --as {NAMES}."),
    )
    .showing(shown))
}

/// The version and the heads alone, of a message that may be bad further on.
fn heads(file: &OsStr, args: &Args) -> Result<String, Failure> {
    if args.value("--as").is_some_and(|kind| kind != "message") {
        return Err(OPTIONS.wrong("only a message has heads"));
    }
    let bytes = files::read(file)?;
    let peeked = Message::peek_heads(&bytes);
    let peeked = peeked.map_err(|refusal| refused(file, Kind::Message, &bytes, refusal))?;
    let shown = shown::heads(peeked.0, &peeked.1, args.has("--full"));
    Ok(format!("{}: {shown}", file.display()))
}

/// The refusal, and the bytes at its place.
pub fn refused(file: &OsStr, kind: Kind, bytes: &[u8], refusal: Refusal) -> Failure {
    let file = file.display();
    let mut what = format!("{file}, read as a {kind}: {refusal}\n");
    if let Some(place) = kind.place(refusal) {
        what += &hex::view(bytes, place);
    }
    Failure::refused(what.trim_end(), kind.advice(refusal))
}
