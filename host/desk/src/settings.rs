//! `settings`: what stations chose for their filters, asked for, appended and drawn.

mod chosen;
mod json;
mod lines;
mod svg;

use crate::args::{Args, Options};
use crate::failure::Failure;
use crate::files;
use crate::inspect::{self, Kind};
use bisquetower::limits::{BITS, PROBES, ROWS};
use bisquetower::{Choice, Setting, Settings};
use chosen::Change;
use std::ffi::{OsStr, OsString};
use std::path::Path;

const OPTIONS: Options = Options {
    command: "settings",
    switches: &["--json", "--force"],
    valued: &["--station", "--at", "--history", "--set", "--svg", "--rows"],
};

/// How many rows a filter is over if that isn't told.
const USUAL_ROWS: usize = 1_024;

/// The refusal of a list, with its first bad record.
const BAD_SETTINGS: u64 = 14;

/// What is wanted of a list.
enum Wanted {
    /// All of it.
    All,
    /// The records of a station.
    History(u32),
    /// What a station has, at a version or at the newest.
    At(u32, Option<u32>),
    /// A record more.
    Append(u32, Change),
}

/// Records in their order, of all stations or of one, and how many the list has.
struct Shown<'a> {
    records: Vec<Setting>,
    station: Option<u32>,
    list: &'a Settings,
    rows: usize,
}

/// What a station has at a version.
struct Answer {
    station: u32,
    version: u32,
    newest: bool,
    choice: Choice,
    /// The version of the record that says so; none where the crate's choice holds.
    record: Option<u32>,
    rows: usize,
}

pub fn run(words: &[OsString]) -> Result<String, Failure> {
    let args = OPTIONS.read(words)?;
    let wanted = wanted(&args)?;
    let rows = OPTIONS.number_in(&args, "--rows", 1..=ROWS as u64)?;
    let rows = rows.map_or(USUAL_ROWS, |rows| rows as usize);
    if let Some(out) = args.value("--svg") {
        return draw(&args, &wanted, out, rows);
    }
    let [file] = OPTIONS.names(&args, "one file")?;
    let json = args.has("--json");
    match wanted {
        Wanted::All => show(&file, None, rows, json),
        Wanted::History(station) => show(&file, Some(station), rows, json),
        Wanted::At(station, version) => {
            let list = read(&file)?;
            let answer = answer(&list, station, version, rows);
            Ok(match json {
                true => json::answer(&answer),
                false => lines::answer(&answer),
            })
        }
        Wanted::Append(station, change) => append(&file, station, change, rows, json),
    }
}

fn wanted(args: &Args) -> Result<Wanted, Failure> {
    let number = |option: &str| {
        let number = OPTIONS.number_in(args, option, 0..=u32::MAX.into())?;
        Ok(number.map(|number| number as u32))
    };
    let (station, at, history) = (number("--station")?, number("--at")?, number("--history")?);
    let set = args.value("--set").map(Change::read).transpose();
    let set = set.map_err(|what| OPTIONS.wrong(what))?;
    match (station, at, history, set) {
        (None, None, None, None) => Ok(Wanted::All),
        (None, None, Some(station), None) => Ok(Wanted::History(station)),
        (Some(station), at, None, None) => Ok(Wanted::At(station, at)),
        (Some(station), None, None, Some(change)) => Ok(Wanted::Append(station, change)),
        (None, _, None, _) => Err(OPTIONS.wrong("--at and --set want a --station")),
        (_, _, Some(_), _) => Err(OPTIONS.wrong("--history goes with no other question")),
        (_, Some(_), _, Some(_)) => Err(OPTIONS.wrong("--at and --set don't go together")),
    }
}

/// What a list gives a station, at a version or at the newest.
pub fn choice(file: &OsStr, station: u32, version: Option<u32>) -> Result<Choice, Failure> {
    let list = read(file)?;
    Ok(list.at(station, version.unwrap_or(list.version())))
}

/// A list's bytes, however many.
pub fn read_bytes(file: &OsStr) -> Result<Vec<u8>, Failure> {
    files::read_on(file, |first| {
        let whole = first.len() / Settings::RECORD * Settings::RECORD;
        Settings::parse(&first[..whole]).is_ok()
    })
}

/// A list's file that has to be good.
fn read(file: &OsStr) -> Result<Settings, Failure> {
    let bytes = read_bytes(file)?;
    let list = Settings::parse(&bytes[..]);
    list.map_err(|refusal| inspect::refused(file, Kind::Settings, &bytes, refusal))
}

fn shown(list: &Settings, station: Option<u32>, rows: usize) -> Shown<'_> {
    let own = |one: &Setting| station.is_none_or(|station| one.station == station);
    Shown {
        records: list.records().filter(own).collect(),
        station,
        list,
        rows,
    }
}

fn show(file: &OsStr, station: Option<u32>, rows: usize, json: bool) -> Result<String, Failure> {
    let bytes = read_bytes(file)?;
    let name = file.display();
    let refusal = match Settings::parse(&bytes[..]) {
        Ok(list) => {
            let shown = shown(&list, station, rows);
            return Ok(match json {
                true => json::records(&shown),
                false => format!("{name}: {}", lines::records(&shown)),
            });
        }
        Err(refusal) => refusal,
    };
    let failure = inspect::refused(file, Kind::Settings, &bytes, refusal);
    if json || refusal.number != BAD_SETTINGS {
        return Err(failure);
    }
    // The records before the first bad one are a list.
    let before = &bytes[..Settings::RECORD * refusal.value as usize];
    let before = Settings::parse(before).expect("records before the first bad one are good");
    let shown = lines::before_bad(&shown(&before, station, rows));
    Err(failure.showing(format!("{name}: {shown}")))
}

fn answer(list: &Settings, station: u32, version: Option<u32>, rows: usize) -> Answer {
    let newest = version.is_none();
    let version = version.unwrap_or(list.version());
    let mut own = list.records().rev();
    let record = own.find(|one| one.station == station && one.version <= version);
    Answer {
        station,
        version,
        newest,
        choice: list.at(station, version),
        record: record.map(|record| record.version),
        rows,
    }
}

/// Writes the list anew with a record more. What isn't told stays as the station has it.
fn append(
    file: &OsStr,
    station: u32,
    change: Change,
    rows: usize,
    json: bool,
) -> Result<String, Failure> {
    if file == files::STANDARD {
        return Err(OPTIONS.wrong("--set wants a file that can be written"));
    }
    let path = Path::new(file);
    let mut list = match path.exists() {
        true => read(file)?,
        false => Settings::new(),
    };
    let choice = change.of(list.latest(station));
    let version = list.append(station, choice).map_err(|refusal| {
        let next = match list.version() {
            u32::MAX => "begin a new list: this one has had every version.".to_string(),
            _ => format!("choose 1 to {BITS} bits and 1 to {PROBES} probes."),
        };
        let file = file.display();
        Failure::refused(format!("{file} stays as it was: {refusal}"), next)
    })?;
    files::replace(path, list.as_bytes())?;
    let setting = Setting {
        version,
        station,
        choice,
    };
    Ok(match json {
        true => json::appended(&setting, rows),
        false => format!("{}: {}", file.display(), lines::appended(&setting, rows)),
    })
}

/// The drawing, with what the stations of a list have, if one is named; and that list.
fn draw(args: &Args, wanted: &Wanted, out: &OsStr, rows: usize) -> Result<String, Failure> {
    if !matches!(wanted, Wanted::All) {
        return Err(OPTIONS.wrong("--svg goes with no other question"));
    }
    let (json, alone) = (args.has("--json"), out == files::STANDARD);
    if json && (alone || args.names.is_empty()) {
        return Err(OPTIONS.wrong("there is JSON of a list, and none of the drawing"));
    }
    let list = match args.names.is_empty() {
        true => None,
        false => {
            let [file] = OPTIONS.names(args, "one file, or none,")?;
            Some((read(&file)?, file))
        }
    };
    let drawing = svg::draw(list.as_ref().map(|(list, _)| list), rows);
    if alone {
        return Ok(drawing);
    }
    files::write(Path::new(out), drawing.as_bytes(), args.has("--force"))?;
    let drawn = format!("The choice is drawn in {}.\n", out.display());
    let Some((list, file)) = list else {
        return Ok(drawn);
    };
    let shown = shown(&list, None, rows);
    Ok(match json {
        true => json::records(&shown),
        false => format!("{}: {}{drawn}", file.display(), lines::records(&shown)),
    })
}
