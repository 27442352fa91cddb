//! `sample`: tables and captures to try the other commands on.

mod night;
mod tables;

pub use night::CAPTURES;
pub use tables::{LACKING, NEWS, ROWS};

use crate::args::Options;
use crate::catch_up::{Said, Talk};
use crate::failure::Failure;
use crate::files;
use crate::text::count;
use bisquetower::{Choice, Filter, Refusal, Settings, Table};
use std::ffi::{OsStr, OsString};
use std::path::Path;

const OPTIONS: Options = Options {
    command: "sample",
    switches: &["--force"],
    valued: &["--night", "--both", "--captures", "--seed"],
};

/// The most captures that a night may have.
const MOST_CAPTURES: u64 = 100_000;

pub fn run(words: &[OsString]) -> Result<String, Failure> {
    let args = OPTIONS.read(words)?;
    let captures = OPTIONS.number_in(&args, "--captures", 1..=MOST_CAPTURES)?;
    let seed = OPTIONS.number(&args, "--seed")?;
    let force = args.has("--force");
    if let Some(folder) = args.value("--night") {
        let [] = OPTIONS.names(&args, "no folder but the night's")?;
        let (captures, seed) = (captures.unwrap_or(CAPTURES), seed.unwrap_or(night::SEED));
        let all = night::files(captures, seed)?;
        write(folder, &all, force)?;
        return Ok(night_told(folder, captures, all.len()));
    }
    if captures.is_some() || seed.is_some() {
        return Err(OPTIONS.wrong("--captures and --seed want a --night"));
    }
    if let Some(folder) = args.value("--both") {
        let [] = OPTIONS.names(&args, "no folder but that of --both")?;
        let all = both()?;
        write(folder, &all, force)?;
        return Ok(both_told(folder));
    }
    let [folder] = OPTIONS.names(&args, "one folder")?;
    let all = samples()?;
    write(&folder, &all, force)?;
    Ok(told(&folder, all.len()))
}

/// Writes files into a folder: where one is there, none.
fn write(folder: &OsStr, all: &[(String, Vec<u8>)], force: bool) -> Result<(), Failure> {
    let paths = all.iter().map(|(name, _)| Path::new(folder).join(name));
    let paths: Vec<_> = paths.collect();
    if let Some(there) = paths.iter().find(|path| path.exists() && !force) {
        return Err(Failure::file(
            format!("{} is there already", there.display()),
            "name another folder, or write over its files with --force.",
        ));
    }
    files::make_folder(Path::new(folder))?;
    for (path, (_, bytes)) in paths.iter().zip(all) {
        files::write(path, bytes, force)?;
    }
    Ok(())
}

fn night_told(folder: &OsStr, captures: u64, files: usize) -> String {
    let captures = count(captures as usize, "capture");
    let (files, at) = (count(files, "file"), Path::new(folder).display());
    format!("{captures} in {files} in {at}. To count them:\n  bisquetower count {at}\n")
}

fn both_told(folder: &OsStr) -> String {
    let at = Path::new(folder).display();
    format!(
        "2 files in {at}. To see both ends catch up:\n  \
         bisquetower catch-up --both {at}/station.table {at}/validator.table\n"
    )
}

fn told(folder: &OsStr, files: usize) -> String {
    let (files, at) = (count(files, "file"), Path::new(folder).display());
    let look = "bisquetower inspect";
    format!(
        "{files} in {at}. To look at them:\n  \
         bisquetower table {at}/station.table\n  \
         bisquetower catch-up {at}/station.table {at}/validator.table\n  \
         bisquetower settings {at}/stations.settings\n  \
         {look} {at}/2-station.message\n  \
         {look} {at}/cut.message\n"
    )
}

/// Two tables with news at both ends.
fn both() -> Result<[(String, Vec<u8>); 2], Failure> {
    let (station, validator) = tables::both()?;
    let named = |(name, table): (&str, Table)| (name.to_string(), table.as_bytes().to_vec());
    Ok([("station.table", station), ("validator.table", validator)].map(named))
}

/// Names and bytes: good ones, then damaged ones.
fn samples() -> Result<Vec<(String, Vec<u8>)>, Failure> {
    let (station, validator) = tables::sample()?;
    let talk = Talk::of(&station, &validator, Choice::default(), None)?;
    let filter = Filter::from_hashes(validator.hashes()).map_err(tables::refused)?;
    let [station_state, validator_state] = talk.states;
    let mut samples = vec![
        ("station.table".to_string(), station.as_bytes().to_vec()),
        ("validator.table".to_string(), validator.as_bytes().to_vec()),
        ("station.state".to_string(), station_state),
        ("validator.state".to_string(), validator_state),
        ("validator.filter".to_string(), filter.to_bytes()),
        ("validator.waiting".to_string(), talk.waiting),
    ];
    let settings = settings().map_err(tables::refused)?;
    samples.push((
        "stations.settings".to_string(),
        settings.as_bytes().to_vec(),
    ));
    let first = talk.messages[0].bytes.clone();
    for (k, Said { by_station, bytes }) in talk.messages.into_iter().enumerate() {
        let who = if by_station { "station" } else { "validator" };
        samples.push((format!("{}-{who}.message", k + 1), bytes));
    }
    samples.extend(damaged(first, station.as_bytes().to_vec(), settings));
    Ok(samples)
}

/// Underground stations 7 and 8 that want fewer false yeses, and tram 21, which wants shorter
/// messages and takes no changes from version 4 on.
fn settings() -> Result<Settings, Refusal> {
    let mut settings = Settings::new();
    for (station, bits, probes, read_only) in [
        (7, 12, 8, false),
        (21, 6, 4, false),
        (8, 12, 8, false),
        (21, 6, 4, true),
        (7, 16, 11, false),
    ] {
        let choice = Choice {
            bits,
            probes,
            read_only,
        };
        settings.append(station, choice)?;
    }
    Ok(settings)
}

fn damaged(message: Vec<u8>, table: Vec<u8>, settings: Settings) -> [(String, Vec<u8>); 6] {
    let cut_message = message[..message.len() / 2].to_vec();
    let cut_table = table[..table.len() - Table::ROW / 2].to_vec();
    // Row 700 is the row before it again.
    let mut bad_table = table;
    bad_table.copy_within(Table::ROW * 699..Table::ROW * 700, Table::ROW * 700);
    // Record 3 has the version of the one before it.
    let mut bad_settings = settings.as_bytes().to_vec();
    bad_settings[Settings::RECORD * 3] = 3;
    [
        ("cut.message", cut_message),
        ("long-number.message", vec![0x42, 0x80, 0x00]),
        ("no-bits.filter", vec![0x01, 0x00, 0x07]),
        ("bad-row.table", bad_table),
        ("cut.table", cut_table),
        ("bad-record.settings", bad_settings),
    ]
    .map(|(name, bytes)| (name.to_string(), bytes))
}
