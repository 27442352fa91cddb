//! Files that are read, up to what the library looks at, and files that are written.

use crate::failure::Failure;
use bisquetower::limits::{MESSAGE_SIZE, TABLE_SIZE, WAITING_SIZE};
use std::ffi::{OsStr, OsString};
use std::fs::{self, File, OpenOptions};
use std::io::{Error, ErrorKind, Read, Write};
use std::path::Path;

/// The name of standard input, and of standard output.
pub const STANDARD: &str = "-";

/// One byte more than the longest message or table: a file that goes on is refused or
/// ignored just as these bytes are.
pub fn most() -> u64 {
    MESSAGE_SIZE.max(TABLE_SIZE).max(WAITING_SIZE) as u64 + 1
}

/// The first bytes of a file, or of standard input for `-`.
pub fn read(name: &OsStr) -> Result<Vec<u8>, Failure> {
    read_on(name, |_| false)
}

/// The first bytes of a file, as many as any that is read has.
pub fn first_bytes(path: &Path) -> Result<Vec<u8>, Error> {
    let mut bytes = Vec::new();
    File::open(path)?.take(most()).read_to_end(&mut bytes)?;
    Ok(bytes)
}

/// The first bytes of a file, or of standard input for `-`, and where there are more all of
/// it, if the first ones are worth that.
pub fn read_on(name: &OsStr, worth: impl FnOnce(&[u8]) -> bool) -> Result<Vec<u8>, Failure> {
    let read = || {
        let mut file: Box<dyn Read> = match name == STANDARD {
            true => Box::new(std::io::stdin()),
            false => Box::new(File::open(name)?),
        };
        let mut bytes = Vec::new();
        file.by_ref().take(most()).read_to_end(&mut bytes)?;
        if bytes.len() as u64 == most() && worth(&bytes) {
            file.read_to_end(&mut bytes)?;
        }
        Ok(bytes)
    };
    read().map_err(|error: Error| {
        let next = match error.kind() {
            ErrorKind::NotFound => {
                "name a file that is there; `bisquetower sample DIR` makes some."
            }
            ErrorKind::PermissionDenied => "give yourself the right to read it.",
            _ => "name a file that holds bytes, or - for standard input.",
        };
        Failure::file(format!("{} can't be read: {error}", name.display()), next)
    })
}

/// Writes a file; one that is there stays unless `force` is set.
pub fn write(path: &Path, bytes: &[u8], force: bool) -> Result<(), Failure> {
    let mut options = OpenOptions::new();
    options.write(true);
    match force {
        true => options.create(true).truncate(true),
        false => options.create_new(true),
    };
    let done = options
        .open(path)
        .and_then(|mut file| file.write_all(bytes));
    done.map_err(|error| match error.kind() {
        ErrorKind::AlreadyExists => there(path),
        _ => unwritten(path, &error),
    })
}

/// What `write` would say of a file that is there, before there is anything to write.
pub fn may_write(path: &Path, force: bool) -> Result<(), Failure> {
    match path.exists() && !force {
        true => Err(there(path)),
        false => Ok(()),
    }
}

fn there(path: &Path) -> Failure {
    Failure::file(
        format!("{} is there already", path.display()),
        "name another, or write over it with --force.",
    )
}

/// Writes a file anew, at once: whoever reads it finds what was there before or all that is
/// written.
pub fn replace(path: &Path, bytes: &[u8]) -> Result<(), Failure> {
    // What a link leads to is written anew, and the link stays.
    let path = &fs::canonicalize(path).unwrap_or(path.to_path_buf());
    let there = fs::metadata(path).ok();
    if there.as_ref().is_some_and(|there| !there.is_file()) {
        return Err(Failure::file(
            format!("{} isn't a file", path.display()),
            "name one that can be written anew.",
        ));
    }
    let mut name = OsString::from(".");
    name.push(path.file_name().unwrap_or_default());
    name.push(format!(".{}", std::process::id()));
    let beside = path.with_file_name(name);
    let write = || {
        let mut file = File::create_new(&beside)?;
        file.write_all(bytes)?;
        if let Some(there) = there {
            file.set_permissions(there.permissions())?;
        }
        file.sync_all()?;
        fs::rename(&beside, path)
    };
    write().map_err(|error: Error| {
        let _ = fs::remove_file(&beside);
        unwritten(path, &error)
    })
}

/// Makes a folder, unless it is there.
pub fn make_folder(path: &Path) -> Result<(), Failure> {
    fs::create_dir_all(path).map_err(|error| unwritten(path, &error))
}

fn unwritten(path: &Path, error: &Error) -> Failure {
    let next = match error.kind() {
        ErrorKind::StorageFull => "make room where it stands: what was written isn't whole.",
        _ => "name a folder that is there and that you may write to.",
    };
    Failure::file(
        format!("{} can't be written: {error}", path.display()),
        next,
    )
}
