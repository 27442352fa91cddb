//! The manifest of a night, a line a capture, read a line at a time.

use crate::failure::Failure;
use bisquetower::refusal::grouped;
use std::fs::File;
use std::io::{BufRead, BufReader, Error, Read};
use std::path::{Path, PathBuf};

/// Its name in the night's folder.
pub const NAME: &str = "captures.txt";

/// The longest line, in bytes: what is longer is no list of four names.
const LONGEST: u64 = 4_096;

/// What a line names. Files count from the night's folder.
#[derive(Clone, Debug, PartialEq, Eq)]
pub struct Line {
    /// From 1.
    pub number: usize,
    pub station: String,
    /// A filter or a message.
    pub file: String,
    pub sender: String,
    pub listener: String,
}

/// A line's number, and what it names or what is wrong with it.
pub type Numbered = (usize, Result<Line, String>);

pub struct Manifest {
    path: PathBuf,
    lines: BufReader<File>,
    /// The number of the line that was read last.
    number: usize,
    /// How many bytes were read, of how many.
    read: u64,
    length: u64,
}

impl Manifest {
    pub fn open(folder: &Path) -> Result<Manifest, Failure> {
        let path = folder.join(NAME);
        let opened = File::open(&path).and_then(|file| {
            let length = file.metadata()?.len();
            Ok((file, length))
        });
        let (file, length) = opened.map_err(|error| unread(&path, &error))?;
        Ok(Manifest {
            path,
            lines: BufReader::new(file),
            number: 0,
            read: 0,
            length,
        })
    }

    /// How far it is read.
    pub fn percent(&self) -> u64 {
        100 * self.read / self.length.max(1)
    }

    /// The next lines that name a capture, or should, at most so many; none at its end.
    pub fn next_lines(&mut self, most: usize) -> Result<Vec<Numbered>, Failure> {
        let mut lines = Vec::new();
        while lines.len() < most {
            let Some(bytes) = self.next_bytes()? else {
                break;
            };
            let found = match bytes.len() as u64 > LONGEST {
                true => Err(format!("it is longer than {} bytes", grouped(LONGEST))),
                false => match std::str::from_utf8(&bytes) {
                    Err(_) => Err("it isn't text".to_string()),
                    Ok(text) if !names(text) => continue,
                    Ok(text) => line(self.number, text),
                },
            };
            lines.push((self.number, found));
        }
        Ok(lines)
    }

    /// The bytes of the next line without its end; of one that is too long its first.
    fn next_bytes(&mut self) -> Result<Option<Vec<u8>>, Failure> {
        let mut bytes = Vec::new();
        let mut read = || {
            let mut first = self.lines.by_ref().take(LONGEST + 1);
            let mut length = first.read_until(b'\n', &mut bytes)?;
            if bytes.last() == Some(&b'\n') {
                bytes.pop();
            } else if bytes.len() as u64 > LONGEST {
                length += self.lines.skip_until(b'\n')?;
            }
            Ok(length)
        };
        let length = read().map_err(|error| unread(&self.path, &error))?;
        self.read += length as u64;
        self.number += 1;
        Ok((length > 0).then_some(bytes))
    }
}

fn unread(path: &Path, error: &Error) -> Failure {
    Failure::file(
        format!("{} can't be read: {error}", path.display()),
        format!("name a folder with a {NAME}; `bisquetower sample --night FOLDER` makes one."),
    )
}

/// Whether a line names a capture: blank ones and remarks don't.
fn names(text: &str) -> bool {
    let text = text.trim();
    !text.is_empty() && !text.starts_with('#')
}

fn line(number: usize, text: &str) -> Result<Line, String> {
    let words = words(text)?;
    let count = words.len();
    let [station, file, sender, listener] = words.try_into().map_err(|_| {
        format!("a station, a filter or message, the sender's table and the listener's are wanted, not {count} names")
    })?;
    Ok(Line {
        number,
        station,
        file,
        sender,
        listener,
    })
}

/// The words of a line: blanks part them, unless they stand in double quotes.
fn words(text: &str) -> Result<Vec<String>, String> {
    let mut words = Vec::new();
    let mut left = text.trim();
    while !left.is_empty() {
        let (word, after) = match left.strip_prefix('"') {
            Some(quoted) => quoted
                .split_once('"')
                .ok_or("a double quote isn't closed")?,
            None => left.split_at(left.find(char::is_whitespace).unwrap_or(left.len())),
        };
        if after.starts_with(|next: char| !next.is_whitespace()) {
            return Err("a blank is wanted behind the double quotes of a name".to_string());
        }
        words.push(word.to_string());
        left = after.trim_start();
    }
    Ok(words)
}
