//! Help, a screen at the most for each command.

use crate::failure::Failure;
use crate::sample::{CAPTURES, LACKING, NEWS, ROWS};
use bisquetower::limits::{DEPENDENCIES, OLD_DEPENDENCIES, OLD_ROWS, OLD_ROW_SIZE};
use bisquetower::refusal::grouped;
use bisquetower::Table;
use std::ffi::OsString;

const ALL: &str = "\
bisquetower: messages, tables and catch-ups, through the proved sync library

  inspect FILE                what a message, state, filter, table or list holds
  table FILE                  rows, heads, widest, deepest, first bad row
  catch-up STATION VALIDATOR  two units talk until both hold the same rows
  convert IN OUT              a table in rows of before, in rows of now; or back
  salvage IN OUT              what is good of a hurt table, and what isn't
  settings FILE               what stations chose for their filters, and when
  count NIGHT                 what captured filters did: the night's false yeses
  sample DIR                  tables and captures to try it on
  compare                     the library beside the crate's own code

`bisquetower COMMAND --help` says what a command takes.

A FILE that is - is standard input. Nothing is written over without --force.
Colours are for terminals, and never used if NO_COLOR is set.

Exit status: 0 done; 1 the library refused, tables or answers contradict each
other, or what a file holds is doubtful; 2 wrong words, or a file or output that
can't be read or written.
";

const INSPECT: &str = "\
bisquetower inspect FILE [--as KIND] [--heads] [--full]

Shows what a file holds, in columns. What is refused is shown with its number,
what it means, and the bytes around the place that it names.

  --as KIND   message, state, filter, table, settings or waiting (a table of
              changes that wait). Without it the end of the file's name says
              (x.message and so on), else the bytes: the first kind that takes
              all of them, of which waiting is none, else the first that takes
              some. That is a guess: if it ignores more than half of the bytes,
              the status is 1.
  --heads     of a message the version and the heads alone; what follows them
              isn't looked at, and may be bad
  --full      hashes whole and all of them
";

const TABLE: &str = "\
bisquetower table FILE [--full]

Checks a change table and shows its rows and heads, the first row that depends
on most rows (widest), the first with the longest way down (deepest), and the
first bad row, with the rule that it broke. Of a bad table the rows before that
one are shown; `bisquetower salvage` keeps what is good behind it too.

  --full      hashes whole and all of them
";

fn table() -> String {
    let row = grouped(Table::ROW as u64);
    format!(
        "\
{TABLE}
A row is {row} bytes: a hash; how many rows it depends on (two bytes,
little-endian, at most {DEPENDENCIES}); {DEPENDENCIES} such row numbers, ascending and less than
its own, the others 0.
"
    )
}

const CATCH_UP: &str = "\
bisquetower catch-up STATION VALIDATOR [--both] [--json] [--svg FILE [--force]]
                     [--settings FILE --station N [--at V]] [--budget BYTES]

Two units with these change tables talk through the proved sessions, the
validator first, until both are silent. A line a round: rows that the validator
held before it, asked for and was sent, false yeses of its filter among the rows
that it lacked, rows that wait after it, and bytes both ways. A validator of the
station's rows that misses m holds all of them after at most m + 1 rounds, where
replies go by list: only of such a talk \"proved\" is said.

  --both      both ends have news: a line an exchange, of what each held, asked
              for and sent, of what waits there, and of its bytes. If they lack
              j and k rows, both hold all after at most max(j, k) + 1 exchanges
  --json      the same as JSON
  --svg FILE  draws it: rows taken, waiting, sent and still missing; the drawing
              is all that is shown if FILE is -
  --settings FILE  filters as station N has them in a settings list, at version
              V or the newest. A read-only one takes no changes: of that nothing
              is proved, and --both refuses it
  --budget BYTES  what changes may take of a message; what is left goes later

Changes go as their names and dependencies, without contents.
Exit status: 1 if the tables contradict each other (the row is named), or an end
doesn't hold the rows of both in the end.
";

fn convert() -> String {
    let (now, before) = (grouped(Table::ROW as u64), grouped(OLD_ROW_SIZE as u64));
    let (rows, most) = (grouped(OLD_ROWS as u64), grouped(OLD_DEPENDENCIES as u64));
    format!(
        "\
bisquetower convert IN OUT [--to-old] [--force]

Reads a change table with rows of {before} bytes, as they were before, and writes the
same rows with {now} bytes each. Nothing but their width changes: there and back
is the same bytes, and the same index fits.

  --to-old    the other way, for a unit of before: it can't have more than
              {rows} rows, nor one that depends on more than {most}
  --force     write over OUT

The other commands read rows of before as they are.
"
    )
}

fn salvage() -> String {
    let before = grouped(OLD_ROW_SIZE as u64);
    format!(
        "\
bisquetower salvage IN OUT [--old] [--report FILE] [--json] [--force]

Writes the good rows of a hurt change table: those whose count, row numbers and
zeros are right, whose hash no earlier kept row has, and which depend on kept
rows alone. They stay in order, and row numbers are adjusted. A line for each
row that is dropped has the first rule that it broke, with the bytes that did
and their place in IN; then what was kept and dropped is counted. A unit goes on
with OUT and catches up: its station sends what is missing. What was hurt and
keeps these rules nevertheless, as a hash may, isn't seen.

  --old          IN has rows of before, however hurt it is
  --report FILE  the lines go to FILE
  --json         the rows that are dropped, and the counts, as JSON
  --force        write over OUT and FILE; IN is never written over

A table with rows of before ({before} bytes) is widened first, hurt or not. It is
taken for one if more of its first rows are good so than in rows of now, and in
rows of now none would be kept. A row that counts more than there was room for
then is told for its row numbers.
"
    )
}

const SETTINGS: &str = "\
bisquetower settings FILE [--history N | --station N [--at V | --set WHAT]]
bisquetower settings [FILE] --svg OUT [--force]

Shows a settings list: from which version on a station has how many bits per
entry and probes, whether it is read-only, and how often its filter is expected
to take a change for held that isn't in it (false yes). Of a bad list the
records before the first bad one are shown.

  --history N  the records of station N
  --station N  what station N has, at version V or the newest
  --set WHAT   append a record for station N, as bits=12,probes=8,read-only=on;
               what isn't named stays as it is. FILE is made if it isn't there
  --svg OUT    draws false yeses and bytes by bits and probes, and what stations
               of FILE have; the drawing is all that is shown if OUT is -
  --rows N     of filters over N rows; 1,024 if not told
  --json       the same as JSON
";

const COUNT: &str = "\
bisquetower count NIGHT [--json | --csv] [--svg FILE [--force]] [--threads N]

Counts what captured filters did. NIGHT is a folder with a captures.txt, a line
a capture: station, filter or message, the sender's table and the listener's.
Blanks part these, a name with blanks stands in double quotes, and files count
from NIGHT; lines that are empty or begin with # are skipped. A file is a filter
or a message as its name ends (.filter, .message); another is a message if it
can be read as one, else a filter. Each have of a message is a capture.

A row of the listener's table that isn't in the sender's is tested; it is a
false yes if the filter contains it. A line a station: captures, refused ones,
entries of the filters, bits of their fields, those set, and rows contained of
those tested. What is refused or can't be read is named and adds to nothing.

  --json       an object a line: of each capture, then each station, then all
  --csv        a row a capture
  --svg FILE   draws the share of each station beside what its bits and probes
               would have; the drawing is all that is shown if FILE is -
  --threads N  N lines at a time; as many as there are cores if not told
";

fn sample() -> String {
    let rows = grouped(ROWS as u64);
    let captures = grouped(CAPTURES);
    format!(
        "\
bisquetower sample DIR [--force]
bisquetower sample --both DIR [--force]
bisquetower sample --night DIR [--captures N] [--seed N] [--force]

Writes files to try the other commands on: a station's table of {rows} rows and
that of a validator {LACKING} rows short, each message of their catch-up, what waited,
both saved states, a filter, a settings list, and damaged ones.

  --both DIR    two tables instead, for `catch-up --both`: that of the validator
                has {NEWS} rows which the station lacks
  --night DIR   a night's captures at five stations instead, for `count`
  --captures N  how many; {captures} if not told
  --seed N      the tables and filters of this seed
  --force       write over files that are there
"
    )
}

const COMPARE: &str = "\
bisquetower compare [KIND ..] [--seconds N | --rounds N] [--seed N]

Holds the library's answers against those of automerge's own sync code and of
the rules in plain Rust, over random inputs, some of them damaged. At the end a
row for each kind: inputs, those to which docs/DIFFERENCES.md says that answers
stand apart, and differences, the smallest of which is shown.

  KIND         a name of the table's first column, in quotes; all if none
  --seconds N  how long it takes, 1 at least; 120 if not told
  --rounds N   N rounds of each kind instead, 1 at least
  --seed N     the inputs of this seed; others each time if not told
";

/// The help of the command that is named, or of all.
pub fn run(words: &[OsString]) -> Result<String, Failure> {
    let command = words.first().map(|word| word.to_string_lossy());
    let text = match command.as_deref() {
        None | Some("help" | "--help" | "-h") => ALL.to_string(),
        Some("inspect") => INSPECT.to_string(),
        Some("table") => table(),
        Some("catch-up") => CATCH_UP.to_string(),
        Some("convert") => convert(),
        Some("salvage") => salvage(),
        Some("settings") => SETTINGS.to_string(),
        Some("count") => COUNT.to_string(),
        Some("sample") => sample(),
        Some("compare") => COMPARE.to_string(),
        Some(other) => return Err(Failure::usage(format!("there is no command {other}"), "")),
    };
    Ok(text)
}
