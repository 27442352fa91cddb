//! What a message, a saved state, a filter, a table and a settings list hold, in columns.

use crate::files::most;
use crate::paint::Paint;
use crate::rows::Rows;
use crate::text::{count, hashes, number, Columns};
use bisquetower::{ChangeHash, Filter, Have, Message, MessageFlags, MessageVersion};
use bisquetower::{SavedState, Settings, Table, Waiting};
use std::collections::BTreeSet;

fn told_version(version: MessageVersion) -> u64 {
    match version {
        MessageVersion::V1 => 1,
        MessageVersion::V2 => 2,
    }
}

/// What a message brings, of which no more was read.
pub fn heads(version: MessageVersion, list: &[ChangeHash], full: bool) -> String {
    let mut columns = Columns::default();
    columns.rows("heads", &number(list.len()), &hashes(list, full));
    let version = told_version(version);
    let title = format!("the heads of a message of version {version}, which is read no further");
    format!("{}\n{columns}", Paint::of_output().bold(&title))
}

pub fn message(message: &Message, ignored: &[u64], length: usize, full: bool) -> String {
    let version = told_version(message.version);
    let mut columns = Columns::default();
    let n = |list: usize| number(list);
    let Message {
        heads,
        need,
        have,
        changes,
        flags,
        ..
    } = message;
    columns.rows("heads", &n(heads.len()), &hashes(heads, full));
    columns.rows("need", &n(need.len()), &hashes(need, full));
    let haves = have.iter().zip(ignored).map(told_have);
    let haves: Vec<String> = haves.collect();
    columns.rows("haves", &n(have.len()), &haves);
    let bytes = changes.iter().map(Vec::len).sum();
    let chunks = match changes.len() {
        0 => String::new(),
        _ => format!("{} together", count(bytes, "byte")),
    };
    columns.row("chunks", &n(changes.len()), &chunks);
    let (bits, flags) = told_flags(*flags);
    columns.row("flags", &bits, &flags);
    let title = format!("a message of version {version}, {}", count(length, "byte"));
    format!("{}\n{columns}", Paint::of_output().bold(&title))
}

fn told_have((have, &ignored): (&Have, &u64)) -> String {
    let Have { last_sync, bloom } = have;
    let synced = count(last_sync.len(), "last-sync hash");
    let behind = match ignored {
        0 => String::new(),
        _ => format!(
            "; {} behind the filter's field",
            count(ignored as usize, "byte")
        ),
    };
    format!("{synced}; filter: {}{behind}", told_filter(bloom))
}

fn told_flags(flags: Option<MessageFlags>) -> (String, String) {
    let Some(flags) = flags else {
        return ("-".to_string(), "no section".to_string());
    };
    let names = [
        (MessageFlags::SYNC_RESET, "asks for a reset"),
        (MessageFlags::READ_ONLY, "takes no changes"),
        (MessageFlags::SUPPORTS_SYNC_RESET, "understands resets"),
    ];
    let set = names.iter().filter(|(flag, _)| flags.contains(*flag));
    let set: Vec<&str> = set.map(|(_, name)| *name).collect();
    (flags.bits().to_string(), set.join(", "))
}

pub fn state(state: &SavedState, length: usize, full: bool) -> String {
    let mut columns = Columns::default();
    let heads = &state.shared_heads;
    columns.rows("shared heads", &number(heads.len()), &hashes(heads, full));
    let title = format!("a saved state, {}", count(length, "byte"));
    format!("{}\n{columns}", Paint::of_output().bold(&title))
}

pub fn filter(filter: &Filter, length: usize) -> String {
    let title = format!("a filter, {}", count(length, "byte"));
    let title = Paint::of_output().bold(&title);
    format!("{title}\n  {}\n", told_filter(filter))
}

fn told_filter(filter: &Filter) -> String {
    let entries = count(filter.num_entries() as usize, "entry");
    let set: u32 = filter.bits().iter().map(|byte| byte.count_ones()).sum();
    let field = 8 * filter.bits().len();
    let bits = count(filter.num_bits_per_entry() as usize, "bit");
    let probes = count(filter.num_probes() as usize, "probe");
    let filled = match field {
        0 => String::new(),
        _ => format!(", {} of {} bits set", number(set as usize), number(field)),
    };
    format!("{entries}, {bits} each, {probes}{filled}")
}

pub fn table(table: &Table, rows: Rows, full: bool) -> String {
    let mut columns = Columns::default();
    let heads = table.heads();
    columns.row("rows", &number(table.rows()), "");
    columns.rows("heads", &number(heads.len()), &hashes(&heads, full));
    let dependencies: usize = (0..table.rows())
        .map(|row| table.dependencies(row).len())
        .sum();
    columns.row(
        "dependencies",
        &number(dependencies),
        "of all rows together",
    );
    let title = Paint::of_output().bold("a change table");
    format!("{title}{}\n{columns}", rows.told())
}

/// How much a settings list has; `settings` shows it whole.
pub fn settings(list: &Settings) -> String {
    let mut columns = Columns::default();
    let records = list.records().map(|record| record.station);
    let stations: BTreeSet<u32> = records.collect();
    columns.row("records", &number(list.records().len()), "");
    columns.row("stations", &number(stations.len()), "");
    columns.row("version", &number(list.version() as usize), "the newest");
    let title = Paint::of_output().bold("a settings list");
    format!("{title}\n{columns}")
}

/// Changes that wait, and what they depend on that is neither held nor waits.
pub fn waiting(waiting: &Waiting, rows: Rows, full: bool) -> String {
    let own: Vec<ChangeHash> = (0..waiting.rows()).map(|row| waiting.hash(row)).collect();
    let mut columns = Columns::default();
    columns.rows("waiting", &number(own.len()), &hashes(&own, full));
    // More than a list has aren't told.
    if let Ok(lacking) = Table::default().missing(waiting, &own) {
        columns.rows("lacking", &number(lacking.len()), &hashes(&lacking, full));
    }
    let title = Paint::of_output().bold("a waiting table");
    let told = match rows {
        Rows::Now => "",
        Rows::Before => ", with rows as they were before",
    };
    format!("{title}{told}\n{columns}")
}

/// Bytes that no reader looks at; how many isn't known of a file that goes on.
pub fn rest(bytes: usize, place: usize) -> String {
    let many = match (place + bytes) as u64 == most() {
        true => "all bytes".to_string(),
        false => count(bytes, "byte"),
    };
    let told = format!("{many} from place {} on, ignored", number(place));
    format!("  {}\n", Paint::of_output().faint(&told))
}
