//! Bytes in hexadecimal, with a mark under some of them.

use crate::text::number;
use std::ops::Range;

/// Bytes of a line, and lines that are shown on either side of the marked ones.
const LINE: usize = 16;
const AROUND: usize = 2;

/// The most lines that are marked; of a longer field these are its first.
const MARKED: usize = 4;

/// The lines around a field, and a mark under each of its bytes. The place after the last
/// byte is marked too, for a field of which nothing is there.
pub fn view(bytes: &[u8], field: Range<usize>) -> String {
    let field = field.start..field.end.max(field.start + 1);
    let first = field.start / LINE;
    let marked = first..=((field.end - 1) / LINE).min(first + MARKED - 1);
    let last = bytes.len() / LINE;
    let lines = first.saturating_sub(AROUND)..=(marked.end() + AROUND).min(last);
    let mut text = String::new();
    for line in lines {
        let start = LINE * line;
        let part = &bytes[start.min(bytes.len())..(start + LINE).min(bytes.len())];
        if !part.is_empty() || marked.contains(&line) {
            let each: Vec<String> = part.iter().map(|byte| format!("{byte:02x}")).collect();
            let shown = format!("  {start:08}  {:47}  {}", each.join(" "), letters(part));
            text += &format!("{}\n", shown.trim_end());
        }
        if marked.contains(&line) {
            let label = match line == first {
                true => label(&field, bytes.len()),
                false => String::new(),
            };
            text += &format!("{}{label}\n", marks(start, &field));
        }
    }
    text
}

/// Marks under the bytes of a field that stand in the line from this place on.
fn marks(start: usize, field: &Range<usize>) -> String {
    let from = field.start.max(start);
    let to = field.end.min(start + LINE);
    let blank = " ".repeat(2 + 8 + 2 + 3 * (from - start));
    blank + &vec!["^^"; to - from].join(" ")
}

/// The places of a field, and whether nothing of it is there.
fn label(field: &Range<usize>, length: usize) -> String {
    let end = if field.start == length {
        " the end"
    } else {
        ""
    };
    let (first, last) = (number(field.start), number(field.end - 1));
    match field.len() {
        1 => format!(" place {first}{end}"),
        _ => format!(" places {first} to {last}{end}"),
    }
}

/// Bytes as the letters that they may be.
fn letters(bytes: &[u8]) -> String {
    let letter = |&byte: &u8| match byte {
        b' '..=b'~' => char::from(byte),
        _ => '.',
    };
    bytes.iter().map(letter).collect()
}
