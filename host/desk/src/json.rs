//! JSON of numbers, true and false, null, hashes and words.

use std::fmt::Write as _;

/// An object, a field a line.
pub fn document(fields: &[(&str, String)]) -> String {
    let fields = fields
        .iter()
        .map(|(name, value)| format!("  \"{name}\": {value}"));
    format!("{{\n{}\n}}\n", fields.collect::<Vec<_>>().join(",\n"))
}

/// A list that is a document's field, an item a line.
pub fn list(items: &[String]) -> String {
    match items.is_empty() {
        true => "[]".to_string(),
        false => format!("[\n    {}\n  ]", items.join(",\n    ")),
    }
}

/// An object in a line.
pub fn object(fields: &[(&str, String)]) -> String {
    let fields = fields
        .iter()
        .map(|(name, value)| format!("\"{name}\": {value}"));
    format!("{{{}}}", fields.collect::<Vec<_>>().join(", "))
}

/// A text, in quotes, with what can't stand between them as it is.
pub fn string(text: &str) -> String {
    let mut quoted = String::from("\"");
    for letter in text.chars() {
        match letter {
            '"' | '\\' => quoted.extend(['\\', letter]),
            '\0'..' ' | '\u{7f}'..'\u{a0}' => {
                let _ = write!(quoted, "\\u{:04x}", u32::from(letter));
            }
            _ => quoted.push(letter),
        }
    }
    quoted + "\""
}

pub fn option(n: Option<impl ToString>) -> String {
    n.map_or("null".to_string(), |n| n.to_string())
}
