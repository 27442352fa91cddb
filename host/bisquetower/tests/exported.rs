//! How build.rs reads the exported functions out of the library's source.

#[path = "../build/exported.rs"]
#[allow(dead_code)]
mod exported;

use exported::{read_crates, read_source, Function, Item, Kind, Lent};
use std::path::Path;

/// A function with every kind of parameter, and what the others stand in for.
const SOURCE: &str = "
// Of no function.

ghost use Rattle.std.specs.Prelude.{◌≡◌};

// Not exported under its name.
pub extern \"C\" fn bt_unmarked(n: u64)
{
}

// First line.
// Second line.
#[unsafe(no_mangle)]
pub extern \"C\" fn bt_all(
    s: &[u8],
    out: &mut [u8],
    rows: &[u64],
    marks: &mut [u64],
    hash: &[u8; 32],
    session: &mut [u64; 1_024],
    at: usize,
    on: bool,
    answer: &mut [u64; 4],
)
    ensures { answer.new ≡ answer.old }
{
    *answer = all(s);
}
";

fn only(source: &str) -> Function {
    let mut functions = read_source(source).unwrap();
    assert_eq!(functions.len(), 1);
    functions.remove(0)
}

fn lent(item: Item, written: bool) -> Lent {
    Lent { item, written }
}

#[test]
fn every_kind_of_parameter() {
    let all = only(SOURCE);
    assert_eq!((&all.name[..], all.short_name()), ("bt_all", "all"));
    assert_eq!(all.comment, ["First line.", "Second line."]);
    assert_eq!(all.arguments(), 13);
    let kinds: Vec<(&str, &Kind)> = all
        .parameters
        .iter()
        .map(|p| (&p.name[..], &p.kind))
        .collect();
    let expected = [
        ("s", &Kind::Slice(lent(Item::Byte, false))),
        ("out", &Kind::Slice(lent(Item::Byte, true))),
        ("rows", &Kind::Slice(lent(Item::Word, false))),
        ("marks", &Kind::Slice(lent(Item::Word, true))),
        ("hash", &Kind::Array(lent(Item::Byte, false), 32)),
        ("session", &Kind::Array(lent(Item::Word, true), 1_024)),
        ("at", &Kind::Number("usize".to_string())),
        ("on", &Kind::Number("bool".to_string())),
        ("answer", &Kind::Array(lent(Item::Word, true), 4)),
    ];
    assert_eq!(kinds, expected);
    let answers = all.parameters.iter().filter(|p| p.is_answer());
    assert_eq!(answers.count(), 1);
}

/// What can't be passed as docs/ABI.md says stops the build.
#[test]
fn other_functions_are_refused() {
    let refused = |head: &str| {
        let source = format!("#[unsafe(no_mangle)]\npub extern \"C\" fn {head}\n{{\n}}\n");
        assert!(read_source(&source).is_err(), "{head}");
    };
    refused("bt_f(n: i64)");
    refused("bt_f(s: &[u16])");
    refused("bt_f(s: [u64; 4])");
    refused("bt_f(s: &mut [u64; ROWS])");
    refused("bt_f(n: u64) -> u64");
    refused("bt_f(\n    // A remark.\n    n: u64,\n)");
    refused("f(n: u64)");
    assert_eq!(
        only("#[unsafe(no_mangle)]\npub extern \"C\" fn bt_f()\n{\n}\n").arguments(),
        0
    );
}

/// Every call of docs/ABI.md is found in the source, and no other.
#[test]
fn the_page_lists_every_call() {
    let root = Path::new(env!("CARGO_MANIFEST_DIR")).join("../..");
    let mut found: Vec<String> = read_crates(&root.join("crates"))
        .unwrap()
        .into_iter()
        .map(|f| f.name)
        .collect();
    let page = std::fs::read_to_string(root.join("docs/ABI.md")).expect("the page is read");
    let rows = page.lines().filter_map(|line| line.strip_prefix("| `bt_"));
    let mut listed: Vec<String> = rows
        .filter_map(|row| row.split_once('`'))
        .map(|(name, _)| format!("bt_{name}"))
        .collect();
    found.sort();
    listed.sort();
    assert_eq!(found, listed);
}
