//! The text of the calls, in Rust and for caller.c.
//!
//! Each exported function becomes a method of `Batch`, with its parameters as
//! they are, and a function of the module `raw`, which makes that one call and
//! returns the words of a parameter named `answer`.

use crate::exported::{Function, Item, Kind, Lent, Parameter};
use std::collections::BTreeSet;

/// How the methods of a batch reach the library: by the declared symbols, or by
/// requests to the program caller.c.
#[derive(Clone, Copy, PartialEq, Eq)]
pub enum Way {
    Linked,
    Emulated,
}

/// Why a generated call is sound.
const SAFETY: &str = "        \
// SAFETY: the function is declared from its own source. Each pointer is a borrow's,
        // which isn't null, with its length behind it where it is a slice's; what is written is
        // borrowed mutably, so it overlaps nothing. The call keeps no pointer, and takes any numbers.
";

/// The calls' names as caller.c takes them, in the order of their numbers.
pub fn c_text(functions: &[Function]) -> String {
    let lines = functions.iter().map(|f| format!("CALL({})\n", f.name));
    lines.collect()
}

pub fn rust_text(functions: &[Function], way: Way) -> String {
    let mut text = String::new();
    if way == Way::Linked {
        let lines = functions.iter().map(|f| {
            let parameters = list(f, declared);
            format!("    fn {}({parameters});\n", f.name)
        });
        text += &format!("extern \"C\" {{\n{}}}\n", lines.collect::<String>());
    }
    let names = functions.iter().map(|f| format!("    {:?},\n", f.name));
    text += "\n/// The names of the exported functions.\n";
    text += &format!(
        "pub const NAMES: &[&str] = &[\n{}];\n",
        names.collect::<String>()
    );
    text += "\nimpl<'a> Batch<'a> {\n";
    for (number, function) in functions.iter().enumerate() {
        text += &method(function, number, way);
    }
    text += "}\n";
    for function in functions {
        text += &alone(function);
    }
    text + &answers(functions)
}

/// Every length of an answer, told from its refusal.
fn answers(functions: &[Function]) -> String {
    let lengths: BTreeSet<usize> = functions.iter().filter_map(answer_words).collect();
    let each = lengths.iter().map(|&words| {
        let numbers = words - 1;
        format!(
            "
impl crate::refusal::Answer for [u64; {words}] {{
    type Numbers = [u64; {numbers}];

    fn numbers(self) -> Result<[u64; {numbers}], crate::refusal::Refusal> {{
        crate::refusal::numbers(self)
    }}
}}
"
        )
    });
    each.collect()
}

/// How many words a function's answer has; none if it has no answer.
fn answer_words(f: &Function) -> Option<usize> {
    let answer = f.parameters.iter().find(|p| p.is_answer())?;
    match answer.kind {
        Kind::Array(_, words) => Some(words),
        _ => None,
    }
}

fn method(f: &Function, number: usize, way: Way) -> String {
    let parameters = list(f, |p| format!("{}: {}", p.name, rust_type(p, "'a ")));
    let body = match way {
        Way::Linked => {
            let answers = f.parameters.iter().filter(|p| p.is_answer());
            let fill = answers.map(|p| format!("        {}.fill(UNWRITTEN);\n", p.name));
            let words = list(f, pointers);
            let fill: String = fill.collect();
            let name = &f.name;
            format!("{fill}{SAFETY}        unsafe {{ {name}({words}) }}\n")
        }
        Way::Emulated => {
            let words = list(f, arguments);
            format!("        self.call({number}, [{words}])\n")
        }
    };
    let comment = comment(f, "    ");
    let name = f.short_name();
    format!("{comment}    #[inline]\n    pub fn {name}(&mut self, {parameters}) {{\n{body}    }}\n")
}

fn alone(f: &Function) -> String {
    let own = f.parameters.iter().filter(|p| !p.is_answer());
    let own: Vec<String> = own
        .map(|p| format!("{}: {}", p.name, rust_type(p, "")))
        .collect();
    let own = own.join(", ");
    let name = f.short_name();
    let passed = list(f, |p| {
        let lent = if p.is_answer() { "&mut " } else { "" };
        format!("{lent}{}", p.name)
    });
    let call = format!(
        "    let mut alone = Batch::new();\n    alone.{name}({passed});\n    alone.run();\n"
    );
    let comment = comment(f, "");
    let head = format!("\n{comment}#[inline]\npub fn {name}({own})");
    match answer_words(f) {
        Some(length) => {
            let words = format!("    let mut answer = [UNWRITTEN; {length}];\n");
            format!("{head} -> [u64; {length}] {{\n{words}{call}    answer\n}}\n")
        }
        None => format!("{head} {{\n{call}}}\n"),
    }
}

fn comment(f: &Function, indent: &str) -> String {
    let lines = f.comment.iter();
    lines.map(|line| format!("{indent}/// {line}\n")).collect()
}

fn list(f: &Function, word: impl Fn(&Parameter) -> String) -> String {
    let words: Vec<String> = f.parameters.iter().map(word).collect();
    words.join(", ")
}

fn item(lent: Lent) -> &'static str {
    match lent.item {
        Item::Byte => "u8",
        Item::Word => "u64",
    }
}

/// What is written stays borrowed until its batch is run.
fn rust_type(p: &Parameter, until: &str) -> String {
    let borrow = |lent: Lent| match lent.written {
        true => format!("&{until}mut "),
        false => "&".to_string(),
    };
    match &p.kind {
        Kind::Number(number) => number.clone(),
        Kind::Array(lent, length) => format!("{}[{}; {length}]", borrow(*lent), item(*lent)),
        Kind::Slice(lent) => format!("{}[{}]", borrow(*lent), item(*lent)),
    }
}

fn declared(p: &Parameter) -> String {
    let name = &p.name;
    let pointer = |lent: Lent| match lent.written {
        true => format!("{name}: *mut {}", item(lent)),
        false => format!("{name}: *const {}", item(lent)),
    };
    match &p.kind {
        Kind::Number(number) => format!("{name}: {number}"),
        Kind::Array(lent, _) => pointer(*lent),
        Kind::Slice(lent) => format!("{}, {name}_length: usize", pointer(*lent)),
    }
}

fn pointers(p: &Parameter) -> String {
    let name = &p.name;
    let pointer = |lent: Lent| match lent.written {
        true => format!("{name}.as_mut_ptr()"),
        false => format!("{name}.as_ptr()"),
    };
    match &p.kind {
        Kind::Number(_) => name.clone(),
        Kind::Array(lent, _) => pointer(*lent),
        Kind::Slice(lent) => format!("{}, {name}.len()", pointer(*lent)),
    }
}

fn arguments(p: &Parameter) -> String {
    let name = &p.name;
    let memory = |lent: Lent| {
        let items = match lent.item {
            Item::Byte => "Bytes",
            Item::Word => "Words",
        };
        let access = if lent.written { "Out" } else { "" };
        format!("Arg::{items}{access}({name})")
    };
    match &p.kind {
        _ if p.is_answer() => format!("Arg::Answer({name})"),
        Kind::Number(number) if number == "u64" => format!("Arg::Number({name})"),
        Kind::Number(_) => format!("Arg::Number({name} as u64)"),
        Kind::Array(lent, _) => memory(*lent),
        Kind::Slice(lent) => format!("{}, Arg::Length", memory(*lent)),
    }
}
