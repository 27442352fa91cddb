//! The C header of the exported functions and the limits.

use crate::exported::{Function, Item, Kind, Lent, Parameter};
use crate::limits::Limit;

const START: &str = "\
/* The exported functions of libbisquetower.a, written from the source that declares them.
   docs/ABI.md is their page: what each argument is, what the answers' words mean, and
   how much stack a call takes.

   `make install PREFIX=..` puts this header and the archive in place. A program in C is
   then built so, where PREFIX is one that the compiler knows, as /usr/local is:

       cc program.c -lbisquetower

   and with any other so:

       cc -I PREFIX/include program.c -L PREFIX/lib -lbisquetower

   A slice is a pointer, which is never null, and a length in items. No call keeps a
   pointer, and what is written overlaps nothing. The first word of an answer is 0, or
   the number of a refusal whose value is the second word; words that aren't named are 0.
   A place is counted in bytes, from 0.

   A have is a record of seven words over the bytes that are lent beside it: the place of
   its first last-sync hash, how many of these it has, its filter's entries, bits per
   entry and probes, and the place and the length of the filter's field. */
#ifndef BISQUETOWER_H
#define BISQUETOWER_H

#include <stdbool.h>
#include <stddef.h>
#include <stdint.h>
";

const LIMITS: &str = "
/* Every limit, in the order in which bt_limits writes them: the most that there may be.
   BT_HASH_SIZE alone is what each hash has, no more and no less. */
";

const CALLS: &str = "
#ifdef __cplusplus
extern \"C\" {
#endif
";

const END: &str = "
#ifdef __cplusplus
}
#endif

#endif
";

pub fn c_header(version: &str, limits: &[Limit], functions: &[Function]) -> String {
    let version = version_macros(version);
    let limits: String = limits.iter().map(limit_macro).collect();
    let functions: String = functions.iter().map(declared).collect();
    format!("{START}{version}{LIMITS}{limits}{CALLS}{functions}{END}")
}

/// The version as text, and its three numbers for the preprocessor to compare.
fn version_macros(version: &str) -> String {
    let numbers = version.split(['.', '-', '+']);
    let each = ["MAJOR", "MINOR", "PATCH"].into_iter().zip(numbers);
    let each = each.map(|(part, number)| format!("#define BT_VERSION_{part} {number}\n"));
    let each: String = each.collect();
    let text = format!("#define BT_VERSION \"{version}\"\n");
    format!("\n/* The version of this header and its archive. */\n{text}{each}")
}

fn limit_macro(limit: &Limit) -> String {
    let (name, number) = (&limit.name, limit.number);
    format!("#define BT_{name} {number} /* {} */\n", limit.comment)
}

/// A function with its comment, a line for each parameter.
fn declared(f: &Function) -> String {
    let parameters: Vec<String> = f.parameters.iter().map(parameter).collect();
    let parameters = match parameters.is_empty() {
        true => "void".to_string(),
        false => format!("\n    {}", parameters.join(",\n    ")),
    };
    let comment = f.comment.join("\n   ");
    format!("\n/* {comment} */\nvoid {}({parameters});\n", f.name)
}

fn parameter(p: &Parameter) -> String {
    let name = &p.name;
    let pointer = |lent: &Lent| {
        let item = match lent.item {
            Item::Byte => "uint8_t",
            Item::Word => "uint64_t",
        };
        let access = if lent.written { "" } else { "const " };
        format!("{access}{item}")
    };
    match &p.kind {
        Kind::Number(number) => format!("{} {name}", number_type(number)),
        Kind::Array(lent, length) => format!("{} {name}[{length}]", pointer(lent)),
        Kind::Slice(lent) => format!("{} *{name}, size_t {name}_length", pointer(lent)),
    }
}

fn number_type(number: &str) -> String {
    match number {
        "usize" => "size_t".to_string(),
        "bool" => "bool".to_string(),
        other => format!("uint{}_t", other.trim_start_matches('u')),
    }
}
