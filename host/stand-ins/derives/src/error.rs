//! `thiserror::Error`: `Display` from the `#[error(..)]` text, `From` for a
//! `#[from]` field, and `std::error::Error` without a source.

use crate::item::{Fields, Item, Variant};

pub fn generate(item: &Item) -> Result<String, String> {
    let name = &item.name;
    let arms = item
        .variants
        .iter()
        .map(|variant| arm(item, variant))
        .collect::<Result<String, String>>()?;
    let conversions: String = item.variants.iter().map(|v| conversion(item, v)).collect();
    Ok(format!(
        "impl ::std::fmt::Display for {name} {{
            #[allow(unused_variables)]
            fn fmt(&self, f: &mut ::std::fmt::Formatter<'_>) -> ::std::fmt::Result {{
                match self {{ {arms} }}
            }}
        }}
        impl ::std::error::Error for {name} {{}}
        {conversions}"
    ))
}

fn path(item: &Item, variant: &Variant) -> String {
    if item.is_enum {
        format!("Self::{}", variant.name)
    } else {
        "Self".to_string()
    }
}

fn arm(item: &Item, variant: &Variant) -> Result<String, String> {
    let path = path(item, variant);
    let pattern = match &variant.fields {
        Fields::Unit => path,
        Fields::Tuple(list) => {
            let names: Vec<_> = (0..list.len()).map(|k| format!("_{k}")).collect();
            format!("{path}({})", names.join(", "))
        }
        Fields::Named(list) => {
            let names: Vec<_> = list.iter().map(|field| field.name.as_str()).collect();
            format!("{path} {{ {} }}", names.join(", "))
        }
    };
    match variant.error.as_deref() {
        Some("transparent") => Ok(format!("{pattern} => ::std::fmt::Display::fmt(_0, f),")),
        Some(text) => Ok(format!("{pattern} => write!(f, {}),", by_name(text))),
        None => Err(format!("{}: no #[error(..)]", item.name)),
    }
}

/// `{0}` becomes `{_0}`, the name under which the pattern binds that field.
fn by_name(text: &str) -> String {
    let mut out = String::new();
    let mut opened = false;
    for c in text.chars() {
        if opened && c.is_ascii_digit() {
            out.push('_');
        }
        opened = c == '{' && !opened;
        out.push(c);
    }
    out
}

fn conversion(item: &Item, variant: &Variant) -> String {
    let path = path(item, variant);
    let (list, value) = match &variant.fields {
        Fields::Tuple(list) if list.len() == 1 => (list, format!("{path}(value)")),
        Fields::Named(list) if list.len() == 1 => {
            (list, format!("{path} {{ {}: value }}", list[0].name))
        }
        _ => return String::new(),
    };
    if !list[0].from {
        return String::new();
    }
    let (name, kind) = (&item.name, &list[0].kind);
    format!(
        "impl ::std::convert::From<{kind}> for {name} {{
            fn from(value: {kind}) -> Self {{ {value} }}
        }}"
    )
}
