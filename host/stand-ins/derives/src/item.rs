//! Reads a struct or an enum without generics into its variants and fields.

use proc_macro::{Delimiter, Group, TokenStream, TokenTree};

pub struct Item {
    pub name: String,
    pub is_enum: bool,
    /// A struct is one variant without a name of its own.
    pub variants: Vec<Variant>,
}

pub struct Variant {
    pub name: String,
    /// What stands in `#[error(..)]`: a string literal, or `transparent`.
    pub error: Option<String>,
    pub fields: Fields,
}

pub enum Fields {
    Unit,
    Tuple(Vec<Field>),
    Named(Vec<Field>),
}

pub struct Field {
    /// Empty in a tuple.
    pub name: String,
    pub kind: String,
    pub from: bool,
}

type Tokens = std::iter::Peekable<proc_macro::token_stream::IntoIter>;

pub fn read(input: TokenStream) -> Result<Item, String> {
    let mut tokens = input.into_iter().peekable();
    let attributes = attributes(&mut tokens);
    skip_visibility(&mut tokens);
    let keyword = next_name(&mut tokens)?;
    let name = next_name(&mut tokens)?;
    match (keyword.as_str(), tokens.next()) {
        ("struct", Some(TokenTree::Punct(p))) if p.as_char() == ';' => {
            Ok(one_variant(name, &attributes, Fields::Unit))
        }
        ("struct", Some(TokenTree::Group(g))) => {
            let fields = fields(&g)?;
            Ok(one_variant(name, &attributes, fields))
        }
        ("enum", Some(TokenTree::Group(g))) => Ok(Item {
            name,
            is_enum: true,
            variants: split(g.stream())
                .into_iter()
                .map(variant)
                .collect::<Result<_, _>>()?,
        }),
        _ => Err(format!("{name}: only a struct or an enum without generics")),
    }
}

fn one_variant(name: String, attributes: &[Group], fields: Fields) -> Item {
    let variant = Variant {
        name: String::new(),
        error: error_argument(attributes),
        fields,
    };
    Item {
        name,
        is_enum: false,
        variants: vec![variant],
    }
}

fn variant(part: TokenStream) -> Result<Variant, String> {
    let mut tokens = part.into_iter().peekable();
    let attributes = attributes(&mut tokens);
    let name = next_name(&mut tokens)?;
    let fields = match tokens.next() {
        None => Fields::Unit,
        Some(TokenTree::Group(g)) => fields(&g)?,
        Some(other) => return Err(format!("{name}: unexpected {other}")),
    };
    Ok(Variant {
        name,
        error: error_argument(&attributes),
        fields,
    })
}

fn fields(group: &Group) -> Result<Fields, String> {
    let named = group.delimiter() == Delimiter::Brace;
    let list = split(group.stream())
        .into_iter()
        .map(|part| field(part, named))
        .collect::<Result<_, _>>()?;
    Ok(if named {
        Fields::Named(list)
    } else {
        Fields::Tuple(list)
    })
}

fn field(part: TokenStream, named: bool) -> Result<Field, String> {
    let mut tokens = part.into_iter().peekable();
    let from = attributes(&mut tokens)
        .iter()
        .any(|a| a.stream().to_string() == "from");
    skip_visibility(&mut tokens);
    let mut name = String::new();
    if named {
        name = next_name(&mut tokens)?;
        tokens.next(); // the colon
    }
    let kind = tokens.collect::<TokenStream>().to_string();
    Ok(Field { name, kind, from })
}

/// The parts between commas that stand outside angle brackets.
fn split(stream: TokenStream) -> Vec<TokenStream> {
    let mut parts = Vec::new();
    let mut part = Vec::new();
    let mut depth = 0;
    for token in stream {
        if let TokenTree::Punct(p) = &token {
            match p.as_char() {
                '<' => depth += 1,
                '>' => depth -= 1,
                ',' if depth == 0 => {
                    parts.push(std::mem::take(&mut part).into_iter().collect());
                    continue;
                }
                _ => {}
            }
        }
        part.push(token);
    }
    if !part.is_empty() {
        parts.push(part.into_iter().collect());
    }
    parts
}

fn attributes(tokens: &mut Tokens) -> Vec<Group> {
    let mut found = Vec::new();
    while matches!(tokens.peek(), Some(TokenTree::Punct(p)) if p.as_char() == '#') {
        tokens.next();
        if let Some(TokenTree::Group(g)) = tokens.next() {
            found.push(g);
        }
    }
    found
}

fn error_argument(attributes: &[Group]) -> Option<String> {
    attributes.iter().find_map(|attribute| {
        let mut tokens = attribute.stream().into_iter();
        match (tokens.next(), tokens.next()) {
            (Some(TokenTree::Ident(i)), Some(TokenTree::Group(g))) if i.to_string() == "error" => {
                Some(g.stream().to_string())
            }
            _ => None,
        }
    })
}

fn skip_visibility(tokens: &mut Tokens) {
    if matches!(tokens.peek(), Some(TokenTree::Ident(i)) if i.to_string() == "pub") {
        tokens.next();
        let restricted = matches!(tokens.peek(), Some(TokenTree::Group(g))
            if g.delimiter() == Delimiter::Parenthesis);
        if restricted {
            tokens.next();
        }
    }
}

fn next_name(tokens: &mut Tokens) -> Result<String, String> {
    match tokens.next() {
        Some(TokenTree::Ident(i)) => Ok(i.to_string()),
        other => Err(format!("a name was expected, not {other:?}")),
    }
}
