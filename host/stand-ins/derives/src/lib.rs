//! The two derives that the published files use, on the standard `proc_macro`
//! alone: `thiserror::Error` and `serde::Serialize`, as far as those files go.
//! What they don't use (generics, format arguments, sources) is refused or left.

mod error;
mod item;
mod serialize;

use proc_macro::TokenStream;

#[proc_macro_derive(Error, attributes(error, from))]
pub fn derive_error(input: TokenStream) -> TokenStream {
    generated(item::read(input).and_then(|item| error::generate(&item)))
}

#[proc_macro_derive(Serialize)]
pub fn derive_serialize(input: TokenStream) -> TokenStream {
    generated(item::read(input).and_then(|item| serialize::generate(&item)))
}

fn generated(code: Result<String, String>) -> TokenStream {
    code.unwrap_or_else(|why| format!("compile_error!({why:?});"))
        .parse()
        .expect("generated code is Rust")
}
