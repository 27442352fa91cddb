//! `serde::Serialize` for a struct with named fields: each name and value, in
//! the order of the fields.

use crate::item::{Fields, Item};

pub fn generate(item: &Item) -> Result<String, String> {
    let name = &item.name;
    let (false, [variant]) = (item.is_enum, item.variants.as_slice()) else {
        return Err(format!("{name}: only a struct"));
    };
    let Fields::Named(list) = &variant.fields else {
        return Err(format!("{name}: only named fields"));
    };
    let count = list.len();
    let fields: String = list
        .iter()
        .map(|field| {
            let field = &field.name;
            format!(
                "::serde::ser::SerializeStruct::serialize_field(
                    &mut parts, {field:?}, &self.{field})?;"
            )
        })
        .collect();
    Ok(format!(
        "impl ::serde::Serialize for {name} {{
            fn serialize<S: ::serde::Serializer>(&self, serializer: S)
                -> ::std::result::Result<S::Ok, S::Error>
            {{
                let mut parts = serializer.serialize_struct({name:?}, {count})?;
                {fields}
                ::serde::ser::SerializeStruct::end(parts)
            }}
        }}"
    ))
}
