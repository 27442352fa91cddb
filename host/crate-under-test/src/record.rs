//! A serializer that writes down what it is handed. The derive on `BloomFilter`
//! hands over its private fields, so they can be read without an edit.

use serde::ser::{SerializeMap, SerializeSeq, SerializeStruct};
use serde::{Serialize, Serializer};
use std::convert::Infallible;

#[derive(Clone, Debug, PartialEq, Eq)]
pub enum Value {
    Number(u64),
    Text(String),
    List(Vec<Value>),
    /// Names and values of a map or struct, in the order written.
    Fields(Vec<(String, Value)>),
}

impl Value {
    /// The value under a name of a map or struct.
    pub fn field(&self, name: &str) -> Option<&Value> {
        match self {
            Value::Fields(list) => list.iter().find(|(n, _)| n == name).map(|(_, v)| v),
            _ => None,
        }
    }

    pub fn number(&self) -> Option<u64> {
        match self {
            Value::Number(number) => Some(*number),
            _ => None,
        }
    }

    /// The bytes of a list of numbers below 256.
    pub fn bytes(&self) -> Option<Vec<u8>> {
        match self {
            Value::List(list) => list
                .iter()
                .map(|value| value.number().and_then(|n| u8::try_from(n).ok()))
                .collect(),
            _ => None,
        }
    }
}

/// What `value` hands to a serializer.
pub fn record<T: Serialize + ?Sized>(value: &T) -> Value {
    match value.serialize(Recorder) {
        Ok(value) => value,
        Err(never) => match never {},
    }
}

struct Recorder;

impl Serializer for Recorder {
    type Ok = Value;
    type Error = Infallible;
    type SerializeSeq = List;
    type SerializeMap = Fields;
    type SerializeStruct = Fields;

    fn serialize_u64(self, value: u64) -> Result<Value, Infallible> {
        Ok(Value::Number(value))
    }

    fn serialize_str(self, value: &str) -> Result<Value, Infallible> {
        Ok(Value::Text(value.to_string()))
    }

    fn serialize_seq(self, _: Option<usize>) -> Result<List, Infallible> {
        Ok(List(Vec::new()))
    }

    fn serialize_map(self, _: Option<usize>) -> Result<Fields, Infallible> {
        Ok(Fields(Vec::new()))
    }

    fn serialize_struct(self, _: &'static str, _: usize) -> Result<Fields, Infallible> {
        Ok(Fields(Vec::new()))
    }
}

struct List(Vec<Value>);

impl SerializeSeq for List {
    type Ok = Value;
    type Error = Infallible;

    fn serialize_element<T: Serialize + ?Sized>(&mut self, value: &T) -> Result<(), Infallible> {
        self.0.push(record(value));
        Ok(())
    }

    fn end(self) -> Result<Value, Infallible> {
        Ok(Value::List(self.0))
    }
}

struct Fields(Vec<(String, Value)>);

impl SerializeMap for Fields {
    type Ok = Value;
    type Error = Infallible;

    fn serialize_entry<K: Serialize + ?Sized, V: Serialize + ?Sized>(
        &mut self,
        key: &K,
        value: &V,
    ) -> Result<(), Infallible> {
        let name = match record(key) {
            Value::Text(name) => name,
            other => format!("{other:?}"),
        };
        self.0.push((name, record(value)));
        Ok(())
    }

    fn end(self) -> Result<Value, Infallible> {
        Ok(Value::Fields(self.0))
    }
}

impl SerializeStruct for Fields {
    type Ok = Value;
    type Error = Infallible;

    fn serialize_field<T: Serialize + ?Sized>(
        &mut self,
        name: &'static str,
        value: &T,
    ) -> Result<(), Infallible> {
        self.0.push((name.to_string(), record(value)));
        Ok(())
    }

    fn end(self) -> Result<Value, Infallible> {
        Ok(Value::Fields(self.0))
    }
}
