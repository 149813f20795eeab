//! A reader of JSON that refuses what two readers could take in two ways: a key that comes twice.
//!
//! Most bodies are read by `plain`, which is quick and takes few forms. What a member means is not known here.

pub mod plain;
pub mod scan;

use crate::json::scan::place_of_byte;
use serde::de::{Deserialize, Deserializer, Error, MapAccess, SeqAccess, Visitor};
use serde_json::Number;
use std::borrow::Cow;
use std::collections::HashSet;
use std::fmt;

/// In an object of so many members a set finds a key that comes twice, and in a shorter one a search does.
pub const MANY_MEMBERS: usize = 16;

/// A value of a body. Its texts lie in the body where they have no escapes.
#[derive(Clone, Debug, PartialEq)]
pub enum Value<'a> {
    Null,
    Bool(bool),
    Number(Number),
    Text(Cow<'a, str>),
    List(Vec<Value<'a>>),
    Object(Object<'a>),
}

/// The members of an object, in their order. Each key comes once.
#[derive(Clone, Debug, Default, PartialEq)]
pub struct Object<'a>(pub Vec<(Cow<'a, str>, Value<'a>)>);

impl<'a> Object<'a> {
    /// The member of this key.
    pub fn get(&self, key: &str) -> Option<&Value<'a>> {
        self.0.iter().find(|member| member.0 == key).map(|member| &member.1)
    }

    /// The text of this key, where it is one.
    pub fn text(&self, key: &str) -> Option<&str> {
        self.get(key).and_then(Value::text)
    }
}

impl<'a> Value<'a> {
    /// Reads a body, of which nothing may be left.
    pub fn parse(body: &'a [u8]) -> Result<Value<'a>, serde_json::Error> {
        plain::value_of(body).map_or_else(|| serde_json::from_slice(body), Ok)
    }

    /// The text that it is.
    pub fn text(&self) -> Option<&str> {
        match self {
            Value::Text(text) => Some(text),
            _ => None,
        }
    }

    /// The whole number from 0 on that it is.
    pub fn whole(&self) -> Option<u64> {
        match self {
            Value::Number(number) => number.as_u64(),
            _ => None,
        }
    }

    /// Whether lists and objects lie in one another deeper than that.
    pub fn is_deeper(&self, levels: usize) -> bool {
        match self {
            Value::List(values) => is_any_deeper(values.iter(), levels),
            Value::Object(object) => is_any_deeper(object.0.iter().map(|member| &member.1), levels),
            _ => false,
        }
    }

    /// Writes it as JSON.
    pub fn write(&self, out: &mut Vec<u8>) {
        match self {
            Value::Null => out.extend_from_slice(b"null"),
            Value::Bool(value) => out.extend_from_slice(if *value { b"true" } else { b"false" }),
            Value::Number(number) => out.extend_from_slice(number.to_string().as_bytes()),
            Value::Text(text) => write_text(text, out),
            Value::List(values) => write_all(out, b"[]", values, Value::write),
            Value::Object(object) => write_all(out, b"{}", &object.0, |(key, value), out| {
                write_text(key, out);
                out.push(b':');
                value.write(out);
            }),
        }
    }
}

fn is_any_deeper<'b, 'a: 'b>(values: impl Iterator<Item = &'b Value<'a>>, levels: usize) -> bool {
    let mut values = values.peekable();
    values.peek().is_some() && (levels == 0 || values.any(|value| value.is_deeper(levels - 1)))
}

/// Writes values between two brackets, with commas between them.
fn write_all<T>(out: &mut Vec<u8>, brackets: &[u8; 2], values: &[T], write: impl Fn(&T, &mut Vec<u8>)) {
    out.push(brackets[0]);
    for (place, value) in values.iter().enumerate() {
        if place > 0 {
            out.push(b',');
        }
        write(value, out);
    }
    out.push(brackets[1]);
}

/// Writes a text as JSON.
pub fn write_text(text: &str, out: &mut Vec<u8>) {
    // Writing a text to memory does not fail.
    serde_json::to_writer(out, text).unwrap_or_default();
}

/// The digits of a whole number.
pub struct Digits([u8; 20], usize);

impl From<u64> for Digits {
    fn from(number: u64) -> Digits {
        let (mut digits, mut begin, mut rest) = ([b'0'; 20], 20, number);
        loop {
            begin -= 1;
            digits[begin] += (rest % 10) as u8;
            rest /= 10;
            if rest == 0 {
                return Digits(digits, begin);
            }
        }
    }
}

impl Digits {
    pub fn bytes(&self) -> &[u8] {
        &self.0[self.1..]
    }
}

/// Writes a whole number as JSON.
pub fn write_whole(number: u64, out: &mut Vec<u8>) {
    out.extend_from_slice(Digits::from(number).bytes());
}

/// Where something that begins with a quote stands in a text.
pub fn place_of(quoted: &[u8], text: &[u8]) -> Option<usize> {
    let mut begin = 0;
    loop {
        begin += place_of_byte(b'"', &text[begin..])?;
        if text[begin..].starts_with(quoted) {
            return Some(begin);
        }
        begin += 1;
    }
}

/// A text as JSON.
pub fn quoted(text: &str) -> String {
    let mut out = Vec::with_capacity(text.len() + 2);
    write_text(text, &mut out);
    String::from_utf8_lossy(&out).into_owned()
}

impl<'de: 'a, 'a> Deserialize<'de> for Value<'a> {
    fn deserialize<D: Deserializer<'de>>(reader: D) -> Result<Self, D::Error> {
        reader.deserialize_any(ValueVisitor)
    }
}

/// A text, borrowed where it can be.
struct Key<'a>(Cow<'a, str>);

impl<'de: 'a, 'a> Deserialize<'de> for Key<'a> {
    fn deserialize<D: Deserializer<'de>>(reader: D) -> Result<Self, D::Error> {
        match reader.deserialize_str(ValueVisitor)? {
            Value::Text(text) => Ok(Key(text)),
            _ => Err(D::Error::custom("a key is a text")),
        }
    }
}

struct ValueVisitor;

impl<'de> Visitor<'de> for ValueVisitor {
    type Value = Value<'de>;

    fn expecting(&self, out: &mut fmt::Formatter<'_>) -> fmt::Result {
        out.write_str("JSON")
    }

    fn visit_unit<E>(self) -> Result<Value<'de>, E> {
        Ok(Value::Null)
    }

    fn visit_bool<E>(self, value: bool) -> Result<Value<'de>, E> {
        Ok(Value::Bool(value))
    }

    fn visit_u64<E>(self, value: u64) -> Result<Value<'de>, E> {
        Ok(Value::Number(value.into()))
    }

    fn visit_i64<E>(self, value: i64) -> Result<Value<'de>, E> {
        Ok(Value::Number(value.into()))
    }

    fn visit_f64<E: Error>(self, value: f64) -> Result<Value<'de>, E> {
        Number::from_f64(value).map(Value::Number).ok_or_else(|| E::custom("no number"))
    }

    fn visit_borrowed_str<E>(self, text: &'de str) -> Result<Value<'de>, E> {
        Ok(Value::Text(Cow::Borrowed(text)))
    }

    fn visit_str<E>(self, text: &str) -> Result<Value<'de>, E> {
        Ok(Value::Text(Cow::Owned(text.to_string())))
    }

    fn visit_seq<A: SeqAccess<'de>>(self, mut list: A) -> Result<Value<'de>, A::Error> {
        let mut values = Vec::new();
        while let Some(value) = list.next_element()? {
            values.push(value);
        }
        Ok(Value::List(values))
    }

    fn visit_map<A: MapAccess<'de>>(self, mut object: A) -> Result<Value<'de>, A::Error> {
        let mut members: Vec<(Cow<'de, str>, Value<'de>)> = Vec::with_capacity(8);
        while let Some((Key(key), value)) = object.next_entry()? {
            if members.len() < MANY_MEMBERS && members.iter().any(|member| member.0 == key) {
                return Err(twice(&key));
            }
            members.push((key, value));
        }
        if members.len() > MANY_MEMBERS {
            let mut found = HashSet::new();
            if let Some(member) = members.iter().find(|member| !found.insert(member.0.as_ref())) {
                return Err(twice(&member.0));
            }
        }
        Ok(Value::Object(Object(members)))
    }
}

/// The fault of a key that comes twice.
fn twice<E: Error>(key: &str) -> E {
    E::custom(format_args!("the key {} comes twice", quoted(key)))
}

#[cfg(test)]
mod tests {
    use super::*;

    fn written(text: &str) -> String {
        let mut out = Vec::new();
        Value::parse(text.as_bytes()).unwrap().write(&mut out);
        String::from_utf8(out).unwrap()
    }

    #[test]
    fn what_was_read_is_written_again() {
        for text in [r#"{"a":[1,-2,2.5,null,true,"x\"\n"],"b":{}}"#, "[]", r#""ä""#, "18446744073709551615"] {
            assert_eq!(written(text), text);
        }
    }

    #[test]
    fn a_key_that_comes_twice_is_refused_at_any_depth() {
        let many: String = (0..40).map(|number| format!("\"k{number}\":0,")).collect();
        for text in [
            r#"{"a":1,"a":2}"#.to_string(),
            r#"[{"b":{"a":1,"\u0061":2}}]"#.to_string(),
            format!("{{{many}\"k7\":1}}"),
            format!("{{{many}\"k39\":1}}"),
        ] {
            assert!(Value::parse(text.as_bytes()).unwrap_err().to_string().contains("comes twice"), "{text}");
        }
        assert!(Value::parse(format!("{{{many}\"a\":1}}").as_bytes()).is_ok());
    }

    #[test]
    fn whole_numbers_are_written() {
        for number in [0, 7, 10, 99, 100, 12_345_678_901, u64::MAX] {
            let mut out = b"n".to_vec();
            write_whole(number, &mut out);
            assert_eq!(out, format!("n{number}").into_bytes());
        }
    }

    #[test]
    fn what_stands_in_quotes_is_found() {
        for (text, place) in
            [("\"a\"\"ab\"\"abc\"", Some(3)), ("\"", None), ("", None), ("ab", None), ("x\"ab\"", Some(1))]
        {
            assert_eq!(place_of(b"\"ab\"", text.as_bytes()), place, "{text}");
        }
    }

    #[test]
    fn what_is_no_json_is_refused() {
        for text in ["", "{", "{}{}", "NaN", "1e400", "\"\\ud800\"", "{\"a\":01}", &"[".repeat(100_000)] {
            assert!(Value::parse(text.as_bytes()).is_err(), "{text:.20}");
        }
        assert!(Value::parse(b"\"\xff\"").is_err());
    }

    #[test]
    fn depth_counts_what_lies_in_one_another() {
        let value = Value::parse(br#"{"commands":[{"retry":{"codes":[]}}]}"#).unwrap();
        assert!(value.is_deeper(3) && !value.is_deeper(4));
        assert!(!Value::parse(b"[]").unwrap().is_deeper(0) && Value::parse(b"[0]").unwrap().is_deeper(0));
    }
}
