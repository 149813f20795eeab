//! A quick reader of plain JSON, as most calls and replies are.
//!
//! It reads a text as `json` does, in a third of the time, or leaves it to that: it refuses nothing. Numbers that are not
//! whole, and what lies deep, it leaves.

use crate::json::scan::end_of_plain;
use crate::json::{Object, Value, MANY_MEMBERS};
use std::borrow::Cow;

/// Lists and objects lie so deep in one another at most.
const DEEPEST: usize = 16;
/// A number of so many digits has room in 64 bits.
const LONGEST_NUMBER: usize = 18;

/// The value of a text. None where it is left to the other reader, which says what is wrong with it where something is.
pub fn value_of(text: &[u8]) -> Option<Value<'_>> {
    let mut reader = Reader::new(text)?;
    let value = reader.value(DEEPEST)?;
    reader.next().is_none().then_some(value)
}

/// Takes the members of an object in their order, keys that come twice too. None where one is not taken, or the text is
/// left to the other reader.
pub fn each_member<'a>(text: &'a [u8], take: impl FnMut(Cow<'a, str>, Value<'a>) -> Option<()>) -> Option<()> {
    let mut reader = Reader::new(text)?;
    reader.members(DEEPEST, take)?;
    reader.next().is_none().then_some(())
}

/// A text, and how far it was read.
struct Reader<'a> {
    text: &'a str,
    place: usize,
}

impl<'a> Reader<'a> {
    fn new(text: &'a [u8]) -> Option<Reader<'a>> {
        Some(Reader { text: std::str::from_utf8(text).ok()?, place: 0 })
    }

    fn rest(&self) -> &'a [u8] {
        &self.text.as_bytes()[self.place..]
    }

    /// The next byte that is no blank. It is not passed.
    fn next(&mut self) -> Option<u8> {
        match self.text.as_bytes().get(self.place) {
            Some(byte) if *byte > b' ' => Some(*byte),
            _ => self.next_behind_blanks(),
        }
    }

    fn next_behind_blanks(&mut self) -> Option<u8> {
        while let Some(byte) = self.text.as_bytes().get(self.place) {
            if !matches!(byte, b' ' | b'\t' | b'\r' | b'\n') {
                return Some(*byte);
            }
            self.place += 1;
        }
        None
    }

    /// Passes this byte, if it is the next one.
    fn pass(&mut self, byte: u8) -> Option<()> {
        let is_next = self.next()? == byte;
        self.place += usize::from(is_next);
        is_next.then_some(())
    }

    fn value(&mut self, levels: usize) -> Option<Value<'a>> {
        match self.next()? {
            b'"' => self.quoted().map(Value::Text),
            b'{' => self.object(levels.checked_sub(1)?),
            b'[' => self.list(levels.checked_sub(1)?),
            b'0'..=b'9' => self.number(),
            b't' => self.word(b"true", Value::Bool(true)),
            b'f' => self.word(b"false", Value::Bool(false)),
            b'n' => self.word(b"null", Value::Null),
            _ => None,
        }
    }

    fn word(&mut self, word: &[u8], value: Value<'a>) -> Option<Value<'a>> {
        let is_there = self.rest().starts_with(word);
        self.place += word.len();
        is_there.then_some(value)
    }

    /// A text in quotes. One with an escape is not where it stands.
    fn quoted(&mut self) -> Option<Cow<'a, str>> {
        self.pass(b'"')?;
        let begin = self.place;
        let length = end_of_plain(self.rest())?;
        if self.rest()[length] != b'"' {
            return self.escaped(length);
        }
        self.place += length + 1;
        self.text.get(begin..begin + length).map(Cow::Borrowed)
    }

    /// A text whose first escape stands so many bytes after its quote, which was passed.
    fn escaped(&mut self, plain: usize) -> Option<Cow<'a, str>> {
        let (text, begin, mut end) = (self.text.as_bytes(), self.place - 1, self.place + plain);
        while *text.get(end)? != b'"' {
            end += if text[end] == b'\\' { 2 } else { 1 };
        }
        self.place = end + 1;
        serde_json::from_slice(&text[begin..self.place]).ok().map(Cow::Owned)
    }

    fn number(&mut self) -> Option<Value<'a>> {
        let rest = self.rest();
        let length = rest.iter().take_while(|byte| byte.is_ascii_digit()).count();
        let has_more = matches!(rest.get(length), Some(b'.' | b'e' | b'E'));
        if has_more || length > LONGEST_NUMBER || (rest[0] == b'0' && length > 1) {
            return None;
        }
        self.place += length;
        let number = rest[..length].iter().fold(0, |number, digit| 10 * number + u64::from(digit - b'0'));
        Some(Value::Number(number.into()))
    }

    fn list(&mut self, levels: usize) -> Option<Value<'a>> {
        self.pass(b'[')?;
        let mut values = Vec::new();
        if self.pass(b']').is_some() {
            return Some(Value::List(values));
        }
        loop {
            values.push(self.value(levels)?);
            if self.pass(b',').is_none() {
                self.pass(b']')?;
                return Some(Value::List(values));
            }
        }
    }

    /// An object of a few members. A key that comes twice is told by the other reader.
    fn object(&mut self, levels: usize) -> Option<Value<'a>> {
        let mut members: Vec<(Cow<'a, str>, Value<'a>)> = Vec::with_capacity(8);
        self.members(levels, |key, value| {
            let is_new = members.len() < MANY_MEMBERS && members.iter().all(|member| member.0 != key);
            members.push((key, value));
            is_new.then_some(())
        })?;
        Some(Value::Object(Object(members)))
    }

    fn members(&mut self, levels: usize, mut take: impl FnMut(Cow<'a, str>, Value<'a>) -> Option<()>) -> Option<()> {
        self.pass(b'{')?;
        if self.pass(b'}').is_some() {
            return Some(());
        }
        loop {
            let key = self.quoted()?;
            self.pass(b':')?;
            let value = self.value(levels)?;
            take(key, value)?;
            if self.pass(b',').is_none() {
                return self.pass(b'}');
            }
        }
    }
}

#[cfg(test)]
mod tests {
    use super::*;

    fn by_the_other(text: &[u8]) -> Option<Value<'_>> {
        serde_json::from_slice(text).ok()
    }

    /// Numbers that look drawn, the same ones each time.
    struct Draw(u64);

    impl Draw {
        fn below(&mut self, most: usize) -> usize {
            self.0 = self.0.wrapping_mul(6_364_136_223_846_793_005).wrapping_add(1_442_695_040_888_963_407);
            (self.0 >> 33) as usize % most
        }

        /// A text that is JSON, or nearly.
        fn text(&mut self) -> Vec<u8> {
            const PIECES: [&str; 36] = [
                "{",
                "}",
                "[",
                "]",
                ",",
                ":",
                "\"",
                "\\",
                " ",
                "\n",
                "\"a\":",
                "\"b\":",
                "\"op\"",
                "\"a\"",
                "1",
                "0",
                "01",
                "-1",
                "1.5",
                "1e3",
                "true",
                "false",
                "null",
                "nul",
                "\"\\u0061\":",
                "\"\\n\"",
                "\"\\ud800\"",
                "\"\u{e4}\"",
                "\u{7f}",
                "\u{1}",
                "x",
                "{\"a\":1,\"b\":[2,{}]}",
                "[]",
                "{}",
                "123456789012345678",
                "18446744073709551616",
            ];
            let count = 1 + self.below(12);
            (0..count).flat_map(|_| PIECES[self.below(PIECES.len())].bytes()).collect()
        }
    }

    #[test]
    fn what_it_reads_the_other_reader_reads_alike() {
        let (mut draw, mut read) = (Draw(7), 0);
        for _ in 0..300_000 {
            let text = draw.text();
            if let Some(value) = value_of(&text) {
                assert_eq!(Some(value), by_the_other(&text), "{}", String::from_utf8_lossy(&text));
                read += 1;
            }
        }
        assert!(read > 3_000, "{read}");
    }

    #[test]
    fn what_is_changed_at_one_byte_is_read_alike_or_left() {
        let whole = br#"{"op":"start", "n":[1,-2.5,{"x":"\u00fc\n"},true,null], "k" : "", "t":"\u{e4}"}"#;
        for place in 0..whole.len() {
            for byte in 0..=255 {
                let mut text = whole.to_vec();
                text[place] = byte;
                let value = value_of(&text);
                assert!(value.is_none() || value == by_the_other(&text), "{}", String::from_utf8_lossy(&text));
            }
        }
    }

    #[test]
    fn members_are_taken_in_their_order() {
        let mut found = String::new();
        let text = br#" {"a":1,"b":{"c":[]},"a":"x\n"} "#;
        assert!(each_member(text, |key, value| {
            found += &format!("{key} {value:?}; ");
            Some(())
        })
        .is_some());
        assert_eq!(found, "a Number(Number(1)); b Object(Object([(\"c\", List([]))])); a Text(\"x\\n\"); ");
        assert!(each_member(text, |key, _| (key != "b").then_some(())).is_none());
        assert!(each_member(b"{} 1", |_, _| Some(())).is_none() && each_member(b"[]", |_, _| Some(())).is_none());
    }

    #[test]
    fn calls_and_replies_are_plain() {
        for text in [
            r#"{"op":"signal","workflow_id":"w","name":"s","input":"{\"a\":1}","request_id":"r"}"#,
            r#"{"op":"complete_workflow_task","token":"t","commands":[{"type":"StartTimer","duration":9}]}"#,
            r#"{"line":7,"ok":"signaled"}"#,
            r#"{"op":"signal","name":"ä"}"#,
        ] {
            assert_eq!(value_of(text.as_bytes()), by_the_other(text.as_bytes()), "{text}");
            assert!(value_of(text.as_bytes()).is_some(), "{text}");
        }
    }

    #[test]
    fn what_is_left_is_not_read() {
        let deep = "[".repeat(20) + &"]".repeat(20);
        for text in
            ["", "-1", "1.5", "{\"a\":1,\"a\":2}", "{\"a\":1,}", "[1,]", "1 2", "\"\u{1}\"", "\"a", "\"a\\", &deep]
        {
            assert_eq!(value_of(text.as_bytes()), None, "{text}");
        }
        assert_eq!(value_of(b"\"\xff\""), None);
    }
}
