//! What the edge has to know of a reply of the program.

use crate::json::plain;
use crate::json::{place_of, Digits, Value};
use serde::Deserialize;
use std::borrow::Cow;

/// A reply's members, as far as the edge looks at them.
#[derive(Debug, Default, Deserialize)]
pub struct Reply<'a> {
    #[serde(borrow, default)]
    pub ok: Option<Cow<'a, str>>,
    #[serde(borrow, default)]
    pub error: Option<Cow<'a, str>>,
    /// Of a timer that fired its class; of another reply the moment at which something is due.
    #[serde(borrow, default)]
    pub class: Option<Cow<'a, str>>,
    #[serde(default)]
    pub ready: Option<u64>,
    #[serde(borrow, default)]
    pub run: Option<Cow<'a, str>>,
    #[serde(borrow, default)]
    pub token: Option<Cow<'a, str>>,
    #[serde(default)]
    pub attempt: Option<u64>,
}

impl<'a> Reply<'a> {
    /// Reads a reply's text; None where it is no object.
    pub fn parse(text: &'a [u8]) -> Option<Reply<'a>> {
        Reply::parse_word(text).or_else(|| Reply::parse_short(text)).or_else(|| serde_json::from_slice(text).ok())
    }

    /// Reads a reply that has its line's number and one word, as most have.
    fn parse_word(text: &'a [u8]) -> Option<Reply<'a>> {
        let rest = text.strip_prefix(BEGIN)?;
        let digits = digits_in(rest);
        let is_number = digits == 1 || (digits > 1 && rest[0] != b'0');
        let word = rest[digits..].strip_prefix(b",\"ok\":\"")?.strip_suffix(b"\"}")?;
        let is_word = word.iter().all(|byte| byte.is_ascii_lowercase() || *byte == b'_');
        let word = std::str::from_utf8(word).ok().filter(|_| is_word && is_number && digits <= MOST_DIGITS)?;
        Some(Reply { ok: Some(Cow::Borrowed(word)), ..Reply::default() })
    }

    /// Reads a short reply. None where it is left to the other reader.
    fn parse_short(text: &'a [u8]) -> Option<Reply<'a>> {
        let mut reply = Reply::default();
        if text.len() > SHORT {
            return None;
        }
        plain::each_member(text, |key, value| {
            let is_first = match (key.as_ref(), value) {
                ("ok", Value::Text(text)) => reply.ok.replace(text).is_none(),
                ("error", Value::Text(text)) => reply.error.replace(text).is_none(),
                ("class", Value::Text(text)) => reply.class.replace(text).is_none(),
                ("run", Value::Text(text)) => reply.run.replace(text).is_none(),
                ("token", Value::Text(text)) => reply.token.replace(text).is_none(),
                ("ready", value) => reply.ready.replace(value.whole()?).is_none(),
                ("attempt", value) => reply.attempt.replace(value.whole()?).is_none(),
                ("ok" | "error" | "class" | "run" | "token", _) => false,
                _ => true,
            };
            is_first.then_some(())
        })?;
        Some(reply)
    }

    /// Whether it says so.
    pub fn is(&self, ok: &str) -> bool {
        self.ok.as_deref() == Some(ok)
    }
}

const LINE: &[u8] = b"\"line\":";
/// How most replies begin: their keys are in order. A number of so many digits has room in 64 bits.
const BEGIN: &[u8] = b"{\"line\":";
const MOST_DIGITS: usize = 18;
/// A reply of more bytes has a history, of which only a few members are looked at.
const SHORT: usize = 512;

/// Where a reply has the number of its line. A text has its quotes escaped, so only a key looks so; and no event has
/// such a key.
fn line_in(text: &[u8]) -> Option<(usize, usize)> {
    let found = if text.starts_with(BEGIN) { BEGIN.len() } else { place_of(LINE, text)? + LINE.len() };
    let begin = found + usize::from(text.get(found) == Some(&b' '));
    let digits = digits_in(&text[begin..]);
    (digits > 0).then(|| (begin, begin + digits))
}

/// The number that digits are. None where they are more than have room in 64 bits.
fn whole_in(digits: &[u8]) -> Option<u64> {
    let number = || digits.iter().fold(0, |number, digit| 10 * number + u64::from(digit - b'0'));
    (digits.len() <= MOST_DIGITS).then(number)
}

/// How many digits a text begins with.
fn digits_in(text: &[u8]) -> usize {
    text.iter().take_while(|byte| byte.is_ascii_digit()).count()
}

/// Adds a reply's text to others, with its line's number in the log in the place of the number that the program gave it. None
/// where the program gave another number than was expected.
pub fn add_numbered(text: &[u8], expected: u64, line: u64, out: &mut Vec<u8>) -> Option<()> {
    let (begin, end) = line_in(text)?;
    if whole_in(&text[begin..end])? != expected {
        return None;
    }
    out.extend_from_slice(&text[..begin]);
    out.extend_from_slice(Digits::from(line).bytes());
    out.extend_from_slice(&text[end..]);
    Some(())
}

#[cfg(test)]
mod tests {
    use super::*;

    #[test]
    fn a_reply_gets_its_lines_number_in_the_log() {
        let numbered = |text: &str, line| {
            let mut out = b"before".to_vec();
            add_numbered(text.as_bytes(), 7, line, &mut out).map(|()| String::from_utf8(out).unwrap())
        };
        assert_eq!(numbered(r#"{"line":7,"ok":"none"}"#, 12).unwrap(), r#"before{"line":12,"ok":"none"}"#);
        assert_eq!(numbered(r#"{"line": 7, "ok": "none"}"#, 7).unwrap(), r#"before{"line": 7, "ok": "none"}"#);
        assert_eq!(numbered(r#"{"line":8,"ok":"none"}"#, 12), None);
        assert_eq!(numbered(r#"{"ok":"\"line\":7"}"#, 12), None);
    }

    #[test]
    fn a_short_reply_is_read_as_a_long_one() {
        let short = r#"{"attempt":2,"class":"timer","error":"E","ok":"retrying","ready":9,"run":"r","token":"t"}"#;
        let long = short.replace("}", &format!(r#","events":[{{"input":"{}"}}]}}"#, "x".repeat(SHORT)));
        for text in [short, &long] {
            let found = Reply::parse(text.as_bytes()).unwrap();
            let texts = [&found.class, &found.error, &found.ok, &found.run, &found.token];
            assert_eq!(texts.map(|text| text.as_deref().unwrap()), ["timer", "E", "retrying", "r", "t"]);
            assert_eq!((found.attempt, found.ready), (Some(2), Some(9)));
        }
    }

    #[test]
    fn a_reply_is_read_with_and_without_spaces() {
        let reply =
            Reply::parse(br#"{"class": "run_timeout", "line": 3, "ok": "fired", "events": [{"a": 1}]}"#).unwrap();
        assert!(reply.is("fired") && reply.class.as_deref() == Some("run_timeout") && reply.error.is_none());
        assert!(
            Reply::parse(b"[1]").is_none() && Reply::parse(b"{").is_none() && Reply::parse(br#"{"ok":1}"#).is_none()
        );
        let plain = Reply::parse(br#"{"line":18,"ok":"task_queued"}"#).unwrap();
        assert!(plain.is("task_queued") && plain.error.is_none() && plain.ready.is_none());
        for text in
            [r#"{"line":01,"ok":"a"}"#, r#"{"line":,"ok":"a"}"#, r#"{"line":1,"ok":"a}"#, r#"{"line":1,"ok":"a"b"}"#]
        {
            assert!(Reply::parse(text.as_bytes()).is_none(), "{text}");
        }
        assert!(Reply::parse(br#"{"line":1,"ok":"a\u0062"}"#).unwrap().is("ab"));
        assert!(
            Reply::parse(br#"{"ok":"a","ok":"b"}"#).is_none() && Reply::parse(br#"{"ok":null,"ready":null}"#).is_some()
        );
    }
}
