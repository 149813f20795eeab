//! What the edge makes of a body: the beginning of a line that the log and the program get, and what it says.
//!
//! A body is read once. What it says is not written anew, so that edge and program can't read one line in two ways:
//! it gets the edge's moment, and its key where it has one, in the place of its last brace. Only a body with keys
//! that its operation doesn't have is written anew, without them.

use crate::call::facts::Facts;
use crate::call::fault::Fault;
use crate::call::operations::Op;
use crate::json::scan::place_of_byte;
use crate::json::{quoted, write_whole, Object, Value};
use crate::turns::shards::ShardCount;

/// A poll may wait so many milliseconds.
const MOST_WAIT: u64 = 60_000;
/// A completion's commands are four deep at most.
const DEEPEST: usize = 20;
const LONGEST_KEY: usize = 200;
/// Most keys, and a moment, have room in so many bytes.
const ROOM_FOR_END: usize = 64;
/// The member by which a line on a socket bears its key.
const CALL: &str = "call";

/// A body that was read.
#[derive(Clone, Debug, PartialEq)]
pub struct ParsedCall {
    /// The line's text without its last brace, its moment and its key.
    pub begin: Vec<u8>,
    pub facts: Facts,
    /// For how many milliseconds a poll or a description may wait.
    pub wait: u64,
}

/// Reads the body of a call.
pub fn parse_call(body: &[u8], shards: ShardCount) -> Result<ParsedCall, Fault> {
    parsed_from(body, object_in(body)?, shards, Vec::new())
}

/// Reads the body of a call whose operation the path names: it has the fields alone.
pub fn parse_fields(op: &str, body: &[u8], shards: ShardCount) -> Result<ParsedCall, Fault> {
    parse_call(&with_op(op, body)?, shards)
}

/// A body with its operation as the first member.
fn with_op(op: &str, body: &[u8]) -> Result<Vec<u8>, Fault> {
    let blanks = |text: &[u8]| text.iter().take_while(|byte| b" \t\r\n".contains(byte)).count();
    let fields = body[blanks(body)..].strip_prefix(b"{");
    let fields = fields.ok_or_else(|| Fault::BadCall("the body is no object".to_string()))?;
    let fields = &fields[blanks(fields)..];
    let comma = if fields.starts_with(b"}") { "" } else { "," };
    let mut text = format!("{{\"op\":\"{op}\"{comma}").into_bytes();
    text.extend_from_slice(fields);
    Ok(text)
}

/// Reads a line of a socket, which may bear its key as a member. What is asked has its text in this memory.
pub fn parse_line(line: &[u8], shards: ShardCount, memory: Vec<u8>) -> Result<(ParsedCall, Option<Box<str>>), Fault> {
    let request = object_in(line)?;
    let key = match request.get(CALL) {
        None => None,
        Some(Value::Text(key)) => Some(call_key(key)?),
        Some(_) => return Err(Fault::BadCall(KEY_RULE.to_string())),
    };
    Ok((parsed_from(line, request, shards, memory)?, key))
}

fn object_in(body: &[u8]) -> Result<Object<'_>, Fault> {
    match Value::parse(body) {
        Ok(Value::Object(request)) => Ok(request),
        Ok(_) => Err(Fault::BadCall("the body is no object".to_string())),
        Err(fault) if fault.is_data() => Err(Fault::BadCall(fault.to_string())),
        Err(_) => Err(Fault::BadCall("the body is no JSON".to_string())),
    }
}

fn parsed_from(
    body: &[u8],
    mut request: Object<'_>,
    shards: ShardCount,
    mut begin: Vec<u8>,
) -> Result<ParsedCall, Fault> {
    let op = request.text("op").map_or(Op::Unknown, Op::parse);
    let wait = if op.is_poll() || op == Op::Describe { wait_of(&request)? } else { 0 };
    let (before, is_named) = (request.0.len(), request.text("op").map_or(false, |name| !name.is_empty()));
    let keys = op.keys();
    request.0.retain(|member| keys.has(&member.0) || (member.0 == "op" && is_named));
    if is_any_too_deep(&request) {
        return Err(Fault::BadCall(format!("its values lie more than {DEEPEST} deep")));
    }
    let facts = Facts::new(op, &request, shards);
    if request.0.len() == before && is_named {
        begin_of(body, &mut begin);
    } else {
        begin = written(&request, is_named);
    }
    Ok(ParsedCall { begin, facts, wait })
}

fn is_any_too_deep(request: &Object<'_>) -> bool {
    request.0.iter().any(|member| member.1.is_deeper(DEEPEST - 1))
}

/// The body without its last brace, in one line, in the place of what this text was.
fn begin_of(body: &[u8], begin: &mut Vec<u8>) {
    let end = body.iter().rposition(|byte| *byte == b'}').unwrap_or(body.len());
    begin.clear();
    begin.reserve(end + ROOM_FOR_END);
    begin.extend(body[..end].iter().map(|byte| if matches!(byte, b'\n' | b'\r') { b' ' } else { *byte }));
}

/// A request written anew, with the keys that it may have.
fn written(request: &Object<'_>, is_named: bool) -> Vec<u8> {
    if !is_named {
        return b"{\"op\":null".to_vec();
    }
    let mut text = Vec::new();
    Value::Object(request.clone()).write(&mut text);
    text.pop();
    text
}

/// For how many milliseconds a poll or a description may wait.
fn wait_of(request: &Object<'_>) -> Result<u64, Fault> {
    let wait = request.get("wait").map_or(Some(0), Value::whole);
    let fault = || Fault::BadCall(format!("wait is a whole number of milliseconds, at most {MOST_WAIT}"));
    wait.filter(|wait| *wait <= MOST_WAIT).ok_or_else(fault)
}

const KEY_RULE: &str = "a call's key has 1 to 200 visible ASCII characters, without \" and \\";

/// The key by which a call's reply is had again: what can stand in a header and in a line without escapes.
pub fn call_key(text: &str) -> Result<Box<str>, Fault> {
    let is_plain = |byte: u8| byte.is_ascii_graphic() && byte != b'"' && byte != b'\\';
    if text.is_empty() || text.len() > LONGEST_KEY || !text.bytes().all(is_plain) {
        return Err(Fault::BadCall(KEY_RULE.to_string()));
    }
    Ok(text.into())
}

/// A moment of lines, and how they end: those of a batch have one.
pub struct Moment {
    at: u64,
    text: Vec<u8>,
}

impl Moment {
    pub fn new(at: u64) -> Moment {
        let mut text = b",\"at\":".to_vec();
        write_whole(at, &mut text);
        text.push(b'}');
        Moment { at, text }
    }

    pub fn at(&self) -> u64 {
        self.at
    }

    /// Ends a line of this beginning.
    pub fn end_line(&self, line: &mut Vec<u8>, key: Option<&str>) {
        if let Some(key) = key {
            line.extend_from_slice(b",\"call\":\"");
            line.extend_from_slice(key.as_bytes());
            line.push(b'"');
        }
        line.extend_from_slice(&self.text);
    }
}

/// The beginning and the key of a line that `Moment::end_line` ended with one.
pub fn keyed_begin(line: &[u8]) -> Option<(&[u8], &str)> {
    let rest = line.strip_suffix(b"}")?;
    let digits = rest.iter().rev().take_while(|byte| byte.is_ascii_digit()).count();
    let rest = rest[..rest.len() - digits].strip_suffix(b"\",\"at\":")?;
    let quote = rest.iter().rposition(|byte| *byte == b'"')?;
    let key = std::str::from_utf8(&rest[quote + 1..]).ok()?;
    let begin = rest[..quote].strip_suffix(b",\"call\":")?;
    (digits > 0 && call_key(key).is_ok()).then_some((begin, key))
}

/// What a line of a log says that is opened. One that can't be read was refused when it was made.
pub fn facts_of_line(line: &[u8], shards: ShardCount) -> (Facts, Option<u64>) {
    match Value::parse(line) {
        Ok(Value::Object(request)) => {
            let op = request.text("op").map_or(Op::Unknown, Op::parse);
            (Facts::new(op, &request, shards), request.get("at").and_then(Value::whole))
        }
        _ => (Facts::unknown(), None),
    }
}

/// What the program is given for a line of the log when it is served again.
///
/// A log of an earlier time has reads, and a history is long. A description sets the same moment on the same shard,
/// and changes as little.
pub fn for_replay(line: &[u8]) -> Option<Vec<u8>> {
    let request = match names_history(line).then(|| Value::parse(line)) {
        Some(Ok(Value::Object(request))) if request.text("op") == Some("history") => request,
        _ => return None,
    };
    let at = request.get("at").and_then(Value::whole).unwrap_or(0);
    let mut text = format!("{{\"op\":\"describe\",\"at\":{at}");
    for name in ["workflow_id", "run"] {
        if let Some(named) = request.text(name) {
            text += &format!(",\"{name}\":{}", quoted(named));
        }
    }
    Some((text + "}").into_bytes())
}

/// Whether a line has this word in quotes. It is looked for by its last letter, which few words have.
fn names_history(line: &[u8]) -> bool {
    let mut begin = 0;
    while let Some(length) = place_of_byte(b'y', &line[begin..]) {
        begin += length + 1;
        if line[..begin].ends_with(b"\"history") && line.get(begin) == Some(&b'"') {
            return true;
        }
    }
    false
}

#[cfg(test)]
mod tests {
    use super::*;
    use crate::turns::shards::shards;

    fn line_of(body: &str) -> String {
        let mut line = parse_call(body.as_bytes(), shards(4)).unwrap().begin;
        Moment::new(17).end_line(&mut line, None);
        String::from_utf8(line).unwrap()
    }

    #[test]
    fn a_body_gets_the_edges_moment_and_is_not_written_anew() {
        assert_eq!(
            line_of("{\"op\":\"signal\",\r\n \"workflow_id\":\"w\", \"input\":\"1.50\"}\n"),
            "{\"op\":\"signal\",   \"workflow_id\":\"w\", \"input\":\"1.50\",\"at\":17}"
        );
    }

    #[test]
    fn keys_that_an_operation_has_not_are_dropped() {
        let body = r#"{"lane":3,"op":"signal","at":9,"workflow_id":"w","barrier":true,"wait":1}"#;
        assert_eq!(line_of(body), r#"{"op":"signal","workflow_id":"w","at":17}"#);
        for body in ["{}", r#"{"op":null,"run":"r"}"#, r#"{"op":[[]]}"#, r#"{"op":7}"#, r#"{"op":""}"#] {
            assert_eq!(line_of(body), r#"{"op":null,"at":17}"#, "{body}");
        }
        assert_eq!(line_of(r#"{"op":"query","run":"r"}"#), r#"{"op":"query","at":17}"#);
        assert_eq!(parse_call(br#"{"op":"poll_activity_task","wait":5}"#, shards(4)).unwrap().wait, 5);
    }

    #[test]
    fn what_is_no_call_is_refused() {
        let deep = format!(r#"{{"op":"signal","input":{}{}}}"#, "[".repeat(22), "]".repeat(22));
        for (body, said) in [
            ("{", "no JSON"),
            ("[1]", "no object"),
            (r#"{"op":"signal","run":"r","run":"s"}"#, "comes twice"),
            (r#"{"op":"poll_activity_task","wait":60001}"#, "wait is"),
            (r#"{"op":"poll_activity_task","wait":true}"#, "wait is"),
            (r#"{"op":"poll_activity_task","wait":-1}"#, "wait is"),
            (&deep, "20 deep"),
        ] {
            let fault = parse_call(body.as_bytes(), shards(4)).unwrap_err();
            assert!(fault.name() == "BadCall" && fault.to_string().contains(said), "{body}: {fault}");
        }
    }

    #[test]
    fn a_path_may_name_the_operation() {
        for (body, line) in [
            ("{}", r#"{"op":"signal""#),
            (" { }\n", r#"{"op":"signal""#),
            ("\r\n{ \"name\":\"n\"}", r#"{"op":"signal","name":"n""#),
            (r#"{"lane":1,"name":"n"}"#, r#"{"op":"signal","name":"n""#),
        ] {
            let found = parse_fields("signal", body.as_bytes(), shards(4)).unwrap();
            assert_eq!(String::from_utf8_lossy(&found.begin), line, "{body}");
        }
        for body in ["", "[]", "{", r#"{"op":"signal"}"#, r#"{"op":"start"}"#, r#"{}{"a":1}"#, "{,}"] {
            assert_eq!(parse_fields("signal", body.as_bytes(), shards(4)).unwrap_err().name(), "BadCall", "{body}");
        }
    }

    #[test]
    fn a_key_is_found_again_at_the_end_of_its_line() {
        let mut line = parse_call(br#"{"op":"signal","name":"\",\"call\":\"x\",\"at\":1}"}"#, shards(4)).unwrap().begin;
        let begin = line.clone();
        Moment::new(17).end_line(&mut line, Some("k-1"));
        assert_eq!(keyed_begin(&line), Some((begin.as_slice(), "k-1")));
        let mut plain = begin.clone();
        Moment::new(17).end_line(&mut plain, None);
        assert_eq!(keyed_begin(&plain), None);
        for wrong in ["", "a b", "a\"", "\\", "ü", &"k".repeat(201)] {
            assert!(call_key(wrong).is_err(), "{wrong}");
        }
    }

    #[test]
    fn a_line_of_a_socket_bears_its_key() {
        let (found, key) =
            parse_line(br#"{"op":"signal","call":"k","name":"n"}"#, ShardCount::ONE, b"old".to_vec()).unwrap();
        assert_eq!((found.begin.as_slice(), key.as_deref()), (&br#"{"op":"signal","name":"n""#[..], Some("k")));
        assert!(parse_line(br#"{"op":"signal","call":7}"#, shards(1), Vec::new()).is_err());
    }

    #[test]
    fn a_history_of_an_earlier_log_is_served_again_as_a_description() {
        let line = br#"{"op":"history","workflow_id":"w","run":[],"at":5}"#;
        assert_eq!(for_replay(line).unwrap(), br#"{"op":"describe","at":5,"workflow_id":"w"}"#);
        assert_eq!(for_replay(br#"{"op":"signal","name":"history"}"#), None);
    }
}
