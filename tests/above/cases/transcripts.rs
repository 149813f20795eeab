//! What was answered, in the form in which a case says what has to be.

use std::alloc::{AllocError, Global};

/// One more line: its marker, and what it says.
pub(crate) fn push_line(text: &mut String, marker: &str, said: &str) -> Result<(), AllocError> {
    text.push_str(marker)?;
    if !said.is_empty() {
        text.push(' ')?;
        text.push_str(said)?;
    }
    text.push('\n')
}

/// Each line of a text under a marker.
fn push_lines(transcript: &mut String, marker: &str, text: &[u8]) -> Result<(), AllocError> {
    for line in str::from_utf8(text).unwrap_or("(no text)").lines() {
        push_line(transcript, marker, line)?;
    }
    Ok(())
}

/// What a program wrote to standard output and to standard error, and its exit status.
pub(crate) fn transcript(
    alloc: Global,
    output: &[u8],
    errors: &[u8],
    status: u8,
) -> Result<String, AllocError> {
    let mut transcript = String::new(alloc);
    push_lines(&mut transcript, "<", output)?;
    push_lines(&mut transcript, "!", errors)?;
    let status = status.to_string(alloc)?;
    push_line(&mut transcript, "=", status.as_str())?;
    Ok(transcript)
}

/// The first line in which the texts differ, as it is wanted and as it is.
pub(crate) fn first_difference<'a>(wanted: &'a str, got: &'a str) -> Option<(&'a str, &'a str)> {
    let mut got_lines = got.lines();
    for wanted_line in wanted.lines() {
        let got_line = got_lines.next().unwrap_or("");
        if got_line != wanted_line {
            return Some((wanted_line, got_line));
        }
    }
    match got_lines.next() {
        Some(got_line) => Some(("", got_line)),
        None => None,
    }
}
