//! The program as a co-process: lines go in by one pipe, and their replies come out by another.

use crate::call::fault::Fault;
use crate::call::reply::add_numbered;
use crate::json::scan::place_of_byte;
use crate::os::system;
use std::collections::VecDeque;
use std::io::{BufRead, BufReader, Read, Write};
use std::os::unix::process::ExitStatusExt;
use std::process::{Child, ChildStderr, ChildStdin, ChildStdout, Command, ExitStatus, Stdio};
use std::sync::{Arc, Mutex, PoisonError};
use std::thread::{Builder, JoinHandle};

/// A line that is answered by every program that has opened, and leaves all as it was: the first part of a dispatch
/// turn only reads.
pub const CHANGES_NOTHING: &[u8] = b"{\"op\":\"dispatch_turn\",\"shard\":0,\"stop\":1}\n";
const LINES_KEPT: usize = 5;
const PIPE_BYTES: usize = 1 << 20;

type LastWords = Arc<Mutex<VecDeque<String>>>;

/// A running program. What it says on standard error is handed on, but for lines with the text `unsaid`.
pub struct Program {
    child: Child,
    input: Option<ChildStdin>,
    pub output: Output,
    said: LastWords,
    listener: Option<JoinHandle<()>>,
}

/// The program's replies.
pub struct Output {
    pipe: ChildStdout,
    /// Bytes that were read, of which no reply was taken from `begin` on.
    read: Vec<u8>,
    begin: usize,
    /// How many replies were taken.
    replies: u64,
    /// What one read may bring.
    chunk: Vec<u8>,
}

impl Output {
    fn new(pipe: ChildStdout) -> Output {
        system::widen_pipe(&pipe, PIPE_BYTES as i32);
        Output { pipe, read: Vec::new(), begin: 0, replies: 0, chunk: vec![0; PIPE_BYTES] }
    }

    /// The next reply that was read, without its line's end.
    fn cut(&mut self) -> Option<&[u8]> {
        let rest = &self.read[self.begin..];
        let length = place_of_byte(b'\n', rest)?;
        let begin = self.begin;
        self.begin += length + 1;
        Some(&self.read[begin..begin + length])
    }

    /// Reads more. False where the program has closed its output.
    fn read_more(&mut self) -> bool {
        self.read.drain(..self.begin);
        self.begin = 0;
        let count = loop {
            match self.pipe.read(&mut self.chunk) {
                Err(fault) if fault.kind() == std::io::ErrorKind::Interrupted => {}
                result => break result.unwrap_or(0),
            }
        };
        self.read.extend_from_slice(&self.chunk[..count]);
        count > 0
    }

    /// Whether a reply was read and not taken.
    pub fn has_more(&self) -> bool {
        self.read[self.begin..].contains(&b'\n')
    }

    /// How many replies were read and not taken, up to so many.
    pub fn count(&self, most: usize) -> usize {
        self.read[self.begin..].iter().filter(|byte| **byte == b'\n').take(most).count()
    }

    /// Waits until a reply was read. False where the program has closed its output before.
    pub fn wait(&mut self) -> bool {
        while !self.has_more() {
            if !self.read_more() {
                return false;
            }
        }
        true
    }

    /// Adds the next reply that was read to other texts, under the number that its line has in the log.
    pub fn take(&mut self, line: u64, out: &mut Vec<u8>) -> Option<Result<(), Fault>> {
        let expected = self.replies + 1;
        let text = self.cut()?;
        let added = add_numbered(text, expected, line, out).ok_or_else(|| {
            let shown: String = String::from_utf8_lossy(text).chars().take(200).collect();
            Fault::Ended(format!("line {line}: the reply is to another line: {shown}"))
        });
        self.replies = expected;
        Some(added)
    }

    /// Puts the next reply in the place of a text, once it is there; None where the program has ended before.
    pub fn reply(&mut self, line: u64, text: &mut Vec<u8>) -> Option<Result<(), Fault>> {
        self.wait();
        text.clear();
        self.take(line, text)
    }
}

impl Program {
    /// Starts it by these words.
    pub fn start(words: &[String], unsaid: Option<&'static str>) -> Result<Program, Fault> {
        let mut command = Command::new(&words[0]);
        command.args(&words[1..]).stdin(Stdio::piped()).stdout(Stdio::piped()).stderr(Stdio::piped());
        let fault = |fault: std::io::Error| Fault::Ended(format!("{}: {fault}", words[0]));
        let mut child = command.spawn().map_err(fault)?;
        let piped = (child.stdin.take(), child.stdout.take(), child.stderr.take());
        let (input, output, error) = match piped {
            (Some(input), Some(output), Some(error)) => (input, output, error),
            _ => return Err(Fault::Ended(format!("{}: its pipes are not there", words[0]))),
        };
        system::widen_pipe(&input, PIPE_BYTES as i32);
        let said = LastWords::default();
        let heard = said.clone();
        let listener = Builder::new().name("heard".to_string()).spawn(move || listen(error, &heard, unsaid));
        let listener = Some(listener.map_err(fault)?);
        Ok(Program { child, input: Some(input), output: Output::new(output), said, listener })
    }

    pub fn pid(&self) -> u32 {
        self.child.id()
    }

    /// Its input, for who feeds it from now on.
    pub fn take_input(&mut self) -> Option<ChildStdin> {
        self.input.take()
    }

    /// Gives its input back.
    pub fn give_input(&mut self, input: Option<ChildStdin>) {
        self.input = input;
    }

    /// Returns once it has opened and answered a line that changes nothing.
    pub fn check_answers(&mut self) -> Result<(), Fault> {
        if let Some(input) = &mut self.input {
            // That it has ended shows where its reply is read.
            let _ = input.write_all(CHANGES_NOTHING);
        }
        match self.output.reply(0, &mut Vec::new()) {
            Some(reply) => reply,
            None => Err(self.ended(0)),
        }
    }

    /// What it said on standard error last. It has to have ended.
    pub fn said(&mut self) -> String {
        if let Some(listener) = self.listener.take() {
            let _ = listener.join();
        }
        let said = self.said.lock().unwrap_or_else(PoisonError::into_inner);
        said.iter().filter(|line| !line.is_empty()).cloned().collect::<Vec<_>>().join("; ")
    }

    /// How it ended, which it has to have done, or to do now that its output is closed; this line was not answered.
    pub fn ended(&mut self, line: u64) -> Fault {
        self.input = None;
        let status = self.child.wait().map_or_else(|fault| fault.to_string(), |status| number_of(status).to_string());
        let said = self.said();
        let more = if said.is_empty() { String::new() } else { format!(": {said}") };
        Fault::Ended(format!("line {line}: the program ended with status {status}{more}"))
    }

    /// Whether it was ended by a signal that reaches all processes of a terminal, or of a service that is stopped. It has
    /// to have ended, or to do now that its output is closed.
    pub fn was_told_to_end(&mut self) -> bool {
        self.input = None;
        let signal = self.child.wait().ok().and_then(|status| status.signal());
        matches!(signal, Some(libc::SIGINT | libc::SIGTERM | libc::SIGHUP | libc::SIGQUIT))
    }

    /// Ends it at once.
    pub fn kill(&mut self) {
        let _ = self.child.kill();
        self.input = None;
        let _ = self.child.wait();
    }

    /// Ends its input, and waits until it has ended. Replies that nobody took are let be.
    pub fn end(mut self) {
        self.input = None;
        while self.output.read_more() {
            self.output.read.clear();
        }
        let _ = self.child.wait();
        self.said();
    }
}

/// A status as shells and Python have it: negative where a signal ended it.
fn number_of(status: ExitStatus) -> i32 {
    status.code().unwrap_or_else(|| -status.signal().unwrap_or(0))
}

/// Hands on what a program says, and keeps the last of it.
fn listen(error: ChildStderr, said: &LastWords, unsaid: Option<&str>) {
    let mut lines = BufReader::new(error);
    let mut line = Vec::new();
    while matches!(lines.read_until(b'\n', &mut line), Ok(count) if count > 0) {
        let text = String::from_utf8_lossy(&line).trim().to_string();
        if unsaid.map_or(true, |unsaid| !text.contains(unsaid)) {
            let _ = std::io::stderr().write_all(&line);
        }
        let mut said = said.lock().unwrap_or_else(PoisonError::into_inner);
        said.push_back(text);
        if said.len() > LINES_KEPT {
            said.pop_front();
        }
        line.clear();
    }
}

#[cfg(test)]
mod tests {
    use super::*;

    fn shell(script: &str) -> Program {
        let words = ["/bin/sh", "-c", script].map(str::to_string);
        Program::start(&words, Some("unsaid")).unwrap()
    }

    #[test]
    fn replies_are_taken_in_their_order_and_by_their_numbers() {
        let mut program = shell(r#"echo '{"line":1}'; printf '{"line":2}\n{"li'; sleep 0.1; echo 'ne":3}'; read x"#);
        let mut text = Vec::new();
        for number in 1..=3 {
            let wanted = format!("{{\"line\":{}}}", number + 7);
            program.output.reply(number + 7, &mut text).unwrap().unwrap();
            assert_eq!(text, wanted.as_bytes());
        }
        assert!(!program.output.has_more());
        program.end();
    }

    #[test]
    fn a_reply_to_another_line_is_a_fault() {
        let mut program = shell(r#"echo '{"line":2}'"#);
        let fault = program.output.reply(9, &mut Vec::new()).unwrap().unwrap_err();
        assert_eq!(fault.to_string(), "line 9: the reply is to another line: {\"line\":2}");
        program.kill();
    }

    #[test]
    fn its_end_is_told_with_what_it_said() {
        let mut program = shell("echo 'unsaid: no memory' >&2; exit 3");
        assert!(program.output.reply(4, &mut Vec::new()).is_none());
        assert_eq!(program.ended(4).to_string(), "line 4: the program ended with status 3: unsaid: no memory");
        let mut killed = shell("kill -9 $$");
        assert!(!killed.was_told_to_end() && shell("kill $$").was_told_to_end());
        assert_eq!(killed.check_answers().unwrap_err().to_string(), "line 0: the program ended with status -9");
    }
}
