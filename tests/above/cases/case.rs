//! Cases as they are written.

use crate::cases::transcripts::push_line;
use service_model_types::request::Hint;
use std::alloc::{AllocError, Global};
use wf_event_values::{Field, Moment, TaskKind};

/// One thing that a case asks.
#[derive(Drop)]
pub(crate) enum Step {
    /// A line of the script.
    Line(Vec<u8>),
    /// A workflow task or an activity's attempt is taken, which no line asks for.
    StartTask { hint: Hint, at: Moment },
    /// A line's number is left out.
    Skip,
}

/// What the program is given, and what it has to answer.
#[derive(Drop)]
pub(crate) struct Case<'a> {
    name: &'a str,
    words: Vec<&'a str>,
    steps: Vec<Step>,
    room: Option<usize>,
    answers: String,
    status: &'a str,
    unknown_line: Option<usize>,
}

impl<'a> Case<'a> {
    fn new(alloc: Global, name: &'a str) -> Result<Case<'a>, AllocError> {
        let mut words = Vec::new(alloc);
        words.push("wfserve")?;
        Ok(Case {
            name,
            words,
            steps: Vec::new(alloc),
            room: None,
            answers: String::new(alloc),
            status: "0",
            unknown_line: None,
        })
    }

    /// What the case is called.
    pub(crate) fn name(&self) -> &str {
        self.name
    }

    /// The words of the command line, the program's name first.
    pub(crate) fn words(&self) -> &[&'a str] {
        &self.words
    }

    /// What is given and asked, in order.
    pub(crate) fn steps(&self) -> &[Step] {
        &self.steps
    }

    /// How many bytes standard output takes, before it takes none; without a number it takes all.
    pub(crate) fn room(&self) -> Option<usize> {
        self.room
    }

    /// The first line of the file that says nothing that a case can say.
    pub(crate) fn unknown_line(&self) -> Option<usize> {
        self.unknown_line
    }

    /// What has to come: the reply lines and the lines of standard error, and then the status.
    pub(crate) fn wanted(&self, alloc: Global) -> Result<String, AllocError> {
        let mut wanted = String::from_str(alloc, self.answers.as_str())?;
        push_line(&mut wanted, "=", self.status)?;
        Ok(wanted)
    }

    /// Puts so many more copies of the bytes after the last line of the script. False where there
    /// is no such line, or the count is no number.
    fn lengthen(&mut self, count: &str, bytes: &[u8]) -> Result<bool, AllocError> {
        let Ok(count) = count.parse::<u32>() else {
            return Ok(false);
        };
        let Some(Step::Line(line)) = self.steps.last_mut() else {
            return Ok(false);
        };
        for _ in 0..count {
            line.extend_from_slice(bytes)?;
        }
        Ok(true)
    }

    /// The same, with the number of the copy, from 1 on, in place of each `#` of the text.
    fn lengthen_numbered(
        &mut self,
        alloc: Global,
        count: &str,
        text: &str,
    ) -> Result<bool, AllocError> {
        let Ok(count) = count.parse::<u32>() else {
            return Ok(false);
        };
        let Some(Step::Line(line)) = self.steps.last_mut() else {
            return Ok(false);
        };
        for number in 0..count {
            push_numbered(alloc, line, text, number + 1)?;
        }
        Ok(true)
    }

    /// Adds what no line of a script says. False where it is nothing that is known.
    fn add_pseudo_line(&mut self, alloc: Global, text: &str) -> Result<bool, AllocError> {
        let words: Vec<&str> = text.split(' ').collect(alloc)?;
        match words.as_slice() {
            ["skip", ..] => self.steps.push(Step::Skip)?,
            // Only who runs the case as a script looks at these.
            ["cuts", ..] | ["steps", ..] => {}
            ["room", room] => match room.parse::<usize>() {
                Ok(room) => self.room = Some(room),
                Err(_) => return Ok(false),
            },
            _ => match start_task(&words) {
                Some(step) => self.steps.push(step)?,
                None => return Ok(false),
            },
        }
        Ok(true)
    }

    /// Adds what a line of the file says. False where it says nothing that a case can say.
    fn add(&mut self, alloc: Global, marker: &str, rest: &'a str) -> Result<bool, AllocError> {
        match marker {
            "" | "#" => {}
            "$" => self.words.extend(rest.split(' '))?,
            ">" => self.steps.push(Step::Line(rest.as_bytes().to_vec(alloc)?))?,
            "+" => {
                let (count, text) = rest.split_once(' ').unwrap_or((rest, ""));
                return self.lengthen(count, text.as_bytes());
            }
            "*" => {
                let (count, text) = rest.split_once(' ').unwrap_or((rest, ""));
                return self.lengthen_numbered(alloc, count, text);
            }
            "%" => {
                let (count, text) = rest.split_once(' ').unwrap_or((rest, ""));
                return match bytes_of(alloc, text)? {
                    Some(bytes) => self.lengthen(count, &bytes),
                    None => Ok(false),
                };
            }
            "@" => return self.add_pseudo_line(alloc, rest),
            "<" | "!" => push_line(&mut self.answers, marker, rest)?,
            "=" => self.status = rest,
            _ => return Ok(false),
        }
        Ok(true)
    }
}

/// Puts a text after a line, with the number in place of each `#`.
fn push_numbered(
    alloc: Global,
    line: &mut Vec<u8>,
    text: &str,
    number: u32,
) -> Result<(), AllocError> {
    let number = format!(in alloc; "{number}")?;
    for (place, part) in text.split('#').enumerate() {
        if place > 0 {
            line.extend_from_slice(number.as_bytes())?;
        }
        line.extend_from_slice(part.as_bytes())?;
    }
    Ok(())
}

/// The bytes that are written as hexadecimal numbers.
fn bytes_of(alloc: Global, text: &str) -> Result<Option<Vec<u8>>, AllocError> {
    let mut bytes = Vec::new(alloc);
    for word in text.split(' ') {
        let Ok(byte) = u8::from_str_radix(word, 16) else {
            return Ok(None);
        };
        bytes.push(byte)?;
    }
    Ok(Some(bytes))
}

/// `start_task shard S run R event E attempt A at T`: the workflow task is taken; with the word
/// `start_activity_task`: an activity's attempt.
fn start_task(words: &[&str]) -> Option<Step> {
    let [
        name,
        "shard",
        shard,
        "run",
        run,
        "event",
        event,
        "attempt",
        attempt,
        "at",
        at,
    ] = words
    else {
        return None;
    };
    let kind = match *name {
        "start_task" => TaskKind::Workflow,
        "start_activity_task" => TaskKind::Activity,
        _ => return None,
    };
    let hint = Hint {
        kind,
        shard: shard.parse().ok()?,
        run: run.parse().ok()?,
        event: event.parse().ok()?,
        attempt: attempt.parse().ok()?,
    };
    let at = Moment::new(Field::At, at.parse().ok()?).ok()?;
    Some(Step::StartTask { hint, at })
}

/// The cases of a file. What stands before the first of them is passed over.
pub(crate) fn cases_of(alloc: Global, text: &str) -> Result<Vec<Case<'_>>, AllocError> {
    let mut cases: Vec<Case<'_>> = Vec::new(alloc);
    for (place, line) in text.split('\n').enumerate() {
        let (marker, rest) = line.split_once(' ').unwrap_or((line, ""));
        if marker == "##" {
            cases.push(Case::new(alloc, rest)?)?;
        } else if let Some(case) = cases.last_mut() {
            if !case.add(alloc, marker, rest)? && case.unknown_line.is_none() {
                case.unknown_line = Some(place.saturating_add(1));
            }
        }
    }
    Ok(cases)
}
