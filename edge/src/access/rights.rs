//! What the bearer of a token may do.

use crate::call::operations::Op;
use std::fmt;

/// One thing that a token may have the right to.
#[derive(Clone, Copy, Debug, PartialEq, Eq)]
pub enum Right {
    /// Histories, descriptions, blobs and the page.
    Read,
    /// Polls, and what is said of their tasks.
    Work,
    /// Starts, signals, and the ends that clients ask for.
    Start,
    /// Compactions, metrics, and turns.
    Operate,
    /// What edges ask each other.
    Peer,
}

impl Right {
    const ALL: [Right; 5] = [Right::Read, Right::Work, Right::Start, Right::Operate, Right::Peer];

    /// Its word in a file of tokens.
    pub fn word(self) -> &'static str {
        match self {
            Right::Read => "read",
            Right::Work => "work",
            Right::Start => "start",
            Right::Operate => "operate",
            Right::Peer => "peer",
        }
    }

    fn parse(word: &str) -> Option<Right> {
        Right::ALL.into_iter().find(|right| right.word() == word)
    }

    /// The right that an operation wants.
    fn of_operation(op: Op) -> Right {
        match op {
            Op::History | Op::Describe => Right::Read,
            Op::PollWorkflowTask
            | Op::PollActivityTask
            | Op::CompleteWorkflowTask
            | Op::FailWorkflowTask
            | Op::CompleteActivity
            | Op::FailActivity
            | Op::CancelActivity
            | Op::Heartbeat => Right::Work,
            // A line of no operation is written and refused, as a start may be.
            Op::Start | Op::Signal | Op::SignalWithStart | Op::RequestCancel | Op::Terminate | Op::Unknown => {
                Right::Start
            }
            Op::TimerTurn | Op::DispatchTurn | Op::TransferTurn => Right::Operate,
        }
    }
}

/// What a token may do.
#[derive(Clone, Debug, Default, PartialEq, Eq)]
pub struct Rights {
    has: Vec<Right>,
    /// The task queues that may be polled; none where all may be.
    queues: Option<Vec<Box<str>>>,
}

/// The right that a caller lacks.
#[derive(Clone, Debug, PartialEq, Eq)]
pub struct Missing {
    right: Right,
    queue: Option<Box<str>>,
}

impl fmt::Display for Missing {
    fn fmt(&self, out: &mut fmt::Formatter<'_>) -> fmt::Result {
        match &self.queue {
            Some(queue) => write!(out, "{} for the queue {queue}", self.right.word()),
            None => out.write_str(self.right.word()),
        }
    }
}

impl Rights {
    /// All of them.
    pub fn all() -> Rights {
        Rights { has: Right::ALL.to_vec(), queues: None }
    }

    /// Reads the words of a line: rights, of which `work` may name queues, as in `work:mail,orders`.
    pub fn parse<'a>(words: impl Iterator<Item = &'a str>) -> Result<Rights, String> {
        let mut rights = Rights::default();
        for word in words {
            let (name, queues) = word.split_once(':').map_or((word, None), |(name, queues)| (name, Some(queues)));
            let right = Right::parse(name).ok_or_else(|| format!("{name} is no right: {}", words_of(&Right::ALL)))?;
            if rights.has.contains(&right) {
                return Err(format!("{name} stands there twice"));
            }
            if let Some(queues) = queues {
                rights.queues = Some(queues_in(right, queues)?);
            }
            rights.has.push(right);
        }
        if rights.has.is_empty() {
            return Err(format!("it has no right: {}", words_of(&Right::ALL)));
        }
        Ok(rights)
    }

    /// Refuses who lacks a right.
    pub fn check(&self, right: Right) -> Result<(), Missing> {
        if self.has.contains(&right) {
            return Ok(());
        }
        Err(Missing { right, queue: None })
    }

    /// Refuses who lacks one of these rights: the first one is named.
    pub fn check_any(&self, rights: &[Right]) -> Result<(), Missing> {
        let lacks = rights.first().map_or(Ok(()), |first| self.check(*first));
        if rights.iter().any(|right| self.has.contains(right)) {
            return Ok(());
        }
        lacks
    }

    /// Refuses who may not make a call of this operation, which polls this queue, where it polls one.
    pub fn check_call(&self, op: Op, queue: Option<&str>) -> Result<(), Missing> {
        let right = Right::of_operation(op);
        self.check(right)?;
        match (&self.queues, queue) {
            (Some(queues), Some(queue)) if !queues.iter().any(|other| &**other == queue) => {
                Err(Missing { right, queue: Some(queue.into()) })
            }
            _ => Ok(()),
        }
    }
}

fn queues_in(right: Right, queues: &str) -> Result<Vec<Box<str>>, String> {
    if right != Right::Work {
        return Err(format!("{} names no queues", right.word()));
    }
    let queues: Vec<Box<str>> = queues.split(',').map(Into::into).collect();
    if queues.iter().any(|queue| queue.is_empty()) {
        return Err("work names a queue without a name".to_string());
    }
    Ok(queues)
}

fn words_of(rights: &[Right]) -> String {
    rights.iter().map(|right| right.word()).collect::<Vec<_>>().join(", ")
}
