//! What is asked of a service, and what it answers, also where memory is refused to it.

use crate::cases::case::Step;
use crate::cases::opened::{CallForm, Opened};
use script::LINE_LIMIT;
use service::KeepsShard;
use service_model_types::answer::{Answer, Reply};
use service_model_types::call::{Call, StartTask, StepCall};
use service_model_types::settings::Settings;
use std::alloc::{AllocError, AllocGlobal, Global};
use std::sync::Wait;
use wf_event_values::{Field, Refusal};
use wire_replies::reply_text;
use wire_requests::{Asked, read_line};

/// A service, and the text of what was told of it so far: the reply lines, and after a call that was
/// refused memory what its histories and descriptions are then.
pub(crate) struct Talk<'a, S: KeepsShard> {
    pub(crate) settings: &'a Settings,
    pub(crate) form: CallForm,
    pub(crate) opened: Opened<S>,
    pub(crate) text: String,
    /// Whether a reply was a refusal.
    pub(crate) is_refused: bool,
    /// Whether a dispatch turn was refused memory, so that a hint may wait twice.
    pub(crate) has_hints_twice: bool,
}

impl<S: KeepsShard> Drop for Talk<'_, S> {
    fn drop(self) {
        let Talk {
            settings: _,
            form: _,
            opened: _,
            text: _,
            is_refused: _,
            has_hints_twice: _,
        } = self;
    }
}

/// The call that a step asks for, the fault that is found in it, or nothing where it asks nothing.
fn asked(alloc: Global, settings: &Settings, step: &Step) -> Result<Option<Call>, Refusal> {
    let line = match step {
        Step::Line(line) => line,
        Step::StartTask { hint, at } => {
            let start = StartTask {
                hint: *hint,
                at: *at,
            };
            return Ok(Some(Call::Step(StepCall::StartTask(start))));
        }
        Step::Skip => return Ok(None),
    };
    if line.len() > LINE_LIMIT {
        return Err(Refusal::InvalidArgument(Field::Line));
    }
    let Ok(text) = str::from_utf8(line) else {
        return Err(Refusal::InvalidArgument(Field::Json));
    };
    match read_line(alloc, settings, text)? {
        Asked::Barrier => Ok(None),
        Asked::Call(lane) => Ok(Some(lane.into_call())),
    }
}

impl<S: KeepsShard> Talk<'_, S> {
    /// The same. Where memory is refused as a line is read, it is read again.
    fn asked(&mut self, alloc: Global, step: &Step) -> Result<Option<Call>, Refusal> {
        match asked(alloc, self.settings, step) {
            Err(Refusal::NoMemory) => {
                self.text.push_str("refused as a line was read\n")?;
                asked(alloc, self.settings, step)
            }
            asked => asked,
        }
    }

    /// Tells a reply. Where memory is refused as it is written, it is written again.
    fn push_reply(&mut self, alloc: Global, number: u64, reply: &Reply) -> Result<(), AllocError> {
        self.is_refused |= reply.is_err();
        if let Ok(text) = reply_text(alloc, number, reply) {
            return self.text.push_str(text.as_str());
        }
        self.text.push_str("refused as a reply was written\n")?;
        let text = reply_text(alloc, number, reply)?;
        self.text.push_str(text.as_str())
    }

    /// Tells a reply, and whether it is that a hint's task waits no more.
    fn tell_reply(&mut self, alloc: Global, number: u64, reply: Reply) -> Result<bool, AllocError> {
        let is_stale = matches!(&reply, Ok(Answer::Stale));
        match self.push_reply(alloc, number, &reply) {
            Ok(()) => Ok(is_stale),
            Err(error) => Err(error),
        }
    }

    /// Tells what these lines read.
    pub(crate) fn push_reads<R: AllocGlobal + Wait>(
        &mut self,
        rt: &R,
        reads: &[Step],
    ) -> Result<(), AllocError> {
        for read in reads {
            let Ok(Some(call)) = asked(rt.alloc(), self.settings, read) else {
                return Err(AllocError);
            };
            match self.opened.serve(rt, self.form, 0, call) {
                Ok(reply) => self.tell_reply(rt.alloc(), 0, reply)?,
                Err(_) => return Err(AllocError),
            };
        }
        Ok(())
    }

    /// Tells what lines read after a word that says what came before.
    pub(crate) fn push_reads_behind<R: AllocGlobal + Wait>(
        &mut self,
        rt: &R,
        word: &str,
        reads: &[Step],
    ) -> Result<(), AllocError> {
        self.text.push_str(word)?;
        self.push_reads(rt, reads)
    }

    /// Tells what a call left that was refused memory, and makes it again: as it came back, or as it was
    /// asked.
    fn tell_again<R: AllocGlobal + Wait>(
        &mut self,
        rt: &R,
        place: usize,
        step: &Step,
        again: Option<Call>,
        reads: &[Step],
    ) -> Result<bool, AllocError> {
        if self
            .push_reads_behind(rt, "refused in a call\n", reads)
            .is_err()
        {
            return Err(AllocError);
        }
        let call = match again {
            Some(call) => call,
            None => match self.asked(rt.alloc(), step) {
                Ok(Some(call)) => call,
                _ => return Err(AllocError),
            },
        };
        match self.opened.serve(rt, self.form, place, call) {
            Ok(reply) => self.tell_reply(rt.alloc(), number_at(place), reply),
            Err(_) => Err(AllocError),
        }
    }

    /// Tells what is answered to a step, and whether that is that its hint's task waits no more.
    fn tell<R: AllocGlobal + Wait>(
        &mut self,
        rt: &R,
        place: usize,
        step: &Step,
        reads: &[Step],
    ) -> Result<bool, AllocError> {
        let call = match self.asked(rt.alloc(), step) {
            Ok(Some(call)) => call,
            Ok(None) => return Ok(false),
            Err(refusal) => {
                return self.tell_reply(rt.alloc(), number_at(place), Err(refusal));
            }
        };
        let is_dispatch = matches!(&call, Call::DispatchTurn(_));
        match self.opened.serve(rt, self.form, place, call) {
            Ok(reply) => self.tell_reply(rt.alloc(), number_at(place), reply),
            Err(again) => {
                self.has_hints_twice |= is_dispatch;
                self.tell_again(rt, place, step, again, reads)
            }
        }
    }

    /// Tells what is answered to all steps. The poll that finds the second of two equal hints is stale,
    /// and is made again.
    pub(crate) fn tell_all<R: AllocGlobal + Wait>(
        &mut self,
        rt: &R,
        steps: &[Step],
        reads: &[Step],
    ) -> Result<(), AllocError> {
        for (place, step) in steps.iter().enumerate() {
            if self.tell(rt, place, step, reads)? && self.has_hints_twice {
                self.tell(rt, place, step, reads)?;
            }
        }
        Ok(())
    }
}

/// The number of the line at a place.
fn number_at(place: usize) -> u64 {
    (place as u64).saturating_add(1)
}
