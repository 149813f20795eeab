//! Lines as calls of the service.

use crate::cases::case::{Case, Step};
use crate::cases::opened::{CallForm, Opened};
use crate::cases::talk::Talk;
use crate::cases::transcripts::transcript;
use script::run_one;
use script_settings::{CommandLine, settings_of};
use service::KeepsShard;
use service_model_types::request::Request;
use service_model_types::settings::Settings;
use std::alloc::{AllocError, AllocGlobal, Global};
use std::sync::Wait;
use step_record::Record;
use wf_event_values::Refusal;
use wire_counted::Counted;

/// The script that a case gives the program, or nothing where it has more than lines.
fn script_of(alloc: Global, case: &Case) -> Result<Option<Vec<u8>>, AllocError> {
    let mut script = Vec::new(alloc);
    for step in case.steps() {
        let Step::Line(line) = step else {
            return Ok(None);
        };
        script.extend_from_slice(line)?;
        script.push(b'\n')?;
    }
    Ok(Some(script))
}

/// The command line of a case, or nothing where the case can't be run by calls: its lines stand in a
/// file or go to several lanes, it loads or saves records or has a journal, it prints the steps too,
/// or its standard output gets full.
fn line_of<'a>(alloc: Global, case: &'a Case<'a>) -> Option<CommandLine<'a>> {
    if case.room().is_some() {
        return None;
    }
    let line = settings_of(alloc, case.words()).ok()?;
    let keeps_no_records = line.save.is_none() && line.journal.is_none();
    let reads_no_file = line.file.is_none() && line.load.is_none() && keeps_no_records;
    if !reads_no_file || line.trace || line.settings.passes != 1 {
        return None;
    }
    Some(line)
}

/// The records that a script leaves.
fn records_of<S: KeepsShard, R: AllocGlobal + Wait>(
    rt: &R,
    settings: &Settings,
    script: &[u8],
) -> Result<Vec<Record<Request>>, AllocError> {
    if script.is_empty() || settings.passes != 1 {
        return Ok(Vec::new(rt.alloc()));
    }
    let mut reader = Counted::new(script);
    let mut writer = Counted::new(Vec::new(rt.alloc()));
    match run_one::<S, _, _, _>(rt, rt.alloc(), settings, false, &mut reader, &mut writer) {
        Ok(outcome) => Ok(outcome.records),
        Err(_) => Err(AllocError),
    }
}

/// Opens a service from the records that a script leaves, once more where memory is refused; nothing
/// where none is opened.
fn opened_behind<S: KeepsShard, R: AllocGlobal + Wait>(
    rt: &R,
    settings: &Settings,
    script: &[u8],
    told: &mut String,
) -> Result<Option<Opened<S>>, AllocError> {
    for _ in 0..2 {
        let records = records_of::<S, R>(rt, settings, script)?;
        match Opened::open(rt.alloc(), settings, records) {
            Ok(opened) => return Ok(Some(opened)),
            Err(Refusal::NoMemory) => told.push_str("refused as a service was opened\n")?,
            Err(_) => return Ok(None),
        }
    }
    Err(AllocError)
}

/// Tells what lines read of a service that is opened from the records of a script.
fn tell_reopened<S: KeepsShard, R: AllocGlobal + Wait>(
    rt: &R,
    talk: &mut Talk<S>,
    script: &[u8],
    reads: &[Step],
) -> Result<(), AllocError> {
    if let Some(again) = opened_behind(rt, talk.settings, script, &mut talk.text)? {
        talk.opened = again;
        return talk.push_reads_behind(rt, "opened again\n", reads);
    }
    Ok(())
}

/// Tells what lines read at the end, and once more of a service that is opened from the records of the
/// case's lines.
fn tell_end<S: KeepsShard, R: AllocGlobal + Wait>(
    rt: &R,
    talk: &mut Talk<S>,
    case: &Case,
    reads: &[Step],
) -> Result<(), AllocError> {
    talk.opened.meet();
    talk.push_reads_behind(rt, "at the end\n", reads)?;
    match script_of(rt.alloc(), case)? {
        Some(script) => tell_reopened(rt, talk, &script, reads),
        None => Ok(()),
    }
}

/// What was told of all steps, and at the end where there are reads.
fn told<S: KeepsShard, R: AllocGlobal + Wait>(
    rt: &R,
    talk: &mut Talk<S>,
    case: &Case,
    reads: &[Step],
) -> Result<Option<String>, AllocError> {
    talk.tell_all(rt, case.steps(), reads)?;
    let status = u8::from(talk.is_refused);
    if !reads.is_empty() {
        tell_end(rt, talk, case, reads)?;
    }
    Ok(Some(transcript(rt.alloc(), talk.text.as_bytes(), b"", status)?))
}

/// What a service of these settings answers, or nothing where none is opened.
fn answered<S: KeepsShard, R: AllocGlobal + Wait>(
    rt: &R,
    settings: &Settings,
    case: &Case,
    form: CallForm,
    reads: &[Step],
) -> Result<Option<String>, AllocError> {
    let mut text = String::new(rt.alloc());
    let Some(opened) = opened_behind::<S, R>(rt, settings, b"", &mut text)? else {
        return Ok(None);
    };
    let mut talk = Talk {
        settings,
        form,
        opened,
        text,
        is_refused: false,
        has_hints_twice: false,
    };
    told(rt, &mut talk, case, reads)
}

/// What the calls answer, or nothing where the case can't be run by calls. Where there are reads, what
/// they show is told too of each call that is refused memory, and at the end.
pub(crate) fn by_calls<S: KeepsShard, R: AllocGlobal + Wait>(
    rt: &R,
    case: &Case,
    form: CallForm,
    reads: &[Step],
) -> Result<Option<String>, AllocError> {
    match line_of(rt.alloc(), case) {
        Some(line) => answered::<S, R>(rt, &line.settings, case, form, reads),
        None => Ok(None),
    }
}
