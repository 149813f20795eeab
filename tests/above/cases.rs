//! The mode `cases`.
//!
//! `cases FILE..` runs the cases that the files have, and prints one line for each.
//! `cases --tell=FILE` tells what the calls of the file's first case are answered, and what the lines of
//! its second one read after each call that is refused memory (`tools/refused_allocations.py`).
//!
//! A case is text: what the program is given, and what it has to answer. Here each that can be is run by the
//! calls of the service, in the form that may wait and in the one that never does; the answers have to be
//! those of the case. As scripts `tools/case_rows.py` gives them to the built program.
//! `tests/cases/README.md` says how a case is written.

mod calls;
mod case;
mod opened;
mod talk;
mod transcripts;

use crate::cases::calls::by_calls;
use crate::cases::case::{Case, cases_of};
use crate::cases::opened::CallForm;
use crate::cases::transcripts::first_difference;
use std::alloc::AllocGlobal;
use std::io;
use std::rt::Files;
use std::sync::Wait;
use workflow_service::Shard;

/// How many cases there are, how many of them failed, and whether a file was told of.
#[derive(Clone, Copy)]
struct Tally {
    cases: u64,
    failed: u64,
    tells: bool,
}

/// Prints what became of a case where something else came than what had to. Whether it is the same.
fn is_wanted<R: Print>(rt: &R, title: &str, by: &str, wanted: &str, got: &str) -> io::Result<bool> {
    let Some((wanted, got)) = first_difference(wanted, got) else {
        return Ok(true);
    };
    println!(rt; "{title}: differs {by}\n  wanted {wanted}\n  got    {got}")?;
    Ok(false)
}

/// Whether a case is answered as is wanted in this form, or nothing where it can't be run by calls.
fn passes_form<R: Print + AllocGlobal + Wait>(
    rt: &R,
    title: &str,
    case: &Case,
    form: CallForm,
    wanted: &str,
) -> io::Result<Option<bool>> {
    match by_calls::<Shard, R>(rt, case, form, &[])? {
        Some(got) => Ok(Some(is_wanted(rt, title, form.name(), wanted, got.as_str())?)),
        None => Ok(None),
    }
}

/// Runs a case in both forms, and prints what became of it. Whether neither answers something else.
fn passes_forms<R: Print + AllocGlobal + Wait>(
    rt: &R,
    title: &str,
    case: &Case,
    wanted: &str,
) -> io::Result<bool> {
    let mut outcome = "by the program alone";
    for form in CallForm::ALL {
        match passes_form(rt, title, case, form, wanted)? {
            Some(true) => outcome = "ok",
            Some(false) => return Ok(false),
            None => {}
        }
    }
    println!(rt; "{title}: {outcome}")?;
    Ok(true)
}

/// Whether a case passes. One with a line that says nothing doesn't.
fn passes<R: Print + AllocGlobal + Wait>(rt: &R, file: &str, case: &Case) -> io::Result<bool> {
    if let Some(line) = case.unknown_line() {
        println!(rt; "{file}: line {line} says nothing that a case can say")?;
        return Ok(false);
    }
    let name = case.name();
    let title = format!(in rt.alloc(); "{file}: {name}")?;
    let wanted = case.wanted(rt.alloc())?;
    passes_forms(rt, title.as_str(), case, wanted.as_str())
}

fn run_cases<R: Print + AllocGlobal + Wait>(
    rt: &R,
    file: &str,
    cases: &[Case],
    tally: &mut Tally,
) -> io::Result<()> {
    for case in cases {
        tally.cases = tally.cases.saturating_add(1);
        if !passes(rt, file, case)? {
            tally.failed = tally.failed.saturating_add(1);
        }
    }
    Ok(())
}

/// Tells what the calls of the first of two cases are answered where memory may be refused, and what
/// the second one's lines read.
fn tell<R: Print + AllocGlobal + Wait>(
    rt: &R,
    cases: &[Case],
    tally: &mut Tally,
) -> io::Result<()> {
    tally.tells = true;
    tally.cases = 1;
    let [case, reads] = cases else {
        tally.failed = 1;
        return Ok(());
    };
    // Where the command line fails for memory, the second time it does not.
    for _ in 0..2 {
        if let Some(told) = by_calls::<Shard, R>(rt, case, CallForm::MayWait, reads.steps())? {
            return println!(rt; "{told}");
        }
    }
    tally.failed = 1;
    Ok(())
}

/// Runs the cases of the file that a word names, or tells of them.
fn run_word<R: Files + Print + AllocGlobal + Wait>(
    rt: &R,
    word: &str,
    tally: &mut Tally,
) -> io::Result<()> {
    let file = word.strip_prefix("--tell=").unwrap_or(word);
    let text = std::fs::read_to_string(rt, file)?;
    let cases = cases_of(rt.alloc(), text.as_str())?;
    if file.len() < word.len() {
        tell(rt, cases.as_slice(), tally)
    } else {
        run_cases(rt, file, cases.as_slice(), tally)
    }
}

/// Runs the cases of all files that these words name. Whether there were some, and all passed.
pub(crate) fn run<R: Files + Print + AllocGlobal + Wait>(
    rt: &R,
    words: &[String],
) -> io::Result<bool> {
    let mut tally = Tally {
        cases: 0,
        failed: 0,
        tells: false,
    };
    for word in words {
        run_word(rt, word.as_str(), &mut tally)?;
    }
    let Tally {
        cases,
        failed,
        tells,
    } = tally;
    if !tells {
        println!(rt; "{cases} cases, {failed} failed")?;
    }
    Ok(cases > 0 && failed == 0)
}
