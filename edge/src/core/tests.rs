//! The core over a program of some lines of shell, which answers each line with its number.

use super::window::{Window, MOST_HELD};
use super::{Compacted, Core, Limits, NotReady, Pending, Threads};
use crate::call::body::parse_call;
use crate::call::fault::Fault;
use crate::log::file::Lines;
use crate::log::kept::NotServed;
use crate::log::opening::Opened;
use crate::log::table::memory::{table_in, Shared};
use crate::settings::Named;
use crate::testing::scratch::Scratch;
use crate::testing::test_wait::{received, returned, wait_until, SECONDS};
use crate::turns::clock::{Clock, MachineClocks};
use crate::turns::shards::shards;
use hyper::body::Bytes;
use std::sync::atomic::{AtomicBool, Ordering::SeqCst};
use std::sync::{Arc, Mutex};
use std::thread::JoinHandle;
use std::time::{Duration, Instant};

/// Ends at a line with the word `poison`; turns have nothing to do, and polls find nothing. One that was opened from
/// snapshots answers polls in another way. It keeps the lines in its snapshots, and says by a file which process it is.
/// What it keeps is in a file, so that a line takes as long after many others as after few. In a variable all of it is
/// copied at each line: then the calls that a slow machine makes while a log is compacted make the next time longer still.
const PROGRAM: &str = r#"#!/bin/sh
n=0 load= snapshot= poll=empty kept="$0.kept-$$"
echo $$ >> "$0.started"
while [ $# -gt 0 ]; do
    case "$1" in --load) load="$2" ;; --snapshot) snapshot="$2" ;; esac
    shift
done
exec 3> "$kept"
if [ -n "$load" ]; then poll=other; cat "$load/shard-00.snap" >&3; fi
while read -r line; do
    n=$((n + 1))
    case "$line" in
    *poison*) exit 3 ;;
    *_turn*) echo "{\"line\":$n,\"ok\":\"none\"}" ;;
    *poll_*) echo "{\"line\":$n,\"by\":\"$poll\",\"ok\":\"empty\"}" ;;
    *) echo "{\"line\":$n,\"ok\":\"signaled\"}" ;;
    esac
    printf '%s\n' "$line" >&3
done
if [ -n "$snapshot" ]; then { cat "$kept"; echo '{"end":{"last":0,"lines":0}}'; } > "$snapshot/shard-00.snap"; fi
"#;
/// Once a log has so many lines, calls come slowly while it is compacted: else those that come while a slow machine does
/// that make the next compaction longer, and that one the next, without end.
const MANY: u64 = 1_000;
const BETWEEN_CALLS: Duration = Duration::from_millis(20);
const LIMITS: Limits = Limits { bytes: 0, time: Duration::ZERO, has_standby: false };

struct Served {
    core: Arc<Core>,
    threads: Threads,
    log: String,
    _folder: Scratch,
}

impl Served {
    fn new(limit: usize) -> Served {
        Served::by(limit, |program, log| Opened::from_file(program, log, &Named::default(), true))
    }

    fn by(limit: usize, open: impl FnOnce(&str, &str) -> Result<Opened, NotServed>) -> Served {
        Served::with(limit, LIMITS, open)
    }

    fn with(limit: usize, limits: Limits, open: impl FnOnce(&str, &str) -> Result<Opened, NotServed>) -> Served {
        let folder = Scratch::new();
        let (program, log) = (folder.program(PROGRAM), folder.path("a.log"));
        let opened = open(&program, &log).map_err(|fault| fault.to_string()).unwrap();
        let clock = Clock::new(opened.last_moment(), Box::new(MachineClocks::new()));
        let (core, threads) = Core::start(opened, clock, limit, limits).unwrap();
        Served { core, threads, log, _folder: folder }
    }

    fn submit(&self, body: &str, key: Option<&str>) -> Result<Pending, Fault> {
        self.core.submit(parse_call(body.as_bytes(), shards(1)).unwrap(), key.map(Into::into))
    }

    fn call(&self, body: &str, key: Option<&str>) -> Result<Bytes, Fault> {
        wait(self.submit(body, key)?)
    }

    /// Kills all programs that were started.
    fn kill_programs(&self) {
        let started = std::fs::read_to_string(self._folder.path("program.started")).unwrap();
        for program in started.lines() {
            // Those that ended before and were waited for may have left their numbers to others.
            let words = std::fs::read_to_string(format!("/proc/{program}/cmdline")).unwrap_or_default();
            if words.contains(&self._folder.path("program")) {
                crate::os::system::kill(program.parse().unwrap());
            }
        }
    }

    /// Ends it. The log's lines.
    fn end(self) -> Vec<String> {
        self.core.close();
        assert!(self.threads.join(SECONDS));
        // A process that another test is just starting may hold the log's lock for a moment.
        let (mut lines, mut found) = (Lines::open(&self.log).unwrap().unwrap(), Vec::new());
        while let Some(line) = lines.next().unwrap() {
            found.push(String::from_utf8(line.to_vec()).unwrap());
        }
        found
    }
}

fn wait(outcome: Pending) -> Result<Bytes, Fault> {
    received("the outcome of a call", outcome).result
}

/// What a compaction comes to.
fn compacted(served: &Served) -> Result<Compacted, Fault> {
    received("a compaction", served.core.compact(0)?)
}

fn is_signaled(reply: &Bytes) -> bool {
    reply.ends_with(b"\"ok\":\"signaled\"}")
}

#[test]
fn what_was_answered_is_in_the_log() {
    let served = Served::new(100);
    for number in 0..20 {
        let reply = served.call(&format!(r#"{{"op":"signal","name":"n{number}"}}"#), None).unwrap();
        assert!(is_signaled(&reply));
    }
    assert!(is_signaled(&served.call(r#"{"op":"describe","workflow_id":"w"}"#, None).unwrap()));
    let lines = served.end();
    let names: Vec<&String> = lines.iter().filter(|line| line.contains("\"name\":\"n")).collect();
    assert_eq!(names.len(), 20);
    assert!(names[7].starts_with(r#"{"op":"signal","name":"n7","at":"#));
    assert!(!lines.iter().any(|line| line.contains("describe")));
}

#[test]
fn a_call_by_key_is_made_once() {
    let served = Served::new(100);
    let body = r#"{"op":"signal","name":"keyed"}"#;
    let outcomes: Vec<Pending> = (0..5).map(|_| served.submit(body, Some("k")).unwrap()).collect();
    let replies: Vec<Bytes> = outcomes.into_iter().map(|outcome| wait(outcome).unwrap()).collect();
    assert!(replies.iter().all(|reply| *reply == replies[0]));
    assert_eq!(served.call(body, Some("k")).unwrap(), replies[0]);
    let other = served.call(r#"{"op":"signal","name":"other"}"#, Some("k"));
    assert!(matches!(other, Err(Fault::KeyReused(_))));
    assert_eq!(served.end().iter().filter(|line| line.contains("keyed")).count(), 1);
}

#[test]
fn a_program_is_started_again_once_for_a_line() {
    let served = Served::new(100);
    assert!(served.call(r#"{"op":"signal","name":"before"}"#, None).is_ok());
    let fault = served.call(r#"{"op":"signal","name":"poison"}"#, None).unwrap_err();
    assert!(fault.to_string().ends_with("the program ended with status 3"), "{fault}");
    assert!(matches!(served.submit(r#"{"op":"signal","name":"after"}"#, None), Err(Fault::Ended(_))));
    assert_eq!(served.core.lock().metrics.restarts, 1);
    assert_eq!(served.core.health().not_ready, Some(NotReady::Ended));
    served.end();
}

#[test]
fn more_calls_than_may_wait_are_refused_and_polls_are_not_counted() {
    let served = Served::new(2);
    let poll = r#"{"op":"poll_workflow_task","task_queue":"main","wait":60000}"#;
    let polls: Vec<Pending> = (0..2).map(|_| served.submit(poll, None).unwrap()).collect();
    wait_until("two polls that wait", || served.core.lock().admission.polls.len() == 2);
    assert!(served.call(r#"{"op":"signal","name":"a"}"#, None).is_ok());
    assert!(matches!(served.call(poll, None), Err(Fault::Busy(_))));
    let runtime = tokio::runtime::Builder::new_current_thread().enable_all().build().unwrap();
    runtime.block_on(served.core.drain(SECONDS));
    for outcome in polls {
        assert!(wait(outcome).unwrap().ends_with(b"\"ok\":\"empty\"}"));
    }
    assert!(matches!(served.call(poll, None), Err(Fault::Draining)));
    served.end();
}

fn is_by(reply: &Bytes, who: &str) -> bool {
    String::from_utf8_lossy(reply).contains(&format!("\"by\":\"{who}\""))
}

/// Rests after a call, where the log is compacted and has many lines.
fn rest_where_many(core: &Core) {
    let health = core.health();
    if health.is_compacting && health.lines > MANY {
        std::thread::sleep(BETWEEN_CALLS);
    }
}

/// Calls that are made again and again, until they are stopped or let go: a test that fails leaves none to the others.
struct Calls {
    stop: Arc<AtomicBool>,
    made: Option<JoinHandle<Vec<Bytes>>>,
}

impl Calls {
    fn begin(core: &Arc<Core>, body: &'static str) -> Calls {
        let (core, stop) = (core.clone(), Arc::new(AtomicBool::new(false)));
        let is_stopped = stop.clone();
        let made = std::thread::spawn(move || {
            let mut replies = Vec::new();
            while !is_stopped.load(SeqCst) {
                let key = format!("{}-{}", &body[7..11], replies.len());
                let outcome = core.submit(parse_call(body.as_bytes(), shards(1)).unwrap(), Some(key.into())).unwrap();
                replies.push(outcome.blocking_recv().unwrap().result.unwrap());
                rest_where_many(&core);
            }
            replies
        });
        Calls { stop, made: Some(made) }
    }

    /// Makes no more. The replies.
    fn stop(mut self) -> Vec<Bytes> {
        self.stop.store(true, SeqCst);
        returned("the last one of many calls", self.made.take().unwrap())
    }
}

impl Drop for Calls {
    fn drop(&mut self) {
        self.stop.store(true, SeqCst);
    }
}

/// What the log and its snapshots have of calls of an operation, in their order.
fn kept_by(log: &str, generation: u64, lines: &[String], op: &str) -> Vec<String> {
    let snapshot = std::fs::read_to_string(format!("{log}.records-{generation}/shard-00.snap")).unwrap();
    let found = snapshot.lines().chain(lines.iter().map(String::as_str)).filter(|line| line.contains(op));
    found.map(|line| line.rsplit_once("\"call\":").unwrap().1.split('"').nth(1).unwrap().to_string()).collect()
}

/// Returns once so many lines more were written, and a while later.
fn wait_for_lines(served: &Served, more: u64) {
    let wanted = served.core.lines() + more;
    wait_until("more lines", || served.core.lines() >= wanted);
    std::thread::sleep(Duration::from_millis(30));
}

/// Compacts a log three times while calls are made. The replies to signals and to polls.
fn compacted_under_calls(served: &Served) -> (Vec<Bytes>, Vec<Bytes>) {
    let signals = Calls::begin(&served.core, r#"{"op":"signal","name":"n"}"#);
    let polls = Calls::begin(&served.core, r#"{"op":"poll_workflow_task","task_queue":"main","wait":0}"#);
    for generation in 1..=3 {
        wait_for_lines(served, 10);
        // A poll is answered in another way by the program beside: so it is made once more, and polls wait for it.
        let outcome = served.core.compact(0).unwrap();
        assert!(matches!(served.core.compact(0), Err(Fault::Busy(_))));
        let done = received("a compaction", outcome).unwrap();
        assert!(done.lines > 0 && done.records > 0);
        assert_eq!(served.core.lock().origin.generation, generation);
    }
    wait_for_lines(served, 10);
    let (signals, polls) = (signals.stop(), polls.stop());
    assert!(signals.iter().all(is_signaled) && is_by(polls.last().unwrap(), "other"));
    (signals, polls)
}

/// An opened log gives the replies that were had, also those from before the compactions.
fn knows_replies(opened: Opened, signals: &[Bytes]) {
    let begin = parse_call(br#"{"op":"signal","name":"n"}"#, shards(1)).unwrap().begin;
    for (number, reply) in signals.iter().enumerate() {
        let found = opened.observed.replies.get(&format!("sign-{number}"), crate::call::replies::mark_of(&begin));
        assert_eq!(found, Ok(Some(reply.clone())));
    }
    opened.kept.program.end();
}

#[test]
fn a_log_is_compacted_while_it_is_served_and_loses_nothing() {
    let served = Served::new(100);
    let (signals, polls) = compacted_under_calls(&served);
    let Served { core, threads, log, _folder } = served;
    let lines = Served { core, threads, log: log.clone(), _folder: Scratch::new() }.end();
    assert!(lines[0].contains("\"compacted\":3"));
    for (op, name, count) in [("\"signal\"", "sign", signals.len()), ("\"poll_workflow_task\"", "poll", polls.len())] {
        let wanted: Vec<String> = (0..count).map(|number| format!("{name}-{number}")).collect();
        assert_eq!(kept_by(&log, 3, &lines[1..], op), wanted);
    }
    let (program, named) = (_folder.path("program"), Named::default());
    knows_replies(
        Opened::from_file(&program, &log, &named, false).map_err(|fault| fault.to_string()).unwrap(),
        &signals,
    );
}

/// What a table and its snapshots have of calls of an operation, in their order.
fn kept_in(shared: &Shared, op: &str) -> Vec<String> {
    let (start, pieces) = shared.starts.last().unwrap();
    let text = |name: &str| {
        let found = pieces.iter().filter(|piece| piece.name == name).flat_map(|piece| piece.data.clone());
        String::from_utf8(found.collect()).unwrap()
    };
    let base: u64 = text("base").parse().unwrap();
    let batches = (base + 1..).zip(&shared.batches[base as usize..]).filter(|(number, _)| *number != start.number);
    let since: Vec<String> = batches.map(|(_, lines)| String::from_utf8(lines.clone()).unwrap()).collect();
    let whole = [text("shard-00.snap"), since.join("\n")].join("\n");
    let found = whole.lines().filter(|line| line.contains(op));
    found.map(|line| line.rsplit_once("\"call\":").unwrap().1.split('"').nth(1).unwrap().to_string()).collect()
}

#[test]
fn a_table_is_compacted_while_it_is_served_and_followed_and_loses_nothing() {
    let shared = Arc::new(Mutex::new(Shared::default()));
    let connect = table_in(&shared);
    let open = move |program: &str| {
        Opened::from_table(program, &connect, &Named::default(), true).map_err(|fault| fault.to_string()).unwrap()
    };
    let served = Served::by(100, |program, _| Ok(open(program)));
    let program = served._folder.path("program");
    let follower = {
        let (open, program) = (open.clone(), program.clone());
        std::thread::spawn(move || open(&program))
    };
    wait_until("a follower", || shared.lock().unwrap().told > 0);
    let (signals, polls) = compacted_under_calls(&served);
    served.core.close();
    assert!(served.threads.join(SECONDS), "{:?}", served.threads.left());
    for (op, name, count) in [("\"signal\"", "sign", signals.len()), ("\"poll_workflow_task\"", "poll", polls.len())] {
        let wanted: Vec<String> = (0..count).map(|number| format!("{name}-{number}")).collect();
        assert_eq!(kept_in(&shared.lock().unwrap(), op), wanted);
    }
    let place = |opened: &Opened| (opened.kept.log.lines(), opened.kept.log.bytes(), opened.kept.log.batches());
    shared.lock().unwrap().is_led = false;
    let followed = returned("a follower that leads", follower);
    shared.lock().unwrap().is_led = false;
    let anew = open(&program);
    let log = served.core.lock().log;
    assert_eq!(place(&followed), (log.lines + 1, log.bytes, log.batches));
    assert_eq!(place(&anew), place(&followed));
    for opened in [followed, anew] {
        assert_eq!(opened.kept.origin.generation, 3);
        knows_replies(opened, &signals);
    }
}

#[test]
fn while_batches_rest_a_table_is_asked_by_no_second_connection() {
    let shared = Arc::new(Mutex::new(Shared::default()));
    let connect = table_in(&shared);
    let served = Served::by(100, |program, _| Opened::from_table(program, &connect, &Named::default(), true));
    let core = Arc::downgrade(&served.core);
    let is_exchanging = move || core.upgrade().map_or(false, |core| core.lock().compaction.is_exchanging());
    shared.lock().unwrap().cuts_off = Some(Arc::new(is_exchanging));
    compacted_under_calls(&served);
    assert!(shared.lock().unwrap().starts.len() == 3);
    served.core.close();
    assert!(served.threads.join(SECONDS));
}

#[test]
fn a_table_is_not_compacted_once_another_edge_leads() {
    let shared = Arc::new(Mutex::new(Shared::default()));
    let connect = table_in(&shared);
    let served = Served::by(100, |program, _| Opened::from_table(program, &connect, &Named::default(), true));
    assert!(served.call(r#"{"op":"signal","name":"n"}"#, None).is_ok());
    shared.lock().unwrap().epoch += 1;
    // The clock's own turns may have found it first.
    assert!(compacted(&served).map(drop).unwrap_err().to_string().contains("another edge leads"));
    assert!(served.core.lock().phase.over().is_some() && shared.lock().unwrap().starts.is_empty());
    served.core.close();
    assert!(served.threads.join(SECONDS), "{:?}", served.threads.left());
}

#[test]
fn no_call_waits_for_a_tail_that_hangs() {
    let shared = Arc::new(Mutex::new(Shared::default()));
    let connect = table_in(&shared);
    let served = Served::by(100, |program, _| Opened::from_table(program, &connect, &Named::default(), true));
    let signal = || served.call(r#"{"op":"signal","name":"n"}"#, None);
    assert!(is_signaled(&signal().unwrap()));
    shared.lock().unwrap().hangs = true;
    let outcome = served.core.compact(0).unwrap();
    // As where calls come as fast as the program beside serves them: what is ahead of it waits.
    served.core.lock().compaction.window.have_wait(0);
    let begun = Instant::now();
    assert!(is_signaled(&signal().unwrap()));
    assert!(begun.elapsed() >= MOST_HELD);
    assert!(is_signaled(&signal().unwrap()));
    shared.lock().unwrap().hangs = false;
    let fault = received("a compaction", outcome).map(drop).unwrap_err();
    assert!(matches!(fault, Fault::NotCompacted(_)), "{fault:?}");
    // Nothing is left of it, and the next one is done.
    assert!(compacted(&served).is_ok());
    assert!(is_signaled(&signal().unwrap()) && shared.lock().unwrap().starts.len() == 1);
    served.core.close();
    assert!(served.threads.join(SECONDS), "{:?}", served.threads.left());
}

#[test]
fn batches_wait_while_a_program_beside_comes_nearer() {
    let (mut window, begun) = (Window::default(), Instant::now());
    let after = |millis| begun + Duration::from_millis(millis);
    assert_eq!(window.left_of_wait(100, begun), None);
    window.have_wait(10);
    assert_eq!(window.left_of_wait(10, begun), None);
    assert_eq!(window.left_of_wait(11, begun), Some(MOST_HELD));
    assert_eq!(window.left_of_wait(11, after(900)), Some(Duration::from_millis(100)));
    window.have_wait(0);
    assert_eq!(window.left_of_wait(11, after(900)), Some(MOST_HELD));
    assert_eq!(window.left_of_wait(11, after(1_899)), Some(Duration::from_millis(1)));
    assert_eq!(window.left_of_wait(11, after(1_900)), Some(Duration::ZERO));
    assert_eq!((window.left_of_wait(11, after(1_900)), window.is_far_ahead(1_000)), (None, false));
}

/// Makes calls until a log was compacted twice by itself.
fn compacted_by_itself(served: &Served) {
    let late = Instant::now() + SECONDS;
    while served.core.lock().origin.generation < 2 {
        assert!(Instant::now() < late, "waited for two compactions of {} lines", served.core.lines());
        assert!(is_signaled(&served.call(r#"{"op":"signal","name":"n"}"#, None).unwrap()));
        rest_where_many(&served.core);
    }
}

#[test]
fn a_log_is_compacted_by_itself_once_it_is_long_or_old() {
    let table = table_in(&Arc::new(Mutex::new(Shared::default())));
    for limits in [Limits { bytes: 2_000, ..LIMITS }, Limits { time: Duration::from_millis(50), ..LIMITS }] {
        let served = Served::with(100, limits, |program, log| Opened::from_file(program, log, &Named::default(), true));
        compacted_by_itself(&served);
        served.end();
    }
    let limits = Limits { bytes: 2_000, ..LIMITS };
    let served = Served::with(100, limits, |program, _| Opened::from_table(program, &table, &Named::default(), true));
    compacted_by_itself(&served);
    served.core.close();
    assert!(served.threads.join(SECONDS));
}

#[test]
fn a_second_program_takes_the_place_of_one_that_ends() {
    let limits = Limits { has_standby: true, ..LIMITS };
    let served = Served::with(100, limits, |program, log| Opened::from_file(program, log, &Named::default(), true));
    let signals = Calls::begin(&served.core, r#"{"op":"signal","name":"n"}"#);
    for killed in 1..=3 {
        wait_until("a second program", || served.core.lock().has_standby());
        // It is not started anew: there is no program under this name.
        let (path, away) = (served._folder.path("program"), served._folder.path("away"));
        std::fs::rename(&path, &away).unwrap();
        crate::os::system::kill(served.core.lock().in_flight.pid);
        wait_until("the second program that serves", || {
            let state = served.core.lock();
            state.metrics.restarts >= killed && !state.has_standby()
        });
        assert!(is_signaled(&served.call(r#"{"op":"signal","name":"after"}"#, None).unwrap()));
        std::fs::rename(&away, &path).unwrap();
        assert_eq!(compacted(&served).map(drop), Ok(()));
    }
    assert!(signals.stop().iter().all(is_signaled));
    served.end();
}

#[test]
fn a_second_program_that_was_ended_with_the_first_one_takes_no_place() {
    let limits = Limits { has_standby: true, ..LIMITS };
    for rest in [0, 300, 600] {
        let served = Served::with(100, limits, |program, log| Opened::from_file(program, log, &Named::default(), true));
        assert!(is_signaled(&served.call(r#"{"op":"signal","name":"before"}"#, None).unwrap()));
        wait_until("a second program", || served.core.lock().has_standby());
        // By then it has served all there is, so that it is not missed before it is asked.
        std::thread::sleep(Duration::from_millis(rest));
        served.kill_programs();
        assert!(is_signaled(&served.call(r#"{"op":"signal","name":"after"}"#, None).unwrap()));
        assert!(is_signaled(&served.call(r#"{"op":"signal","name":"once more"}"#, None).unwrap()));
        // Two where it was killed just after it had taken the place.
        assert!((1..=2).contains(&served.core.lock().metrics.restarts));
        served.end();
    }
}

#[test]
fn a_program_that_is_killed_again_and_again_is_no_lines_fault() {
    let served = Served::new(100);
    for killed in 1..=12 {
        assert!(is_signaled(&served.call(r#"{"op":"describe","workflow_id":"w"}"#, None).unwrap()));
        served.kill_programs();
        wait_until("a program that is started again", || served.core.lock().metrics.restarts >= killed);
    }
    served.end();
}

#[test]
fn a_program_that_has_ended_is_not_ready() {
    let served = Served::new(100);
    let pid = served.core.lock().in_flight.pid;
    assert_eq!((crate::os::system::has_ended(pid), served.core.health().not_ready), (false, None));
    // Another child that has ended stands for it, so that nobody notices.
    let ended = std::process::Command::new("/bin/sh").args(["-c", "exit 3"]).spawn().unwrap().id();
    wait_until("a child that ends", || crate::os::system::has_ended(ended));
    served.core.lock().in_flight.pid = ended;
    assert_eq!(served.core.health().not_ready, Some(NotReady::Restarting));
    served.core.lock().in_flight.pid = pid;
    served.end();
}

#[test]
fn a_program_that_writes_no_snapshots_is_served_on() {
    let served = Served::new(100);
    assert!(served.call(r#"{"op":"signal","name":"n"}"#, None).is_ok());
    let path = served._folder.path("program");
    std::fs::write(&path, PROGRAM.replace("if [ -n \"$snapshot\" ]", "exit 2; if false")).unwrap();
    let fault = compacted(&served).map(drop).unwrap_err();
    assert!(matches!(fault, Fault::NotCompacted(_)), "{fault:?}");
    assert!(served.call(r#"{"op":"signal","name":"n"}"#, None).is_ok());
    assert!(served.core.health().lines >= 2 && !served.core.health().is_compacting);
    served.end();
}

#[test]
fn a_read_is_not_answered_once_another_edge_leads() {
    let shared = Arc::new(Mutex::new(Shared::default()));
    let connect = table_in(&shared);
    let served = Served::by(9, |program, _| Opened::from_table(program, &connect, &Named::default(), true));
    let read = || served.submit(r#"{"op":"describe","workflow_id":"w"}"#, None);
    assert!(wait(read().unwrap()).is_ok());
    shared.lock().unwrap().epoch += 1;
    let refused = read().map(wait);
    assert!(matches!(refused, Err(Fault::LogBroken(_)) | Ok(Err(Fault::LogBroken(_)))), "{refused:?}");
    served.core.close();
    assert!(served.threads.join(SECONDS), "{:?}", served.threads.left());
}
