//! Vectors of waits and verdicts.

use crate::leaves::rows::{attempt, cells, moment, number, text};
use retry::{Ended, verdict_on, wait_after};
use service_model_types::decided::Verdict;
use std::alloc::{AllocGlobal, Global};
use std::process::Abort;
use wf_event::RetryPolicy;
use wf_event::payloads::PolicyFields;
use wf_event_values::{Items, Text};

pub(crate) fn fields(alloc: Global, initial: u64, coefficient: u64, maximum: u64) -> PolicyFields {
    PolicyFields {
        attempts: 0,
        coefficient,
        initial,
        maximum,
        non_retryable: Items::from_vec(Vec::new(alloc)),
    }
}

/// An initial interval, a coefficient in hundredths, a maximum, an attempt and how long the next one waits
/// after it: by whole factors, at the limits, and rounded up each time. Rounded once at the end, the wait
/// after the sixth would be 7594.
const WAITS: &str = "1000|200|0|1|1000
1000|200|0|2|2000
1000|200|0|3|4000
1000|200|0|4|8000
1000|200|0|5|16000
1000|200|0|6|32000
1000|200|0|7|64000
1000|200|0|8|100000
1000|200|0|4294967295|100000
1|200|1000000000000|40|549755813888
1|200|1000000000000|41|1000000000000
1000000000000|100000|0|1|1000000000000
7|100|500|4294967295|7
7|100000|500|2|500
1000|100|100000|1|1000
1000|100|100000|4294967295|1000
1000000000000|100000|1000000000000|1|1000000000000
1000000000000|100000|1000000000000|200|1000000000000
1000000000000|100000|1000000000000|4294967295|1000000000000
1|101|1000000000000|2372|998783892642
1|101|1000000000000|2373|1000000000000
1|101|1000000000000|4294967295|1000000000000
1000|150|100000|0|1000
1000|150|100000|1|1000
1000|150|100000|2|1500
1000|150|100000|3|2250
1000|150|100000|4|3375
1000|150|100000|5|5063
1000|150|100000|6|7595
1000|150|100000|7|11393
1000|150|100000|12|86520
1000|150|100000|13|100000
1|101|100|1|1
1|101|100|2|2
1|101|100|3|3
1|101|100|4|4
1|101|100|4294967295|100
3|199|1000000000000|20|1479641";

fn is_wait_row<R: Abort + AllocGlobal>(rt: &R, row: &str) -> bool {
    let cells = cells(rt, row);
    let [initial, coefficient, maximum, attempts, wait] = cells.as_slice() else {
        return false;
    };
    let fields = fields(
        rt.alloc(),
        number(rt, initial),
        number(rt, coefficient),
        number(rt, maximum),
    );
    match RetryPolicy::new(fields) {
        Ok(policy) => wait_after(&policy, attempt(rt, attempts)) == number(rt, wait),
        Err(_) => false,
    }
}

/// A policy of four attempts, by which `fatal` failures aren't tried again.
fn policy<R: Abort + AllocGlobal>(rt: &R) -> RetryPolicy {
    let mut types = Vec::new(rt.alloc());
    if types.push(text(rt, "fatal")).is_err() {
        panic!(rt; "no memory");
    }
    let fields = PolicyFields {
        attempts: 4,
        non_retryable: Items::from_vec(types),
        ..fields(rt.alloc(), 1000, 200, 0)
    };
    match RetryPolicy::new(fields) {
        Ok(policy) => policy,
        Err(_) => panic!(rt; "no policy"),
    }
}

/// How an attempt ended and the failure's type, which attempt it was, when it ended, the deadline, if
/// any, when the next one is ready, and what is decided.
const ENDS: &str = "timeout||1|4000|5000|5000|retried
timeout||1|4001|5000|0|Timeout
timeout||3|100||4100|retried
timeout||4|100||0|MaximumAttemptsReached
untyped||1|0||1000|retried
typed|other|1|0||1000|retried
typed|fatal|4|0|0|0|NonRetryableFailure
marked||4|0|0|0|NonRetryableFailure
canceled||4|0|0|0|CancelRequested";

fn is_end_row<R: Abort + AllocGlobal>(rt: &R, policy: &RetryPolicy, row: &str) -> bool {
    let cells = cells(rt, row);
    let [word, reason, attempts, at, deadline, ready, expected] = cells.as_slice() else {
        return false;
    };
    let reason = text(rt, reason);
    let ended = match *word {
        "timeout" => Ended::Timeout,
        word => Ended::Failure {
            error_type: if word == "typed" { Some(&reason) } else { None },
            non_retryable: word == "marked" || word == "canceled",
        },
    };
    let verdict = verdict_on(
        policy,
        ended,
        *word == "canceled",
        attempt(rt, attempts),
        moment(rt, number(rt, at)),
        deadline.parse().ok(),
    );
    let shown = match verdict {
        Verdict::Retry { ready } => (ready, "retried"),
        Verdict::GiveUp(state) => (0, state.name()),
    };
    shown == (number(rt, ready), *expected)
}

#[test]
fn waits_and_verdicts(rt: HostRuntime) {
    for row in WAITS.lines() {
        assert!(rt; is_wait_row(&rt, row), "{row}");
    }
    let policy = policy(&rt);
    for row in ENDS.lines() {
        assert!(rt; is_end_row(&rt, &policy, row), "{row}");
    }
}
