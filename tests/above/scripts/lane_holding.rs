//! Lanes run at the same time: the call of one is held until that of the other was answered.

use crate::scripts::lane_serving::settings;
use lanes::{Door, run_lanes};
use service::{KeepsShard, Pass, Service};
use service_model_types::answer::{Answer, Reply};
use service_model_types::call::Call;
use service_model_types::settings::Settings;
use std::alloc::{AllocError, AllocGlobal};
use std::process::Abort;
use std::sync::Wait;
use std::sync::atomic::{AtomicU64, Ordering};
use std::thread;
use std::thread::Threads;
use wire_counted::Counted;

/// How often a held call looks whether the other was answered.
const TURNS: u64 = 10_000_000;

/// One call on lane 1 and one on lane 2, which name the shard of their lane's number.
const SCRIPT: &[u8] = br#"{"lane":1,"op":"dispatch_turn","shard":1}
{"lane":2,"op":"dispatch_turn","shard":2}
"#;

const OUTPUT: &[u8] = br#"{"line":1,"number":1,"ok":"dispatched"}
{"line":2,"number":2,"ok":"dispatched"}
"#;

/// Holds the call on one shard until that on another was answered. A call is answered by the number of
/// its shard.
#[derive(Drop)]
struct HoldingDoor {
    held: u16,
    answered: AtomicU64,
    gave_up: AtomicU64,
}

impl HoldingDoor {
    /// Waits until a call was answered, and gives up after a while.
    fn hold(&self) {
        for _ in 0..TURNS {
            if self.answered.load(Ordering::SeqCst) > 0 {
                return;
            }
            thread::yield_now();
        }
        self.gave_up.store(1, Ordering::SeqCst);
    }
}

/// The shard that a call names; 0 where it is no dispatch turn.
fn shard_of(call: &Call) -> u16 {
    match call {
        Call::DispatchTurn(turn) => turn.shard,
        _ => 0,
    }
}

impl<S: KeepsShard> Door<S> for HoldingDoor {
    ghost use Rattle.std.specs.Prelude.{⊤};

    ghost admits = { λ d p. ⊤ };

    ghost serves = { λ d p p' c r. ⊤ };

    ghost meets = { λ d p q p' q'. ⊤ };

    fn call<R: Wait>(&self, _rt: &R, _pass: &mut Pass<S>, call: Call) -> Result<Reply, AllocError> {
        let shard = shard_of(&call);
        if shard == self.held {
            self.hold();
        } else {
            self.answered.fetch_add(1, Ordering::SeqCst);
        }
        Ok(Ok(Answer::Dispatched(u64::from(shard))))
    }

    fn meet(&self, _one: &mut Pass<S>, _other: &mut Pass<S>) {}
}

/// Three passes of a service of three shards.
fn passes<S: KeepsShard, R: Abort + AllocGlobal>(rt: &R, settings: &Settings) -> Vec<Pass<S>> {
    match Service::open(rt.alloc(), settings, Vec::new(rt.alloc())) {
        Ok((_, passes)) => passes,
        Err(_) => panic!(rt; "the service was not opened"),
    }
}

/// Both calls are answered while the one on this shard is held, and printed in the order of the lines.
pub(crate) fn holds_one<
    S: KeepsShard + Send + Sync,
    H: Abort + AllocGlobal + Threads + Wait + Sync,
>(rt: &H, held: u16) {
    let settings = settings(rt, 3, 3);
    let door = HoldingDoor {
        held,
        answered: AtomicU64::new(0),
        gave_up: AtomicU64::new(0),
    };
    let mut writer = Counted::new(Vec::new(rt.alloc()));
    let came = run_lanes(
        rt,
        rt.alloc(),
        &settings,
        &door,
        passes::<S, H>(rt, &settings),
        &mut Counted::new(SCRIPT),
        &mut writer,
    );
    assert!(rt; matches!(&came, Ok(outcome) if !outcome.refused && outcome.passes.len() == 3));
    assert!(rt; door.gave_up.load(Ordering::SeqCst) == 0 && writer.inner.as_slice() == OUTPUT);
}
