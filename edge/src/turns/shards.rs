//! Which shard a call is of, as the service has it: by the workflow ID, or by the token of a task. A token names the
//! activity too.

use std::fmt;
use std::num::NonZeroU16;
use std::ops::Range;
use std::str::FromStr;

/// A shard's number, from 0 on.
pub type Shard = u16;

/// How many shards a service has: one at least.
#[derive(Clone, Copy, Debug, PartialEq, Eq)]
pub struct ShardCount(NonZeroU16);

impl ShardCount {
    pub const ONE: ShardCount = match NonZeroU16::new(1) {
        Some(one) => ShardCount(one),
        None => unreachable!(),
    };

    /// None where there would be no shard.
    pub fn new(count: u16) -> Option<ShardCount> {
        NonZeroU16::new(count).map(ShardCount)
    }

    /// The numbers of all shards.
    pub fn all(self) -> Range<Shard> {
        0..self.0.get()
    }

    /// Whether there is a shard of this number.
    pub fn has(self, shard: Shard) -> bool {
        shard < self.0.get()
    }
}

impl fmt::Display for ShardCount {
    fn fmt(&self, out: &mut fmt::Formatter<'_>) -> fmt::Result {
        self.0.fmt(out)
    }
}

impl FromStr for ShardCount {
    type Err = std::num::ParseIntError;

    fn from_str(text: &str) -> Result<ShardCount, Self::Err> {
        text.parse().map(ShardCount)
    }
}

/// Which activity it is: the bytes of its tokens for the shard, the run and the event that scheduled it.
pub type Activity = [u8; 18];

const TOKEN_BYTES: usize = 24;
/// The kind of an activity's token.
const ACTIVITY: u8 = 2;

/// The shard of a workflow ID: FNV-1a, modulo the number of shards.
pub fn shard_of(workflow_id: &str, shards: ShardCount) -> Shard {
    let hash =
        workflow_id.bytes().fold(0x811c_9dc5_u32, |hash, byte| (hash ^ u32::from(byte)).wrapping_mul(0x0100_0193));
    (hash % u32::from(shards.0.get())) as Shard
}

/// The shard that a task's token names; None where it is no token of this service.
pub fn shard_of_token(token: &str, shards: ShardCount) -> Option<Shard> {
    let data = token_bytes(token)?;
    let shard = Shard::from_be_bytes([data[2], data[3]]);
    shards.has(shard).then_some(shard)
}

/// The activity that a token names, where it is one of an activity.
pub fn activity_of_token(token: &str) -> Option<Activity> {
    let data = token_bytes(token)?;
    let mut activity = [0; 18];
    activity.copy_from_slice(&data[2..20]);
    (data[1] == ACTIVITY).then_some(activity)
}

/// The bytes that a token of base64 stands for, where they are as many as a token has.
fn token_bytes(token: &str) -> Option<[u8; TOKEN_BYTES]> {
    let digits = token.as_bytes();
    if digits.len() != TOKEN_BYTES / 3 * 4 {
        return None;
    }
    let mut bytes = [0; TOKEN_BYTES];
    for (four, three) in digits.chunks_exact(4).zip(bytes.chunks_exact_mut(3)) {
        let bits = four.iter().try_fold(0_u32, |bits, letter| Some(bits << 6 | digit(*letter)?))?;
        three.copy_from_slice(&bits.to_be_bytes()[1..]);
    }
    Some(bytes)
}

/// The six bits that a letter of base64 stands for.
fn digit(letter: u8) -> Option<u32> {
    let place = match letter {
        b'A'..=b'Z' => letter - b'A',
        b'a'..=b'z' => letter - b'a' + 26,
        b'0'..=b'9' => letter - b'0' + 52,
        b'+' => 62,
        b'/' => 63,
        _ => return None,
    };
    Some(u32::from(place))
}

/// So many shards, for tests.
#[cfg(test)]
pub fn shards(count: u16) -> ShardCount {
    ShardCount::new(count).unwrap()
}

#[cfg(test)]
mod tests {
    use super::*;

    #[test]
    fn a_token_names_its_shard() {
        assert_eq!(shard_of_token("AQEAAAAAAAAAAAABAAAAAAAAAAIAAAAB", shards(4)), Some(0));
        assert_eq!(shard_of_token("AQEAAgAAAAAAAAABAAAAAAAAAAIAAAAB", shards(4)), Some(2));
        for other in ["AQEABAAAAAAAAAABAAAAAAAAAAIAAAAB", "AQEAAgAAAAAAAAABAAAAAAAAAAIAAAA", "", "ü", "AQ=="] {
            assert_eq!(shard_of_token(other, shards(4)), None, "{other}");
        }
    }

    #[test]
    fn a_workflow_id_has_one_shard() {
        // FNV-1a of the empty text, and of "a".
        assert_eq!(shard_of("", shards(64)), (0x811c_9dc5_u32 % 64) as Shard);
        assert_eq!(shard_of("a", shards(64)), (0xe40c_292c_u32 % 64) as Shard);
        assert_eq!(shard_of("a", shards(1)), 0);
    }
}
