//! The check of texts that are summed by blocks, and what is left of them byte by byte.

use journal_frames::check_of;
use std::alloc::{AllocError, AllocGlobal, Global};

/// The checks of so many bytes, which rise by seven from 13 on. They were summed one after another, by
/// another program.
const RISING: [(usize, &[u8]); 13] = [
    (0, b"aaaaaaaaaaaaaaaaaaaaaaaaaaaaaaaa"),
    (1, b"naaaaaaaaaaaaaaanaaaaaaaaaaaaaaa"),
    (31, b"keoaaaaaaaaaaaaaanakaaaaaaaaaaaa"),
    (32, b"adpaaaaaaaaaaaaaaaalaaaaaaaaaaaa"),
    (33, b"nbabaaaaaaaaaaaanbamaaaaaaaaaaaa"),
    (63, b"kjmbaaaaaaaaaaaaakdedaaaaaaaaaaa"),
    (64, b"agnbaaaaaaaaaaaaaabgdaaaaaaaaaaa"),
    (95, b"kolcaaaaaaaaaaaaahaphaaaaaaaaaaa"),
    (96, b"ajmcaaaaaaaaaaaaaanbiaaaaaaaaaaa"),
    (97, b"ndncaaaaaaaaaaaandkeiaaaaaaaaaaa"),
    (255, b"khphaaaaaaaaaaaaaippmdaaaaaaaaaa"),
    (1000, b"mpnobaaaaaaaaaaaacipdmdaaaaaaaaa"),
    (4097, b"naiphaaaaaaaaaaanaiodkpdaaaaaaaa"),
];

/// The check of 4,096 bytes of 255, summed likewise.
const FULL: &[u8] = b"aaappaaaaaaaaaaaaaiphiphaaaaaaaa";

/// So many bytes, each by this step above the one before.
fn rising(alloc: Global, count: usize, first: u8, step: u8) -> Result<Vec<u8>, AllocError> {
    let mut bytes = Vec::new(alloc);
    let mut byte = first;
    for _ in 0..count {
        bytes.push(byte)?;
        byte = byte.wrapping_add(step);
    }
    Ok(bytes)
}

/// Whether such bytes have this check.
fn has_check(
    alloc: Global,
    count: usize,
    first: u8,
    step: u8,
    check: &[u8],
) -> Result<bool, AllocError> {
    let bytes = rising(alloc, count, first, step)?;
    let own = check_of(alloc, &bytes)?;
    Ok(own.as_slice() == check)
}

#[test]
fn texts_of_each_length_have_the_check_of_their_bytes(rt: HostRuntime) {
    let alloc = rt.alloc();
    for (count, check) in RISING {
        assert!(rt; has_check(alloc, count, 13, 7, check) == Ok(true));
    }
    assert!(rt; has_check(alloc, 4096, 255, 0, FULL) == Ok(true));
}
