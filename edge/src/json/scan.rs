//! Finds bytes in a text, eight at a time.

const ONES: u64 = 0x0101_0101_0101_0101;
const HIGHEST: u64 = 0x8080_8080_8080_8080;
/// Bytes below this one are control characters.
const BLANK: u64 = 0x20;

/// Marks the bytes of a word that are below `most`, which is 128 or less. The lowest mark is right, and one above it may not
/// be.
fn below(word: u64, most: u64) -> u64 {
    word.wrapping_sub(ONES * most) & !word & HIGHEST
}

/// Marks the bytes of a word that are this one, likewise.
fn equal(word: u64, byte: u8) -> u64 {
    below(word ^ (ONES * u64::from(byte)), 1)
}

/// Where the first byte stands that is marked, where one is.
fn first(text: &[u8], marks: impl Fn(u64) -> u64) -> Option<usize> {
    let words = text.chunks_exact(8);
    let (mut place, mut last) = (0, [0xff; 8]);
    let rest = words.remainder();
    for word in words {
        let mut bytes = [0; 8];
        bytes.copy_from_slice(word);
        let marked = marks(u64::from_le_bytes(bytes));
        if marked != 0 {
            return Some(place + marked.trailing_zeros() as usize / 8);
        }
        place += 8;
    }
    last[..rest.len()].copy_from_slice(rest);
    let marked = marks(u64::from_le_bytes(last));
    // No byte behind the end is marked.
    (marked != 0).then(|| place + marked.trailing_zeros() as usize / 8)
}

/// Where this byte of ASCII stands first.
pub fn place_of_byte(byte: u8, text: &[u8]) -> Option<usize> {
    first(text, |word| equal(word, byte))
}

/// Where a text in quotes may end: at a quote, at an escape, or at a control character, which it can't have.
pub fn end_of_plain(text: &[u8]) -> Option<usize> {
    first(text, |word| equal(word, b'"') | equal(word, b'\\') | below(word, BLANK))
}

#[cfg(test)]
mod tests {
    use super::*;

    #[test]
    fn each_byte_is_found_at_each_place() {
        for length in 0..40 {
            for place in 0..length {
                for byte in 0..=255 {
                    let mut text = vec![b'a'; length];
                    text[place] = byte;
                    // What stands behind it changes nothing.
                    text[place + 1..].iter_mut().step_by(3).for_each(|other| *other = byte.wrapping_add(1));
                    let ends = |found: &u8| matches!(found, b'"' | b'\\' | 0..=0x1f);
                    assert_eq!(end_of_plain(&text), text.iter().position(ends), "{text:?}");
                    let found = text.iter().position(|found| *found == b'\n');
                    assert_eq!(place_of_byte(b'\n', &text), found, "{text:?}");
                }
            }
        }
        assert_eq!((place_of_byte(b'"', b""), end_of_plain(b"")), (None, None));
    }
}
