//! Texts that lie together: many short ones cost their memory once, and a long one has its own.
//!
//! Who keeps one of them for long keeps a copy (`lasting`): else all that it lies with stays too.

use hyper::body::Bytes;

/// A piece ends with the text that brings it to so many bytes, and a text of more bytes than this lies alone.
const PIECE: usize = 1 << 14;
const LONG: usize = 1 << 12;

/// Texts in their order.
#[derive(Default)]
pub struct Texts {
    whole: Vec<Bytes>,
    /// The last piece, and where each of its texts ends.
    piece: Vec<u8>,
    ends: Vec<usize>,
}

impl Texts {
    /// Where the next text is written, behind others.
    pub fn room(&mut self) -> &mut Vec<u8> {
        &mut self.piece
    }

    /// The text that was written there is whole.
    pub fn end(&mut self) {
        let begin = self.ends.last().copied().unwrap_or(0);
        if self.piece.len() - begin > LONG {
            let long = self.piece.split_off(begin);
            self.end_piece();
            self.whole.push(Bytes::from(long));
            return;
        }
        self.ends.push(self.piece.len());
        if self.piece.len() >= PIECE {
            self.end_piece();
        }
    }

    fn end_piece(&mut self) {
        let (piece, mut begin) = (Bytes::from(std::mem::take(&mut self.piece)), 0);
        for end in self.ends.drain(..) {
            self.whole.push(piece.slice(begin..end));
            begin = end;
        }
    }

    /// All of them.
    pub fn into_all(mut self) -> Vec<Bytes> {
        self.end_piece();
        self.whole
    }
}

/// A text that is kept for long.
pub fn lasting(text: &Bytes) -> Bytes {
    match text.len() > LONG {
        true => text.clone(),
        false => Bytes::copy_from_slice(text),
    }
}

#[cfg(test)]
mod tests {
    use super::*;

    #[test]
    fn texts_are_had_in_their_order_whatever_their_lengths() {
        let lengths = [3, 0, LONG, LONG + 1, 7, PIECE, LONG, LONG, LONG, LONG, LONG, 1];
        let mut texts = Texts::default();
        for (place, length) in lengths.iter().enumerate() {
            texts.room().extend(vec![place as u8; *length]);
            texts.end();
        }
        texts.room().extend(b"none of them");
        let all = lengths.iter().enumerate();
        let wanted: Vec<Bytes> = all.map(|(place, length)| vec![place as u8; *length].into()).collect();
        assert_eq!(texts.into_all(), wanted);
    }

    #[test]
    fn short_texts_lie_together_and_what_is_kept_lies_alone() {
        let mut texts = Texts::default();
        for text in [b"one", b"two"] {
            texts.room().extend(text);
            texts.end();
        }
        let found = texts.into_all();
        assert_eq!(found[0].as_ptr() as usize + 3, found[1].as_ptr() as usize);
        let kept = lasting(&found[1]);
        assert!(kept == found[1] && kept.as_ptr() != found[1].as_ptr());
    }
}
