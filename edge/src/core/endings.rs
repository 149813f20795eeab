//! When another program takes the place of one that has ended, and when what it was asked is taken for why it ends.

/// So many in a row where nothing is answered in between, and nothing that was asked is why.
const MOST: u32 = 5;

/// The ends of programs since something was answered.
#[derive(Default)]
pub struct Endings {
    count: u32,
    /// Whether a program ended when it had been given the line that waits for its answer.
    is_blamed: bool,
    /// Whether the program that serves followed the log before.
    has_followed: bool,
}

impl Endings {
    /// Notes that a program which followed the log takes the place of one that has ended.
    pub fn follow(&mut self) {
        self.has_followed = true;
    }

    /// Whether another program takes the place of one that has ended: once where it was asked something. Who ended before it
    /// was asked did so for another reason; and what ended the first one may have ended the one that followed it too.
    pub fn go_on(&mut self, was_asked: bool) -> bool {
        let is_blamed = was_asked && !std::mem::take(&mut self.has_followed);
        if (is_blamed && self.is_blamed) || self.count >= MOST {
            return false;
        }
        self.is_blamed |= is_blamed;
        self.count += 1;
        true
    }
}

#[cfg(test)]
mod tests {
    use super::*;

    #[test]
    fn a_line_is_given_to_two_programs_that_end_at_it() {
        let mut endings = Endings::default();
        assert!(endings.go_on(true) && !endings.go_on(true));
    }

    #[test]
    fn who_was_not_asked_or_has_followed_is_not_blamed() {
        let mut endings = Endings::default();
        assert!(endings.go_on(false) && endings.go_on(true) && endings.go_on(false) && !endings.go_on(true));
        let mut endings = Endings::default();
        assert!(endings.go_on(true));
        endings.follow();
        // The one that followed, and one that is started then.
        assert!(endings.go_on(true) && !endings.go_on(true));
    }

    #[test]
    fn programs_that_end_at_once_are_not_started_for_ever() {
        let mut endings = Endings::default();
        assert_eq!((0..100).filter(|_| endings.go_on(false)).count(), MOST as usize);
    }
}
