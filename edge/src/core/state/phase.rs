//! How far an edge is on its way to its end, and why it takes no calls.

use crate::call::fault::Fault;

/// How far an edge is. It never goes back.
///
/// That its program is started again, or that its log is compacted, says nothing of it: both may be so at once, and while it
/// drains. `InFlight` and `Compaction` know.
pub enum Phase {
    Serving,
    /// It was told to stop, and takes no more calls.
    Draining,
    /// It has stopped.
    Closed,
    /// Nothing is served any more: why, and whether it was told to stop before.
    Over {
        fault: Fault,
        was_closing: bool,
    },
}

impl Phase {
    /// Takes no more calls.
    pub fn drain(&mut self) {
        if matches!(self, Phase::Serving) {
            *self = Phase::Draining;
        }
    }

    pub fn close(&mut self) {
        if self.over().is_none() {
            *self = Phase::Closed;
        }
    }

    /// Serves nothing any more. The first reason for that stays.
    pub fn end(&mut self, fault: Fault) {
        if self.over().is_none() {
            *self = Phase::Over { fault, was_closing: self.is_closing() };
        }
    }

    /// Why nothing is served any more.
    pub fn over(&self) -> Option<&Fault> {
        match self {
            Phase::Over { fault, .. } => Some(fault),
            _ => None,
        }
    }

    /// Whether it was told to stop.
    pub fn is_closing(&self) -> bool {
        matches!(self, Phase::Draining | Phase::Closed | Phase::Over { was_closing: true, .. })
    }

    /// Whether its threads end.
    pub fn is_at_its_end(&self) -> bool {
        matches!(self, Phase::Closed | Phase::Over { .. })
    }
}

/// Why no call is taken now.
#[derive(Clone, Copy, Debug, PartialEq, Eq)]
pub enum NotReady {
    Draining,
    /// What the log has is not known.
    Broken,
    Ended,
    /// The log has no room.
    Full,
    /// The program is started again.
    Restarting,
}

impl NotReady {
    /// The word by which `GET /health/ready` says so.
    pub fn word(self) -> &'static str {
        match self {
            NotReady::Draining => "draining",
            NotReady::Broken => "broken",
            NotReady::Ended => "ended",
            NotReady::Full => "full",
            NotReady::Restarting => "restarting",
        }
    }
}

#[cfg(test)]
mod tests {
    use super::*;

    #[test]
    fn an_edge_goes_on_to_its_end_and_the_first_reason_stays() {
        let mut phase = Phase::Serving;
        assert!(!phase.is_closing() && !phase.is_at_its_end());
        phase.drain();
        assert!(phase.is_closing() && !phase.is_at_its_end());
        phase.close();
        phase.drain();
        assert!(phase.is_closing() && phase.is_at_its_end());
        phase.end(Fault::Ended("first".to_string()));
        phase.end(Fault::Ended("second".to_string()));
        phase.close();
        assert_eq!(phase.over(), Some(&Fault::Ended("first".to_string())));
        assert!(phase.is_closing() && phase.is_at_its_end());
        let mut phase = Phase::Serving;
        phase.end(Fault::Ended(String::new()));
        phase.drain();
        assert!(!phase.is_closing() && phase.is_at_its_end());
    }
}
