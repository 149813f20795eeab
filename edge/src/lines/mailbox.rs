//! How a thread that serves many connections is told what became of their calls: many answers by one word.

use crate::call::Outcome;
use mio::Waker;
use std::sync::atomic::{AtomicBool, AtomicU64, Ordering};
use std::sync::{Arc, Mutex, MutexGuard, PoisonError};

/// The calls of connections with what became of them, in the order in which that was known.
pub type Answers = Vec<(Ticket, Outcome)>;

/// What a thread is told, which it takes when it comes to it.
pub struct Mailbox {
    /// Which one of those of this process it is.
    number: u64,
    inbox: Mutex<Inbox>,
    waker: Waker,
    is_stopped: AtomicBool,
}

/// How many were made.
static MADE: AtomicU64 = AtomicU64::new(0);

#[derive(Default)]
struct Inbox {
    answers: Answers,
    /// Whether the thread waits to be woken.
    sleeps: bool,
}

impl Mailbox {
    pub fn new(waker: Waker) -> Arc<Mailbox> {
        let number = MADE.fetch_add(1, Ordering::Relaxed);
        Arc::new(Mailbox { number, inbox: Mutex::default(), waker, is_stopped: AtomicBool::new(false) })
    }

    fn lock(&self) -> MutexGuard<'_, Inbox> {
        self.inbox.lock().unwrap_or_else(PoisonError::into_inner)
    }

    fn put(&self, answers: impl Iterator<Item = (Ticket, Outcome)>) {
        let mut inbox = self.lock();
        inbox.answers.extend(answers);
        self.wake(inbox);
    }

    fn wake(&self, mut inbox: MutexGuard<'_, Inbox>) {
        let wakes = std::mem::take(&mut inbox.sleeps);
        drop(inbox);
        if wakes {
            // The kernel has no memory for a word: the thread learns of it with the next one.
            let _ = self.waker.wake();
        }
    }

    /// Has the thread stop once all is answered.
    pub fn stop(&self) {
        // Who is woken takes the inbox's lock, behind which this is seen.
        self.is_stopped.store(true, Ordering::Relaxed);
        self.wake(self.lock());
    }

    pub fn is_stopped(&self) -> bool {
        self.is_stopped.load(Ordering::Relaxed)
    }

    /// Notes that the thread is awake: no word is needed until it takes what is there.
    pub fn awake(&self) {
        self.lock().sleeps = false;
    }

    /// Takes the answers that are there into an empty list. False where there are none: then the thread may sleep, and is woken
    /// by the next one.
    pub fn take(&self, answers: &mut Answers) -> bool {
        let mut inbox = self.lock();
        inbox.sleeps = inbox.answers.is_empty();
        std::mem::swap(&mut inbox.answers, answers);
        !inbox.sleeps
    }
}

/// Hands answers on to the threads that serve their connections.
pub fn deliver(answers: Answers) {
    let mut answers = answers.into_iter().peekable();
    while let Some(mailbox) = answers.peek().map(|(ticket, _)| ticket.connection.mailbox.clone()) {
        let is_its = |answer: &(Ticket, Outcome)| answer.0.mailbox == mailbox.number;
        mailbox.put(std::iter::from_fn(|| answers.next_if(is_its)));
    }
}

/// A connection, for those who have calls of it.
pub struct Connection {
    /// Its place among those of its thread, which is another one's once it is gone.
    pub place: usize,
    mailbox: Arc<Mailbox>,
    is_gone: AtomicBool,
}

impl Connection {
    pub fn new(place: usize, mailbox: Arc<Mailbox>) -> Arc<Connection> {
        Arc::new(Connection { place, mailbox, is_gone: AtomicBool::new(false) })
    }

    /// Notes that nobody waits for answers any more.
    pub fn go(&self) {
        // A hint: an answer that is made meanwhile is dropped later.
        self.is_gone.store(true, Ordering::Relaxed);
    }

    pub fn is_gone(&self) -> bool {
        self.is_gone.load(Ordering::Relaxed)
    }
}

/// Which call of which connection an answer is for.
#[derive(Clone)]
pub struct Ticket {
    pub connection: Arc<Connection>,
    pub number: u64,
    /// The number of its mailbox. To look that up at the connection would take its memory from the thread that serves it.
    mailbox: u64,
}

impl Ticket {
    pub fn new(connection: &Arc<Connection>, number: u64) -> Ticket {
        Ticket { connection: connection.clone(), number, mailbox: connection.mailbox.number }
    }
}

#[cfg(test)]
mod tests {
    use super::*;
    use crate::call::fault::Fault;
    use mio::{Events, Poll, Token};
    use std::time::Duration;

    fn mailbox() -> (Poll, Arc<Mailbox>) {
        let poll = Poll::new().unwrap();
        let waker = Waker::new(poll.registry(), Token(7)).unwrap();
        (poll, Mailbox::new(waker))
    }

    fn answer(connection: &Arc<Connection>, number: u64) -> (Ticket, Outcome) {
        (Ticket::new(connection, number), Outcome::new(Err(Fault::Draining), None))
    }

    /// Whether somebody was woken.
    fn is_woken(poll: &mut Poll) -> bool {
        let mut events = Events::with_capacity(4);
        poll.poll(&mut events, Some(Duration::from_millis(1))).unwrap();
        !events.is_empty()
    }

    #[test]
    fn who_sleeps_is_woken_once_and_has_the_answers_in_their_order() {
        let (mut poll, mailbox) = mailbox();
        let connection = Connection::new(3, mailbox.clone());
        let mut answers = Vec::new();
        deliver(vec![answer(&connection, 0)]);
        assert!(!is_woken(&mut poll) && mailbox.take(&mut answers) && answers.len() == 1);
        answers.clear();
        assert!(!mailbox.take(&mut answers));
        deliver(vec![answer(&connection, 1), answer(&connection, 2)]);
        assert!(is_woken(&mut poll));
        deliver(vec![answer(&connection, 3)]);
        assert!(!is_woken(&mut poll) && mailbox.take(&mut answers));
        assert!(!mailbox.take(&mut Vec::new()));
        mailbox.awake();
        deliver(vec![answer(&connection, 4)]);
        assert!(!is_woken(&mut poll) && mailbox.take(&mut Vec::new()));
        let numbers: Vec<u64> = answers.iter().map(|(ticket, _)| ticket.number).collect();
        assert_eq!(numbers, [1, 2, 3]);
    }

    #[test]
    fn answers_go_to_the_threads_of_their_connections() {
        let ((_one, first), (_other, second)) = (mailbox(), mailbox());
        let (here, there) = (Connection::new(0, first.clone()), Connection::new(0, second.clone()));
        deliver(vec![answer(&here, 0), answer(&there, 0), answer(&there, 1), answer(&here, 1)]);
        let count = |mailbox: &Mailbox| {
            let mut answers = Vec::new();
            mailbox.take(&mut answers);
            answers.len()
        };
        assert_eq!((count(&first), count(&second)), (2, 2));
    }

    #[test]
    fn who_is_told_to_stop_is_woken() {
        let (mut poll, mailbox) = mailbox();
        assert!(!mailbox.take(&mut Vec::new()) && !mailbox.is_stopped());
        mailbox.stop();
        assert!(is_woken(&mut poll) && mailbox.is_stopped());
    }
}
