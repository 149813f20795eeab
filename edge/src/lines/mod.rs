//! JSON lines on a Unix socket: a call in, its reply out, in the order of the calls.
//!
//! A line may bear its key as the member `call`. A call that isn't served is answered by its fault with a `status`,
//! which no reply of the service has: the one that HTTP would have.
//!
//! A thread of its own serves all connections of a socket, without a task for each. It reads what is there on all of them,
//! asks that under one lock, and writes all answers that it is told by one word.
//!
//! Of a connection `talk` has what was read and what is to be answered, and `mailbox` what the thread is told. Nothing here
//! reads a call's fields, or says what it is answered.

pub mod mailbox;
pub mod talk;

use crate::call::Outcome;
use crate::core::Core;
use crate::lines::mailbox::{Answers, Connection, Mailbox};
use crate::lines::talk::{Asking, Talk};
use crate::net::listen::{Connections, Counted};
use crate::os::stderr::report;
use crate::os::system::privately;
use mio::event::Event;
use mio::net::{UnixListener, UnixStream};
use mio::{Events, Interest, Poll, Registry, Token, Waker};
use std::io::{ErrorKind, Read, Write};
use std::net::Shutdown;
use std::os::unix::fs::FileTypeExt;
use std::sync::Arc;
use std::thread::Builder;
use std::time::{Duration, Instant};

/// So many bytes are read at once, and of so many connections.
const READ_AT_ONCE: usize = 1 << 14;
const EVENTS_AT_ONCE: usize = 256;
/// So often one connection is read and written before others have their turn.
const TURNS_AT_ONCE: u32 = 8;
const PAUSE: Duration = Duration::from_millis(50);
/// Of what a client sends behind a line that is too long so much is dropped, for so long.
const DROPPED: usize = 16 << 20;
const LINGERS: Duration = Duration::from_secs(5);
const LISTENER: Token = Token(usize::MAX);
const WAKER: Token = Token(usize::MAX - 1);

/// Makes room for a socket where nobody serves the one that is there, and has it made so that its owner alone can
/// use it.
pub fn bind<T>(path: &str, make: impl FnOnce(&str) -> std::io::Result<T>) -> std::io::Result<T> {
    let found = std::fs::symlink_metadata(path);
    let is_socket = found.map_or(false, |found| found.file_type().is_socket());
    if is_socket && std::os::unix::net::UnixStream::connect(path).is_err() {
        std::fs::remove_file(path)?;
    }
    privately(|| make(path))
}

/// A socket that is served by a thread.
pub struct Lines {
    mailbox: Arc<Mailbox>,
}

impl Lines {
    /// Serves lines to whoever connects to the socket of this path.
    pub fn start(path: &str, core: Arc<Core>, connections: Arc<Connections>) -> std::io::Result<Lines> {
        let mut listener = bind(path, |path| UnixListener::bind(path))?;
        let poll = Poll::new()?;
        poll.registry().register(&mut listener, LISTENER, Interest::READABLE)?;
        let mailbox = Mailbox::new(Waker::new(poll.registry(), WAKER)?);
        let serving = Serving {
            poll,
            listener: Some(listener),
            mailbox: mailbox.clone(),
            core,
            connections,
            talks: Vec::new(),
            free: Vec::new(),
            touched: Vec::new(),
            unfinished: Vec::new(),
            lingering: Vec::new(),
            asking: Asking::default(),
            room: vec![0; READ_AT_ONCE],
        };
        Builder::new().name("lines".to_string()).spawn(move || serving.run())?;
        Ok(Lines { mailbox })
    }

    /// Takes no more connections and calls. The thread ends once all calls are answered.
    pub fn stop(&self) {
        self.mailbox.stop();
    }
}

/// A connection, and how its socket is as far as that is known.
struct LineSocket {
    socket: UnixStream,
    talk: Talk,
    may_read: bool,
    may_write: bool,
    /// Whether the system tells when there is room for answers again: only once there was none, as each answer that a client
    /// reads makes some.
    is_told_of_room: bool,
    /// Whether its client sends no more, and whether it is gone.
    has_ended: bool,
    is_closed: bool,
    /// Whether it is among those that are looked at next.
    is_touched: bool,
    lingers: Option<Lingers>,
    _counted: Counted,
}

/// What a client still sends is dropped: it reads its answers then, and no reset.
struct Lingers {
    until: Instant,
    left: usize,
}

impl LineSocket {
    fn note(&mut self, event: &Event) {
        self.may_read |= event.is_readable() || event.is_read_closed() || event.is_error();
        self.may_write |= event.is_writable() || event.is_error();
        self.has_ended |= event.is_read_closed() || event.is_error();
        self.is_closed |= event.is_write_closed() || event.is_error();
    }

    /// Writes and reads what may be by now. False once nothing is to be done any more.
    fn go_on(&mut self, room: &mut [u8], asking: &mut Asking) -> bool {
        if self.lingers.is_some() {
            return self.drop_rest(room);
        }
        // What was refused at once is answered at once, and then more may be read.
        for _ in 0..TURNS_AT_ONCE {
            self.read(room, asking);
            if !self.write(asking) {
                return false;
            }
            if !self.has_more() {
                break;
            }
        }
        if self.is_closed && !self.talk.reads() {
            return false;
        }
        !self.talk.is_over() || (self.talk.is_unread() && self.begin_to_linger(room))
    }

    /// Has the system tell of room for answers, where there was none. False where it can't.
    fn be_told_of_room(&mut self, registry: &Registry, place: usize) -> bool {
        let LineSocket { socket, is_told_of_room, .. } = self;
        if self.may_write || std::mem::replace(is_told_of_room, true) {
            return true;
        }
        registry.reregister(socket, Token(place), Interest::READABLE | Interest::WRITABLE).is_ok()
    }

    /// Whether something may be read of it that nobody tells of again.
    fn has_more(&self) -> bool {
        self.may_read && self.talk.may_read()
    }

    /// Writes the answers that are there, as far as the socket takes them. False where it takes none any more.
    fn write(&mut self, asking: &mut Asking) -> bool {
        while self.may_write {
            let text = self.talk.text(asking);
            if text.is_empty() {
                return true;
            }
            match self.socket.write(text) {
                Ok(count) if count > 0 => self.talk.was_written(count),
                Err(fault) if fault.kind() == ErrorKind::WouldBlock => self.may_write = false,
                Err(fault) if fault.kind() == ErrorKind::Interrupted => {}
                _ => return false,
            }
        }
        true
    }

    fn read(&mut self, room: &mut [u8], asking: &mut Asking) {
        while self.has_more() {
            match self.socket.read(room) {
                Ok(count) if count > 0 => {
                    // Where it was not filled all is read, and more is told of.
                    self.may_read = count == room.len() || self.has_ended;
                    self.talk.take_read(&room[..count], asking);
                }
                Err(fault) if fault.kind() == ErrorKind::WouldBlock => self.may_read = false,
                Err(fault) if fault.kind() == ErrorKind::Interrupted => {}
                _ => self.talk.end_reading(),
            }
        }
    }

    /// Whether its client may still send something.
    fn begin_to_linger(&mut self, room: &mut [u8]) -> bool {
        self.lingers = Some(Lingers { until: Instant::now() + LINGERS, left: DROPPED });
        self.may_read = true;
        self.socket.shutdown(Shutdown::Write).is_ok() && self.drop_rest(room)
    }

    /// Drops what its client still sends. False once that is enough.
    fn drop_rest(&mut self, room: &mut [u8]) -> bool {
        let LineSocket { socket, lingers, may_read, .. } = self;
        while let (Some(lingers), true) = (lingers.as_mut(), *may_read) {
            match socket.read(room) {
                Ok(count) if count > 0 && count < lingers.left => lingers.left -= count,
                Err(fault) if fault.kind() == ErrorKind::WouldBlock => *may_read = false,
                Err(fault) if fault.kind() == ErrorKind::Interrupted => {}
                _ => return false,
            }
        }
        lingers.as_ref().map_or(false, |lingers| Instant::now() < lingers.until)
    }
}

/// What the thread of a socket has.
struct Serving {
    poll: Poll,
    /// None once no more connections are taken.
    listener: Option<UnixListener>,
    mailbox: Arc<Mailbox>,
    core: Arc<Core>,
    connections: Arc<Connections>,
    /// The connections by their places, and the places that are free.
    talks: Vec<Option<LineSocket>>,
    free: Vec<usize>,
    /// The places of those that are looked at next.
    touched: Vec<usize>,
    /// Those of connections of which more is to be read, and of those that drop what their clients send, whose time may be over.
    unfinished: Vec<usize>,
    lingering: Vec<usize>,
    asking: Asking,
    room: Vec<u8>,
}

impl Serving {
    /// Serves until it is told to stop and all is answered.
    fn run(mut self) {
        let (mut events, mut answers) = (Events::with_capacity(EVENTS_AT_ONCE), Vec::new());
        let mut accepts = true;
        loop {
            while self.mailbox.take(&mut answers) {
                self.settle(&mut answers);
                self.go_on();
            }
            if self.listener.is_some() && self.mailbox.is_stopped() {
                self.stop();
            }
            if self.listener.is_none() && self.talks.iter().all(Option::is_none) {
                return;
            }
            match self.poll.poll(&mut events, self.rest(accepts)) {
                Err(fault) if fault.kind() != ErrorKind::Interrupted => return report!("lines: {fault}"),
                _ => {}
            }
            self.mailbox.awake();
            accepts = self.take_events(&events, accepts);
            self.go_on();
        }
    }

    /// For how long the system is asked what is new of sockets; None where it takes as long as it takes.
    fn rest(&self, accepts: bool) -> Option<Duration> {
        if !self.unfinished.is_empty() {
            return Some(Duration::ZERO);
        }
        (!accepts || !self.lingering.is_empty()).then_some(PAUSE)
    }

    fn settle(&mut self, answers: &mut Answers) {
        for (ticket, Outcome { result, call }) in answers.drain(..) {
            if let Some(call) = call {
                self.asking.keep(call);
            }
            if ticket.connection.is_gone() {
                continue;
            }
            let place = ticket.connection.place;
            if let Some(Some(connection)) = self.talks.get_mut(place) {
                connection.talk.settle(ticket.number, result);
                touch(connection, place, &mut self.touched);
            }
        }
    }

    /// Notes what is known of sockets. Whether more connections are told of: else they are looked for after a pause.
    fn take_events(&mut self, events: &Events, accepts: bool) -> bool {
        let mut is_called = !accepts;
        for event in events {
            let place = event.token().0;
            match self.talks.get_mut(place) {
                Some(Some(connection)) => {
                    connection.note(event);
                    touch(connection, place, &mut self.touched);
                }
                _ => is_called |= event.token() == LISTENER,
            }
        }
        for place in self.lingering.drain(..).chain(self.unfinished.drain(..)) {
            if let Some(Some(connection)) = self.talks.get_mut(place) {
                touch(connection, place, &mut self.touched);
            }
        }
        !is_called || self.accept()
    }

    /// Looks at the connections of which something is new, and asks what was read of them.
    fn go_on(&mut self) {
        let Serving { poll, talks, touched, unfinished, lingering, room, asking, free, .. } = self;
        for place in touched.drain(..) {
            if let Some(connection) = &mut talks[place] {
                connection.is_touched = false;
                if !(connection.go_on(room, asking) && connection.be_told_of_room(poll.registry(), place)) {
                    talks[place] = None;
                    free.push(place);
                } else if connection.lingers.is_some() {
                    lingering.push(place);
                } else if connection.has_more() {
                    unfinished.push(place);
                }
            }
        }
        if !self.asking.calls.is_empty() {
            self.core.submit_all(&mut self.asking);
        }
    }

    /// Takes the connections that wait. False where that is to be tried again, as where as many files are open as may be.
    fn accept(&mut self) -> bool {
        loop {
            let accepted = match &self.listener {
                Some(listener) => listener.accept(),
                None => return true,
            };
            match accepted {
                Ok((socket, _)) => self.add(socket),
                Err(fault) if fault.kind() == ErrorKind::WouldBlock => return true,
                Err(fault) if fault.kind() == ErrorKind::Interrupted => {}
                Err(_) => return false,
            }
        }
    }

    fn add(&mut self, mut socket: UnixStream) {
        let counted = match self.connections.counted() {
            Some(counted) => counted,
            None => return,
        };
        let place = self.free.pop().unwrap_or(self.talks.len());
        if place == self.talks.len() {
            self.talks.push(None);
        }
        if self.poll.registry().register(&mut socket, Token(place), Interest::READABLE).is_err() {
            self.free.push(place);
            return;
        }
        let talk = Talk::new(Connection::new(place, self.mailbox.clone()), self.core.shards());
        self.talks[place] = Some(LineSocket {
            socket,
            talk,
            may_read: true,
            may_write: true,
            is_told_of_room: false,
            has_ended: false,
            is_closed: false,
            is_touched: true,
            lingers: None,
            _counted: counted,
        });
        self.touched.push(place);
    }

    /// Takes no more connections and calls.
    fn stop(&mut self) {
        self.listener = None;
        let Serving { talks, touched, .. } = self;
        for (place, connection) in talks.iter_mut().enumerate() {
            if let Some(connection) = connection {
                connection.talk.end_reading();
                touch(connection, place, touched);
            }
        }
        self.go_on();
    }
}

/// Notes that something is new of a connection.
fn touch(connection: &mut LineSocket, place: usize, touched: &mut Vec<usize>) {
    if !std::mem::replace(&mut connection.is_touched, true) {
        touched.push(place);
    }
}
