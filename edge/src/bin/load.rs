//! Loads an edge: so many clients, each with one call on its way, for so many seconds. It prints what they came to.
//!
//! ```text
//! load http|lines ADDRESS CLIENTS SECONDS signal|flow
//! ```
//!
//! `signal` has each client signal a workflow of its own, with a request id. `flow` has it start a workflow, poll for a
//! workflow task and complete it: three calls.
#![deny(unsafe_code)]

use std::time::{Duration, Instant};
use tokio::io::{AsyncRead, AsyncReadExt, AsyncWrite, AsyncWriteExt};
use tokio::net::{TcpStream, UnixStream};

type Fault = Box<dyn std::error::Error + Send + Sync>;

/// How calls are sent.
#[derive(Clone, Copy, PartialEq)]
enum Way {
    Http,
    Lines,
}

/// What is called.
#[derive(Clone, Copy, PartialEq)]
enum Kind {
    Signal,
    Flow,
}

/// What the command line says.
#[derive(Clone)]
struct Load {
    way: Way,
    address: String,
    clients: usize,
    late: Instant,
    kind: Kind,
}

/// What a client came to: the microseconds of each call, and how many were refused.
#[derive(Default)]
struct Found {
    micros: Vec<u32>,
    refused: u64,
}

/// A connection of a client.
trait Socket: AsyncRead + AsyncWrite + Unpin + Send {}
impl<T: AsyncRead + AsyncWrite + Unpin + Send> Socket for T {}

/// One client, with one call on its way.
struct Client {
    load: Load,
    name: String,
    made: u64,
    token: Option<String>,
    got: Vec<u8>,
}

impl Client {
    /// The next call. A poll that found nothing is made again.
    fn body(&mut self) -> String {
        let (name, made) = (&self.name, self.made);
        if self.load.kind == Kind::Signal {
            return match made {
                0 => start(name),
                _ => format!(r#"{{"op":"signal","workflow_id":"{name}","name":"s","request_id":"{name} {made}"}}"#),
            };
        }
        match (made % 3, self.token.take()) {
            (2, Some(token)) => {
                let commands = r#"[{"type":"CompleteWorkflowExecution","result":"done"}]"#;
                format!(r#"{{"op":"complete_workflow_task","token":"{token}","commands":{commands}}}"#)
            }
            (0, _) => start(&format!("{name}-{made}")),
            _ => r#"{"op":"poll_workflow_task","task_queue":"main","wait":1000}"#.to_string(),
        }
    }

    fn sent(&self, body: &str) -> Vec<u8> {
        match self.load.way {
            Way::Lines => format!("{body}\n").into_bytes(),
            Way::Http => format!(
                "POST /calls HTTP/1.1\r\nHost: 127.0.0.1\r\nContent-Type: application/json\r\nContent-Length: {}\r\n\r\n\
                 {body}",
                body.len()
            )
            .into_bytes(),
        }
    }

    /// Where the text of a whole answer begins and ends.
    fn cut(&self) -> Option<(usize, usize)> {
        if self.load.way == Way::Lines {
            return self.got.iter().position(|byte| *byte == b'\n').map(|end| (0, end));
        }
        let head = self.got.windows(4).position(|four| four == b"\r\n\r\n")? + 4;
        let text = std::str::from_utf8(&self.got[..head]).ok()?.to_ascii_lowercase();
        let length: usize = text.split("content-length:").nth(1)?.split("\r\n").next()?.trim().parse().ok()?;
        (self.got.len() >= head + length).then_some((head, head + length))
    }

    async fn run(mut self) -> Result<Found, Fault> {
        let mut socket: Box<dyn Socket> = match self.load.way {
            Way::Lines => Box::new(UnixStream::connect(&self.load.address).await?),
            Way::Http => {
                let socket = TcpStream::connect(&self.load.address).await?;
                socket.set_nodelay(true)?;
                Box::new(socket)
            }
        };
        let mut found = Found::default();
        while Instant::now() < self.load.late {
            let body = self.body();
            let begun = Instant::now();
            socket.write_all(&self.sent(&body)).await?;
            self.got.clear();
            let (begin, end) = loop {
                if socket.read_buf(&mut self.got).await? == 0 {
                    return Err(format!("{}: the edge hung up", self.name).into());
                }
                if let Some(cut) = self.cut() {
                    break cut;
                }
            };
            found.micros.push(begun.elapsed().as_micros().min(u128::from(u32::MAX)) as u32);
            self.take(begin, end, &mut found);
        }
        Ok(found)
    }

    fn take(&mut self, begin: usize, end: usize, found: &mut Found) {
        let text = String::from_utf8_lossy(&self.got[begin..end]);
        found.refused += u64::from(text.starts_with("{\"error\""));
        self.made += u64::from(!text.contains(r#""ok":"empty""#));
        self.token = text.split("\"token\":\"").nth(1).and_then(|rest| rest.split('"').next()).map(str::to_string);
    }
}

fn start(name: &str) -> String {
    let named = format!(r#""workflow_id":"{name}","workflow_type":"Measured","task_queue":"main""#);
    format!(r#"{{"op":"start",{named},"request_id":"{name}"}}"#)
}

async fn run(load: Load) -> Result<(), Fault> {
    let begun = Instant::now();
    let client =
        |number| Client { load: load.clone(), name: format!("c{number}"), made: 0, token: None, got: Vec::new() };
    let tasks: Vec<_> = (0..load.clients).map(|number| tokio::spawn(client(number).run())).collect();
    let (mut micros, mut refused) = (Vec::new(), 0);
    for task in tasks {
        let found = task.await??;
        micros.extend(found.micros);
        refused += found.refused;
    }
    let seconds = begun.elapsed().as_secs_f64();
    micros.sort_unstable();
    let at = |hundredths: usize| micros.get(micros.len() * hundredths / 100).copied().unwrap_or(0);
    println!(
        "{{\"calls\":{},\"seconds\":{seconds:.3},\"p50\":{},\"p99\":{},\"refused\":{refused}}}",
        micros.len(),
        at(50),
        at(99)
    );
    Ok(())
}

fn load_of(words: &[String]) -> Option<Load> {
    let way = match words.get(1)?.as_str() {
        "http" => Way::Http,
        "lines" => Way::Lines,
        _ => return None,
    };
    let kind = match words.get(5)?.as_str() {
        "signal" => Kind::Signal,
        "flow" => Kind::Flow,
        _ => return None,
    };
    let late = Instant::now() + Duration::from_secs_f64(words.get(4)?.parse().ok()?);
    Some(Load { way, address: words.get(2)?.clone(), clients: words.get(3)?.parse().ok()?, late, kind })
}

fn main() -> Result<(), Fault> {
    let words: Vec<String> = std::env::args().collect();
    let load = load_of(&words).ok_or("usage: load http|lines ADDRESS CLIENTS SECONDS signal|flow")?;
    tokio::runtime::Builder::new_current_thread().enable_all().build()?.block_on(run(load))
}
