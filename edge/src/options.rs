//! The command line.

use crate::core::Limits;
use crate::net::tls::TlsFiles;
use crate::settings::Named;
use crate::turns::shards::ShardCount;
use std::time::Duration;

/// The address on which no token is wanted.
pub const LOCAL: &str = "127.0.0.1";
/// On a machine with so many processors a second program is no burden: the edge, its program and clients have others.
const PROCESSORS: usize = 4;

pub const HELP: &str = "\
usage: wfedge --program PROGRAM [OPTIONS]

Serves a workflow service to many clients: HTTP, and JSON lines on a Unix socket.

  --program PROGRAM      wfserve
  --log FILE             the file that keeps the service; without it nothing is kept
  --log postgres://..    a table of PostgreSQL that keeps it; an edge that another one leads before follows, and listens
                         once it takes over
  --silence MS           for how long a leader may be silent before a follower takes over, 2,000 by default
  --host ADDRESS         the address to listen on, 127.0.0.1 by default; another one needs a token
  --port PORT            the port, 7233 by default; 0 takes a free one
  --socket PATH          a Unix socket for JSON lines, which its owner alone can use
  --token-file FILE      a file with the token that every request has to bear
  --tokens FILE          a file of tokens with names and rights; wf token new NAME writes one. It is read again at SIGHUP
  --tls-cert FILE        the edge's certificate, and those up to one that clients trust, as PEM: HTTP is served by TLS alone
  --tls-key FILE         its private key. Both files are read again at SIGHUP
  --tls-client-ca FILE   the certificates that have signed those of clients, each of which needs one then
  --access-log FILE      a file that gets a line of JSON for each request by HTTP; it is opened again at SIGHUP
  --rate-limit N         how many requests a second each name of a token may make; without names, all together
  --queue-limit N        how many calls may wait, and as many polls; 10,000 by default
  --read-timeout SECONDS how long a request may take to come, 30 by default
  --shards N             how many shards a new log's service has, 1 by default
  --queues NAMES         the names of a new log's task queues, with commas between them, main by default
  --capacity N           how many tasks wait in a queue at most, 1,024 by default; a log's may grow
  --retention MS         for how long a new log's service keeps what has closed, for ever by default
  --compact-bytes N      at how many bytes a log is compacted while it is served, 16,777,216 by default, or at twice as many
                         as its snapshots have where that is more; 0 for never
  --compact-seconds N    after how many seconds it is where a sixteenth of that was written, 3,600 by default; 0 for never
  --standby yes|no       whether a second program follows the log in a file, and takes the place of one that ends; by
                         default where the machine has four processors
  --page WORD            a word of the command that starts the page, once for each; without it there is none
";

/// What the command line says.
#[derive(Debug, PartialEq)]
pub struct Options {
    pub program: String,
    pub log: Option<String>,
    pub host: String,
    pub port: u16,
    pub socket: Option<String>,
    pub token_file: Option<String>,
    pub tokens: Option<String>,
    pub tls: Option<TlsFiles>,
    pub access_log: Option<String>,
    /// How many requests a second each name may make.
    pub rate_limit: Option<u32>,
    pub queue_limit: usize,
    pub read_timeout: Duration,
    pub named: Named,
    /// For how many milliseconds the leader of a table may be silent.
    pub silence: u64,
    /// When a log is compacted without being asked.
    pub limits: Limits,
    pub page: Vec<String>,
}

impl Default for Options {
    fn default() -> Options {
        Options {
            program: String::new(),
            log: None,
            host: LOCAL.to_string(),
            port: 7233,
            socket: None,
            token_file: None,
            tokens: None,
            tls: None,
            access_log: None,
            rate_limit: None,
            queue_limit: 10_000,
            read_timeout: Duration::from_secs(30),
            named: Named::default(),
            silence: 2_000,
            limits: Limits { bytes: 16 << 20, time: Duration::from_secs(3_600), has_standby: has_processors() },
            page: Vec::new(),
        }
    }
}

impl Options {
    /// Reads the words of a command line, or says which is wrong.
    pub fn parse(words: impl IntoIterator<Item = String>) -> Result<Options, String> {
        let (mut options, mut tls, mut words) = (Options::default(), TlsWords::default(), words.into_iter());
        while let Some(word) = words.next() {
            let (name, value) = match word.split_once('=') {
                Some((name, value)) => (name.to_string(), Some(value.to_string())),
                None => (word, None),
            };
            let value = value.or_else(|| words.next()).ok_or_else(|| format!("{name} takes a value"))?;
            if let Some(value) = tls.take(&name, value) {
                options.take(&name, value)?;
            }
        }
        if options.program.is_empty() {
            return Err("--program is missing".to_string());
        }
        if options.token_file.is_some() && options.tokens.is_some() {
            return Err("--token-file and --tokens: name one of them".to_string());
        }
        options.tls = tls.files()?;
        Ok(options)
    }

    fn take(&mut self, name: &str, value: String) -> Result<(), String> {
        match name {
            "--program" => self.program = value,
            "--log" => self.log = Some(value),
            "--host" => self.host = value,
            "--port" => self.port = number(name, &value)?,
            "--socket" => self.socket = Some(value),
            "--token-file" => self.token_file = Some(value),
            "--tokens" => self.tokens = Some(value),
            "--access-log" => self.access_log = Some(value),
            "--rate-limit" => self.rate_limit = Some(rate(name, &value)?),
            "--queue-limit" => self.queue_limit = number(name, &value)?,
            "--read-timeout" => self.read_timeout = seconds(name, &value)?,
            "--shards" => self.named.shards = Some(shard_count(name, &value)?),
            "--queues" => self.named.queues = Some(value.split(',').map(str::to_string).collect()),
            "--capacity" => self.named.capacity = Some(number(name, &value)?),
            "--retention" => self.named.retention = Some(number(name, &value)?),
            "--silence" => self.silence = number(name, &value)?,
            "--compact-bytes" => self.limits.bytes = number(name, &value)?,
            "--compact-seconds" => self.limits.time = Duration::from_secs(u64::from(number::<u32>(name, &value)?)),
            "--standby" => self.limits.has_standby = is_yes(name, &value)?,
            "--page" => self.page.push(value),
            _ => return Err(format!("there is no option {name}: --help lists them")),
        }
        Ok(())
    }
}

/// The files of TLS, as they are named one after the other.
#[derive(Default)]
struct TlsWords {
    cert: Option<String>,
    key: Option<String>,
    client_ca: Option<String>,
}

impl TlsWords {
    /// Takes the value of an option of TLS, and gives that of another one back.
    fn take(&mut self, name: &str, value: String) -> Option<String> {
        let place = match name {
            "--tls-cert" => &mut self.cert,
            "--tls-key" => &mut self.key,
            "--tls-client-ca" => &mut self.client_ca,
            _ => return Some(value),
        };
        *place = Some(value);
        None
    }

    /// The files, where TLS is wanted.
    fn files(self) -> Result<Option<TlsFiles>, String> {
        match self {
            TlsWords { cert: Some(cert), key: Some(key), client_ca } => Ok(Some(TlsFiles { cert, key, client_ca })),
            TlsWords { cert: None, key: None, client_ca: None } => Ok(None),
            _ => Err("TLS needs --tls-cert and --tls-key".to_string()),
        }
    }
}

fn rate(name: &str, value: &str) -> Result<u32, String> {
    match number(name, value)? {
        0 => Err(format!("{name} takes from 1 on, and not {value}")),
        rate => Ok(rate),
    }
}

fn number<T: std::str::FromStr>(name: &str, value: &str) -> Result<T, String> {
    value.parse().map_err(|_| format!("{name} takes a whole number, and not {value}"))
}

fn shard_count(name: &str, value: &str) -> Result<ShardCount, String> {
    ShardCount::new(number(name, value)?).ok_or_else(|| format!("{name} takes from 1 on, and not {value}"))
}

fn is_yes(name: &str, value: &str) -> Result<bool, String> {
    match value {
        "yes" => Ok(true),
        "no" => Ok(false),
        _ => Err(format!("{name} takes yes or no, and not {value}")),
    }
}

/// Whether this machine has processors enough for a second program.
fn has_processors() -> bool {
    std::thread::available_parallelism().map_or(false, |count| count.get() >= PROCESSORS)
}

fn seconds(name: &str, value: &str) -> Result<Duration, String> {
    let seconds: f64 = value.parse().map_err(|_| format!("{name} takes a number, and not {value}"))?;
    if !(0.001..=86_400.0).contains(&seconds) {
        return Err(format!("{name} takes from 0.001 to 86400 seconds"));
    }
    Ok(Duration::from_secs_f64(seconds))
}

#[cfg(test)]
mod tests {
    use super::*;

    fn options(text: &str) -> Result<Options, String> {
        Options::parse(text.split_whitespace().map(str::to_string))
    }

    #[test]
    fn options_are_read() {
        let found =
            options("--program p --log=a.log --port 0 --shards 3 --queues a,b --page python3 --page x.py").unwrap();
        assert_eq!((found.program.as_str(), found.log.as_deref(), found.port), ("p", Some("a.log"), 0));
        assert_eq!((found.named.shards, found.named.queues), (ShardCount::new(3), Some(vec!["a".into(), "b".into()])));
        assert_eq!(found.page, ["python3", "x.py"]);
        assert_eq!(options("--program p").unwrap(), Options { program: "p".into(), ..Options::default() });
    }

    #[test]
    fn what_is_wrong_is_named() {
        for (text, said) in [
            ("", "--program is missing"),
            ("--program", "--program takes a value"),
            ("--program p --shards 0", "--shards takes from 1 on"),
            ("--program p --port 65536", "--port takes a whole number"),
            ("--program p --read-timeout 0", "--read-timeout takes from"),
            ("--program p --standby maybe", "--standby takes yes or no"),
            ("--program p --compact-bytes -1", "--compact-bytes takes a whole number"),
            ("--program p --rate-limit 0", "--rate-limit takes from 1 on"),
            ("--program p --tls-cert c", "TLS needs --tls-cert and --tls-key"),
            ("--program p --tls-client-ca c", "TLS needs --tls-cert and --tls-key"),
            ("--program p --token-file a --tokens b", "name one of them"),
            ("--program p --nothing 3", "there is no option --nothing"),
        ] {
            assert!(options(text).unwrap_err().contains(said), "{text}");
        }
    }
}
