//! Opens a service, serves it until a signal says to stop, and ends it.

use crate::access::caller::{Caller, NOBODY};
use crate::access::log::AccessLog;
use crate::access::rights::Rights;
use crate::access::tokens::TokenFile;
use crate::core::{Core, Threads};
use crate::http::page::Page;
use crate::http::Front;
use crate::lines::{self, Lines};
use crate::log::blobs::{Folder as BlobFolder, Store};
use crate::log::opening::Opened;
use crate::log::table::{is_address, Client, Connect};
use crate::net::guard::{Guard, Keys};
use crate::net::listen::{self, Connections};
use crate::net::tls::Tls;
use crate::options::{Options, LOCAL};
use crate::os::stderr::report;
use crate::os::system;
use crate::reload::Reload;
use crate::turns::clock::{Clock, MachineClocks};
use std::fs;
use std::io::Write;
use std::os::unix::fs::DirBuilderExt;
use std::path::PathBuf;
use std::sync::Arc;
use std::time::Duration;
use tokio::net::{TcpListener, UnixListener};
use tokio::runtime::Builder;
use tokio::signal::unix::{signal, SignalKind};
use tokio::task::JoinHandle;

const SHORTEST_TOKEN: usize = 16;
/// How long the calls on their way may take once the edge is told to stop.
const DRAIN: Duration = Duration::from_secs(10);
/// How long the program may take to end then. It frees all that it has.
const ENDING: Duration = Duration::from_secs(10);
/// And how long their answers may take to be written.
const SHUTDOWN: Duration = Duration::from_secs(2);

/// A folder of this process, which goes with it.
struct Folder(PathBuf);

impl Folder {
    fn new() -> Result<Folder, String> {
        let folder = std::env::temp_dir().join(format!("wfedge-{}-{}", std::process::id(), system::drawn()));
        let made = fs::DirBuilder::new().mode(0o700).create(&folder);
        made.map_err(|fault| format!("{}: {fault}", folder.display()))?;
        Ok(Folder(folder))
    }

    fn path(&self, name: &str) -> String {
        self.0.join(name).to_string_lossy().into_owned()
    }
}

impl Drop for Folder {
    fn drop(&mut self) {
        let _ = fs::remove_dir_all(&self.0);
    }
}

/// Where an edge keeps what is neither log nor program.
struct Place {
    /// Of its sockets.
    folder: Folder,
    /// Of texts that are too long for a history.
    blobs: Arc<dyn Store>,
    /// Whether these are deleted once no history names them.
    has_sweeps: bool,
}

impl Place {
    fn new(folder: Folder, log: &str, client: Option<Client>, opened: &Opened) -> Place {
        let blobs: Arc<dyn Store> = match client.filter(|_| is_address(log)) {
            Some(client) => (client.blobs)(log).into(),
            None => Arc::new(BlobFolder::new(&format!("{log}.blobs"))),
        };
        Place { folder, blobs, has_sweeps: opened.kept.origin.settings.retention > 0 }
    }
}

/// What takes connections.
#[derive(Default)]
struct Served {
    tasks: Vec<JoinHandle<()>>,
    lines: Vec<Lines>,
}

impl Served {
    /// Takes no more, and no more calls by lines.
    fn stop(&self) {
        self.tasks.iter().for_each(JoinHandle::abort);
        self.lines.iter().for_each(Lines::stop);
    }
}

/// Serves until it is told to stop; says why where that was not why it ended.
pub fn run(options: Options, client: Option<Client>) -> Result<(), String> {
    system::outlive_file_limits();
    system::raise_open_files();
    let reload = reload_of(&options)?;
    let guard = guard_of(&options, &reload)?;
    if reload.has_any() {
        // A follower that is told to read its files again has read none.
        system::ignore_hangups();
    }
    // An edge that follows is ended by a signal, and leaves nothing.
    let (place, opened) = match &options.log {
        Some(log) => {
            let opened = opened(&options, log, client)?;
            (Place::new(Folder::new()?, log, client, &opened), opened)
        }
        None => {
            let folder = Folder::new()?;
            let log = folder.path("log");
            let opened = opened(&options, &log, client)?;
            (Place::new(folder, &log, client, &opened), opened)
        }
    };
    if options.log.as_deref().map_or(false, is_address) {
        // While it followed they may have been exchanged, and no signal was waited for.
        reload.read_again();
    }
    let clock = Clock::new(opened.last_moment(), Box::new(MachineClocks::new()));
    // Sockets are one thread's: a second one gives nothing beside the program, the log and the clients.
    let runtime =
        Builder::new_multi_thread().worker_threads(1).enable_all().build().map_err(|fault| fault.to_string())?;
    let started = Core::start(opened, clock, options.queue_limit, options.limits);
    let (core, threads) = started.map_err(|fault| fault.to_string())?;
    let result = runtime.block_on(serve(&options, guard, reload, core.clone(), &place));
    finish(&core, threads);
    result
}

/// Opens the service of a log.
fn opened(options: &Options, log: &str, client: Option<Client>) -> Result<Opened, String> {
    let has_page = !options.page.is_empty();
    let opened = match (is_address(log), client) {
        (false, _) => Opened::from_file(&options.program, log, &options.named, has_page),
        (true, Some(client)) => {
            let connect = Connect::new(client.table, log, options.silence);
            Opened::from_table(&options.program, &connect, &options.named, has_page)
        }
        (true, None) => {
            return Err(
                "this edge was built without a client of PostgreSQL: edge/setup.sh postgres builds it".to_string()
            )
        }
    };
    opened.map_err(|fault| fault.to_string())
}

/// Ends the program and the threads.
fn finish(core: &Core, threads: Threads) {
    core.close();
    if !threads.join(ENDING) {
        let left = threads.left().join(", ");
        report!("the program did not end with its input, and is killed: the log has all ({left})");
        core.kill_program();
        threads.join(SHUTDOWN);
    }
}

/// Opens the files that are read again later.
fn reload_of(options: &Options) -> Result<Reload, String> {
    let tokens = options.tokens.as_ref().map(|path| TokenFile::open(path, options.rate_limit)).transpose()?;
    let tls = options.tls.clone().map(Tls::open).transpose()?;
    let access = options.access_log.as_ref().map(|path| AccessLog::open(path)).transpose()?;
    Ok(Reload { tokens: tokens.map(Arc::new), tls: tls.map(Arc::new), access: access.map(Arc::new) })
}

/// Refuses other addresses without a token.
fn guard_of(options: &Options, reload: &Reload) -> Result<Guard, String> {
    let keys = match (&options.token_file, &reload.tokens) {
        (_, Some(tokens)) => Keys::File(tokens.clone()),
        (Some(path), None) => Keys::One(token_in(path)?),
        (None, None) => Keys::Nothing,
    };
    let is_local = options.host == LOCAL;
    if !is_local && matches!(keys, Keys::Nothing) {
        return Err(format!("--host {} needs a --token-file", options.host));
    }
    let names = || vec![LOCAL.to_string(), "localhost".to_string()];
    let mut guard = Guard::new(keys, is_local.then(names));
    if options.rate_limit.is_some() {
        guard = guard.with_anyone(Caller::new(NOBODY, Rights::all(), options.rate_limit));
    }
    Ok(if reload.tls.is_some() { guard.encrypted() } else { guard })
}

/// The one token of a file.
fn token_in(path: &str) -> Result<String, String> {
    let text = fs::read_to_string(path).map_err(|fault| format!("{path}: {fault}"))?;
    let token = text.trim().to_string();
    if token.chars().count() < SHORTEST_TOKEN {
        return Err(format!("the token of {path} has less than {SHORTEST_TOKEN} characters"));
    }
    Ok(token)
}

async fn serve(options: &Options, guard: Guard, reload: Reload, core: Arc<Core>, place: &Place) -> Result<(), String> {
    let text = |fault: std::io::Error| fault.to_string();
    let connections = Connections::new();
    let teller = core.clone();
    tokio::spawn(async move { teller.tell_answers().await });
    let mut served = Served::default();
    let page = match options.page.is_empty() {
        true => None,
        false => Some(serve_page(options, &core, place, &connections, &mut served).map_err(text)?),
    };
    let front = Front { access: reload.access.clone(), ..front_of(options, guard, core.clone(), page, place) };
    let address = (options.host.as_str(), options.port);
    let listener = TcpListener::bind(address).await.map_err(|fault| format!("{}:{}: {fault}", address.0, address.1))?;
    let port = listener.local_addr().map_err(text)?.port();
    let tls = reload.tls.clone();
    let scheme = if tls.is_some() { "https" } else { "http" };
    served.tasks.push(tokio::spawn(listen::serve_tcp(listener, tls, Arc::new(front), connections.clone())));
    if reload.has_any() {
        let hangups = signal(SignalKind::hangup()).map_err(text)?;
        served.tasks.push(tokio::spawn(reload.at_each(hangups)));
    }
    if let Some(path) = &options.socket {
        let lines = Lines::start(path, core.clone(), connections.clone());
        served.lines.push(lines.map_err(|fault| format!("{path}: {fault}"))?);
    }
    let result = wait(&core, scheme, &options.host, port).await;
    served.stop();
    connections.stop(SHUTDOWN).await;
    if let Some(path) = &options.socket {
        let _ = fs::remove_file(path);
    }
    result
}

/// Starts the page, and serves what it asks on private sockets.
fn serve_page(
    options: &Options,
    core: &Arc<Core>,
    place: &Place,
    connections: &Arc<Connections>,
    served: &mut Served,
) -> std::io::Result<Arc<Page>> {
    let (edge, asked) = (place.folder.path("edge"), place.folder.path("lines"));
    let page = Arc::new(Page::new(&options.page, place.folder.path("page"), &edge, &asked, place.has_sweeps));
    if place.has_sweeps && place.blobs.has_any().unwrap_or(true) {
        page.want_sweeps();
    }
    let front = Arc::new(front_of(options, Guard::default(), core.clone(), None, place));
    let listener = lines::bind(&edge, |path| UnixListener::bind(path))?;
    served.tasks.push(tokio::spawn(listen::serve_private(listener, front, connections.clone())));
    served.lines.push(Lines::start(&asked, core.clone(), connections.clone())?);
    served.tasks.push(tokio::spawn(page.clone().run()));
    Ok(page)
}

fn front_of(options: &Options, guard: Guard, core: Arc<Core>, page: Option<Arc<Page>>, place: &Place) -> Front {
    let is_private = page.is_none() && !options.page.is_empty();
    let blobs = place.blobs.clone();
    Front { core, guard, page, blobs, is_private, read_timeout: options.read_timeout, access: None }
}

/// Says where it serves, and waits until it is told to stop or nothing is served any more.
async fn wait(core: &Core, scheme: &str, host: &str, port: u16) -> Result<(), String> {
    let text = |fault: std::io::Error| fault.to_string();
    let mut terminate = signal(SignalKind::terminate()).map_err(text)?;
    let mut interrupt = signal(SignalKind::interrupt()).map_err(text)?;
    let shown = if host.contains(':') { format!("[{host}]") } else { host.to_string() };
    let mut out = std::io::stdout();
    writeln!(out, "serving {scheme}://{shown}:{port}/").and_then(|()| out.flush()).map_err(text)?;
    tokio::select! {
        fault = core.ended() => return Err(fault.to_string()),
        _ = terminate.recv() => {}
        _ = interrupt.recv() => {}
    }
    core.drain(DRAIN).await;
    Ok(())
}
