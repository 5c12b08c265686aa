//! Clients: an engine behind a lock, with the system's clock and random ids, and a transport.

use crate::engine::{envelope_api_url, to_auth, Engine, TransactionOrSpanId};
use crate::http::PlainHttp;
use crate::hub::{bind_main, unbind_main, Hub};
use crate::options::{BeforeSend, ClientOptions, OptionError};
use crate::transport::{Envelope, Transport, TransportThread};
use crate::types::*;
use std::fmt;
use std::fs::File;
use std::io::{BufReader, Read, Write};
use std::panic::{catch_unwind, AssertUnwindSafe};
use std::sync::atomic::{AtomicBool, Ordering};
use std::sync::mpsc::{channel, RecvTimeoutError, Sender};
use std::sync::{Arc, Mutex, MutexGuard, PoisonError};
use std::time::Duration;

/// The client's label, of which its engine has one.
const LABEL: Label = Label(0);

/// How often a client is told the time.
const INTERVAL: Duration = Duration::from_secs(1);

/// An engine, and where it gets random numbers.
pub(crate) struct State {
    pub(crate) engine: Engine,
    random: BufReader<File>,
    /// What ended while something still named it.
    left: Vec<TransactionOrSpanId>,
    /// Whether an envelope waits in the engine, for want of memory for its text.
    is_full: bool,
}

impl State {
    /// Random numbers, which are 0 where none can be read.
    fn random<const COUNT: usize>(&mut self) -> [u64; COUNT] {
        let mut bytes = [[0; 8]; COUNT];
        let _ = self.random.read_exact(bytes.as_flattened_mut());
        bytes.map(u64::from_ne_bytes)
    }

    /// The moment, and random ids.
    pub(crate) fn fresh(&mut self) -> Fresh {
        let [a, b, c, d, span, draw] = self.random();
        let id = |high, low| u128::from(high) << 64 | u128::from(low);
        Fresh { now: Moment::now(), id: id(a, b).into(), trace: id(c, d).into(), span, draw: (draw % 1_000_000) as u32 }
    }

    /// The moment, and the random id of a span: all that the start of a child uses.
    pub(crate) fn fresh_span(&mut self) -> Fresh {
        let [span] = self.random();
        Fresh { now: Moment::now(), span, ..Fresh::default() }
    }

    /// Forgets what has ended, as soon as nothing names it.
    pub(crate) fn forget(&mut self, ended: Option<TransactionOrSpanId>) {
        self.left.extend(ended);
        // a transaction stands before its spans
        for place in (0..self.left.len()).rev() {
            if self.engine.discard(self.left[place]) != Err(Fault::STILL_NAMED) {
                self.left.remove(place);
            }
        }
    }
}

/// What a client, its hubs, its spans and its envelopes share.
pub(crate) struct Shared {
    state: Mutex<State>,
    client: ClientId,
    transport: Arc<dyn Transport>,
    before_send: Option<BeforeSend>,
    debug: bool,
    pub(crate) attach_stacktrace: bool,
    pub(crate) shutdown_timeout: Duration,
    is_closed: AtomicBool,
}

impl Shared {
    fn lock(&self) -> MutexGuard<'_, State> {
        self.state.lock().unwrap_or_else(PoisonError::into_inner)
    }

    /// Makes a call under the lock, and hands the envelopes that it gave to the transport after that.
    pub(crate) fn call<R>(self: &Arc<Shared>, call: impl FnOnce(&mut State) -> Result<R, Fault>) -> Result<R, Fault> {
        let (result, envelopes) = {
            let mut state = self.lock();
            let result = call(&mut state);
            let waiting = std::iter::from_fn(|| {
                let next = state.engine.next_envelope();
                state.is_full = next.is_err();
                next.ok().flatten()
            });
            (result, waiting.map(|it| it.1).collect::<Vec<_>>())
        };
        envelopes.into_iter().for_each(|it| self.send(it));
        result
    }

    /// The same for calls that can't fail in a program without faults: one that does changes nothing.
    pub(crate) fn tolerated<R: Default>(self: &Arc<Shared>, call: impl FnOnce(&mut State) -> Result<R, Fault>) -> R {
        self.call(call).unwrap_or_else(|fault| {
            if self.debug {
                // (where standard error can't be written to, nothing is)
                let _ = writeln!(std::io::stderr(), "dochirwa: {fault}");
            }
            R::default()
        })
    }

    fn send(self: &Arc<Shared>, bytes: Vec<u8>) {
        let envelope = Envelope::new(bytes, Arc::downgrade(self));
        match &self.before_send {
            Some(keeps) if !caught(|| keeps(&envelope)) => envelope.lose(Reason::BeforeSend),
            _ => caught(|| self.transport.send_envelope(envelope)),
        }
    }

    pub(crate) fn record_loss(self: &Arc<Shared>, category: Category, reason: Reason, quantity: u64) {
        self.tolerated(|state| state.engine.record_loss(LABEL, category, reason, quantity));
    }

    /// Makes a call that sends what waits, and answers whether nothing stays for want of memory.
    fn sends(self: &Arc<Shared>, call: impl FnOnce(&mut Engine, ClientId) -> Result<(), Fault>) -> bool {
        let is_made = self.tolerated(|state| call(&mut state.engine, self.client).map(|()| true));
        is_made && !self.lock().is_full
    }

    fn flush(self: &Arc<Shared>, timeout: Duration) -> bool {
        let is_sent = self.sends(Engine::flush);
        caught(|| self.transport.flush(timeout)) && is_sent
    }

    fn close(self: &Arc<Shared>, timeout: Duration) -> bool {
        if self.is_closed.swap(true, Ordering::SeqCst) {
            return true;
        }
        let is_sent = self.sends(Engine::close);
        caught(|| self.transport.shutdown(timeout)) && is_sent
    }
}

/// What a function of the program answers. Its panic ends no call, since an end of the crate may have made that, in the midst
/// of another panic, and no thread.
fn caught<R: Default>(call: impl FnOnce() -> R) -> R {
    catch_unwind(AssertUnwindSafe(call)).unwrap_or_default()
}

/// A client, which any threads may share. Its hubs capture.
pub struct Client {
    shared: Arc<Shared>,
    // (its end ends the thread that tells the time)
    _ticks: Sender<()>,
}

impl Client {
    /// A client of some options.
    pub fn with_options(options: ClientOptions) -> Result<Client, InitError> {
        let mut engine = Engine::new()?;
        options.lines()?;
        let client = engine.add_client(&options, LABEL, Moment::now())?;
        let random = BufReader::new(File::open("/dev/urandom").map_err(InitError::Io)?);
        let shared = Arc::new(Shared {
            state: Mutex::new(State { engine, random, left: Vec::new(), is_full: false }),
            client,
            transport: transport_of(&options)?,
            before_send: options.before_send,
            debug: options.debug,
            attach_stacktrace: options.attach_stacktrace,
            shutdown_timeout: options.shutdown_timeout.unwrap_or(Duration::from_secs(2)),
            is_closed: AtomicBool::new(false),
        });
        let ticks = start_ticks(&shared).map_err(InitError::Io)?;
        Ok(Client { shared, _ticks: ticks })
    }

    /// Whether it sends: not where it has no DSN, or was closed.
    pub fn is_enabled(&self) -> bool {
        self.shared.tolerated(|state| state.engine.is_enabled(self.shared.client))
    }

    /// Sends what waits, and waits for the transport, by default as long as at the end. Answers whether it was in time, and
    /// false where something stays for want of memory.
    pub fn flush(&self, timeout: Option<Duration>) -> bool {
        self.shared.flush(timeout.unwrap_or(self.shared.shutdown_timeout))
    }

    /// A flush, after which it sends nothing.
    pub fn close(&self, timeout: Option<Duration>) -> bool {
        self.shared.close(timeout.unwrap_or(self.shared.shutdown_timeout))
    }

    /// A hub with a scope of its own.
    pub(crate) fn new_hub(&self) -> Result<Hub, Fault> {
        let id = self.shared.call(|state| {
            let fresh = state.fresh();
            state.engine.new_hub(self.shared.client, &fresh)
        })?;
        Ok(Hub::of(self.shared.clone(), id))
    }
}

/// Closes the client, and waits for the transport.
impl Drop for Client {
    fn drop(&mut self) {
        self.close(None);
    }
}

impl fmt::Debug for Client {
    fn fmt(&self, f: &mut fmt::Formatter<'_>) -> fmt::Result {
        f.debug_struct("Client").field("id", &self.shared.client).finish_non_exhaustive()
    }
}

/// The transport that options name, or the thread; nothing is sent without a DSN.
fn transport_of(options: &ClientOptions) -> Result<Arc<dyn Transport>, InitError> {
    let (Some(dsn), None) = (&options.dsn, &options.transport) else {
        return Ok(options.transport.clone().unwrap_or_else(|| Arc::new(|it: Envelope| drop(it))));
    };
    let agent = options.user_agent.as_deref().unwrap_or(concat!("dochirwa.rust/", env!("CARGO_PKG_VERSION")));
    let (url, auth) = (envelope_api_url(dsn)?, to_auth(dsn, agent)?);
    let http = options.http_client.clone().unwrap_or_else(|| Arc::new(PlainHttp));
    if !http.can_post(&url) {
        return Err(InitError::NoTransport(url));
    }
    Ok(Arc::new(TransportThread::start(http, url, auth).map_err(InitError::Io)?))
}

/// Starts the thread that tells a client the time, until what is returned, or the client, is gone.
fn start_ticks(shared: &Arc<Shared>) -> std::io::Result<Sender<()>> {
    let ((sender, receiver), weak) = (channel::<()>(), Arc::downgrade(shared));
    crate::threads::start("dochirwa-ticks", move || {
        while let (Err(RecvTimeoutError::Timeout), Some(shared)) = (receiver.recv_timeout(INTERVAL), weak.upgrade()) {
            shared.tolerated(|state| state.engine.tick(shared.client, Moment::now()));
        }
    })?;
    Ok(sender)
}

/// Why there is no client.
#[derive(Debug)]
pub enum InitError {
    /// An option that no client can have.
    Option(OptionError),
    /// The engine refused the options.
    Fault(Fault),
    /// There are no random numbers, or no thread.
    Io(std::io::Error),
    /// Nothing can post to this URL: [`ClientOptions::http_client`] or [`ClientOptions::transport`] sets what can.
    NoTransport(String),
}

impl From<OptionError> for InitError {
    fn from(error: OptionError) -> InitError {
        InitError::Option(error)
    }
}

impl From<Fault> for InitError {
    fn from(fault: Fault) -> InitError {
        InitError::Fault(fault)
    }
}

impl fmt::Display for InitError {
    fn fmt(&self, f: &mut fmt::Formatter<'_>) -> fmt::Result {
        match self {
            InitError::Option(error) => write!(f, "{error}"),
            InitError::Fault(fault) => write!(f, "{fault}"),
            InitError::Io(error) => write!(f, "{error}"),
            InitError::NoTransport(url) => {
                write!(f, "nothing can post to {url}: the options need an http_client or a transport")
            }
        }
    }
}

impl std::error::Error for InitError {
    fn source(&self) -> Option<&(dyn std::error::Error + 'static)> {
        match self {
            InitError::Option(error) => Some(error),
            InitError::Fault(fault) => Some(fault),
            InitError::Io(error) => Some(error),
            InitError::NoTransport(_) => None,
        }
    }
}

/// Keeps the client of the program; its end closes the client, and waits for the transport.
#[must_use = "its end closes the client"]
#[derive(Debug)]
pub struct ClientInitGuard(Client);

impl std::ops::Deref for ClientInitGuard {
    type Target = Client;

    fn deref(&self) -> &Client {
        &self.0
    }
}

impl Drop for ClientInitGuard {
    fn drop(&mut self) {
        unbind_main(&self.0.shared);
    }
}

/// Gives the program a client, whose hubs the threads have from now on: this thread the main one, and each other a copy of
/// it as it is when the thread captures first.
pub fn init(options: ClientOptions) -> Result<ClientInitGuard, InitError> {
    let client = Client::with_options(options)?;
    bind_main(client.new_hub()?);
    Ok(ClientInitGuard(client))
}
