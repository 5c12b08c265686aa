//! Envelopes on their way: what takes them, and the thread that posts them.

use crate::client::Shared;
use crate::limits::Limits;
use crate::read::{items, Item};
use crate::types::{Category, Reason};
use std::collections::VecDeque;
use std::error::Error;
use std::fmt;
use std::panic::{catch_unwind, AssertUnwindSafe};
use std::sync::{Arc, Condvar, Mutex, MutexGuard, PoisonError, Weak};
use std::thread::panicking;
use std::time::{Duration, Instant};

/// An envelope of a client. One that a panic drops counts as lost.
pub struct Envelope {
    bytes: Vec<u8>,
    client: Weak<Shared>,
    /// Whether it was made in the midst of a panic, in which a drop doesn't tell that it is lost.
    is_of_panic: bool,
}

impl Envelope {
    pub(crate) fn new(bytes: Vec<u8>, client: Weak<Shared>) -> Envelope {
        Envelope { bytes, client, is_of_panic: panicking() }
    }

    /// Its bytes in Sentry's format, as they are to be posted.
    pub fn as_bytes(&self) -> &[u8] {
        &self.bytes
    }

    /// Its items.
    pub fn items(&self) -> impl Iterator<Item = Item<'_>> {
        items(&self.bytes)
    }

    /// Counts what it holds as lost for a reason. A later envelope of the client reports it.
    pub fn lose(mut self, reason: Reason) {
        self.lose_those(reason, |_| true);
        // (its drop counts nothing more)
        self.client = Weak::new();
    }

    fn lose_those(&self, reason: Reason, is_lost: impl Fn(&Item<'_>) -> bool) {
        if let Some(client) = self.client.upgrade() {
            for (category, reason, quantity) in self.items().filter(|it| is_lost(it)).flat_map(|it| losses(&it, reason))
            {
                client.record_loss(category, reason, quantity);
            }
        }
    }

    /// Without some items, which are counted as lost; none where no other is left.
    fn without(mut self, reason: Reason, is_lost: impl Fn(&Item<'_>) -> bool) -> Option<Envelope> {
        if !self.items().any(|it| is_lost(&it)) {
            return Some(self);
        }
        self.lose_those(reason, &is_lost);
        let kept: Vec<_> = self.items().filter(|it| !is_lost(it)).map(|it| it.whole()).collect();
        let header = self.bytes.split(|it| *it == b'\n').next()?;
        let lines = std::iter::once(header).chain(kept.iter().copied());
        let bytes = lines.flat_map(|it| [it, b"\n"]).collect::<Vec<_>>().concat();
        let client = (!kept.is_empty()).then(|| std::mem::take(&mut self.client))?;
        Some(Envelope { bytes, client, is_of_panic: self.is_of_panic })
    }
}

impl Drop for Envelope {
    fn drop(&mut self) {
        if panicking() && !self.is_of_panic {
            self.lose_those(Reason::InternalSdkError, |_| true);
        }
    }
}

impl fmt::Debug for Envelope {
    fn fmt(&self, f: &mut fmt::Formatter<'_>) -> fmt::Result {
        f.debug_tuple("Envelope").field(&String::from_utf8_lossy(&self.bytes)).finish()
    }
}

/// What the server's limits call an item.
pub(crate) fn category(ty: &str) -> Option<Category> {
    Some(match ty {
        "event" => Category::Error,
        "transaction" => Category::Transaction,
        "session" | "sessions" => Category::Session,
        "attachment" => Category::Attachment,
        "log" => Category::LogItem,
        "trace_metric" => Category::Metric,
        _ => return None,
    })
}

/// What is lost with an item. A transaction is also a span, beside its own; what a report says would otherwise never be
/// reported.
fn losses(item: &Item<'_>, reason: Reason) -> Vec<(Category, Reason, u64)> {
    let mut found: Vec<_> = category(item.ty()).map(|it| (it, reason, item.count())).into_iter().collect();
    match item.ty() {
        "transaction" => found.push((Category::Span, reason, 1 + item.json().list("spans").len() as u64)),
        "client_report" => {
            for entry in item.json().list("discarded_events") {
                let category = Category::ALL.iter().find(|it| entry.text("category") == Some(it.as_str()));
                let reason = Reason::ALL.iter().find(|it| entry.text("reason") == Some(it.as_str()));
                found.extend(
                    category
                        .zip(reason)
                        .zip(entry.number("quantity"))
                        .map(|((category, reason), it)| (*category, *reason, it)),
                );
            }
        }
        _ => {}
    }
    found
}

/// What takes the envelopes of a client. A closure is one.
pub trait Transport: Send + Sync {
    /// Takes an envelope, on the thread that made the call which it comes from. What isn't sent is to be lost by
    /// [`Envelope::lose`]. A panic ends nothing but the envelope that it drops, which counts as lost by
    /// [`Reason::InternalSdkError`].
    fn send_envelope(&self, envelope: Envelope);

    /// Waits until what it took so far is sent or lost, and answers whether it was in time.
    fn flush(&self, timeout: Duration) -> bool {
        let _ = timeout;
        true
    }

    /// A flush after which it takes no envelopes, and forgets those that still wait.
    fn shutdown(&self, timeout: Duration) -> bool {
        self.flush(timeout)
    }
}

impl<F: Fn(Envelope) + Send + Sync> Transport for F {
    fn send_envelope(&self, envelope: Envelope) {
        self(envelope);
    }
}

/// A request that posts an envelope.
#[derive(Clone, Copy, Debug)]
#[allow(missing_docs)]
pub struct Post<'a> {
    pub url: &'a str,
    /// The value of the header `X-Sentry-Auth`.
    pub auth: &'a str,
    pub body: &'a [u8],
}

/// What the server answered.
#[derive(Clone, Debug, Default, PartialEq, Eq)]
#[allow(missing_docs)]
pub struct Answer {
    pub status: u16,
    /// The value of the header `X-Sentry-Rate-Limits`.
    pub rate_limits: Option<String>,
    /// The value of the header `Retry-After`.
    pub retry_after: Option<String>,
}

/// Why there is no answer.
pub type PostError = Box<dyn Error + Send + Sync>;

/// What posts.
pub trait HttpClient: Send + Sync {
    /// Posts, and waits for the answer, for a time of its own. It follows no redirection.
    fn post(&self, post: &Post<'_>) -> Result<Answer, PostError>;

    /// Whether it can post to this URL at all.
    fn can_post(&self, url: &str) -> bool {
        let _ = url;
        true
    }
}

/// How many envelopes wait for the server at most.
pub const MOST_WAITING: usize = 100;

#[derive(Default)]
struct Waiting {
    envelopes: VecDeque<Envelope>,
    is_posting: bool,
    is_over: bool,
}

#[derive(Default)]
struct Queue {
    waiting: Mutex<Waiting>,
    changed: Condvar,
}

impl Queue {
    fn lock(&self) -> MutexGuard<'_, Waiting> {
        self.waiting.lock().unwrap_or_else(PoisonError::into_inner)
    }

    /// The next envelope, which is being posted from now on; none where it is over.
    fn next(&self) -> Option<Envelope> {
        let mut waiting = self.lock();
        waiting.is_posting = false;
        self.changed.notify_all();
        let must_wait = |it: &mut Waiting| it.envelopes.is_empty() && !it.is_over;
        waiting = self.changed.wait_while(waiting, must_wait).unwrap_or_else(PoisonError::into_inner);
        let next = waiting.envelopes.pop_front();
        waiting.is_posting = next.is_some();
        next
    }
}

/// A thread that posts envelopes in order, and keeps to the limits of the server. What it loses is reported by a later
/// envelope: beyond [`MOST_WAITING`], within a limit, without an answer, or where the server answers neither 2xx nor 429.
/// What it refuses by 429 it counts itself, but for reports, which are reported again.
pub struct TransportThread {
    queue: Arc<Queue>,
}

impl TransportThread {
    /// Starts the thread, which posts to a URL with a header `X-Sentry-Auth`.
    pub fn start(http: Arc<dyn HttpClient>, url: String, auth: String) -> std::io::Result<TransportThread> {
        let queue = Arc::new(Queue::default());
        let (taken, mut limits) = (queue.clone(), Limits::default());
        crate::threads::start("dochirwa", move || {
            while let Some(envelope) = taken.next() {
                post(&*http, &url, &auth, &mut limits, envelope);
            }
        })?;
        Ok(TransportThread { queue })
    }
}

/// Posts an envelope, without what the server doesn't want now.
fn post(http: &dyn HttpClient, url: &str, auth: &str, limits: &mut Limits, envelope: Envelope) {
    let now = Instant::now();
    let is_limited = |it: &Item<'_>| limits.holds(category(it.ty()), now);
    let Some(envelope) = envelope.without(Reason::RatelimitBackoff, is_limited) else {
        return;
    };
    let request = Post { url, auth, body: envelope.as_bytes() };
    // (the thread outlives a panic of the program's HttpClient)
    match catch_unwind(AssertUnwindSafe(|| http.post(&request))) {
        Err(_) | Ok(Err(_)) => envelope.lose(Reason::NetworkError),
        Ok(Ok(answer)) => {
            limits.keep(&answer, Instant::now());
            match answer.status {
                200..=299 => {}
                429 => envelope.lose_those(Reason::RatelimitBackoff, |it| it.ty() == "client_report"),
                _ => envelope.lose(Reason::SendError),
            }
        }
    }
}

impl Transport for TransportThread {
    fn send_envelope(&self, envelope: Envelope) {
        let mut waiting = self.queue.lock();
        if waiting.envelopes.len() >= MOST_WAITING || waiting.is_over {
            drop(waiting);
            envelope.lose(Reason::QueueOverflow);
        } else {
            waiting.envelopes.push_back(envelope);
            self.queue.changed.notify_all();
        }
    }

    fn flush(&self, timeout: Duration) -> bool {
        let is_left = |it: &mut Waiting| !it.envelopes.is_empty() || it.is_posting;
        let waited = self.queue.changed.wait_timeout_while(self.queue.lock(), timeout, is_left);
        !waited.unwrap_or_else(PoisonError::into_inner).1.timed_out()
    }

    fn shutdown(&self, timeout: Duration) -> bool {
        let is_well = self.flush(timeout);
        let mut waiting = self.queue.lock();
        waiting.is_over = true;
        waiting.envelopes.clear();
        self.queue.changed.notify_all();
        is_well
    }
}

impl Drop for TransportThread {
    fn drop(&mut self) {
        self.queue.lock().is_over = true;
        self.queue.changed.notify_all();
    }
}
