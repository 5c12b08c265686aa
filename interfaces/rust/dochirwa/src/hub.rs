//! Hubs, which capture, and the scopes that say what is sent along.

use crate::client::{Client, Shared, State};
use crate::error::event_from_error;
use crate::performance::{Transaction, TransactionContext, TransactionOrSpan};
use crate::protocol::*;
use crate::types::*;
use crate::value::{Map, Value};
use std::cell::RefCell;
use std::error::Error;
use std::fmt;
use std::sync::atomic::{AtomicU64, AtomicUsize, Ordering};
use std::sync::{Arc, Mutex, PoisonError};

pub(crate) struct HubInner {
    shared: Arc<Shared>,
    id: HubId,
    /// Scopes whose guards are gone while scopes above them were pushed.
    unpopped: Mutex<Vec<Depth>>,
    /// How many guards there are whose scopes could not be pushed.
    unpushed: AtomicUsize,
}

impl Drop for HubInner {
    fn drop(&mut self) {
        self.shared.tolerated(|state| {
            state.engine.release_hub(self.id, Moment::now())?;
            state.forget(None);
            Ok(())
        });
    }
}

/// A hub. Its clones are the same hub; it is given back when the last one is gone.
#[derive(Clone)]
pub struct Hub(Arc<HubInner>);

impl Hub {
    pub(crate) fn of(shared: Arc<Shared>, id: HubId) -> Hub {
        Hub(Arc::new(HubInner { shared, id, unpopped: Mutex::default(), unpushed: AtomicUsize::new(0) }))
    }

    /// A hub of a client with a scope of its own. Faults: `FULL`, `OUT_OF_MEMORY`.
    pub fn new(client: &Client) -> Result<Hub, Fault> {
        client.new_hub()
    }

    /// A hub with the client and a copy of the top scope of another. Faults: `FULL`, `OUT_OF_MEMORY`.
    pub fn new_from_top(other: &Hub) -> Result<Hub, Fault> {
        let id = other.shared().call(|state| state.engine.new_hub_from_top(other.0.id))?;
        Ok(Hub::of(other.shared().clone(), id))
    }

    pub(crate) fn shared(&self) -> &Arc<Shared> {
        &self.0.shared
    }

    pub(crate) fn id(&self) -> HubId {
        self.0.id
    }

    pub(crate) fn tolerated<R: Default>(&self, call: impl FnOnce(&mut State, HubId) -> Result<R, Fault>) -> R {
        self.shared().tolerated(|state| call(state, self.0.id))
    }

    /// Edits the top scope, but not where a guard has no scope of its own, as the edit would stay in the one below. That the
    /// scope could not be pushed was told then.
    fn edit(&self, call: impl FnOnce(&mut State, HubId) -> Result<(), Fault>) {
        if self.0.unpushed.load(Ordering::SeqCst) == 0 {
            self.tolerated(call);
        }
    }

    /// Captures an event, and answers its id: nil where none was sent.
    pub fn capture_event(&self, event: &Event) -> EventId {
        self.tolerated(|state, hub| {
            let fresh = state.fresh();
            state.engine.capture_event(hub, event, &fresh)
        })
    }

    /// Captures a message.
    pub fn capture_message(&self, message: &str, level: Level) -> EventId {
        self.tolerated(|state, hub| {
            let fresh = state.fresh();
            state.engine.capture_message(hub, message, level, &fresh)
        })
    }

    /// Captures an error and those that led to it.
    pub fn capture_error<E: Error + ?Sized>(&self, error: &E) -> EventId {
        let mut event = event_from_error(error);
        if self.shared().attach_stacktrace {
            attach_stacktrace(&mut event);
        }
        self.capture_event(&event)
    }

    /// The id of the last event, if there was one.
    pub fn last_event_id(&self) -> Option<EventId> {
        Some(self.tolerated(|state, hub| state.engine.last_event_id(hub))).filter(|it| !it.is_nil())
    }

    /// Captures a log.
    pub fn capture_log(&self, log: &Log) {
        self.tolerated(|state, hub| state.engine.capture_log(hub, log, Moment::now()));
    }

    /// Captures a metric.
    pub fn capture_metric(&self, metric: &Metric) {
        self.tolerated(|state, hub| state.engine.capture_metric(hub, metric, Moment::now()));
    }

    /// Adds a breadcrumb to the top scope.
    pub fn add_breadcrumb(&self, breadcrumb: &Breadcrumb) {
        self.edit(|state, hub| state.engine.add_breadcrumb(hub, breadcrumb, Moment::now()));
    }

    /// Starts a session, in place of the one that the top scope has; nothing where the client has no release.
    pub fn start_session(&self) {
        self.tolerated(|state, hub| {
            let fresh = state.fresh();
            state.engine.start_session(hub, &fresh)
        });
    }

    /// Ends the session, which all went well in.
    pub fn end_session(&self) {
        self.end_session_with_status(SessionStatus::Exited);
    }

    /// Ends the session with a status.
    pub fn end_session_with_status(&self, status: SessionStatus) {
        self.tolerated(|state, hub| state.engine.end_session(hub, status, Moment::now()));
    }

    /// Starts a transaction.
    pub fn start_transaction(&self, context: &TransactionContext) -> Transaction {
        Transaction::start(self, context)
    }

    /// Changes the top scope.
    pub fn configure_scope<R>(&self, change: impl FnOnce(&mut Scope<'_>) -> R) -> R {
        change(&mut Scope { hub: self })
    }

    /// Pushes a copy of the top scope, which the end of the guard pops. Where it can't be pushed, as without memory, no scope
    /// of the hub is edited until the guard's end.
    pub fn push_scope(&self) -> ScopeGuard {
        let depth = self.tolerated(|state, hub| state.engine.push_scope(hub).map(Some));
        if depth.is_none() {
            self.0.unpushed.fetch_add(1, Ordering::SeqCst);
        }
        ScopeGuard { hub: self.clone(), depth }
    }

    /// Calls a function under a scope of its own, which another function has changed; without memory for the scope, under
    /// the one that is there, unchanged.
    pub fn with_scope<R>(&self, change: impl FnOnce(&mut Scope<'_>), call: impl FnOnce() -> R) -> R {
        let _guard = self.push_scope();
        self.configure_scope(change);
        call()
    }

    /// Pops a scope, and what is to be popped below it; later, if scopes above it are pushed, or without memory.
    fn pop(&self, depth: Depth) {
        self.tolerated(|state, hub| {
            let mut unpopped = self.0.unpopped.lock().unwrap_or_else(PoisonError::into_inner);
            unpopped.push(depth);
            unpopped.sort();
            while let Some(top) = unpopped.last() {
                match state.engine.pop_scope(hub, *top, Moment::now()) {
                    Err(Fault::OUT_OF_ORDER) => break,
                    Err(Fault::OUT_OF_MEMORY) => return Err(Fault::OUT_OF_MEMORY),
                    popped => {
                        unpopped.pop();
                        popped?;
                    }
                }
            }
            state.forget(None);
            Ok(())
        });
    }
}

impl fmt::Debug for Hub {
    fn fmt(&self, f: &mut fmt::Formatter<'_>) -> fmt::Result {
        f.debug_tuple("Hub").field(&self.0.id).finish()
    }
}

#[cfg(feature = "backtrace")]
fn attach_stacktrace(event: &mut Event) {
    if let Some(error) = event.exception.last_mut() {
        error.stacktrace = Some(crate::stacktrace::current_stacktrace());
    }
}

#[cfg(not(feature = "backtrace"))]
fn attach_stacktrace(_event: &mut Event) {}

/// Pops a scope at its end. Guards of one hub may end in any order; a scope stays until those above it are popped.
#[must_use = "its end pops the scope"]
#[derive(Debug)]
pub struct ScopeGuard {
    hub: Hub,
    depth: Option<Depth>,
}

impl Drop for ScopeGuard {
    fn drop(&mut self) {
        match self.depth {
            Some(depth) => self.hub.pop(depth),
            None => _ = self.hub.0.unpushed.fetch_sub(1, Ordering::SeqCst),
        }
    }
}

/// The top scope of a hub: what it has is sent along with each event of the hub.
pub struct Scope<'a> {
    hub: &'a Hub,
}

impl Scope<'_> {
    fn edit(&mut self, name: &str, value: impl Into<Value>) {
        let edits = Map::from([(name, value.into())]);
        self.hub.edit(|state, hub| state.engine.edit_scope(hub, &edits, Moment::now()));
    }

    /// Clears the scope.
    pub fn clear(&mut self) {
        self.hub.edit(|state, hub| {
            let fresh = state.fresh();
            state.engine.clear_scope(hub, &fresh)
        });
    }

    /// Sets a tag.
    pub fn set_tag(&mut self, key: &str, value: impl ToString) {
        let value = value.to_string();
        self.hub.edit(|state, hub| state.engine.set_tag(hub, key, &value, Moment::now()));
    }

    /// Takes a tag away.
    pub fn remove_tag(&mut self, key: &str) {
        self.edit("tags", Map::from([(key, Value::Null)]));
    }

    /// Sets an extra.
    pub fn set_extra(&mut self, key: &str, value: impl Into<Value>) {
        self.edit("extra", Map::from([(key, value)]));
    }

    /// Takes an extra away.
    pub fn remove_extra(&mut self, key: &str) {
        self.edit("extra", Map::from([(key, Value::Null)]));
    }

    /// Sets a context.
    pub fn set_context(&mut self, key: &str, value: impl Into<Map>) {
        self.edit("contexts", Map::from([(key, value.into())]));
    }

    /// Takes a context away.
    pub fn remove_context(&mut self, key: &str) {
        self.edit("contexts", Map::from([(key, Value::Null)]));
    }

    /// Sets the user, or takes it away.
    pub fn set_user(&mut self, user: Option<&User>) {
        self.edit("user", user.map(Map::from));
    }

    /// Sets the level, or takes it away.
    pub fn set_level(&mut self, level: Option<Level>) {
        self.edit("level", level.map(Level::as_str));
    }

    /// Sets the fingerprint, or takes it away.
    pub fn set_fingerprint(&mut self, fingerprint: Option<&[&str]>) {
        self.edit("fingerprint", fingerprint.map(<[&str]>::to_vec));
    }

    /// Sets the name of the transaction, or takes it away.
    pub fn set_transaction(&mut self, name: Option<&str>) {
        self.edit("transaction", name);
    }

    /// Adds an attachment.
    pub fn add_attachment(&mut self, attachment: &Attachment) {
        self.hub.edit(|state, hub| state.engine.add_attachment(hub, attachment, Moment::now()));
    }

    /// Takes the attachments away.
    pub fn clear_attachments(&mut self) {
        self.hub.edit(|state, hub| state.engine.clear_attachments(hub, Moment::now()));
    }

    /// Takes the breadcrumbs away.
    pub fn clear_breadcrumbs(&mut self) {
        self.hub.edit(|state, hub| state.engine.clear_breadcrumbs(hub, Moment::now()));
    }

    /// Sets the transaction or span to whose trace the events belong, or takes it away. One of another client is passed
    /// over.
    pub fn set_span(&mut self, span: Option<TransactionOrSpan>) {
        self.hub.edit(|state, hub| {
            match &span {
                None => state.engine.clear_span(hub, Moment::now())?,
                Some(span) if !Arc::ptr_eq(span.hub().shared(), self.hub.shared()) => return Err(Fault::STALE),
                Some(span) => state.engine.set_span(hub, span.id().ok_or(Fault::STALE)?, Moment::now())?,
            }
            state.forget(None);
            Ok(())
        });
    }
}

/// The hub of the program's client, and which of all it had that is.
static MAIN: Mutex<(u64, Option<Hub>)> = Mutex::new((0, None));
/// The number in `MAIN`, to be read without its lock.
static CURRENT_MAIN: AtomicU64 = AtomicU64::new(0);

/// The hub of a thread.
enum Slot {
    /// That of the program's client of this number, or none.
    OfMain(u64, Option<Hub>),
    /// The one that a function is run under.
    Run(Hub),
}

thread_local! {
    static CURRENT: RefCell<Slot> = const { RefCell::new(Slot::OfMain(0, None)) };
}

/// Makes a hub the main one, and that of this thread.
pub(crate) fn bind_main(hub: Hub) {
    let number = set_main(Some(hub.clone()));
    let _ = CURRENT.try_with(|it| it.replace(Slot::OfMain(number, Some(hub))));
}

/// Takes the main hub away, if it is of this client.
pub(crate) fn unbind_main(shared: &Arc<Shared>) {
    if Hub::main().is_some_and(|it| Arc::ptr_eq(it.shared(), shared)) {
        set_main(None);
        let _ = CURRENT.try_with(|it| {
            let is_of_main = matches!(*it.borrow(), Slot::OfMain(..));
            is_of_main.then(|| it.replace(Slot::OfMain(0, None)))
        });
    }
}

fn set_main(hub: Option<Hub>) -> u64 {
    let mut main = MAIN.lock().unwrap_or_else(PoisonError::into_inner);
    let before = std::mem::replace(&mut main.1, hub);
    main.0 += 1;
    let number = main.0;
    CURRENT_MAIN.store(number, Ordering::SeqCst);
    drop(main);
    // (its end may make calls)
    drop(before);
    number
}

impl Hub {
    /// The hub that [`init`](crate::init) made, if its client is still there.
    pub fn main() -> Option<Hub> {
        MAIN.lock().unwrap_or_else(PoisonError::into_inner).1.clone()
    }

    /// The hub of this thread; none without a client of the program.
    pub fn current() -> Option<Hub> {
        let number = CURRENT_MAIN.load(Ordering::SeqCst);
        let found = CURRENT.try_with(|it| match &*it.borrow() {
            Slot::Run(hub) => Some(Some(hub.clone())),
            Slot::OfMain(of, hub) if *of == number => Some(hub.clone()),
            Slot::OfMain(..) => None,
        });
        found.ok().flatten().unwrap_or_else(|| {
            let hub = Hub::main().and_then(|main| Hub::new_from_top(&main).ok());
            // (a thread whose values have ended keeps none)
            let before = CURRENT.try_with(|it| it.replace(Slot::OfMain(number, hub.clone())));
            drop(before);
            hub
        })
    }

    /// Calls a function with the hub of this thread; what it would give by default where there is none.
    pub fn with_active<R: Default>(call: impl FnOnce(&Hub) -> R) -> R {
        Hub::current().map_or_else(R::default, |hub| call(&hub))
    }

    /// Calls a function under a hub, as for a job that another thread began.
    pub fn run<R>(hub: Hub, call: impl FnOnce() -> R) -> R {
        let _guard = RunGuard(CURRENT.try_with(|it| it.replace(Slot::Run(hub))).ok());
        call()
    }
}

/// Puts a thread's hub back.
struct RunGuard(Option<Slot>);

impl Drop for RunGuard {
    fn drop(&mut self) {
        if let Some(before) = self.0.take() {
            let _ = CURRENT.try_with(|it| it.replace(before));
        }
    }
}
