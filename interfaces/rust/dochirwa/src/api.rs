//! The calls on the hub of this thread; without a client of the program they do nothing.

use crate::hub::{Hub, Scope};
use crate::performance::{Transaction, TransactionContext};
use crate::protocol::*;
use crate::types::*;
use std::error::Error;

/// Captures an event, and answers its id: nil where none was sent.
pub fn capture_event(event: &Event) -> EventId {
    Hub::with_active(|hub| hub.capture_event(event))
}

/// Captures a message, and answers the id of its event: nil where none was sent.
pub fn capture_message(message: &str, level: Level) -> EventId {
    Hub::with_active(|hub| hub.capture_message(message, level))
}

/// Captures an error and those that led to it, and answers the id of its event: nil where none was sent.
pub fn capture_error<E: Error + ?Sized>(error: &E) -> EventId {
    Hub::with_active(|hub| hub.capture_error(error))
}

/// The id of the last event of this thread, if there was one.
pub fn last_event_id() -> Option<EventId> {
    Hub::with_active(Hub::last_event_id)
}

/// Captures a log.
pub fn capture_log(log: &Log) {
    Hub::with_active(|hub| hub.capture_log(log));
}

/// Captures a metric.
pub fn capture_metric(metric: &Metric) {
    Hub::with_active(|hub| hub.capture_metric(metric));
}

/// Adds a breadcrumb.
pub fn add_breadcrumb(breadcrumb: &Breadcrumb) {
    Hub::with_active(|hub| hub.add_breadcrumb(breadcrumb));
}

/// Starts a session; nothing where the client has no release.
pub fn start_session() {
    Hub::with_active(Hub::start_session);
}

/// Ends the session, which all went well in.
pub fn end_session() {
    Hub::with_active(Hub::end_session);
}

/// Ends the session with a status.
pub fn end_session_with_status(status: SessionStatus) {
    Hub::with_active(|hub| hub.end_session_with_status(status));
}

/// Starts a transaction; none without a client of the program.
pub fn start_transaction(context: &TransactionContext) -> Option<Transaction> {
    Hub::with_active(|hub| Some(hub.start_transaction(context)))
}

/// Changes the scope of this thread. Without a client of the program the function is not called.
pub fn configure_scope<R: Default>(change: impl FnOnce(&mut Scope<'_>) -> R) -> R {
    Hub::with_active(|hub| hub.configure_scope(change))
}

/// Calls a function under a scope of its own, which another function has changed. Without a client of the program the
/// first one is not called.
pub fn with_scope<R>(change: impl FnOnce(&mut Scope<'_>), call: impl FnOnce() -> R) -> R {
    match Hub::current() {
        Some(hub) => hub.with_scope(change, call),
        None => call(),
    }
}
