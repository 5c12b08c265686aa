//! The engine: a method for each call of dochirwa.h.

use crate::ffi::*;
use crate::options::ClientOptions;
use crate::protocol::{Attachment, Breadcrumb, Event, Log, Metric, Request};
use crate::types::*;
use crate::value::{Map, Value};

fn checked(number: u32) -> Result<(), Fault> {
    if number == 0 {
        Ok(())
    } else {
        Err(Fault(number))
    }
}

/// The bytes that a call writes into room of a length, of which it says how many it needs.
fn with_room(mut call: impl FnMut(&mut [u8], &mut usize) -> u32) -> Result<Vec<u8>, Fault> {
    let (mut room, mut length) = (vec![0; 256], 0);
    loop {
        checked(call(&mut room, &mut length))?;
        if length <= room.len() {
            room.truncate(length);
            return Ok(room);
        }
        room.resize(length, 0);
    }
}

fn text(bytes: Vec<u8>) -> String {
    String::from_utf8_lossy(&bytes).into_owned()
}

/// The version of the engine that is linked: 10000 times the first number, 100 times the second, and the third.
pub fn version() -> u32 {
    // SAFETY: it takes nothing.
    unsafe { dochirwa_version() }
}

/// The URL to which the envelopes of a DSN are posted. Faults: `INVALID_DSN`.
pub fn envelope_api_url(dsn: &str) -> Result<String, Fault> {
    // SAFETY: as of the engine's calls.
    let call = |room: &mut [u8], length: &mut usize| unsafe {
        dochirwa_envelope_api_url(dsn.as_ptr(), dsn.len(), room.as_mut_ptr(), room.len(), length)
    };
    with_room(call).map(text)
}

/// The value of the header `X-Sentry-Auth` for a DSN, in which a program calls itself by a name and version such as
/// shop/1.0. Faults: `INVALID_DSN`.
pub fn to_auth(dsn: &str, client_agent: &str) -> Result<String, Fault> {
    // SAFETY: as of the engine's calls.
    let call = |room: &mut [u8], length: &mut usize| unsafe {
        dochirwa_to_auth(
            dsn.as_ptr(),
            dsn.len(),
            client_agent.as_ptr(),
            client_agent.len(),
            room.as_mut_ptr(),
            room.len(),
            length,
        )
    };
    with_room(call).map(text)
}

/// A transaction or a span of an engine.
#[derive(Clone, Copy, Debug, PartialEq, Eq, Hash)]
#[allow(missing_docs)]
pub enum TransactionOrSpanId {
    Transaction(TransactionId),
    Span(SpanId),
}

impl TransactionOrSpanId {
    fn is_span(self) -> bool {
        matches!(self, TransactionOrSpanId::Span(_))
    }

    fn number(self) -> u64 {
        match self {
            TransactionOrSpanId::Transaction(it) => it.0,
            TransactionOrSpanId::Span(it) => it.0,
        }
    }
}

impl From<TransactionId> for TransactionOrSpanId {
    fn from(it: TransactionId) -> TransactionOrSpanId {
        TransactionOrSpanId::Transaction(it)
    }
}

impl From<SpanId> for TransactionOrSpanId {
    fn from(it: SpanId) -> TransactionOrSpanId {
        TransactionOrSpanId::Span(it)
    }
}

/// What begins a transaction: a name, an operation, and the headers of a request whose trace it continues (empty: none).
#[derive(Clone, Copy, Debug, Default)]
#[allow(missing_docs)]
pub struct Beginning<'a> {
    pub name: &'a str,
    pub op: &'a str,
    pub sentry_trace: &'a str,
    pub baggage: &'a str,
}

/// An engine, which has no clock, no randomness and no transport: the caller provides them. Most programs use
/// [`init`](crate::init) in its place, which does.
///
/// A call takes it by `&mut`, so one call at a time is made on it. What it holds has ids of a type of its own, so one in
/// place of another doesn't compile:
///
/// ```compile_fail,E0308
/// # use dochirwa::{ClientOptions, Engine, Fault, Fresh, Label, Moment};
/// # fn main() -> Result<(), Fault> {
/// let (mut engine, now) = (Engine::new()?, Moment::now());
/// let client = engine.add_client(&ClientOptions::new(), Label(0), now)?;
/// engine.set_tag(client, "till", "3", now)?; // of a hub
/// # Ok(())
/// # }
/// ```
///
/// This does:
///
/// ```no_run
/// # use dochirwa::{ClientOptions, Engine, Fault, Fresh, Label, Moment};
/// # fn main() -> Result<(), Fault> {
/// let (mut engine, now) = (Engine::new()?, Moment::now());
/// let client = engine.add_client(&ClientOptions::new(), Label(0), now)?;
/// let hub = engine.new_hub(client, &Fresh { now, trace: 1.into(), span: 1, ..Fresh::default() })?;
/// engine.set_tag(hub, "till", "3", now)?;
/// # Ok(())
/// # }
/// ```
///
/// An id of another engine, or of what is gone, is refused as [`Fault::STALE`], or names what has that number there.
/// Any call can fail with [`Fault::OUT_OF_MEMORY`].
pub struct Engine {
    raw: Raw,
}

// SAFETY: it holds plain data on the heap of malloc, which any thread may use and free.
unsafe impl Send for Engine {}

/// Attributes as JSON. The engine reads none where there is no text, which spares its reader.
fn text_of(attributes: &Map) -> String {
    if attributes.is_empty() {
        return String::new();
    }
    attributes.to_string()
}

// SAFETY of all calls below: `raw` began as null, and only the library writes it; it is never copied; `&mut self` keeps
// calls apart; a slice's pointer is not null and has its length; results are `&mut` to initialized numbers.
impl Engine {
    /// An engine that holds nothing.
    pub fn new() -> Result<Engine, Fault> {
        let mut raw = Raw { at: std::ptr::null_mut() };
        checked(unsafe { dochirwa_open(&mut raw) })?;
        Ok(Engine { raw })
    }

    /// Adds a client. Clients of one label count their losses together. Faults: `INVALID_DSN`, `INVALID_RATE`, `FULL`,
    /// `UNKNOWN` (an option has a line feed).
    pub fn add_client(&mut self, options: &ClientOptions, label: Label, now: Moment) -> Result<ClientId, Fault> {
        let options = options.lines().map_err(|it| it.fault())?;
        let mut client = 0;
        checked(unsafe {
            dochirwa_add_client(&mut self.raw, options.as_ptr(), options.len(), label.0, now.0, &mut client)
        })?;
        Ok(ClientId(client))
    }

    /// Adds a client with the options and the label of another, and queues of its own. Faults: `STALE`, `FULL`.
    pub fn clone_client(&mut self, client: ClientId, now: Moment) -> Result<ClientId, Fault> {
        let mut clone = 0;
        checked(unsafe { dochirwa_clone_client(&mut self.raw, client.0, now.0, &mut clone) })?;
        Ok(ClientId(clone))
    }

    /// Gives a client back; what waits in its queues is sent. Faults: `STALE`, `STILL_NAMED` (a hub, a session or a
    /// transaction needs it).
    pub fn drop_client(&mut self, client: ClientId) -> Result<(), Fault> {
        checked(unsafe { dochirwa_drop_client(&mut self.raw, client.0) })
    }

    /// Whether a client sends: not where it has no DSN, or was closed. Faults: `STALE`.
    pub fn is_enabled(&mut self, client: ClientId) -> Result<bool, Fault> {
        let mut enabled = 0;
        checked(unsafe { dochirwa_is_enabled(&mut self.raw, client.0, &mut enabled) })?;
        Ok(enabled == 1)
    }

    /// Sends what waits in the client's queues: ended sessions, logs, metrics. Faults: `STALE`.
    pub fn flush(&mut self, client: ClientId) -> Result<(), Fault> {
        checked(unsafe { dochirwa_flush(&mut self.raw, client.0) })
    }

    /// Tells a client the time: logs and metrics are sent after 5 seconds, ended sessions after a minute. Call it every
    /// second or so. Faults: `STALE`.
    pub fn tick(&mut self, client: ClientId, now: Moment) -> Result<(), Fault> {
        checked(unsafe { dochirwa_tick(&mut self.raw, client.0, now.0) })
    }

    /// Sends what waits in the client's queues; nothing is sent by it after that. Faults: `STALE`.
    pub fn close(&mut self, client: ClientId) -> Result<(), Fault> {
        checked(unsafe { dochirwa_close(&mut self.raw, client.0) })
    }

    /// Counts what a transport lost of a category for a reason, under the label of its client; a later envelope reports
    /// it. Faults: `FOREIGN_LOSSES`.
    pub fn record_loss(
        &mut self,
        label: Label,
        category: Category,
        reason: Reason,
        quantity: u64,
    ) -> Result<(), Fault> {
        checked(unsafe { dochirwa_record_loss(&mut self.raw, label.0, category as u32, reason as u32, quantity) })
    }

    /// Adds a hub on a client, whose scope has the trace and the span of `fresh`. Faults: `STALE`, `FULL`, `UNKNOWN`.
    pub fn new_hub(&mut self, client: ClientId, fresh: &Fresh) -> Result<HubId, Fault> {
        let mut hub = 0;
        checked(unsafe { dochirwa_new_hub(&mut self.raw, client.0, fresh, &mut hub) })?;
        Ok(HubId(hub))
    }

    /// Adds a hub with the client and a copy of the top scope of another, as for a new thread. Faults: `STALE`, `FULL`.
    pub fn new_hub_from_top(&mut self, hub: HubId) -> Result<HubId, Fault> {
        let mut copy = 0;
        checked(unsafe { dochirwa_new_hub_from_top(&mut self.raw, hub.0, &mut copy) })?;
        Ok(HubId(copy))
    }

    /// Gives the top scope of a hub another client. Faults: `STALE`.
    pub fn bind_client(&mut self, hub: HubId, client: ClientId) -> Result<(), Fault> {
        checked(unsafe { dochirwa_bind_client(&mut self.raw, hub.0, client.0) })
    }

    /// Gives a hub back. Its session ends if no other scope has it. Faults: `STALE`, `SCOPES_OPEN`.
    pub fn release_hub(&mut self, hub: HubId, now: Moment) -> Result<(), Fault> {
        checked(unsafe { dochirwa_release_hub(&mut self.raw, hub.0, now.0) })
    }

    /// Pushes a copy of the top scope, and answers the depth, by which `pop_scope` pops it. Faults: `STALE`.
    pub fn push_scope(&mut self, hub: HubId) -> Result<Depth, Fault> {
        let mut depth = 0;
        checked(unsafe { dochirwa_push_scope(&mut self.raw, hub.0, &mut depth) })?;
        Ok(Depth(depth))
    }

    /// Pops the scope of this depth, which must be the top one. Faults: `STALE`, `OUT_OF_ORDER`.
    pub fn pop_scope(&mut self, hub: HubId, depth: Depth, now: Moment) -> Result<(), Fault> {
        checked(unsafe { dochirwa_pop_scope(&mut self.raw, hub.0, depth.0, now.0) })
    }

    /// Sets a tag. Faults: `STALE`.
    pub fn set_tag(&mut self, hub: HubId, key: &str, value: &str, now: Moment) -> Result<(), Fault> {
        checked(unsafe {
            dochirwa_set_tag(&mut self.raw, hub.0, key.as_ptr(), key.len(), value.as_ptr(), value.len(), now.0)
        })
    }

    /// Gives the scope a transaction or a span: the events of the hub belong to its trace. Faults: `STALE`.
    pub fn set_span(&mut self, hub: HubId, span: impl Into<TransactionOrSpanId>, now: Moment) -> Result<(), Fault> {
        let span = span.into();
        checked(unsafe { dochirwa_set_span(&mut self.raw, hub.0, span.is_span(), span.number(), now.0) })
    }

    /// Takes the transaction or span of the scope away. Faults: `STALE`.
    pub fn clear_span(&mut self, hub: HubId, now: Moment) -> Result<(), Fault> {
        checked(unsafe { dochirwa_clear_span(&mut self.raw, hub.0, now.0) })
    }

    /// Does the edits of an object, all or none: `tags` (texts), `extra` (any values) and `contexts` (objects) are objects
    /// whose entries are set, or removed where they are null; `user` is an object as of [`User`](crate::User), `level` a
    /// name such as warning, `fingerprint` a list of texts, `transaction` a text; null takes them away. Faults: `STALE`,
    /// `UNKNOWN` (also a member of another name).
    pub fn edit_scope(&mut self, hub: HubId, edits: &Map, now: Moment) -> Result<(), Fault> {
        let edits = edits.to_string();
        checked(unsafe { dochirwa_edit_scope(&mut self.raw, hub.0, edits.as_ptr(), edits.len(), now.0) })
    }

    /// Clears the scope to the trace and the span of `fresh`. Faults: `STALE`, `UNKNOWN`.
    pub fn clear_scope(&mut self, hub: HubId, fresh: &Fresh) -> Result<(), Fault> {
        checked(unsafe { dochirwa_clear_scope(&mut self.raw, hub.0, fresh) })
    }

    /// Adds a breadcrumb. Faults: `STALE`.
    pub fn add_breadcrumb(&mut self, hub: HubId, breadcrumb: &Breadcrumb, now: Moment) -> Result<(), Fault> {
        let json = Map::from(breadcrumb).to_string();
        checked(unsafe { dochirwa_add_breadcrumb(&mut self.raw, hub.0, json.as_ptr(), json.len(), now.0) })
    }

    /// Takes the breadcrumbs away. Faults: `STALE`.
    pub fn clear_breadcrumbs(&mut self, hub: HubId, now: Moment) -> Result<(), Fault> {
        checked(unsafe { dochirwa_clear_breadcrumbs(&mut self.raw, hub.0, now.0) })
    }

    /// Adds an attachment. Faults: `STALE`.
    pub fn add_attachment(&mut self, hub: HubId, attachment: &Attachment, now: Moment) -> Result<(), Fault> {
        let (name, ty, content) =
            (&attachment.filename, attachment.content_type.as_deref().unwrap_or(""), &attachment.buffer);
        checked(unsafe {
            dochirwa_add_attachment(
                &mut self.raw,
                hub.0,
                name.as_ptr(),
                name.len(),
                ty.as_ptr(),
                ty.len(),
                content.as_ptr(),
                content.len(),
                now.0,
            )
        })
    }

    /// Takes the attachments away. Faults: `STALE`.
    pub fn clear_attachments(&mut self, hub: HubId, now: Moment) -> Result<(), Fault> {
        checked(unsafe { dochirwa_clear_attachments(&mut self.raw, hub.0, now.0) })
    }

    /// Captures a message of a level, and answers the id of its event: nil where none was sent. Faults: `STALE`, `UNKNOWN`.
    pub fn capture_message(
        &mut self,
        hub: HubId,
        message: &str,
        level: Level,
        fresh: &Fresh,
    ) -> Result<EventId, Fault> {
        let mut id = EventId::default();
        checked(unsafe {
            dochirwa_capture_message(
                &mut self.raw,
                hub.0,
                level as u32,
                message.as_ptr(),
                message.len(),
                fresh,
                &mut id,
            )
        })?;
        Ok(id)
    }

    /// Captures an event, and answers its id: nil where none was sent. Faults: `STALE`, `UNKNOWN`.
    pub fn capture_event(&mut self, hub: HubId, event: &Event, fresh: &Fresh) -> Result<EventId, Fault> {
        let (mut id, json) = (EventId::default(), Map::from(event).to_string());
        checked(unsafe { dochirwa_capture_event(&mut self.raw, hub.0, json.as_ptr(), json.len(), fresh, &mut id) })?;
        Ok(id)
    }

    /// The id that the last capture on a hub answered: nil where there was none. Faults: `STALE`.
    pub fn last_event_id(&mut self, hub: HubId) -> Result<EventId, Fault> {
        let mut id = EventId::default();
        checked(unsafe { dochirwa_last_event_id(&mut self.raw, hub.0, &mut id) })?;
        Ok(id)
    }

    /// Captures a log. Faults: `STALE`.
    pub fn capture_log(&mut self, hub: HubId, log: &Log, now: Moment) -> Result<(), Fault> {
        let (body, attributes) = (&log.body, text_of(&log.attributes));
        checked(unsafe {
            dochirwa_capture_log(
                &mut self.raw,
                hub.0,
                log.level as u32,
                body.as_ptr(),
                body.len(),
                attributes.as_ptr(),
                attributes.len(),
                now.0,
            )
        })
    }

    /// Captures a metric. Faults: `STALE`, `UNKNOWN`.
    pub fn capture_metric(&mut self, hub: HubId, metric: &Metric, now: Moment) -> Result<(), Fault> {
        let (name, unit, attributes) =
            (&metric.name, metric.unit.as_deref().unwrap_or(""), text_of(&metric.attributes));
        checked(unsafe {
            dochirwa_capture_metric(
                &mut self.raw,
                hub.0,
                metric.kind as u32,
                name.as_ptr(),
                name.len(),
                metric.value,
                unit.as_ptr(),
                unit.len(),
                attributes.as_ptr(),
                attributes.len(),
                now.0,
            )
        })
    }

    /// Starts a session, in place of the one that the top scope has; nothing where the client has no release. Faults:
    /// `STALE`, `FULL`, `UNKNOWN`.
    pub fn start_session(&mut self, hub: HubId, fresh: &Fresh) -> Result<(), Fault> {
        checked(unsafe { dochirwa_start_session(&mut self.raw, hub.0, fresh) })
    }

    /// Ends the session of the top scope with a status. Faults: `STALE`.
    pub fn end_session(&mut self, hub: HubId, status: SessionStatus, now: Moment) -> Result<(), Fault> {
        checked(unsafe { dochirwa_end_session(&mut self.raw, hub.0, status as u32, now.0) })
    }

    /// Starts a transaction, in the trace of `fresh`, or in that of the headers, if it may be continued. Faults: `STALE`,
    /// `FULL`, `UNKNOWN`.
    pub fn start_transaction(
        &mut self,
        hub: HubId,
        begins: Beginning<'_>,
        fresh: &Fresh,
    ) -> Result<TransactionId, Fault> {
        let Beginning { name, op, sentry_trace, baggage } = begins;
        let mut transaction = 0;
        checked(unsafe {
            if sentry_trace.is_empty() && baggage.is_empty() {
                dochirwa_start_transaction(
                    &mut self.raw,
                    hub.0,
                    name.as_ptr(),
                    name.len(),
                    op.as_ptr(),
                    op.len(),
                    fresh,
                    &mut transaction,
                )
            } else {
                dochirwa_continue_transaction(
                    &mut self.raw,
                    hub.0,
                    name.as_ptr(),
                    name.len(),
                    op.as_ptr(),
                    op.len(),
                    sentry_trace.as_ptr(),
                    sentry_trace.len(),
                    baggage.as_ptr(),
                    baggage.len(),
                    fresh,
                    &mut transaction,
                )
            }
        })?;
        Ok(TransactionId(transaction))
    }

    /// The same at a rate, a fraction such as 0.25, which a sampler gave in place of the client's. The client's
    /// `traces_sample_rate` must be set, if only to 0. Faults: `STALE`, `INVALID_RATE`, `FULL`, `UNKNOWN`.
    pub fn sample_transaction(
        &mut self,
        hub: HubId,
        begins: Beginning<'_>,
        rate: f64,
        fresh: &Fresh,
    ) -> Result<TransactionId, Fault> {
        let Beginning { name, op, sentry_trace, baggage } = begins;
        let rate = crate::options::fraction(rate).ok_or(Fault::INVALID_RATE)?;
        let mut transaction = 0;
        checked(unsafe {
            dochirwa_sample_transaction(
                &mut self.raw,
                hub.0,
                name.as_ptr(),
                name.len(),
                op.as_ptr(),
                op.len(),
                sentry_trace.as_ptr(),
                sentry_trace.len(),
                baggage.as_ptr(),
                baggage.len(),
                rate.as_ptr(),
                rate.len(),
                fresh,
                &mut transaction,
            )
        })?;
        Ok(TransactionId(transaction))
    }

    /// Starts a span with an operation and a description (empty: none). Of `fresh` it uses the moment and the id of the
    /// span alone, so the others may be 0. Faults: `STALE`, `FULL`, `UNKNOWN`.
    pub fn start_child(
        &mut self,
        parent: impl Into<TransactionOrSpanId>,
        op: &str,
        description: &str,
        fresh: &Fresh,
    ) -> Result<SpanId, Fault> {
        let (parent, mut span) = (parent.into(), 0);
        checked(unsafe {
            dochirwa_start_child(
                &mut self.raw,
                parent.is_span(),
                parent.number(),
                op.as_ptr(),
                op.len(),
                description.as_ptr(),
                description.len(),
                fresh,
                &mut span,
            )
        })?;
        Ok(SpanId(span))
    }

    /// Sets a piece of data. What is set on a finished transaction or span is not sent. Faults: `STALE`.
    pub fn set_span_data(
        &mut self,
        span: impl Into<TransactionOrSpanId>,
        key: &str,
        value: &Value,
    ) -> Result<(), Fault> {
        let (span, json) = (span.into(), value.to_string());
        checked(unsafe {
            dochirwa_set_span_data(
                &mut self.raw,
                span.is_span(),
                span.number(),
                key.as_ptr(),
                key.len(),
                json.as_ptr(),
                json.len(),
            )
        })
    }

    /// Sets a tag. Faults: `STALE`.
    pub fn set_span_tag(&mut self, span: impl Into<TransactionOrSpanId>, key: &str, value: &str) -> Result<(), Fault> {
        let span = span.into();
        checked(unsafe {
            dochirwa_set_span_tag(
                &mut self.raw,
                span.is_span(),
                span.number(),
                key.as_ptr(),
                key.len(),
                value.as_ptr(),
                value.len(),
            )
        })
    }

    /// Sets the name of a transaction, or the description of a span. Faults: `STALE`.
    pub fn set_span_name(&mut self, span: impl Into<TransactionOrSpanId>, name: &str) -> Result<(), Fault> {
        let span = span.into();
        checked(unsafe {
            dochirwa_set_span_name(&mut self.raw, span.is_span(), span.number(), name.as_ptr(), name.len())
        })
    }

    /// Sets the operation. Faults: `STALE`.
    pub fn set_span_op(&mut self, span: impl Into<TransactionOrSpanId>, op: &str) -> Result<(), Fault> {
        let span = span.into();
        checked(unsafe { dochirwa_set_span_op(&mut self.raw, span.is_span(), span.number(), op.as_ptr(), op.len()) })
    }

    /// Sets the status. Faults: `STALE`.
    pub fn set_span_status(&mut self, span: impl Into<TransactionOrSpanId>, status: SpanStatus) -> Result<(), Fault> {
        let (span, name) = (span.into(), status.as_str());
        checked(unsafe {
            dochirwa_set_span_status(&mut self.raw, span.is_span(), span.number(), name.as_ptr(), name.len())
        })
    }

    /// Sets the request. Faults: `STALE`.
    pub fn set_span_request(&mut self, span: impl Into<TransactionOrSpanId>, request: &Request) -> Result<(), Fault> {
        let (span, json) = (span.into(), Map::from(request).to_string());
        checked(unsafe {
            dochirwa_set_span_request(&mut self.raw, span.is_span(), span.number(), json.as_ptr(), json.len())
        })
    }

    /// The value of the header `sentry-trace` by which another program continues the trace. Faults: `STALE`.
    pub fn trace_header(&mut self, span: impl Into<TransactionOrSpanId>) -> Result<String, Fault> {
        let (span, raw) = (span.into(), &mut self.raw);
        let call = |room: &mut [u8], length: &mut usize| unsafe {
            dochirwa_trace_header(raw, span.is_span(), span.number(), room.as_mut_ptr(), room.len(), length)
        };
        with_room(call).map(text)
    }

    /// The value of the header `baggage` that goes with it. Faults: `STALE`.
    pub fn baggage(&mut self, span: impl Into<TransactionOrSpanId>) -> Result<String, Fault> {
        let (span, raw) = (span.into(), &mut self.raw);
        let call = |room: &mut [u8], length: &mut usize| unsafe {
            dochirwa_baggage(raw, span.is_span(), span.number(), room.as_mut_ptr(), room.len(), length)
        };
        with_room(call).map(text)
    }

    /// Finishes a span, for the first time. Faults: `STALE`.
    pub fn finish_span(&mut self, span: SpanId, now: Moment) -> Result<(), Fault> {
        checked(unsafe { dochirwa_finish_span(&mut self.raw, span.0, now.0) })
    }

    /// Finishes a transaction, under the top scope of a hub, and sends it if it was sampled. Faults: `STALE`.
    pub fn finish_transaction(&mut self, transaction: TransactionId, hub: HubId, now: Moment) -> Result<(), Fault> {
        checked(unsafe { dochirwa_finish_transaction(&mut self.raw, transaction.0, hub.0, now.0) })
    }

    /// Forgets a transaction or a span. Give all back, also what is finished. Faults: `STALE`, `STILL_NAMED` (a span of the
    /// transaction is held, or a scope has it).
    pub fn discard(&mut self, span: impl Into<TransactionOrSpanId>) -> Result<(), Fault> {
        let span = span.into();
        checked(unsafe { dochirwa_discard(&mut self.raw, span.is_span(), span.number()) })
    }

    /// Finishes a span, and then forgets it. Answers whether it is still held, finished, since a scope has it. Faults:
    /// `STALE`.
    pub fn end_span(&mut self, span: SpanId, now: Moment) -> Result<bool, Fault> {
        let mut held = 0;
        checked(unsafe { dochirwa_end_span(&mut self.raw, span.0, now.0, &mut held) })?;
        Ok(held == 1)
    }

    /// Finishes a transaction, under the top scope of a hub, sends it if it was sampled, and then forgets it. Answers
    /// whether it is still held, finished, since a scope has it or a span of it is held. Faults: `STALE`.
    pub fn end_transaction(&mut self, transaction: TransactionId, hub: HubId, now: Moment) -> Result<bool, Fault> {
        let mut held = 0;
        checked(unsafe { dochirwa_end_transaction(&mut self.raw, transaction.0, hub.0, now.0, &mut held) })?;
        Ok(held == 1)
    }

    /// The client of the envelope that waits first, and its bytes, as they are to be posted; it waits no more.
    pub fn next_envelope(&mut self) -> Result<Option<(ClientId, Vec<u8>)>, Fault> {
        let (mut client, raw) = (0, &mut self.raw);
        let call = |room: &mut [u8], length: &mut usize| unsafe {
            dochirwa_next_envelope(raw, &mut client, room.as_mut_ptr(), room.len(), length)
        };
        let envelope = with_room(call)?;
        Ok((!envelope.is_empty()).then_some((ClientId(client), envelope)))
    }

    /// Forgets the envelopes that wait.
    pub fn drop_envelopes(&mut self) -> Result<(), Fault> {
        checked(unsafe { dochirwa_drop_envelopes(&mut self.raw) })
    }
}

impl Drop for Engine {
    fn drop(&mut self) {
        unsafe { dochirwa_free(&mut self.raw) }
    }
}

impl std::fmt::Debug for Engine {
    fn fmt(&self, f: &mut std::fmt::Formatter<'_>) -> std::fmt::Result {
        f.debug_struct("Engine").finish_non_exhaustive()
    }
}
