//! Transactions and spans.

use crate::engine::{Beginning, TransactionOrSpanId};
use crate::hub::Hub;
use crate::protocol::Request;
use crate::types::*;
use crate::value::Value;
use std::sync::Arc;

/// What a transaction begins with.
#[derive(Clone, Debug, Default, PartialEq)]
pub struct TransactionContext {
    name: String,
    op: String,
    sentry_trace: String,
    baggage: String,
    rate: Option<f64>,
}

impl TransactionContext {
    /// A name and an operation, for a trace of its own.
    pub fn new(name: impl Into<String>, op: impl Into<String>) -> TransactionContext {
        TransactionContext { name: name.into(), op: op.into(), ..TransactionContext::default() }
    }

    /// The same in the trace that the headers of a request say, if it may be continued. Their names may be in any case.
    pub fn continue_from_headers<'a>(
        name: impl Into<String>,
        op: impl Into<String>,
        headers: impl IntoIterator<Item = (&'a str, &'a str)>,
    ) -> TransactionContext {
        let mut context = TransactionContext::new(name, op);
        for (name, value) in headers {
            match name.to_ascii_lowercase().as_str() {
                "sentry-trace" => context.sentry_trace = value.into(),
                "baggage" => context.baggage = value.into(),
                _ => {}
            }
        }
        context
    }

    /// Samples at a rate from 0 to 1 in place of the client's, whose `traces_sample_rate` must be set, if only to 0. Under
    /// another rate nothing is started.
    pub fn sample_rate(mut self, rate: f64) -> TransactionContext {
        self.rate = Some(rate);
        self
    }
}

/// Methods that transactions and spans share.
macro_rules! shared_methods {
    ($id:ident) => {
        /// Sets a piece of data. What is set after the end is not sent.
        pub fn set_data(&self, key: &str, value: impl Into<Value>) {
            let value = value.into();
            self.call(|state, span| state.engine.set_span_data(span, key, &value));
        }

        /// Sets a tag.
        pub fn set_tag(&self, key: &str, value: impl ToString) {
            let value = value.to_string();
            self.call(|state, span| state.engine.set_span_tag(span, key, &value));
        }

        /// Sets the operation.
        pub fn set_op(&self, op: &str) {
            self.call(|state, span| state.engine.set_span_op(span, op));
        }

        /// Sets how it ended.
        pub fn set_status(&self, status: SpanStatus) {
            self.call(|state, span| state.engine.set_span_status(span, status));
        }

        /// Sets the request.
        pub fn set_request(&self, request: &Request) {
            self.call(|state, span| state.engine.set_span_request(span, request));
        }

        /// The headers `sentry-trace` and `baggage` of a request by which another program continues the trace.
        pub fn iter_headers(&self) -> impl Iterator<Item = (&'static str, String)> {
            let trace = self.call(|state, span| state.engine.trace_header(span));
            let baggage = self.call(|state, span| state.engine.baggage(span));
            [("sentry-trace", trace), ("baggage", baggage)].into_iter().filter(|it| !it.1.is_empty())
        }

        /// Starts a child with an operation and a description (empty: none).
        pub fn start_child(&self, op: &str, description: &str) -> Span {
            let hub = self.0.hub.clone();
            let id = self.call(|state, parent| {
                let fresh = state.fresh_span();
                state.engine.start_child(parent, op, description, &fresh).map(Some)
            });
            Span(Arc::new(SpanInner { hub, id }))
        }

        fn call<R: Default>(&self, call: impl FnOnce(&mut crate::client::State, $id) -> Result<R, Fault>) -> R {
            let shared = self.0.hub.shared();
            self.0.id.map_or_else(R::default, |id| shared.tolerated(|state| call(state, id)))
        }
    };
}

struct TransactionInner {
    hub: Hub,
    id: Option<TransactionId>,
}

impl Drop for TransactionInner {
    fn drop(&mut self) {
        let Some(id) = self.id else { return };
        self.hub.tolerated(|state, hub| {
            let is_held = state.engine.end_transaction(id, hub, Moment::now())?;
            state.forget(is_held.then_some(id.into()));
            Ok(())
        });
    }
}

/// A transaction. Its clones are the same transaction, which ends when the last one is gone, if [`finish`](Self::finish)
/// hasn't ended it before. Children that go on after that aren't sent.
#[must_use = "its end ends the transaction"]
#[derive(Clone)]
pub struct Transaction(Arc<TransactionInner>);

impl Transaction {
    pub(crate) fn start(hub: &Hub, context: &TransactionContext) -> Transaction {
        let TransactionContext { name, op, sentry_trace, baggage, rate } = context;
        let begins = Beginning { name, op, sentry_trace, baggage };
        let id = hub.tolerated(|state, hub| {
            let fresh = state.fresh();
            let started = match rate {
                None => state.engine.start_transaction(hub, begins, &fresh),
                Some(rate) => state.engine.sample_transaction(hub, begins, *rate, &fresh),
            };
            started.map(Some)
        });
        Transaction(Arc::new(TransactionInner { hub: hub.clone(), id }))
    }

    shared_methods! { TransactionId }

    /// Sets the name.
    pub fn set_name(&self, name: &str) {
        self.call(|state, transaction| state.engine.set_span_name(transaction, name));
    }

    /// Ends it, and sends it under the top scope of its hub, if it was sampled.
    pub fn finish(self) {
        let hub = self.0.hub.id();
        self.call(|state, transaction| state.engine.finish_transaction(transaction, hub, Moment::now()));
    }
}

impl std::fmt::Debug for Transaction {
    fn fmt(&self, f: &mut std::fmt::Formatter<'_>) -> std::fmt::Result {
        f.debug_tuple("Transaction").field(&self.0.id).finish()
    }
}

struct SpanInner {
    hub: Hub,
    id: Option<SpanId>,
}

impl Drop for SpanInner {
    fn drop(&mut self) {
        let Some(id) = self.id else { return };
        self.hub.tolerated(|state, _| {
            let is_held = state.engine.end_span(id, Moment::now())?;
            state.forget(is_held.then_some(id.into()));
            Ok(())
        });
    }
}

/// A span. Its clones are the same span, which ends when the last one is gone, if [`finish`](Self::finish) hasn't ended it
/// before.
#[must_use = "its end ends the span"]
#[derive(Clone)]
pub struct Span(Arc<SpanInner>);

impl Span {
    shared_methods! { SpanId }

    /// Sets the description.
    pub fn set_description(&self, description: &str) {
        self.call(|state, span| state.engine.set_span_name(span, description));
    }

    /// Ends it.
    pub fn finish(self) {
        self.call(|state, span| state.engine.finish_span(span, Moment::now()));
    }
}

impl std::fmt::Debug for Span {
    fn fmt(&self, f: &mut std::fmt::Formatter<'_>) -> std::fmt::Result {
        f.debug_tuple("Span").field(&self.0.id).finish()
    }
}

/// A transaction or a span.
#[derive(Clone, Debug)]
#[allow(missing_docs)]
pub enum TransactionOrSpan {
    Transaction(Transaction),
    Span(Span),
}

impl TransactionOrSpan {
    pub(crate) fn hub(&self) -> &Hub {
        match self {
            TransactionOrSpan::Transaction(it) => &it.0.hub,
            TransactionOrSpan::Span(it) => &it.0.hub,
        }
    }

    /// Starts a child with an operation and a description (empty: none).
    pub fn start_child(&self, op: &str, description: &str) -> Span {
        match self {
            TransactionOrSpan::Transaction(it) => it.start_child(op, description),
            TransactionOrSpan::Span(it) => it.start_child(op, description),
        }
    }

    pub(crate) fn id(&self) -> Option<TransactionOrSpanId> {
        match self {
            TransactionOrSpan::Transaction(it) => it.0.id.map(Into::into),
            TransactionOrSpan::Span(it) => it.0.id.map(Into::into),
        }
    }
}

impl From<Transaction> for TransactionOrSpan {
    fn from(it: Transaction) -> TransactionOrSpan {
        TransactionOrSpan::Transaction(it)
    }
}

impl From<Span> for TransactionOrSpan {
    fn from(it: Span) -> TransactionOrSpan {
        TransactionOrSpan::Span(it)
    }
}

#[cfg(test)]
mod tests {
    use super::TransactionContext;

    #[test]
    fn headers_of_any_case_continue() {
        let headers = [("Host", "shop"), ("Sentry-Trace", "trace"), ("BAGGAGE", "a=b")];
        let context = TransactionContext::continue_from_headers("sell", "till", headers);
        let own = TransactionContext::new("sell", "till");
        assert_eq!(context, TransactionContext { sentry_trace: "trace".into(), baggage: "a=b".into(), ..own });
    }
}
