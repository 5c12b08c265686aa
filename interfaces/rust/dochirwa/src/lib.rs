//! Reports errors, logs, metrics and traces to Sentry, by the proved engine of Dochirwa. Names are those of the crate
//! `sentry`, where that has the same.
//!
//! ```no_run
//! # fn main() -> Result<(), Box<dyn std::error::Error>> {
//! let options = dochirwa::ClientOptions::new().dsn("http://key@127.0.0.1:9000/1").release("shop@1.0.0");
//! let _guard = dochirwa::init(options)?;
//! dochirwa::configure_scope(|scope| scope.set_tag("till", 3));
//! if let Err(error) = std::fs::read("/no/such/file") {
//!     dochirwa::capture_error(&error);
//! }
//! # Ok(())
//! # }
//! ```
//!
//! [`init`] gives the program a client: a lock around an engine, the system's clock and random ids, and a thread that
//! posts. It posts to `http:` by the standard library; for `https:` give it an [`HttpClient`], such as that of the crate
//! `dochirwa_curl`. [`Engine`] alone has none of these.
#![warn(missing_docs)]

mod api;
mod client;
mod engine;
mod error;
mod ffi;
mod http;
mod hub;
mod limits;
mod options;
mod performance;
mod protocol;
mod read;
#[cfg(feature = "backtrace")]
mod stacktrace;
mod threads;
mod transport;
mod types;
mod value;

pub use api::*;
pub use client::{init, Client, ClientInitGuard, InitError};
pub use engine::{envelope_api_url, to_auth, version, Beginning, Engine, TransactionOrSpanId};
pub use error::event_from_error;
pub use http::PlainHttp;
pub use hub::{Hub, Scope, ScopeGuard};
pub use options::{ClientOptions, OptionError, SessionMode};
pub use performance::{Span, Transaction, TransactionContext, TransactionOrSpan};
pub use protocol::{
    Attachment, Breadcrumb, Event, Exception, Frame, Log, Mechanism, Metric, Request, Stacktrace, User,
};
pub use read::Item;
#[cfg(feature = "backtrace")]
pub use stacktrace::current_stacktrace;
pub use transport::{Answer, Envelope, HttpClient, Post, PostError, Transport, TransportThread, MOST_WAITING};
pub use types::{
    Category, ClientId, Depth, EventId, Fault, Fresh, HubId, Label, Level, LogLevel, MetricKind, Moment, Reason,
    SessionStatus, SpanId, SpanStatus, TraceId, TransactionId,
};
pub use value::{Map, Number, Value};
