//! Ids, moments, and the enumerations of dochirwa.h.

use std::fmt;

/// Identities of 128 bits, which print as 32 hexadecimal digits.
macro_rules! identities {
    ($($(#[$about:meta])* $name:ident)*) => {$(
        $(#[$about])*
        #[repr(C)]
        #[derive(Clone, Copy, Debug, Default, PartialEq, Eq, Hash, PartialOrd, Ord)]
        pub struct $name {
            high: u64,
            low: u64,
        }

        impl $name {
            /// Whether all bits are 0.
            pub fn is_nil(self) -> bool {
                self.high == 0 && self.low == 0
            }
        }

        impl From<u128> for $name {
            fn from(bits: u128) -> $name {
                $name { high: (bits >> 64) as u64, low: bits as u64 }
            }
        }

        impl fmt::Display for $name {
            fn fmt(&self, f: &mut fmt::Formatter<'_>) -> fmt::Result {
                write!(f, "{:016x}{:016x}", self.high, self.low)
            }
        }
    )*};
}

identities! {
    /// The id of an event or of a session; nil where none was sent.
    EventId
    /// The id of a trace.
    TraceId
}

/// What an engine holds, by the number that it gave it. Each kind has a type of its own, and is counted on its own.
macro_rules! held {
    ($($(#[$about:meta])* $name:ident)*) => {$(
        $(#[$about])*
        #[derive(Clone, Copy, Debug, PartialEq, Eq, Hash)]
        pub struct $name(pub(crate) u64);
    )*};
}

held! {
    /// A client of an [`Engine`](crate::Engine).
    ClientId
    /// A hub of an [`Engine`](crate::Engine).
    HubId
    /// A transaction of an [`Engine`](crate::Engine).
    TransactionId
    /// A span of an [`Engine`](crate::Engine), as a child of a transaction or of another span.
    SpanId
}

/// A label by which clients count their losses together.
#[derive(Clone, Copy, Debug, Default, PartialEq, Eq, Hash)]
pub struct Label(pub u64);

/// How many scopes a hub has, by which the top one is popped.
#[derive(Clone, Copy, Debug, PartialEq, Eq, PartialOrd, Ord)]
pub struct Depth(pub(crate) usize);

/// Nanoseconds since the epoch.
#[repr(transparent)]
#[derive(Clone, Copy, Debug, Default, PartialEq, Eq, PartialOrd, Ord)]
pub struct Moment(pub u64);

impl Moment {
    /// The moment of the system's clock; the epoch where that stands before it.
    pub fn now() -> Moment {
        let since = std::time::UNIX_EPOCH.elapsed().unwrap_or_default();
        Moment(u64::try_from(since.as_nanos()).unwrap_or(u64::MAX))
    }
}

/// What a call is to use: the moment, and random ids of an event or session, of a trace and of a span. What is sampled is
/// decided by a random number, `draw`, below a million; a call with another one is refused as [`Fault::UNKNOWN`].
#[repr(C)]
#[derive(Clone, Copy, Debug, Default)]
pub struct Fresh {
    /// The moment.
    pub now: Moment,
    /// The id of the event or session.
    pub id: EventId,
    /// The id of the trace, if the call begins one.
    pub trace: TraceId,
    /// The id of the span in the trace.
    pub span: u64,
    /// A number below a million.
    pub draw: u32,
}

/// An enumeration of dochirwa.h, in its order.
macro_rules! enumerations {
    ($($(#[$about:meta])* $name:ident { $($variant:ident = $text:literal,)* })*) => {$(
        $(#[$about])*
        #[repr(u32)]
        #[derive(Clone, Copy, Debug, PartialEq, Eq, Hash, PartialOrd, Ord)]
        #[allow(missing_docs)]
        pub enum $name {
            $($variant,)*
        }

        impl $name {
            /// The name that Sentry has for it.
            pub fn as_str(self) -> &'static str {
                match self {
                    $($name::$variant => $text,)*
                }
            }

            #[allow(dead_code)]
            pub(crate) const ALL: &'static [$name] = &[$($name::$variant,)*];
        }

        impl fmt::Display for $name {
            fn fmt(&self, f: &mut fmt::Formatter<'_>) -> fmt::Result {
                f.write_str(self.as_str())
            }
        }
    )*};
}

enumerations! {
    /// How bad an event is.
    Level {
        Debug = "debug",
        Info = "info",
        Warning = "warning",
        Error = "error",
        Fatal = "fatal",
    }

    /// How much a log matters.
    LogLevel {
        Trace = "trace",
        Debug = "debug",
        Info = "info",
        Warn = "warn",
        Error = "error",
        Fatal = "fatal",
    }

    /// What the values of a metric are.
    MetricKind {
        Counter = "counter",
        Gauge = "gauge",
        Distribution = "distribution",
    }

    /// How a session ends, or that it goes on.
    SessionStatus {
        Ok = "ok",
        Exited = "exited",
        Crashed = "crashed",
        Abnormal = "abnormal",
    }

    /// What is lost.
    Category {
        Error = "error",
        Transaction = "transaction",
        Span = "span",
        Session = "session",
        Attachment = "attachment",
        LogItem = "log_item",
        Metric = "metric",
    }

    /// Why it is lost.
    Reason {
        EventProcessor = "event_processor",
        BeforeSend = "before_send",
        SampleRate = "sample_rate",
        BufferOverflow = "buffer_overflow",
        SendError = "send_error",
        InternalSdkError = "internal_sdk_error",
        NetworkError = "network_error",
        RatelimitBackoff = "ratelimit_backoff",
        QueueOverflow = "queue_overflow",
    }

    /// How a transaction or a span ended. C has these by name.
    SpanStatus {
        Ok = "ok",
        Cancelled = "cancelled",
        InvalidArgument = "invalid_argument",
        NotFound = "not_found",
        AlreadyExists = "already_exists",
        PermissionDenied = "permission_denied",
        Unauthenticated = "unauthenticated",
        FailedPrecondition = "failed_precondition",
        OutOfRange = "out_of_range",
        DeadlineExceeded = "deadline_exceeded",
        ResourceExhausted = "resource_exhausted",
        Aborted = "aborted",
        Unimplemented = "unimplemented",
        InternalError = "internal_error",
        Unavailable = "unavailable",
        DataLoss = "data_loss",
        UnknownError = "unknown_error",
    }
}

/// A call that failed, and changed nothing, by the number that dochirwa.h has for it.
#[derive(Clone, Copy, Debug, PartialEq, Eq)]
pub struct Fault(pub u32);

#[allow(missing_docs)]
impl Fault {
    pub const OUT_OF_MEMORY: Fault = Fault(1);
    /// What is named is not there any more.
    pub const STALE: Fault = Fault(2);
    /// A scope above it is still pushed.
    pub const OUT_OF_ORDER: Fault = Fault(3);
    /// Something still needs it.
    pub const STILL_NAMED: Fault = Fault(4);
    pub const SCOPES_OPEN: Fault = Fault(5);
    pub const INVALID_DSN: Fault = Fault(6);
    pub const INVALID_RATE: Fault = Fault(7);
    /// No client has the label.
    pub const FOREIGN_LOSSES: Fault = Fault(8);
    pub const FULL: Fault = Fault(9);
    /// A number or a word stands for nothing.
    pub const UNKNOWN: Fault = Fault(11);
}

impl fmt::Display for Fault {
    fn fmt(&self, f: &mut fmt::Formatter<'_>) -> fmt::Result {
        f.write_str(match *self {
            Fault::OUT_OF_MEMORY => "out of memory",
            Fault::STALE => "stale",
            Fault::OUT_OF_ORDER => "out of order",
            Fault::STILL_NAMED => "still named",
            Fault::SCOPES_OPEN => "scopes open",
            Fault::INVALID_DSN => "invalid DSN",
            Fault::INVALID_RATE => "invalid rate",
            Fault::FOREIGN_LOSSES => "foreign losses",
            Fault::FULL => "full",
            Fault::UNKNOWN => "a number or a word stands for nothing",
            Fault(number) => return write!(f, "fault {number}"),
        })
    }
}

impl std::error::Error for Fault {}
