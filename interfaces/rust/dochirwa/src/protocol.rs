//! What is captured: events, breadcrumbs, logs and metrics.

use crate::types::{Level, LogLevel, MetricKind};
use crate::value::{Map, Value};

/// An event. What it doesn't say, the scope of its hub and the options of its client do.
#[derive(Clone, Debug, PartialEq)]
#[allow(missing_docs)]
pub struct Event {
    pub level: Level,
    pub message: Option<String>,
    /// The errors, the innermost first.
    pub exception: Vec<Exception>,
    pub transaction: Option<String>,
    pub fingerprint: Vec<String>,
    pub server_name: Option<String>,
    pub release: Option<String>,
    pub environment: Option<String>,
    pub user: Option<User>,
    pub request: Option<Request>,
    pub contexts: Vec<(String, Map)>,
    pub breadcrumbs: Vec<Breadcrumb>,
    /// Texts by name.
    pub tags: Vec<(String, String)>,
    pub extra: Map,
}

impl Default for Event {
    fn default() -> Event {
        Event {
            level: Level::Error,
            message: None,
            exception: Vec::new(),
            transaction: None,
            fingerprint: Vec::new(),
            server_name: None,
            release: None,
            environment: None,
            user: None,
            request: None,
            contexts: Vec::new(),
            breadcrumbs: Vec::new(),
            tags: Vec::new(),
            extra: Map::new(),
        }
    }
}

impl From<&Event> for Map {
    fn from(event: &Event) -> Map {
        let mut map = Map::from([("level", event.level.as_str()), ("platform", "rust")]);
        map.insert_some("message", event.message.clone());
        map.insert_some("transaction", event.transaction.clone());
        map.insert_some("server_name", event.server_name.clone());
        map.insert_some("release", event.release.clone());
        map.insert_some("environment", event.environment.clone());
        map.insert_some("user", event.user.as_ref().map(Map::from));
        map.insert_some("request", event.request.as_ref().map(Map::from));
        map.insert_filled("fingerprint", event.fingerprint.clone());
        map.insert_filled("exception", event.exception.iter().map(Map::from).collect::<Vec<_>>());
        map.insert_filled("breadcrumbs", event.breadcrumbs.iter().map(Map::from).collect::<Vec<_>>());
        map.insert_filled("contexts", Map::from_iter(event.contexts.iter().cloned()));
        map.insert_filled("tags", Map::from_iter(event.tags.iter().cloned()));
        map.insert_filled("extra", event.extra.clone());
        map.insert("sdk", Map::from([("name", "dochirwa.rust"), ("version", env!("CARGO_PKG_VERSION"))]));
        map
    }
}

/// An error.
#[derive(Clone, Debug, Default, PartialEq)]
#[allow(missing_docs)]
pub struct Exception {
    pub ty: String,
    pub value: Option<String>,
    pub mechanism: Option<Mechanism>,
    pub stacktrace: Option<Stacktrace>,
}

impl From<&Exception> for Map {
    fn from(exception: &Exception) -> Map {
        let mut map = Map::from([("type", exception.ty.as_str())]);
        map.insert_some("value", exception.value.clone());
        map.insert_some("mechanism", exception.mechanism.as_ref().map(Map::from));
        map.insert_some("stacktrace", exception.stacktrace.as_ref().map(Map::from));
        map
    }
}

/// How an error was caught.
#[derive(Clone, Debug, Default, PartialEq)]
#[allow(missing_docs)]
pub struct Mechanism {
    pub ty: String,
    pub handled: Option<bool>,
}

impl From<&Mechanism> for Map {
    fn from(mechanism: &Mechanism) -> Map {
        let mut map = Map::from([("type", mechanism.ty.as_str())]);
        map.insert_some("handled", mechanism.handled);
        map
    }
}

/// The calls that led to a place, the outermost first.
#[derive(Clone, Debug, Default, PartialEq)]
#[allow(missing_docs)]
pub struct Stacktrace {
    pub frames: Vec<Frame>,
}

impl From<&Stacktrace> for Map {
    fn from(stacktrace: &Stacktrace) -> Map {
        Map::from([("frames", stacktrace.frames.iter().map(Map::from).collect::<Vec<_>>())])
    }
}

/// A call on the stack.
#[derive(Clone, Debug, Default, PartialEq)]
#[allow(missing_docs)]
pub struct Frame {
    pub function: Option<String>,
    pub filename: Option<String>,
    pub lineno: Option<u64>,
    pub colno: Option<u64>,
    /// Whether it is code of the program, and not of a library.
    pub in_app: Option<bool>,
}

impl From<&Frame> for Map {
    fn from(frame: &Frame) -> Map {
        let mut map = Map::new();
        map.insert_some("function", frame.function.clone());
        map.insert_some("filename", frame.filename.clone());
        map.insert_some("lineno", frame.lineno);
        map.insert_some("colno", frame.colno);
        map.insert_some("in_app", frame.in_app);
        map
    }
}

/// Whom something happened to.
#[derive(Clone, Debug, Default, PartialEq)]
#[allow(missing_docs)]
pub struct User {
    pub id: Option<String>,
    pub email: Option<String>,
    pub username: Option<String>,
    pub ip_address: Option<String>,
    pub data: Map,
}

impl From<&User> for Map {
    fn from(user: &User) -> Map {
        let mut map = Map::new();
        map.insert_some("id", user.id.clone());
        map.insert_some("email", user.email.clone());
        map.insert_some("username", user.username.clone());
        map.insert_some("ip_address", user.ip_address.clone());
        map.insert_filled("data", user.data.clone());
        map
    }
}

/// A request that a server answers.
#[derive(Clone, Debug, Default, PartialEq)]
#[allow(missing_docs)]
pub struct Request {
    pub method: Option<String>,
    pub url: Option<String>,
    pub data: Option<String>,
    pub query_string: Option<String>,
    pub cookies: Option<String>,
    /// Texts by name.
    pub headers: Vec<(String, String)>,
    /// Texts by name.
    pub env: Vec<(String, String)>,
}

impl From<&Request> for Map {
    fn from(request: &Request) -> Map {
        let mut map = Map::new();
        map.insert_some("method", request.method.clone());
        map.insert_some("url", request.url.clone());
        map.insert_some("data", request.data.clone());
        map.insert_some("query_string", request.query_string.clone());
        map.insert_some("cookies", request.cookies.clone());
        map.insert_filled("headers", Map::from_iter(request.headers.iter().cloned()));
        map.insert_filled("env", Map::from_iter(request.env.iter().cloned()));
        map
    }
}

/// A step that led to an event.
#[derive(Clone, Debug, PartialEq)]
#[allow(missing_docs)]
pub struct Breadcrumb {
    pub ty: String,
    pub category: Option<String>,
    pub level: Level,
    pub message: Option<String>,
    pub data: Map,
}

impl Default for Breadcrumb {
    fn default() -> Breadcrumb {
        Breadcrumb { ty: "default".into(), category: None, level: Level::Info, message: None, data: Map::new() }
    }
}

impl From<&Breadcrumb> for Map {
    fn from(breadcrumb: &Breadcrumb) -> Map {
        let mut map = Map::from([("type", breadcrumb.ty.as_str()), ("level", breadcrumb.level.as_str())]);
        map.insert_some("category", breadcrumb.category.clone());
        map.insert_some("message", breadcrumb.message.clone());
        map.insert_filled("data", breadcrumb.data.clone());
        map
    }
}

/// A file that is sent along with events.
#[derive(Clone, Debug, Default, PartialEq, Eq)]
#[allow(missing_docs)]
pub struct Attachment {
    pub filename: String,
    /// A media type, such as text/plain.
    pub content_type: Option<String>,
    pub buffer: Vec<u8>,
}

/// A line of a log.
#[derive(Clone, Debug, PartialEq)]
#[allow(missing_docs)]
pub struct Log {
    pub level: LogLevel,
    pub body: String,
    pub attributes: Map,
}

impl Log {
    /// A log without attributes.
    pub fn new(level: LogLevel, body: impl Into<String>) -> Log {
        Log { level, body: body.into(), attributes: Map::new() }
    }

    /// Sets an attribute.
    pub fn attribute(mut self, name: impl Into<String>, value: impl Into<Value>) -> Log {
        self.attributes.insert(name, value);
        self
    }
}

/// A value of a metric.
#[derive(Clone, Debug, PartialEq)]
#[allow(missing_docs)]
pub struct Metric {
    pub kind: MetricKind,
    pub name: String,
    pub value: i64,
    /// Such as millisecond or byte.
    pub unit: Option<String>,
    pub attributes: Map,
}

impl Metric {
    fn new(kind: MetricKind, name: impl Into<String>, value: i64) -> Metric {
        Metric { kind, name: name.into(), value, unit: None, attributes: Map::new() }
    }

    /// What a counter counts.
    pub fn counter(name: impl Into<String>, value: i64) -> Metric {
        Metric::new(MetricKind::Counter, name, value)
    }

    /// The present value of a gauge.
    pub fn gauge(name: impl Into<String>, value: i64) -> Metric {
        Metric::new(MetricKind::Gauge, name, value)
    }

    /// One value of a distribution.
    pub fn distribution(name: impl Into<String>, value: i64) -> Metric {
        Metric::new(MetricKind::Distribution, name, value)
    }

    /// Sets the unit.
    pub fn unit(mut self, unit: impl Into<String>) -> Metric {
        self.unit = Some(unit.into());
        self
    }

    /// Sets an attribute.
    pub fn attribute(mut self, name: impl Into<String>, value: impl Into<Value>) -> Metric {
        self.attributes.insert(name, value);
        self
    }
}

#[cfg(test)]
mod tests {
    use super::*;

    fn texts(name: &str) -> Vec<(String, String)> {
        vec![(name.into(), "text".into())]
    }

    fn whole() -> Event {
        let text = |it: &str| Some(it.to_string());
        let frame =
            Frame { function: text("f"), filename: text("f.rs"), lineno: Some(3), colno: Some(4), in_app: Some(true) };
        let mechanism = Mechanism { ty: "generic".into(), handled: Some(false) };
        Event {
            level: Level::Fatal,
            message: text("m"),
            exception: vec![Exception {
                ty: "E".into(),
                value: text("v"),
                mechanism: Some(mechanism),
                stacktrace: Some(Stacktrace { frames: vec![frame] }),
            }],
            transaction: text("t"),
            fingerprint: vec!["a".into(), "b".into()],
            server_name: text("s"),
            release: text("r"),
            environment: text("e"),
            user: Some(User {
                id: text("1"),
                email: text("a@b"),
                username: text("u"),
                ip_address: text("::1"),
                data: Map::from([("d", 1)]),
            }),
            request: Some(Request {
                method: text("GET"),
                url: text("/"),
                data: text("body"),
                query_string: text("q=1"),
                cookies: text("c=1"),
                headers: texts("Host"),
                env: texts("PORT"),
            }),
            contexts: vec![("shop".into(), Map::from([("lamps", 2)]))],
            breadcrumbs: vec![Breadcrumb {
                ty: "http".into(),
                category: text("c"),
                level: Level::Debug,
                message: text("m"),
                data: Map::from([("d", 1)]),
            }],
            tags: texts("till"),
            extra: Map::from([("shelf", Value::Null)]),
        }
    }

    #[test]
    fn each_member_has_its_name() {
        let user = r#""user":{"id":"1","email":"a@b","username":"u","ip_address":"::1","data":{"d":1}}"#;
        let request = r#""request":{"method":"GET","url":"/","data":"body","query_string":"q=1","cookies":"c=1","headers":{"Host":"text"},"env":{"PORT":"text"}}"#;
        let frame = r#"{"function":"f","filename":"f.rs","lineno":3,"colno":4,"in_app":true}"#;
        let exception = format!(
            r#""exception":[{{"type":"E","value":"v","mechanism":{{"type":"generic","handled":false}},"stacktrace":{{"frames":[{frame}]}}}}]"#
        );
        let breadcrumb =
            r#""breadcrumbs":[{"type":"http","level":"debug","category":"c","message":"m","data":{"d":1}}]"#;
        let rest = r#""contexts":{"shop":{"lamps":2}},"tags":{"till":"text"},"extra":{"shelf":null}"#;
        let texts = r#""level":"fatal","platform":"rust","message":"m","transaction":"t","server_name":"s","release":"r","environment":"e""#;
        let sdk = format!(r#""sdk":{{"name":"dochirwa.rust","version":"{}"}}"#, env!("CARGO_PKG_VERSION"));
        let wanted =
            format!(r#"{{{texts},{user},{request},"fingerprint":["a","b"],{exception},{breadcrumb},{rest},{sdk}}}"#);
        assert_eq!(Map::from(&whole()).to_string(), wanted);
    }

    #[test]
    fn what_is_not_set_is_left_out() {
        let text = Map::from(&Event::default()).to_string();
        assert!(text.starts_with(r#"{"level":"error","platform":"rust","sdk":{"#), "{text}");
        assert_eq!(Map::from(&User::default()).to_string() + &Map::from(&Request::default()).to_string(), "{}{}");
    }
}
