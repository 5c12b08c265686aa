//! The envelopes of the loop `envelopes` of crates/bench, written by serde_json: the same members in the same order, but
//! moments as `f64`. An envelope's item is written to a buffer first, whose length stands in the item's header.
//!
//! serde_envelopes TURNS     prints how many bytes so many envelopes are together
//! serde_envelopes           prints one envelope

use serde::{Serialize, Serializer};
use std::collections::BTreeMap;
use std::hint::black_box;
use std::io::Write;
use std::time::{Duration, SystemTime, UNIX_EPOCH};
use uuid::Uuid;

const MOMENT: u64 = 1_700_000_000_123_456_789;

fn moment(nanoseconds: u64) -> SystemTime {
    UNIX_EPOCH + Duration::from_nanos(nanoseconds)
}

fn seconds<S: Serializer>(moment: &SystemTime, to: S) -> Result<S::Ok, S::Error> {
    let since = moment.duration_since(UNIX_EPOCH).map_err(serde::ser::Error::custom)?;
    if since.subsec_nanos() == 0 {
        to.serialize_u64(since.as_secs())
    } else {
        to.serialize_f64(since.as_secs_f64())
    }
}

fn simple<S: Serializer>(id: &Uuid, to: S) -> Result<S::Ok, S::Error> {
    to.serialize_str(id.simple().encode_lower(&mut Uuid::encode_buffer()))
}

/// The digits of an id of a trace or a span.
#[derive(Serialize)]
#[serde(into = "String")]
#[derive(Clone)]
struct Digits(Vec<u8>);

impl From<Digits> for String {
    fn from(it: Digits) -> String {
        const DIGITS: &[u8; 16] = b"0123456789abcdef";
        let pairs = it.0.iter().flat_map(|b| [DIGITS[usize::from(b >> 4)], DIGITS[usize::from(b & 15)]]);
        pairs.map(char::from).collect()
    }
}

#[derive(Serialize)]
#[serde(rename_all = "lowercase")]
enum Level {
    Info,
    Error,
}

#[derive(Serialize)]
struct Breadcrumb {
    #[serde(serialize_with = "seconds")]
    timestamp: SystemTime,
    #[serde(rename = "type")]
    ty: String,
    #[serde(skip_serializing_if = "Option::is_none")]
    category: Option<String>,
    level: Level,
    #[serde(skip_serializing_if = "Option::is_none")]
    message: Option<String>,
    #[serde(skip_serializing_if = "BTreeMap::is_empty")]
    data: BTreeMap<String, serde_json::Value>,
}

#[derive(Serialize)]
struct Values<T> {
    values: Vec<T>,
}

#[derive(Serialize)]
struct Trace {
    span_id: Digits,
    trace_id: Digits,
}

#[derive(Serialize)]
#[serde(tag = "type", rename_all = "lowercase")]
enum Context {
    Trace(Trace),
}

#[derive(Serialize)]
struct Event {
    #[serde(serialize_with = "simple")]
    event_id: Uuid,
    level: Level,
    fingerprint: Vec<String>,
    #[serde(skip_serializing_if = "Option::is_none")]
    transaction: Option<String>,
    #[serde(skip_serializing_if = "Option::is_none")]
    message: Option<String>,
    platform: String,
    #[serde(serialize_with = "seconds")]
    timestamp: SystemTime,
    #[serde(skip_serializing_if = "Option::is_none")]
    server_name: Option<String>,
    #[serde(skip_serializing_if = "Option::is_none")]
    release: Option<String>,
    #[serde(skip_serializing_if = "Option::is_none")]
    environment: Option<String>,
    contexts: BTreeMap<String, Context>,
    breadcrumbs: Values<Breadcrumb>,
    tags: BTreeMap<String, String>,
    #[serde(skip_serializing_if = "BTreeMap::is_empty")]
    extra: BTreeMap<String, serde_json::Value>,
}

#[derive(Serialize)]
struct Header {
    event_id: Uuid16,
}

/// An id with hyphens.
struct Uuid16(Uuid);

impl Serialize for Uuid16 {
    fn serialize<S: Serializer>(&self, to: S) -> Result<S::Ok, S::Error> {
        to.serialize_str(self.0.hyphenated().encode_lower(&mut Uuid::encode_buffer()))
    }
}

fn breadcrumb(number: u64) -> Breadcrumb {
    Breadcrumb {
        timestamp: moment(MOMENT + number * 1_000_000),
        ty: "default".into(),
        category: Some("http".into()),
        level: Level::Info,
        message: Some(format!("GET /lamps/{number}")),
        data: BTreeMap::new(),
    }
}

fn event() -> Event {
    let trace = Trace { span_id: Digits(vec![9; 8]), trace_id: Digits(vec![7; 16]) };
    Event {
        event_id: Uuid::from_u128(0x1234_5678_9abc_def0),
        level: Level::Error,
        fingerprint: vec!["{{ default }}".into()],
        transaction: None,
        message: Some("the lamps run out".into()),
        platform: "native".into(),
        timestamp: moment(MOMENT),
        server_name: None,
        release: Some("shop@1.0.0".into()),
        environment: Some("production".into()),
        contexts: BTreeMap::from([("trace".to_string(), Context::Trace(trace))]),
        breadcrumbs: Values { values: (0..20).map(breadcrumb).collect() },
        tags: (0..10).map(|number| (format!("key{number}"), "value".to_string())).collect(),
        extra: BTreeMap::new(),
    }
}

fn to_vec(event: &Event) -> std::io::Result<Vec<u8>> {
    let (mut text, mut item) = (Vec::new(), Vec::new());
    serde_json::to_writer(&mut text, &Header { event_id: Uuid16(event.event_id) })?;
    writeln!(text)?;
    serde_json::to_writer(&mut item, event)?;
    writeln!(text, r#"{{"type":"event","length":{}}}"#, item.len())?;
    text.write_all(&item)?;
    writeln!(text)?;
    Ok(text)
}

fn main() -> std::io::Result<()> {
    let event = event();
    let Some(turns) = std::env::args().nth(1) else {
        return std::io::stdout().write_all(&to_vec(&event)?);
    };
    let mut bytes = 0;
    for _ in 0..turns.parse().expect("turns") {
        bytes += black_box(to_vec(black_box(&event))?).len();
    }
    println!("envelopes: {bytes}");
    Ok(())
}
