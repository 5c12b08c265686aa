//! Calls through the wrapper, and what they send.

use dochirwa::*;
use std::collections::HashSet;
use std::error::Error;
use std::sync::mpsc::{channel, Receiver, Sender};
use std::sync::{Arc, Mutex};
use std::time::Duration;

const DSN: &str = "https://key@sentry.invalid/1";

/// The envelopes that a client sent.
#[derive(Clone, Default)]
struct Sent(Arc<Mutex<Vec<Envelope>>>);

impl Sent {
    fn client(&self, options: ClientOptions) -> Client {
        let sent = self.0.clone();
        Client::with_options(options.dsn(DSN).release("shop@1.0.0").transport(move |it| sent.lock().unwrap().push(it)))
            .unwrap()
    }

    fn take(&self) -> Vec<Envelope> {
        std::mem::take(&mut *self.0.lock().unwrap())
    }

    /// The payloads of the items of a kind that were sent since the last call.
    fn payloads(&self, ty: &str) -> Vec<String> {
        let envelopes = self.take();
        let items = envelopes.iter().flat_map(|it| it.items().filter(|it| it.ty() == ty).map(|it| it.payload()));
        items.map(|it| String::from_utf8(it.to_vec()).unwrap()).collect()
    }
}

fn has_tag(payload: &str, key: &str) -> bool {
    payload.contains(&format!("\"{key}\":\"set\""))
}

#[test]
fn an_option_with_a_line_feed_is_an_error() {
    let made = Client::with_options(ClientOptions::new().dsn(DSN).release("1.0\nrate=0"));
    assert!(matches!(made, Err(InitError::Option(OptionError::LineFeed("release")))));
    let added = Engine::new().unwrap().add_client(&ClientOptions::new().release("1.0\nrate=0"), Label(0), Moment(1));
    assert_eq!(added, Err(Fault::UNKNOWN));
}

#[test]
fn wrong_options_are_errors() {
    let made = |options| Client::with_options(options).unwrap_err().to_string();
    assert_eq!(made(ClientOptions::new().dsn("nowhere")), "invalid DSN");
    assert_eq!(made(ClientOptions::new().traces_sample_rate(25.0)), "the option traces is not from 0 to 1");
    assert_eq!(
        made(ClientOptions::new().dsn(DSN)),
        "nothing can post to https://sentry.invalid/api/1/envelope/: the options need an http_client or a transport"
    );
    assert!(!Client::with_options(ClientOptions::new()).unwrap().is_enabled());
}

/// Sets all that a scope has.
fn fill(scope: &mut Scope<'_>) {
    scope.set_tag("till", 3);
    scope.set_extra("shelf", vec!["a", "b"]);
    scope.set_context("shop", Map::from([("lamps", 2)]));
    scope.set_user(Some(&User { username: Some("ada".into()), ..User::default() }));
    scope.set_level(Some(Level::Fatal));
    scope.set_fingerprint(Some(&["printer", "off"]));
    scope.set_transaction(Some("sell"));
    scope.add_attachment(&Attachment {
        filename: "receipt.txt".into(),
        content_type: Some("text/plain".into()),
        buffer: b"two lamps".to_vec(),
    });
}

/// Takes it away, part by part.
fn empty(scope: &mut Scope<'_>) {
    scope.remove_tag("till");
    scope.remove_extra("shelf");
    scope.remove_context("shop");
    scope.set_user(None);
    scope.set_level(None);
    scope.set_fingerprint(None);
    scope.set_transaction(None);
    scope.clear_attachments();
    scope.clear_breadcrumbs();
}

#[test]
fn what_a_scope_has_is_sent_along() {
    let sent = Sent::default();
    let client = sent.client(ClientOptions::new());
    let hub = Hub::new(&client).unwrap();
    let parts = [
        "\"till\":\"3\"",
        "\"shelf\":[\"a\",\"b\"]",
        "\"lamps\":2",
        "\"username\":\"ada\"",
        "\"level\":\"fatal\"",
        "\"fingerprint\":[\"printer\",\"off\"]",
        "\"transaction\":\"sell\"",
        "\"message\":\"a crumb\"",
    ];
    let take_away: [fn(&mut Scope<'_>); 2] = [empty, |scope| scope.clear()];
    for take_away in take_away {
        hub.configure_scope(fill);
        hub.add_breadcrumb(&Breadcrumb { message: Some("a crumb".into()), ..Breadcrumb::default() });
        hub.capture_message("filled", Level::Info);
        hub.configure_scope(take_away);
        hub.capture_message("empty", Level::Info);
        let envelopes = sent.take();
        let texts: Vec<_> = envelopes.iter().map(|it| String::from_utf8_lossy(it.as_bytes())).collect();
        for part in parts {
            assert_eq!([0, 1].map(|it| texts[it].contains(part)), [true, false], "{part} of {texts:?}");
        }
        let attachments = envelopes.iter().map(|it| it.items().filter(|it| it.ty() == "attachment").count());
        assert_eq!(attachments.collect::<Vec<_>>(), [1, 0]);
        for part in ["\"filename\":\"receipt.txt\"", "\"content_type\":\"text/plain\"", "\ntwo lamps\n"] {
            assert!(texts[0].contains(part), "{part} of {}", texts[0]);
        }
    }
}

#[test]
fn logs_metrics_and_sessions_are_sent() {
    let sent = Sent::default();
    let client = sent.client(ClientOptions::new());
    let hub = Hub::new(&client).unwrap();
    hub.capture_log(&Log::new(LogLevel::Warn, "lamps").attribute("left", 2));
    hub.capture_metric(&Metric::distribution("wait", -3).unit("millisecond").attribute("till", "3"));
    hub.start_session();
    hub.capture_error(&NoReceipt(std::io::Error::other("off")));
    hub.end_session_with_status(SessionStatus::Crashed);
    hub.start_session();
    hub.end_session();
    client.flush(None);
    let envelopes = sent.take();
    let texts: String = envelopes.iter().map(|it| String::from_utf8_lossy(it.as_bytes())).collect();
    for part in [
        "\"level\":\"warn\",\"body\":\"lamps\"",
        "\"left\":{\"value\":2",
        "\"type\":\"distribution\"",
        "\"name\":\"wait\"",
        "\"value\":-3",
        "\"unit\":\"millisecond\"",
        "\"till\":{\"value\":\"3\"",
        "\"status\":\"crashed\"",
        "\"status\":\"exited\"",
        "\"errors\":1",
    ] {
        assert!(texts.contains(part), "{part} of {texts}");
    }
}

/// Sets a tag in a scope of its own, and leaves it early.
fn leave_early(hub: &Hub) -> Option<()> {
    let _guard = hub.push_scope();
    hub.configure_scope(|scope| scope.set_tag("inner", "set"));
    hub.capture_message("in the scope", Level::Info);
    None?;
    Some(())
}

#[test]
fn a_guard_pops_its_scope() {
    let sent = Sent::default();
    let client = sent.client(ClientOptions::new());
    let hub = Hub::new(&client).unwrap();
    hub.configure_scope(|scope| scope.set_tag("outer", "set"));
    leave_early(&hub);
    hub.capture_message("after", Level::Info);
    let caught = std::panic::catch_unwind(std::panic::AssertUnwindSafe(|| {
        let _guard = hub.push_scope();
        hub.configure_scope(|scope| scope.set_tag("inner", "set"));
        panic!("on purpose");
    }));
    assert!(caught.is_err());
    hub.with_scope(|scope| scope.set_tag("inner", "set"), || hub.capture_message("in another", Level::Info));
    hub.capture_message("at the end", Level::Info);
    let inner: Vec<_> = sent.payloads("event").iter().map(|it| (has_tag(it, "outer"), has_tag(it, "inner"))).collect();
    assert_eq!(inner, [(true, true), (true, false), (true, true), (true, false)]);
}

#[test]
fn guards_may_end_in_any_order() {
    let sent = Sent::default();
    let client = sent.client(ClientOptions::new());
    let hub = Hub::new(&client).unwrap();
    let first = hub.push_scope();
    hub.configure_scope(|scope| scope.set_tag("first", "set"));
    let second = hub.push_scope();
    hub.configure_scope(|scope| scope.set_tag("second", "set"));
    drop(first);
    hub.capture_message("in the second", Level::Info);
    drop(second);
    hub.capture_message("in none", Level::Info);
    let tags: Vec<_> = sent.payloads("event").iter().map(|it| (has_tag(it, "first"), has_tag(it, "second"))).collect();
    assert_eq!(tags, [(true, true), (false, false)]);
}

#[test]
fn a_guard_closes_its_client() {
    let sent = Sent::default();
    let client = sent.client(ClientOptions::new());
    let hub = Hub::new(&client).unwrap();
    hub.capture_log(&Log::new(LogLevel::Info, "kept back").attribute("lamps", 7));
    assert!(sent.take().is_empty());
    drop(client);
    let logs = sent.payloads("log");
    assert!(logs.len() == 1 && logs[0].contains("\"kept back\"") && logs[0].contains("\"lamps\""), "{logs:?}");
    assert!(hub.capture_message("too late", Level::Info).is_nil());
    assert!(sent.take().is_empty());
}

#[test]
fn spans_end_with_their_guards() {
    let sent = Sent::default();
    let client = sent.client(ClientOptions::new().traces_sample_rate(1.0));
    let hub = Hub::new(&client).unwrap();
    let sale = hub.start_transaction(&TransactionContext::new("sell", "till"));
    sale.set_tag("inner", "set");
    {
        let lamp = sale.start_child("db.query", "take a lamp");
        hub.configure_scope(|scope| scope.set_span(Some(lamp.clone().into())));
        let receipt = lamp.start_child("print", "a receipt");
        receipt.set_data("pages", 2);
        receipt.set_status(SpanStatus::Ok);
        hub.capture_message("in the trace", Level::Info);
        hub.configure_scope(|scope| scope.set_span(None));
    }
    let headers: Vec<_> = sale.iter_headers().map(|it| it.0).collect();
    assert_eq!(headers, ["sentry-trace", "baggage"]);
    sale.finish();
    let found = sent.payloads("transaction");
    assert_eq!(found.len(), 1);
    for part in ["\"transaction\":\"sell\"", "\"take a lamp\"", "\"a receipt\"", "\"pages\":2", "\"status\":\"ok\""] {
        assert!(found[0].contains(part), "{part} of {}", found[0]);
    }
    assert!(has_tag(&found[0], "inner"));
    // the transaction and its two spans have ids of their own
    let ids: HashSet<_> = found[0].split("\"span_id\":\"").skip(1).map(|it| &it[..16]).collect();
    assert_eq!(ids.len(), 3, "{}", found[0]);
    assert!(!ids.contains("0000000000000000"));
    // what ended before its children, or is still named by a scope, is forgotten too
    let sale = hub.start_transaction(&TransactionContext::new("sell", "till").sample_rate(1.0));
    let child = sale.start_child("print", "");
    hub.configure_scope(|scope| scope.set_span(Some(sale.clone().into())));
    drop(sale);
    drop(child);
    assert_eq!(sent.payloads("transaction").len(), 1);
    hub.configure_scope(|scope| scope.set_span(None));
}

#[test]
fn a_trace_is_continued() {
    let sent = Sent::default();
    let client = sent.client(ClientOptions::new().traces_sample_rate(1.0));
    let hub = Hub::new(&client).unwrap();
    let first = hub.start_transaction(&TransactionContext::new("first", "till"));
    let headers: Vec<_> = first.iter_headers().collect();
    let trace = headers[0].1[..32].to_string();
    let headers = headers.iter().map(|(name, value)| (*name, value.as_str()));
    drop(hub.start_transaction(&TransactionContext::continue_from_headers("second", "till", headers)));
    assert!(sent.payloads("transaction")[0].contains(&trace));
}

#[derive(Debug)]
struct NoReceipt(std::io::Error);

impl std::fmt::Display for NoReceipt {
    fn fmt(&self, f: &mut std::fmt::Formatter<'_>) -> std::fmt::Result {
        f.write_str("no \"receipt\"")
    }
}

impl Error for NoReceipt {
    fn source(&self) -> Option<&(dyn Error + 'static)> {
        Some(&self.0)
    }
}

#[test]
fn an_error_is_captured_with_what_led_to_it() {
    let sent = Sent::default();
    let client = sent.client(ClientOptions::new());
    let hub = Hub::new(&client).unwrap();
    hub.add_breadcrumb(&Breadcrumb {
        category: Some("till".into()),
        message: Some("opened".into()),
        ..Breadcrumb::default()
    });
    hub.configure_scope(|scope| {
        scope.set_user(Some(&User { id: Some("7".into()), ..User::default() }));
        scope.set_extra("shelf", 3);
        scope.set_context("shop", Map::from([("lamps", 2)]));
        scope.set_fingerprint(Some(&["printer"]));
    });
    let id = hub.capture_error(&NoReceipt(std::fs::read("/no/such/file").unwrap_err()));
    assert_eq!(hub.last_event_id(), Some(id));
    let found = sent.payloads("event");
    assert_eq!(found.len(), 1);
    let place = |part: &str| found[0].find(part).unwrap_or_else(|| panic!("no {part} in {}", found[0]));
    assert!(place("\"type\":\"Os\"") < place("\"type\":\"NoReceipt\""));
    let id = id.to_string();
    for part in [
        id.as_str(),
        "\"platform\":\"rust\"",
        "\"no \\\"receipt\\\"\"",
        "\"opened\"",
        "\"id\":\"7\"",
        "\"shelf\":3",
        "\"lamps\":2",
        "[\"printer\"]",
    ] {
        place(part);
    }
}

// (an optimized program has no frames of functions that became parts of others, and no lines)
#[cfg(all(feature = "backtrace", debug_assertions))]
#[test]
fn frames_end_at_the_call_of_the_crate() {
    let stacktrace = current_stacktrace();
    let last = stacktrace.frames.last().unwrap().clone();
    assert!(last.function.unwrap().ends_with("::frames_end_at_the_call_of_the_crate") && last.in_app == Some(true));
    assert!(last.filename.unwrap().ends_with("tests/wrapper.rs") && last.lineno.is_some());
    let exception = Exception { ty: "E".into(), stacktrace: Some(stacktrace), ..Exception::default() };
    let json = Map::from(&Event { exception: vec![exception], ..Event::default() }).to_string();
    assert!(json.contains("\"type\":\"E\",\"stacktrace\":{\"frames\":[{\"function\":"), "{json}");
}

#[test]
fn a_hook_drops_envelopes_and_they_are_reported() {
    let sent = Sent::default();
    let has_secret = |it: &Envelope| it.items().any(|it| String::from_utf8_lossy(it.payload()).contains("secret"));
    let client = sent.client(ClientOptions::new().before_send(move |it| !has_secret(it)));
    let hub = Hub::new(&client).unwrap();
    hub.capture_message("a secret", Level::Info);
    assert!(sent.take().is_empty());
    hub.capture_message("no more", Level::Info);
    let reports = sent.payloads("client_report");
    assert_eq!(reports.len(), 1);
    assert!(reports[0].contains("\"before_send\"") && reports[0].contains("\"quantity\":1"), "{reports:?}");
}

#[test]
fn a_panic_of_a_hook_or_a_transport_loses_its_envelope_alone() {
    let sent = Sent::default();
    let has = |it: &Envelope, word: &str| it.items().any(|it| String::from_utf8_lossy(it.payload()).contains(word));
    let taken = sent.clone();
    let take = move |it: Envelope| {
        assert!(!has(&it, "to the transport"), "on purpose");
        taken.0.lock().unwrap().push(it);
    };
    let (meets, met) = channel();
    let keep = move |it: &Envelope| {
        let is_for_it = has(it, "to the hook");
        let _ = meets.send(is_for_it);
        assert!(!is_for_it, "on purpose");
        true
    };
    let options = ClientOptions::new().dsn(DSN).traces_sample_rate(1.0).transport(take).before_send(keep);
    let client = Client::with_options(options).unwrap();
    let hub = Hub::new(&client).unwrap();
    for message in ["to the transport", "to the hook"] {
        assert!(!hub.capture_message(message, Level::Info).is_nil());
    }
    // an end in the midst of a panic
    let ended = std::panic::catch_unwind(std::panic::AssertUnwindSafe(|| {
        let _sale = hub.start_transaction(&TransactionContext::new("to the hook", "till"));
        panic!("of the program, on purpose");
    }));
    assert!(ended.is_err() && sent.take().is_empty());
    assert_eq!(met.try_iter().collect::<Vec<_>>(), [false, true, true]);
    // the thread that tells the time goes on
    for (body, is_for_hook) in [("to the hook", true), ("after", false)] {
        hub.capture_log(&Log::new(LogLevel::Info, body));
        assert_eq!(met.recv_timeout(Duration::from_secs(30)), Ok(is_for_hook));
    }
    let begun = std::time::Instant::now();
    while sent.0.lock().unwrap().is_empty() && begun.elapsed() < Duration::from_secs(30) {
        std::thread::sleep(Duration::from_millis(10));
    }
    let found = sent.take().iter().map(|it| String::from_utf8_lossy(it.as_bytes()).into_owned()).collect::<String>();
    let lost = ["error", "transaction", "log_item"].map(|it| ("before_send", it));
    for (reason, category) in lost.into_iter().chain([("internal_sdk_error", "error")]) {
        let entry = format!("\"reason\":\"{reason}\",\"category\":\"{category}\",\"quantity\":1}}");
        assert_eq!(found.matches(&entry).count(), 1, "{entry} in {found}");
    }
    assert_eq!(found.matches("\"after\"").count(), 1, "{found}");
}

#[test]
fn what_a_transport_loses_is_reported() {
    let sent = Sent::default();
    let client = sent.client(ClientOptions::new().traces_sample_rate(1.0));
    let hub = Hub::new(&client).unwrap();
    let sale = hub.start_transaction(&TransactionContext::new("sell", "till"));
    drop(sale.start_child("print", ""));
    sale.finish();
    hub.capture_metric(&Metric::counter("lamps", 2).attribute("shelf", "3"));
    hub.capture_metric(&Metric::gauge("lamps", 2).unit("byte"));
    client.flush(None);
    sent.take().into_iter().for_each(|it| it.lose(Reason::NetworkError));
    hub.capture_message("after", Level::Info);
    // the report of it is lost too, and what it says reported again
    sent.take().into_iter().for_each(|it| it.lose(Reason::SendError));
    hub.capture_message("after that", Level::Info);
    let report = sent.payloads("client_report").concat();
    let lost = |category: Category, reason: Reason, quantity: u64| {
        let entry = format!("\"reason\":\"{reason}\",\"category\":\"{category}\",\"quantity\":{quantity}}}");
        assert_eq!(report.matches(&entry).count(), 1, "{entry} in {report}");
    };
    lost(Category::Transaction, Reason::NetworkError, 1);
    lost(Category::Span, Reason::NetworkError, 2);
    lost(Category::Metric, Reason::NetworkError, 2);
    lost(Category::Error, Reason::SendError, 1);
}

#[test]
fn each_thread_has_a_hub_of_its_own() {
    assert!(capture_message("nobody hears it", Level::Info).is_nil());
    assert!(start_transaction(&TransactionContext::new("sell", "till")).is_none());
    let sent = Sent::default();
    let taken = sent.clone();
    let options = ClientOptions::new().dsn(DSN).transport(move |it| taken.0.lock().unwrap().push(it));
    let guard = init(options).unwrap();
    configure_scope(|scope| scope.set_tag("main", "set"));
    let other = std::thread::spawn(|| {
        configure_scope(|scope| scope.set_tag("other", "set"));
        capture_message("in a thread", Level::Info)
    });
    assert!(!other.join().unwrap().is_nil());
    capture_message("in the main thread", Level::Info);
    let hub = Hub::new(&guard).unwrap();
    Hub::run(hub, || capture_message("in a hub of its own", Level::Info));
    let tags: Vec<_> = sent.payloads("event").iter().map(|it| (has_tag(it, "main"), has_tag(it, "other"))).collect();
    assert_eq!(tags, [(true, true), (true, false), (false, false)]);
    // a value of a thread that ends captures, before or after the thread's hub has gone
    for is_first in [true, false] {
        let other = std::thread::spawn(move || {
            let begin = || ENDS.with(|_| ());
            is_first.then(begin);
            capture_message("in a thread", Level::Info);
            (!is_first).then(begin);
        });
        other.join().unwrap();
        assert_eq!(sent.payloads("event").len(), 2, "{is_first}");
    }
    drop(guard);
    assert!(capture_message("nobody hears it", Level::Info).is_nil() && Hub::current().is_none());
}

struct CapturesAtItsEnd;

impl Drop for CapturesAtItsEnd {
    fn drop(&mut self) {
        capture_message("at the end", Level::Info);
    }
}

thread_local! {
    static ENDS: CapturesAtItsEnd = const { CapturesAtItsEnd };
}

/// Answers as a test says, and keeps what was posted.
#[derive(Default)]
struct Server {
    answers: Mutex<Vec<Result<Answer, &'static str>>>,
    posted: Arc<Mutex<Vec<String>>>,
}

impl HttpClient for Server {
    fn post(&self, post: &Post<'_>) -> Result<Answer, PostError> {
        assert_eq!(post.url, "https://sentry.invalid/api/1/envelope/");
        assert!(
            post.auth.starts_with("Sentry ")
                && post.auth.contains("sentry_client=shop/1.0.0")
                && post.auth.contains("sentry_key=key")
        );
        self.posted.lock().unwrap().push(String::from_utf8_lossy(post.body).into_owned());
        let answer = self.answers.lock().unwrap().pop();
        assert_ne!(answer, Some(Err("panic")), "on purpose");
        Ok(answer.unwrap_or(Ok(Answer { status: 200, ..Answer::default() }))?)
    }
}

#[test]
fn the_thread_keeps_to_limits_and_reports_what_it_loses() {
    let limited = Answer { status: 429, rate_limits: Some("60:error:organization".into()), ..Answer::default() };
    // the last one is the first answer
    let answers = vec![Ok(limited), Ok(Answer { status: 500, ..Answer::default() }), Err("panic"), Err("no route")];
    let server = Server { answers: answers.into(), ..Server::default() };
    let posted = server.posted.clone();
    let options = ClientOptions::new().dsn(DSN).user_agent("shop/1.0.0").http_client(server);
    let client = Client::with_options(options).unwrap();
    let hub = Hub::new(&client).unwrap();
    let capture = |message: &str| {
        hub.capture_message(message, Level::Info);
        assert!(client.flush(Some(Duration::from_secs(20))));
    };
    ["lost on the way", "lost too", "refused", "limited", "not posted"].into_iter().for_each(capture);
    hub.capture_log(&Log::new(LogLevel::Info, "posted"));
    assert!(client.close(Some(Duration::from_secs(20))));
    let posted = posted.lock().unwrap();
    let messages = ["lost on the way", "lost too", "refused", "limited", "not posted", "posted"]
        .map(|it| posted.iter().filter(|text| text.contains(&format!("\"{it}\""))).count());
    assert_eq!(messages, [1, 1, 1, 1, 0, 1]);
    // what the server took
    let taken = posted[4..].concat();
    for (reason, quantity) in [("network_error", 2), ("send_error", 1), ("ratelimit_backoff", 1)] {
        let entry = format!("\"reason\":\"{reason}\",\"category\":\"error\",\"quantity\":{quantity}}}");
        assert_eq!(taken.matches(&entry).count(), 1, "{entry} in {taken}");
    }
}

#[test]
fn an_envelope_of_which_nothing_is_wanted_is_not_posted() {
    let limited = Answer { status: 429, rate_limits: Some("60:error:key".into()), ..Answer::default() };
    let server = Server { answers: vec![Ok(limited)].into(), ..Server::default() };
    let posted = server.posted.clone();
    let options = ClientOptions::new().dsn(DSN).user_agent("shop/1.0.0").http_client(server);
    let client = Client::with_options(options).unwrap();
    let hub = Hub::new(&client).unwrap();
    for message in ["limited", "not posted"] {
        hub.capture_message(message, Level::Info);
        assert!(client.flush(Some(Duration::from_secs(20))));
    }
    assert_eq!(posted.lock().unwrap().len(), 1);
}

#[test]
fn what_waits_too_long_is_lost() {
    struct Slow;
    impl HttpClient for Slow {
        fn post(&self, _: &Post<'_>) -> Result<Answer, PostError> {
            std::thread::sleep(Duration::from_secs(8));
            Ok(Answer { status: 200, ..Answer::default() })
        }
    }
    let options = ClientOptions::new().dsn(DSN).http_client(Slow).shutdown_timeout(Duration::from_secs(20));
    let client = Client::with_options(options).unwrap();
    Hub::new(&client).unwrap().capture_message("slow", Level::Info);
    assert!(!client.flush(Some(Duration::from_millis(50))));
    let begun = std::time::Instant::now();
    assert!(!client.close(Some(Duration::from_millis(50))));
    // what was closed isn't waited for again
    drop(client);
    assert!(begun.elapsed() < Duration::from_secs(5));
}

#[test]
fn of_what_waits_the_latest_is_lost() {
    struct Gate(Mutex<(Sender<()>, Receiver<()>)>);
    impl HttpClient for Gate {
        fn post(&self, _: &Post<'_>) -> Result<Answer, PostError> {
            let gate = self.0.lock().unwrap();
            let _ = gate.0.send(());
            let _ = gate.1.recv();
            Ok(Answer { status: 200, ..Answer::default() })
        }
    }
    let ((begins, begun), (opens, opened)) = (channel(), channel());
    let found = Arc::new(Mutex::new(String::new()));
    let kept = found.clone();
    let keep_reports = move |it: &Envelope| {
        for report in it.items().filter(|it| it.ty() == "client_report") {
            kept.lock().unwrap().push_str(&String::from_utf8_lossy(report.payload()));
        }
        true
    };
    let options =
        ClientOptions::new().dsn(DSN).http_client(Gate(Mutex::new((begins, opened)))).before_send(keep_reports);
    let client = Client::with_options(options).unwrap();
    let hub = Hub::new(&client).unwrap();
    hub.capture_message("is being posted", Level::Info);
    begun.recv().unwrap();
    for _ in 0..MOST_WAITING {
        hub.capture_message("waits", Level::Info);
    }
    assert_eq!(found.lock().unwrap().as_str(), "");
    hub.capture_message("lost", Level::Info);
    hub.capture_message("lost with the report", Level::Info);
    drop(opens);
    assert!(client.flush(Some(Duration::from_secs(20))));
    hub.capture_message("after", Level::Info);
    let entry = |quantity| format!("{{\"reason\":\"queue_overflow\",\"category\":\"error\",\"quantity\":{quantity}}}");
    assert_eq!(
        found.lock().unwrap().as_str(),
        [1, 2].map(|it| format!("{{\"discarded_events\":[{}]}}", entry(it))).concat()
    );
}

#[test]
fn logs_are_sent_after_a_while() {
    let sent = Sent::default();
    let client = sent.client(ClientOptions::new());
    Hub::new(&client).unwrap().capture_log(&Log::new(LogLevel::Info, "in time"));
    let begun = std::time::Instant::now();
    while sent.0.lock().unwrap().is_empty() && begun.elapsed() < Duration::from_secs(30) {
        std::thread::sleep(Duration::from_millis(100));
    }
    assert_eq!(sent.payloads("log").len(), 1);
}

#[cfg(target_os = "linux")]
#[test]
fn no_thread_takes_signals_of_the_process() {
    let client = Client::with_options(ClientOptions::new().dsn(DSN).http_client(Server::default())).unwrap();
    let mask = |status: String| {
        let blocked = status.lines().find_map(|it| it.strip_prefix("SigBlk:")).map(str::trim);
        blocked.and_then(|it| u64::from_str_radix(it, 16).ok()).unwrap()
    };
    let (mut found, begun) = (Vec::new(), std::time::Instant::now());
    // (a thread has its name once it runs, and others may end meanwhile)
    while found.len() < 2 && begun.elapsed() < Duration::from_secs(30) {
        let threads = std::fs::read_dir("/proc/self/task").unwrap().map(|it| it.unwrap().path().join("status"));
        let masks = threads.filter_map(|it| std::fs::read_to_string(it).ok());
        let masks = masks.filter(|it| it.starts_with("Name:\tdochirwa")).map(mask);
        // SIGINT, SIGPIPE, SIGTERM, and SIGSEGV
        found = masks.map(|it| [2, 13, 15, 11].map(|signal| it >> (signal - 1) & 1)).collect();
    }
    assert!(found.len() >= 2 && found.iter().all(|it| *it == [1, 1, 1, 0]), "{found:?}");
    drop(client);
    let own = mask(std::fs::read_to_string("/proc/thread-self/status").unwrap());
    assert_eq!(own >> 14 & 1, 0);
}

/// Runs a test once more, in a process of its own, and answers whether this is that one.
fn is_alone(name: &str, error: std::process::Stdio) -> bool {
    if std::env::var_os(name).is_some() {
        return true;
    }
    let mut again = std::process::Command::new(std::env::current_exe().unwrap());
    again.args(["--exact", name, "--nocapture"]).env(name, "").stdout(std::process::Stdio::null());
    assert!(again.stderr(error).status().unwrap().success());
    false
}

#[test]
fn a_fault_that_cannot_be_printed_ends_nothing() {
    let (read, written) = std::os::unix::net::UnixStream::pair().unwrap();
    drop(read);
    if !is_alone("a_fault_that_cannot_be_printed_ends_nothing", std::os::fd::OwnedFd::from(written).into()) {
        return;
    }
    let client = Sent::default().client(ClientOptions::new().debug(true));
    // at a rate that is none
    let sale = TransactionContext::new("sell", "till").sample_rate(7.0);
    assert!(Hub::new(&client).unwrap().start_transaction(&sale).iter_headers().next().is_none());
}

/// Leaves the process so many bytes of memory more, or no limit.
#[cfg(target_os = "linux")]
fn leave(bytes: Option<u64>) {
    unsafe extern "C" {
        fn setrlimit(resource: i32, limits: *const [u64; 2]) -> i32;
    }
    let status = std::fs::read_to_string("/proc/self/statm").unwrap();
    let used = status.split(' ').next().unwrap().parse::<u64>().unwrap() * 4096;
    // SAFETY: the limits are two numbers, as the C library has them.
    assert_eq!(unsafe { setrlimit(9, &[bytes.map_or(u64::MAX, |it| used + it), u64::MAX]) }, 0);
}

#[cfg(target_os = "linux")]
#[test]
fn a_flush_without_memory_is_not_well() {
    if !is_alone("a_flush_without_memory_is_not_well", std::process::Stdio::inherit()) {
        return;
    }
    let sent = Sent::default();
    let client = sent.client(ClientOptions::new());
    let hub = Hub::new(&client).unwrap();
    hub.capture_log(&Log::new(LogLevel::Info, "x".repeat(100_000_000)));
    leave(Some(20_000_000));
    let answers = [client.flush(None), client.flush(None)];
    leave(None);
    assert_eq!((answers, sent.take().len()), ([false, false], 0));
    assert!(client.flush(None));
    assert_eq!(sent.take().len(), 1);
}

#[test]
fn a_span_of_another_client_is_passed_over() {
    let sent = Sent::default();
    let clients = [(), ()].map(|()| sent.client(ClientOptions::new().traces_sample_rate(1.0)));
    let hubs = clients.each_ref().map(|it| Hub::new(it).unwrap());
    let [own, other] = hubs.each_ref().map(|it| it.start_transaction(&TransactionContext::new("sell", "till")));
    let trace = own.iter_headers().next().unwrap().1[..32].to_string();
    hubs[0].configure_scope(|scope| scope.set_span(Some(other.clone().into())));
    hubs[0].capture_message("in no transaction", Level::Info);
    hubs[0].configure_scope(|scope| scope.set_span(Some(own.clone().into())));
    hubs[0].capture_message("in its own", Level::Info);
    let found: Vec<_> = sent.payloads("event").iter().map(|it| it.contains(&trace)).collect();
    assert_eq!(found, [false, true]);
    hubs[0].configure_scope(|scope| scope.set_span(None));
}

#[test]
fn an_engine_refuses_what_is_gone_and_what_is_not_random() -> Result<(), Fault> {
    let mut engine = Engine::new()?;
    let client = engine.add_client(&ClientOptions::new().dsn(DSN), Label(0), Moment(1))?;
    assert_eq!(
        engine.new_hub(client, &Fresh { draw: 1_000_000, trace: 1.into(), span: 1, ..Fresh::default() }),
        Err(Fault::UNKNOWN)
    );
    let fresh = Fresh { now: Moment(1), id: 7.into(), trace: 7.into(), span: 7, draw: 0 };
    let hub = engine.new_hub(client, &fresh)?;
    engine.release_hub(hub, Moment(2))?;
    assert_eq!(engine.capture_message(hub, "gone", Level::Info, &fresh), Err(Fault::STALE));
    assert_eq!(engine.record_loss(Label(9), Category::Error, Reason::SendError, 1), Err(Fault::FOREIGN_LOSSES));
    assert_eq!(engine.next_envelope()?, None);
    Ok(())
}
