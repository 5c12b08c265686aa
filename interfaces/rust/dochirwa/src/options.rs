//! The options of a client.

use crate::transport::{Envelope, HttpClient, Transport};
use crate::types::Fault;
use std::fmt;
use std::sync::Arc;
use std::time::Duration;

/// Whether sessions are of a whole program, or of the requests to a server, which are counted by the minute.
#[derive(Clone, Copy, Debug, Default, PartialEq, Eq)]
#[allow(missing_docs)]
pub enum SessionMode {
    #[default]
    Application,
    Request,
}

/// Decides whether an envelope is sent.
pub(crate) type BeforeSend = Arc<dyn Fn(&Envelope) -> bool + Send + Sync>;

/// Options, each set by a method. What a text may be is checked where a client is made of them: then one with a line feed,
/// or a rate that is none, is an error.
#[derive(Clone, Default)]
pub struct ClientOptions {
    texts: Vec<(&'static str, String)>,
    rates: Vec<(&'static str, f64)>,
    numbers: Vec<(&'static str, u64)>,
    pub(crate) dsn: Option<String>,
    pub(crate) user_agent: Option<String>,
    pub(crate) debug: bool,
    pub(crate) attach_stacktrace: bool,
    pub(crate) shutdown_timeout: Option<Duration>,
    pub(crate) transport: Option<Arc<dyn Transport>>,
    pub(crate) http_client: Option<Arc<dyn HttpClient>>,
    pub(crate) before_send: Option<BeforeSend>,
}

impl ClientOptions {
    /// The default options: nothing is sent without a DSN, all events are, and no transactions.
    pub fn new() -> ClientOptions {
        ClientOptions::default()
    }

    fn text(mut self, name: &'static str, text: impl Into<String>) -> ClientOptions {
        self.texts.retain(|it| it.0 != name);
        self.texts.push((name, text.into()));
        self
    }

    fn rate(mut self, name: &'static str, rate: f64) -> ClientOptions {
        self.rates.retain(|it| it.0 != name);
        self.rates.push((name, rate));
        self
    }

    fn number(mut self, name: &'static str, number: u64) -> ClientOptions {
        self.numbers.retain(|it| it.0 != name);
        self.numbers.push((name, number));
        self
    }

    /// Where envelopes go, as `https://KEY@HOST/PROJECT`; a client with an empty one sends nothing.
    pub fn dsn(mut self, dsn: impl Into<String>) -> ClientOptions {
        self.dsn = Some(dsn.into()).filter(|it| !it.is_empty());
        self
    }

    /// The release of the program, such as shop@1.0.0, without which there are no sessions.
    pub fn release(self, release: impl Into<String>) -> ClientOptions {
        self.text("release", release)
    }

    /// Such as production.
    pub fn environment(self, environment: impl Into<String>) -> ClientOptions {
        self.text("environment", environment)
    }

    /// The name of the machine.
    pub fn server_name(self, name: impl Into<String>) -> ClientOptions {
        self.text("server", name)
    }

    /// Which part of the events is sent, from 0 to 1 (by default all); six digits after the point count.
    pub fn sample_rate(self, rate: f64) -> ClientOptions {
        self.rate("rate", rate)
    }

    /// Which part of the transactions is sent, from 0 to 1 (by default none); six digits after the point count.
    pub fn traces_sample_rate(self, rate: f64) -> ClientOptions {
        self.rate("traces", rate)
    }

    /// Whether a trace is continued only if its organization is this client's.
    pub fn strict_trace_continuation(self, strict: bool) -> ClientOptions {
        self.number("strict", strict.into())
    }

    /// Whether what identifies persons is sent.
    pub fn send_default_pii(self, send: bool) -> ClientOptions {
        self.number("pii", send.into())
    }

    /// The organization, in place of the one that the DSN says.
    pub fn org_id(self, number: u64) -> ClientOptions {
        self.number("org", number)
    }

    /// What sessions are of.
    pub fn session_mode(self, mode: SessionMode) -> ClientOptions {
        self.text("mode", if mode == SessionMode::Request { "request" } else { "application" })
    }

    /// How many breadcrumbs a scope keeps.
    pub fn max_breadcrumbs(self, count: u64) -> ClientOptions {
        self.number("crumbs", count)
    }

    /// How many spans a transaction keeps.
    pub fn max_spans(self, count: u64) -> ClientOptions {
        self.number("maxspans", count)
    }

    /// How many logs, and how many metrics, are sent in one envelope.
    pub fn max_batch_items(self, count: u64) -> ClientOptions {
        self.number("maxbatch", count)
    }

    /// Drops the events whose message begins with a text, unless that is empty.
    pub fn drop_events(self, prefix: impl Into<String>) -> ClientOptions {
        self.text("drop_events", prefix)
    }

    /// Drops the breadcrumbs whose message begins with a text, unless that is empty.
    pub fn drop_breadcrumbs(self, prefix: impl Into<String>) -> ClientOptions {
        self.text("drop_breadcrumbs", prefix)
    }

    /// Drops the logs whose body begins with a text, unless that is empty.
    pub fn drop_logs(self, prefix: impl Into<String>) -> ClientOptions {
        self.text("drop_logs", prefix)
    }

    /// Drops the metrics whose name begins with a text, unless that is empty.
    pub fn drop_metrics(self, prefix: impl Into<String>) -> ClientOptions {
        self.text("drop_metrics", prefix)
    }

    /// Whether faults of calls are printed on standard error; they are passed over otherwise.
    pub fn debug(mut self, debug: bool) -> ClientOptions {
        self.debug = debug;
        self
    }

    /// Whether `capture_error` adds the frames of the place where it is called.
    #[cfg(feature = "backtrace")]
    pub fn attach_stacktrace(mut self, attach: bool) -> ClientOptions {
        self.attach_stacktrace = attach;
        self
    }

    /// How the program calls itself to the server, such as shop/1.0.0.
    pub fn user_agent(mut self, agent: impl Into<String>) -> ClientOptions {
        self.user_agent = Some(agent.into());
        self
    }

    /// How long the client waits for the transport when it is closed, by default 2 seconds.
    pub fn shutdown_timeout(mut self, timeout: Duration) -> ClientOptions {
        self.shutdown_timeout = Some(timeout);
        self
    }

    /// What takes the envelopes, in place of a thread that posts them.
    pub fn transport(mut self, transport: impl Transport + 'static) -> ClientOptions {
        self.transport = Some(Arc::new(transport));
        self
    }

    /// What the thread posts by. Without one it posts to `http:` alone.
    pub fn http_client(mut self, client: impl HttpClient + 'static) -> ClientOptions {
        self.http_client = Some(Arc::new(client));
        self
    }

    /// Asks a function of each envelope before the transport has it. Where it answers false, or panics, the envelope isn't
    /// sent, and is counted as lost for [`Reason::BeforeSend`](crate::Reason::BeforeSend).
    pub fn before_send(mut self, keeps: impl Fn(&Envelope) -> bool + Send + Sync + 'static) -> ClientOptions {
        self.before_send = Some(Arc::new(keeps));
        self
    }

    /// The options as the engine reads them, a line `NAME=VALUE` each.
    pub(crate) fn lines(&self) -> Result<String, OptionError> {
        let mut lines = String::from("platform=rust\n");
        let dsn = self.dsn.iter().map(|it| ("dsn", it));
        for (name, text) in self.texts.iter().map(|(name, text)| (*name, text)).chain(dsn) {
            if text.contains('\n') {
                return Err(OptionError::LineFeed(name));
            }
            lines += &format!("{name}={text}\n");
        }
        // (it goes into a header)
        if self.user_agent.as_ref().is_some_and(|it| it.contains(['\r', '\n'])) {
            return Err(OptionError::LineFeed("user_agent"));
        }
        for (name, rate) in &self.rates {
            let rate = fraction(*rate).ok_or(OptionError::Rate(name))?;
            lines += &format!("{name}={rate}\n");
        }
        for (name, number) in &self.numbers {
            lines += &format!("{name}={number}\n");
        }
        Ok(lines)
    }
}

impl fmt::Debug for ClientOptions {
    fn fmt(&self, f: &mut fmt::Formatter<'_>) -> fmt::Result {
        f.debug_tuple("ClientOptions").field(&self.lines()).finish()
    }
}

/// A rate from 0 to 1 as the engine reads it.
pub(crate) fn fraction(rate: f64) -> Option<String> {
    let text = (0.0..=1.0).contains(&rate).then(|| format!("{rate:.6}"))?;
    Some(text.trim_end_matches('0').trim_end_matches('.').to_string())
}

/// An option that no client can have.
#[derive(Clone, Copy, Debug, PartialEq, Eq)]
pub enum OptionError {
    /// The text of an option, which is named, has a line feed.
    LineFeed(&'static str),
    /// A rate is not from 0 to 1.
    Rate(&'static str),
}

impl OptionError {
    /// As the engine would refuse it.
    pub fn fault(self) -> Fault {
        match self {
            OptionError::LineFeed(_) => Fault::UNKNOWN,
            OptionError::Rate(_) => Fault::INVALID_RATE,
        }
    }
}

impl fmt::Display for OptionError {
    fn fmt(&self, f: &mut fmt::Formatter<'_>) -> fmt::Result {
        match self {
            OptionError::LineFeed(name) => write!(f, "the option {name} has a line feed"),
            OptionError::Rate(name) => write!(f, "the option {name} is not from 0 to 1"),
        }
    }
}

impl std::error::Error for OptionError {}

#[cfg(test)]
mod tests {
    use super::{fraction, ClientOptions, OptionError, SessionMode};
    use crate::{Engine, Label, Moment};

    #[test]
    fn options_are_lines() {
        let options = ClientOptions::new()
            .dsn("")
            .release("a")
            .release("b=c")
            .traces_sample_rate(0.25)
            .max_spans(7)
            .send_default_pii(true);
        assert_eq!(options.lines().unwrap(), "platform=rust\nrelease=b=c\ntraces=0.25\nmaxspans=7\npii=1\n");
    }

    #[test]
    fn each_option_has_its_name() {
        let options = ClientOptions::new()
            .dsn("a")
            .release("b")
            .environment("c")
            .server_name("d")
            .session_mode(SessionMode::Request)
            .drop_events("e")
            .drop_breadcrumbs("f")
            .drop_logs("g")
            .drop_metrics("h")
            .sample_rate(0.5)
            .traces_sample_rate(0.25)
            .strict_trace_continuation(true)
            .send_default_pii(true)
            .org_id(1)
            .max_breadcrumbs(2)
            .max_spans(3)
            .max_batch_items(4);
        let texts = "release=b\nenvironment=c\nserver=d\nmode=request\ndrop_events=e\ndrop_breadcrumbs=f\ndrop_logs=g\ndrop_metrics=h\ndsn=a\n";
        let numbers = "rate=0.5\ntraces=0.25\nstrict=1\npii=1\norg=1\ncrumbs=2\nmaxspans=3\nmaxbatch=4\n";
        assert_eq!(options.lines().unwrap(), format!("platform=rust\n{texts}{numbers}"));
        let client =
            Engine::new().unwrap().add_client(&options.dsn("https://key@sentry.invalid/1"), Label(0), Moment(1));
        assert!(client.is_ok(), "{client:?}");
    }

    #[test]
    fn a_line_feed_sets_no_other_option() {
        let injected = "1.0\nrate=0";
        for (options, name) in [
            (ClientOptions::new().release(injected), "release"),
            (ClientOptions::new().dsn(injected), "dsn"),
            (ClientOptions::new().environment(injected), "environment"),
            (ClientOptions::new().server_name(injected), "server"),
            (ClientOptions::new().drop_events(injected), "drop_events"),
            (ClientOptions::new().drop_breadcrumbs(injected), "drop_breadcrumbs"),
            (ClientOptions::new().drop_logs(injected), "drop_logs"),
            (ClientOptions::new().drop_metrics(injected), "drop_metrics"),
            (ClientOptions::new().user_agent(injected), "user_agent"),
            (ClientOptions::new().user_agent("shop\r"), "user_agent"),
        ] {
            assert_eq!(options.lines(), Err(OptionError::LineFeed(name)));
        }
    }

    #[test]
    fn rates_are_fractions() {
        let texts = [0.0, 1.0, 0.25, 0.1, 1e-6, 1e-7, 0.999_999_9].map(|it| fraction(it).unwrap());
        assert_eq!(texts, ["0", "1", "0.25", "0.1", "0.000001", "0", "1"]);
        assert!([-0.1, 1.1, f64::NAN, f64::INFINITY].iter().all(|it| fraction(*it).is_none()));
        assert_eq!(ClientOptions::new().sample_rate(25.0).lines(), Err(OptionError::Rate("rate")));
    }
}
