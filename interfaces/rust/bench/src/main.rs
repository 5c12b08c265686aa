//! The same work by the real `sentry-core` and by `libdochirwa.a`, in one process, turn about.
//!
//! bench [SECONDS_PER_ROUND [ROUNDS]]   default 0.2 and 9
//! bench count CASE WHICH BATCHES       runs so many batches of one case of `crate`, `full` or `bare`, for callgrind
//! A line a case: median nanoseconds per operation of the crate, of the library behind a Mutex with the system's clock
//! and random ids (`full`), of the library called directly with counted ids and moments (`bare`), and crate / full.

use std::hint::black_box;
use std::sync::atomic::{AtomicU64, Ordering};
use std::sync::{Arc, Mutex};
use std::time::{Duration, Instant, SystemTime};

use dochirwa::{Beginning, ClientId, Engine, Fresh, HubId, Label, Metric, Moment, SessionStatus};
use sentry_core::protocol::{Log, LogLevel, Map};
use sentry_core::{metrics, Client, ClientOptions, Envelope, Hub, Level, Scope, TransactionContext, Transport, TransportFactory, TransportOptions};

static SENT: AtomicU64 = AtomicU64::new(0);
const DSN: &str = "https://public@sentry.invalid/1";

struct Dropping;
impl Transport for Dropping {
    fn send_envelope(&self, envelope: Envelope) {
        SENT.fetch_add(1, Ordering::Relaxed);
        drop(black_box(envelope));
    }
}
struct Factory;
impl TransportFactory for Factory {
    fn create_transport_with_options(&self, _: TransportOptions) -> Arc<dyn Transport> {
        Arc::new(Dropping)
    }
}

fn crate_hub(options: ClientOptions) -> Hub {
    let client = Client::with_options(options.dsn(DSN).transport(Factory));
    Hub::new(Some(Arc::new(client)), Arc::new(Scope::default()))
}

/// How the library gets moments and ids.
trait Source: Copy {
    fn now(self) -> Moment;
    fn fresh(self) -> Fresh;
    /// What a child uses.
    fn fresh_span(self) -> Fresh;
}
#[derive(Clone, Copy)]
struct Real;
impl Source for Real {
    fn now(self) -> Moment {
        Moment::now()
    }
    fn fresh(self) -> Fresh {
        Fresh { now: self.now(), id: rand::random::<u128>().into(), trace: rand::random::<u128>().into(), span: rand::random(), draw: rand::random::<u32>() % 1_000_000 }
    }
    fn fresh_span(self) -> Fresh {
        Fresh { now: self.now(), span: rand::random(), ..Fresh::default() }
    }
}
#[derive(Clone, Copy)]
struct Counted;
static COUNT: AtomicU64 = AtomicU64::new(1);
impl Source for Counted {
    fn now(self) -> Moment {
        let n = COUNT.load(Ordering::Relaxed) + 1;
        COUNT.store(n, Ordering::Relaxed);
        Moment(n)
    }
    fn fresh(self) -> Fresh {
        let now = self.now();
        let id = u128::from(now.0);
        Fresh { now, id: id.into(), trace: id.into(), span: now.0, draw: 0 }
    }
    fn fresh_span(self) -> Fresh {
        let now = self.now();
        Fresh { now, span: now.0, ..Fresh::default() }
    }
}

/// The library, behind a lock, as a wrapper for several threads would hold it. Each call takes the lock once, and the
/// envelopes that it handed out are dropped under it.
struct Locked {
    engine: Mutex<Engine>,
    hub: HubId,
    client: ClientId,
}
fn locked(release: Option<&str>, rate: f64, tags: usize) -> Locked {
    let mut engine = Engine::new().unwrap();
    let options = dochirwa::ClientOptions::new().dsn(DSN).traces_sample_rate(rate);
    let options = release.into_iter().fold(options, dochirwa::ClientOptions::release);
    let client = engine.add_client(&options, Label(0), Real.now()).unwrap();
    let hub = engine.new_hub(client, &Real.fresh()).unwrap();
    for i in 0..tags {
        engine.set_tag(hub, &format!("key{i}"), "value", Real.now()).unwrap();
    }
    Locked { engine: Mutex::new(engine), hub, client }
}
impl Locked {
    fn with<T>(&self, call: impl FnOnce(&mut Engine, HubId) -> T) -> T {
        let mut engine = self.engine.lock().unwrap();
        let answer = call(&mut engine, self.hub);
        engine.drop_envelopes().unwrap();
        answer
    }
}

fn round(time: Duration, per: u64, batch: &mut dyn FnMut()) -> f64 {
    let start = Instant::now();
    let mut ops = 0;
    while start.elapsed() < time {
        batch();
        ops += per;
    }
    start.elapsed().as_nanos() as f64 / ops as f64
}

fn median(mut them: Vec<f64>) -> (f64, f64) {
    them.sort_by(f64::total_cmp);
    (them[them.len() / 2], them[0])
}

struct Bench {
    time: Duration,
    rounds: usize,
    only: Option<(String, String, u64)>,
}
impl Bench {
    /// `per` operations a batch, of each of the three.
    fn case(&self, name: &str, per: u64, real: &mut dyn FnMut(), full: &mut dyn FnMut(), bare: &mut dyn FnMut()) {
        if let Some((case, which, batches)) = &self.only {
            if case == name {
                for _ in 0..*batches {
                    match which.as_str() {
                        "crate" => real(),
                        "full" => full(),
                        _ => bare(),
                    }
                }
            }
            return;
        }
        real();
        full();
        bare();
        let (mut a, mut b, mut c) = (vec![], vec![], vec![]);
        for _ in 0..self.rounds {
            a.push(round(self.time, per, real));
            b.push(round(self.time, per, full));
            c.push(round(self.time, per, bare));
        }
        let (a, b, c) = (median(a), median(b), median(c));
        println!("{name}\t{:.0}\t{:.0}\t{:.0}\t{:.2}\t(best {:.0} {:.0} {:.0})", a.0, b.0, c.0, a.0 / b.0, a.1, b.1, c.1);
    }
}

const N: u64 = 1000;

fn log() -> Log {
    Log { level: LogLevel::Info, body: "hello world".into(), trace_id: None, timestamp: SystemTime::now(), severity_number: None, attributes: Map::new() }
}

fn message<S: Source>(to: &Locked, source: S) {
    for _ in 0..N {
        black_box(to.with(|e, hub| e.capture_message(hub, black_box("hello world"), dochirwa::Level::Info, &source.fresh())).unwrap());
    }
}
fn tag<S: Source>(to: &Locked, source: S) {
    for _ in 0..N {
        let depth = to.with(|e, hub| e.push_scope(hub)).unwrap();
        to.with(|e, hub| e.set_tag(hub, black_box("key"), "value", source.now())).unwrap();
        to.with(|e, hub| e.pop_scope(hub, depth, source.now())).unwrap();
    }
}
fn logs<S: Source>(to: &Locked, source: S) {
    for _ in 0..N {
        let log = dochirwa::Log::new(dochirwa::LogLevel::Info, black_box("hello world"));
        to.with(|e, hub| e.capture_log(hub, &log, source.now())).unwrap();
    }
}
fn counters<S: Source>(to: &Locked, source: S) {
    for _ in 0..N {
        let metric = Metric::counter(black_box("name"), 1);
        to.with(|e, hub| e.capture_metric(hub, &metric, source.now())).unwrap();
    }
}
fn sessions<S: Source>(to: &Locked, source: S) {
    for _ in 0..N {
        to.with(|e, hub| e.start_session(hub, &source.fresh())).unwrap();
        to.with(|e, hub| e.end_session(hub, SessionStatus::Exited, source.now())).unwrap();
        // the crate's worker sends the ended sessions; here a flush each 100
    }
    to.with(|e, _| e.flush(to.client)).unwrap();
}
fn transactions<S: Source>(to: &Locked, source: S, children: usize) {
    for _ in 0..N / 10 {
        let begins = Beginning { name: "name", op: "op", ..Beginning::default() };
        let tx = to.with(|e, hub| e.start_transaction(hub, begins, &source.fresh())).unwrap();
        for _ in 0..children {
            let child = to.with(|e, _| e.start_child(tx, black_box("op"), "description", &source.fresh_span())).unwrap();
            assert!(!to.with(|e, _| e.end_span(child, source.now())).unwrap());
        }
        assert!(!to.with(|e, hub| e.end_transaction(tx, hub, source.now())).unwrap());
    }
}

fn main() {
    let words: Vec<String> = std::env::args().collect();
    let counts = words.len() == 5 && words[1] == "count";
    let only = counts.then(|| (words[2].clone(), words[3].clone(), words[4].parse().expect("batches")));
    let mut args = words.into_iter().skip(if counts { 5 } else { 1 });
    let seconds: f64 = args.next().map_or(0.2, |a| a.parse().expect("seconds"));
    let rounds: usize = args.next().map_or(9, |a| a.parse().expect("rounds"));
    let bench = Bench { time: Duration::from_secs_f64(seconds), rounds, only };
    println!("case\tcrate\tfull\tbare\tcrate/full");

    let plain = crate_hub(ClientOptions::new().release("r1"));
    let tagged = crate_hub(ClientOptions::new().release("r1"));
    tagged.configure_scope(|s| (0..10).for_each(|i| s.set_tag(&format!("key{i}"), "value")));
    let traced = crate_hub(ClientOptions::new().traces_sample_rate(1.0));
    let (ours, ours_tagged, ours_traced) = (locked(Some("r1"), 0.0, 0), locked(Some("r1"), 0.0, 10), locked(None, 1.0, 0));

    let real_message = |hub: &Hub| {
        for _ in 0..N {
            black_box(hub.capture_message(black_box("hello world"), Level::Info));
        }
    };
    let real_tag = |hub: &Hub| {
        for _ in 0..N {
            let guard = hub.push_scope();
            hub.configure_scope(|s| s.set_tag(black_box("key"), "value"));
            drop(guard);
        }
    };
    let real_tx = |children: usize| {
        for _ in 0..N / 10 {
            let tx = traced.start_transaction(TransactionContext::new("name", "op"));
            for _ in 0..children {
                tx.start_child(black_box("op"), "description").finish();
            }
            tx.finish();
        }
    };
    bench.case("message", N, &mut || real_message(&plain), &mut || message(&ours, Real), &mut || message(&ours, Counted));
    bench.case("message, 10 tags", N, &mut || real_message(&tagged), &mut || message(&ours_tagged, Real), &mut || message(&ours_tagged, Counted));
    bench.case("push, tag, pop", N, &mut || real_tag(&plain), &mut || tag(&ours, Real), &mut || tag(&ours, Counted));
    bench.case("push, tag, pop over 10 tags", N, &mut || real_tag(&tagged), &mut || tag(&ours_tagged, Real), &mut || tag(&ours_tagged, Counted));
    bench.case("log", N, &mut || (0..N).for_each(|_| plain.capture_log(black_box(log()))), &mut || logs(&ours, Real), &mut || logs(&ours, Counted));
    bench.case("counter", N, &mut || (0..N).for_each(|_| plain.capture_metric(metrics::counter(black_box("name"), 1))), &mut || counters(&ours, Real), &mut || counters(&ours, Counted));
    bench.case("session, start and end", N, &mut || (0..N).for_each(|_| { plain.start_session(); plain.end_session() }), &mut || sessions(&ours, Real), &mut || sessions(&ours, Counted));
    bench.case("transaction", N / 10, &mut || real_tx(0), &mut || transactions(&ours_traced, Real, 0), &mut || transactions(&ours_traced, Counted, 0));
    bench.case("transaction, 10 children", N / 10, &mut || real_tx(10), &mut || transactions(&ours_traced, Real, 10), &mut || transactions(&ours_traced, Counted, 10));
    let mut engine = Engine::new().unwrap();
    bench.case("(an empty call)", N, &mut || (), &mut || (0..N).for_each(|_| { black_box(ours.with(|_, _| ())); }), &mut || (0..N).for_each(|_| { engine.drop_envelopes().unwrap(); }));
    eprintln!("{} envelopes were handed out", SENT.load(Ordering::Relaxed));
}
