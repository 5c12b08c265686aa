//! Prints what is sent of an error, with the frames of the place where it is captured. A hook keeps secrets back.
use dochirwa::{capture_error, capture_message, ClientOptions, Envelope, Level};
use std::sync::atomic::{AtomicU32, Ordering};

static DROPPED: AtomicU32 = AtomicU32::new(0);

fn read_prices() {
    if let Err(error) = std::fs::read("/no/such/prices") {
        capture_error(&error);
    }
}

/// Whether an envelope may be sent.
fn keeps(envelope: &Envelope) -> bool {
    let has_secret = envelope.items().any(|it| String::from_utf8_lossy(it.payload()).contains("password"));
    DROPPED.fetch_add(has_secret.into(), Ordering::Relaxed);
    !has_secret
}

fn print(envelope: Envelope) {
    for item in envelope.items().filter(|it| it.ty() == "event") {
        println!("{}", String::from_utf8_lossy(item.payload()));
    }
}

fn main() -> Result<(), dochirwa::InitError> {
    let options = ClientOptions::new().dsn("https://key@sentry.invalid/1").attach_stacktrace(true);
    let guard = dochirwa::init(options.before_send(keeps).transport(print))?;
    capture_message("the password is 1234", Level::Warning);
    read_prices();
    drop(guard);
    println!("dropped: {}", DROPPED.load(Ordering::Relaxed));
    Ok(())
}
