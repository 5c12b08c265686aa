//! Calls an engine, with moments and ids that are counted.
use dochirwa::{ClientOptions, Engine, Fault, Fresh, Label, Level, Moment};

fn fresh(number: u64) -> Fresh {
    let id = u128::from(number);
    Fresh { now: Moment(number * 1_000_000_000), id: id.into(), trace: id.into(), span: number, draw: 0 }
}

fn main() -> Result<(), Fault> {
    let mut engine = Engine::new()?;
    let options = ClientOptions::new().dsn("https://public@sentry.invalid/1").release("shop@1.0.0");
    let client = engine.add_client(&options, Label(0), fresh(1).now)?;
    let hub = engine.new_hub(client, &fresh(2))?;
    engine.set_tag(hub, "os", "linux", fresh(3).now)?;
    engine.capture_message(hub, "hello from Rust", Level::Warning, &fresh(4))?;
    while let Some((client, envelope)) = engine.next_envelope()? {
        println!("{client:?}: {}", String::from_utf8_lossy(&envelope));
    }
    engine.release_hub(hub, fresh(5).now)?;
    println!("{:?}", engine.set_tag(hub, "os", "linux", fresh(6).now));
    Ok(())
}
