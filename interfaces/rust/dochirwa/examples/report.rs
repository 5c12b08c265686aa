//! Reports an error, and what led to it, to the DSN that is given: report DSN
use dochirwa::{capture_error, init, ClientOptions};

fn main() -> Result<(), Box<dyn std::error::Error>> {
    let dsn = std::env::args().nth(1).ok_or("usage: report DSN")?;
    let _guard = init(ClientOptions::new().dsn(dsn).release("shop@1.0.0"))?;
    if let Err(error) = std::fs::read("/no/such/file") {
        println!("{}", capture_error(&error));
    }
    Ok(())
}
