//! Reports an error to the DSN that is given, by libcurl: report DSN
use dochirwa::{capture_error, init, ClientOptions};
use dochirwa_curl::Curl;

fn main() -> Result<(), Box<dyn std::error::Error>> {
    let dsn = std::env::args().nth(1).ok_or("usage: report DSN")?;
    let _guard = init(ClientOptions::new().dsn(dsn).http_client(Curl::default()))?;
    if let Err(error) = std::fs::read("/no/such/file") {
        println!("{}", capture_error(&error));
    }
    Ok(())
}
