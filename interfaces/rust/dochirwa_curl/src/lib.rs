//! Posts the envelopes of `dochirwa` by libcurl:
//!
//! ```no_run
//! # fn main() -> Result<(), Box<dyn std::error::Error>> {
//! let options = dochirwa::ClientOptions::new().dsn("https://key@sentry.example/1");
//! let _guard = dochirwa::init(options.http_client(dochirwa_curl::Curl::default()))?;
//! # Ok(())
//! # }
//! ```
#![forbid(unsafe_code)]
#![warn(missing_docs)]

use curl::easy::{Easy, List};
use dochirwa::{Answer, HttpClient, Post, PostError};
use std::sync::{Mutex, PoisonError};
use std::time::Duration;

/// How long a request may take.
const TIMEOUT: Duration = Duration::from_secs(10);

/// Posts by libcurl, which keeps its connection.
#[derive(Debug, Default)]
pub struct Curl(Mutex<Option<Easy>>);

impl HttpClient for Curl {
    fn post(&self, post: &Post<'_>) -> Result<Answer, PostError> {
        let mut kept = self.0.lock().unwrap_or_else(PoisonError::into_inner);
        let handle = kept.get_or_insert_with(Easy::new);
        handle.reset();
        handle.url(post.url)?;
        handle.post(true)?;
        handle.post_fields_copy(post.body)?;
        handle.http_headers(headers(post)?)?;
        handle.timeout(TIMEOUT)?;
        let mut answer = Answer::default();
        {
            let mut transfer = handle.transfer();
            transfer.write_function(|it| Ok(it.len()))?;
            transfer.header_function(|line| {
                keep(&mut answer, &String::from_utf8_lossy(line));
                true
            })?;
            transfer.perform()?;
        }
        answer.status = u16::try_from(handle.response_code()?)?;
        Ok(answer)
    }
}

fn headers(post: &Post<'_>) -> Result<List, curl::Error> {
    let mut headers = List::new();
    headers.append("Content-Type: application/x-sentry-envelope")?;
    headers.append(&format!("X-Sentry-Auth: {}", post.auth))?;
    // without this libcurl waits for the server to ask for a long body
    headers.append("Expect:")?;
    Ok(headers)
}

/// Keeps a header of the answer that says limits.
fn keep(answer: &mut Answer, line: &str) {
    let Some((name, value)) = line.split_once(':') else { return };
    let value = Some(value.trim().to_string());
    match name.to_ascii_lowercase().as_str() {
        "x-sentry-rate-limits" => answer.rate_limits = value,
        "retry-after" => answer.retry_after = value,
        _ => {}
    }
}
