//! Posts by HTTP without encryption, by the standard library alone.

use crate::transport::{Answer, HttpClient, Post, PostError};
use std::io::{self, BufRead, BufReader, Read, Write};
use std::net::{TcpStream, ToSocketAddrs};
use std::time::{Duration, Instant};

/// How long a post may take, but for finding the host's addresses.
const TIMEOUT: Duration = Duration::from_secs(10);
/// How much is read of an answer.
const MOST: u64 = 65_536;

/// Posts to `http:`, as to a relay on the same machine. It can't post to `https:`.
#[derive(Clone, Copy, Debug, Default)]
pub struct PlainHttp;

impl HttpClient for PlainHttp {
    fn post(&self, post: &Post<'_>) -> Result<Answer, PostError> {
        post_within(post, TIMEOUT)
    }

    fn can_post(&self, url: &str) -> bool {
        parts(url).is_some()
    }
}

fn parts(url: &str) -> Option<(&str, &str)> {
    url.strip_prefix("http://")?.split_once('/')
}

fn post_within(post: &Post<'_>, timeout: Duration) -> Result<Answer, PostError> {
    let (host, path) = parts(post.url).ok_or("it isn't an http: URL")?;
    let mut exchange = Exchange::begin(host, timeout)?;
    let head = format!(
        "POST /{path} HTTP/1.1\r\nHost: {host}\r\nContent-Type: application/x-sentry-envelope\r\nX-Sentry-Auth: {}\r\nContent-Length: {}\r\nConnection: close\r\n\r\n",
        post.auth,
        post.body.len()
    );
    let sent = exchange.write_all(head.as_bytes()).and_then(|()| exchange.write_all(post.body));
    // a server may answer before it has read all, and close
    match (receive(exchange), sent) {
        (Err(_), Err(error)) => Err(error.into()),
        (received, _) => received,
    }
}

/// A connection, and until when it is used.
struct Exchange {
    stream: TcpStream,
    ends: Instant,
}

impl Exchange {
    /// Connects to a host, at port 80 where it names none.
    fn begin(host: &str, timeout: Duration) -> Result<Exchange, PostError> {
        let has_port = host.rsplit_once(':').is_some_and(|it| it.1.parse::<u16>().is_ok());
        let place = if has_port { host.to_string() } else { format!("{host}:80") };
        let mut last = PostError::from("the host has no address");
        let addresses = place.to_socket_addrs()?;
        let ends = Instant::now() + timeout;
        for address in addresses {
            match TcpStream::connect_timeout(&address, left(ends)?) {
                Ok(stream) => return Ok(Exchange { stream, ends }),
                Err(error) => last = error.into(),
            }
        }
        Err(last)
    }
}

/// How much time is left.
fn left(ends: Instant) -> io::Result<Duration> {
    let left = ends.saturating_duration_since(Instant::now());
    (!left.is_zero()).then_some(left).ok_or_else(|| io::ErrorKind::TimedOut.into())
}

impl Read for Exchange {
    fn read(&mut self, room: &mut [u8]) -> io::Result<usize> {
        self.stream.set_read_timeout(Some(left(self.ends)?))?;
        self.stream.read(room)
    }
}

impl Write for Exchange {
    fn write(&mut self, bytes: &[u8]) -> io::Result<usize> {
        self.stream.set_write_timeout(Some(left(self.ends)?))?;
        self.stream.write(bytes)
    }

    fn flush(&mut self) -> io::Result<()> {
        self.stream.flush()
    }
}

/// Reads an answer up to its headers, after those that say that it will come.
fn receive(exchange: impl Read) -> Result<Answer, PostError> {
    let mut lines = BufReader::new(exchange.take(MOST));
    loop {
        let mut head = Vec::new();
        while !head.ends_with(b"\r\n\r\n") && lines.read_until(b'\n', &mut head)? > 0 {}
        let answer = read(&String::from_utf8_lossy(&head)).ok_or("the answer isn't HTTP")?;
        if answer.status >= 200 {
            return Ok(answer);
        }
    }
}

/// The status of an answer, and the headers that say limits.
fn read(answer: &str) -> Option<Answer> {
    let mut lines = answer.split("\r\n");
    let status = lines.next()?.strip_prefix("HTTP/")?.split(' ').nth(1)?.parse().ok()?;
    let headers: Vec<_> = lines.take_while(|it| !it.is_empty()).filter_map(|it| it.split_once(':')).collect();
    let header =
        |name: &str| headers.iter().find(|it| it.0.eq_ignore_ascii_case(name)).map(|it| it.1.trim().to_string());
    Some(Answer { status, rate_limits: header("x-sentry-rate-limits"), retry_after: header("retry-after") })
}

#[cfg(test)]
mod tests {
    use super::{parts, post_within, read};
    use crate::transport::{Answer, Post, PostError};
    use std::io::{BufRead, BufReader, Read, Write};
    use std::net::{TcpListener, TcpStream};
    use std::time::Duration;

    /// What a post has from a server that, after the head of the request, does as a function says.
    fn answered(
        body: &[u8],
        timeout: Duration,
        serve: impl FnOnce(&mut TcpStream) + Send + 'static,
    ) -> Result<Answer, PostError> {
        let server = TcpListener::bind("127.0.0.1:0").unwrap();
        let url = format!("http://{}/api/1/envelope/", server.local_addr().unwrap());
        std::thread::spawn(move || {
            let mut stream = server.accept().unwrap().0;
            let mut head = BufReader::with_capacity(1, stream.try_clone().unwrap());
            while head.read_line(&mut String::new()).is_ok_and(|it| it > 2) {}
            serve(&mut stream);
        });
        post_within(&Post { url: &url, auth: "", body }, timeout)
    }

    #[test]
    fn an_answer_is_read_while_the_connection_stays_open() {
        let answer = answered(b"", Duration::from_secs(60), |stream| {
            stream.write_all(b"HTTP/1.1 100 Continue\r\n\r\nHTTP/1.1 200 OK\r\nRetry-After: 3\r\n\r\n{}").unwrap();
            // until the client closes
            let _ = stream.read_to_end(&mut Vec::new());
        });
        assert_eq!(answer.unwrap(), Answer { status: 200, retry_after: Some("3".into()), ..Answer::default() });
    }

    #[test]
    fn an_answer_is_read_that_comes_before_all_is_sent() {
        let body = vec![b'x'; 20_000_000];
        let answer = answered(&body, Duration::from_secs(60), |stream| {
            stream.write_all(b"HTTP/1.1 429 Too Many\r\nRetry-After: 3\r\n\r\n").unwrap();
        });
        assert_eq!(answer.unwrap(), Answer { status: 429, retry_after: Some("3".into()), ..Answer::default() });
    }

    #[test]
    fn a_slow_answer_has_an_end() {
        let (closes, closed) = std::sync::mpsc::channel();
        let answer = answered(b"", Duration::from_millis(300), move |stream| {
            while stream.write_all(b"H").is_ok() {
                std::thread::sleep(Duration::from_millis(10));
            }
            closes.send(()).unwrap();
        });
        assert!(answer.is_err());
        closed.recv_timeout(Duration::from_secs(60)).unwrap();
    }

    #[test]
    fn answers_are_read() {
        let answer = read(
            "HTTP/1.1 429 Too Many\r\nretry-after: 3\r\nX-Sentry-Rate-Limits:  5:error \r\n\r\nRetry-After: 4\r\n",
        );
        assert_eq!(
            answer,
            Some(Answer { status: 429, rate_limits: Some("5:error".into()), retry_after: Some("3".into()) })
        );
        assert_eq!(read("SSH-2.0 200 OK\r\n\r\n"), None);
        assert_eq!(read(""), None);
    }

    #[test]
    fn other_schemes_have_no_parts() {
        assert_eq!(parts("http://[::1]:8/api/1/envelope/"), Some(("[::1]:8", "api/1/envelope/")));
        assert_eq!(parts("https://h/api/1/envelope/"), None);
    }
}
