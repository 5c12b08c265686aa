//! Events of errors.

use crate::protocol::{Event, Exception};
use crate::types::Level;
use std::error::Error;

/// The event of an error and of those that led to it, the innermost first.
pub fn event_from_error<E: Error + ?Sized>(error: &E) -> Event {
    let mut exception = vec![exception_from_error(error)];
    let mut source = error.source();
    while let Some(error) = source {
        exception.push(exception_from_error(error));
        source = error.source();
    }
    exception.reverse();
    Event { level: Level::Error, exception, ..Event::default() }
}

fn exception_from_error<E: Error + ?Sized>(error: &E) -> Exception {
    let value = error.to_string();
    Exception { ty: type_of(&format!("{error:?}"), &value), value: Some(value), ..Exception::default() }
}

/// What an error is called: the word that its text for debugging begins with, or `Error` where that is but the message.
fn type_of(debug: &str, message: &str) -> String {
    let is_name = |it: &str| it.starts_with(|first: char| first.is_alphabetic() || first == '_');
    match debug.split([' ', '(', '{', '\r', '\n']).next() {
        Some(name) if is_name(name) && debug != message => name.into(),
        _ => "Error".into(),
    }
}

#[cfg(test)]
mod tests {
    use super::event_from_error;
    use std::fmt;

    #[derive(Debug)]
    struct NoReceipt {
        source: std::num::ParseIntError,
    }

    impl fmt::Display for NoReceipt {
        fn fmt(&self, f: &mut fmt::Formatter<'_>) -> fmt::Result {
            f.write_str("no receipt")
        }
    }

    impl std::error::Error for NoReceipt {
        fn source(&self) -> Option<&(dyn std::error::Error + 'static)> {
            Some(&self.source)
        }
    }

    #[test]
    fn the_innermost_error_stands_first() {
        let event = event_from_error(&NoReceipt { source: "x".parse::<u8>().unwrap_err() });
        let found: Vec<_> = event.exception.iter().map(|it| (it.ty.as_str(), it.value.as_deref().unwrap())).collect();
        assert_eq!(found, [("ParseIntError", "invalid digit found in string"), ("NoReceipt", "no receipt")]);
    }

    #[test]
    fn what_is_but_a_message_has_no_type() {
        let error: Box<dyn std::error::Error> = "the printer is off".into();
        assert_eq!(event_from_error(&*error).exception[0].ty, "Error");
    }
}
