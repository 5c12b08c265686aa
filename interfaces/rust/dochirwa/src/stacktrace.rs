//! Frames, as the standard library prints them.

use crate::protocol::{Frame, Stacktrace};
use std::backtrace::Backtrace;

/// The calls that led to the call of this crate on this thread, the outermost first. Without the symbols of the program
/// there are none.
pub fn current_stacktrace() -> Stacktrace {
    frames_of(&Backtrace::force_capture().to_string())
}

/// Parts of paths of Rust's own code.
const OF_RUST: [&str; 3] = ["/rustc/", "/library/std/", "/library/core/"];

fn is_of_crate(function: &str, name: &str) -> bool {
    let function = function.trim_start_matches(['<', '&']);
    function.strip_prefix(name).is_some_and(|it| it.starts_with("::") || it.starts_with('['))
}

/// Reads lines as `  3: shop::sell`, each perhaps with one as `     at ./src/main.rs:12:5` below it.
fn frames_of(text: &str) -> Stacktrace {
    let mut frames: Vec<Frame> = Vec::new();
    for line in text.lines().map(str::trim) {
        match (line.strip_prefix("at "), line.split_once(": "), frames.last_mut()) {
            (Some(place), _, Some(frame)) => set_place(frame, place),
            (None, Some((number, function)), _) if number.parse::<u32>().is_ok() => {
                let is_rust = ["std", "core", "alloc"].iter().any(|it| is_of_crate(function, it))
                    || function.starts_with('_')
                    || !function.contains("::");
                frames.push(Frame { function: Some(function.into()), in_app: Some(!is_rust), ..Frame::default() });
            }
            _ => {}
        }
    }
    let is_own = |it: &Frame| it.function.as_deref().is_some_and(|it| is_of_crate(it, "dochirwa"));
    let own = frames.iter().take_while(|it| it.in_app != Some(true) || is_own(it)).collect::<Vec<_>>();
    let own = own.iter().rposition(|it| is_own(it)).map_or(0, |it| it + 1);
    frames.drain(..own);
    frames.reverse();
    Stacktrace { frames }
}

fn set_place(frame: &mut Frame, place: &str) {
    let mut parts = place.rsplitn(3, ':');
    let (column, line) = (parts.next().and_then(|it| it.parse().ok()), parts.next().and_then(|it| it.parse().ok()));
    if let (Some(_), Some(_), Some(file)) = (column, line, parts.next()) {
        if OF_RUST.iter().any(|it| file.contains(it)) {
            frame.in_app = Some(false);
        }
        (frame.filename, frame.lineno, frame.colno) = (Some(file.into()), line, column);
    }
}

#[cfg(test)]
mod tests {
    use super::frames_of;

    const TEXT: &str = "   0: std::backtrace::Backtrace::force_capture\n             at /rustc/1/library/std/src/backtrace.rs:312:9\n   1: dochirwa::stacktrace::current_stacktrace\n   2: dochirwa::hub::Hub::capture_error::<shop::NoReceipt>\n   3: shop::print_receipt\n             at ./src/main.rs:12:5\n   4: <alloc::boxed::Box<F> as core::ops::FnOnce>::call_once\n   5: shop::main\n             at ./src/main.rs:20:9\n   6: __libc_start_main\n";

    #[test]
    fn frames_stand_from_the_outermost_to_the_caller() {
        let frames = frames_of(TEXT).frames;
        let shown: Vec<_> =
            frames.iter().map(|it| (it.function.as_deref().unwrap(), it.in_app.unwrap(), it.lineno)).collect();
        let wanted = [
            ("__libc_start_main", false, None),
            ("shop::main", true, Some(20)),
            ("<alloc::boxed::Box<F> as core::ops::FnOnce>::call_once", false, None),
            ("shop::print_receipt", true, Some(12)),
        ];
        assert_eq!(shown, wanted);
        assert_eq!((frames[3].filename.as_deref(), frames[3].colno), (Some("./src/main.rs"), Some(5)));
        assert!(frames_of("").frames.is_empty());
    }
}
