//! What the server doesn't want for a while.

use crate::transport::Answer;
use crate::types::Category;
use std::time::{Duration, Instant};

/// How long a limit holds of which the server doesn't say that.
const DEFAULT: Duration = Duration::from_secs(60);

/// Until when the server wants nothing of a category, or of any (none).
#[derive(Default)]
pub(crate) struct Limits(Vec<(Option<Category>, Instant)>);

impl Limits {
    pub(crate) fn holds(&self, category: Option<Category>, now: Instant) -> bool {
        self.0.iter().any(|(of, until)| (of.is_none() || *of == category) && now < *until)
    }

    /// Keeps what an answer says.
    pub(crate) fn keep(&mut self, answer: &Answer, now: Instant) {
        self.0.retain(|it| now < it.1);
        match (answer.rate_limits.as_deref().filter(|it| !it.trim().is_empty()), answer.status) {
            (Some(limits), _) => limits.split(',').for_each(|it| self.keep_limit(it.trim(), now)),
            (None, 429) => self.0.push((None, now + seconds(answer.retry_after.as_deref().unwrap_or("")))),
            _ => {}
        }
    }

    /// Keeps a limit as `60:error;transaction:organization`. One of an empty category is of all, and a text without a colon
    /// is none.
    fn keep_limit(&mut self, limit: &str, now: Instant) {
        let Some((length, rest)) = limit.split_once(':') else { return };
        let until = now + seconds(length);
        for name in rest.split(':').next().unwrap_or("").split(';') {
            let of = Category::ALL
                .iter()
                .find(|it| it.as_str() == name || (name == "trace_metric" && **it == Category::Metric));
            if name.is_empty() || of.is_some() {
                self.0.push((of.copied(), until));
            }
        }
    }
}

/// How many seconds a text says, up to a day.
fn seconds(text: &str) -> Duration {
    let found = text.trim().parse::<f64>().ok().filter(|it| *it >= 0.0);
    found.map_or(DEFAULT, |it| Duration::from_secs_f64(it.min(86_400.0)))
}

#[cfg(test)]
mod tests {
    use super::Limits;
    use crate::transport::Answer;
    use crate::types::Category;
    use std::time::{Duration, Instant};

    fn after(status: u16, rate_limits: Option<&str>, retry_after: Option<&str>) -> (Limits, Instant) {
        let (mut limits, now) = (Limits::default(), Instant::now());
        limits.keep(
            &Answer { status, rate_limits: rate_limits.map(Into::into), retry_after: retry_after.map(Into::into) },
            now,
        );
        (limits, now)
    }

    #[test]
    fn limits_hold_for_their_categories_and_time() {
        let (limits, now) = after(200, Some("5:error;trace_metric:key, 9::organization , 7:unheard"), None);
        let holds = |category, seconds| limits.holds(category, now + Duration::from_secs(seconds));
        assert!(holds(Some(Category::Error), 4) && holds(Some(Category::Session), 8) && holds(None, 8));
        assert!(!holds(Some(Category::Error), 9) && !holds(None, 9));
        let (limits, now) = after(200, Some("5:error;metric"), None);
        assert!(
            limits.holds(Some(Category::Metric), now)
                && !limits.holds(Some(Category::Session), now)
                && !limits.holds(None, now)
        );
    }

    #[test]
    fn a_refusal_limits_all() {
        for (retry_after, seconds) in [(Some("3"), 3), (Some("soon"), 60), (None, 60)] {
            let (limits, now) = after(429, None, retry_after);
            let holds = |seconds| limits.holds(Some(Category::Error), now + Duration::from_secs(seconds));
            assert!(holds(seconds - 1) && !holds(seconds), "{retry_after:?}");
        }
        let (limits, now) = after(200, None, Some("3"));
        assert!(!limits.holds(None, now));
    }

    #[test]
    fn what_is_no_limit_holds_nothing() {
        for text in ["", " ", "60", ",", "60, "] {
            let (limits, now) = after(200, Some(text), None);
            assert!(!limits.holds(Some(Category::Error), now) && !limits.holds(None, now), "{text:?}");
        }
        let (limits, now) = after(429, Some(""), Some("3"));
        assert!(limits.holds(None, now));
    }
}
