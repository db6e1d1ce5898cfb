//! Answers to questions, with one tag for all of them, and waits for a change; and what peers ask for.

use crate::keeper::Refusal;
use crate::library::Error;
use crate::problems::{bare, plain, problem, set, Answered, JSON, NDJSON};
use crate::reader::{Answer, What};
use crate::routes::{Common, Service};
use crate::settings::Limits;
use hyper::header::{HeaderMap, IF_NONE_MATCH};
use hyper::{Body, Request, StatusCode};
use percent_encoding::percent_decode_str;
use std::time::Duration;
use tokio::sync::watch;
use tokio::time::Instant;

/// The most seconds that an answer is held back.
const WAIT: u64 = 60;
/// Where events come all the time, whoever waits looks once in a while.
const LOOK: Duration = Duration::from_millis(20);
/// The most bytes of a summary: it has to be read at once.
pub const SUMMARY: usize = 33_554_432;

impl Service {
    /// `GET /NAME`: the answer to a question, the summary or the cover; 304 where whoever asks has the set that it is of.
    /// With `Prefer: wait=N` a 304 is held back so many seconds, until the set changes; with `?min=N` what has fewer events.
    /// With `?with=summary` the summary of the very set stands before the answer, which a front asks of its parts.
    pub async fn ask(&self, request: &Request<Body>, what: What) -> Answered {
        let with_summary = text_of(request, "with").as_deref() == Some("summary");
        let mut wanted = match Wanted::of(self, request, self.keeper.counted.clone()) {
            Ok(wanted) => wanted,
            Err(refused) => return refused,
        };
        loop {
            wanted.mark();
            let answer = match with_summary {
                true => self.keeper.ask_with_summary(what).await,
                false => self.keeper.ask(what).await,
            };
            let answer = match answer {
                Ok(answer) => answer,
                Err(why) => return self.unanswered(why),
            };
            if let Some(is_known) = wanted.settles(&answer).await {
                return told(&answer, kind_of(what), is_known);
            }
        }
    }

    /// `GET /get?source=S&id=I`: the events of a source and an id, a line each, the one that is shown first; 404 where
    /// there is none. Tags, waits and `?min=N` are as for questions.
    pub async fn get(&self, request: &Request<Body>) -> Answered {
        let (source, id) = match key_of(request) {
            Ok(key) => key,
            Err(refused) => return refused,
        };
        let mut wanted = match Wanted::of(self, request, self.keeper.counted.clone()) {
            Ok(wanted) => wanted,
            Err(refused) => return refused,
        };
        loop {
            wanted.mark();
            let answer = match self.keeper.get(source.clone(), id.clone()).await {
                Ok(answer) => answer,
                Err(why) => return self.unanswered(why),
            };
            if let Some(is_known) = wanted.settles(&answer).await {
                return match answer.text.is_empty() && !is_known {
                    true => {
                        let mut none =
                            problem(StatusCode::NOT_FOUND, "no-event", "No event", "of that source and id").into();
                        tell_set(&mut none, &answer);
                        none
                    }
                    false => told(&answer, NDJSON, is_known),
                };
            }
        }
    }

    /// `POST /delta?from=N&limit=M&bytes=B`: what a peer lacks by its summary, a batch a line; 204 where that is nothing.
    pub async fn delta(&self, request: Request<Body>) -> Answered {
        let asked = match Places::of(&request, &self.settings.limits) {
            Ok(asked) => asked,
            Err(refused) => return refused,
        };
        let given = match self.receive(request.into_body(), SUMMARY).await {
            Ok(given) => given,
            Err(refused) => return refused,
        };
        let Ok(summary) = String::from_utf8(given.bytes.to_vec()) else {
            return no_summary("it isn't UTF-8");
        };
        let summary = summary.trim_end_matches('\n').to_owned();
        match self.keeper.delta(summary, asked.from, asked.events, asked.bytes).await {
            Ok(None) => bare(StatusCode::NO_CONTENT),
            Ok(Some(page)) => {
                let mut answer = plain(StatusCode::OK, NDJSON, page.json);
                set(&mut answer, "site-next", &(page.from + page.events).to_string());
                answer
            }
            Err(
                why
                @ (Error::SummaryNotJson | Error::SummaryShape | Error::SummaryVersion | Error::SummaryNotCanonical),
            ) => no_summary(&why.to_string()),
            Err(why) => self.unanswered(why),
        }
    }

    pub fn unanswered(&self, why: Error) -> Answered {
        match why {
            _ if self.keeper.is_closing() => self.refused(Refusal::Closing),
            _ => {
                let title = "The answer can't be made";
                problem(StatusCode::SERVICE_UNAVAILABLE, "unanswered", title, why.to_string()).into()
            }
        }
    }
}

/// The media type of an answer.
pub fn kind_of(what: What) -> &'static str {
    match what {
        What::Summary | What::Cover => JSON,
        What::Question(_) => NDJSON,
    }
}

/// The source and the id that are asked for.
pub fn key_of(request: &Request<Body>) -> Result<(String, String), Answered> {
    match (text_of(request, "source"), text_of(request, "id")) {
        (Some(source), Some(id)) => Ok((source, id)),
        _ => {
            let detail = "give source and id, percent-encoded";
            Err(problem(StatusCode::BAD_REQUEST, "query", "No source and id", detail).into())
        }
    }
}

/// The answer, or that whoever asks knows the set that it is of.
pub fn told(answer: &Answer, kind: &'static str, is_known: bool) -> Answered {
    let mut told = match is_known {
        true => bare(StatusCode::NOT_MODIFIED),
        false => plain(StatusCode::OK, kind, answer.text.clone()),
    };
    tell_set(&mut told, answer);
    told
}

/// Tells of which set of events something was answered.
fn tell_set(told: &mut Answered, answer: &Answer) {
    set(told, "etag", &format!("\"{}\"", answer.tag));
    set(told, "site-events", &answer.count.to_string());
    set(told, "cache-control", "no-cache");
}

pub fn no_summary(why: &str) -> Answered {
    problem(StatusCode::BAD_REQUEST, "summary", "No summary", why).into()
}

/// Which page of a list is asked for: from which place on, of how many events and about how many bytes at most.
pub struct Places {
    pub from: u64,
    pub events: u64,
    pub bytes: u64,
}

impl Places {
    pub fn of(request: &Request<Body>, limits: &Limits) -> Result<Places, Answered> {
        let most = limits.page_bytes as u64;
        Ok(Places {
            from: number_of(request, "from")?.unwrap_or(0),
            events: limits.page_of(number_of(request, "limit")?),
            bytes: number_of(request, "bytes")?.map_or(most, |it| it.clamp(1, most)),
        })
    }
}

/// What whoever asks wants: a set that it doesn't know, of so many events; and how long it waits for one.
pub struct Wanted {
    known: Vec<String>,
    at_least: u64,
    wait: Wait,
}

impl Wanted {
    /// What a request wants of a set whose count is told so.
    pub fn of(common: &Common, request: &Request<Body>, counted: watch::Receiver<u64>) -> Result<Wanted, Answered> {
        Ok(Wanted {
            at_least: number_of(request, "min")?.unwrap_or(0),
            known: tags_of(request.headers()),
            wait: Wait::of(common, request.headers(), counted),
        })
    }

    /// What comes from now on is a change.
    pub fn mark(&mut self) {
        self.wait.mark();
    }

    /// Whether the set of an answer is known, once the answer is to be told; none where the set has changed since, so that
    /// it is to be asked for again.
    pub async fn settles(&mut self, answer: &Answer) -> Option<bool> {
        let is_known = self.known.iter().any(|it| it == "*" || **it == *answer.tag);
        let waits = is_known || answer.count < self.at_least;
        (!waits || !self.wait.change().await).then_some(is_known)
    }
}

/// A wait for a change of a number, as long as `Prefer: wait=N` says.
pub struct Wait {
    until: Instant,
    changes: watch::Receiver<u64>,
    ends: watch::Receiver<bool>,
    /// A place among the answers that are held back; without one there is no wait.
    place: Option<tokio::sync::OwnedSemaphorePermit>,
}

impl Wait {
    pub fn of(service: &Common, headers: &HeaderMap, changes: watch::Receiver<u64>) -> Wait {
        let seconds = wait_of(headers);
        Wait {
            until: Instant::now() + Duration::from_secs(seconds),
            changes,
            ends: service.ends.clone(),
            place: (seconds > 0).then(|| service.held.clone().try_acquire_owned().ok()).flatten(),
        }
    }

    /// What comes from now on is a change.
    pub fn mark(&mut self) {
        self.changes.borrow_and_update();
    }

    /// Whether something changed before the time was over, or the service ends.
    pub async fn change(&mut self) -> bool {
        if self.place.is_none() || *self.ends.borrow() {
            return false;
        }
        let is_changed = tokio::select! {
            changed = tokio::time::timeout_at(self.until, self.changes.changed()) => matches!(changed, Ok(Ok(()))),
            _ = self.ends.changed() => false,
        };
        if is_changed {
            tokio::time::sleep(LOOK).await;
        }
        is_changed
    }
}

/// The seconds of `Prefer: wait=N`.
pub fn wait_of(headers: &HeaderMap) -> u64 {
    let all = headers.get_all("prefer").iter().filter_map(|it| it.to_str().ok());
    let each = all.flat_map(|it| it.split([',', ';']));
    let wait = each.filter_map(|it| it.trim().strip_prefix("wait=")?.parse::<u64>().ok()).next();
    wait.unwrap_or(0).min(WAIT)
}

/// The tags of `If-None-Match`.
pub fn tags_of(headers: &HeaderMap) -> Vec<String> {
    let all = headers.get_all(IF_NONE_MATCH).iter().filter_map(|it| it.to_str().ok());
    let each = all.flat_map(|it| it.split(','));
    each.map(|it| it.trim().trim_start_matches("W/").trim_matches('"').to_owned()).collect()
}

/// The text of a query's part, percent-decoded.
pub fn text_of(request: &Request<Body>, name: &str) -> Option<String> {
    let parts = request.uri().query()?.split('&');
    let value = parts.filter_map(|it| it.strip_prefix(name)?.strip_prefix('=')).next()?;
    percent_decode_str(&value.replace('+', " ")).decode_utf8().ok().map(|it| it.into_owned())
}

/// The number of a query's part; a part that is there has to be one.
pub fn number_of(request: &Request<Body>, name: &str) -> Result<Option<u64>, Answered> {
    let Some(text) = text_of(request, name) else {
        return Ok(None);
    };
    let refused = |_| problem(StatusCode::BAD_REQUEST, "query", "No number", format!("{name}={text}")).into();
    text.parse().map(Some).map_err(refused)
}

#[cfg(test)]
mod tests {
    use super::*;

    fn request(query: &str, headers: &[(&'static str, &str)]) -> Request<Body> {
        let mut made = Request::get(format!("/kinds?{query}"));
        for (name, value) in headers {
            made = made.header(*name, *value);
        }
        made.body(Body::empty()).unwrap()
    }

    #[test]
    fn queries_are_read() {
        let it = request("min=7&source=%2Fa+b%C3%A9&id=&from=x&min=8", &[]);
        assert_eq!((number_of(&it, "min").unwrap(), number_of(&it, "mi").unwrap()), (Some(7), None));
        assert_eq!(number_of(&it, "from").unwrap_err().status(), StatusCode::BAD_REQUEST);
        assert_eq!((text_of(&it, "source").as_deref(), text_of(&it, "id").as_deref()), (Some("/a bé"), Some("")));
        assert_eq!(text_of(&request("source=%FF", &[]), "source"), None);
    }

    #[test]
    fn headers_are_read() {
        let it = request("", &[("if-none-match", "\"a\", W/\"b\""), ("if-none-match", "c"), ("prefer", "x, wait=9")]);
        assert_eq!(tags_of(it.headers()), ["a", "b", "c"]);
        assert_eq!(wait_of(it.headers()), 9);
        assert_eq!(wait_of(request("", &[("prefer", "respond-async; wait=99999")]).headers()), WAIT);
        assert_eq!(wait_of(request("", &[("prefer", "wait=-1")]).headers()), 0);
    }
}
