//! `GET /arrivals?after=N`: the events in the order in which they came to this site, for whoever reads each once. The
//! event behind N others has the number N + 1 for ever.

use crate::library::{Error, Page};
use crate::problems::{bare, plain, problem, set, Answered, NDJSON};
use crate::questions::{number_of, Wait};
use crate::routes::Service;
use hyper::body::{Body, Bytes, Sender};
use hyper::header::{HeaderMap, ACCEPT};
use hyper::{Request, StatusCode};
use serde_json::value::RawValue;
use std::sync::Arc;
use std::time::Duration;
use tokio::sync::{watch, OwnedSemaphorePermit};

const STREAM: &str = "text/event-stream";

impl Service {
    /// The events behind the first N, an event a line, and in `Site-Next` the N of the next request; 204 where there are
    /// none, which `Prefer: wait=N` holds back. With `Accept: text/event-stream` they come as they are kept.
    pub async fn arrivals(self: &Arc<Self>, request: &Request<Body>) -> Answered {
        let (after, most) = match (number_of(request, "after"), number_of(request, "limit")) {
            (Ok(after), Ok(most)) => (after.unwrap_or(0), self.settings.limits.page_of(most)),
            (Err(refused), _) | (_, Err(refused)) => return refused,
        };
        if accepts_stream(request.headers()) {
            return self.stream(last_seen(request.headers()).unwrap_or(after)).await;
        }
        let mut wait = Wait::of(self, request.headers(), self.keeper.counted.clone());
        loop {
            wait.mark();
            let (lines, next) = match self.lines(after, most).await {
                Ok(found) => found,
                Err(refused) => return refused,
            };
            if next > after || !wait.change().await {
                let mut answer = match lines.is_empty() {
                    true => bare(StatusCode::NO_CONTENT),
                    false => plain(StatusCode::OK, NDJSON, lines),
                };
                set(&mut answer, "site-next", &next.to_string());
                set(&mut answer, "cache-control", "no-store");
                return answer;
            }
        }
    }

    /// The lines of the events behind a mark, at most so many, and the mark behind them.
    async fn lines(&self, after: u64, most: u64) -> Result<(Vec<u8>, u64), Answered> {
        let (mut lines, mut next) = (Vec::new(), after);
        while next - after < most && lines.len() < self.settings.limits.page_bytes {
            let Some(page) = self.page(next).await? else {
                break;
            };
            for event in events_of(&page).map_err(|why| self.unanswered(why))? {
                if next - after < most {
                    lines.extend_from_slice(event.get().as_bytes());
                    lines.push(b'\n');
                    next += 1;
                }
            }
        }
        Ok((lines, next))
    }

    /// The page behind a mark, or none at the end. A mark that is behind the end is none of this database.
    async fn page(&self, after: u64) -> Result<Option<Arc<Page>>, Answered> {
        match self.keeper.arrivals(after).await {
            Ok(None) if after > self.keeper.count() => {
                let title = "No event has come with that number";
                let detail = format!("{} have come: was an older database put in place?", self.keeper.count());
                Err(problem(StatusCode::CONFLICT, "beyond", title, detail).into())
            }
            Ok(page) => Ok(page),
            Err(why) => Err(self.unanswered(why)),
        }
    }

    async fn stream(self: &Arc<Self>, after: u64) -> Answered {
        let Ok(place) = self.held.clone().try_acquire_owned() else {
            let title = "Too many streams are open";
            return problem(StatusCode::SERVICE_UNAVAILABLE, "streams", title, "ask again later").into();
        };
        // What can be refused is refused before the stream begins.
        if let Err(refused) = self.page(after).await {
            return refused;
        }
        let (sender, body) = Body::channel();
        let feed = Feed {
            service: self.clone(),
            changes: self.keeper.counted.clone(),
            ends: self.ends.clone(),
            sender,
            next: after,
            _place: place,
        };
        tokio::spawn(feed.run());
        let mut answer = plain(StatusCode::OK, STREAM, body);
        set(&mut answer, "cache-control", "no-store");
        answer
    }
}

/// A stream that goes on until its reader goes, or the service ends.
struct Feed {
    service: Arc<Service>,
    changes: watch::Receiver<u64>,
    ends: watch::Receiver<bool>,
    sender: Sender,
    next: u64,
    _place: OwnedSemaphorePermit,
}

impl Feed {
    async fn run(mut self) {
        // A sign of life keeps the connection from being taken for an idle one.
        let life = Duration::from_secs(self.service.settings.limits.idle_seconds) / 3;
        while !*self.ends.borrow() {
            self.changes.borrow_and_update();
            let sent = match self.service.page(self.next).await {
                Ok(Some(page)) => match messages_of(&page, &mut self.next) {
                    Ok(text) => self.sender.send_data(text).await,
                    Err(_) => return,
                },
                Ok(None) => tokio::select! {
                    changed = self.changes.changed() => match changed {
                        Ok(()) => continue,
                        Err(_) => return,
                    },
                    _ = self.ends.changed() => return,
                    _ = tokio::time::sleep(life) => self.sender.send_data(Bytes::from_static(b":\n\n")).await,
                },
                Err(_) => return,
            };
            if sent.is_err() {
                return;
            }
        }
    }
}

/// The messages of a page, each with its number as its id.
fn messages_of(page: &Page, next: &mut u64) -> Result<Bytes, Error> {
    let mut text = String::with_capacity(page.json.len() + 32 * page.events as usize);
    for event in events_of(page)? {
        *next += 1;
        text.push_str(&format!("id: {next}\ndata: {}\n\n", event.get()));
    }
    Ok(text.into())
}

/// The events of a page, each the very text that stands in it.
pub fn events_of(page: &Page) -> Result<Vec<&RawValue>, Error> {
    serde_json::from_str(&page.json).map_err(|_| Error::OutOfMemory)
}

/// The events of a body, an object or an array of them, each the very text that stands in it; none where it isn't JSON.
pub fn raw_events(bytes: &[u8]) -> Option<Vec<&RawValue>> {
    let is_array = bytes.iter().find(|it| !it.is_ascii_whitespace()) == Some(&b'[');
    match is_array {
        true => serde_json::from_slice(bytes).ok(),
        false => serde_json::from_slice(bytes).ok().map(|it| vec![it]),
    }
}

fn accepts_stream(headers: &HeaderMap) -> bool {
    let all = headers.get_all(ACCEPT).iter().filter_map(|it| it.to_str().ok());
    let mut each = all.flat_map(|it| it.split([',', ';']));
    each.any(|it| it.trim().eq_ignore_ascii_case(STREAM))
}

/// The mark of a reader that lost its stream and comes again.
fn last_seen(headers: &HeaderMap) -> Option<u64> {
    headers.get("last-event-id")?.to_str().ok()?.trim().parse().ok()
}

#[cfg(test)]
mod tests {
    use super::*;

    #[test]
    fn pages_are_taken_apart_as_they_stand() {
        let page = Page { from: 4, events: 2, json: "[{\"a\":9007199254740993,\"b\":\"],[\"},{\"a\":2}]\n".into() };
        let events: Vec<&str> = events_of(&page).unwrap().iter().map(|it| it.get()).collect();
        assert_eq!(events, ["{\"a\":9007199254740993,\"b\":\"],[\"}", "{\"a\":2}"]);
        let mut next = 4;
        let text = messages_of(&page, &mut next).unwrap();
        assert_eq!(text, "id: 5\ndata: {\"a\":9007199254740993,\"b\":\"],[\"}\n\nid: 6\ndata: {\"a\":2}\n\n");
        assert_eq!(next, 6);
    }

    #[test]
    fn headers_ask_for_a_stream() {
        let mut headers = HeaderMap::new();
        assert!(!accepts_stream(&headers));
        headers.insert(ACCEPT, "application/json, Text/Event-Stream;q=1".parse().unwrap());
        headers.insert("last-event-id", "17".parse().unwrap());
        assert!(accepts_stream(&headers));
        assert_eq!(last_seen(&headers), Some(17));
    }
}
