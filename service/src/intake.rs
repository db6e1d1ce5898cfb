//! Events that come: bodies within their limits, `POST /events` and `/check`, and the handshake of webhooks.

use crate::access::Sources;
use crate::events::{self, Mode, Unread, ACCEPTED};
use crate::keeper::{Body as Given, Kept, Refusal};
use crate::library::{self, on_thread, Error};
use crate::number::{Numberer, Plan, Planned};
use crate::part::Part;
use crate::peers::now;
use crate::problems::{bare, plain, problem, set, Answered, JSON};
use crate::routes::{Common, Service};
use hyper::body::{Body, Bytes, HttpBody};
use hyper::{Request, StatusCode};
use serde_json::{json, Value};
use std::collections::BTreeMap;
use std::sync::Arc;
use std::time::{Duration, Instant};

impl Service {
    /// `POST /events`: takes all events of the request, or none, and answers once they are synced. All have to be of the
    /// sources of which whoever asks may give some.
    pub async fn take(&self, request: Request<Body>, sources: Sources) -> Answered {
        let start = Instant::now();
        let (mode, given) = match self.read(request).await {
            Ok(read) => read,
            Err(refused) => return refused,
        };
        let bytes = given.bytes.clone();
        if sources != Sources::Any {
            match on_thread(bytes.clone(), library::sources_of).await {
                Ok(found) => {
                    if let Err(refused) = self.of_sources(&found, &sources) {
                        return refused;
                    }
                }
                Err(Error::NoEvents | Error::NoNumber) => return self.number(mode, given, &sources, start).await,
                Err(why) => return self.refused(Refusal::Store(why)),
            }
        }
        let (room, bytes) = (given.room, bytes);
        match self.keeper.take(Given { bytes: bytes.clone(), room }).await {
            Ok(kept) => self.taken(kept, start.elapsed(), 0),
            Err(Refusal::Misdirected) => self.misdirected(bytes).await,
            Err(Refusal::Faulty) if self.settings.number.is_empty() => self.faulty(mode, bytes, BTreeMap::new()).await,
            Err(Refusal::Faulty) => match self.room.bytes(bytes.len()).await {
                Ok(room) => self.number(mode, Given { bytes, room }, &sources, start).await,
                Err(why) => self.refused(why),
            },
            Err(why) => self.refused(why),
        }
    }

    /// Takes events of which some have no number, where the settings number them; else refuses them.
    async fn number(&self, mode: Mode, given: Given, sources: &Sources, start: Instant) -> Answered {
        let Given { bytes, room } = given;
        let numbers = self.settings.number.clone();
        let planning = move |bytes: &[u8]| Plan::of(bytes, &library::faults(bytes)?, &numbers);
        let plan = match self.settings.number.is_empty() {
            true => Ok(Planned::Refuse(BTreeMap::new())),
            false => on_thread(bytes.clone(), planning).await,
        };
        let plan = match plan {
            Ok(Planned::Number(plan)) => plan,
            Ok(Planned::Refuse(homes)) => return self.faulty(mode, bytes, homes).await,
            Err(Error::NoEvents | Error::NoNumber) => return self.faulty(mode, bytes, BTreeMap::new()).await,
            Err(why) => return self.refused(Refusal::Store(why)),
        };
        if let Err(refused) = self.of_sources(&plan.sources, sources) {
            return refused;
        }
        // What isn't taken gets no number.
        if let Some(part) = self.settings.part {
            match part.misdirected(&plan.sources) {
                Ok(None) => {}
                Ok(Some((source, other))) => return self.of_another_part(part, &source, other),
                Err(why) => return self.refused(Refusal::Store(why)),
            }
        }
        let numbered = plan.count();
        let text = match self.numberer() {
            _ if numbered == 0 => Ok("[]".to_owned()),
            Some(numberer) => numberer.number(plan.to_number()).await,
            None => Err(Error::Busy),
        };
        let whole = match text {
            Ok(text) => plan.with(&text),
            Err(Error::TooLarge) => return self.faulty_as("TooLarge", "with its number it has more than 256 KiB"),
            Err(why) => return self.refused(Refusal::Store(why)),
        };
        let Some(bytes) = whole else {
            return self.refused(Refusal::Store(Error::NotUtf8));
        };
        match self.keeper.take(Given { bytes: bytes.clone(), room }).await {
            Ok(kept) => self.taken(kept, start.elapsed(), numbered),
            Err(Refusal::Faulty) => self.faulty(mode, bytes, BTreeMap::new()).await,
            Err(why) => self.refused(why),
        }
    }

    fn numberer(&self) -> Option<Arc<Numberer>> {
        self.numberer.read().unwrap().clone()
    }

    /// The problem of a body with events of another part of the region.
    async fn misdirected(&self, bytes: Bytes) -> Answered {
        let Some(part) = self.settings.part else {
            return self.refused(Refusal::Misdirected);
        };
        let find = move |bytes: &[u8]| part.misdirected(&library::sources_of(bytes)?);
        match on_thread(bytes, find).await {
            Ok(Some((source, other))) => self.of_another_part(part, &source, other),
            Ok(None) => self.refused(Refusal::Misdirected),
            Err(why) => self.refused(Refusal::Store(why)),
        }
    }

    fn of_another_part(&self, part: Part, source: &str, other: u64) -> Answered {
        self.refuse("misdirected");
        let detail = format!("nothing was taken: this is part {part}");
        problem(StatusCode::MISDIRECTED_REQUEST, "misdirected", "Events of another part", detail)
            .with(json!({"source": source, "part": {"index": other, "of": part.of}}))
    }
}

impl Common {
    pub fn of_sources(&self, found: &[String], sources: &Sources) -> Result<(), Answered> {
        match found.iter().find(|it| !sources.has(it)) {
            Some(other) => Err(self.of_another(other)),
            None => Ok(()),
        }
    }

    fn faulty_as(&self, fault: &str, why: &str) -> Answered {
        self.refuse("events-at-fault");
        let errors = json!([{"fault": fault, "detail": why, "pointer": "#"}]);
        problem(StatusCode::BAD_REQUEST, "events-at-fault", "Events at fault", why)
            .with(json!({"faults": 1, "errors": errors}))
    }

    fn of_another(&self, source: &str) -> Answered {
        self.refuse("source");
        let detail = "nothing was taken: the token's sources are others";
        problem(StatusCode::FORBIDDEN, "source", "The token may not give events of that source", detail)
            .with(json!({ "source": source }))
    }

    pub fn taken(&self, kept: Kept, time: Duration, numbered: usize) -> Answered {
        let Kept { fresh, repeated, count } = kept;
        self.metrics.recent.taken(now(), fresh, time);
        self.metrics.taken.with_label_values(&["new", "http"]).inc_by(fresh);
        self.metrics.taken.with_label_values(&["repeated", "http"]).inc_by(repeated);
        let mut body = json!({"events": fresh + repeated, "new": fresh, "repeated": repeated});
        if numbered > 0 {
            body["numbered"] = numbered.into();
        }
        let mut answer = plain(StatusCode::OK, JSON, format!("{body}\n"));
        set(&mut answer, "site-events", &count.to_string());
        answer
    }

    /// `POST /check`: what `POST /events` would say of the events themselves; nothing is taken.
    pub async fn check(&self, request: Request<Body>) -> Answered {
        let (mode, given) = match self.read(request).await {
            Ok(read) => read,
            Err(refused) => return refused,
        };
        let bytes = given.bytes.clone();
        match on_thread(bytes.clone(), library::test).await {
            Ok(events) => plain(StatusCode::OK, JSON, format!("{}\n", json!({"events": events, "faults": 0}))),
            Err(Error::NoEvents | Error::NoNumber) => self.faulty(mode, bytes, BTreeMap::new()).await,
            Err(why) => self.refused(Refusal::Store(why)),
        }
    }

    /// The events of a request, as the library takes them.
    pub async fn read(&self, request: Request<Body>) -> Result<(Mode, Given), Answered> {
        let mode = events::mode_of(request.headers()).map_err(|why| self.unread(why))?;
        let headers = (mode == Mode::Binary).then(|| request.headers().clone());
        let mut given = self.receive(request.into_body(), self.settings.limits.body_bytes).await?;
        if let Some(headers) = headers {
            given.bytes = events::of_binary(&headers, &given.bytes).map_err(|why| self.unread(why))?.into();
        }
        if !events::fits(mode, &given.bytes) {
            let detail = "by its content type the body is another: an event is an object, a batch is an array";
            return Err(problem(StatusCode::BAD_REQUEST, "mode", "No events of that mode", detail).into());
        }
        Ok((mode, given))
    }

    /// A body of at most so many bytes, in its time, as there is room.
    pub async fn receive(&self, body: Body, most: usize) -> Result<Given, Answered> {
        let limits = &self.settings.limits;
        let received = tokio::time::timeout(Duration::from_secs(limits.body_seconds), self.collect(body, most));
        let why = match received.await {
            Ok(Ok(given)) => return Ok(given),
            Ok(Err(why)) => why,
            Err(_) => Unreceived::Slow,
        };
        let mut answer = match why {
            Unreceived::Large => problem(
                StatusCode::PAYLOAD_TOO_LARGE,
                "too-large",
                "The body is too large",
                format!("at most {most} bytes: send smaller batches"),
            )
            .with(json!({"limit": most})),
            Unreceived::Slow => problem(
                StatusCode::REQUEST_TIMEOUT,
                "too-slow",
                "The body didn't come in time",
                format!("within {} seconds", limits.body_seconds),
            )
            .into(),
            Unreceived::Broken => {
                problem(StatusCode::BAD_REQUEST, "broken", "The body broke off", "send it again").into()
            }
            Unreceived::NoRoom(why) => self.refused(why),
        };
        // What is left of the body isn't read.
        set(&mut answer, "connection", "close");
        Err(answer)
    }

    async fn collect(&self, mut body: Body, most: usize) -> Result<Given, Unreceived> {
        if body.size_hint().lower() > most as u64 {
            return Err(Unreceived::Large);
        }
        let (mut bytes, mut rest) = (Bytes::new(), Vec::new());
        let mut room = self.room.bytes(0).await.map_err(Unreceived::NoRoom)?;
        let mut has_room = 1 << 10;
        while let Some(data) = body.data().await {
            let data = data.map_err(|_| Unreceived::Broken)?;
            let length = bytes.len() + rest.len() + data.len();
            if length > most {
                return Err(Unreceived::Large);
            }
            if length > has_room {
                room.merge(self.room.bytes(length - has_room).await.map_err(Unreceived::NoRoom)?);
                has_room = length;
            }
            // Most bodies are one piece, which isn't copied.
            match bytes.is_empty() && rest.is_empty() {
                true => bytes = data,
                false => {
                    if rest.is_empty() {
                        rest.extend_from_slice(&std::mem::take(&mut bytes));
                    }
                    rest.extend_from_slice(&data);
                }
            }
        }
        let bytes = if rest.is_empty() { bytes } else { rest.into() };
        Ok(Given { bytes, room })
    }

    fn unread(&self, why: Unread) -> Answered {
        self.refuse("unread");
        match why {
            Unread::Malformed(detail) => problem(StatusCode::BAD_REQUEST, "malformed", "No event", detail).into(),
            Unread::Media(detail) => {
                let title = "No events by the media type";
                let mut answer = problem(StatusCode::UNSUPPORTED_MEDIA_TYPE, "media-type", title, detail).into();
                set(&mut answer, "accept-post", ACCEPTED);
                answer
            }
        }
    }

    pub fn refused(&self, why: Refusal) -> Answered {
        let (status, name, title, detail) = match why {
            Refusal::Full => {
                let detail = "nothing was taken: send it again later".to_owned();
                (StatusCode::TOO_MANY_REQUESTS, "full", "Too much waits to be kept", detail)
            }
            Refusal::Closing => {
                let detail = "nothing was taken: send it again".to_owned();
                (StatusCode::SERVICE_UNAVAILABLE, "closing", "The service ends", detail)
            }
            Refusal::Faulty => (StatusCode::BAD_REQUEST, "events-at-fault", "Events at fault", String::new()),
            Refusal::Misdirected => {
                (StatusCode::MISDIRECTED_REQUEST, "misdirected", "Events of another part", String::new())
            }
            Refusal::Store(why) => {
                let detail = format!("nothing was taken: {why}");
                (StatusCode::SERVICE_UNAVAILABLE, "store", "The database refused", detail)
            }
            Refusal::Unknown => {
                let detail = "send them again: each is kept once".to_owned();
                (StatusCode::SERVICE_UNAVAILABLE, "unknown", "It isn't known whether the events are kept", detail)
            }
        };
        self.refuse(name);
        problem(status, name, title, detail).into()
    }

    pub fn refuse(&self, reason: &str) {
        self.metrics.refused.with_label_values(&[reason]).inc();
        self.metrics.recent.refused(now());
    }

    /// The problem of a body at fault, with an entry for each event at fault, in the words of `site check`, and the homes of
    /// sources that are numbered elsewhere.
    pub async fn faulty(&self, mode: Mode, bytes: Bytes, homes: BTreeMap<String, String>) -> Answered {
        let lines = match on_thread(bytes, library::faults).await {
            Ok(lines) => lines,
            Err(why) => return self.refused(Refusal::Store(why)),
        };
        self.refuse("events-at-fault");
        self.metrics.count_faults(&lines, "http");
        let entries: Vec<Value> = lines.lines().filter_map(|it| serde_json::from_str(it).ok()).collect();
        let faults = entries.len();
        let detail = match entries.first() {
            Some(it) if it.get("index").is_none() => it["hint"].as_str().unwrap_or_default().to_owned(),
            _ => format!("events that can't be taken: {faults}; so none of the body was"),
        };
        let entries = entries.into_iter().take(self.settings.limits.faults);
        let errors: Vec<Value> = entries.map(|it| entry_of(mode, it)).collect();
        problem(StatusCode::BAD_REQUEST, "events-at-fault", "Events at fault", detail).with(match homes.is_empty() {
            true => json!({"faults": faults, "errors": errors}),
            false => json!({"faults": faults, "errors": errors, "homes": homes}),
        })
    }

    /// `OPTIONS /events`: what is taken, and the protection of CloudEvents' webhooks against abuse.
    pub fn handshake(&self, request: &Request<Body>) -> Answered {
        let live = self.live();
        let header = |name| request.headers().get(name).and_then(|it| it.to_str().ok());
        let mut answer = bare(StatusCode::OK);
        set(&mut answer, "allow", "POST, OPTIONS");
        set(&mut answer, "accept-post", ACCEPTED);
        let Some(origin) = header("webhook-request-origin") else {
            return answer;
        };
        if !live.webhook_origins.iter().any(|it| it == "*" || it.eq_ignore_ascii_case(origin)) {
            let detail = "the settings name the origins whose events are";
            return problem(StatusCode::FORBIDDEN, "origin", "Events of that origin aren't wanted", detail).into();
        }
        set(&mut answer, "webhook-allowed-origin", origin);
        let asked = header("webhook-request-rate").and_then(|it| it.trim().parse().ok());
        let rate = match live.webhook_rate {
            0 => "*".to_owned(),
            most => most.min(asked.unwrap_or(most)).to_string(),
        };
        set(&mut answer, "webhook-allowed-rate", &rate);
        answer
    }
}

/// Why there is no body.
enum Unreceived {
    Large,
    Slow,
    Broken,
    NoRoom(Refusal),
}

/// A line of `site check` as an entry of a problem: where it is as a pointer (RFC 6901), and its hint as the detail.
fn entry_of(mode: Mode, mut line: Value) -> Value {
    let Value::Object(entry) = &mut line else {
        return line;
    };
    entry.remove("file");
    let mut pointer = match (mode, entry.get("index").and_then(Value::as_u64)) {
        (Mode::Batched, Some(index)) => format!("#/{index}"),
        _ => "#".to_owned(),
    };
    if let Some(Value::String(within)) = entry.remove("pointer") {
        pointer.push_str(&within);
    } else if let Some(name) = entry.get("attribute").and_then(Value::as_str) {
        pointer.push('/');
        pointer.push_str(&name.replace('~', "~0").replace('/', "~1"));
    }
    entry.insert("pointer".into(), Value::String(pointer));
    if let Some(hint) = entry.remove("hint") {
        entry.insert("detail".into(), hint);
    }
    line
}

#[cfg(test)]
mod tests {
    use super::*;

    #[test]
    fn entries_point_to_what_is_at_fault() {
        let line = json!({"file": "-", "index": 2, "fault": "F", "attribute": "a/b~c", "hint": "h"});
        let batched = entry_of(Mode::Batched, line.clone());
        let want = json!({"index": 2, "fault": "F", "attribute": "a/b~c", "pointer": "#/2/a~1b~0c", "detail": "h"});
        assert_eq!(batched, want);
        assert_eq!(entry_of(Mode::Structured, line)["pointer"], "#/a~1b~0c");
        let line =
            json!({"file": "-", "index": 1, "fault": "DataNumber", "attribute": "data", "pointer": "/data/a~1b/0"});
        assert_eq!(entry_of(Mode::Batched, line)["pointer"], "#/1/data/a~1b/0");
        assert_eq!(entry_of(Mode::Batched, json!({"fault": "not JSON"}))["pointer"], "#");
    }
}
