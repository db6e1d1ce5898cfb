//! Questions about the whole region: each is put to all parts side by side, and their answers make one.

use super::join::{joined, told, Fault, Joined, OfPart};
use super::parts::{all_of, each, number_of, tag_of, Asked, Away, Budget, Part};
use super::Front;
use crate::library::{part_of, Error, Lag, Question, Site};
use crate::problems::{problem, set, Answered};
use crate::questions::{self, key_of, kind_of, text_of, wait_of, Wanted};
use crate::reader::{name_of, Answer, What, ALL};
use hyper::header::{HeaderName, ACCEPT, IF_NONE_MATCH};
use hyper::{Body, Method, Request, Response, StatusCode};
use percent_encoding::{utf8_percent_encode, NON_ALPHANUMERIC};
use serde_json::json;
use std::sync::Arc;
use std::time::Instant;
use tokio::sync::Mutex;

/// The last answer to each question, and when it was asked for.
#[derive(Default)]
pub struct Cache([Mutex<Option<Cached>>; ALL.len()]);

struct Cached {
    began: Instant,
    done: Result<Arc<Joined>, Fault>,
}

impl Front {
    /// `GET /NAME`, as a site answers it that has all events of the parts.
    pub async fn ask(&self, request: &Request<Body>, what: What) -> Answered {
        let mut wanted = match Wanted::of(self, request, self.counted()) {
            Ok(wanted) => wanted,
            Err(refused) => return refused,
        };
        loop {
            wanted.mark();
            let answer = match self.answer(what).await {
                Ok(answer) => answer,
                Err(why) => return self.unanswered(why),
            };
            if let Some(is_known) = wanted.settles(&answer).await {
                return questions::told(&answer, kind_of(what), is_known);
            }
        }
    }

    /// The answer to a question, of sets that have all that was acknowledged before it was asked. What is asked meanwhile is
    /// asked once for all.
    pub async fn answer(&self, what: What) -> Result<Arc<Answer>, Fault> {
        let came = Instant::now();
        let place = ALL.iter().position(|it| it.1 == what).unwrap_or(0);
        let mut cached = self.cache.0[place].lock().await;
        let done = match cached.as_ref() {
            Some(had) if had.began > came => had.done.clone(),
            had => {
                let had = had.and_then(|it| it.done.as_ref().ok()).cloned();
                let began = Instant::now();
                let done = self.fresh(what, had).await;
                *cached = Some(Cached { began, done: done.clone() });
                done
            }
        };
        done.map(|it| it.answer.clone())
    }

    /// The answer of before where all parts have the sets that it is of; else that of what they answer now.
    async fn fresh(&self, what: What, had: Option<Arc<Joined>>) -> Result<Arc<Joined>, Fault> {
        let parts = self.parts();
        if let Some(had) = had {
            if self.are_still(&parts, &had.tags).await? {
                return Ok(had);
            }
        }
        let budget = Budget::new(self.settings.limits.answer_bytes);
        let ask = |part| answer_of(part, what, budget.clone());
        let said = all_of(each(&parts, ask).await).map_err(Fault::Away)?;
        let said: Vec<OfPart> = said.into_iter().collect::<Option<_>>().ok_or(Fault::Large)?;
        let joining = tokio::task::spawn_blocking(move || joined(what, &said)).await;
        joining.unwrap_or(Err(Fault::Uncombined(Error::OutOfMemory))).map(Arc::new)
    }

    /// Whether all parts have the sets of these names.
    async fn are_still(&self, parts: &[Arc<Part>], tags: &[String]) -> Result<bool, Fault> {
        // Where another one was seen meanwhile there is nothing to ask.
        if self.table.all().iter().zip(tags).any(|(seen, tag)| seen.tag != *tag) {
            return Ok(false);
        }
        let tags: Arc<[String]> = tags.into();
        let ask = |part: Arc<Part>| {
            let tags = tags.clone();
            async move {
                let tag = tags.get(part.index).map_or("", String::as_str);
                let asked = Asked { method: Method::HEAD, ..Asked::get("/cover").unless(tag) };
                part.ask(&asked).await.map(|it| it.status() == StatusCode::NOT_MODIFIED)
            }
        };
        let said = all_of(each(parts, ask).await).map_err(Fault::Away)?;
        Ok(said.into_iter().all(|it| it))
    }

    /// How the numbers of the whole stand beside those of a peer's cover.
    pub async fn compare(&self, peer: &str) -> Result<Lag, String> {
        // The library says whether it is one.
        Site::new().and_then(|mut it| it.compare(peer)).map_err(|it| it.to_string())?;
        let own = self.answer(What::Cover).await.map_err(|it| it.to_string())?;
        let own = String::from_utf8_lossy(&own.text);
        super::join::lag_of(&own, peer).ok_or_else(|| "the covers can't be compared".to_owned())
    }

    /// `GET /get?source=S&id=I`: what the part of the source answers, with the name of its own set.
    pub async fn get(&self, request: &Request<Body>) -> Answered {
        let (source, id) = match key_of(request) {
            Ok(key) => key,
            Err(refused) => return refused,
        };
        let parts = self.parts();
        let Some(part) = part_of(&source, parts.len() as u64).ok().and_then(|it| parts.get(it as usize)) else {
            return self.unanswered(Fault::Uncombined(Error::BadParts));
        };
        let encoded = |it: &str| utf8_percent_encode(it, NON_ALPHANUMERIC).to_string();
        let path = format!("/get?source={}&id={}", encoded(&source), encoded(&id));
        self.pass(part, path, request).await
    }

    /// `GET /arrivals?part=I&after=N`: what that part answers, since each has an order of its own.
    pub async fn arrivals(&self, request: &Request<Body>) -> Answered {
        let parts = self.parts();
        let index = text_of(request, "part").and_then(|it| it.parse::<usize>().ok());
        let Some(part) = index.and_then(|it| parts.get(it)) else {
            let detail = format!("each part has an order of its own: give part, from 0 to {}", parts.len() - 1);
            return problem(StatusCode::BAD_REQUEST, "query", "No part", detail).into();
        };
        let query: Vec<&str> = request.uri().query().unwrap_or("").split('&').collect();
        let query: Vec<&str> = query.into_iter().filter(|it| !it.starts_with("part=")).collect();
        self.pass(part, format!("/arrivals?{}", query.join("&")), request).await
    }

    /// What a part answers, as it comes.
    async fn pass(&self, part: &Part, path: String, request: &Request<Body>) -> Answered {
        let mut asked = Asked::get(path);
        for name in [ACCEPT, IF_NONE_MATCH, HeaderName::from_static("last-event-id")] {
            if let Some(value) = request.headers().get(&name).and_then(|it| it.to_str().ok()) {
                asked = asked.with(name, value);
            }
        }
        let wait = wait_of(request.headers());
        if wait > 0 {
            asked = asked.waiting(wait);
        }
        match part.ask(&asked).await {
            Ok(answer) => passed(answer),
            Err(away) => self.away(&[away]),
        }
    }

    pub fn unanswered(&self, why: Fault) -> Answered {
        let detail = why.to_string();
        match why {
            Fault::Away(away) => self.away(&away),
            Fault::Overlap(source) => {
                let title = "A source stands in two parts";
                problem(StatusCode::BAD_GATEWAY, "overlap", title, detail).with(json!({ "source": source }))
            }
            Fault::Uncombined(Error::Overlap) => {
                problem(StatusCode::BAD_GATEWAY, "overlap", "A source stands in two parts", detail).into()
            }
            Fault::Large => {
                let title = "The answer is too large to be made here";
                let detail = "ask the parts, or raise limits.answer_bytes";
                problem(StatusCode::INSUFFICIENT_STORAGE, "too-large-answer", title, detail).into()
            }
            Fault::Uncombined(_) | Fault::NoSummary => {
                problem(StatusCode::BAD_GATEWAY, "uncombined", "The parts' answers make none", detail).into()
            }
        }
    }

    /// The problem of parts that are away.
    pub fn away(&self, away: &[Away]) -> Answered {
        let parts: Vec<_> = away.iter().map(|it| json!({"part": it.index, "why": it.why})).collect();
        problem(StatusCode::SERVICE_UNAVAILABLE, "part-away", "A part of the region is away", told(away))
            .with(json!({ "parts": parts }))
    }
}

/// What a part answers to a question, with its summary; none where that is more than may still come.
async fn answer_of(part: Arc<Part>, what: What, budget: Arc<Budget>) -> Result<Option<OfPart>, Away> {
    let path = match what {
        What::Summary | What::Cover | What::Question(Question::Cover) => "/summary".to_owned(),
        What::Question(_) => format!("/{}?with=summary", name_of(what)),
    };
    let answer = part.ask(&Asked::get(path)).await?;
    if answer.status() != StatusCode::OK {
        let why = format!("it answers {}", answer.status());
        return Err(Away { status: Some(answer.status()), ..part.away(why) });
    }
    part.note(answer.headers());
    let (tag, count) = (tag_of(answer.headers()), number_of(answer.headers(), "site-events").unwrap_or(0));
    let Some(body) = part.read(answer, &budget).await? else {
        return Ok(None);
    };
    // The line of the summary, and the answer behind it; neither is copied.
    let end = body.iter().position(|it| *it == b'\n').map_or(body.len(), |it| it + 1);
    Ok(Some(OfPart { summary: body.slice(..end), answer: body.slice(end..), count, tag }))
}

/// An answer of a part, with those of its headers that say something of what is in it.
fn passed(answer: Response<Body>) -> Answered {
    let names = ["content-type", "etag", "site-events", "site-next", "cache-control", "retry-after"];
    let (head, body) = answer.into_parts();
    let mut passed = Response::new(body);
    *passed.status_mut() = head.status;
    for name in names {
        if let Some(value) = head.headers.get(name).and_then(|it| it.to_str().ok()) {
            set(&mut passed, name, value);
        }
    }
    passed
}
