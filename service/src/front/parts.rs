//! The parts as a front sees them: which answers, what it is, and how to ask it.

use crate::client::Client;
use crate::metrics::Metrics;
use crate::peers::now;
use crate::routes::PART;
use crate::settings;
use crate::sync::back_off;
use hyper::body::{Bytes, HttpBody};
use hyper::header::{HeaderMap, HeaderName, AUTHORIZATION, ETAG, IF_NONE_MATCH};
use hyper::{Body, Method, Request, Response, StatusCode};
use serde::Serialize;
use std::future::Future;
use std::sync::atomic::{AtomicBool, AtomicUsize, Ordering::Relaxed};
use std::sync::{Arc, Mutex};
use std::time::Duration;
use tokio::sync::watch;
use tokio::task::JoinSet;

/// A part that doesn't answer is looked at again after so long at most.
const REST: Duration = Duration::from_secs(1);

/// What was last seen of a part.
#[derive(Serialize, Clone, Default, Debug)]
pub struct Seen {
    /// `new` before it was looked at, then `up` or `down`.
    pub state: &'static str,
    pub events: u64,
    /// Why it is down.
    pub why: Option<String>,
    /// Seconds since 1970.
    pub last_success: Option<f64>,
    /// The name of its set.
    #[serde(skip)]
    pub tag: String,
}

/// What was last seen of all parts.
pub struct Table {
    rows: Mutex<Vec<Seen>>,
    count: watch::Sender<u64>,
    metrics: Arc<Metrics>,
}

impl Table {
    pub fn new(parts: usize, metrics: Arc<Metrics>) -> Table {
        Table { rows: Mutex::new(vec![Seen::default(); parts]), count: watch::channel(0).0, metrics }
    }

    pub fn note(&self, index: usize, change: impl FnOnce(&mut Seen)) {
        let mut rows = self.rows.lock().unwrap();
        let Some(row) = rows.get_mut(index) else {
            return;
        };
        let before = (row.events, row.tag.clone());
        change(row);
        if row.state.is_empty() {
            row.state = "new";
        }
        self.metrics.part_up.with_label_values(&[&index.to_string()]).set((row.state == "up").into());
        if (row.events, &row.tag) != (before.0, &before.1) {
            let count = rows.iter().fold(0, |sum: u64, it| sum.saturating_add(it.events));
            self.metrics.events.set(count as i64);
            self.count.send_replace(count);
        }
    }

    pub fn get(&self, index: usize) -> Seen {
        self.rows.lock().unwrap().get(index).cloned().unwrap_or_default()
    }

    pub fn all(&self) -> Vec<Seen> {
        self.rows.lock().unwrap().clone()
    }

    pub fn counted(&self) -> watch::Receiver<u64> {
        self.count.subscribe()
    }
}

/// A part, where it is.
pub struct Part {
    pub index: usize,
    /// What it has to say that it is, as `1/4`.
    pub name: String,
    pub url: String,
    pub token: Option<String>,
    /// Whether it ever said, where it is now, that it is this part. It stands here and not in the table, where what the one
    /// of before still answers is noted too.
    pub is_known: AtomicBool,
    pub client: Client,
    /// How long an answer may take, beside what it waits for.
    pub seconds: u64,
    pub table: Arc<Table>,
}

/// A part from which nothing came that can be used.
#[derive(Clone, Debug)]
pub struct Away {
    pub index: usize,
    pub why: String,
    /// What it answered, where it did.
    pub status: Option<StatusCode>,
}

/// What is asked of a part. The same may be asked twice.
pub struct Asked {
    pub method: Method,
    /// The path with its query.
    pub path: String,
    pub headers: Vec<(HeaderName, String)>,
    pub body: Bytes,
    /// How many seconds it may wait before it answers.
    pub wait: u64,
}

impl Asked {
    pub fn get(path: impl Into<String>) -> Asked {
        Asked { method: Method::GET, path: path.into(), headers: Vec::new(), body: Bytes::new(), wait: 0 }
    }

    pub fn post(path: impl Into<String>, body: Bytes) -> Asked {
        Asked { method: Method::POST, body, ..Asked::get(path) }
    }

    pub fn with(mut self, name: HeaderName, value: impl Into<String>) -> Asked {
        self.headers.push((name, value.into()));
        self
    }

    /// That nothing is wanted where the part has the set of this name.
    pub fn unless(self, tag: &str) -> Asked {
        self.with(IF_NONE_MATCH, format!("\"{tag}\""))
    }

    /// With `Prefer: wait=N`.
    pub fn waiting(mut self, seconds: u64) -> Asked {
        self.wait = seconds;
        self.with(HeaderName::from_static("prefer"), format!("wait={seconds}"))
    }
}

/// How many bytes of answers may still come.
pub struct Budget(AtomicUsize);

impl Budget {
    pub fn new(bytes: usize) -> Arc<Budget> {
        Arc::new(Budget(AtomicUsize::new(bytes)))
    }

    fn take(&self, bytes: usize) -> bool {
        self.0.fetch_update(Relaxed, Relaxed, |it| it.checked_sub(bytes)).is_ok()
    }

    fn give_back(&self, bytes: usize) {
        self.0.fetch_add(bytes, Relaxed);
    }
}

impl Part {
    pub fn away(&self, why: impl Into<String>) -> Away {
        Away { index: self.index, why: why.into(), status: None }
    }

    /// Refuses where no answer ever said that what is there is this part.
    pub fn known(&self) -> Result<(), Away> {
        match self.is_known.load(Relaxed) {
            true => Ok(()),
            false => {
                let why = self.table.get(self.index).why;
                Err(self.away(why.unwrap_or_else(|| "it hasn't answered yet".into())))
            }
        }
    }

    /// The head of the part's answer, whose body is still to come. Another part's, and what isn't of a part, is none.
    pub async fn ask(&self, asked: &Asked) -> Result<Response<Body>, Away> {
        // A connection that the part let go of just now is no fault of it.
        let answer = match self.send(asked).await {
            Err((_, true)) => self.send(asked).await,
            answer => answer,
        };
        let answer = answer.map_err(|it| self.away(it.0))?;
        let (told, status) = (answer.headers().get(PART).and_then(|it| it.to_str().ok()), answer.status());
        match told {
            Some(told) if told != self.name => Err(self.away(format!("it says that it is part {told}"))),
            None if status == StatusCode::MISDIRECTED_REQUEST => Err(self.away("it says that it is no part")),
            None => Err(self.away(format!("it answers {status}, and not that it is this part"))),
            Some(_) => match status {
                // What is wrong then is the front's own token.
                StatusCode::UNAUTHORIZED | StatusCode::FORBIDDEN | StatusCode::MISDIRECTED_REQUEST => {
                    Err(Away { status: Some(status), ..self.away(format!("it answers {status}")) })
                }
                _ => Ok(answer),
            },
        }
    }

    /// An answer, or why there is none and whether that is of a connection that was closed.
    async fn send(&self, asked: &Asked) -> Result<Response<Body>, (String, bool)> {
        let mut request = Request::builder().method(&asked.method).uri(format!("{}{}", self.url, asked.path));
        request = request.header(PART, &self.name);
        if let Some(token) = &self.token {
            request = request.header(AUTHORIZATION, token);
        }
        for (name, value) in &asked.headers {
            request = request.header(name, value);
        }
        let request = request.body(Body::from(asked.body.clone())).map_err(|it| (it.to_string(), false))?;
        let time = Duration::from_secs(self.seconds + asked.wait);
        match tokio::time::timeout(time, self.client.request(request)).await {
            Ok(answer) => answer.map_err(|it| {
                let is_closed = it.is_canceled() || it.is_closed() || it.is_incomplete_message();
                (it.to_string(), is_closed)
            }),
            Err(_) => Err((format!("no answer within {} seconds", time.as_secs()), false)),
        }
    }

    /// The body of an answer, within a number of bytes; none where there are more, and then others have its share.
    pub async fn read(&self, answer: Response<Body>, budget: &Budget) -> Result<Option<Bytes>, Away> {
        let mut body = answer.into_body();
        let whole = async {
            let mut all = Vec::new();
            while let Some(data) = body.data().await {
                let data = data.map_err(|it| self.away(it.to_string()))?;
                if !budget.take(data.len()) {
                    budget.give_back(all.len());
                    return Ok(None);
                }
                all.extend_from_slice(&data);
            }
            Ok(Some(all.into()))
        };
        let late = |_| Err(self.away(format!("no whole answer within {} seconds", self.seconds)));
        tokio::time::timeout(Duration::from_secs(self.seconds), whole).await.unwrap_or_else(late)
    }

    /// Notes how many events an answer says that the part has by now. What was on its way longer says fewer.
    pub fn note(&self, headers: &HeaderMap) -> u64 {
        let events = number_of(headers, "site-events").unwrap_or(0);
        self.table.note(self.index, |it| it.events = it.events.max(events));
        events
    }

    /// Looks at the part again and again: whether it answers and what it is, and where its set changes.
    pub async fn follow(self: Arc<Self>, settings: settings::Sync, mut ends: watch::Receiver<bool>) {
        let mut failed = 0;
        while !*ends.borrow() {
            let wait = if failed == 0 && self.is_known.load(Relaxed) { settings.wait_seconds } else { 0 };
            let looked = tokio::select! {
                looked = self.look(wait) => looked,
                _ = ends.changed() => return,
            };
            let rest = match looked {
                Ok(()) => {
                    failed = 0;
                    Duration::from_millis(settings.every_ms)
                }
                Err(_) => {
                    failed += 1;
                    back_off(&settings, failed, fastrand::f64()).min(REST)
                }
            };
            tokio::select! {
                _ = tokio::time::sleep(rest) => {}
                _ = ends.changed() => return,
            }
        }
    }

    async fn look(&self, wait: u64) -> Result<(), Away> {
        let known = self.table.get(self.index).tag;
        let asked = Asked { method: Method::HEAD, ..Asked::get("/cover").unless(&known).waiting(wait) };
        let looked = match self.ask(&asked).await {
            Ok(answer) if matches!(answer.status(), StatusCode::OK | StatusCode::NOT_MODIFIED) => Ok(answer),
            Ok(answer) => Err(self.away(format!("it answers {}", answer.status()))),
            Err(away) => Err(away),
        };
        let was = self.table.get(self.index).state;
        match looked {
            Ok(answer) => {
                if was != "up" {
                    tracing::info!(part = self.name, "the part answers");
                }
                let events = number_of(answer.headers(), "site-events").unwrap_or(0);
                let tag = tag_of(answer.headers());
                self.is_known.store(true, Relaxed);
                self.table.note(self.index, |it| {
                    (it.state, it.why, it.last_success) = ("up", None, Some(now()));
                    (it.events, it.tag) = (events, tag);
                });
                Ok(())
            }
            Err(away) => {
                if was != "down" {
                    tracing::warn!(part = self.name, why = away.why, "the part is away");
                }
                let why = away.why.clone();
                self.table.note(self.index, |it| (it.state, it.why) = ("down", Some(why)));
                Err(away)
            }
        }
    }
}

/// The number in a header.
pub fn number_of(headers: &HeaderMap, name: &str) -> Option<u64> {
    headers.get(name)?.to_str().ok()?.parse().ok()
}

/// The name of the set that an answer is of.
pub fn tag_of(headers: &HeaderMap) -> String {
    let tag = headers.get(ETAG).and_then(|it| it.to_str().ok());
    tag.unwrap_or("").trim_matches('"').to_owned()
}

/// What comes of parts that are asked side by side, in their order.
pub async fn each<T, F, A>(parts: &[Arc<Part>], ask: A) -> Vec<Result<T, Away>>
where
    T: Send + 'static,
    F: Future<Output = Result<T, Away>> + Send + 'static,
    A: Fn(Arc<Part>) -> F,
{
    let mut asking = JoinSet::new();
    for (place, part) in parts.iter().enumerate() {
        let asked = ask(part.clone());
        asking.spawn(async move { (place, asked.await) });
    }
    let mut said: Vec<Option<Result<T, Away>>> = parts.iter().map(|_| None).collect();
    while let Some(done) = asking.join_next().await {
        if let Ok((place, it)) = done {
            said[place] = Some(it);
        }
    }
    let lost = |part: &Arc<Part>| Err(part.away("it isn't known what it answered"));
    said.into_iter().zip(parts).map(|(it, part)| it.unwrap_or_else(|| lost(part))).collect()
}

/// All of what came, or each part from which nothing came.
pub fn all_of<T>(said: Vec<Result<T, Away>>) -> Result<Vec<T>, Vec<Away>> {
    let (mut there, mut away) = (Vec::new(), Vec::new());
    for it in said {
        match it {
            Ok(it) => there.push(it),
            Err(it) => away.push(it),
        }
    }
    if away.is_empty() {
        Ok(there)
    } else {
        Err(away)
    }
}

#[cfg(test)]
mod tests {
    use super::*;

    #[test]
    fn counts_are_those_of_all_parts() {
        let table = Table::new(2, Arc::new(Metrics::new()));
        let counted = table.counted();
        table.note(0, |it| it.events = 3);
        table.note(1, |it| (it.events, it.state) = (4, "up"));
        assert_eq!(*counted.borrow(), 7);
        assert_eq!((table.get(0).state, table.get(1).state), ("new", "up"));
        // A part that is elsewhere now is a new one; one that there isn't changes nothing.
        table.note(1, |it| *it = Seen::default());
        table.note(2, |it| it.events = 9);
        assert_eq!((*counted.borrow(), table.get(1).state, table.all().len()), (3, "new", 2));
        // One that says more than can be counted.
        table.note(1, |it| it.events = u64::MAX);
        assert_eq!(*counted.borrow(), u64::MAX);
    }

    #[test]
    fn a_budget_is_never_overdrawn() {
        let budget = Budget::new(10);
        assert!(budget.take(4) && budget.take(6) && budget.take(0) && !budget.take(1));
        budget.give_back(4);
        assert!(!budget.take(5) && budget.take(4));
    }

    #[test]
    fn all_that_are_away_are_told() {
        let away = |index| Away { index, why: String::new(), status: None };
        assert_eq!(all_of(vec![Ok(1), Ok(2)]).unwrap(), [1, 2]);
        let told = all_of(vec![Err(away(0)), Ok(1), Err(away(2))]).unwrap_err();
        assert_eq!(told.iter().map(|it| it.index).collect::<Vec<_>>(), [0, 2]);
    }

    #[test]
    fn headers_are_read() {
        let mut headers = HeaderMap::new();
        assert_eq!((number_of(&headers, "site-events"), tag_of(&headers)), (None, String::new()));
        headers.insert("site-events", "12".parse().unwrap());
        headers.insert(ETAG, "\"ab\"".parse().unwrap());
        assert_eq!((number_of(&headers, "site-events"), tag_of(&headers)), (Some(12), "ab".into()));
    }
}
