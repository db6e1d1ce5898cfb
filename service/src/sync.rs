//! Comes to one view with each peer, by pulling from it. Each peer has a task of its own, so that one that hangs holds up
//! nobody.
//!
//! A round: the peer is asked for its cover, unless its set has the name of this site's or the one that it had; where it
//! has, it waits a while for a change. What it has of numbers that this site lacks it is asked for by this site's cover,
//! page by page. Where both have the same numbers and their sets other names, which is what two events of one number are,
//! it is asked by the summary, whose digests find them.

use crate::client::{whole, Client};
use crate::keeper::{Body as Given, Kept, Refusal};
use crate::library::{faults, Error, Lag};
use crate::metrics::Metrics;
use crate::peers::{now, Peers};
use crate::reader::{Answer, What};
use crate::routes::Kind;
use crate::settings::{self, text_of};
use hyper::body::Bytes;
use hyper::{header, Body, Request, Response, StatusCode};
use std::collections::BTreeMap;
use std::sync::Arc;
use std::time::{Duration, Instant};
use tokio::sync::{watch, OwnedSemaphorePermit};
use tokio::task::JoinHandle;

/// More than any answer of a peer has.
const MOST: usize = 64 << 20;

/// So many pages in a row may bring nothing new: another peer may have brought it meanwhile, or blocks differ by what this
/// site has.
const IDLE_BY_NUMBERS: u32 = 64;
const IDLE_BY_DIGESTS: u32 = 500;

/// The tasks of the peers.
pub struct Tasks {
    client: Client,
    own: Kind,
    metrics: Arc<Metrics>,
    peers: Arc<Peers>,
    ends: watch::Receiver<bool>,
    settings: settings::Sync,
    running: BTreeMap<String, Running>,
}

/// A peer that is pulled from, and the token with which it is.
struct Running {
    of: settings::Peer,
    token: Option<String>,
    task: JoinHandle<()>,
}

impl Tasks {
    /// None yet, or why peers can't be connected to.
    pub fn new(own: &Kind) -> Result<Tasks, String> {
        let sync = &own.settings.sync;
        Ok(Tasks {
            client: crate::client::new(sync, 2)?,
            metrics: own.metrics.clone(),
            peers: own.peers.clone(),
            ends: own.ends.clone(),
            settings: sync.clone(),
            own: own.clone(),
            running: BTreeMap::new(),
        })
    }

    /// The peers of these settings, with their tokens, or why one can't be read.
    pub fn peers_of(&self, wanted: &[settings::Peer]) -> Result<Vec<Peer>, String> {
        wanted.iter().map(|it| self.peer(it)).collect()
    }

    /// Lets exactly these peers be pulled from: tasks of others end, and those of new or changed ones begin.
    pub fn set(&mut self, wanted: Vec<Peer>) {
        let same = |has: &Running, it: &Peer| has.of == it.of && has.token == it.token;
        let stays = |has: &Running| wanted.iter().any(|it| same(has, it));
        let gone: Vec<String> = self.running.iter().filter(|it| !stays(it.1)).map(|it| it.0.clone()).collect();
        for name in gone {
            if let Some(has) = self.running.remove(&name) {
                has.task.abort();
            }
            self.metrics.peer.forget(&name);
            self.peers.forget(&name);
            tracing::info!(peer = name, "the peer is let go of");
        }
        for peer in wanted {
            if self.running.contains_key(&peer.name) {
                continue;
            }
            let (name, of, token) = (peer.name.clone(), peer.of.clone(), peer.token.clone());
            self.peers.note(&name, |it| it.state = "new");
            tracing::info!(peer = name, url = of.url, "the peer is pulled from");
            let task = tokio::spawn(peer.run(self.ends.clone()));
            self.running.insert(name, Running { of, token, task });
        }
    }

    fn peer(&self, of: &settings::Peer) -> Result<Peer, String> {
        let token = of.token_file.as_deref().map(text_of).transpose()?;
        Ok(Peer {
            name: of.name.clone(),
            of: of.clone(),
            token: token.map(|it| it.trim().to_owned()),
            client: self.client.clone(),
            own: self.own.clone(),
            metrics: self.metrics.clone(),
            peers: self.peers.clone(),
            settings: self.settings.clone(),
            last_repair: Instant::now(),
            is_equal: false,
            is_behind: true,
            repaired: 0,
            last: Default::default(),
        })
    }

    /// Waits until the tasks have ended.
    pub async fn end(self) {
        for it in self.running.into_values() {
            let _ = tokio::time::timeout(Duration::from_secs(1), it.task).await;
        }
    }
}

/// A peer, and what is known of it.
pub struct Peer {
    name: String,
    of: settings::Peer,
    token: Option<String>,
    client: Client,
    own: Kind,
    metrics: Arc<Metrics>,
    peers: Arc<Peers>,
    settings: settings::Sync,
    last_repair: Instant,
    /// Whether the sets had one name when they were last compared.
    is_equal: bool,
    /// Whether the peer had numbers then that this site lacks.
    is_behind: bool,
    /// The place to which pages by digests have come, where they weren't all asked for.
    repaired: u64,
    /// The name of the peer's set and its cover, as it last told them.
    last: (String, String),
}

/// By what a peer is told what this site has.
#[derive(Clone, Copy, PartialEq, Eq, Debug)]
enum By {
    Numbers,
    Digests,
}

/// A page of what a peer has: batches, a line each, and its places in the whole list.
struct Page {
    lines: Bytes,
    from: u64,
    behind: u64,
}

impl Peer {
    /// Rounds until the service ends.
    async fn run(mut self, mut ends: watch::Receiver<bool>) {
        let mut failed = 0;
        while !*ends.borrow() {
            let start = Instant::now();
            let round = tokio::select! {
                round = self.round(failed > 0) => round,
                _ = ends.changed() => return,
            };
            let rest = match round {
                Ok(()) => {
                    if failed > 0 {
                        tracing::info!(peer = self.name, "the peer answers again");
                    }
                    failed = 0;
                    self.succeeded(start.elapsed());
                    Duration::from_millis(self.settings.every_ms)
                }
                Err(why) => {
                    if failed == 0 {
                        tracing::warn!(peer = self.name, why, "a round with the peer failed");
                    }
                    failed += 1;
                    self.failed(why);
                    back_off(&self.settings, failed, fastrand::f64())
                }
            };
            // A tenth more at random, so that rounds of many sites don't fall together.
            let rest = rest.mul_f64(1.0 + fastrand::f64() / 10.0);
            tokio::select! {
                _ = tokio::time::sleep(rest) => {}
                _ = ends.changed() => return,
            }
        }
    }

    fn succeeded(&self, took: Duration) {
        let metrics = &self.metrics.peer;
        metrics.up.with_label_values(&[&self.name]).set(1);
        metrics.rounds.with_label_values(&[&self.name, "done"]).inc();
        metrics.last_success.with_label_values(&[&self.name]).set(now());
        self.peers.note(&self.name, |it| {
            (it.state, it.why, it.last_success) = ("up", None, Some(now()));
            it.round_ms = took.as_millis() as u64;
        });
    }

    fn failed(&mut self, why: String) {
        self.note_equal(false);
        let metrics = &self.metrics.peer;
        metrics.up.with_label_values(&[&self.name]).set(0);
        metrics.rounds.with_label_values(&[&self.name, "failed"]).inc();
        self.peers.note(&self.name, |it| {
            (it.state, it.why) = ("down", Some(why));
            it.failures += 1;
        });
    }

    async fn round(&mut self, has_failed: bool) -> Result<(), String> {
        let own = self.own(What::Cover).await?;
        // An answer is wanted at once to see whether the peer is there, and where it has what this site lacks.
        let wait = if has_failed || self.is_behind { 0 } else { self.settings.wait_seconds };
        let answer = self.poll(&own, wait).await?;
        let tag = answer.headers().get(header::ETAG).and_then(|it| it.to_str().ok());
        let tag = tag.unwrap_or("").trim_matches('"').to_owned();
        if answer.status() == StatusCode::NOT_MODIFIED {
            if tag == *own.tag {
                self.last = (tag, String::from_utf8_lossy(&own.text).trim_end_matches('\n').to_owned());
                self.compared(self.own.count() == own.count, Lag { lacking: 0, ahead: 0, blocks: 0 });
                return Ok(());
            }
        } else {
            let body = self.body(expect(answer, StatusCode::OK)?).await?;
            let cover = String::from_utf8(body.to_vec()).map_err(|it| it.to_string())?;
            self.last = (tag, cover.trim_end_matches('\n').to_owned());
        }
        let mut lag = self.compare().await?;
        if lag.lacking > 0 {
            self.pull(By::Numbers).await?;
            lag = self.compare().await?;
        }
        self.is_behind = lag.lacking > 0;
        // Digests tell a block of 1,024 numbers, so that a source that is being written would send all of them again
        // with each new event: numbers come first.
        let is_due = self.last_repair.elapsed() > Duration::from_secs(self.settings.repair_seconds);
        if !self.is_equal && (lag.lacking + lag.ahead == 0 || is_due) {
            self.last_repair = Instant::now();
            self.pull(By::Digests).await?;
            self.compare().await?;
        }
        Ok(())
    }

    /// Asks the peer for its cover, or for 304 where its set is this site's or what it was.
    async fn poll(&mut self, own: &Answer, wait: u64) -> Result<Response<Body>, String> {
        let known = format!("\"{}\", \"{}\"", own.tag, self.last.0);
        let asked = Request::get(format!("{}/cover", self.of.url))
            .header(header::IF_NONE_MATCH, known)
            .header("prefer", format!("wait={wait}"));
        let asking = self.send(asked, Body::empty(), wait);
        let mut asking = std::pin::pin!(asking);
        let mut counted = self.own.counted();
        loop {
            let look = async {
                tokio::time::sleep(Duration::from_millis(self.settings.every_ms)).await;
                counted.changed().await
            };
            tokio::select! {
                answer = asking.as_mut() => return answer,
                // While the peer waits for a change, this site has one: they may have come apart, or together.
                changed = look => {
                    changed.map_err(|it| it.to_string())?;
                    let own = self.own(What::Cover).await?;
                    self.tell_equal(*own.tag == *self.last.0);
                }
            }
        }
    }

    /// How the numbers stand beside those that the peer told last, and whether the sets have one name.
    async fn compare(&mut self) -> Result<Lag, String> {
        let own = self.own(What::Cover).await?;
        let lag = self.own.compare(self.last.1.clone()).await?;
        self.compared(*own.tag == *self.last.0, lag);
        Ok(lag)
    }

    async fn own(&self, what: What) -> Result<Arc<Answer>, String> {
        self.own.set(what).await
    }

    fn compared(&mut self, equal: bool, lag: Lag) {
        self.note_equal(equal);
        let (metrics, name) = (&self.metrics.peer, self.name.as_str());
        metrics.lacking.with_label_values(&[name]).set(lag.lacking as f64);
        metrics.ahead.with_label_values(&[name]).set(lag.ahead as f64);
        if equal {
            metrics.last_equal.with_label_values(&[name]).set(now());
        }
        let cover = self.last.1.clone();
        self.peers.note(name, |it| {
            it.cover = Some(cover);
            (it.lacking, it.ahead) = (lag.lacking, lag.ahead);
            if equal {
                it.last_equal = Some(now());
            }
        });
    }

    fn note_equal(&mut self, equal: bool) {
        self.is_equal = equal;
        self.tell_equal(equal);
    }

    fn tell_equal(&self, equal: bool) {
        self.metrics.peer.equal.with_label_values(&[&self.name]).set(equal.into());
        self.peers.note(&self.name, |it| it.equal = equal);
    }

    /// Takes what the peer has and this site lacks, page by page: while one is kept the next is asked for. What either
    /// gets meanwhile may shift the pages: the next round finds what was passed over. A peer whose pages bring nothing has
    /// no round without end: by numbers it fails, by digests it goes on from there at the next one.
    async fn pull(&mut self, by: By) -> Result<(), String> {
        let what = if by == By::Numbers { What::Cover } else { What::Summary };
        let begin = if by == By::Numbers { 0 } else { self.repaired };
        let (mut own, mut before, mut idle) = (self.own(what).await?, 0, 0);
        let mut next = self.page(own.text.clone(), begin).await?;
        while let Some(page) = next {
            let size = page.behind - page.from;
            let from = match by {
                // This site's cover has what was kept up to the page before the last: that and the one that is under way
                // are to be passed over.
                By::Numbers => before + size,
                // A block is told again until both have the same of it, which may never be: places go on.
                By::Digests => page.behind,
            };
            // The cover is asked for first, so that it has nothing of this page; nobody waits for it meanwhile.
            let cover = async {
                match by {
                    By::Numbers => self.own(what).await,
                    By::Digests => Ok(own.clone()),
                }
            };
            let (cover, kept, asked) = tokio::join!(cover, self.keep(page.lines), self.page(own.text.clone(), from));
            idle = if kept? > 0 { 0 } else { idle + 1 };
            (own, before) = (cover?, size);
            if by == By::Digests {
                self.repaired = from;
            }
            match by {
                By::Numbers if idle > IDLE_BY_NUMBERS => return Err(format!("{idle} pages brought nothing new")),
                By::Digests if idle > IDLE_BY_DIGESTS => return Ok(()),
                _ => next = asked?,
            }
        }
        self.repaired = 0;
        Ok(())
    }

    /// The page from a place on of what the peer has beyond a summary.
    async fn page(&self, summary: Bytes, from: u64) -> Result<Option<Page>, String> {
        let asked = Request::post(format!("{}/delta?from={from}", self.of.url))
            .header(header::CONTENT_TYPE, "application/json");
        let answer = self.send(asked, Body::from(summary), 0).await?;
        if answer.status() == StatusCode::NO_CONTENT {
            return Ok(None);
        }
        let answer = expect(answer, StatusCode::OK)?;
        let behind = answer.headers().get("site-next").and_then(|it| it.to_str().ok()?.parse().ok());
        let behind = behind.filter(|it| *it > from).ok_or("the peer's page doesn't say where the next one begins")?;
        Ok(Some(Page { lines: self.body(answer).await?, from, behind }))
    }

    /// Keeps the events of pages, a batch a line, and tells how many were new; they are joined as other bodies are.
    async fn keep(&self, pages: Bytes) -> Result<u64, String> {
        let (mut fresh, mut repeated) = (0, 0);
        for line in pages.split(|it| *it == b'\n').filter(|it| !it.is_empty()) {
            let bytes = pages.slice_ref(line);
            let room = loop {
                match self.own.room.bytes(bytes.len()).await {
                    Err(Refusal::Full) => continue,
                    room => break room.map_err(|it| format!("a page isn't kept: {it:?}"))?,
                }
            };
            match self.own.pulled(bytes.clone(), room).await {
                Ok(kept) => (fresh, repeated) = (fresh + kept.fresh, repeated + kept.repeated),
                Err(Unkept::Faulty) => {
                    let lines = faults(&bytes).map_err(|it| it.to_string())?;
                    self.metrics.count_faults(&lines, "peer");
                    return Err(format!("a page at fault: {}", lines.lines().next().unwrap_or("")));
                }
                Err(Unkept::Else(why)) => return Err(format!("a page isn't kept: {why}")),
            }
        }
        for (result, count) in [("new", fresh), ("repeated", repeated)] {
            self.metrics.peer.pulled.with_label_values(&[&self.name, result]).inc_by(count);
            self.metrics.taken.with_label_values(&[result, "peer"]).inc_by(count);
        }
        self.metrics.recent.pulled(now(), fresh);
        self.peers.note(&self.name, |it| it.pulled += fresh);
        Ok(fresh)
    }

    async fn send(
        &self,
        asked: hyper::http::request::Builder,
        body: Body,
        wait: u64,
    ) -> Result<Response<Body>, String> {
        let asked = match &self.token {
            Some(token) => asked.header(header::AUTHORIZATION, format!("Bearer {token}")),
            None => asked,
        };
        let asked = asked.body(body).map_err(|it| it.to_string())?;
        let time = Duration::from_secs(self.settings.request_seconds + wait);
        match tokio::time::timeout(time, self.client.request(asked)).await {
            Ok(answer) => answer.map_err(|it| it.to_string()),
            Err(_) => Err(format!("no answer within {} seconds", time.as_secs())),
        }
    }

    async fn body(&self, answer: Response<Body>) -> Result<Bytes, String> {
        let seconds = self.settings.request_seconds;
        let late = |_| Err(format!("no whole answer within {seconds} seconds"));
        tokio::time::timeout(Duration::from_secs(seconds), whole(answer.into_body(), MOST)).await.unwrap_or_else(late)
    }
}

/// Why a page isn't kept.
enum Unkept {
    Faulty,
    Else(String),
}

/// What is pulled into: the set of a site, or that of a region by its front.
impl Kind {
    async fn set(&self, what: What) -> Result<Arc<Answer>, String> {
        match self {
            Kind::Site(site) => site.keeper.ask(what).await.map_err(|it| it.to_string()),
            Kind::Front(front) => front.answer(what).await.map_err(|it| it.to_string()),
        }
    }

    async fn compare(&self, cover: String) -> Result<Lag, String> {
        match self {
            Kind::Site(site) => site.keeper.compare(cover).await.map_err(|it| it.to_string()),
            Kind::Front(front) => front.compare(&cover).await,
        }
    }

    async fn pulled(&self, bytes: Bytes, room: OwnedSemaphorePermit) -> Result<Kept, Unkept> {
        match self {
            Kind::Site(site) => match site.keeper.take(Given { bytes, room }).await {
                Ok(kept) => Ok(kept),
                Err(Refusal::Faulty) => Err(Unkept::Faulty),
                Err(why) => Err(Unkept::Else(format!("{why:?}"))),
            },
            Kind::Front(front) => match front.spread(bytes, room).await {
                Ok(spread) => spread.all().map_err(Unkept::Else),
                Err(Error::NoEvents | Error::NoNumber) => Err(Unkept::Faulty),
                Err(why) => Err(Unkept::Else(why.to_string())),
            },
        }
    }

    /// How many events the set was last seen with.
    fn count(&self) -> u64 {
        *self.counted().borrow()
    }

    fn counted(&self) -> watch::Receiver<u64> {
        match self {
            Kind::Site(site) => site.keeper.counted.clone(),
            Kind::Front(front) => front.counted(),
        }
    }
}

/// How long to rest behind so many failed rounds, by a die from 0 to 1.
pub fn back_off(settings: &settings::Sync, failed: u32, die: f64) -> Duration {
    let most = settings.backoff_ms.saturating_mul(1 << failed.min(16)).min(settings.backoff_max_ms);
    Duration::from_millis(settings.backoff_ms.min(most)) + Duration::from_millis(most).mul_f64(die)
}

fn expect(answer: Response<Body>, status: StatusCode) -> Result<Response<Body>, String> {
    match answer.status() == status {
        true => Ok(answer),
        false => Err(format!("the peer answers {}", answer.status())),
    }
}

#[cfg(test)]
mod tests {
    use super::*;

    #[test]
    fn rests_grow_to_their_limit() {
        let settings = settings::Sync { backoff_ms: 100, backoff_max_ms: 1000, ..settings::Sync::default() };
        let ms = |failed, die| back_off(&settings, failed, die).as_millis();
        assert_eq!([ms(1, 0.0), ms(1, 1.0), ms(2, 1.0), ms(3, 1.0)], [100, 300, 500, 900]);
        assert_eq!([ms(9, 1.0), ms(u32::MAX, 1.0), ms(u32::MAX, 0.0)], [1100, 1100, 100]);
    }
}
