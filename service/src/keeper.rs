//! The two threads that own the sites, and what the rest of the service asks of them.
//!
//! One has the site over the database: whatever waits goes into one transaction, and is answered once that is synced.
//! The other has a copy in memory, which takes what was kept, and answers all questions, so that no question holds up
//! what comes.

use crate::library::{on_thread, sources_of, Error, Lag, Page, Site, Taken};
use crate::metrics::Metrics;
use crate::part::Part;
use crate::reader::{self, Answer, Ask, Figures, What};
use crate::room::Room;
use hyper::body::Bytes;
use std::sync::atomic::{AtomicBool, AtomicU64, Ordering::SeqCst};
use std::sync::{Arc, Mutex};
use std::thread::JoinHandle;
use std::time::{Duration, Instant};
use tokio::sync::{mpsc, oneshot, watch, OwnedSemaphorePermit};

/// How many asks and transactions wait for the reader; the writer waits behind that.
const BEHIND: usize = 256;

/// Bytes of a client or a peer, with their share of the room for such.
pub struct Body {
    pub bytes: Bytes,
    pub room: OwnedSemaphorePermit,
}

/// What came of a body that was kept.
#[derive(Clone, Copy, Debug)]
pub struct Kept {
    pub fresh: u64,
    pub repeated: u64,
    /// How many events the database has since then, at least.
    pub count: u64,
}

/// Why a body isn't kept.
#[derive(Clone, Copy, Debug)]
pub enum Refusal {
    /// Too much waits: nothing was taken.
    Full,
    /// The service ends: nothing was taken.
    Closing,
    /// The bytes aren't events of a site: nothing was taken.
    Faulty,
    /// Some are of another part of the region: nothing was taken.
    Misdirected,
    /// The database refused: nothing was taken.
    Store(Error),
    /// It isn't known whether it was kept.
    Unknown,
}

struct Take {
    bytes: Bytes,
    reply: oneshot::Sender<Result<Kept, Refusal>>,
    _room: [OwnedSemaphorePermit; 2],
}

enum Job {
    Take(Take),
    End,
}

/// What the parts of the service hold of the sites.
pub struct Keeper {
    jobs: mpsc::UnboundedSender<Job>,
    asks: Mutex<Option<mpsc::Sender<Ask>>>,
    pub room: Arc<Room>,
    part: Option<Part>,
    state: Arc<State>,
    metrics: Arc<Metrics>,
    /// How many events the set has that is answered from.
    pub counted: watch::Receiver<u64>,
}

/// What both threads tell.
pub struct State {
    /// How many events the database has.
    pub kept: AtomicU64,
    pub cache: reader::Cache,
    is_closing: AtomicBool,
    /// The last fault of the database, and when it was.
    trouble: Mutex<Option<(Error, Instant)>>,
    /// Since when a transaction is under way.
    busy: Mutex<Option<Instant>>,
}

/// The threads, whose end is waited for.
pub struct Threads([JoinHandle<()>; 2]);

impl Threads {
    pub fn join(self) {
        for it in self.0 {
            let _ = it.join();
        }
    }
}

/// Copies the site, which may be a part of a region, and starts the threads. Time and memory in proportion to the events.
pub fn start(
    mut site: Site,
    part: Option<Part>,
    commit_bytes: usize,
    room: Arc<Room>,
    metrics: Arc<Metrics>,
) -> Result<(Arc<Keeper>, Threads), Error> {
    let mut copy = site.copy()?;
    copy.keep_views()?;
    let before = site.len();
    metrics.events.set(before as i64);
    let (jobs, bodies) = mpsc::unbounded_channel();
    let (asks, asked) = mpsc::channel(BEHIND);
    let (count, counted) = watch::channel(before);
    let state = Arc::new(State {
        kept: AtomicU64::new(before),
        cache: reader::Cache::default(),
        is_closing: AtomicBool::new(false),
        trouble: Mutex::new(None),
        busy: Mutex::new(None),
    });
    let writer = Writer {
        site,
        jobs: bodies,
        reader: asks.clone(),
        state: state.clone(),
        metrics: metrics.clone(),
        commit_bytes,
    };
    let reader = reader::Reader::new(copy, count, state.clone(), metrics.clone());
    let threads = Threads([spawn("writer", move || writer.run()), spawn("reader", move || reader.run(asked))]);
    let keeper = Keeper { jobs, asks: Mutex::new(Some(asks)), room, part, state, metrics, counted };
    Ok((Arc::new(keeper), threads))
}

/// Ends the process: without its threads nothing is kept or answered any more. What was answered is on the disk, and a
/// supervisor starts the service again.
pub fn give_up(why: &str) -> ! {
    tracing::error!(why, "the service can't go on");
    std::process::exit(70)
}

struct Needed;

impl Drop for Needed {
    fn drop(&mut self) {
        if std::thread::panicking() {
            give_up("a thread that owns a site panicked");
        }
    }
}

fn spawn(name: &str, work: impl FnOnce() + Send + 'static) -> JoinHandle<()> {
    let needed = move || {
        let _needed = Needed;
        work();
    };
    let made = std::thread::Builder::new().name(name.into()).spawn(needed);
    made.unwrap_or_else(|why| give_up(&why.to_string()))
}

impl Keeper {
    /// Keeps the events of a body: all of them, once no crash takes them back, or none.
    pub async fn take(&self, body: Body) -> Result<Kept, Refusal> {
        self.judge(&body.bytes).await?;
        let turn = self.room.turn().await?;
        if self.is_closing() {
            return Err(Refusal::Closing);
        }
        let (reply, answer) = oneshot::channel();
        let length = body.bytes.len() as i64;
        self.metrics.queue_bodies.inc();
        self.metrics.queue_bytes.add(length);
        let take = Take { bytes: body.bytes, reply, _room: [body.room, turn] };
        if self.jobs.send(Job::Take(take)).is_err() {
            self.metrics.queue_bodies.dec();
            self.metrics.queue_bytes.sub(length);
            return Err(Refusal::Closing);
        }
        answer.await.unwrap_or(Err(Refusal::Unknown))
    }

    /// Refuses events of other parts than the one that the site is. What is at fault otherwise is told by whoever keeps it.
    async fn judge(&self, bytes: &Bytes) -> Result<(), Refusal> {
        let Some(part) = self.part else {
            return Ok(());
        };
        let find = move |bytes: &[u8]| part.misdirected(&sources_of(bytes)?);
        match on_thread(bytes.clone(), find).await {
            Ok(None) | Err(Error::NoEvents | Error::NoNumber) => Ok(()),
            Ok(Some(_)) => Err(Refusal::Misdirected),
            Err(why) => Err(Refusal::Store(why)),
        }
    }

    /// How many events the set has that is answered from.
    pub fn count(&self) -> u64 {
        *self.counted.borrow()
    }

    /// The answer to what is asked, with all that was kept before.
    pub async fn ask(&self, what: What) -> Result<Arc<Answer>, Error> {
        let kept = self.state.kept.load(SeqCst);
        match self.state.cache.get(what, kept) {
            Some(had) => Ok(had),
            None => self.asked(|reply| Ask::Answer(what, kept, reply)).await,
        }
    }

    /// The same behind the line of the summary, which is of the same set.
    pub async fn ask_with_summary(&self, what: What) -> Result<Arc<Answer>, Error> {
        self.asked(|reply| Ask::WithSummary(what, reply)).await.map(Arc::new)
    }

    /// Events that a peer lacks by its summary, from a place on: at most so many, and about so many bytes.
    pub async fn delta(&self, summary: String, from: u64, events: u64, bytes: u64) -> Result<Option<Page>, Error> {
        self.asked(|reply| Ask::Delta(summary, from, events, bytes, reply)).await
    }

    /// How the numbers stand beside those of a peer's summary.
    pub async fn compare(&self, summary: String) -> Result<Lag, Error> {
        self.asked(|reply| Ask::Compare(summary, reply)).await
    }

    /// The events that came behind the first so many, as many as a page has.
    pub async fn arrivals(&self, after: u64) -> Result<Option<Arc<Page>>, Error> {
        self.asked(|reply| Ask::Arrivals(after, reply)).await
    }

    /// The events of a source and an id, a line each, the one that is shown first; with all that was kept before.
    pub async fn get(&self, source: String, id: String) -> Result<Answer, Error> {
        self.asked(|reply| Ask::Get(source, id, reply)).await
    }

    /// What is counted of the set, or was a while ago where counting takes long.
    pub async fn figures(&self) -> Result<Figures, Error> {
        self.asked(Ask::Figures).await
    }

    async fn asked<T>(&self, ask: impl FnOnce(oneshot::Sender<Result<T, Error>>) -> Ask) -> Result<T, Error> {
        let (reply, answer) = oneshot::channel();
        let to = self.asks.lock().unwrap().clone();
        match to {
            Some(to) if to.send(ask(reply)).await.is_ok() => answer.await.unwrap_or(Err(Error::Busy)),
            _ => Err(Error::Busy),
        }
    }

    /// From now on nothing is taken; what waits is kept.
    pub fn close(&self) {
        if !self.state.is_closing.swap(true, SeqCst) {
            *self.asks.lock().unwrap() = None;
            let _ = self.jobs.send(Job::End);
        }
    }

    pub fn is_closing(&self) -> bool {
        self.state.is_closing.load(SeqCst)
    }

    /// Why the database refused within the last seconds. Not longer: who sends no events to a service that isn't ready
    /// would never see that it is again.
    pub fn trouble(&self) -> Option<Error> {
        let last = *self.state.trouble.lock().unwrap();
        last.filter(|it| it.1.elapsed() < Duration::from_secs(5)).map(|it| it.0)
    }

    /// How long the transaction takes that is under way.
    pub fn busy(&self) -> Duration {
        let since = *self.state.busy.lock().unwrap();
        since.map_or(Duration::ZERO, |it| it.elapsed())
    }
}

/// The thread that has the site over the database.
struct Writer {
    site: Site,
    jobs: mpsc::UnboundedReceiver<Job>,
    reader: mpsc::Sender<Ask>,
    state: Arc<State>,
    metrics: Arc<Metrics>,
    commit_bytes: usize,
}

impl Writer {
    /// Keeps what comes until the end of the service; then the site is let go of, its log in the file.
    fn run(mut self) {
        let mut next = None;
        while let Some(job) = next.take().or_else(|| self.jobs.blocking_recv()) {
            match job {
                // What came before is kept; what comes now finds no queue, and is told so.
                Job::End => self.jobs.close(),
                Job::Take(first) => {
                    let (mut bytes, mut group) = (first.bytes.len(), vec![first]);
                    // What waits by now goes into the same transaction. Nobody waits for company.
                    while let Ok(job) = self.jobs.try_recv() {
                        match job {
                            Job::Take(more) if bytes + more.bytes.len() <= self.commit_bytes => {
                                bytes += more.bytes.len();
                                group.push(more);
                            }
                            other => {
                                next = Some(other);
                                break;
                            }
                        }
                    }
                    self.keep(group);
                }
            }
        }
    }

    fn keep(&mut self, group: Vec<Take>) {
        self.metrics.queue_bodies.sub(group.len() as i64);
        self.metrics.queue_bytes.sub(group.iter().map(|it| it.bytes.len() as i64).sum());
        self.metrics.commit_bodies.observe(group.len() as f64);
        let start = Instant::now();
        *self.state.busy.lock().unwrap() = Some(start);
        let bodies: Vec<&[u8]> = group.iter().map(|it| &it.bytes[..]).collect();
        let answers = self.site.take_each(&bodies).unwrap_or_else(|why| vec![Err(why); group.len()]);
        *self.state.busy.lock().unwrap() = None;
        self.metrics.commit_seconds.observe(start.elapsed().as_secs_f64());
        self.note(&answers);
        let kept = group.iter().zip(&answers).filter(|it| it.1.is_ok());
        self.metrics.taken_bytes.inc_by(kept.map(|it| it.0.bytes.len() as u64).sum());
        let count = self.site.len();
        // What is owed is in the file, and is counted at the next take.
        let is_owed = answers.contains(&Err(Error::Owed));
        let is_new = |it: &Result<Taken, Error>| it.map_or_else(|why| why == Error::Owed, |taken| taken.fresh > 0);
        let new = group.iter().zip(&answers).filter(|it| is_new(it.1));
        self.hand_on(new.map(|it| it.0.bytes.clone()).collect(), (!is_owed).then_some(count));
        for (take, answer) in group.into_iter().zip(answers) {
            let kept = answer.map(|it| Kept { fresh: it.fresh, repeated: it.repeated, count });
            let _ = take.reply.send(kept.map_err(refusal_of));
        }
    }

    /// Notes how the database does: by whether it refused.
    fn note(&self, answers: &[Result<Taken, Error>]) {
        let refused =
            answers.iter().find_map(|it| it.err().filter(|why| matches!(refusal_of(*why), Refusal::Store(_))));
        if let Some(why) = refused {
            tracing::error!(%why, bodies = answers.len(), "a transaction was refused");
            *self.state.trouble.lock().unwrap() = Some((why, Instant::now()));
        } else if answers.iter().any(Result::is_ok) {
            self.metrics.commits.inc();
            *self.state.trouble.lock().unwrap() = None;
        }
    }

    /// Gives the reader what was kept, before anybody is answered: who asks behind an answer finds these events.
    fn hand_on(&self, bodies: Vec<Bytes>, count: Option<u64>) {
        if !bodies.is_empty() {
            let _ = self.reader.blocking_send(Ask::Applied(bodies, count));
        }
        if let Some(count) = count {
            self.metrics.events.set(count as i64);
            self.state.kept.store(count, SeqCst);
        }
    }
}

fn refusal_of(why: Error) -> Refusal {
    match why {
        Error::NoEvents | Error::NoNumber => Refusal::Faulty,
        Error::Owed => Refusal::Unknown,
        other => Refusal::Store(other),
    }
}

#[cfg(test)]
mod tests {
    use super::*;
    use crate::library::{part_of, Question};
    use crate::settings::Limits;
    use std::path::PathBuf;

    struct Folder(PathBuf);

    impl Folder {
        fn new(name: &str) -> Folder {
            let path = std::env::temp_dir().join(format!("jumbetaid-{}-{name}", std::process::id()));
            std::fs::create_dir_all(&path).unwrap();
            Folder(path)
        }

        fn open(&self, limits: &Limits) -> (Arc<Keeper>, Threads) {
            self.open_as(None, limits)
        }

        fn open_as(&self, part: Option<Part>, limits: &Limits) -> (Arc<Keeper>, Threads) {
            let site = Site::open_with_cache(self.0.join("site.db"), 0).unwrap();
            let room = Arc::new(Room::new(limits));
            start(site, part, limits.commit_bytes, room, Arc::new(Metrics::new())).unwrap()
        }
    }

    impl Drop for Folder {
        fn drop(&mut self) {
            let _ = std::fs::remove_dir_all(&self.0);
        }
    }

    fn event(number: u64) -> String {
        format!(r#"{{"specversion":"1.0","id":"{number}","source":"/a","type":"t","sequence":"{number:020}"}}"#)
    }

    async fn give(keeper: &Keeper, text: String) -> Result<Kept, Refusal> {
        let room = keeper.room.bytes(text.len()).await?;
        keeper.take(Body { bytes: text.into(), room }).await
    }

    #[tokio::test(flavor = "multi_thread")]
    async fn bodies_are_kept_each_for_itself() {
        let folder = Folder::new("kept");
        let (keeper, threads) = folder.open(&Limits::default());
        let kept = give(&keeper, format!("[{},{}]", event(1), event(2))).await.unwrap();
        assert_eq!((kept.fresh, kept.repeated, kept.count), (2, 0, 2));
        let both = format!("[{},{}]", event(2), event(3));
        let (known, bad) = tokio::join!(give(&keeper, both), give(&keeper, "{}".into()));
        let known = known.unwrap();
        assert_eq!((known.fresh, known.repeated, known.count), (1, 1, 3));
        assert!(matches!(bad, Err(Refusal::Faulty)));
        let cover = keeper.ask(What::Cover).await.unwrap();
        assert_eq!((&cover.text[..], cover.count), (&b"{\"sources\":{\"/a\":[[1,3]]},\"version\":1}\n"[..], 3));
        assert_eq!(keeper.ask(What::Summary).await.unwrap().tag, cover.tag);
        keeper.close();
        assert!(matches!(give(&keeper, event(4)).await, Err(Refusal::Closing)));
        assert!(keeper.ask(What::Question(Question::Kinds)).await.is_err());
        threads.join();
        let (keeper, threads) = folder.open(&Limits::default());
        assert_eq!(keeper.count(), 3);
        keeper.close();
        threads.join();
    }

    #[tokio::test(flavor = "multi_thread")]
    async fn what_finds_no_room_is_refused_in_its_time() {
        let folder = Folder::new("room");
        let limits = Limits { waiting_bytes: 8 << 10, waiting_ms: 50, ..Limits::default() };
        let (keeper, threads) = folder.open(&limits);
        // More than there is room for takes all of it, and not more.
        let room = keeper.room.bytes(1 << 30).await.unwrap();
        assert!(matches!(give(&keeper, event(1)).await, Err(Refusal::Full)));
        drop(room);
        assert_eq!(give(&keeper, event(1)).await.unwrap().fresh, 1);
        keeper.close();
        threads.join();
    }

    #[tokio::test(flavor = "multi_thread")]
    async fn a_part_keeps_no_events_of_others() {
        let folder = Folder::new("part");
        let part = Part { index: part_of("/a", 4).unwrap(), of: 4 };
        let (keeper, threads) = folder.open_as(Some(part), &Limits::default());
        let other = event(1).replace("/a", "/c");
        assert_ne!(part_of("/c", 4).unwrap(), part.index);
        assert_eq!(give(&keeper, event(1)).await.unwrap().fresh, 1);
        for bad in [other.clone(), format!("[{},{other}]", event(2))] {
            assert!(matches!(give(&keeper, bad).await, Err(Refusal::Misdirected)));
        }
        assert!(matches!(give(&keeper, "{}".into()).await, Err(Refusal::Faulty)));
        // Asked for, and not counted, which may lag behind what was kept.
        assert_eq!(keeper.ask(What::Cover).await.unwrap().count, 1);
        keeper.close();
        threads.join();
        let mut site = Site::open(folder.0.join("site.db")).unwrap();
        assert_eq!(part.test(&mut site), Ok(()));
        let why = Part { index: (part.index + 1) % 4, of: 4 }.test(&mut site).unwrap_err();
        assert!(why.contains("/a"), "{why}");
    }
}
