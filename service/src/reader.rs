//! The thread that answers, from a copy in memory of what is kept; and what was answered last, for whoever asks again.

use crate::keeper::{give_up, State};
use crate::library::{Error, Lag, Page, Question, Site};
use crate::metrics::Metrics;
use hyper::body::Bytes;
use serde::Deserialize;
use std::collections::HashMap;
use std::sync::{Arc, Mutex};
use std::time::{Duration, Instant};
use tokio::sync::{mpsc, oneshot, watch};

/// What an answer is to.
#[derive(Clone, Copy, PartialEq, Eq, Debug)]
pub enum What {
    Question(Question),
    Summary,
    Cover,
}

/// All of them, each with its name, which is its path.
pub const ALL: [(&str, What); 8] = [
    ("summary", What::Summary),
    ("cover", What::Cover),
    ("shown", What::Question(Question::Shown)),
    ("conflicts", What::Question(Question::Conflicts)),
    ("latest", What::Question(Question::Latest)),
    ("kinds", What::Question(Question::Kinds)),
    ("days", What::Question(Question::Days)),
    ("gaps", What::Question(Question::Gaps)),
];

/// The name of what an answer is to.
pub fn name_of(what: What) -> &'static str {
    ALL.iter().find(|it| it.1 == what).map_or("cover", |it| it.0)
}

/// An answer, of the set of events that `tag` names.
pub struct Answer {
    pub text: Bytes,
    pub count: u64,
    /// The SHA-256 of the summary: two sites with one tag have the same events, and the same answers.
    pub tag: Arc<str>,
}

/// What the reader is told and asked, in the order in which it is done.
pub enum Ask {
    /// These bodies were kept, and the database has so many events since.
    Applied(Vec<Bytes>, Option<u64>),
    Answer(What, u64, Reply<Arc<Answer>>),
    /// The summary, and the answer behind it.
    WithSummary(What, Reply<Answer>),
    Delta(String, u64, u64, u64, Reply<Option<Page>>),
    Compare(String, Reply<Lag>),
    Arrivals(u64, Reply<Option<Arc<Page>>>),
    Get(String, String, Reply<Answer>),
    Figures(Reply<Figures>),
}

/// What is counted of the set.
#[derive(Clone, Copy, Default, PartialEq, Debug)]
pub struct Figures {
    pub sources: u64,
    /// Runs of numbers that a source lacks before its last one.
    pub gaps: u64,
    /// How many numbers they have; more than a whole number of 64 bits holds, where several sources lack most of theirs.
    pub missing: f64,
    pub conflicts: u64,
}

impl Figures {
    /// Those of a cover and the answer to what conflicts; none where the cover isn't one.
    fn of(cover: &str, conflicts: &str) -> Option<Figures> {
        #[derive(Deserialize)]
        struct Cover {
            sources: HashMap<String, Vec<[u64; 2]>>,
        }
        let cover: Cover = serde_json::from_str(cover).ok()?;
        let mut figures = Figures { sources: cover.sources.len() as u64, ..Figures::default() };
        for intervals in cover.sources.values() {
            let mut next = 1;
            for [first, last] in intervals {
                if *first > next {
                    figures.gaps += 1;
                    figures.missing += (first - next) as f64;
                }
                next = last.saturating_add(1);
            }
        }
        figures.conflicts = conflicts.lines().count() as u64;
        Some(figures)
    }
}

/// To count takes at most one part in so many of the reader's time.
const SHARE: u32 = 300;

/// What was counted last: of how many events, when, and how long that took.
struct Counted {
    figures: Figures,
    events: u64,
    at: Instant,
    took: Duration,
}

type Reply<T> = oneshot::Sender<Result<T, Error>>;

/// The last answer to each question.
#[derive(Default)]
pub struct Cache(Mutex<HashMap<&'static str, Arc<Answer>>>);

impl Cache {
    /// The last answer, where it is of at least so many events.
    pub fn get(&self, what: What, at_least: u64) -> Option<Arc<Answer>> {
        self.0.lock().unwrap().get(name_of(what)).filter(|it| it.count >= at_least).cloned()
    }

    fn put(&self, what: What, answer: Arc<Answer>) {
        self.0.lock().unwrap().insert(name_of(what), answer);
    }
}

pub struct Reader {
    site: Site,
    count: watch::Sender<u64>,
    state: Arc<State>,
    metrics: Arc<Metrics>,
    /// The name of the set that had so many events.
    name: Option<(u64, Arc<str>)>,
    /// The last page of arrivals, with the mark that it is behind and how many events there were.
    page: Option<(u64, u64, Option<Arc<Page>>)>,
    counted: Option<Counted>,
}

impl Reader {
    pub fn new(site: Site, count: watch::Sender<u64>, state: Arc<State>, metrics: Arc<Metrics>) -> Reader {
        Reader { site, count, state, metrics, name: None, page: None, counted: None }
    }

    /// Answers until nobody can ask any more.
    pub fn run(mut self, mut asked: mpsc::Receiver<Ask>) {
        while let Some(ask) = asked.blocking_recv() {
            let start = Instant::now();
            let label = match ask {
                Ask::Applied(bodies, count) => {
                    self.apply(&bodies, count);
                    "applied"
                }
                Ask::Answer(what, at_least, reply) => {
                    let _ = reply.send(self.answer(what, at_least));
                    name_of(what)
                }
                Ask::WithSummary(what, reply) => {
                    let _ = reply.send(self.with_summary(what));
                    name_of(what)
                }
                Ask::Delta(summary, from, events, bytes, reply) => {
                    let _ = reply.send(self.site.delta_part(&summary, from, events, bytes));
                    "delta"
                }
                Ask::Compare(summary, reply) => {
                    let _ = reply.send(self.site.compare(&summary));
                    "compare"
                }
                Ask::Arrivals(after, reply) => {
                    let _ = reply.send(self.arrivals(after));
                    "arrivals"
                }
                Ask::Get(source, id, reply) => {
                    let _ = reply.send(self.get(&source, &id));
                    "get"
                }
                Ask::Figures(reply) => {
                    let _ = reply.send(self.figures());
                    "figures"
                }
            };
            let time = start.elapsed().as_secs_f64();
            self.metrics.reader_seconds.with_label_values(&[label]).observe(time);
        }
    }

    fn apply(&mut self, bodies: &[Bytes], count: Option<u64>) {
        let bodies: Vec<&[u8]> = bodies.iter().map(|it| &it[..]).collect();
        let taken = self.site.take_each(&bodies);
        // Where memory ran out in either site the sets differ, and answers would be of another set than is kept.
        if taken.is_err() || count.is_some_and(|it| it != self.site.len()) {
            give_up("the set that is answered from isn't the one that is kept");
        }
        let _ = self.count.send(self.site.len());
    }

    /// The answer to a question, made once for all that ask meanwhile.
    fn answer(&mut self, what: What, at_least: u64) -> Result<Arc<Answer>, Error> {
        if let Some(had) = self.state.cache.get(what, at_least) {
            return Ok(had);
        }
        let text = match what {
            What::Question(question) => self.site.ask(question)?,
            What::Summary => self.site.summary()?,
            What::Cover => self.site.cover()?,
        };
        let answer = Arc::new(Answer { text: text.into(), count: self.site.len(), tag: self.tag()? });
        self.state.cache.put(what, answer.clone());
        Ok(answer)
    }

    fn with_summary(&mut self, what: What) -> Result<Answer, Error> {
        let count = self.site.len();
        let (summary, answer) = (self.answer(What::Summary, count)?, self.answer(what, count)?);
        let text = [&summary.text[..], &answer.text[..]].concat().into();
        Ok(Answer { text, count, tag: answer.tag.clone() })
    }

    fn tag(&mut self) -> Result<Arc<str>, Error> {
        let count = self.site.len();
        if let Some((_, name)) = self.name.as_ref().filter(|it| it.0 == count) {
            return Ok(name.clone());
        }
        let name: String = self.site.name()?.iter().map(|it| format!("{it:02x}")).collect();
        let name: Arc<str> = name.into();
        self.name = Some((count, name.clone()));
        Ok(name)
    }

    fn arrivals(&mut self, after: u64) -> Result<Option<Arc<Page>>, Error> {
        let count = self.site.len();
        // Consumers that have everything all ask for the same page next.
        if let Some((_, _, page)) = self.page.as_ref().filter(|it| (it.0, it.1) == (after, count)) {
            return Ok(page.clone());
        }
        let page = self.site.arrivals(after)?.map(Arc::new);
        self.page = Some((after, count, page.clone()));
        Ok(page)
    }

    /// The events of a source and an id, a line each, the one that is shown first.
    fn get(&mut self, source: &str, id: &str) -> Result<Answer, Error> {
        let mut text = String::new();
        for event in self.site.get(source, id)? {
            text.push_str(&event);
            text.push('\n');
        }
        Ok(Answer { text: text.into(), count: self.site.len(), tag: self.tag()? })
    }

    fn figures(&mut self) -> Result<Figures, Error> {
        let events = self.site.len();
        let is_new = |it: &&Counted| it.events == events || it.at.elapsed() < it.took * SHARE;
        if let Some(had) = self.counted.as_ref().filter(is_new) {
            return Ok(had.figures);
        }
        let start = Instant::now();
        let (cover, conflicts) = (self.site.cover()?, self.site.ask(Question::Conflicts)?);
        let figures = Figures::of(&cover, &conflicts).ok_or(Error::NotUtf8)?;
        self.counted = Some(Counted { figures, events, at: Instant::now(), took: start.elapsed() });
        Ok(figures)
    }
}

#[cfg(test)]
mod tests {
    use super::*;

    #[test]
    fn answers_are_given_again_where_they_have_all() {
        let cache = Cache::default();
        assert!(cache.get(What::Summary, 0).is_none());
        cache.put(What::Summary, Arc::new(Answer { text: Bytes::new(), count: 7, tag: "a".into() }));
        let has = |what, at_least| cache.get(what, at_least).is_some();
        assert!(has(What::Summary, 0) && has(What::Summary, 7) && !has(What::Summary, 8));
        assert!(!has(What::Cover, 0));
    }

    #[test]
    fn figures_are_counted() {
        let cover = r#"{"sources":{"/a":[[1,2]],"/b":[[2,3],[9,9]],"/c\"":[[9223372036854775807,9223372036854775807]]},"version":1}"#;
        let told = Figures::of(cover, "x\ny\n").unwrap();
        assert_eq!((told.sources, told.gaps, told.conflicts), (3, 3, 2));
        assert_eq!(told.missing, 6.0 + 9223372036854775806.0);
        let none = Figures::of(r#"{"sources":{},"version":1}"#, "").unwrap();
        assert_eq!(none, Figures::default());
    }

    #[test]
    fn each_answer_has_a_name_of_its_own() {
        let names: std::collections::HashSet<&str> = ALL.iter().map(|it| name_of(it.1)).collect();
        assert_eq!(names.len(), ALL.len());
        assert!(ALL.iter().all(|it| name_of(it.1) == it.0));
    }
}
