//! Events that carry no number: those of sources whose home this region is get one, before they are taken.
//!
//! The library numbers them over a file of its own, in which each text has one number for ever. So what is given again,
//! as behind a crash between the two files, gets the number that it has.

use crate::access::matches;
use crate::feed::raw_events;
use crate::library::{self, Error, Numbers, Site};
use crate::settings::{Number, Settings};
use hyper::body::Bytes;
use serde_json::value::RawValue;
use std::collections::BTreeMap;
use std::path::PathBuf;
use std::thread::JoinHandle;
use tokio::sync::{mpsc, oneshot};

/// About how many bytes of events one transaction numbers.
const GROUP: usize = 256 << 10;
/// Any number, by which the library reads an event that has none.
const ANY: &str = "\"sequence\":\"00000000000000000001\"";

/// Events that are to be numbered, and all of their body in its order.
pub struct Plan {
    events: Vec<String>,
    /// Which of them have no number.
    bare: Vec<usize>,
    /// The sources of all of them.
    pub sources: Vec<String>,
}

/// What is to be done with a body that isn't taken as it is.
pub enum Planned {
    Number(Plan),
    /// It is refused as it is; the homes of sources that it has, where the settings say them.
    Refuse(BTreeMap<String, String>),
}

impl Plan {
    /// What the settings say of a body whose events at fault the lines name. Time in proportion to the bytes.
    pub fn of(bytes: &[u8], lines: &str, numbers: &[Number]) -> Result<Planned, Error> {
        let refuse = Ok(Planned::Refuse(BTreeMap::new()));
        let Some(given) = raw_events(bytes) else {
            return refuse;
        };
        let mut events: Vec<String> = given.iter().map(|it| it.get().to_owned()).collect();
        let Some(faults) = faults_of(lines, events.len()) else {
            return refuse;
        };
        let mut bare = Vec::new();
        for (at, fault) in faults {
            let fault = match fault.as_str() {
                "DataNumber" => match carried(&events[at], numbers)? {
                    Some((event, fault)) => {
                        events[at] = event;
                        fault
                    }
                    None => return refuse,
                },
                _ => fault,
            };
            match fault.as_str() {
                "" => {}
                "NoSequence" => bare.push(at),
                _ => return refuse,
            }
        }
        let texts: Vec<String> = bare.iter().map(|at| with_any_number(&events[*at])).collect();
        let wanted = library::sources_of(array_of(&texts).as_bytes())?;
        let home = |source: &String| numbers.iter().find(|it| matches(&it.sources, source));
        if wanted.iter().any(|it| home(it).map_or(true, |it| it.home.is_some())) {
            let homes = wanted.iter().filter_map(|it| Some((it.clone(), home(it)?.home.clone()?)));
            return Ok(Planned::Refuse(homes.collect()));
        }
        let mut all = events.clone();
        for (at, text) in bare.iter().zip(texts) {
            all[*at] = text;
        }
        let sources = library::sources_of(array_of(&all).as_bytes())?;
        Ok(Planned::Number(Plan { events, bare, sources }))
    }

    /// How many events are to be numbered.
    pub fn count(&self) -> usize {
        self.bare.len()
    }

    /// The events that are to be numbered.
    pub fn to_number(&self) -> Bytes {
        let bare: Vec<&str> = self.bare.iter().map(|at| self.events[*at].as_str()).collect();
        array_of(&bare).into()
    }

    /// All events of the body, with the numbers that those got.
    pub fn with(mut self, numbered: &str) -> Option<Bytes> {
        let numbered = raw_events(numbered.as_bytes())?;
        if numbered.len() != self.bare.len() {
            return None;
        }
        for (at, event) in self.bare.iter().zip(numbered) {
            self.events[*at] = event.get().to_owned();
        }
        Some(array_of(&self.events).into())
    }
}

/// The fault of each event that has one, by its index; none where bytes are at fault as a whole.
fn faults_of(lines: &str, events: usize) -> Option<Vec<(usize, String)>> {
    #[derive(serde::Deserialize)]
    struct Line {
        index: Option<usize>,
        fault: String,
    }
    let line = |it: &str| {
        let line: Line = serde_json::from_str(it).ok()?;
        let at = line.index.or((events == 1).then_some(0)).filter(|it| *it < events)?;
        Some((at, line.fault))
    };
    lines.lines().map(line).collect()
}

/// An event with its data as bytes, just as they came, where the settings want that of its source; and its fault then,
/// which is empty where it has none.
fn carried(event: &str, numbers: &[Number]) -> Result<Option<(String, String)>, Error> {
    let Ok(mut members) = serde_json::from_str::<BTreeMap<String, &RawValue>>(event) else {
        return Ok(None);
    };
    let Some(data) = members.remove("data") else {
        return Ok(None);
    };
    let mut text = format!("{{\"data_base64\":\"{}\"", base64::encode(data.get()));
    if !members.contains_key("datacontenttype") {
        text.push_str(",\"datacontenttype\":\"application/json\"");
    }
    for (name, value) in &members {
        text.push_str(&format!(",{}:{}", serde_json::Value::from(name.as_str()), value.get()));
    }
    text.push('}');
    let lines = library::faults(text.as_bytes())?;
    let Some(faults) = faults_of(&lines, 1) else {
        return Ok(None);
    };
    let fault = faults.into_iter().next().map_or(String::new(), |it| it.1);
    let read = match fault.as_str() {
        "" => text.clone(),
        "NoSequence" => with_any_number(&text),
        _ => return Ok(None),
    };
    let sources = library::sources_of(read.as_bytes())?;
    let is_carried = |it: &String| numbers.iter().any(|number| number.carry && matches(&number.sources, it));
    Ok(sources.iter().all(is_carried).then_some((text, fault)))
}

/// An event, an object that has members, with a number.
fn with_any_number(event: &str) -> String {
    let rest = event.trim_start().strip_prefix('{').unwrap_or(event);
    format!("{{{ANY},{rest}")
}

fn array_of<T: AsRef<str>>(events: &[T]) -> String {
    let mut text = String::from("[");
    for (at, event) in events.iter().enumerate() {
        if at > 0 {
            text.push(',');
        }
        text.push_str(event.as_ref());
    }
    text.push(']');
    text
}

/// Takes into the site what was numbered and isn't in it, and answers how many events that were. A stop came between the
/// two files, or the database refused; whoever gave such an event may never give it again, and then its number would be a
/// gap for ever. Time and memory in proportion to what was numbered; the memory is given back.
pub fn settle(site: &mut Site, settings: &Settings) -> Result<u64, Error> {
    let Some(path) = settings.numbers.as_deref().filter(|it| it.exists()) else {
        return Ok(0);
    };
    let (mut numbered, mut fresh) = (Site::open_with_cache(path, settings.cache_mib)?, 0);
    for page in numbered.delta(&site.cover()?) {
        fresh += site.take(page?.json.as_bytes())?.fresh;
    }
    Ok(fresh)
}

/// Bytes that spell an array of events without numbers, and where their numbered text goes.
struct Job {
    bytes: Bytes,
    reply: oneshot::Sender<Result<String, Error>>,
}

/// The thread that has the file of numbers.
pub struct Numberer(mpsc::UnboundedSender<Job>);

impl Numberer {
    /// Opens the file of the settings and starts the thread; none where no source is numbered here.
    pub fn open(settings: &Settings) -> Result<Option<(Numberer, JoinHandle<()>)>, Error> {
        let Some(path) = settings.numbers.clone() else {
            return Ok(None);
        };
        let (mib, base) = (settings.cache_mib, settings.numbers_base);
        let numbers = Some(Numbers::open(&path, mib, base)?);
        let (jobs, waiting) = mpsc::unbounded_channel();
        let worker = Worker { path, mib, base, numbers, waiting };
        let thread = std::thread::Builder::new().name("numberer".into()).spawn(move || worker.run());
        Ok(Some((Numberer(jobs), thread.map_err(|_| Error::System)?)))
    }

    /// The events with their numbers, an array in the same order, once no crash takes the numbers back.
    pub async fn number(&self, bytes: Bytes) -> Result<String, Error> {
        let (reply, answer) = oneshot::channel();
        match self.0.send(Job { bytes, reply }) {
            Ok(()) => answer.await.unwrap_or(Err(Error::Busy)),
            Err(_) => Err(Error::Busy),
        }
    }
}

struct Worker {
    path: PathBuf,
    mib: u32,
    base: u64,
    numbers: Option<Numbers>,
    waiting: mpsc::UnboundedReceiver<Job>,
}

impl Worker {
    /// Numbers what comes until nobody can ask any more. What waits by then goes into the same transaction.
    fn run(mut self) {
        let mut next = None;
        while let Some(first) = next.take().or_else(|| self.waiting.blocking_recv()) {
            let (mut bytes, mut group) = (first.bytes.len(), vec![first]);
            while let Ok(more) = self.waiting.try_recv() {
                if bytes + more.bytes.len() > GROUP {
                    next = Some(more);
                    break;
                }
                bytes += more.bytes.len();
                group.push(more);
            }
            self.answer(group);
        }
    }

    fn answer(&mut self, group: Vec<Job>) {
        if let Some(answers) = self.joined(&group) {
            for (job, answer) in group.into_iter().zip(answers) {
                let _ = job.reply.send(Ok(answer));
            }
            return;
        }
        // One that can't be numbered is refused alone.
        for job in group {
            let answer = self.number(&job.bytes);
            let _ = job.reply.send(answer);
        }
    }

    /// The answers to several, numbered in one transaction; none where one of them can't be numbered, or there is one alone.
    fn joined(&mut self, group: &[Job]) -> Option<Vec<String>> {
        if group.len() < 2 {
            return None;
        }
        let each: Option<Vec<Vec<&RawValue>>> = group.iter().map(|it| raw_events(&it.bytes)).collect();
        let each = each?;
        let all: Vec<&str> = each.iter().flatten().map(|it| it.get()).collect();
        let numbered = self.number(array_of(&all).as_bytes()).ok()?;
        let mut events = raw_events(numbered.as_bytes())?.into_iter();
        let part = |count: usize, events: &mut std::vec::IntoIter<&RawValue>| {
            let part: Vec<&str> = events.by_ref().take(count).map(|it| it.get()).collect();
            (part.len() == count).then(|| array_of(&part))
        };
        each.iter().map(|it| part(it.len(), &mut events)).collect()
    }

    fn number(&mut self, bytes: &[u8]) -> Result<String, Error> {
        if self.numbers.is_none() {
            self.numbers = Some(Numbers::open(&self.path, self.mib, self.base)?);
        }
        let numbers = self.numbers.as_mut().ok_or(Error::Store)?;
        let answer = numbers.number(bytes);
        // Behind a fault of the file or of memory it is opened again.
        if let Err(why) = answer {
            if !matches!(why, Error::NoEvents | Error::HasSequence | Error::TooLarge) {
                tracing::error!(%why, "events aren't numbered");
                self.numbers = None;
            }
        }
        answer
    }
}

#[cfg(test)]
mod tests {
    use super::*;

    fn number(sources: &[&str], carry: bool, home: Option<&str>) -> Number {
        Number { sources: sources.iter().map(|it| it.to_string()).collect(), carry, home: home.map(str::to_owned) }
    }

    fn event(source: &str, more: &str) -> String {
        format!(r#"{{"specversion":"1.0","id":"1","source":"{source}","type":"t"{more}}}"#)
    }

    fn plan(events: &[String], numbers: &[Number]) -> Planned {
        let bytes = array_of(events);
        Plan::of(bytes.as_bytes(), &library::faults(bytes.as_bytes()).unwrap(), numbers).unwrap()
    }

    #[test]
    fn events_of_home_are_numbered_in_their_places() {
        let here = [number(&["/here/*"], false, None)];
        let has = event("/x", r#","sequence":"00000000000000000007""#);
        let Planned::Number(plan) = plan(&[event("/here/a", ""), has.clone(), event("/here/b", "")], &here) else {
            panic!("refused");
        };
        assert_eq!((plan.count(), plan.sources.clone()), (2, vec!["/here/a".into(), "/here/b".into(), "/x".into()]));
        assert_eq!(raw_events(&plan.to_number()).unwrap().len(), 2);
        assert_eq!(
            &plan.with(r#"[{"a":1},{"b":2}]"#).unwrap()[..],
            format!(r#"[{{"a":1}},{has},{{"b":2}}]"#).as_bytes()
        );
    }

    #[test]
    fn others_are_refused() {
        let numbers = [number(&["/here/*"], false, None), number(&["/there/*"], false, Some("https://there"))];
        let refused = |events: &[String]| match plan(events, &numbers) {
            Planned::Refuse(homes) => homes.into_iter().collect::<Vec<_>>(),
            Planned::Number(_) => panic!("numbered"),
        };
        assert!(refused(&[event("/else", "")]).is_empty());
        assert!(refused(&[event("/here/a", r#","sequence":"7""#)]).is_empty());
        assert!(refused(&[event("/here/a", ""), "{}".into()]).is_empty());
        assert!(refused(&[event("/here/a", r#","data":1.5"#)]).is_empty());
        let homes = [("/there/x".to_owned(), "https://there".to_owned())];
        assert_eq!(refused(&[event("/here/a", ""), event("/there/x", "")]), homes);
    }

    #[test]
    fn data_is_carried_as_it_came() {
        let numbers = [number(&["/a"], true, None)];
        let Planned::Number(plan) = plan(&[event("/a", ",\"data\":{\"x\": 1.50}")], &numbers) else {
            panic!("refused");
        };
        let text = String::from_utf8(plan.to_number().to_vec()).unwrap();
        assert!(text.contains(&format!("\"data_base64\":\"{}\"", base64::encode("{\"x\": 1.50}"))), "{text}");
        assert!(text.contains("\"datacontenttype\":\"application/json\"") && !text.contains("\"data\""), "{text}");
    }
}
