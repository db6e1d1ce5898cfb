//! What three tables of views cost an event in plain Rust, in three ways. The word is `today` (what `kept_views`
//! does), `lent` (each table is looked up once, by lent texts, and only an id is copied) or `quick` (a hash that
//! whoever picks keys can flood, and rows that are appended, without ids, so that no event may come late).
//! A million events in key order, made a hundred at once outside of the time; each has 1,200 bytes beside its texts.
use std::collections::{BTreeMap, HashMap};
use std::hash::{BuildHasherDefault, Hasher};
use std::time::Instant;

#[derive(Default)]
struct Multiply(u64);

impl Hasher for Multiply {
    fn write(&mut self, bytes: &[u8]) {
        for chunk in bytes.chunks(8) {
            let mut word = [0; 8];
            word[..chunk.len()].copy_from_slice(chunk);
            self.0 = (self.0.rotate_left(5) ^ u64::from_le_bytes(word)).wrapping_mul(0x517c_c1b7_2722_0a95);
        }
    }

    fn finish(&self) -> u64 {
        self.0
    }
}

type Quick = BuildHasherDefault<Multiply>;

struct Event {
    source: String,
    id: String,
    kind: &'static str,
    subject: String,
    day: i32,
    number: u64,
    _text: Vec<u8>,
}

fn event(i: u64) -> Event {
    let kinds = ["order.placed", "order.paid", "order.sent", "order.closed"];
    Event {
        source: "/orders".into(),
        id: format!("order-{i:012}"),
        kind: kinds[(i % 4) as usize],
        subject: format!("customer-{:08}", i % 10_000),
        day: (i % 365) as i32,
        number: i + 1,
        _text: vec![i as u8; 1200],
    }
}

trait Tables {
    fn put(&mut self, event: &Event, place: u64);
}

struct Nothing;

#[derive(Default)]
struct Today {
    kinds: HashMap<String, u64>,
    days: HashMap<(String, i32), u64>,
    threads: HashMap<(String, String), BTreeMap<(u64, String), u64>>,
}

#[derive(Default)]
struct Lent {
    kinds: HashMap<String, (u64, HashMap<i32, u64>)>,
    threads: HashMap<String, HashMap<String, BTreeMap<(u64, String), u64>>>,
}

#[derive(Default)]
struct Quickest {
    kinds: HashMap<String, (u64, HashMap<i32, u64, Quick>), Quick>,
    threads: HashMap<String, HashMap<String, Vec<(u64, u64)>, Quick>, Quick>,
}

/// The value at a text, which is copied where it isn't there.
macro_rules! at {
    ($table:expr, $text:expr) => {
        match $table.get_mut($text) {
            Some(value) => value,
            None => $table.entry($text.to_string()).or_default(),
        }
    };
}

impl Tables for Nothing {
    fn put(&mut self, _event: &Event, _place: u64) {}
}

impl Tables for Today {
    fn put(&mut self, event: &Event, place: u64) {
        let kind = event.kind.to_string();
        let count = self.kinds.get(&kind).copied().unwrap_or(0);
        self.kinds.insert(kind, count + 1);
        let day = (event.kind.to_string(), event.day);
        let count = self.days.get(&day).copied().unwrap_or(0);
        self.days.insert(day, count + 1);
        let thread = (event.source.clone(), event.subject.clone());
        self.threads.entry(thread).or_default().insert((event.number, event.id.clone()), place);
    }
}

impl Tables for Lent {
    fn put(&mut self, event: &Event, place: u64) {
        let row = at!(self.kinds, event.kind);
        row.0 += 1;
        *row.1.entry(event.day).or_default() += 1;
        let subjects = at!(self.threads, event.source.as_str());
        at!(subjects, event.subject.as_str()).insert((event.number, event.id.clone()), place);
    }
}

impl Tables for Quickest {
    fn put(&mut self, event: &Event, place: u64) {
        let row = at!(self.kinds, event.kind);
        row.0 += 1;
        *row.1.entry(event.day).or_default() += 1;
        let subjects = at!(self.threads, event.source.as_str());
        at!(subjects, event.subject.as_str()).push((event.number, place));
    }
}

fn main() {
    let way = std::env::args().nth(1).unwrap_or_default();
    let mut tables: Box<dyn Tables> = match way.as_str() {
        "today" => Box::<Today>::default(),
        "lent" => Box::<Lent>::default(),
        "quick" => Box::<Quickest>::default(),
        _ => Box::new(Nothing),
    };
    let (mut kept, mut nanos) = (Vec::new(), 0);
    for page in 0..10_000 {
        let events: Vec<Event> = (0..100).map(|i| event(page * 100 + i)).collect();
        let start = Instant::now();
        for (place, event) in (page * 100..).zip(&events) {
            tables.put(event, place);
        }
        nanos += start.elapsed().as_nanos();
        kept.extend(events);
    }
    println!("{way}: {} ns an event of {}", nanos / kept.len() as u128, kept.len());
}
