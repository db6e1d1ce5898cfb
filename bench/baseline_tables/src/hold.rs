//! A set of events that a process holds open over its database: what a service would write with rusqlite and a map.

use super::{batch, events_in, open, Done, PAGE};
use crate::event::Event;
use rusqlite::{params, Connection};
use serde_json::Value;
use std::collections::BTreeMap;
use std::io::{BufRead, BufReader};
use std::time::Instant;

/// Events by source, id and text.
type Set = BTreeMap<(String, String, String), Event>;

struct Held {
    base: Connection,
    set: Set,
}

fn load(path: &str) -> Result<Held, Box<dyn std::error::Error>> {
    let base = open(path)?;
    let mut set = Set::new();
    {
        let mut rows = base.prepare("SELECT body FROM inbox")?;
        let mut rows = rows.query([])?;
        while let Some(row) = rows.next()? {
            for event in events_in(row.get_ref(0)?.as_bytes()?)? {
                set.insert((event.source.clone(), event.id.clone(), event.text.clone()), event);
            }
        }
    }
    Ok(Held { base, set })
}

impl Held {
    /// Keeps the events that aren't there, syncs them, and then counts them in.
    fn take(&mut self, line: &[u8]) -> Done {
        let change = self.base.transaction()?;
        let mut fresh = Vec::new();
        {
            let mut insert = change.prepare_cached(
                "INSERT INTO inbox (source, id, number, body) VALUES (?1, ?2, ?3, ?4) ON CONFLICT DO NOTHING",
            )?;
            for event in events_in(line)? {
                let number = *event.sequence.as_ref().map_err(|fault| format!("{fault:?}"))? as i64;
                if insert.execute(params![event.source, event.id, number, event.text])? > 0 {
                    fresh.push(event);
                }
            }
        }
        change.commit()?;
        for event in fresh {
            self.set.insert((event.source.clone(), event.id.clone(), event.text.clone()), event);
        }
        Ok(String::new())
    }

    /// A page of events in the order in which they came.
    fn arrivals(&self, after: u64) -> Done {
        let mut rows = self.base.prepare_cached("SELECT body FROM inbox WHERE place > ?2 ORDER BY place LIMIT ?1")?;
        let texts = rows.query_map(params![PAGE as i64, after as i64], |row| row.get(0))?;
        Ok(batch(&texts.collect::<Result<Vec<String>, _>>()?))
    }

    /// The first page of what a peer lacks, by the text of its summary.
    fn delta(&self, summary: &[u8], most: u64) -> Done {
        let summary: Value = serde_json::from_slice(summary)?;
        let sources: BTreeMap<&str, Vec<(u64, u64)>> = summary["sources"]
            .as_object()
            .ok_or("no summary")?
            .iter()
            .map(|(source, spans)| {
                let spans = spans.as_array().map_or(&[][..], |it| it);
                let ends = |it: &Value| (it[0].as_u64().unwrap_or(0), it[1].as_u64().unwrap_or(0));
                (source.as_str(), spans.iter().map(ends).collect())
            })
            .collect();
        let holds = |event: &Event| {
            let number = event.sequence.as_ref().copied().unwrap_or(0);
            let spans = sources.get(event.source.as_str()).map_or(&[][..], |it| it);
            let behind = spans.partition_point(|span| span.0 <= number);
            behind > 0 && number <= spans[behind - 1].1
        };
        let lacking = self.set.values().filter(|event| !holds(event)).take(most as usize);
        Ok(batch(&lacking.map(|event| event.text.clone()).collect::<Vec<_>>()))
    }

    /// The types of the shown events, which are the first of each source and id, with how many have each.
    fn kinds(&self) -> Done {
        let mut counts: BTreeMap<&str, u64> = BTreeMap::new();
        let mut last: Option<(&str, &str)> = None;
        for ((source, id, _), event) in &self.set {
            let key = Some((source.as_str(), id.as_str()));
            if key != last {
                *counts.entry(&event.kind).or_default() += 1;
            }
            last = key;
        }
        let lines = counts
            .iter()
            .map(|(kind, count)| Value::from(vec![Value::from(*kind), Value::from(*count)]).to_string() + "\n");
        Ok(lines.collect())
    }
}

/// Does it so many times, and tells the middle time, in microseconds.
fn middle(name: &str, times: usize, mut work: impl FnMut(usize) -> Done) -> Done {
    let mut micros = Vec::new();
    for i in 0..times {
        let start = Instant::now();
        work(i)?;
        micros.push(start.elapsed().as_micros());
    }
    micros.sort_unstable();
    Ok(format!("{name}: {} us\n", micros[times / 2]))
}

/// Opens a database and times what a service does with it. The file has lines: a hundred with one new event each,
/// then ten with a hundred each and ten with 64.
pub fn hold(path: &str, file: &str, summary: &str) -> Done {
    let lines = BufReader::new(std::fs::File::open(file)?).split(b'\n').collect::<Result<Vec<_>, _>>()?;
    let summary = std::fs::read(summary)?;
    let start = Instant::now();
    let mut held = load(path)?;
    let mut told = format!("open: {} us\n", start.elapsed().as_micros());
    told += &middle("take one", 100, |i| held.take(&lines[i]))?;
    told += &middle("take a hundred", 10, |i| held.take(&lines[100 + i]))?;
    told += &middle("take 64 at once", 10, |i| held.take(&lines[110 + i]))?;
    told += &middle("delta page", 10, |_| held.delta(&summary, PAGE))?;
    told += &middle("delta page of 2,000", 10, |_| held.delta(&summary, 2000))?;
    told += &middle("arrivals page", 10, |i| held.arrivals(100 * i as u64))?;
    told += &middle("kinds", 10, |_| held.kinds())?;
    Ok(told)
}
