//! What the database commands of `site` do, by a plain Rust program over rusqlite: the measure for time and memory.
//! It proves nothing, and doesn't test the rows that it finds.
//!
//! usage: site-baseline-tables take DB FILE.. | follow DB FILE | delta DB FROM SUMMARY | scrub DB FROM | place DB ORDER
//!     | relay DB AFTER | hold DB LINES SUMMARY

#[allow(dead_code)]
#[path = "../../baseline/src/event.rs"]
mod event;
mod hold;

use event::Event;
use rusqlite::{params, Connection};
use serde_json::Value;
use std::error::Error;
use std::fmt::Write as _;
use std::fs::File;
use std::io::{BufRead, BufReader, Write};

type Done = Result<String, Box<dyn Error>>;

const PAGE: u64 = 100;

fn open(path: &str) -> Result<Connection, rusqlite::Error> {
    let base = Connection::open(path)?;
    base.execute_batch(
        "PRAGMA journal_mode = WAL; PRAGMA synchronous = FULL;
         CREATE TABLE IF NOT EXISTS inbox (place INTEGER PRIMARY KEY, source TEXT NOT NULL, id TEXT NOT NULL,
             number INTEGER NOT NULL, body TEXT NOT NULL, UNIQUE (source, id, body)) STRICT;",
    )?;
    Ok(base)
}

fn open_orders(path: &str) -> Result<Connection, rusqlite::Error> {
    let base = Connection::open(path)?;
    base.execute_batch(
        "PRAGMA journal_mode = WAL; PRAGMA synchronous = FULL;
         CREATE TABLE IF NOT EXISTS orders (number INTEGER PRIMARY KEY, state INTEGER NOT NULL) STRICT;
         CREATE TABLE IF NOT EXISTS outbox (number INTEGER PRIMARY KEY, kind INTEGER NOT NULL,
             order_number INTEGER NOT NULL, at TEXT NOT NULL) STRICT;",
    )?;
    Ok(base)
}

fn events_of(path: &str) -> Result<Vec<Event>, Box<dyn Error>> {
    let members = match serde_json::from_slice(&std::fs::read(path)?)? {
        Value::Array(items) => items,
        event => vec![event],
    };
    let mut events = Vec::with_capacity(members.len());
    for member in members {
        events.push(Event::of(member).map_err(|fault| format!("{fault:?}"))?);
    }
    Ok(events)
}

fn take(path: &str, files: &[String]) -> Done {
    let mut lists = Vec::new();
    for file in files {
        lists.push(events_of(file)?);
    }
    let mut base = open(path)?;
    let last: i64 = base.query_row("SELECT coalesce(max(place), 0) FROM inbox", [], |row| row.get(0))?;
    let (mut read, mut fresh) = (0, 0);
    let change = base.transaction()?;
    {
        let mut insert = change.prepare(
            "INSERT INTO inbox (place, source, id, number, body) VALUES (?1, ?2, ?3, ?4, ?5) ON CONFLICT DO NOTHING",
        )?;
        for event in lists.iter().flatten() {
            let number = *event.sequence.as_ref().map_err(|fault| format!("{fault:?}"))? as i64;
            read += 1;
            fresh += insert.execute(params![last + fresh as i64 + 1, event.source, event.id, number, event.text])?;
        }
    }
    change.commit()?;
    Ok(format!("read {read} new {fresh} repeated {}\n", read - fresh))
}

fn events_in(line: &[u8]) -> Result<Vec<Event>, String> {
    let members = match serde_json::from_slice(line).map_err(|_| "not JSON")? {
        Value::Array(items) => items,
        event => vec![event],
    };
    let mut events = Vec::with_capacity(members.len());
    for (index, member) in members.into_iter().enumerate() {
        let event = Event::of(member).map_err(|fault| format!("event {index}: {fault:?}"))?;
        event.sequence.as_ref().map_err(|fault| format!("event {index}: {fault:?}"))?;
        events.push(event);
    }
    Ok(events)
}

/// Keeps the lines that stand whole in the buffer, up to a thousand events, in one transaction, then answers them.
fn follow(path: &str, file: &str) -> Done {
    let mut input = BufReader::with_capacity(65_536, File::open(file)?);
    let mut base = open(path)?;
    let mut last: i64 = base.query_row("SELECT coalesce(max(place), 0) FROM inbox", [], |row| row.get(0))?;
    let (mut at, mut line, mut faults) = (0, Vec::new(), 0);
    let mut out = std::io::stdout().lock();
    loop {
        let (mut lines, mut events, mut is_over) = (Vec::new(), 0, false);
        while events < 1_000 {
            line.clear();
            is_over = input.read_until(b'\n', &mut line)? == 0;
            if is_over {
                break;
            }
            at += 1;
            let text = line.strip_suffix(b"\n").unwrap_or(&line);
            if !text.is_empty() {
                let found = events_in(text);
                events += found.as_ref().map_or(0, Vec::len);
                lines.push((at, found));
            }
            if !input.buffer().contains(&b'\n') {
                break;
            }
        }
        let mut answers = String::new();
        let change = base.transaction()?;
        {
            let mut insert = change.prepare_cached(
                "INSERT INTO inbox (place, source, id, number, body) VALUES (?1, ?2, ?3, ?4, ?5) ON CONFLICT DO NOTHING",
            )?;
            for (at, found) in &lines {
                match found {
                    Ok(events) => {
                        let mut fresh = 0;
                        for event in events {
                            let number = *event.sequence.as_ref().map_err(|fault| format!("{fault:?}"))? as i64;
                            let new = insert.execute(params![last + 1, event.source, event.id, number, event.text])?;
                            last += new as i64;
                            fresh += new;
                        }
                        let there = events.len() - fresh;
                        writeln!(answers, "{{\"line\":{at},\"new\":{fresh},\"repeated\":{there}}}")?;
                    }
                    Err(fault) => {
                        faults += 1;
                        writeln!(answers, "{{\"line\":{at},\"fault\":\"{fault}\"}}")?;
                    }
                }
            }
        }
        change.commit()?;
        out.write_all(answers.as_bytes())?;
        out.flush()?;
        if is_over {
            break;
        }
    }
    if faults > 0 {
        return Err(format!("{faults} lines refused").into());
    }
    Ok(String::new())
}

fn batch(texts: &[String]) -> String {
    format!("[{}]\n", texts.join(","))
}

fn scrub(path: &str, from: u64) -> Done {
    let base = open(path)?;
    let mut pages = base.prepare("SELECT body FROM inbox ORDER BY source, id, body LIMIT ?1 OFFSET ?2")?;
    let texts = pages.query_map(params![PAGE, from], |row| row.get(0))?.collect::<Result<Vec<String>, _>>()?;
    Ok(batch(&texts))
}

fn delta(path: &str, from: u64, summary: &str) -> Done {
    let summary: Value = serde_json::from_slice(&std::fs::read(summary)?)?;
    let holds = |source: &str, number: u64| {
        summary["sources"][source]
            .as_array()
            .map_or(false, |spans| spans.iter().any(|s| s[0].as_u64() <= Some(number) && Some(number) <= s[1].as_u64()))
    };
    let base = open(path)?;
    let mut rows = base.prepare("SELECT source, number, body FROM inbox ORDER BY source, id, body")?;
    let mut rows = rows.query([])?;
    let (mut passed, mut texts) = (0, Vec::new());
    while let Some(row) = rows.next()? {
        if holds(row.get_ref(0)?.as_str()?, row.get(1)?) {
            continue;
        }
        passed += 1;
        if passed > from {
            texts.push(row.get(2)?);
        }
        if texts.len() as u64 == PAGE {
            break;
        }
    }
    Ok(batch(&texts))
}

fn event_of(number: i64, order: i64, kind: i64, at: &str) -> String {
    let kind = ["placed", "shipped", "cancelled"][kind as usize - 1];
    format!("{{\"id\":\"{number:020}\",\"sequence\":\"{number:020}\",\"source\":\"/orders\",\"specversion\":\"1.0\",\"subject\":\"{order}\",\"time\":\"{at}\",\"type\":\"order.{kind}\"}}")
}

fn place(path: &str, order: i64) -> Done {
    let mut base = open_orders(path)?;
    let change = base.transaction()?;
    let last: i64 = change.query_row("SELECT coalesce(max(number), 0) FROM outbox", [], |row| row.get(0))?;
    let at = "2024-02-29T10:00:00Z";
    change.execute("INSERT INTO orders (number, state) VALUES (?1, 1)", params![order])?;
    change.execute(
        "INSERT INTO outbox (number, kind, order_number, at) VALUES (?1, 1, ?2, ?3)",
        params![last + 1, order, at],
    )?;
    change.commit()?;
    Ok(event_of(last + 1, order, 1, at) + "\n")
}

fn relay(path: &str, after: i64) -> Done {
    let base = open_orders(path)?;
    let mut rows =
        base.prepare("SELECT number, order_number, kind, at FROM outbox WHERE number > ?1 ORDER BY number LIMIT ?2")?;
    let texts = rows
        .query_map(params![after, PAGE], |row| {
            Ok(event_of(row.get(0)?, row.get(1)?, row.get(2)?, &row.get::<_, String>(3)?))
        })?
        .collect::<Result<Vec<String>, _>>()?;
    Ok(batch(&texts))
}

fn main() -> Result<(), Box<dyn Error>> {
    let words: Vec<String> = std::env::args().skip(1).collect();
    let text = match (words[0].as_str(), words[1].as_str()) {
        ("take", db) => take(db, &words[2..])?,
        ("follow", db) => follow(db, &words[2])?,
        ("delta", db) => delta(db, words[2].parse()?, &words[3])?,
        ("scrub", db) => scrub(db, words[2].parse()?)?,
        ("place", db) => place(db, words[2].parse()?)?,
        ("relay", db) => relay(db, words[2].parse()?)?,
        ("hold", db) => hold::hold(db, &words[2], &words[3])?,
        _ => return Err("no such command".into()),
    };
    print!("{text}");
    Ok(())
}
