//! What `site` answers to its questions about files of events, by a plain Rust program over `serde_json`: the measure
//! for time and memory, and a second opinion on what is printed. It proves nothing.

mod event;
mod interval;
mod question;

use event::{Event, Fault};
use std::fs::File;
use std::io::{Read, Write};
use std::process::ExitCode;

const MAX_INPUT: u64 = 33_554_432;

/// Why a file is refused, in the words of the error line.
enum Refusal {
    CannotRead,
    TooLarge,
    NotJson,
    NotEvents,
    Event(usize, Fault),
}

impl std::fmt::Display for Refusal {
    fn fmt(&self, f: &mut std::fmt::Formatter<'_>) -> std::fmt::Result {
        match self {
            Refusal::CannotRead => write!(f, "cannot read"),
            Refusal::TooLarge => write!(f, "too large"),
            Refusal::NotJson => write!(f, "not JSON"),
            Refusal::NotEvents => write!(f, "not an event or a batch"),
            Refusal::Event(index, fault) => write!(f, "event {index}: {fault:?}"),
        }
    }
}

fn bytes_of(path: &str) -> Result<Vec<u8>, Refusal> {
    let file = File::open(path).map_err(|_| Refusal::CannotRead)?;
    let mut bytes = Vec::new();
    file.take(MAX_INPUT + 1).read_to_end(&mut bytes).map_err(|_| Refusal::CannotRead)?;
    if bytes.len() as u64 > MAX_INPUT {
        return Err(Refusal::TooLarge);
    }
    Ok(bytes)
}

fn events_of(bytes: &[u8]) -> Result<Vec<Event>, Refusal> {
    let members = match serde_json::from_slice(bytes).map_err(|_| Refusal::NotJson)? {
        serde_json::Value::Array(items) => items,
        event @ serde_json::Value::Object(_) => vec![event],
        _ => return Err(Refusal::NotEvents),
    };
    let mut events = Vec::with_capacity(members.len());
    for (index, member) in members.into_iter().enumerate() {
        events.push(Event::of(member).map_err(|fault| Refusal::Event(index, fault))?);
    }
    match events.iter().position(|event| event.sequence.is_err()) {
        Some(index) => Err(Refusal::Event(index, events[index].sequence.clone().unwrap_err())),
        None => Ok(events),
    }
}

fn main() -> ExitCode {
    let words: Vec<String> = std::env::args().skip(1).collect();
    let Some((query, paths)) = words.split_first() else {
        eprintln!("usage: site-baseline cover|shown|conflicts|latest|kinds|days|gaps FILE..");
        return ExitCode::from(2);
    };
    let mut files = Vec::new();
    for path in paths {
        match bytes_of(path) {
            Ok(bytes) => files.push(bytes),
            Err(refusal) => {
                eprintln!("site: {path}: {refusal}");
                return ExitCode::from(1);
            }
        }
    }
    let mut lists = Vec::new();
    for (path, bytes) in paths.iter().zip(files) {
        match events_of(&bytes) {
            Ok(events) => lists.push(events),
            Err(refusal) => {
                eprintln!("site: {path}: {refusal}");
                return ExitCode::from(1);
            }
        }
    }
    let text = match query.as_str() {
        "cover" => question::cover(&lists),
        "conflicts" => question::conflicts(&lists),
        "latest" => question::latest(&lists),
        "kinds" => question::kinds(&lists),
        "days" => question::days(&lists),
        "gaps" => question::gaps(&lists),
        _ => question::shown(&lists),
    };
    match std::io::stdout().write_all(text.as_bytes()) {
        Ok(()) => ExitCode::SUCCESS,
        Err(_) => ExitCode::from(1),
    }
}
