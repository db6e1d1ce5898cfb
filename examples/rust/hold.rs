//! `hold DB LINES SUMMARY` opens a site over a database file and times what a service does with it.
//!
//! LINES has a hundred lines with one new event each, ten with a hundred each, ten with 64 each, and
//! 640 with one each; SUMMARY is that of a peer. What is printed but the last six lines is what `hold`
//! of bench/baseline_tables prints too.

use jumbetai::{Question, Site};
use std::error::Error;
use std::io::{BufRead, BufReader};
use std::time::Instant;

type Done = Result<(), Box<dyn Error>>;

/// Does it so many times, and prints the middle time, in microseconds.
fn middle(name: &str, times: usize, mut work: impl FnMut(usize) -> Done) -> Done {
    let mut micros = Vec::new();
    for i in 0..times {
        let start = Instant::now();
        work(i)?;
        micros.push(start.elapsed().as_micros());
    }
    micros.sort_unstable();
    println!("{name}: {} us", micros[times / 2]);
    Ok(())
}

/// Takes a line of which all events are new.
fn take(site: &mut Site, line: &[u8]) -> Done {
    let taken = site.take(line)?;
    if taken.fresh == 0 || taken.repeated > 0 {
        return Err(format!("not new: {taken:?}").into());
    }
    Ok(())
}

fn main() -> Done {
    let words: Vec<String> = std::env::args().skip(1).collect();
    let [file, lines, summary] = &words[..] else {
        return Err("usage: hold DB LINES SUMMARY".into());
    };
    let lines = BufReader::new(std::fs::File::open(lines)?)
        .split(b'\n')
        .collect::<Result<Vec<_>, _>>()?;
    let summary = std::fs::read_to_string(summary)?;
    let start = Instant::now();
    let mut site = Site::open(file)?;
    println!("open: {} us", start.elapsed().as_micros());
    middle("take one", 100, |i| take(&mut site, &lines[i]))?;
    middle("take a hundred", 10, |i| take(&mut site, &lines[100 + i]))?;
    middle("take 64 at once", 10, |i| take(&mut site, &lines[110 + i]))?;
    middle("delta page", 10, |_| {
        Ok(site.delta_page(&summary, 0).map(drop)?)
    })?;
    middle("delta page of 2,000", 10, |_| {
        Ok(site.delta_part(&summary, 0, 2000, 0).map(drop)?)
    })?;
    middle("arrivals page", 10, |i| {
        Ok(site.arrivals(100 * i as u64).map(drop)?)
    })?;
    let kinds = |site: &mut Site| Ok(site.ask(Question::Kinds).map(drop)?);
    middle("kinds", 10, |_| kinds(&mut site))?;
    middle("take each of 64", 10, |i| {
        let bodies: Vec<&[u8]> = lines[120 + 64 * i..][..64]
            .iter()
            .map(|line| &line[..])
            .collect();
        match site
            .take_each(&bodies)?
            .iter()
            .all(|it| it.is_ok_and(|it| it.fresh == 1))
        {
            true => Ok(()),
            false => Err("not new".into()),
        }
    })?;
    site.name()?;
    middle("cover, nothing new", 10, |_| Ok(site.cover().map(drop)?))?;
    middle("name, nothing new", 10, |_| Ok(site.name().map(drop)?))?;
    middle("keep views", 1, |_| Ok(site.keep_views()?))?;
    middle("kinds, views kept", 10, |_| kinds(&mut site))
}
