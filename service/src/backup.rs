//! Copies of the database while it is written: `POST /backup`.
//!
//! A copy is a site of its own over a new file, which takes the events in the order in which they came. So its numbers of
//! arrivals are those of this site, and each event in it was read once more by the library.

use crate::feed::events_of;
use crate::keeper::Keeper;
use crate::library::{Error, Page, Site};
use crate::problems::{plain, problem, Answered, JSON};
use crate::reader::What;
use crate::routes::Service;
use hyper::StatusCode;
use serde_json::json;
use std::fs::{self, File};
use std::io;
use std::path::{Path, PathBuf};
use std::sync::Arc;
use std::time::Instant;
use tokio::runtime::Handle;

/// About how many bytes of events one transaction of a copy has.
const GROUP: usize = 1 << 20;
/// The most bytes that the library takes at once.
const LARGEST: usize = 33_554_432;

/// Why there is no copy.
enum Failure {
    Files(io::Error),
    Site(Error),
    /// What was read of the copy isn't the set that was to be copied.
    Differs,
}

impl From<io::Error> for Failure {
    fn from(why: io::Error) -> Failure {
        Failure::Files(why)
    }
}

impl From<Error> for Failure {
    fn from(why: Error) -> Failure {
        Failure::Site(why)
    }
}

impl std::fmt::Display for Failure {
    fn fmt(&self, f: &mut std::fmt::Formatter<'_>) -> std::fmt::Result {
        match self {
            Failure::Files(why) => why.fmt(f),
            Failure::Site(why) => why.fmt(f),
            Failure::Differs => f.write_str("the copy isn't what was to be copied"),
        }
    }
}

/// A copy that is there.
struct Copied {
    file: PathBuf,
    events: u64,
    name: Arc<str>,
    bytes: u64,
}

impl Service {
    /// `POST /backup`: copies what is kept by now into a file of the folder that the settings name, and answers once the
    /// copy was read again and is synced. Events are taken and questions answered meanwhile; the copy has memory of its own.
    pub async fn backup(&self) -> Answered {
        let Some(folder) = self.settings.backups.clone() else {
            let detail = "the settings name a folder for them: backups".to_owned();
            return problem(StatusCode::NOT_FOUND, "no-backups", "No backups are made here", detail).into();
        };
        let Ok(turn) = self.backups.clone().try_acquire_owned() else {
            let detail = "ask again when it is done";
            return problem(StatusCode::CONFLICT, "backup-under-way", "A backup is under way", detail).into();
        };
        let (keeper, db, start) = (self.keeper.clone(), self.settings.db.clone(), Instant::now());
        let copying = move || {
            let _turn = turn;
            copy(&keeper, &folder, &db)
        };
        let why = match tokio::task::spawn_blocking(copying).await {
            Ok(Ok(copied)) => {
                let Copied { file, events, name, bytes } = copied;
                let (file, ms) = (file.display().to_string(), start.elapsed().as_millis() as u64);
                tracing::info!(file, events, bytes, ms, "a backup was made");
                self.metrics.backup.made(bytes);
                let told = json!({"file": file, "events": events, "name": *name, "bytes": bytes});
                return plain(StatusCode::OK, JSON, format!("{told}\n"));
            }
            Ok(Err(why)) => why.to_string(),
            Err(why) => why.to_string(),
        };
        tracing::error!(why, "a backup failed");
        self.metrics.backup.failed();
        problem(StatusCode::SERVICE_UNAVAILABLE, "backup", "The backup failed, and nothing is left of it", why).into()
    }
}

/// Makes a copy of what is kept by now, or finds the one that is there.
fn copy(keeper: &Keeper, folder: &Path, db: &Path) -> Result<Copied, Failure> {
    let now = Handle::current().block_on(keeper.ask(What::Cover))?;
    let file = folder.join(file_of(now.count, &now.tag));
    fs::create_dir_all(folder)?;
    if !file.exists() {
        let part = Part::new(folder, db)?;
        part.fill(keeper, now.count)?;
        part.test(now.count, &now.tag)?;
        part.become_file(&file, folder)?;
    }
    let bytes = fs::metadata(&file)?.len();
    Ok(Copied { file, events: now.count, name: now.tag.clone(), bytes })
}

/// The name of a copy, by which copies of one site stand in the order in which they were made.
fn file_of(events: u64, name: &str) -> String {
    format!("{events:012}-{name}.db")
}

/// A copy that isn't whole yet. What is left of it goes away with it.
struct Part {
    path: PathBuf,
    log: PathBuf,
}

impl Part {
    /// A place for a copy; what a copy left here that a crash broke off is taken away.
    fn new(folder: &Path, db: &Path) -> io::Result<Part> {
        let stem = db.file_stem().unwrap_or_default().to_string_lossy();
        let path = folder.join(format!(".partial-{stem}.db"));
        let log = folder.join(format!(".partial-{stem}.db-wal"));
        let part = Part { path, log };
        for it in [&part.path, &part.log] {
            absent(fs::remove_file(it))?;
        }
        Ok(part)
    }

    /// Takes the first so many events, as they came.
    fn fill(&self, keeper: &Keeper, events: u64) -> Result<(), Failure> {
        let mut site = Site::open(&self.path)?;
        let (mut after, mut bodies, mut bytes) = (0, Vec::new(), 0);
        while after < events {
            let page = Handle::current().block_on(keeper.arrivals(after))?.ok_or(Failure::Differs)?;
            after += page.events;
            for body in bodies_of(&page, events)? {
                bytes += body.len();
                bodies.push(body);
                if bytes >= GROUP {
                    take(&mut site, &mut bodies)?;
                    bytes = 0;
                }
            }
        }
        take(&mut site, &mut bodies)?;
        Ok(())
    }

    /// Opens the copy as a start would, and looks whether it is the set that it is called by.
    fn test(&self, events: u64, name: &str) -> Result<(), Failure> {
        let mut site = Site::open(&self.path)?;
        let has: String = site.name()?.iter().map(|it| format!("{it:02x}")).collect();
        match site.len() == events && has == name {
            true => Ok(()),
            false => Err(Failure::Differs),
        }
    }

    /// Gives the copy its name, so that no crash takes it away.
    fn become_file(self, file: &Path, folder: &Path) -> io::Result<()> {
        // A site that was closed has all in the file.
        absent(fs::remove_file(&self.log))?;
        File::open(&self.path)?.sync_all()?;
        fs::rename(&self.path, file)?;
        File::open(folder)?.sync_all()
    }
}

impl Drop for Part {
    fn drop(&mut self) {
        for it in [&self.path, &self.log] {
            let _ = fs::remove_file(it);
        }
    }
}

/// The bodies in which the events of a page are given, up to so many in all: the page, or each event where it is large or
/// goes on behind them.
fn bodies_of(page: &Page, events: u64) -> Result<Vec<String>, Error> {
    let wanted = events.saturating_sub(page.from).min(page.events);
    if wanted == page.events && page.json.len() <= LARGEST / 2 {
        return Ok(vec![page.json.clone()]);
    }
    let each = events_of(page)?.into_iter().take(wanted as usize);
    Ok(each.map(|it| it.get().to_owned()).collect())
}

/// Takes bodies in one transaction, and forgets them.
fn take(site: &mut Site, bodies: &mut Vec<String>) -> Result<(), Error> {
    let given: Vec<&[u8]> = bodies.iter().map(String::as_bytes).collect();
    for answer in site.take_each(&given)? {
        answer?;
    }
    bodies.clear();
    Ok(())
}

/// What came of taking a file away, where it needn't be there.
fn absent(done: io::Result<()>) -> io::Result<()> {
    match done {
        Err(why) if why.kind() == io::ErrorKind::NotFound => Ok(()),
        other => other,
    }
}

#[cfg(test)]
mod tests {
    use super::*;

    #[test]
    fn pages_are_cut_at_the_last_event() {
        let page = Page { from: 4, events: 3, json: "[{\"a\":1},{\"b\":[2]},{\"c\":3}]\n".into() };
        assert_eq!(bodies_of(&page, 7).unwrap(), [page.json.as_str()]);
        assert_eq!(bodies_of(&page, 9).unwrap(), [page.json.as_str()]);
        assert_eq!(bodies_of(&page, 6).unwrap(), ["{\"a\":1}", "{\"b\":[2]}"]);
        assert!(bodies_of(&page, 4).unwrap().is_empty());
    }

    #[test]
    fn copies_stand_in_their_order() {
        assert!(file_of(99, "f") < file_of(100, "a"));
        assert_eq!(file_of(7, "ab"), "000000000007-ab.db");
    }
}
