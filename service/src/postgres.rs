//! Takes events out of an outbox in PostgreSQL (contrib/postgresql): has what was committed numbered there, and takes what
//! the site lacks of it.
//!
//! No mark is kept. The site itself says which numbers of a source it has, so that neither side can be restored to a state
//! that the other one's mark contradicts.

use crate::keeper::{Body, Keeper, Refusal};
use crate::library::faults;
use crate::metrics::Metrics;
use crate::peers::{now, Peers};
use crate::reader::What;
use crate::routes::Service;
use crate::settings;
use hyper::body::Bytes;
use serde::Deserialize;
use std::collections::HashMap;
use std::sync::Arc;
use std::time::Duration;
use tokio::sync::watch;
use tokio_postgres::{Client, NoTls};

/// How many events are numbered in one transaction.
const NUMBERED: i32 = 1000;
/// How many rows of a source are read at once.
const ROWS: i64 = 200;
/// About how many bytes of events are taken at once.
const GROUP: usize = 256 << 10;

/// What there is of one source.
struct Row {
    source: String,
    /// The number of its first event that wasn't let go of, or none where all were.
    first: Option<u64>,
    last: u64,
}

/// Which numbers each source has.
#[derive(Deserialize, Default)]
struct Cover {
    sources: HashMap<String, Vec<(u64, u64)>>,
}

impl Cover {
    fn of(text: &[u8]) -> Result<Cover, String> {
        serde_json::from_slice(text).map_err(|it| it.to_string())
    }

    /// Behind which number of a source something is lacking, of those from the first one on.
    fn behind(&self, source: &str, first: u64) -> u64 {
        let has = self.sources.get(source).and_then(|it| it.iter().find(|it| it.0 <= first && first <= it.1));
        has.map_or(first.saturating_sub(1), |it| it.1)
    }
}

pub struct Outbox {
    settings: settings::Postgres,
    keeper: Arc<Keeper>,
    metrics: Arc<Metrics>,
    peers: Arc<Peers>,
    ends: watch::Receiver<bool>,
}

impl Outbox {
    pub fn new(settings: settings::Postgres, service: &Service) -> Outbox {
        Outbox {
            settings,
            keeper: service.keeper.clone(),
            metrics: service.metrics.clone(),
            peers: service.peers.clone(),
            ends: service.ends.clone(),
        }
    }

    /// Reads until the service ends; behind a fault it connects anew.
    pub async fn run(self) {
        let (mut ends, mut failed) = (self.ends.clone(), 0);
        while !*ends.borrow() {
            let why = tokio::select! {
                why = self.follow(&mut failed) => why,
                _ = ends.changed() => return,
            };
            self.metrics.outbox.tell(false);
            if failed == 0 {
                tracing::warn!(why, "the outbox in PostgreSQL isn't read");
            }
            failed += 1;
            let most = 250u64 << failed.min(6);
            let rest = Duration::from_millis(250 + fastrand::u64(0..=most));
            tokio::select! {
                _ = tokio::time::sleep(rest) => {}
                _ = ends.changed() => return,
            }
        }
    }

    /// Reads by one connection, until it fails.
    async fn follow(&self, failed: &mut u32) -> String {
        let (client, connection) = match tokio_postgres::connect(&self.settings.url, NoTls).await {
            Ok(connected) => connected,
            Err(why) => return told(&why),
        };
        let connection = Ended(tokio::spawn(connection));
        let (rest, mut settled) = (Duration::from_millis(self.settings.every_ms), None);
        loop {
            match self.round(&client, &mut settled).await {
                Ok(true) => {}
                Ok(false) => {
                    if *failed > 0 {
                        tracing::info!("the outbox in PostgreSQL is read again");
                    }
                    *failed = 0;
                    self.metrics.outbox.tell(true);
                    tokio::time::sleep(rest).await;
                }
                Err(why) => return why,
            }
            if connection.0.is_finished() {
                return "the connection ended".into();
            }
        }
    }

    /// Has events numbered and takes what is lacking, a part of each source; whether there may be more. Where as many
    /// have numbers as when nothing was lacking, nothing is.
    async fn round(&self, client: &Client, settled: &mut Option<String>) -> Result<bool, String> {
        let asked = "SELECT jumbetai.number($1), (SELECT coalesce(sum(last), 0) FROM jumbetai.sources)::text";
        let row = client.query_one(asked, &[&NUMBERED]).await.map_err(|it| told(&it))?;
        let (numbered, all): (i64, String) = (row.get(0), row.get(1));
        if numbered == 0 && settled.as_ref() == Some(&all) && !self.settings.trim {
            return Ok(false);
        }
        *settled = None;
        let (mut is_more, mut trouble) = (numbered > 0, None);
        let own = Cover::of(&self.own_cover().await?)?;
        for row in self.sources(client).await? {
            let Some(first) = row.first else {
                continue;
            };
            // A source whose rows aren't taken holds up no other one.
            match self.take(client, &row, own.behind(&row.source, first)).await {
                Ok(fresh) => is_more |= fresh > 0,
                Err(why) => trouble = Some(format!("rows of {}: {why}", row.source)),
            }
        }
        if self.settings.trim && !is_more {
            self.trim(client).await?;
        }
        if !is_more && trouble.is_none() {
            *settled = Some(all);
        }
        trouble.map_or(Ok(is_more), Err)
    }

    async fn own_cover(&self) -> Result<Bytes, String> {
        self.keeper.ask(What::Cover).await.map(|it| it.text.clone()).map_err(|it| it.to_string())
    }

    async fn sources(&self, client: &Client) -> Result<Vec<Row>, String> {
        let asked = "SELECT source, last, (SELECT min(number) FROM jumbetai.outbox AS o WHERE o.source = s.source) \
            FROM jumbetai.sources AS s";
        let rows = client.query(asked, &[]).await.map_err(|it| told(&it))?;
        let row = |it: &tokio_postgres::Row| Row {
            source: it.get(0),
            last: it.get::<_, i64>(1) as u64,
            first: it.get::<_, Option<i64>>(2).map(|it| it as u64),
        };
        Ok(rows.iter().map(row).collect())
    }

    /// Takes the next rows behind a number, and answers how many were new.
    async fn take(&self, client: &Client, row: &Row, behind: u64) -> Result<u64, String> {
        if behind >= row.last {
            return Ok(0);
        }
        let asked = "SELECT event FROM jumbetai.outbox WHERE source = $1 AND number > $2 ORDER BY number LIMIT $3";
        let rows = client.query(asked, &[&row.source, &(behind as i64), &ROWS]).await.map_err(|it| told(&it))?;
        let (mut fresh, mut batch) = (0, String::new());
        for (at, it) in rows.iter().enumerate() {
            batch.push(if batch.is_empty() { '[' } else { ',' });
            batch.push_str(it.get(0));
            if batch.len() >= GROUP || at + 1 == rows.len() {
                batch.push(']');
                fresh += self.keep(std::mem::take(&mut batch).into()).await?;
            }
        }
        Ok(fresh)
    }

    async fn keep(&self, bytes: Bytes) -> Result<u64, String> {
        let room = self.keeper.room.bytes(bytes.len()).await.map_err(|it| format!("{it:?}"))?;
        match self.keeper.take(Body { bytes: bytes.clone(), room }).await {
            Ok(kept) => {
                for (result, count) in [("new", kept.fresh), ("repeated", kept.repeated)] {
                    self.metrics.taken.with_label_values(&[result, "postgres"]).inc_by(count);
                }
                self.metrics.recent.taken_elsewhere(now(), kept.fresh);
                Ok(kept.fresh)
            }
            Err(Refusal::Faulty) => {
                let lines = faults(&bytes).map_err(|it| it.to_string())?;
                self.metrics.count_faults(&lines, "postgres");
                Err(lines.lines().next().unwrap_or_default().to_owned())
            }
            Err(why) => Err(format!("{why:?}")),
        }
    }

    /// Lets go of the rows that this site and all its peers have, as they last told.
    async fn trim(&self, client: &Client) -> Result<(), String> {
        let Some(theirs) = self.peers.covers() else {
            return Ok(());
        };
        let mut covers = vec![Cover::of(&self.own_cover().await?)?];
        for it in theirs {
            covers.push(Cover::of(it.as_bytes())?);
        }
        for row in self.sources(client).await? {
            let Some(first) = row.first else {
                continue;
            };
            let upto = covers.iter().map(|it| it.behind(&row.source, first)).min().unwrap_or(0);
            if upto >= first {
                one(client, "SELECT jumbetai.trim($1, $2)", &[&row.source, &(upto as i64)]).await?;
            }
        }
        Ok(())
    }
}

/// A task that ends with its owner.
struct Ended(tokio::task::JoinHandle<Result<(), tokio_postgres::Error>>);

impl Drop for Ended {
    fn drop(&mut self) {
        self.0.abort();
    }
}

/// The only number that a query answers.
async fn one(
    client: &Client,
    asked: &str,
    given: &[&(dyn tokio_postgres::types::ToSql + Sync)],
) -> Result<i64, String> {
    client.query_one(asked, given).await.map(|it| it.get(0)).map_err(|it| told(&it))
}

fn told(why: &tokio_postgres::Error) -> String {
    why.as_db_error().map_or_else(|| why.to_string(), |it| it.to_string())
}

#[cfg(test)]
mod tests {
    use super::*;

    #[test]
    fn what_is_lacking_is_behind_what_is_here() {
        let cover = Cover::of(br#"{"sources":{"/a":[[1,4],[6,9]],"/b":[[3,5]]},"version":1}"#).unwrap();
        for (source, first, behind) in [
            ("/a", 1, 4),
            ("/a", 3, 4),
            ("/a", 5, 4),
            ("/a", 6, 9),
            ("/b", 1, 0),
            ("/b", 4, 5),
            ("/c", 1, 0),
            ("/c", 7, 6),
        ] {
            assert_eq!(cover.behind(source, first), behind, "{source} {first}");
        }
        assert!(Cover::of(b"{}").is_err());
    }
}
