//! How a front and its parts do.

use super::join::told;
use super::parts::{each, Asked, Away, Budget, Part, Seen};
use super::Front;
use crate::peers::now;
use crate::problems::{plain, problem, Answered, JSON};
use hyper::StatusCode;
use serde::Deserialize;
use serde_json::json;
use std::sync::Arc;
use std::time::Duration;

/// How long the parts are waited for; what one doesn't tell by then isn't counted.
const WAIT: Duration = Duration::from_secs(2);
/// More than a `/status` has.
const MOST: usize = 1 << 20;

/// What is counted of a part, or of all of them: no source stands in two.
#[derive(Deserialize, Default)]
struct Figures {
    sources: u64,
    gaps: u64,
    conflicts: u64,
    commits: u64,
    queue: u64,
}

impl Figures {
    /// Adds those of a part, as far as can be counted.
    fn add(&mut self, part: &Figures) {
        self.sources = self.sources.saturating_add(part.sources);
        self.gaps = self.gaps.saturating_add(part.gaps);
        self.conflicts = self.conflicts.saturating_add(part.conflicts);
        self.commits = self.commits.saturating_add(part.commits);
        self.queue = self.queue.saturating_add(part.queue);
    }
}

impl Front {
    /// `GET /healthz`.
    pub fn health(&self) -> Answered {
        plain(StatusCode::OK, "text/plain", "ok\n")
    }

    /// `GET /readyz`: 503 where a part is away, or what answers in its place isn't the part.
    pub fn ready(&self) -> Answered {
        if *self.ends.borrow() {
            let detail = "what is under way is done";
            return problem(StatusCode::SERVICE_UNAVAILABLE, "closing", "The service ends", detail).into();
        }
        let away = self.all_away();
        match away.is_empty() {
            true => plain(StatusCode::OK, "text/plain", "ready\n"),
            false => self.away(&away),
        }
    }

    fn all_away(&self) -> Vec<Away> {
        let rows = self.table.all().into_iter().enumerate().filter(|it| it.1.state != "up");
        let away = |(index, seen): (usize, Seen)| {
            let why = seen.why.unwrap_or_else(|| "it hasn't answered yet".into());
            Away { index, why, status: None }
        };
        rows.map(away).collect()
    }

    /// `GET /metrics`: those of the front itself; each part has its own.
    pub fn metrics(&self) -> Answered {
        plain(StatusCode::OK, "text/plain; version=0.0.4; charset=utf-8", self.metrics.text())
    }

    /// `GET /status`: what a site tells, its counts the sums of the parts', and each part.
    pub async fn status(&self) -> Answered {
        let parts = self.parts();
        let said = each(&parts, figures_of).await;
        let mut all = Figures::default();
        for it in said.into_iter().flatten() {
            all.add(&it);
        }
        let (away, seen) = (self.all_away(), self.table.all());
        let status = json!({
            "name": self.settings.name,
            "version": env!("CARGO_PKG_VERSION"),
            "library": crate::library::version(),
            "events": *self.counted().borrow(),
            "sources": all.sources,
            "gaps": all.gaps,
            "conflicts": all.conflicts,
            "commits": all.commits,
            "queue": all.queue,
            "ready": away.is_empty(),
            "why": (!away.is_empty()).then(|| told(&away)),
            "parts": seen,
            "peers": self.peers.all(),
            "recent": self.metrics.recent.told(now()),
        });
        plain(StatusCode::OK, JSON, format!("{status}\n"))
    }
}

async fn figures_of(part: Arc<Part>) -> Result<Figures, Away> {
    let asking = async {
        let answer = part.ask(&Asked::get("/status")).await?;
        let body = part.read(answer, &Budget::new(MOST)).await?.unwrap_or_default();
        serde_json::from_slice(&body).map_err(|it| part.away(it.to_string()))
    };
    tokio::time::timeout(WAIT, asking).await.unwrap_or_else(|_| Err(part.away("no answer in time")))
}
