//! How the service does, for those who watch it: `/status`, `/metrics`, `/healthz`, `/readyz`.

use crate::peers::now;
use crate::problems::{plain, problem, Answered, JSON};
use crate::routes::Service;
use hyper::StatusCode;
use serde_json::json;
use std::time::Duration;

/// A transaction that lasts longer is stuck.
const STUCK: Duration = Duration::from_secs(60);
/// How long figures of the set are waited for; then those of before are told.
const FIGURES: Duration = Duration::from_secs(1);

impl Service {
    /// `GET /healthz`: 503 where a transaction doesn't end, which a restart may mend.
    pub fn health(&self) -> Answered {
        let busy = self.keeper.busy();
        if busy > STUCK {
            let detail = format!("for {} seconds", busy.as_secs());
            return problem(StatusCode::SERVICE_UNAVAILABLE, "stuck", "A transaction doesn't end", detail).into();
        }
        plain(StatusCode::OK, "text/plain", "ok\n")
    }

    /// `GET /readyz`: 503 where events had better be sent elsewhere.
    pub fn ready(&self) -> Answered {
        match self.trouble() {
            Some((name, title, detail)) => problem(StatusCode::SERVICE_UNAVAILABLE, name, title, detail).into(),
            None => plain(StatusCode::OK, "text/plain", "ready\n"),
        }
    }

    fn trouble(&self) -> Option<(&'static str, &'static str, String)> {
        if *self.ends.borrow() {
            return Some(("closing", "The service ends", "what is under way is done".into()));
        }
        self.keeper.trouble().map(|why| ("store", "The database refused", why.to_string()))
    }

    /// `GET /metrics`, in the text form of Prometheus.
    pub async fn metrics(&self) -> Answered {
        self.count().await;
        plain(StatusCode::OK, "text/plain; version=0.0.4; charset=utf-8", self.metrics.text())
    }

    /// `GET /status`: the same for people and the page, as JSON.
    pub async fn status(&self) -> Answered {
        self.count().await;
        let (trouble, set) = (self.trouble(), &self.metrics.set);
        let mut status = json!({
            "name": self.settings.name,
            "version": env!("CARGO_PKG_VERSION"),
            "library": crate::library::version(),
            "events": self.metrics.events.get(),
            "sources": set.sources.get(),
            "gaps": set.gaps.get(),
            "conflicts": set.conflicts.get(),
            "commits": self.metrics.commits.get(),
            "queue": self.metrics.queue_bodies.get(),
            "ready": trouble.is_none(),
            "why": trouble.map(|it| it.2),
            "peers": self.peers.all(),
            "recent": self.metrics.recent.told(now()),
        });
        if let Some(part) = self.settings.part {
            status["part"] = json!({"index": part.index, "of": part.of});
        }
        plain(StatusCode::OK, JSON, format!("{status}\n"))
    }

    /// Brings what is counted of the set and of its files up to date.
    async fn count(&self) {
        if let Ok(Ok(figures)) = tokio::time::timeout(FIGURES, self.keeper.figures()).await {
            self.metrics.set.tell(&figures);
        }
        self.metrics.set.measure(&self.settings.db);
    }
}
