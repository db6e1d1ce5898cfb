//! What stands in front of a region in parts: events go to the part of their source, and answers are of all parts together.
//!
//! It holds no event, and nothing that a restart would miss, so that several may stand behind any balancer. To which part an
//! event falls, and what the parts' answers make, is decided by the library. Which part is asked is told it with each
//! request, and a part that is another one refuses: so nobody's events come to the wrong file, whatever the settings say.

mod delta;
mod join;
mod parts;
mod questions;
mod spread;
mod watching;

use crate::access::Sources;
use crate::client::{self, Client};
use crate::page::page;
use crate::problems::{problem, Answered};
use crate::routes::{not_so, Common, Route};
use crate::settings::{self, text_of};
use hyper::{Body, Request, StatusCode};
use parts::{Part, Table};
use questions::Cache;
use std::ops::Deref;
use std::sync::atomic::AtomicBool;
use std::sync::{Arc, Mutex, RwLock};
use std::time::Duration;
use tokio::sync::watch;
use tokio::task::JoinHandle;

/// Idle connections to a part that stay open.
const IDLE: usize = 64;

pub struct Front {
    common: Common,
    client: Client,
    parts: RwLock<Arc<Vec<Arc<Part>>>>,
    table: Arc<Table>,
    cache: Cache,
    /// What looks after each part.
    followers: Mutex<Vec<JoinHandle<()>>>,
}

impl Deref for Front {
    type Target = Common;

    fn deref(&self) -> &Common {
        &self.common
    }
}

impl Front {
    /// The front of the settings, which looks after its parts from now on, or why it can't.
    pub fn start(common: Common) -> Result<Arc<Front>, String> {
        let front = Front {
            client: client::new(&common.settings.sync, IDLE)?,
            table: Arc::new(Table::new(common.settings.parts.len(), common.metrics.clone())),
            parts: RwLock::default(),
            cache: Cache::default(),
            followers: Mutex::default(),
            common,
        };
        front.set(front.parts_of(&front.settings.parts)?);
        Ok(Arc::new(front))
    }

    /// The parts of these settings, with their tokens. An error where there aren't as many as before, or where a token can't
    /// be read.
    pub fn parts_of(&self, wanted: &[settings::PartAt]) -> Result<Vec<Part>, String> {
        let had = self.settings.parts.len();
        if had != wanted.len() {
            return Err(format!("there are {had} parts, and as many there have to be for ever"));
        }
        wanted.iter().enumerate().map(|(index, at)| self.part(index, had, at)).collect()
    }

    /// Takes up where the parts are: those that are elsewhere now, or want another token, are looked for anew.
    pub fn set(&self, wanted: Vec<Part>) {
        let mut followers = self.followers.lock().unwrap();
        let (had, mut parts) = (self.parts(), Vec::new());
        for (index, part) in wanted.into_iter().enumerate() {
            if let Some(same) = had.get(index).filter(|it| (&it.url, &it.token) == (&part.url, &part.token)) {
                parts.push(same.clone());
                continue;
            }
            let part = Arc::new(part);
            self.table.note(index, |it| *it = parts::Seen::default());
            let follower = tokio::spawn(part.clone().follow(self.settings.sync.clone(), self.ends.clone()));
            match followers.get_mut(index) {
                Some(of_before) => std::mem::replace(of_before, follower).abort(),
                None => followers.push(follower),
            }
            tracing::info!(part = part.name, url = part.url, "the part is looked after");
            parts.push(part);
        }
        *self.parts.write().unwrap() = Arc::new(parts);
    }

    fn part(&self, index: usize, of: usize, at: &settings::PartAt) -> Result<Part, String> {
        let token = at.token_file.as_deref().map(text_of).transpose()?;
        Ok(Part {
            index,
            name: format!("{index}/{of}"),
            url: at.url.clone(),
            token: token.map(|it| format!("Bearer {}", it.trim())),
            is_known: AtomicBool::new(false),
            client: self.client.clone(),
            seconds: self.settings.sync.request_seconds,
            table: self.table.clone(),
        })
    }

    /// Waits until each part was looked at once, at most as long as a connection may take.
    pub async fn looked(&self) {
        let looked = async {
            while self.table.all().iter().any(|it| it.state == "new") {
                tokio::time::sleep(Duration::from_millis(10)).await;
            }
        };
        let _ = tokio::time::timeout(Duration::from_secs(self.settings.sync.connect_seconds), looked).await;
    }

    fn parts(&self) -> Arc<Vec<Arc<Part>>> {
        self.parts.read().unwrap().clone()
    }

    /// How many events the parts were last seen with together.
    pub fn counted(&self) -> watch::Receiver<u64> {
        self.table.counted()
    }

    pub async fn posted(self: &Arc<Self>, route: Route, request: Request<Body>, sources: Sources) -> Answered {
        match route {
            Route::Events => self.take(request, sources).await,
            Route::Check => self.check(request).await,
            Route::Delta => self.delta(request).await,
            Route::Backup => {
                let detail = "each part has its own: ask the parts";
                problem(StatusCode::NOT_FOUND, "no-backups", "No backups are made here", detail).into()
            }
            _ => not_so(route),
        }
    }

    pub async fn got(self: &Arc<Self>, route: Route, request: &Request<Body>) -> Answered {
        match route {
            Route::Arrivals => self.arrivals(request).await,
            Route::Get => self.get(request).await,
            Route::Answer(what) => self.ask(request, what).await,
            Route::Page => page(),
            Route::Metrics => self.metrics(),
            Route::Status => self.status().await,
            Route::Health => self.health(),
            Route::Ready => self.ready(),
            _ => not_so(route),
        }
    }
}
