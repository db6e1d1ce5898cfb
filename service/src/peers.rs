//! What was last seen of each peer, for `/status` and the page.

use serde::Serialize;
use std::collections::BTreeMap;
use std::sync::Mutex;
use std::time::{SystemTime, UNIX_EPOCH};

/// Times are seconds since 1970.
#[derive(Serialize, Clone, Default, Debug)]
pub struct Seen {
    /// `new` before the first round, then `up` or `down`.
    pub state: &'static str,
    pub equal: bool,
    pub lacking: u64,
    pub ahead: u64,
    pub pulled: u64,
    pub failures: u64,
    pub last_success: Option<f64>,
    pub last_equal: Option<f64>,
    pub round_ms: u64,
    /// Why the last round failed, where it did.
    pub why: Option<String>,
    /// What it last told of its numbers.
    #[serde(skip)]
    pub cover: Option<String>,
}

#[derive(Default)]
pub struct Peers(Mutex<BTreeMap<String, Seen>>);

impl Peers {
    pub fn note(&self, name: &str, change: impl FnOnce(&mut Seen)) {
        change(self.0.lock().unwrap().entry(name.to_owned()).or_default());
    }

    pub fn forget(&self, name: &str) {
        self.0.lock().unwrap().remove(name);
    }

    /// What each peer last told of its numbers; none where one hasn't yet.
    #[cfg(feature = "postgres")]
    pub fn covers(&self) -> Option<Vec<String>> {
        self.0.lock().unwrap().values().map(|it| it.cover.clone()).collect()
    }

    pub fn all(&self) -> BTreeMap<String, Seen> {
        self.0.lock().unwrap().clone()
    }
}

/// Now, in seconds since 1970.
pub fn now() -> f64 {
    SystemTime::now().duration_since(UNIX_EPOCH).map_or(0.0, |it| it.as_secs_f64())
}

#[cfg(test)]
mod tests {
    use super::*;

    #[test]
    fn peers_are_told_by_name_until_they_are_forgotten() {
        let peers = Peers::default();
        peers.note("south", |it| it.state = "up");
        peers.note("south", |it| it.pulled += 2);
        peers.note("north", |it| it.cover = Some("{}".into()));
        let all = peers.all();
        assert_eq!(all.keys().collect::<Vec<_>>(), ["north", "south"]);
        assert_eq!((all["south"].state, all["south"].pulled, all["north"].state), ("up", 2, ""));
        peers.forget("south");
        assert_eq!(peers.all().len(), 1);
    }

    #[cfg(feature = "postgres")]
    #[test]
    fn a_peer_that_told_nothing_holds_up_what_all_have() {
        let peers = Peers::default();
        assert_eq!(peers.covers(), Some(Vec::new()));
        peers.note("north", |it| it.cover = Some("{}".into()));
        assert_eq!(peers.covers(), Some(vec!["{}".into()]));
        peers.note("south", |_| ());
        assert_eq!(peers.covers(), None);
    }
}
