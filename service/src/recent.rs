//! What was done within the last minutes, in steps of ten seconds, for the page.

use serde::Serialize;
use std::collections::VecDeque;
use std::sync::Mutex;
use std::time::Duration;

/// Seconds of a step.
const STEP: u64 = 10;
/// How many steps are kept.
const STEPS: u64 = 60;
/// The microseconds of the shortest times that are told apart; each class ends a fifth above the one before.
const LEAST: f64 = 50.0;
const GROWTH: f64 = 1.2;
const CLASSES: usize = 72;

/// What was done since some minutes.
#[derive(Default)]
pub struct Recent(Mutex<VecDeque<Step>>);

struct Step {
    at: u64,
    clients: u64,
    peers: u64,
    refused: u64,
    times: [u32; CLASSES],
}

/// A step, as `/status` tells it: new events of clients and of peers, bodies that took nothing, and the milliseconds in
/// which half of the bodies, and 99 of 100, were answered.
#[derive(Serialize, PartialEq, Debug)]
pub struct Row {
    at: u64,
    clients: u64,
    peers: u64,
    refused: u64,
    #[serde(skip_serializing_if = "Option::is_none")]
    p50_ms: Option<f64>,
    #[serde(skip_serializing_if = "Option::is_none")]
    p99_ms: Option<f64>,
}

/// The steps in which something was done. Times are seconds since 1970; a step begins at `at`, and the one that isn't over
/// ends at `until`.
#[derive(Serialize)]
pub struct Told {
    seconds: u64,
    until: u64,
    rows: Vec<Row>,
}

impl Recent {
    /// New events of clients, in a body that was answered so long after it came.
    pub fn taken(&self, now: f64, events: u64, time: Duration) {
        self.note(now, |it| {
            it.clients += events;
            it.times[class_of(time)] += 1;
        });
    }

    /// New events that were given otherwise.
    #[cfg(feature = "postgres")]
    pub fn taken_elsewhere(&self, now: f64, events: u64) {
        self.note(now, |it| it.clients += events);
    }

    /// New events of a peer.
    pub fn pulled(&self, now: f64, events: u64) {
        self.note(now, |it| it.peers += events);
    }

    /// A body that took nothing.
    pub fn refused(&self, now: f64) {
        self.note(now, |it| it.refused += 1);
    }

    fn note(&self, now: f64, change: impl FnOnce(&mut Step)) {
        let at = now as u64 / STEP * STEP;
        let mut steps = self.0.lock().unwrap();
        // A clock that was put back adds to the step that is there.
        if steps.back().map_or(true, |it| it.at < at) {
            steps.push_back(Step { at, clients: 0, peers: 0, refused: 0, times: [0; CLASSES] });
            if steps.len() as u64 > STEPS {
                steps.pop_front();
            }
        }
        if let Some(step) = steps.back_mut() {
            change(step);
        }
    }

    /// The steps of the last ten minutes.
    pub fn told(&self, now: f64) -> Told {
        let until = (now as u64 / STEP + 1) * STEP;
        let steps = self.0.lock().unwrap();
        let rows = steps.iter().filter(|it| it.at + STEPS * STEP >= until).map(Step::row).collect();
        Told { seconds: STEP, until, rows }
    }
}

impl Step {
    fn row(&self) -> Row {
        Row {
            at: self.at,
            clients: self.clients,
            peers: self.peers,
            refused: self.refused,
            p50_ms: self.within(0.5),
            p99_ms: self.within(0.99),
        }
    }

    /// The milliseconds within which such a share of the bodies was answered, at most a fifth too many.
    fn within(&self, share: f64) -> Option<f64> {
        let all: u64 = self.times.iter().map(|it| u64::from(*it)).sum();
        let wanted = (all as f64 * share).ceil() as u64;
        let mut seen = 0;
        let class = self.times.iter().position(|it| {
            seen += u64::from(*it);
            seen >= wanted
        });
        let us = LEAST * GROWTH.powi(class? as i32);
        (all > 0).then(|| (us / 10.0).round() / 100.0)
    }
}

fn class_of(time: Duration) -> usize {
    let us = time.as_micros() as f64;
    let class = (us.max(LEAST) / LEAST).log(GROWTH).ceil() as usize;
    class.min(CLASSES - 1)
}

#[cfg(test)]
mod tests {
    use super::*;

    fn ms(milliseconds: f64) -> Duration {
        Duration::from_secs_f64(milliseconds / 1000.0)
    }

    #[test]
    fn steps_are_told_with_their_times() {
        let recent = Recent::default();
        for _ in 0..98 {
            recent.taken(1001.0, 2, ms(1.0));
        }
        recent.taken(1009.9, 0, ms(40.0));
        recent.taken(1009.9, 0, ms(90_000.0));
        recent.refused(1010.0);
        recent.pulled(1010.0, 7);
        recent.pulled(900.0, 1);
        let told = recent.told(1015.0);
        assert_eq!((told.seconds, told.until, told.rows.len()), (10, 1020, 2));
        let first = &told.rows[0];
        assert_eq!((first.at, first.clients, first.peers, first.refused), (1000, 196, 0, 0));
        let (p50, p99) = (first.p50_ms.unwrap(), first.p99_ms.unwrap());
        assert!((1.0..=1.21).contains(&p50) && (40.0..=48.5).contains(&p99), "{p50} {p99}");
        let row = Row { at: 1010, clients: 0, peers: 8, refused: 1, p50_ms: None, p99_ms: None };
        assert_eq!(told.rows[1], row);
    }

    #[test]
    fn what_is_older_is_forgotten() {
        let recent = Recent::default();
        for step in 0..100 {
            recent.pulled((step * 10) as f64, 1);
        }
        assert_eq!(recent.0.lock().unwrap().len(), 60);
        let told = recent.told(995.0);
        assert_eq!((told.rows.len(), told.rows[0].at, told.until), (60, 400, 1000));
        assert_eq!(recent.told(1295.0).rows.len(), 30);
        assert_eq!(recent.told(5000.0).rows.len(), 0);
    }
}
