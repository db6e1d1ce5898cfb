//! What is measured, in the text form of Prometheus.

use crate::peers::now;
use crate::reader::Figures;
use crate::recent::Recent;
use prometheus::core::Collector;
use prometheus::{
    Counter, Encoder, Gauge, GaugeVec, Histogram, HistogramOpts, HistogramVec, IntCounter, IntCounterVec, IntGauge,
    IntGaugeVec, Opts, Registry, Result, TextEncoder,
};
use serde::Deserialize;
use std::collections::HashMap;
use std::path::{Path, PathBuf};

const SECONDS: [f64; 16] =
    [0.0001, 0.00025, 0.0005, 0.001, 0.0025, 0.005, 0.01, 0.025, 0.05, 0.1, 0.25, 0.5, 1.0, 2.5, 5.0, 10.0];
const SIZES: [f64; 10] = [1.0, 2.0, 4.0, 8.0, 16.0, 32.0, 64.0, 128.0, 256.0, 1024.0];

pub struct Metrics {
    registry: Registry,
    pub events: IntGauge,
    pub taken: IntCounterVec,
    pub taken_bytes: IntCounter,
    pub refused: IntCounterVec,
    pub at_fault: IntCounterVec,
    pub commits: IntCounter,
    pub commit_seconds: Histogram,
    pub commit_bodies: Histogram,
    pub queue_bodies: IntGauge,
    pub queue_bytes: IntGauge,
    pub reader_seconds: HistogramVec,
    pub requests: IntCounterVec,
    pub request_seconds: HistogramVec,
    pub connections: IntGauge,
    pub set: SetMetrics,
    pub backup: BackupMetrics,
    pub peer: PeerMetrics,
    pub part_up: IntGaugeVec,
    #[cfg(feature = "postgres")]
    pub outbox: OutboxMetrics,
    pub recent: Recent,
    process: ProcessMetrics,
}

/// What is counted of the set of events, and of its files.
pub struct SetMetrics {
    pub sources: IntGauge,
    pub gaps: IntGauge,
    pub conflicts: IntGauge,
    missing: Gauge,
    database: IntGauge,
    log: IntGauge,
}

/// How it goes with an outbox in PostgreSQL.
#[cfg(feature = "postgres")]
pub struct OutboxMetrics {
    up: IntGaugeVec,
}

#[cfg(feature = "postgres")]
impl OutboxMetrics {
    /// Whether it is read. Without an outbox nothing is told of one.
    pub fn tell(&self, is_up: bool) {
        self.up.with_label_values(&["postgresql"]).set(is_up.into());
    }
}

/// What came of backups.
pub struct BackupMetrics {
    all: IntCounterVec,
    last: Gauge,
    bytes: IntGauge,
}

/// What the system tells of the process, by the names that Prometheus' own libraries have.
struct ProcessMetrics {
    resident: IntGauge,
    descriptors: IntGauge,
    cpu: Counter,
}

/// What is measured of each peer, by its name.
pub struct PeerMetrics {
    pub up: IntGaugeVec,
    pub equal: IntGaugeVec,
    pub lacking: GaugeVec,
    pub ahead: GaugeVec,
    pub last_success: GaugeVec,
    pub last_equal: GaugeVec,
    pub pulled: IntCounterVec,
    pub rounds: IntCounterVec,
}

/// Makes metrics, each with a name, help and labels, and registers them.
struct Maker(Registry);

impl Maker {
    fn put<T: Collector + Clone + 'static>(&self, made: Result<T>) -> T {
        let made = made.expect("a name and labels of this file");
        self.0.register(Box::new(made.clone())).expect("each name is there once");
        made
    }

    fn gauge(&self, name: &str, help: &str) -> IntGauge {
        self.put(IntGauge::new(name, help))
    }

    fn gauges(&self, name: &str, help: &str, labels: &[&str]) -> IntGaugeVec {
        self.put(IntGaugeVec::new(Opts::new(name, help), labels))
    }

    /// A gauge of each peer whose values may be above what a whole number of 64 bits with a sign holds.
    fn of_peers(&self, name: &str, help: &str) -> GaugeVec {
        self.put(GaugeVec::new(Opts::new(name, help), &["peer"]))
    }

    fn counter(&self, name: &str, help: &str) -> IntCounter {
        self.put(IntCounter::new(name, help))
    }

    fn counters(&self, name: &str, help: &str, labels: &[&str]) -> IntCounterVec {
        self.put(IntCounterVec::new(Opts::new(name, help), labels))
    }

    fn histogram(&self, name: &str, help: &str, buckets: &[f64]) -> Histogram {
        self.put(Histogram::with_opts(HistogramOpts::new(name, help).buckets(buckets.to_vec())))
    }

    fn histograms(&self, name: &str, help: &str, label: &str) -> HistogramVec {
        let options = HistogramOpts::new(name, help).buckets(SECONDS.to_vec());
        self.put(HistogramVec::new(options, &[label]))
    }
}

impl Metrics {
    pub fn new() -> Metrics {
        let it = Maker(Registry::new());
        let build = it.gauges("jumbetai_build_info", "The versions that run", &["service", "library"]);
        build.with_label_values(&[env!("CARGO_PKG_VERSION"), crate::library::version()]).set(1);
        Metrics {
            events: it.gauge("jumbetai_events", "Events in the database, each once"),
            taken: it.counters(
                "jumbetai_taken_events_total",
                "Events that were given and are kept",
                &["result", "from"],
            ),
            taken_bytes: it.counter("jumbetai_taken_bytes_total", "Bytes of bodies that are kept"),
            refused: it.counters("jumbetai_refused_requests_total", "Bodies that took nothing", &["reason"]),
            at_fault: it.counters(
                "jumbetai_events_at_fault_total",
                "Events of clients and peers that can't be taken, by the fault that site check names",
                &["fault", "from"],
            ),
            commits: it.counter("jumbetai_commits_total", "Synced transactions"),
            commit_seconds: it.histogram("jumbetai_commit_seconds", "Time of a synced transaction", &SECONDS),
            commit_bodies: it.histogram("jumbetai_commit_bodies", "Bodies joined into a transaction", &SIZES),
            queue_bodies: it.gauge("jumbetai_queue_bodies", "Bodies that wait for a transaction"),
            queue_bytes: it.gauge("jumbetai_queue_bytes", "Bytes of the bodies that wait for a transaction"),
            reader_seconds: it.histograms("jumbetai_reader_seconds", "Time of what the reader did", "what"),
            requests: it.counters("jumbetai_http_requests_total", "Requests that were answered", &["route", "status"]),
            request_seconds: it.histograms("jumbetai_http_request_seconds", "Time to a request's answer", "route"),
            connections: it.gauge("jumbetai_http_connections", "Open connections"),
            set: SetMetrics::new(&it),
            backup: BackupMetrics::new(&it),
            peer: PeerMetrics::new(&it),
            part_up: it.gauges(
                "jumbetai_part_up",
                "1 where the part was last seen to be there, told by a front",
                &["part"],
            ),
            #[cfg(feature = "postgres")]
            outbox: OutboxMetrics { up: it.gauges("jumbetai_outbox_up", "1 where the outbox is read", &["kind"]) },
            recent: Recent::default(),
            process: ProcessMetrics::new(&it),
            registry: it.0,
        }
    }

    /// Counts the events at fault of lines as `site check` has them, a line each.
    pub fn count_faults(&self, lines: &str, from: &str) {
        #[derive(Deserialize)]
        struct Line {
            fault: String,
        }
        let mut counts = HashMap::new();
        for Line { fault } in lines.lines().filter_map(|it| serde_json::from_str(it).ok()) {
            *counts.entry(fault).or_insert(0) += 1;
        }
        for (fault, count) in counts {
            self.at_fault.with_label_values(&[&fault, from]).inc_by(count);
        }
    }

    /// All of it, as /metrics answers.
    pub fn text(&self) -> Vec<u8> {
        self.process.read();
        let mut text = Vec::new();
        if let Err(why) = TextEncoder::new().encode(&self.registry.gather(), &mut text) {
            tracing::warn!(%why, "metrics can't be told");
        }
        text
    }
}

impl SetMetrics {
    fn new(it: &Maker) -> SetMetrics {
        SetMetrics {
            sources: it.gauge("jumbetai_sources", "Sources of which there are events"),
            gaps: it.gauge("jumbetai_gaps", "Runs of numbers that a source lacks before its last one"),
            missing: it.put(Gauge::new("jumbetai_missing_numbers", "Numbers that sources lack before their last ones")),
            conflicts: it.gauge("jumbetai_conflicts", "Times that a source and id stand for several events"),
            database: it.gauge("jumbetai_database_bytes", "Bytes of the database file"),
            log: it.gauge("jumbetai_database_log_bytes", "Bytes of the log beside the database file"),
        }
    }

    /// Takes over what was counted.
    pub fn tell(&self, figures: &Figures) {
        self.sources.set(figures.sources as i64);
        self.gaps.set(figures.gaps as i64);
        self.missing.set(figures.missing);
        self.conflicts.set(figures.conflicts as i64);
    }

    /// Looks how large the files of a database are.
    pub fn measure(&self, db: &Path) {
        let bytes = |path: &Path| std::fs::metadata(path).map_or(0, |it| it.len() as i64);
        let mut log = PathBuf::from(db).into_os_string();
        log.push("-wal");
        self.database.set(bytes(db));
        self.log.set(bytes(Path::new(&log)));
    }
}

impl BackupMetrics {
    fn new(it: &Maker) -> BackupMetrics {
        let last =
            Gauge::new("jumbetai_backup_last_success_timestamp_seconds", "When a backup was last made, or was there");
        BackupMetrics {
            all: it.counters("jumbetai_backups_total", "Backups that were asked for", &["result"]),
            last: it.put(last),
            bytes: it.gauge("jumbetai_backup_bytes", "Bytes of the last backup"),
        }
    }

    /// A backup of so many bytes is there.
    pub fn made(&self, bytes: u64) {
        self.all.with_label_values(&["done"]).inc();
        self.last.set(now());
        self.bytes.set(bytes as i64);
    }

    pub fn failed(&self) {
        self.all.with_label_values(&["failed"]).inc();
    }
}

/// How often a second the system counts the time of processes, which is fixed for programs.
const TICKS: f64 = 100.0;

impl ProcessMetrics {
    fn new(it: &Maker) -> ProcessMetrics {
        let start = Gauge::new("process_start_time_seconds", "When the process began, in seconds since 1970");
        it.put(start).set(now());
        ProcessMetrics {
            resident: it.gauge("process_resident_memory_bytes", "Resident memory"),
            descriptors: it.gauge("process_open_fds", "Open file descriptors"),
            cpu: it.put(Counter::new("process_cpu_seconds_total", "Time on processors, of the program and the system")),
        }
    }

    fn read(&self) {
        let status = std::fs::read_to_string("/proc/self/status").unwrap_or_default();
        let kib =
            status.lines().find_map(|it| it.strip_prefix("VmRSS:")?.split_whitespace().next()?.parse::<i64>().ok());
        self.resident.set(kib.map_or(0, |it| it << 10));
        self.descriptors.set(std::fs::read_dir("/proc/self/fd").map_or(0, |it| it.count() as i64));
        // The name of the program, which may have spaces, stands in brackets; 11 words behind it come the two times.
        let stat = std::fs::read_to_string("/proc/self/stat").unwrap_or_default();
        let words = stat.rsplit_once(')').map_or("", |it| it.1).split_whitespace().skip(11).take(2);
        let ticks: f64 = words.filter_map(|it| it.parse::<f64>().ok()).sum();
        self.cpu.inc_by((ticks / TICKS - self.cpu.get()).max(0.0));
    }
}

impl PeerMetrics {
    fn new(it: &Maker) -> PeerMetrics {
        let of = |name: &str, help: &str| it.gauges(name, help, &["peer"]);
        PeerMetrics {
            up: of("jumbetai_peer_up", "1 where the last round with the peer was done"),
            equal: of("jumbetai_peer_equal", "1 where the peer was last seen with the same events"),
            lacking: it.of_peers("jumbetai_peer_lacking_numbers", "Numbers that the peer had and this site hadn't"),
            ahead: it.of_peers("jumbetai_peer_ahead_numbers", "Numbers that this site had and the peer hadn't"),
            last_success: it.of_peers("jumbetai_peer_last_success_timestamp_seconds", "When a round was last done"),
            last_equal: it.of_peers("jumbetai_peer_last_equal_timestamp_seconds", "When the events were last the same"),
            pulled: it.counters(
                "jumbetai_peer_pulled_events_total",
                "Events that came of the peer",
                &["peer", "result"],
            ),
            rounds: it.counters("jumbetai_peer_rounds_total", "Rounds with the peer", &["peer", "result"]),
        }
    }

    /// Takes away what was measured of a peer that there is no more.
    pub fn forget(&self, peer: &str) {
        for it in [&self.up, &self.equal] {
            let _ = it.remove_label_values(&[peer]);
        }
        for it in [&self.lacking, &self.ahead, &self.last_success, &self.last_equal] {
            let _ = it.remove_label_values(&[peer]);
        }
        for (it, results) in [(&self.pulled, ["new", "repeated"]), (&self.rounds, ["done", "failed"])] {
            for result in results {
                let _ = it.remove_label_values(&[peer, result]);
            }
        }
    }
}

#[cfg(test)]
mod tests {
    use super::*;

    #[test]
    fn peers_that_are_gone_leave_no_series() {
        let metrics = Metrics::new();
        metrics.peer.up.with_label_values(&["south"]).set(1);
        metrics.peer.last_equal.with_label_values(&["south"]).set(1.5);
        metrics.peer.rounds.with_label_values(&["south", "done"]).inc();
        let text = String::from_utf8(metrics.text()).unwrap();
        assert!(text.contains("jumbetai_peer_rounds_total{peer=\"south\",result=\"done\"} 1"));
        metrics.peer.forget("south");
        let text = String::from_utf8(metrics.text()).unwrap();
        assert!(!text.contains("south") && text.contains("jumbetai_build_info"));
        assert!(metrics.process.resident.get() > 0 && metrics.process.descriptors.get() > 2);
    }

    #[test]
    fn large_figures_are_told_as_such() {
        let metrics = Metrics::new();
        metrics.set.tell(&Figures { sources: 2, gaps: 3, missing: 18446744073709551614.0, conflicts: 4 });
        metrics.peer.lacking.with_label_values(&["south"]).set(u64::MAX as f64);
        let text = String::from_utf8(metrics.text()).unwrap();
        for it in
            ["jumbetai_missing_numbers 18446744073709552000", "jumbetai_peer_lacking_numbers{peer=\"south\"} 184467"]
        {
            assert!(text.contains(it), "{it}: {text}");
        }
    }
}
