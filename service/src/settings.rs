//! What the service is told: a TOML file, and flags over it.

use crate::access::{test_patterns, Role};
use crate::library::MAX_PARTS;
use crate::part::Part;
use clap::Parser;
use hyper::Uri;
use serde::Deserialize;
use std::collections::HashSet;
use std::net::SocketAddr;
use std::path::{Path, PathBuf};

/// All settings with their defaults, as a TOML file.
const DEFAULTS: &str = include_str!("../jumbetaid.toml");

/// The most bytes that the library reads at once.
const LARGEST: usize = 33_554_432;

/// Holds a site of CloudEvents open over its database, takes events over HTTP, and comes to one view with its peers.
#[derive(Parser, Debug, Default, Clone)]
#[command(name = "jumbetaid", version, after_long_help = DEFAULTS)]
pub struct Flags {
    /// The TOML file of settings; --help lists them
    #[arg(long, short, value_name = "FILE")]
    pub config: Option<PathBuf>,
    /// The region's name
    #[arg(long, value_name = "NAME")]
    pub name: Option<String>,
    /// The database file, made where there is none
    #[arg(long, value_name = "FILE")]
    pub db: Option<PathBuf>,
    /// The address and port to listen at
    #[arg(long, value_name = "ADDR")]
    pub listen: Option<SocketAddr>,
    /// Which part of a region it holds: 1/4 is the second of four
    #[arg(long, value_name = "I/N", value_parser = Part::read)]
    pub part: Option<Part>,
    /// A part that it stands in front of; given for each, part 0 first, in place of those of the file
    #[arg(long, value_name = "URL")]
    pub parts: Vec<String>,
    /// A peer; may be given several times, in place of those of the file
    #[arg(long, value_name = "NAME=URL")]
    pub peer: Vec<String>,
    /// Test the settings and the database, and end
    #[arg(long)]
    pub check: bool,
}

/// A bearer token, by its SHA-256 in hexadecimal, or by a file that holds it.
#[derive(Deserialize, Clone, PartialEq, Eq, Debug)]
#[serde(deny_unknown_fields)]
pub struct Token {
    pub name: String,
    pub roles: Vec<Role>,
    pub sources: Option<Vec<String>>,
    pub sha256: Option<String>,
    pub file: Option<PathBuf>,
}

/// A site to come to one view with.
#[derive(Deserialize, Clone, PartialEq, Eq, Debug)]
#[serde(deny_unknown_fields)]
pub struct Peer {
    pub name: String,
    pub url: String,
    pub token_file: Option<PathBuf>,
}

/// Where a part of the region is that a front stands before.
#[derive(Deserialize, Clone, PartialEq, Eq, Debug)]
#[serde(deny_unknown_fields)]
pub struct PartAt {
    pub url: String,
    pub token_file: Option<PathBuf>,
}

#[derive(Deserialize, Clone, PartialEq, Eq, Debug)]
#[serde(deny_unknown_fields)]
pub struct Tls {
    pub certificate: PathBuf,
    pub key: PathBuf,
}

#[derive(Deserialize, Clone, PartialEq, Eq, Debug)]
#[serde(deny_unknown_fields, default)]
pub struct Limits {
    pub connections: usize,
    pub head_bytes: usize,
    pub idle_seconds: u64,
    pub body_bytes: usize,
    pub body_seconds: u64,
    pub waiting_bodies: usize,
    pub waiting_bytes: usize,
    pub waiting_ms: u64,
    pub commit_bytes: usize,
    pub page_events: u64,
    pub page_bytes: usize,
    pub answer_bytes: usize,
    pub faults: usize,
    pub shutdown_seconds: u64,
}

impl Default for Limits {
    fn default() -> Self {
        Limits {
            connections: 1024,
            head_bytes: 64 << 10,
            idle_seconds: 30,
            body_bytes: 4 << 20,
            body_seconds: 15,
            waiting_bodies: 4096,
            waiting_bytes: 64 << 20,
            waiting_ms: 2000,
            commit_bytes: 256 << 10,
            page_events: 2000,
            page_bytes: 8 << 20,
            answer_bytes: 64 << 20,
            faults: 100,
            shutdown_seconds: 8,
        }
    }
}

#[derive(Deserialize, Clone, PartialEq, Eq, Debug)]
#[serde(deny_unknown_fields, default)]
pub struct Sync {
    pub every_ms: u64,
    pub wait_seconds: u64,
    pub connect_seconds: u64,
    pub request_seconds: u64,
    pub backoff_ms: u64,
    pub backoff_max_ms: u64,
    pub repair_seconds: u64,
    pub ca: Option<PathBuf>,
}

impl Default for Sync {
    fn default() -> Self {
        Sync {
            every_ms: 200,
            wait_seconds: 10,
            connect_seconds: 3,
            request_seconds: 15,
            backoff_ms: 250,
            backoff_max_ms: 15_000,
            repair_seconds: 60,
            ca: None,
        }
    }
}

/// An outbox in PostgreSQL that events are taken out of.
#[derive(Deserialize, Clone, PartialEq, Eq, Debug)]
#[serde(deny_unknown_fields)]
pub struct Postgres {
    pub url: String,
    #[serde(default = "every_ms")]
    pub every_ms: u64,
    #[serde(default)]
    pub trim: bool,
}

fn every_ms() -> u64 {
    100
}

/// Sources whose events get their numbers here, or in another region.
#[derive(Deserialize, Clone, PartialEq, Eq, Debug)]
#[serde(deny_unknown_fields)]
pub struct Number {
    pub sources: Vec<String>,
    #[serde(default)]
    pub carry: bool,
    pub home: Option<String>,
}

/// All settings. `jumbetaid.toml` says what each is for.
#[derive(Deserialize, Clone, PartialEq, Eq, Debug)]
#[serde(deny_unknown_fields, default)]
pub struct Settings {
    pub name: String,
    pub db: PathBuf,
    pub part: Option<Part>,
    pub listen: SocketAddr,
    pub open_to_all: bool,
    pub cache_mib: u32,
    pub backups: Option<PathBuf>,
    pub numbers: Option<PathBuf>,
    pub numbers_base: u64,
    pub workers: usize,
    pub log: String,
    pub log_text: bool,
    pub webhook_origins: Vec<String>,
    pub webhook_rate: u32,
    pub tokens: Vec<Token>,
    pub peers: Vec<Peer>,
    pub parts: Vec<PartAt>,
    pub number: Vec<Number>,
    pub tls: Option<Tls>,
    pub postgres: Option<Postgres>,
    pub limits: Limits,
    pub sync: Sync,
}

impl Default for Settings {
    fn default() -> Self {
        Settings {
            name: "site".into(),
            db: PathBuf::new(),
            part: None,
            listen: SocketAddr::from(([127, 0, 0, 1], 8087)),
            open_to_all: false,
            cache_mib: 0,
            backups: None,
            numbers: None,
            numbers_base: 0,
            workers: 0,
            log: "info".into(),
            log_text: false,
            webhook_origins: Vec::new(),
            webhook_rate: 0,
            tokens: Vec::new(),
            peers: Vec::new(),
            parts: Vec::new(),
            number: Vec::new(),
            tls: None,
            postgres: None,
            limits: Limits::default(),
            sync: Sync::default(),
        }
    }
}

/// The text of a small file, such as settings or a token, or why it can't be read.
pub fn text_of(path: &Path) -> Result<String, String> {
    std::fs::read_to_string(path).map_err(|why| format!("{}: {why}", path.display()))
}

impl Settings {
    /// The settings of the flags' file with the flags over it, or why they can't be used.
    pub fn of(flags: &Flags) -> Result<Settings, String> {
        let mut settings = match &flags.config {
            Some(path) => toml::from_str(&text_of(path)?).map_err(|why| format!("{}: {why}", path.display()))?,
            None => Settings::default(),
        };
        if let Some(name) = &flags.name {
            settings.name.clone_from(name);
        }
        if let Some(db) = &flags.db {
            settings.db.clone_from(db);
        }
        if let Some(listen) = flags.listen {
            settings.listen = listen;
        }
        if flags.part.is_some() {
            settings.part = flags.part;
        }
        if !flags.peer.is_empty() {
            settings.peers = flags.peer.iter().map(|it| peer_of(it)).collect::<Result<_, _>>()?;
        }
        if !flags.parts.is_empty() {
            let at = |url: &String| PartAt { url: url.clone(), token_file: None };
            settings.parts = flags.parts.iter().map(at).collect();
        }
        let urls =
            settings.peers.iter_mut().map(|it| &mut it.url).chain(settings.parts.iter_mut().map(|it| &mut it.url));
        for url in urls {
            url.truncate(url.trim_end_matches('/').len());
        }
        settings.test()?;
        Ok(settings)
    }

    /// Why the settings can't be used.
    fn test(&self) -> Result<(), String> {
        self.test_parts()?;
        if self.db.as_os_str().is_empty() && self.parts.is_empty() {
            return Err("no database: give --db FILE, or db in the file of settings".into());
        }
        if self.tokens.is_empty() && !self.listen.ip().is_loopback() && !self.open_to_all {
            let at = self.listen;
            return Err(format!("{at} is beyond loopback: add [[tokens]], or open_to_all = true"));
        }
        if self.tls.is_some() && !cfg!(feature = "tls") {
            return Err("[tls] needs a build with the feature tls".into());
        }
        if self.postgres.is_some() && !cfg!(feature = "postgres") {
            return Err("[postgres] needs a build with the feature postgres".into());
        }
        for it in &self.number {
            test_patterns(&it.sources).map_err(|why| format!("number: sources: {why}"))?;
        }
        if self.numbers.is_none() && self.number.iter().any(|it| it.home.is_none()) {
            return Err("[[number]] needs a file for the numbers: numbers".into());
        }
        let mut names = HashSet::new();
        for peer in &self.peers {
            if peer.name.is_empty() || !names.insert(&peer.name) {
                return Err(format!("peers: the name {:?} is empty, or there twice", peer.name));
            }
            test_url(&peer.url).map_err(|why| format!("peer {}: {}: {why}", peer.name, peer.url))?;
        }
        self.limits.test()
    }

    /// Why it can't be a front, where it has parts.
    fn test_parts(&self) -> Result<(), String> {
        for (index, part) in self.parts.iter().enumerate() {
            test_url(&part.url).map_err(|why| format!("part {index}: {}: {why}", part.url))?;
        }
        if self.parts.len() as u64 > MAX_PARTS {
            return Err(format!("a region has at most {MAX_PARTS} parts"));
        }
        let others = [
            ("db", !self.db.as_os_str().is_empty()),
            ("part", self.part.is_some()),
            ("numbers", self.numbers.is_some()),
            ("number", !self.number.is_empty()),
            ("postgres", self.postgres.is_some()),
            ("backups", self.backups.is_some()),
        ];
        match others.iter().find(|it| it.1) {
            Some((name, _)) if !self.parts.is_empty() => {
                Err(format!("{name} is the business of the parts: a front with [[parts]] has none"))
            }
            _ => Ok(()),
        }
    }

    /// The names of settings that differ from others and that a running service doesn't take up.
    pub fn fixed_changes(&self, other: &Settings) -> Vec<&'static str> {
        let changes = [
            ("name", self.name != other.name),
            ("db", self.db != other.db),
            ("part", self.part != other.part),
            ("parts", self.parts.len() != other.parts.len()),
            ("listen", self.listen != other.listen),
            ("cache_mib", self.cache_mib != other.cache_mib),
            ("backups", self.backups != other.backups),
            ("numbers", (&self.numbers, self.numbers_base) != (&other.numbers, other.numbers_base)),
            ("number", self.number != other.number),
            ("workers", self.workers != other.workers),
            ("log", (&self.log, self.log_text) != (&other.log, other.log_text)),
            ("tls", self.tls != other.tls),
            ("postgres", self.postgres != other.postgres),
            ("limits", self.limits != other.limits),
            ("sync", self.sync != other.sync),
        ];
        changes.iter().filter(|it| it.1).map(|it| it.0).collect()
    }
}

fn peer_of(word: &str) -> Result<Peer, String> {
    let (name, url) = word.split_once('=').ok_or(format!("--peer {word}: not NAME=URL"))?;
    Ok(Peer { name: name.into(), url: url.into(), token_file: None })
}

fn test_url(url: &str) -> Result<(), &'static str> {
    let uri: Uri = url.parse().map_err(|_| "no URL")?;
    match uri.scheme_str() {
        Some("http") => {}
        Some("https") if cfg!(feature = "tls") => {}
        Some("https") => return Err("https needs a build with the feature tls"),
        _ => return Err("a URL begins with http:// or https://"),
    }
    if uri.host().map_or(true, str::is_empty) || uri.query().is_some() {
        return Err("a URL has a host, and no question mark");
    }
    Ok(())
}

impl Limits {
    /// How many events an answer has that is asked for with so many.
    pub fn page_of(&self, asked: Option<u64>) -> u64 {
        asked.map_or(self.page_events, |it| it.clamp(1, self.page_events))
    }

    fn test(&self) -> Result<(), String> {
        let rows = [
            ("connections", self.connections, 1, 1 << 20),
            ("head_bytes", self.head_bytes, 8192, 1 << 20),
            ("idle_seconds", self.idle_seconds as usize, 1, 3600),
            ("body_bytes", self.body_bytes, 1, LARGEST),
            ("body_seconds", self.body_seconds as usize, 1, 3600),
            ("waiting_bodies", self.waiting_bodies, 1, 1 << 20),
            ("waiting_bytes", self.waiting_bytes, self.body_bytes, 1 << 40),
            ("commit_bytes", self.commit_bytes, 1, LARGEST / 2),
            ("page_events", self.page_events as usize, 1, 2000),
            ("page_bytes", self.page_bytes, 1, LARGEST),
            ("answer_bytes", self.answer_bytes, 1, 1 << 40),
            ("shutdown_seconds", self.shutdown_seconds as usize, 1, 3600),
        ];
        for (name, value, least, most) in rows {
            if !(least..=most).contains(&value) {
                return Err(format!("limits.{name} is {value}, and not from {least} to {most}"));
            }
        }
        Ok(())
    }
}

#[cfg(test)]
mod tests {
    use super::*;

    fn read(text: &str) -> Result<Settings, String> {
        let settings: Settings = toml::from_str(text).map_err(|why| why.to_string())?;
        settings.test().map(|()| settings)
    }

    #[test]
    fn the_file_of_defaults_says_the_defaults() {
        let told: Settings = toml::from_str(DEFAULTS).unwrap();
        assert_eq!(told, Settings::default());
    }

    #[test]
    fn the_examples_of_the_file_can_be_used() {
        let text = DEFAULTS.replace("#: ", "");
        let part = |name: &str| text.find(name).unwrap_or(text.len());
        let end = if cfg!(feature = "tls") { text.len() } else { part("[tls]") };
        let end = if cfg!(feature = "postgres") { end } else { end.min(part("[postgres]")) };
        // A front has no database; so its example stands for itself.
        let (front, behind) = (part("[[parts]]"), part("[[peers]]"));
        assert_eq!(read(&text[front..behind]).unwrap().parts.len(), 2);
        let text = format!("{}{}", &text[..front], &text[behind..end]);
        let told = read(&text).unwrap();
        assert_eq!((told.tokens.len(), told.peers.len(), told.sync.ca.is_some()), (1, 1, true));
    }

    #[test]
    fn settings_that_cant_be_used_say_why() {
        for (text, why) in [
            ("", "no database"),
            ("db = 'a'\nlisten = '0.0.0.0:1'", "beyond loopback"),
            ("db = 'a'\ndbs = 'b'", "unknown field"),
            ("db = 'a'\n[limits]\nbody_bytes = 33554433", "body_bytes"),
            ("db = 'a'\n[limits]\nbody_bytes = 4096\nwaiting_bytes = 4095", "waiting_bytes"),
            ("db = 'a'\n[limits]\npage_events = 0", "page_events"),
            ("db = 'a'\n[[peers]]\nname = 'b'\nurl = 'ftp://c'", "http://"),
            ("db = 'a'\n[[peers]]\nname = 'b'\nurl = 'http://c?d'", "question mark"),
            ("db = 'a'\n[[peers]]\nname = ''\nurl = 'http://c'", "empty"),
            ("db = 'a'\n[[tokens]]\nname = 'b'\nroles = ['all']", "all"),
            ("db = 'a'\npart = '4/4'", "1/4"),
            ("db = 'a'\npart = 1", "string"),
            ("db = 'a'\n[[parts]]\nurl = 'http://b'", "db is the business"),
            ("numbers = 'a'\n[[parts]]\nurl = 'http://b'", "numbers is the business"),
            ("part = '0/1'\n[[parts]]\nurl = 'http://b'", "part is the business"),
            ("[[parts]]\nurl = 'http://a'\n[[parts]]\nurl = 'b'", "part 1: b"),
        ] {
            let told = read(text).unwrap_err();
            assert!(told.contains(why), "{text}: {told}");
        }
        assert!(read("db = 'a'\nlisten = '0.0.0.0:1'\nopen_to_all = true").is_ok());
        assert!(read("db = 'a'\nlisten = '[::1]:1'").is_ok());
        assert_eq!(read("[[parts]]\nurl = 'http://a'\n[[parts]]\nurl = 'http://b'").unwrap().parts.len(), 2);
    }

    #[test]
    fn flags_stand_over_the_file() {
        let flags = Flags {
            db: Some("x.db".into()),
            listen: Some("127.0.0.1:9".parse().unwrap()),
            peer: vec!["south=http://s:1//".into()],
            ..Flags::default()
        };
        let told = Settings::of(&flags).unwrap();
        assert_eq!((told.listen.port(), told.peers[0].url.as_str()), (9, "http://s:1"));
        let front = Flags { parts: vec!["http://a:1/".into(), "http://b:1".into()], ..Flags::default() };
        assert_eq!(Settings::of(&front).unwrap().parts[0].url, "http://a:1");
        assert!(Settings::of(&Flags { db: Some("x.db".into()), ..front }).unwrap_err().contains("db"));
        let twice = Flags { peer: vec!["a=http://b".into(), "a=http://c".into()], ..flags };
        assert!(Settings::of(&twice).unwrap_err().contains("twice"));
    }

    #[test]
    fn changes_that_want_a_restart_are_named() {
        let old = Settings::default();
        let new = Settings { name: "other".into(), webhook_rate: 7, ..Settings::default() };
        assert_eq!(old.fixed_changes(&new), ["name"]);
    }
}
