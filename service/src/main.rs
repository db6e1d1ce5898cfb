//! `jumbetaid`: holds a site of CloudEvents open over its database, takes events over HTTP, keeps them before it answers,
//! and comes to one view with its peers; or stands in front of several such, each with a part of a region.
//!
//! What is decided about events is decided by the library, which is proved; the service carries bytes and is tested.

mod access;
mod backup;
mod client;
mod connections;
mod events;
mod feed;
mod front;
mod intake;
mod keeper;
mod library;
mod metrics;
mod number;
mod page;
mod part;
mod peers;
#[cfg(feature = "postgres")]
mod postgres;
mod problems;
mod questions;
mod reader;
mod recent;
mod room;
mod routes;
mod settings;
mod sync;
#[cfg(feature = "tls")]
mod tls;
mod watching;

use clap::Parser;
use front::Front;
use library::{Error, Site};
use metrics::Metrics;
use room::Room;
use routes::{Common, Kind, Live, Service};
use sd_notify::NotifyState;
use settings::{Flags, Settings};
use std::path::Path;
use std::process::ExitCode;
use std::sync::{Arc, RwLock};
use std::time::{Duration, Instant};
use tokio::signal::unix::{signal, Signal, SignalKind};
use tokio::sync::{watch, Semaphore};

fn main() -> ExitCode {
    let flags = Flags::parse();
    match run(&flags) {
        Ok(()) => ExitCode::SUCCESS,
        Err(why) => {
            eprintln!("jumbetaid: {why}");
            ExitCode::FAILURE
        }
    }
}

fn run(flags: &Flags) -> Result<(), String> {
    let settings = Settings::of(flags)?;
    let live = Live::of(&settings)?;
    if flags.check {
        return check(&settings);
    }
    log_to_stderr(&settings)?;
    let mut runtime = tokio::runtime::Builder::new_multi_thread();
    if settings.workers > 0 {
        runtime.worker_threads(settings.workers);
    }
    let runtime = runtime.enable_all().build().map_err(|it| it.to_string())?;
    let done = runtime.block_on(serve(flags, settings, live));
    runtime.shutdown_timeout(Duration::from_millis(500));
    done
}

/// Tells whether the files that the settings name can be read; a database that isn't there isn't made.
fn check(settings: &Settings) -> Result<(), String> {
    let of_parts = settings.parts.iter().filter_map(|it| it.token_file.as_deref());
    for file in settings.peers.iter().filter_map(|it| it.token_file.as_deref()).chain(of_parts) {
        settings::text_of(file)?;
    }
    #[cfg(feature = "tls")]
    if let Some(tls) = &settings.tls {
        tls::acceptor(tls)?;
    }
    if !settings.parts.is_empty() {
        println!("the settings can be used; the {} parts weren't asked", settings.parts.len());
        return Ok(());
    }
    let db = settings.db.display();
    let told = if !settings.db.exists() {
        "isn't there, and will be made".to_owned()
    } else {
        match library::Site::open_with_cache(&settings.db, settings.cache_mib) {
            Ok(mut site) => {
                settings.part.map_or(Ok(()), |it| it.test(&mut site)).map_err(|why| format!("{db}: {why}"))?;
                format!("is sound, with {} events", site.len())
            }
            Err(Error::Busy) => "is in use, and wasn't tested".to_owned(),
            Err(why) => return Err(format!("{db}: {why}")),
        }
    };
    if let Some(path) = settings.numbers.as_ref().filter(|it| it.exists()) {
        match library::Numbers::open(path, settings.cache_mib, settings.numbers_base) {
            Ok(_) | Err(Error::Busy) => {}
            Err(why) => return Err(format!("{}: {why}", path.display())),
        }
    }
    println!("the settings can be used; {db} {told}");
    Ok(())
}

fn log_to_stderr(settings: &Settings) -> Result<(), String> {
    let filter = tracing_subscriber::EnvFilter::try_new(&settings.log).map_err(|it| format!("log: {it}"))?;
    let lines = tracing_subscriber::fmt().with_env_filter(filter).with_writer(std::io::stderr);
    match settings.log_text {
        true => lines.init(),
        false => lines.json().flatten_event(true).with_span_list(false).init(),
    }
    Ok(())
}

type Opened = (Arc<keeper::Keeper>, keeper::Threads, Option<(number::Numberer, std::thread::JoinHandle<()>)>);

/// Opens the files of the settings, and starts the threads that have them.
fn open(settings: &Settings, room: Arc<Room>, metrics: Arc<Metrics>) -> Result<Opened, String> {
    let of = |file: &Path, why: Error| format!("{}: {why}", file.display());
    let of_db = |why| of(&settings.db, why);
    let of_numbers = |why| of(settings.numbers.as_deref().unwrap_or(&settings.db), why);
    let mut site = Site::open_with_cache(&settings.db, settings.cache_mib).map_err(of_db)?;
    let events = number::settle(&mut site, settings).map_err(of_numbers)?;
    if events > 0 {
        tracing::warn!(events, "what was numbered and hadn't been taken is taken");
    }
    if let Some(part) = settings.part {
        part.test(&mut site).map_err(|why| format!("{}: {why}", settings.db.display()))?;
    }
    let commit_bytes = settings.limits.commit_bytes;
    let (keeper, threads) = keeper::start(site, settings.part, commit_bytes, room, metrics).map_err(of_db)?;
    let numberer = number::Numberer::open(settings).map_err(of_numbers)?;
    Ok((keeper, threads, numberer))
}

/// Serves what the settings say until a signal ends it.
async fn serve(flags: &Flags, settings: Settings, live: Live) -> Result<(), String> {
    let signals = Signals::new().map_err(|it| it.to_string())?;
    let (end, ends) = watch::channel(false);
    let common = Common::new(settings, live, ends);
    match common.settings.parts.is_empty() {
        true => serve_site(flags, common, signals, &end).await,
        false => serve_front(flags, common, signals, &end).await,
    }
}

/// Looks at the parts once, and serves in front of them.
async fn serve_front(flags: &Flags, common: Common, signals: Signals, end: &watch::Sender<bool>) -> Result<(), String> {
    let front = Front::start(common)?;
    front.looked().await;
    serve_until_signal(flags, &Kind::Front(front), signals, end).await
}

/// Opens the site, serves, and closes the site, whatever came between.
async fn serve_site(flags: &Flags, common: Common, signals: Signals, end: &watch::Sender<bool>) -> Result<(), String> {
    let start = Instant::now();
    let opening = {
        let (settings, room, metrics) = (common.settings.clone(), common.room.clone(), common.metrics.clone());
        tokio::task::spawn_blocking(move || open(&settings, room, metrics))
    };
    let (keeper, threads, numberer) = opening.await.map_err(|it| it.to_string())??;
    let (numberer, numbering) = numberer.map_or((None, None), |it| (Some(it.0), Some(it.1)));
    let (events, ms) = (keeper.count(), start.elapsed().as_millis() as u64);
    tracing::info!(db = %common.settings.db.display(), events, ms, "the database is open");
    let service = Arc::new(Service {
        common,
        backups: Arc::new(Semaphore::new(1)),
        keeper: keeper.clone(),
        numberer: RwLock::new(numberer.map(Arc::new)),
    });
    let served = serve_until_signal(flags, &Kind::Site(service.clone()), signals, end).await;
    keeper.close();
    // Without whom nobody can ask it any more.
    *service.numberer.write().unwrap() = None;
    let joining = move || {
        threads.join();
        numbering.map(std::thread::JoinHandle::join)
    };
    tokio::task::spawn_blocking(joining)
        .await
        .map_err(|it| it.to_string())?
        .map_or(Ok(()), |it| it.map_err(|_| "the numberer panicked".to_owned()))?;
    tracing::info!("the database is closed");
    served
}

async fn serve_until_signal(
    flags: &Flags,
    service: &Kind,
    mut signals: Signals,
    end: &watch::Sender<bool>,
) -> Result<(), String> {
    let settings = &service.settings;
    let mut tasks = sync::Tasks::new(service)?;
    let door = connections::Door::new(service.clone())?;
    let listener = connections::listen(settings.listen).map_err(|it| format!("{}: {it}", settings.listen))?;
    let at = listener.local_addr().map_err(|it| it.to_string())?;
    tasks.set(tasks.peers_of(&settings.peers)?);
    #[cfg(feature = "postgres")]
    let outbox = match (service, settings.postgres.clone()) {
        (Kind::Site(site), Some(it)) => Some(tokio::spawn(postgres::Outbox::new(it, site).run())),
        _ => None,
    };
    let connections = tokio::spawn(door.serve(listener));
    notify(NotifyState::Ready);
    tracing::info!(name = settings.name, listen = %at, "ready");
    while !signals.next().await {
        match reload(flags, service, &mut tasks) {
            Ok(()) => tracing::info!("the settings are read again"),
            Err(why) => tracing::error!(why, "the settings stay as they were"),
        }
    }
    tracing::info!("ends: what is under way is done first");
    notify(NotifyState::Stopping);
    let _ = end.send(true);
    tasks.end().await;
    #[cfg(feature = "postgres")]
    if let Some(outbox) = outbox {
        let _ = tokio::time::timeout(Duration::from_secs(1), outbox).await;
    }
    connections.await.map_err(|it| it.to_string())
}

/// Takes up what of the settings may change while the service runs. Where one of them can't be used nothing changes.
fn reload(flags: &Flags, service: &Kind, tasks: &mut sync::Tasks) -> Result<(), String> {
    let settings = Settings::of(flags)?;
    let live = Live::of(&settings)?;
    let peers = tasks.peers_of(&settings.peers)?;
    if let Kind::Front(front) = service {
        front.set(front.parts_of(&settings.parts)?);
    }
    tasks.set(peers);
    *service.live.write().unwrap() = Arc::new(live);
    let fixed = service.settings.fixed_changes(&settings);
    if !fixed.is_empty() {
        tracing::warn!(settings = fixed.join(", "), "these changed, and want a restart");
    }
    Ok(())
}

/// Tells a supervisor of systemd's kind; without one nobody hears it.
fn notify(state: NotifyState) {
    if let Err(why) = sd_notify::notify(false, &[state]) {
        tracing::warn!(%why, "the supervisor can't be told");
    }
}

struct Signals {
    term: Signal,
    interrupt: Signal,
    hangup: Signal,
}

impl Signals {
    fn new() -> std::io::Result<Signals> {
        Ok(Signals {
            term: signal(SignalKind::terminate())?,
            interrupt: signal(SignalKind::interrupt())?,
            hangup: signal(SignalKind::hangup())?,
        })
    }

    /// Waits for a signal: true where it ends the service, false where the settings are to be read again.
    async fn next(&mut self) -> bool {
        tokio::select! {
            _ = self.term.recv() => true,
            _ = self.interrupt.recv() => true,
            _ = self.hangup.recv() => false,
        }
    }
}
