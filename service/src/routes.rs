//! Which part answers a request, and who may ask it.

use crate::access::{Access, Role, Sources, Verdict};
use crate::front::Front;
use crate::keeper::Keeper;
use crate::metrics::Metrics;
use crate::number::Numberer;
use crate::page::page;
use crate::peers::Peers;
use crate::problems::{problem, set, Answered};
use crate::reader::{self, What};
use crate::room::Room;
use crate::settings::Settings;
use hyper::header::{AUTHORIZATION, CONTENT_LENGTH, HOST, ORIGIN, TRANSFER_ENCODING};
use hyper::{Body, Method, Request, StatusCode};
use std::net::{IpAddr, SocketAddr};
use std::ops::Deref;
use std::sync::{Arc, RwLock};
use std::time::Instant;
use tokio::sync::{watch, Semaphore};

/// The header by which a part says which it is, and whoever asks it which is meant.
pub const PART: &str = "site-part";

/// What answers of any kind of the service stand on.
pub struct Common {
    pub settings: Settings,
    pub live: RwLock<Arc<Live>>,
    /// Room for bodies.
    pub room: Arc<Room>,
    pub metrics: Arc<Metrics>,
    pub peers: Arc<Peers>,
    /// True once the service ends: nothing waits any more.
    pub ends: watch::Receiver<bool>,
    /// Room for answers that are held back or never end.
    pub held: Arc<Semaphore>,
}

/// A site, whole or a part of a region, over its database.
pub struct Service {
    pub common: Common,
    pub keeper: Arc<Keeper>,
    pub numberer: RwLock<Option<Arc<Numberer>>>,
    /// Room for one backup at a time.
    pub backups: Arc<Semaphore>,
}

impl Deref for Service {
    type Target = Common;

    fn deref(&self) -> &Common {
        &self.common
    }
}

/// The settings that may change while the service runs.
pub struct Live {
    pub access: Access,
    pub webhook_origins: Vec<String>,
    pub webhook_rate: u32,
}

impl Common {
    /// That of the settings, with nothing under way.
    pub fn new(settings: Settings, live: Live, ends: watch::Receiver<bool>) -> Common {
        Common {
            live: RwLock::new(Arc::new(live)),
            room: Arc::new(Room::new(&settings.limits)),
            metrics: Arc::new(Metrics::new()),
            peers: Arc::default(),
            ends,
            held: Arc::new(Semaphore::new(settings.limits.connections / 2)),
            settings,
        }
    }
}

impl Live {
    /// Those of the settings, or why a token can't be read.
    pub fn of(settings: &Settings) -> Result<Live, String> {
        Ok(Live {
            access: Access::of(&settings.tokens)?,
            webhook_origins: settings.webhook_origins.clone(),
            webhook_rate: settings.webhook_rate,
        })
    }
}

/// What a path stands for.
#[derive(Clone, Copy, PartialEq, Eq, Debug)]
pub enum Route {
    Page,
    Events,
    Check,
    Delta,
    Arrivals,
    Backup,
    Get,
    Answer(What),
    Metrics,
    Status,
    Health,
    Ready,
    Other,
}

impl Route {
    fn of(path: &str) -> Route {
        match path {
            "/" => Route::Page,
            "/events" => Route::Events,
            "/check" => Route::Check,
            "/delta" => Route::Delta,
            "/arrivals" => Route::Arrivals,
            "/backup" => Route::Backup,
            "/get" => Route::Get,
            "/metrics" => Route::Metrics,
            "/status" => Route::Status,
            "/healthz" => Route::Health,
            "/readyz" => Route::Ready,
            _ => {
                let what = reader::ALL.iter().find(|it| path.strip_prefix('/') == Some(it.0));
                what.map_or(Route::Other, |it| Route::Answer(it.1))
            }
        }
    }

    /// Its name in metrics: what a stranger asks for makes no series of its own.
    fn name(self) -> &'static str {
        match self {
            Route::Page => "page",
            Route::Events => "events",
            Route::Check => "check",
            Route::Delta => "delta",
            Route::Arrivals => "arrivals",
            Route::Backup => "backup",
            Route::Get => "get",
            Route::Answer(what) => reader::name_of(what),
            Route::Metrics | Route::Status | Route::Health | Route::Ready => "watch",
            Route::Other => "other",
        }
    }

    fn methods(self) -> &'static str {
        match self {
            Route::Events => "POST, OPTIONS",
            Route::Check | Route::Delta | Route::Backup => "POST",
            _ => "GET, HEAD",
        }
    }

    /// The roles of which a request needs one; none where everybody may ask.
    fn roles(self, method: &Method) -> &'static [Role] {
        match (self, method) {
            // The handshake of webhooks and who watches whether the service lives have no token; the page asks for one.
            (Route::Page | Route::Health | Route::Ready, _) | (Route::Events, &Method::OPTIONS) => &[],
            (Route::Events, &Method::POST) => &[Role::Write],
            (Route::Delta, _) => &[Role::Peer],
            (Route::Backup, _) => &[Role::Backup],
            (Route::Answer(What::Summary | What::Cover), _) => &[Role::Read, Role::Peer],
            _ => &[Role::Read],
        }
    }
}

/// What of the service answers.
#[derive(Clone)]
pub enum Kind {
    Site(Arc<Service>),
    Front(Arc<Front>),
}

impl Deref for Kind {
    type Target = Common;

    fn deref(&self) -> &Common {
        match self {
            Kind::Site(site) => site,
            Kind::Front(front) => front,
        }
    }
}

impl Kind {
    /// Answers a request, counts it and logs it.
    pub async fn answer(self, request: Request<Body>, from: SocketAddr) -> Answered {
        let start = Instant::now();
        let (method, path) = (request.method().clone(), request.uri().path().to_owned());
        let route = Route::of(&path);
        // A request that a proxy may have read otherwise than hyper does is the last of its connection, so that what
        // is behind it is never taken for another one.
        let is_last = request.headers().contains_key(TRANSFER_ENCODING);
        let mut answer = self.route(route, request).await;
        if is_last {
            set(&mut answer, "connection", "close");
        }
        if let Some(part) = self.settings.part {
            set(&mut answer, PART, &part.to_string());
        }
        let (status, time) = (answer.status().as_u16(), start.elapsed());
        self.metrics.requests.with_label_values(&[route.name(), &status.to_string()]).inc();
        self.metrics.request_seconds.with_label_values(&[route.name()]).observe(time.as_secs_f64());
        let us = time.as_micros() as u64;
        if status >= 500 {
            tracing::warn!(%method, path, status, %from, us, "request");
        } else {
            tracing::debug!(%method, path, status, %from, us, "request");
        }
        answer
    }

    async fn route(&self, route: Route, request: Request<Body>) -> Answered {
        let sources = match self.admit(route, &request) {
            Ok(sources) => sources,
            Err(refused) => return refused,
        };
        if route == Route::Other {
            let path = request.uri().path();
            return problem(StatusCode::NOT_FOUND, "not-found", "Nothing of that name", path).into();
        }
        match request.method() {
            &Method::POST => match self {
                Kind::Site(site) => site.posted(route, request, sources).await,
                Kind::Front(front) => front.posted(route, request, sources).await,
            },
            &Method::GET | &Method::HEAD => match self {
                Kind::Site(site) => site.got(route, &request).await,
                Kind::Front(front) => front.got(route, &request).await,
            },
            &Method::OPTIONS if route == Route::Events => self.handshake(&request),
            _ => not_so(route),
        }
    }
}

/// The answer to a method that a path hasn't.
pub fn not_so(route: Route) -> Answered {
    let allowed = route.methods();
    let mut answer = problem(StatusCode::METHOD_NOT_ALLOWED, "method", "Not by this method", allowed).into();
    set(&mut answer, "allow", allowed);
    answer
}

impl Service {
    async fn posted(self: &Arc<Self>, route: Route, request: Request<Body>, sources: Sources) -> Answered {
        match route {
            Route::Events => self.take(request, sources).await,
            Route::Check => self.check(request).await,
            Route::Delta => self.delta(request).await,
            Route::Backup => self.backup().await,
            _ => not_so(route),
        }
    }

    async fn got(self: &Arc<Self>, route: Route, request: &Request<Body>) -> Answered {
        match route {
            Route::Arrivals => self.arrivals(request).await,
            Route::Get => self.get(request).await,
            Route::Answer(what) => self.ask(request, what).await,
            Route::Page => page(),
            Route::Metrics => self.metrics().await,
            Route::Status => self.status().await,
            Route::Health => self.health(),
            Route::Ready => self.ready(),
            _ => not_so(route),
        }
    }
}

impl Common {
    /// The sources of which whoever asks may give events, or why the request isn't answered.
    fn admit(&self, route: Route, request: &Request<Body>) -> Result<Sources, Answered> {
        let headers = request.headers();
        let head: usize = headers.iter().map(|(name, value)| name.as_str().len() + value.len()).sum();
        if head > self.settings.limits.head_bytes {
            let detail = format!("at most {} bytes", self.settings.limits.head_bytes);
            let status = StatusCode::REQUEST_HEADER_FIELDS_TOO_LARGE;
            return Err(problem(status, "head", "The head is too large", detail).into());
        }
        if headers.contains_key(TRANSFER_ENCODING) && headers.contains_key(CONTENT_LENGTH) {
            let detail = "Content-Length and Transfer-Encoding both say how long the body is";
            return Err(problem(StatusCode::BAD_REQUEST, "two-lengths", "No request", detail).into());
        }
        let sources = self.allow(request, route.roles(request.method()))?;
        self.is_meant(request)?;
        Ok(sources)
    }

    /// The sources of which whoever asks may give events, or why nothing may be done.
    fn allow(&self, request: &Request<Body>, roles: &[Role]) -> Result<Sources, Answered> {
        if roles.is_empty() {
            return Ok(Sources::Of(Vec::new()));
        }
        let header = |name| request.headers().get(name).and_then(|it| it.to_str().ok());
        let live = self.live();
        if live.access.is_open() && !self.settings.open_to_all && !is_local(header(HOST)) {
            let detail = "without tokens ask by an address, or by localhost";
            return Err(problem(StatusCode::FORBIDDEN, "host", "Not by this name", detail).into());
        }
        if live.access.is_open() && !header(ORIGIN).map_or(true, |it| is_of(it, header(HOST))) {
            let detail = "without tokens pages of others may do nothing here";
            return Err(problem(StatusCode::FORBIDDEN, "origin", "Not for pages of others", detail).into());
        }
        let (title, challenge) = match live.access.judge(header(AUTHORIZATION), roles) {
            Verdict::Allowed(sources) => return Ok(sources),
            Verdict::OtherRole => {
                let detail = "ask for a token with the role that this needs";
                return Err(problem(StatusCode::FORBIDDEN, "role", "The token has another role", detail).into());
            }
            Verdict::NoToken => ("A bearer token is wanted", "Bearer"),
            Verdict::Unknown => ("The token isn't known", "Bearer error=\"invalid_token\""),
        };
        let detail = "send Authorization: Bearer, and a token";
        let mut answer = problem(StatusCode::UNAUTHORIZED, "token", title, detail).into();
        set(&mut answer, "www-authenticate", challenge);
        Err(answer)
    }

    /// Refuses what is meant for another part of a region, or for a part where this is none.
    fn is_meant(&self, request: &Request<Body>) -> Result<(), Answered> {
        let (asked, own) = (request.headers().get(PART), self.settings.part.map(|it| it.to_string()));
        if asked.map_or(true, |it| own.as_deref().is_some_and(|own| it == own)) {
            return Ok(());
        }
        let detail = own.map_or("this is no part of a region".into(), |own| format!("this is part {own}"));
        let status = StatusCode::MISDIRECTED_REQUEST;
        Err(problem(status, "misdirected", "Meant for another part", detail).into())
    }

    pub fn live(&self) -> Arc<Live> {
        self.live.read().unwrap().clone()
    }
}

/// Whether a request is to an address or to localhost, and not to a name: a web page can't let its own name lead here
/// then, and ask as if it were of this service.
fn is_local(host: Option<&str>) -> bool {
    let Some(host) = host else {
        return true;
    };
    let name = match host.rsplit_once(':') {
        Some((name, port)) if port.bytes().all(|it| it.is_ascii_digit()) => name,
        _ => host,
    };
    let bare = name.trim_start_matches('[').trim_end_matches(']');
    name.eq_ignore_ascii_case("localhost") || bare.parse::<IpAddr>().is_ok()
}

/// Whether a page that a browser says a request is of came from here.
fn is_of(origin: &str, host: Option<&str>) -> bool {
    let from = origin.strip_prefix("http://").or_else(|| origin.strip_prefix("https://"));
    matches!((from, host), (Some(from), Some(host)) if from.eq_ignore_ascii_case(host))
}

#[cfg(test)]
mod tests {
    use super::*;

    #[test]
    fn names_of_others_arent_local() {
        for host in ["localhost", "LocalHost:8087", "127.0.0.1:8087", "10.0.0.1", "[::1]:8087", "[::1]"] {
            assert!(is_local(Some(host)), "{host}");
        }
        for host in ["example.com:8087", "example.com", "localhost.example.com", "1.2.3.4.example.com", "", ":8087"] {
            assert!(!is_local(Some(host)), "{host}");
        }
        assert!(is_local(None));
    }

    #[test]
    fn pages_of_others_are_told_apart() {
        for (origin, host, is_own) in [
            ("http://localhost:8087", "localhost:8087", true),
            ("https://10.0.0.1", "10.0.0.1", true),
            ("http://localhost:3000", "localhost:8087", false),
            ("http://example.com", "127.0.0.1:8087", false),
            ("null", "127.0.0.1:8087", false),
            ("ftp://localhost:8087", "localhost:8087", false),
        ] {
            assert_eq!(is_of(origin, Some(host)), is_own, "{origin} {host}");
        }
        assert!(!is_of("http://localhost", None));
    }

    #[test]
    fn paths_have_routes_and_roles() {
        assert_eq!(Route::of("/kinds").name(), "kinds");
        for strange in ["/kinds/", "kinds", "//", "/Events", "", "/summary2"] {
            assert_eq!(Route::of(strange), Route::Other, "{strange}");
        }
        for (path, method, roles) in [
            ("/events", Method::POST, &[Role::Write][..]),
            ("/events", Method::GET, &[Role::Read]),
            ("/events", Method::DELETE, &[Role::Read]),
            ("/events", Method::OPTIONS, &[]),
            ("/check", Method::POST, &[Role::Read]),
            ("/delta", Method::POST, &[Role::Peer]),
            ("/backup", Method::POST, &[Role::Backup]),
            ("/cover", Method::GET, &[Role::Read, Role::Peer]),
            ("/shown", Method::GET, &[Role::Read]),
            ("/get", Method::GET, &[Role::Read]),
            ("/arrivals", Method::GET, &[Role::Read]),
            ("/metrics", Method::GET, &[Role::Read]),
            ("/healthz", Method::GET, &[]),
            ("/nothing", Method::GET, &[Role::Read]),
        ] {
            assert_eq!(Route::of(path).roles(&method), roles, "{method} {path}");
        }
    }
}
