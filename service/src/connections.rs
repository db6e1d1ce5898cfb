//! Connections: how many there are, and how long one may be idle.

use crate::routes::Kind;
use hyper::server::conn::Http;
use hyper::service::service_fn;
use std::convert::Infallible;
use std::io::{self, IoSlice};
use std::mem::MaybeUninit;
use std::net::SocketAddr;
use std::pin::Pin;
use std::sync::atomic::{AtomicBool, AtomicU64, Ordering::Relaxed};
use std::sync::Arc;
use std::task::{ready, Context, Poll};
use std::time::{Duration, Instant};
use tokio::io::{AsyncRead, AsyncWrite, ReadBuf};
use tokio::net::{TcpListener, TcpStream};
use tokio::sync::Semaphore;

/// How often a fault of all connections is logged.
const TELL: Duration = Duration::from_secs(10);
/// How often a connection is looked at.
const LOOK: Duration = Duration::from_millis(250);
/// How long a connection may be idle where others wait for its place, all is written, or the service ends.
const CROWDED: Duration = Duration::from_secs(1);

/// Listens at an address, which may be one that was used just now.
pub fn listen(at: SocketAddr) -> io::Result<TcpListener> {
    use socket2::{Domain, Socket, Type};
    let socket = Socket::new(Domain::for_address(at), Type::STREAM, None)?;
    socket.set_reuse_address(true)?;
    socket.set_nonblocking(true)?;
    socket.bind(&at.into())?;
    socket.listen(1024)?;
    TcpListener::from_std(socket.into())
}

/// What accepts connections, and what each of them has of it.
#[derive(Clone)]
pub struct Door {
    service: Kind,
    http: Http,
    places: Arc<Semaphore>,
    /// A connection waits that wasn't accepted, as where no descriptor is left.
    is_shut: Arc<AtomicBool>,
    #[cfg(feature = "tls")]
    acceptor: Option<tokio_rustls::TlsAcceptor>,
}

impl Door {
    /// The door of a service, or why its certificate can't be used.
    pub fn new(service: Kind) -> Result<Door, String> {
        let limits = &service.settings.limits;
        let mut http = Http::new();
        http.http1_only(true).max_buf_size(limits.head_bytes);
        Ok(Door {
            #[cfg(feature = "tls")]
            acceptor: service.settings.tls.as_ref().map(crate::tls::acceptor).transpose()?,
            places: Arc::new(Semaphore::new(limits.connections)),
            is_shut: Arc::default(),
            http,
            service,
        })
    }

    /// Accepts connections until the service ends, and then lets them end, so long as the settings say.
    pub async fn serve(self, listener: TcpListener) {
        let (mut ends, mut told) = (self.service.ends.clone(), None::<Instant>);
        loop {
            let next = async {
                let place = self.places.clone().acquire_owned().await;
                (place, listener.accept().await)
            };
            let (place, accepted) = tokio::select! {
                next = next => next,
                _ = ends.changed() => break,
                // Whoever wasn't accepted has gone: nobody waits for a descriptor.
                _ = tokio::time::sleep(2 * LOOK), if self.is_shut.load(Relaxed) => {
                    self.is_shut.store(false, Relaxed);
                    continue;
                }
            };
            match accepted {
                Ok((stream, from)) => {
                    self.is_shut.store(false, Relaxed);
                    let door = self.clone();
                    tokio::spawn(async move {
                        let _place = place;
                        let open = door.service.metrics.connections.clone();
                        open.inc();
                        door.greet(stream, from).await;
                        open.dec();
                    });
                }
                Err(why) => {
                    // Idle connections give their descriptors up, while another one waits.
                    self.is_shut.store(true, Relaxed);
                    if told.map_or(true, |it| it.elapsed() > TELL) {
                        tracing::warn!(%why, "no connection is accepted");
                        told = Some(Instant::now());
                    }
                    tokio::time::sleep(LOOK / 10).await;
                }
            }
        }
        drop(listener);
        let limits = &self.service.settings.limits;
        let all = self.places.acquire_many(limits.connections as u32);
        if tokio::time::timeout(Duration::from_secs(limits.shutdown_seconds), all).await.is_err() {
            tracing::warn!("connections are cut that didn't end in time");
        }
    }

    async fn greet(self, stream: TcpStream, from: SocketAddr) {
        let _ = stream.set_nodelay(true);
        #[cfg(feature = "tls")]
        if let Some(acceptor) = &self.acceptor {
            // A handshake has as long as a request's head.
            let time = Duration::from_secs(self.service.settings.limits.idle_seconds);
            if let Ok(Ok(stream)) = tokio::time::timeout(time, acceptor.accept(stream)).await {
                self.answer(stream, from).await;
            }
            return;
        }
        self.answer(stream, from).await;
    }

    /// Answers the requests of a connection. One is cut on which for a while no request is under way and nothing is
    /// written: an idle one, one whose request's head doesn't end, and one that doesn't read its answer. (hyper 0.14 has
    /// a time for heads, which never ends in some of its versions.)
    async fn answer<S>(self, stream: S, from: SocketAddr)
    where
        S: AsyncRead + AsyncWrite + Unpin + Send + 'static,
    {
        let (service, mut ends) = (self.service.clone(), self.service.ends.clone());
        let idle = Duration::from_secs(service.settings.limits.idle_seconds);
        let seen = Arc::new(Activity::new());
        let noted = seen.clone();
        let answering = service_fn(move |request| {
            let (service, seen) = (service.clone(), noted.clone());
            async move {
                let _under_way = seen.begin();
                Ok::<_, Infallible>(service.answer(request, from).await)
            }
        });
        let watched = Watched { stream, seen: seen.clone(), is_shut: false };
        let mut connection = std::pin::pin!(self.http.serve_connection(watched, answering));
        let mut is_ending = false;
        loop {
            tokio::select! {
                _ = connection.as_mut() => return,
                _ = ends.changed(), if !is_ending => {
                    is_ending = true;
                    connection.as_mut().graceful_shutdown();
                }
                _ = tokio::time::sleep(LOOK) => {
                    let is_full = self.is_shut.load(Relaxed) || self.places.available_permits() == 0;
                    let is_crowded = is_ending || seen.lingers.load(Relaxed) || is_full;
                    if seen.idle() > if is_crowded { CROWDED.min(idle) } else { idle } {
                        return;
                    }
                }
            }
        }
    }
}

/// When something was last done on a connection.
struct Activity {
    start: Instant,
    /// Milliseconds from the start to when a request was last answered or something written.
    last: AtomicU64,
    /// How many requests are under way.
    under_way: AtomicU64,
    /// All is written, and what the client still sends is thrown away.
    lingers: AtomicBool,
}

/// A request that is under way, until it is dropped.
struct UnderWay(Arc<Activity>);

impl Activity {
    fn new() -> Activity {
        Activity {
            start: Instant::now(),
            last: AtomicU64::new(0),
            under_way: AtomicU64::new(0),
            lingers: AtomicBool::new(false),
        }
    }

    fn begin(self: &Arc<Self>) -> UnderWay {
        self.under_way.fetch_add(1, Relaxed);
        UnderWay(self.clone())
    }

    fn note(&self) {
        self.last.store(self.start.elapsed().as_millis() as u64, Relaxed);
    }

    /// For how long nothing was done; no time while a request is under way.
    fn idle(&self) -> Duration {
        match self.under_way.load(Relaxed) {
            0 => self.start.elapsed().saturating_sub(Duration::from_millis(self.last.load(Relaxed))),
            _ => Duration::ZERO,
        }
    }
}

impl Drop for UnderWay {
    fn drop(&mut self) {
        self.0.note();
        self.0.under_way.fetch_sub(1, Relaxed);
    }
}

/// A stream that notes when something is written to it, and that is closed in two steps: what is written is told to be
/// all, and what still comes is thrown away until the client closes. Else a client that is still sending, as a body that
/// is too large, would lose the answer.
struct Watched<S> {
    stream: S,
    seen: Arc<Activity>,
    is_shut: bool,
}

impl<S> Watched<S> {
    fn noted(&self, wrote: Poll<io::Result<usize>>) -> Poll<io::Result<usize>> {
        if matches!(wrote, Poll::Ready(Ok(_))) {
            self.seen.note();
        }
        wrote
    }
}

impl<S: AsyncRead + Unpin> AsyncRead for Watched<S> {
    fn poll_read(mut self: Pin<&mut Self>, cx: &mut Context<'_>, buf: &mut ReadBuf<'_>) -> Poll<io::Result<()>> {
        Pin::new(&mut self.stream).poll_read(cx, buf)
    }
}

impl<S: AsyncRead + AsyncWrite + Unpin> AsyncWrite for Watched<S> {
    fn poll_write(mut self: Pin<&mut Self>, cx: &mut Context<'_>, buf: &[u8]) -> Poll<io::Result<usize>> {
        let wrote = Pin::new(&mut self.stream).poll_write(cx, buf);
        self.noted(wrote)
    }

    fn poll_write_vectored(
        mut self: Pin<&mut Self>,
        cx: &mut Context<'_>,
        bufs: &[IoSlice<'_>],
    ) -> Poll<io::Result<usize>> {
        let wrote = Pin::new(&mut self.stream).poll_write_vectored(cx, bufs);
        self.noted(wrote)
    }

    fn is_write_vectored(&self) -> bool {
        self.stream.is_write_vectored()
    }

    fn poll_flush(mut self: Pin<&mut Self>, cx: &mut Context<'_>) -> Poll<io::Result<()>> {
        Pin::new(&mut self.stream).poll_flush(cx)
    }

    fn poll_shutdown(mut self: Pin<&mut Self>, cx: &mut Context<'_>) -> Poll<io::Result<()>> {
        if !self.is_shut {
            ready!(Pin::new(&mut self.stream).poll_shutdown(cx))?;
            self.is_shut = true;
            self.seen.note();
            self.seen.lingers.store(true, Relaxed);
        }
        let mut scratch = [MaybeUninit::uninit(); 4096];
        loop {
            let mut rest = ReadBuf::uninit(&mut scratch);
            let read = ready!(Pin::new(&mut self.stream).poll_read(cx, &mut rest));
            if read.is_err() || rest.filled().is_empty() {
                return Poll::Ready(Ok(()));
            }
        }
    }
}

#[cfg(test)]
mod tests {
    use super::*;

    #[test]
    fn a_connection_with_a_request_under_way_isnt_idle() {
        let seen = Arc::new(Activity::new());
        std::thread::sleep(Duration::from_millis(20));
        assert!(seen.idle() >= Duration::from_millis(20));
        let (first, second) = (seen.begin(), seen.begin());
        drop(first);
        std::thread::sleep(Duration::from_millis(5));
        assert_eq!(seen.idle(), Duration::ZERO);
        drop(second);
        assert!(seen.idle() < Duration::from_millis(20));
    }
}
