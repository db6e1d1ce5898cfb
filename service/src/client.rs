//! Requests to other services: the client, and answers within a number of bytes.

use crate::settings::Sync;
use hyper::body::{Body, Bytes, HttpBody};
use hyper::client::HttpConnector;
use std::time::Duration;

#[cfg(feature = "tls")]
type Connector = hyper_rustls::HttpsConnector<HttpConnector>;
#[cfg(not(feature = "tls"))]
type Connector = HttpConnector;

pub type Client = hyper::Client<Connector>;

/// A client that leaves so many idle connections to a service open, or why there can be none.
pub fn new(settings: &Sync, idle: usize) -> Result<Client, String> {
    let mut tcp = HttpConnector::new();
    tcp.set_connect_timeout(Some(Duration::from_secs(settings.connect_seconds)));
    tcp.set_keepalive(Some(Duration::from_secs(15)));
    tcp.set_nodelay(true);
    #[cfg(feature = "tls")]
    let tcp = crate::tls::connector(tcp, settings.ca.as_deref())?;
    Ok(hyper::Client::builder().pool_idle_timeout(Duration::from_secs(15)).pool_max_idle_per_host(idle).build(tcp))
}

/// A body of at most so many bytes.
pub async fn whole(mut body: Body, most: usize) -> Result<Bytes, String> {
    let mut all = Vec::new();
    while let Some(data) = body.data().await {
        all.extend_from_slice(&data.map_err(|it| it.to_string())?);
        if all.len() > most {
            return Err("an answer without end".to_owned());
        }
    }
    Ok(all.into())
}
