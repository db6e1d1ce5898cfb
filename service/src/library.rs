//! All that the service has of the library: what events are, whether they are sound, and which a site has, is decided
//! there.

use hyper::body::Bytes;
use serde::de::IgnoredAny;
use std::collections::BTreeMap;

pub use jumbetai::{
    combine, combine_summaries, part_of, split, test, version, Error, Lag, Numbers, Page, Question, Site, Taken,
    MAX_PARTS,
};

/// Bytes that are read on the thread of their connection; more go to a thread of their own.
const SMALL: usize = 64 << 10;

/// What is wrong with bytes that aren't taken, a line of JSON for each event at fault, in the words of `site check`.
/// Time and memory in proportion to the bytes; the memory is given back.
pub fn faults(bytes: &[u8]) -> Result<String, Error> {
    jumbetai::Site::new()?.check(bytes)
}

/// The sources of the events that bytes spell, in the words of a site that took them alone. Time and memory in proportion
/// to the bytes; the memory is given back.
pub fn sources_of(bytes: &[u8]) -> Result<Vec<String>, Error> {
    let mut alone = jumbetai::Site::new()?;
    alone.take(bytes)?;
    sources_in(&alone.cover()?)
}

/// The sources of a cover.
pub fn sources_in(cover: &str) -> Result<Vec<String>, Error> {
    #[derive(serde::Deserialize)]
    struct Cover {
        sources: BTreeMap<String, IgnoredAny>,
    }
    let cover: Cover = serde_json::from_str(cover).map_err(|_| Error::NotUtf8)?;
    Ok(cover.sources.into_keys().collect())
}

/// Reads bytes by the library; large ones on a thread that holds up no connection.
pub async fn on_thread<T, F>(bytes: Bytes, read: F) -> Result<T, Error>
where
    T: Send + 'static,
    F: FnOnce(&[u8]) -> Result<T, Error> + Send + 'static,
{
    if bytes.len() <= SMALL {
        return read(&bytes);
    }
    let done = tokio::task::spawn_blocking(move || read(&bytes)).await;
    done.unwrap_or(Err(Error::OutOfMemory))
}

#[cfg(test)]
mod tests {
    use super::*;

    #[test]
    fn faults_and_sources_are_the_library_s() {
        let event = |source: &str, number: u64| {
            format!(r#"{{"specversion":"1.0","id":"1","source":"{source}","type":"t","sequence":"{number:020}"}}"#)
        };
        let both = format!("[{},{}]", event("/b", 1), event("/a", 7));
        assert_eq!(faults(both.as_bytes()).unwrap(), "");
        assert_eq!(sources_of(both.as_bytes()).unwrap(), ["/a", "/b"]);
        let told = faults(event("/a", 0).as_bytes()).unwrap();
        assert!(told.contains(r#""fault":"BadSequence""#) && told.lines().count() == 1, "{told}");
        assert_eq!(sources_of(event("/a", 0).as_bytes()), Err(Error::NoNumber));
        assert_eq!(sources_of(b"["), Err(Error::NoEvents));
    }
}
