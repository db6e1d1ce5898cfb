//! Events that come to a front: each goes to the part of its source, and all are acknowledged once each part has its own.

use super::join::told;
use super::parts::{each, Asked, Away, Budget, Part};
use super::Front;
use crate::access::Sources;
use crate::keeper::{Kept, Refusal};
use crate::library::{on_thread, sources_of, split, Error};
use crate::problems::{problem, Answered};
use hyper::body::Bytes;
use hyper::header::CONTENT_TYPE;
use hyper::{Body, Request, StatusCode};
use serde::Deserialize;
use serde_json::{json, Value};
use std::collections::BTreeMap;
use std::sync::Arc;
use std::time::Instant;
use tokio::sync::OwnedSemaphorePermit;

const BATCH: &str = "application/cloudevents-batch+json";
/// More bytes than counts have.
const LINE: usize = 1 << 10;
/// What the library answers for a part that gets nothing.
const NOTHING: &str = "[]";

/// What came of a body that was given to the parts.
pub struct Spread {
    /// Of those parts that took theirs.
    kept: Kept,
    refused: Vec<Refused>,
}

/// A part that didn't take its events, and these.
struct Refused {
    away: Away,
    batch: Bytes,
}

impl Spread {
    /// What was kept, where all parts took theirs.
    pub fn all(self) -> Result<Kept, String> {
        let away: Vec<Away> = self.refused.into_iter().map(|it| it.away).collect();
        match away.is_empty() {
            true => Ok(self.kept),
            false => Err(told(&away)),
        }
    }
}

impl Front {
    /// `POST /events`: judges all events of the request, gives each to its part, and answers once all parts have theirs
    /// synced. What isn't taken by a part that is away is told; the same may be given again, since each event is kept once.
    pub async fn take(&self, request: Request<Body>, sources: Sources) -> Answered {
        let start = Instant::now();
        let (mode, given) = match self.read(request).await {
            Ok(read) => read,
            Err(refused) => return refused,
        };
        let (bytes, mut room) = (given.bytes, given.room);
        if sources != Sources::Any {
            match on_thread(bytes.clone(), sources_of).await {
                Ok(found) => {
                    if let Err(refused) = self.of_sources(&found, &sources) {
                        return refused;
                    }
                }
                Err(Error::NoEvents | Error::NoNumber) => return self.faulty(mode, bytes, BTreeMap::new()).await,
                Err(why) => return self.refused(Refusal::Store(why)),
            }
        }
        // What goes to the parts has as many bytes again.
        match self.room.bytes(bytes.len()).await {
            Ok(more) => room.merge(more),
            Err(why) => return self.refused(why),
        }
        match self.spread(bytes.clone(), room).await {
            Ok(spread) if spread.refused.is_empty() => self.taken(spread.kept, start.elapsed(), 0),
            Ok(spread) => self.part_away(spread).await,
            Err(Error::NoEvents | Error::NoNumber) => self.faulty(mode, bytes, BTreeMap::new()).await,
            Err(why) => self.refused(Refusal::Store(why)),
        }
    }

    /// Gives each event of a body to its part. An error says that nothing was given, since the library refuses the body.
    pub async fn spread(&self, bytes: Bytes, _room: OwnedSemaphorePermit) -> Result<Spread, Error> {
        let parts = self.parts();
        let of = parts.len() as u64;
        let batches = on_thread(bytes, move |it| split(it, of)).await?;
        let batches: Vec<Bytes> = batches.into_iter().map(Bytes::from).collect();
        let wanted: Vec<Arc<Part>> = parts.iter().filter(|it| gets(&batches, it)).cloned().collect();
        let said = each(&wanted, |part| {
            let batch = batches.get(part.index).cloned().unwrap_or_default();
            async move { give(&part, batch).await }
        });
        let (mut kept, mut refused) = (Kept { fresh: 0, repeated: 0, count: 0 }, Vec::new());
        for it in said.await {
            match it {
                Ok(Counts { new, repeated }) => {
                    (kept.fresh, kept.repeated) = (kept.fresh + new, kept.repeated + repeated)
                }
                Err(away) => {
                    let batch = batches.get(away.index).cloned().unwrap_or_default();
                    refused.push(Refused { away, batch });
                }
            }
        }
        kept.count = *self.counted().borrow();
        Ok(Spread { kept, refused })
    }

    /// The problem of a body that some parts didn't take: which these are, why, and of which sources their events are.
    async fn part_away(&self, spread: Spread) -> Answered {
        let status = status_of(&spread.refused);
        self.refuse("part-away");
        let Kept { fresh, repeated, .. } = spread.kept;
        let mut parts = Vec::new();
        for Refused { away, batch } in &spread.refused {
            let sources = on_thread(batch.clone(), sources_of).await.unwrap_or_default();
            let count = sources.len();
            let some: Vec<Value> = sources.into_iter().take(self.settings.limits.faults).map(Value::from).collect();
            parts.push(json!({"part": away.index, "why": away.why, "sources": some, "of": count}));
        }
        let detail = format!("some events weren't taken: give all of it again, each is kept once; {}", {
            let away: Vec<Away> = spread.refused.into_iter().map(|it| it.away).collect();
            told(&away)
        });
        let title = "A part of the region didn't take its events";
        problem(status, "part-away", title, detail)
            .with(json!({"parts": parts, "events": fresh + repeated, "new": fresh, "repeated": repeated}))
    }
}

/// Whether a part gets something of the batches.
fn gets(batches: &[Bytes], part: &Part) -> bool {
    batches.get(part.index).is_some_and(|it| !it.is_empty() && it != NOTHING)
}

/// What a part says that it took.
#[derive(Deserialize)]
struct Counts {
    new: u64,
    repeated: u64,
}

impl Counts {
    /// Whether a batch of so many bytes may have had so many events: each has some bytes.
    fn can_be_of(&self, bytes: usize) -> bool {
        self.new.checked_add(self.repeated).is_some_and(|it| it <= bytes as u64)
    }
}

/// Gives a part its events. One that never said that it is the part gets none.
async fn give(part: &Part, batch: Bytes) -> Result<Counts, Away> {
    part.known()?;
    let bytes = batch.len();
    let answer = part.ask(&Asked::post("/events", batch).with(CONTENT_TYPE, BATCH)).await?;
    let status = answer.status();
    if status != StatusCode::OK {
        return Err(Away { status: Some(status), ..part.away(format!("it answers {status}")) });
    }
    part.note(answer.headers());
    // The head says that all is kept; the counts are a line.
    let body = part.read(answer, &Budget::new(LINE)).await?.unwrap_or_default();
    let counts: Counts = serde_json::from_slice(&body).map_err(|it| part.away(it.to_string()))?;
    match counts.can_be_of(bytes) {
        true => Ok(counts),
        false => Err(part.away("it says that it took more events than it was given")),
    }
}

/// The status of a body that these didn't take: that it be smaller, that it come later where they have no room for it, or
/// that they be there again.
fn status_of(refused: &[Refused]) -> StatusCode {
    let all = |status| refused.iter().all(|it| it.away.status == Some(status));
    if refused.iter().any(|it| it.away.status == Some(StatusCode::PAYLOAD_TOO_LARGE)) {
        StatusCode::PAYLOAD_TOO_LARGE
    } else if all(StatusCode::TOO_MANY_REQUESTS) {
        StatusCode::TOO_MANY_REQUESTS
    } else {
        StatusCode::SERVICE_UNAVAILABLE
    }
}

#[cfg(test)]
mod tests {
    use super::*;

    #[test]
    fn refusals_have_a_status() {
        let refused = |status: Option<u16>| Refused {
            away: Away { index: 0, why: String::new(), status: status.and_then(|it| StatusCode::from_u16(it).ok()) },
            batch: Bytes::new(),
        };
        for (of, status) in [
            (&[None][..], 503),
            (&[Some(429), Some(429)], 429),
            (&[Some(429), None], 503),
            (&[Some(507)], 503),
            (&[Some(413), None], 413),
        ] {
            let of: Vec<Refused> = of.iter().map(|it| refused(*it)).collect();
            assert_eq!(status_of(&of).as_u16(), status);
        }
    }

    #[test]
    fn a_part_takes_no_more_than_it_was_given() {
        let can_be = |new, repeated, bytes| Counts { new, repeated }.can_be_of(bytes);
        assert!(can_be(0, 0, 0) && can_be(3, 2, 5) && !can_be(3, 3, 5) && !can_be(u64::MAX, 2, 1 << 20));
    }

    #[test]
    fn all_parts_have_to_take_theirs() {
        let kept = Kept { fresh: 2, repeated: 1, count: 3 };
        let spread = |refused| Spread { kept, refused };
        assert_eq!(spread(Vec::new()).all().map(|it| it.fresh), Ok(2));
        let away = Away { index: 3, why: "gone".into(), status: None };
        let told = spread(vec![Refused { away, batch: Bytes::new() }]).all().map(|it| it.fresh);
        assert_eq!(told, Err("part 3: gone".into()));
    }
}
