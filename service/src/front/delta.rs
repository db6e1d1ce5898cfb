//! What a peer lacks of the whole region: its summary goes to all parts as it is, since each looks at its own sources alone.
//!
//! A place of the whole is the place p div P of part p mod P, of P parts. So a peer counts on as it does beside a site, and
//! what it passes over of a part whose pages are shorter its next round finds.

use super::parts::{all_of, each, number_of, Asked, Away, Budget, Part};
use super::Front;
use crate::problems::{bare, plain, set, Answered, NDJSON};
use crate::questions::{no_summary, Places, SUMMARY};
use hyper::body::Bytes;
use hyper::header::CONTENT_TYPE;
use hyper::{Body, Request, StatusCode};
use std::sync::Arc;

/// What a peer reads of an answer. A part's page has at most half of it: 8 MiB, and a hundred events.
const MOST: usize = 64 << 20;

/// A part's answer: a page, nothing, or a refusal of the summary. Of a page that finds no room no line is told.
enum Page {
    Events { lines: Bytes, events: u64 },
    Nothing,
    NoSummary,
}

impl Front {
    /// `POST /delta?from=N&limit=M&bytes=B`: what a peer lacks by its summary of all parts, a batch a line; 204 where that
    /// is nothing.
    pub async fn delta(&self, request: Request<Body>) -> Answered {
        let asked = match Places::of(&request, &self.settings.limits) {
            Ok(asked) => asked,
            Err(refused) => return refused,
        };
        let summary = match self.receive(request.into_body(), SUMMARY).await {
            Ok(given) => given,
            Err(refused) => return refused,
        };
        let parts = self.parts();
        let of = parts.len() as u64;
        let from = asked.from / of;
        let share = |all: u64| (all + of - 1) / of;
        let path = format!("/delta?from={from}&limit={}&bytes={}", share(asked.events), share(asked.bytes));
        let budget = Budget::new(MOST);
        let ask = |part| page_of(part, path.clone(), summary.bytes.clone(), from, budget.clone());
        match all_of(each(&parts, ask).await) {
            Ok(pages) => answer_of(&pages, from, of),
            Err(away) => self.away(&away),
        }
    }
}

async fn page_of(part: Arc<Part>, path: String, summary: Bytes, from: u64, budget: Arc<Budget>) -> Result<Page, Away> {
    let answer = part.ask(&Asked::post(path, summary).with(CONTENT_TYPE, "application/json")).await?;
    match answer.status() {
        StatusCode::NO_CONTENT => Ok(Page::Nothing),
        StatusCode::BAD_REQUEST => Ok(Page::NoSummary),
        StatusCode::OK => {
            let next = number_of(answer.headers(), "site-next").filter(|it| *it > from);
            let next = next.ok_or_else(|| part.away("its page doesn't say where the next one begins"))?;
            // Where events are very large, what there is no room for is passed over until the peer's next round.
            let lines = part.read(answer, &budget).await?.unwrap_or_default();
            Ok(Page::Events { lines, events: next - from })
        }
        other => Err(Away { status: Some(other), ..part.away(format!("it answers {other}")) }),
    }
}

/// The page that the parts' pages from a place on make, of so many parts. The next one is behind the longest of them.
fn answer_of(pages: &[Page], from: u64, of: u64) -> Answered {
    let (mut text, mut longest) = (Vec::new(), 0);
    for page in pages {
        match page {
            Page::NoSummary => return no_summary("the parts can't read it"),
            Page::Nothing => {}
            Page::Events { lines, events } => {
                text.extend_from_slice(lines);
                longest = longest.max(*events);
            }
        }
    }
    if longest == 0 {
        return bare(StatusCode::NO_CONTENT);
    }
    let mut answer = plain(StatusCode::OK, NDJSON, text);
    set(&mut answer, "site-next", &(from.saturating_add(longest).saturating_mul(of)).to_string());
    answer
}

#[cfg(test)]
mod tests {
    use super::*;

    fn events(line: &'static str, events: u64) -> Page {
        Page::Events { lines: Bytes::from_static(line.as_bytes()), events }
    }

    #[tokio::test]
    async fn pages_are_one_whose_next_is_behind_the_longest() {
        let told = answer_of(&[events("[1]\n", 1), Page::Nothing, events("[2,3]\n", 2)], 5, 3);
        assert_eq!((told.status().as_u16(), told.headers()["site-next"].to_str().unwrap()), (200, "21"));
        assert_eq!(hyper::body::to_bytes(told.into_body()).await.unwrap(), "[1]\n[2,3]\n");
        assert_eq!(answer_of(&[Page::Nothing, Page::Nothing], 5, 2).status(), StatusCode::NO_CONTENT);
        assert_eq!(answer_of(&[events("[1]\n", 1), Page::NoSummary], 0, 2).status(), StatusCode::BAD_REQUEST);
        let last = answer_of(&[events("[1]\n", 1)], u64::MAX / 2, 4);
        assert_eq!(last.headers()["site-next"], u64::MAX.to_string().as_str());
    }
}
