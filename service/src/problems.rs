//! Answers that every part of the interface gives: plain ones, and problems of RFC 9457.

use hyper::body::Body;
use hyper::header::{HeaderName, HeaderValue, CONTENT_TYPE};
use hyper::{Response, StatusCode};
use serde_json::{json, Value};

pub type Answered = Response<Body>;

pub const JSON: &str = "application/json";
pub const NDJSON: &str = "application/x-ndjson";

/// An answer of a status, with a body of a media type.
pub fn plain(status: StatusCode, kind: &'static str, body: impl Into<Body>) -> Answered {
    let mut answer = bare(status);
    *answer.body_mut() = body.into();
    answer.headers_mut().insert(CONTENT_TYPE, HeaderValue::from_static(kind));
    answer
}

/// An answer of a status without a body.
pub fn bare(status: StatusCode) -> Answered {
    let mut answer = Response::new(Body::empty());
    *answer.status_mut() = status;
    answer
}

/// Sets a header; a value that no header can have is left out.
pub fn set(answer: &mut Answered, name: &'static str, value: &str) {
    if let Ok(value) = HeaderValue::from_str(value) {
        answer.headers_mut().insert(HeaderName::from_static(name), value);
    }
}

/// A problem: its status, its name below `urn:jumbetai:problem:`, and words for people.
pub struct Problem {
    pub status: StatusCode,
    pub name: &'static str,
    pub title: &'static str,
    pub detail: String,
}

/// The problem of these words.
pub fn problem(status: StatusCode, name: &'static str, title: &'static str, detail: impl Into<String>) -> Problem {
    Problem { status, name, title, detail: detail.into() }
}

impl Problem {
    /// The answer, with more members of the problem behind its own.
    pub fn with(self, more: Value) -> Answered {
        let mut body = json!({
            "type": format!("urn:jumbetai:problem:{}", self.name),
            "title": self.title,
            "status": self.status.as_u16(),
            "detail": self.detail,
        });
        if let (Value::Object(body), Value::Object(more)) = (&mut body, more) {
            body.extend(more);
        }
        let mut answer = plain(self.status, "application/problem+json", format!("{body}\n"));
        if matches!(self.status, StatusCode::TOO_MANY_REQUESTS | StatusCode::SERVICE_UNAVAILABLE) {
            set(&mut answer, "retry-after", "1");
        }
        answer
    }
}

impl From<Problem> for Answered {
    fn from(problem: Problem) -> Answered {
        problem.with(Value::Null)
    }
}

#[cfg(test)]
mod tests {
    use super::*;

    #[tokio::test]
    async fn a_problem_is_told_as_json() {
        let busy = problem(StatusCode::SERVICE_UNAVAILABLE, "store", "No", "why").with(json!({"faults": 1}));
        assert_eq!((busy.status().as_u16(), &busy.headers()["retry-after"]), (503, &HeaderValue::from_static("1")));
        let text = hyper::body::to_bytes(busy.into_body()).await.unwrap();
        let told: Value = serde_json::from_slice(&text).unwrap();
        let want =
            json!({"type": "urn:jumbetai:problem:store", "title": "No", "status": 503, "detail": "why", "faults": 1});
        assert_eq!(told, want);
        let mut plain = bare(StatusCode::NO_CONTENT);
        set(&mut plain, "etag", "a\nb");
        assert!(plain.headers().is_empty());
    }
}
