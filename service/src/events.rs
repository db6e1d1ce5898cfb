//! Requests as the HTTP protocol binding of CloudEvents 1.0.2 has them, as a text that the library takes. Whether the
//! text is an event is for the library to say.

use hyper::header::{HeaderMap, HeaderValue, CONTENT_ENCODING, CONTENT_TYPE};
use percent_encoding::percent_decode;
use serde::de::IgnoredAny;
use serde_json::{Map, Value};

/// How a request has its events.
#[derive(Clone, Copy, PartialEq, Eq, Debug)]
pub enum Mode {
    /// The body is an event in JSON.
    Structured,
    /// The body is an array of events in JSON.
    Batched,
    /// Headers are the attributes of an event, and the body is its data.
    Binary,
}

/// Why a request has no events to read.
#[derive(PartialEq, Eq, Debug)]
pub enum Unread {
    /// Its media type is another.
    Media(String),
    /// It breaks the rules of its mode.
    Malformed(String),
}

const EVENT: &str = "application/cloudevents+json";
const BATCH: &str = "application/cloudevents-batch+json";
/// What is taken, as `Accept-Post` tells it; any other type is taken in binary mode.
pub const ACCEPTED: &str = "application/cloudevents+json, application/cloudevents-batch+json, */*";

/// The mode that the headers of a request say.
pub fn mode_of(headers: &HeaderMap) -> Result<Mode, Unread> {
    if headers.get(CONTENT_ENCODING).is_some_and(|it| it.as_bytes() != b"identity") {
        return Err(Unread::Media("a content coding isn't read here".into()));
    }
    let given = headers.get(CONTENT_TYPE).map(HeaderValue::to_str).transpose();
    let given = given.map_err(|_| Unread::Media("the content type isn't ASCII".into()))?;
    let (media, charset) = media_of(given.unwrap_or(""));
    let mode = match media.as_str() {
        EVENT => Mode::Structured,
        BATCH => Mode::Batched,
        other if other.starts_with("application/cloudevents") => {
            return Err(Unread::Media(format!("{other} isn't read here, {EVENT} and {BATCH} are")));
        }
        _ if headers.contains_key("ce-specversion") => return Ok(Mode::Binary),
        _ => {
            return Err(Unread::Media(format!(
                "send {EVENT}, {BATCH}, or an event in binary mode, with its attributes in headers that begin with ce-"
            )));
        }
    };
    match charset.as_deref() {
        None | Some("utf-8" | "utf8") => Ok(mode),
        Some(other) => Err(Unread::Media(format!("the charset {other} isn't read here, utf-8 is"))),
    }
}

/// Whether a body is of its mode: an object for an event, an array for a batch. What is neither, the library tells.
pub fn fits(mode: Mode, body: &[u8]) -> bool {
    let first = body.iter().find(|it| !matches!(it, b' ' | b'\t' | b'\n' | b'\r'));
    !matches!((mode, first), (Mode::Structured, Some(b'[')) | (Mode::Batched, Some(b'{')))
}

/// An event in binary mode, as the text of the event in JSON that it is. Its data stand in it as they came where they
/// are JSON, as a text where they are text, and in Base64 otherwise.
pub fn of_binary(headers: &HeaderMap, body: &[u8]) -> Result<Vec<u8>, Unread> {
    let mut event = Map::new();
    for (name, value) in headers {
        let Some(attribute) = name.as_str().strip_prefix("ce-") else {
            continue;
        };
        if matches!(attribute, "datacontenttype" | "data" | "data_base64") {
            let why = format!("no header {name}: the content type and the body say that");
            return Err(Unread::Malformed(why));
        }
        if event.insert(attribute.into(), Value::String(text_of(name.as_str(), value)?)).is_some() {
            return Err(Unread::Malformed(format!("the header {name} is there twice")));
        }
    }
    let kind = headers.get(CONTENT_TYPE).map(|it| text_of("content-type", it)).transpose()?;
    let data = match body {
        [] => None,
        _ => Some(data_of(kind.as_deref().unwrap_or("application/json"), body)?),
    };
    if let Some(kind) = kind {
        event.insert("datacontenttype".into(), Value::String(kind));
    }
    let mut text = Value::Object(event).to_string().into_bytes();
    if let Some((name, value)) = data {
        text.pop();
        text.extend_from_slice(if text.len() > 1 { b",\"" } else { b"\"" });
        text.extend_from_slice(name.as_bytes());
        text.extend_from_slice(b"\":");
        text.extend_from_slice(&value);
        text.push(b'}');
    }
    Ok(text)
}

/// The member that a body is in an event in JSON, and its text.
fn data_of(kind: &str, body: &[u8]) -> Result<(&'static str, Vec<u8>), Unread> {
    let (media, charset) = media_of(kind);
    let is_utf8 = matches!(charset.as_deref(), None | Some("utf-8" | "utf8" | "us-ascii"));
    let is_json = media == "application/json" || media == "text/json" || media.ends_with("+json");
    if is_json && is_utf8 {
        // That it is one JSON text keeps it from reaching into the event around it.
        serde_json::from_slice::<IgnoredAny>(body)
            .map_err(|why| Unread::Malformed(format!("the body isn't JSON, as the content type says: {why}")))?;
        return Ok(("data", body.to_vec()));
    }
    match std::str::from_utf8(body) {
        Ok(text) if media.starts_with("text/") && is_utf8 => Ok(("data", Value::from(text).to_string().into_bytes())),
        _ => Ok(("data_base64", format!("\"{}\"", base64::encode(body)).into_bytes())),
    }
}

/// A media type in lower case, and its charset.
fn media_of(value: &str) -> (String, Option<String>) {
    let mut parts = value.split(';');
    let media = parts.next().unwrap_or("").trim().to_ascii_lowercase();
    let charset = parts.find_map(|it| {
        let (name, value) = it.split_once('=')?;
        let is_charset = name.trim().eq_ignore_ascii_case("charset");
        is_charset.then(|| value.trim().trim_matches('"').to_ascii_lowercase())
    });
    (media, charset)
}

/// The text of a header: quotes are taken off, then percent-encoding, once; what is left has to be UTF-8.
fn text_of(name: &str, value: &HeaderValue) -> Result<String, Unread> {
    let bad = || Unread::Malformed(format!("the header {name} isn't percent-encoded UTF-8"));
    let unquoted = match value.as_bytes() {
        [b'"', inner @ .., b'"'] => {
            let (mut out, mut rest) = (Vec::with_capacity(inner.len()), inner.iter());
            while let Some(&byte) = rest.next() {
                out.push(if byte == b'\\' { *rest.next().ok_or_else(bad)? } else { byte });
            }
            out
        }
        bytes => bytes.to_vec(),
    };
    let text = percent_decode(&unquoted).decode_utf8().map_err(|_| bad())?;
    Ok(text.into_owned())
}

#[cfg(test)]
mod tests {
    use super::*;

    fn headers(of: &[(&'static str, &'static str)]) -> HeaderMap {
        let mut map = HeaderMap::new();
        for (name, value) in of {
            map.append(*name, HeaderValue::from_static(value));
        }
        map
    }

    #[test]
    fn media_types_tell_the_mode() {
        let mode = |it: &'static str| mode_of(&headers(&[("content-type", it)]));
        assert_eq!(mode("application/cloudevents+json"), Ok(Mode::Structured));
        assert_eq!(mode("Application/CloudEvents+JSON; charset=UTF-8"), Ok(Mode::Structured));
        assert_eq!(mode("application/cloudevents-batch+json"), Ok(Mode::Batched));
        for bad in
            ["application/cloudevents+json; charset=latin1", "application/cloudevents+avro", "application/json", ""]
        {
            assert!(matches!(mode(bad), Err(Unread::Media(_))), "{bad}");
        }
        let binary = [("ce-specversion", "1.0"), ("content-type", "application/json")];
        assert_eq!(mode_of(&headers(&binary)), Ok(Mode::Binary));
        assert_eq!(mode_of(&headers(&binary[..1])), Ok(Mode::Binary));
        assert!(mode_of(&headers(&[binary[0], ("content-encoding", "gzip")])).is_err());
    }

    #[test]
    fn bodies_are_of_their_mode() {
        assert!(fits(Mode::Structured, b" {}") && fits(Mode::Batched, b"\n[]") && fits(Mode::Batched, b""));
        assert!(!fits(Mode::Structured, b" [{}]") && !fits(Mode::Batched, b"\r\t{}"));
    }

    #[test]
    fn header_values_are_decoded_once() {
        // The examples of the binding, 3.1.3.2.
        let of = |it: &'static str| text_of("ce-x", &HeaderValue::from_static(it));
        assert_eq!(of("Euro%20%E2%82%AC%20%F0%9F%98%80").unwrap(), "Euro € 😀");
        assert_eq!(of("%2525").unwrap(), "%25");
        assert_eq!(of("\"a \\\"b\\\" %C3%A9\"").unwrap(), "a \"b\" é");
        assert_eq!(of("100%").unwrap(), "100%");
        assert_eq!(of("\"").unwrap(), "\"");
        assert!(of("%FF").is_err() && of("\"a\\\"").is_err());
    }

    #[test]
    fn binary_events_become_json() {
        let of = |more: &[(&'static str, &'static str)], body: &[u8]| {
            let mut all = vec![("ce-specversion", "1.0"), ("ce-id", "1"), ("host", "x")];
            all.extend_from_slice(more);
            of_binary(&headers(&all), body).map(|it| String::from_utf8(it).unwrap())
        };
        let start = r#"{"id":"1","specversion":"1.0""#;
        for (kind, body, end) in [
            ("application/json", &br#"{"a":9007199254740993}"#[..], r#","data":{"a":9007199254740993}}"#),
            ("application/x.y+json", b"7", r#","data":7}"#),
            ("text/plain", b"h\"ey", r#","data":"h\"ey"}"#),
            ("text/plain; charset=latin1", b"a", r#","data_base64":"YQ=="}"#),
            ("image/png", &[1, 2, 255], r#","data_base64":"AQL/"}"#),
            ("image/png", b"", "}"),
        ] {
            let told = of(&[("content-type", kind)], body).unwrap();
            assert_eq!(told, format!(r#"{{"datacontenttype":"{kind}",{}{end}"#, &start[1..]));
        }
        assert_eq!(of(&[], b"[1]").unwrap(), format!(r#"{start},"data":[1]}}"#));
        assert_eq!(of(&[], b"").unwrap(), format!("{start}}}"));
        // What reaches out of the data, and headers that say twice what there is once.
        for body in [&b"{},\"x\":{"[..], b"1}", b"1 2", b"{"] {
            assert!(matches!(of(&[("content-type", "application/json")], body), Err(Unread::Malformed(_))));
        }
        for (name, value) in [("ce-id", "2"), ("ce-datacontenttype", "a/b"), ("ce-data", "1"), ("ce-data_base64", "")] {
            assert!(matches!(of(&[(name, value)], b""), Err(Unread::Malformed(_))), "{name}");
        }
        assert_eq!(of_binary(&HeaderMap::new(), b"1").unwrap(), br#"{"data":1}"#);
    }
}
