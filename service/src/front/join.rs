//! What the parts' texts make, which the library decides.

use super::parts::Away;
use crate::library::{combine, combine_summaries, Error, Lag, Question};
use crate::reader::{Answer, What};
use hyper::body::Bytes;
use serde::Deserialize;
use serde_json::value::RawValue;
use sha2::{Digest, Sha256};
use std::collections::{BTreeMap, HashMap, HashSet};
use std::fmt;
use std::sync::Arc;

/// Why there is no answer of the whole.
#[derive(Clone, Debug)]
pub enum Fault {
    /// These parts are away.
    Away(Vec<Away>),
    /// This source stands in two parts.
    Overlap(String),
    /// The parts' answers have more bytes than are joined here.
    Large,
    /// The library doesn't combine the answers.
    Uncombined(Error),
    /// What a part answered is no summary.
    NoSummary,
}

impl fmt::Display for Fault {
    fn fmt(&self, f: &mut fmt::Formatter<'_>) -> fmt::Result {
        match self {
            Fault::Away(away) => f.write_str(&told(away)),
            Fault::Overlap(source) => write!(f, "{source} stands in two parts"),
            Fault::Large => f.write_str("the parts' answers are too large to be joined"),
            Fault::Uncombined(why) => why.fmt(f),
            Fault::NoSummary => f.write_str("a part's summary can't be read"),
        }
    }
}

/// Which parts are away, and why.
pub fn told(away: &[Away]) -> String {
    let each: Vec<String> = away.iter().map(|it| format!("part {}: {}", it.index, it.why)).collect();
    each.join("; ")
}

/// A part's answer, and the summary of the same set.
pub struct OfPart {
    pub summary: Bytes,
    pub answer: Bytes,
    pub count: u64,
    pub tag: String,
}

/// An answer of the whole, and the names of the parts' sets that it is of.
pub struct Joined {
    pub answer: Arc<Answer>,
    pub tags: Vec<String>,
}

/// The answer that the parts' answers make. Its name is that which a site with all their events has.
pub fn joined(what: What, parts: &[OfPart]) -> Result<Joined, Fault> {
    let summaries: Vec<&str> = parts.iter().map(|it| text_of(&it.summary)).collect::<Result<_, _>>()?;
    let read: Vec<Summary> = summaries.iter().map(|it| Summary::read(it)).collect::<Result<_, _>>()?;
    let whole = summary_of(&summaries, &read)?;
    let tag = name_of(&whole);
    let covers: Vec<String> = read.iter().map(Summary::cover).collect();
    let covers: Vec<&str> = covers.iter().map(String::as_str).collect();
    let answers: Vec<&str> = parts.iter().map(|it| text_of(&it.answer)).collect::<Result<_, _>>()?;
    let text = match what {
        What::Summary => Ok(whole),
        What::Cover | What::Question(Question::Cover) => combine(Question::Cover, &covers, &[]),
        // Each of its lines shows its source.
        What::Question(Question::Shown) => combine(Question::Shown, &answers, &[]),
        What::Question(question) => combine(question, &answers, &covers),
    };
    let text = text.map_err(Fault::Uncombined)?.into();
    let count = parts.iter().fold(0, |sum: u64, it| sum.saturating_add(it.count));
    let answer = Arc::new(Answer { text, count, tag: tag.into() });
    Ok(Joined { answer, tags: parts.iter().map(|it| it.tag.clone()).collect() })
}

fn text_of(bytes: &[u8]) -> Result<&str, Fault> {
    std::str::from_utf8(bytes).map_err(|_| Fault::Uncombined(Error::NotUtf8))
}

/// The name of the set of a summary: the SHA-256 of its text without the line end.
pub fn name_of(summary: &str) -> String {
    let digest = Sha256::digest(summary.trim_end_matches('\n').as_bytes());
    digest.iter().map(|it| format!("{it:02x}")).collect()
}

/// What a summary of version 2 says beside its digests, its entries as they stand.
#[derive(Deserialize)]
struct Summary<'a> {
    #[serde(borrow)]
    sources: BTreeMap<String, &'a RawValue>,
    version: u64,
}

impl Summary<'_> {
    fn read(text: &str) -> Result<Summary<'_>, Fault> {
        let read: Result<Summary, _> = serde_json::from_str(text);
        read.ok().filter(|it| it.version == 2).ok_or(Fault::NoSummary)
    }

    /// The summary of version 1 of the same set.
    fn cover(&self) -> String {
        let mut text = String::from("{\"sources\":");
        write_entries(&mut text, self.sources.iter());
        text.push_str(",\"version\":1}\n");
        text
    }
}

/// The summary of the set that the parts' sets make together, by theirs, which are read here too.
fn summary_of(summaries: &[&str], read: &[Summary]) -> Result<String, Fault> {
    combine_summaries(summaries).map_err(|why| match why {
        Error::Overlap => Fault::Overlap(shared_source(read).unwrap_or_default()),
        Error::NotAnAnswer => Fault::NoSummary,
        _ => Fault::Uncombined(why),
    })
}

/// A source that stands in two summaries, where there is one.
fn shared_source(summaries: &[Summary]) -> Option<String> {
    let mut seen = HashSet::new();
    summaries.iter().flat_map(|it| it.sources.keys()).find(|it| !seen.insert(*it)).cloned()
}

fn write_entries<'a>(text: &mut String, entries: impl Iterator<Item = (&'a String, &'a &'a RawValue)>) {
    text.push('{');
    for (at, (source, entry)) in entries.enumerate() {
        if at > 0 {
            text.push(',');
        }
        text.push_str(&serde_json::Value::from(source.as_str()).to_string());
        text.push(':');
        text.push_str(entry.get());
    }
    text.push('}');
}

/// How two covers stand to each other: the numbers that the second has and the first lacks, and the other way round.
pub fn lag_of(own: &str, peer: &str) -> Option<Lag> {
    #[derive(Deserialize)]
    struct Cover {
        sources: HashMap<String, Vec<(u64, u64)>>,
    }
    let (own, peer): (Cover, Cover) = (serde_json::from_str(own).ok()?, serde_json::from_str(peer).ok()?);
    // Each source for itself: a peer may claim more numbers in all than can be counted.
    let lacking = |has: &Cover, lacks: &Cover| {
        has.sources.iter().fold(0u64, |sum, (source, numbers)| {
            let both = lacks.sources.get(source).map_or(0, |it| common(numbers, it));
            sum.saturating_add(count(numbers).saturating_sub(both))
        })
    };
    Some(Lag { lacking: lacking(&peer, &own), ahead: lacking(&own, &peer), blocks: 0 })
}

/// How many numbers intervals have.
fn count(numbers: &[(u64, u64)]) -> u64 {
    numbers.iter().fold(0, |sum, it| sum.saturating_add(it.1.saturating_sub(it.0).saturating_add(1)))
}

/// How many numbers stand in both of two lists of ascending intervals.
fn common(one: &[(u64, u64)], other: &[(u64, u64)]) -> u64 {
    let (mut a, mut b, mut sum) = (0, 0, 0u64);
    while let (Some(x), Some(y)) = (one.get(a), other.get(b)) {
        let (first, last) = (x.0.max(y.0), x.1.min(y.1));
        if first <= last {
            sum = sum.saturating_add((last - first).saturating_add(1));
        }
        if x.1 < y.1 {
            a += 1;
        } else {
            b += 1;
        }
    }
    sum
}

#[cfg(test)]
mod tests {
    use super::*;

    fn summary(of: &[(&str, u64)]) -> String {
        let entries = |entry: &dyn Fn(u64) -> String| -> String {
            let each = of.iter().map(|it| format!("{}:{}", serde_json::Value::from(it.0), entry(it.1)));
            each.collect::<Vec<_>>().join(",")
        };
        let (blocks, sources) = (entries(&|it| format!("[[0,\"{it:064x}\"]]")), entries(&|it| format!("[[1,{it}]]")));
        format!("{{\"blocks\":{{{blocks}}},\"sources\":{{{sources}}},\"version\":2}}\n")
    }

    fn together(parts: &[String]) -> Result<String, Fault> {
        let texts: Vec<&str> = parts.iter().map(String::as_str).collect();
        let read: Vec<Summary> = texts.iter().map(|it| Summary::read(it).unwrap()).collect();
        summary_of(&texts, &read)
    }

    #[test]
    fn summaries_stand_together_in_the_order_of_bytes() {
        let parts = [summary(&[("/b", 2), ("/ü", 5)]), summary(&[]), summary(&[("/\"\\", 1), ("/a", 3), ("/b/", 4)])];
        let whole = summary(&[("/\"\\", 1), ("/a", 3), ("/b", 2), ("/b/", 4), ("/ü", 5)]);
        assert_eq!(together(&parts).unwrap(), whole);
        assert_eq!(together(std::slice::from_ref(&whole)).unwrap(), whole);
        assert_eq!(together(&[summary(&[])]).unwrap(), "{\"blocks\":{},\"sources\":{},\"version\":2}\n");
        let cover = Summary::read(&parts[0]).unwrap().cover();
        assert_eq!(cover, "{\"sources\":{\"/b\":[[1,2]],\"/ü\":[[1,5]]},\"version\":1}\n");
    }

    #[test]
    fn a_source_in_two_parts_is_told() {
        let told = together(&[summary(&[("/a", 1)]), summary(&[("/a", 2), ("/b", 1)])]).unwrap_err();
        assert!(matches!(told, Fault::Overlap(source) if source == "/a"));
    }

    #[test]
    fn what_is_no_summary_is_refused() {
        for bad in ["", "{}", "{\"sources\":{},\"version\":1}", "{\"blocks\":{},\"sources\":{},\"version\":3}", "[]"] {
            assert!(matches!(Summary::read(bad), Err(Fault::NoSummary)), "{bad}");
        }
    }

    #[test]
    fn the_name_is_that_of_the_text() {
        // printf a | sha256sum
        let name = "ca978112ca1bbdcafac231b39a23dc4da786eff8147c4e72b9807785afee48bb";
        assert_eq!((name_of("a\n").as_str(), name_of("a").as_str()), (name, name));
    }

    #[test]
    fn lags_are_counted() {
        let lag = |own: &str, peer: &str| {
            let cover = |it: &str| format!("{{\"sources\":{{{it}}},\"version\":1}}\n");
            lag_of(&cover(own), &cover(peer)).map(|it| (it.lacking, it.ahead))
        };
        assert_eq!(lag("", ""), Some((0, 0)));
        assert_eq!(lag("\"/a\":[[1,5]]", "\"/a\":[[3,9]]"), Some((4, 2)));
        assert_eq!(lag("\"/a\":[[1,2],[5,5],[8,9]]", "\"/a\":[[2,8]],\"/b\":[[1,1]]"), Some((5, 2)));
        assert_eq!(lag("\"/a\":[[1,2]]", "\"/b\":[[1,9223372036854775807]]"), Some((9223372036854775807, 2)));
        assert_eq!(lag_of("{}", "{}").map(|it| it.lacking), None);
    }
}
