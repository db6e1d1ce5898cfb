use crate::{ffi, text_of, Error, Question, Site};
use std::ffi::c_int;

/// In how many parts a region may be at most.
pub const MAX_PARTS: u64 = 65_536;

/// Of so many parts of a region, 1 to [`MAX_PARTS`], the one that a source falls to, counted from 0: the
/// first eight bytes of its SHA-256 as a number, the greatest byte first, modulo the count. Every release
/// answers the same. Another count is [`Error::BadParts`].
pub fn part_of(source: &str, parts: u64) -> Result<u64, Error> {
    let mut part = 0;
    // SAFETY: the source is lent for the call.
    match unsafe { ffi::jumbetai_part(source.as_ptr().cast(), source.len(), parts, &mut part) } {
        0 => Ok(part),
        status => Err(Error::of(status)),
    }
}

/// An event, or a batch of events, in so many parts, 1 to [`MAX_PARTS`]: of each the batch of its events, in
/// their order, which [`Site::take`] takes, and `[]` of one that has none. Bytes that [`Site::take`] refuses
/// are refused as there; [`Error::BadParts`] comes before. Nothing is taken.
pub fn split(bytes: &[u8], parts: u64) -> Result<Vec<String>, Error> {
    let site = Site::new()?;
    let (at, length) = (bytes.as_ptr().cast(), bytes.len());
    // SAFETY: the site is open, and the bytes are lent for the call.
    let (lines, _) =
        text_of(|text| unsafe { ffi::jumbetai_split(site.raw.as_ptr(), at, length, parts, text) })?;
    Ok(lines.lines().map(str::to_string).collect())
}

/// The texts as C takes them, which lends them.
fn bodies(texts: &[&str]) -> Vec<ffi::Body> {
    let body = |text: &&str| ffi::Body {
        bytes: text.as_ptr().cast(),
        length: text.len(),
    };
    texts.iter().map(body).collect()
}

/// The answer to a question over a whole region, from the answers of its parts, in any order of the parts:
/// the very bytes that a site with all events answers. Beside answers to [`Question::Conflicts`],
/// [`Question::Latest`], [`Question::Kinds`], [`Question::Days`] and [`Question::Gaps`] stand the parts'
/// answers to [`Question::Cover`], one each and in the same order; of the other two no covers are looked at.
/// An answer and its cover are of one moment: whoever asks a part that takes meanwhile asks again until two
/// covers around the answer are the same.
///
/// [`Error::CoverCount`] where there are more or fewer covers than answers, [`Error::NotACover`] and
/// [`Error::NotAnAnswer`] where a text is none, [`Error::Overlap`] where a source stands in two parts,
/// [`Error::TooMany`] where a sum is above 2^64-1. Time in proportion to the texts and the parts, times a
/// logarithm.
pub fn combine(question: Question, answers: &[&str], covers: &[&str]) -> Result<String, Error> {
    let site = Site::new()?;
    let (answers, covers) = (bodies(answers), bodies(covers));
    // SAFETY: the site is open, and the texts are lent for the call.
    let (text, _) = text_of(|text| unsafe {
        ffi::jumbetai_combine(
            site.raw.as_ptr(),
            question as c_int,
            answers.as_ptr(),
            answers.len(),
            covers.as_ptr(),
            covers.len(),
            std::ptr::null_mut(),
            text,
        )
    })?;
    Ok(text)
}

/// The summary of a whole region, from the texts of [`Site::summary`] of its parts, in any order of the parts:
/// the very bytes that a site with all events tells. [`Error::NotAnAnswer`] where a text is none,
/// [`Error::Overlap`] where a source stands in two parts. Time in proportion to the texts and the parts, times
/// a logarithm.
pub fn combine_summaries(summaries: &[&str]) -> Result<String, Error> {
    let site = Site::new()?;
    let (given, none) = (bodies(summaries), std::ptr::null_mut());
    // SAFETY: the site is open, and the texts are lent for the call.
    let (text, _) = text_of(|text| unsafe {
        ffi::jumbetai_combine_summaries(site.raw.as_ptr(), given.as_ptr(), given.len(), none, text)
    })?;
    Ok(text)
}
