//! A site of events in one's own process, over `libjumbetai.a`: a set of CloudEvents that keeps each once, its
//! answers, its summary, and what another site lacks of it. Sites that took the same events, in whatever order and
//! however often, give the same bytes for every answer. That is proved of the library; this crate, which calls it
//! through C, is only tested.
//!
//! ```
//! use jumbetai::{Question, Site};
//!
//! let event = br#"{"specversion":"1.0","id":"1","source":"/shop","type":"order.placed",
//!     "sequence":"00000000000000000001"}"#;
//! let mut north = Site::new()?;
//! let mut south = Site::new()?;
//! assert_eq!(north.take(event)?.fresh, 1);
//! assert_eq!(north.take(event)?.repeated, 1);
//!
//! // The south takes what it lacks, a page of at most 100 events at a time.
//! let summary = south.summary()?;
//! for page in north.delta(&summary) {
//!     south.take(page?.json.as_bytes())?;
//! }
//! assert_eq!(south.ask(Question::Kinds)?, "[\"order.placed\",1]\n");
//! assert_eq!(south.summary()?, north.summary()?);
//! # Ok::<(), jumbetai::Error>(())
//! ```
//!
//! A site over a file ([`Site::open`]) has what it took when it is opened again:
//!
//! ```
//! # let folder = std::env::temp_dir().join(format!("jumbetai-page-{}", std::process::id()));
//! # std::fs::create_dir_all(&folder).unwrap();
//! # let file = folder.join("north.db");
//! use jumbetai::{Error, Site};
//!
//! let event = br#"{"specversion":"1.0","id":"1","source":"/shop","type":"order.placed",
//!     "sequence":"00000000000000000001"}"#;
//! let mut north = Site::open(&file)?;
//! assert_eq!(north.take(event)?.fresh, 1);
//! assert_eq!(Site::open(&file).err(), Some(Error::Busy));
//! drop(north);
//! assert_eq!(Site::open(&file)?.take(event)?.repeated, 1);
//! # std::fs::remove_dir_all(&folder).unwrap();
//! # Ok::<(), Error>(())
//! ```
//!
//! A service takes the bodies of several callers in one transaction, and answers each; a consumer keeps the number of
//! the last event that it has, and asks what came behind it:
//!
//! ```
//! use jumbetai::{Error, Site};
//!
//! let event = br#"{"specversion":"1.0","id":"1","source":"/shop","type":"order.placed",
//!     "sequence":"00000000000000000001"}"#;
//! let mut site = Site::new()?;
//! let answers = site.take_each(&[event, b"{}", event])?;
//! assert_eq!(answers[0].map(|taken| taken.fresh), Ok(1));
//! assert_eq!(answers[1], Err(Error::NoEvents));
//! assert_eq!(answers[2].map(|taken| taken.repeated), Ok(1));
//!
//! let mut mark = 0;
//! while let Some(page) = site.arrivals(mark)? {
//!     mark = page.from + page.events;
//! }
//! assert_eq!(mark, site.len());
//! # Ok::<(), Error>(())
//! ```
//!
//! An [`Outbox`] has the orders of a service in a database file, each written with the event that tells of it in one
//! transaction, and hands those events on:
//!
//! ```
//! # let folder = std::env::temp_dir().join(format!("jumbetai-orders-{}", std::process::id()));
//! # std::fs::create_dir_all(&folder).unwrap();
//! # let file = folder.join("orders.db");
//! use jumbetai::{Error, Outbox, Question, Site};
//!
//! let mut orders = Outbox::open_as(&file, "/north", 0)?;
//! let event = orders.place(7, "2024-02-29T10:00:00Z")?;
//! assert!(event.contains(r#""subject":"7""#) && event.contains(r#""type":"order.placed""#));
//! orders.ship(7, "2024-02-29T11:00:00Z")?;
//! assert_eq!(orders.cancel(7, "2024-02-29T12:00:00Z"), Err(Error::WrongState));
//!
//! // Whoever hands the rows on keeps the number of the last one that was taken.
//! let (mut site, mut mark) = (Site::new()?, 0);
//! for page in orders.rows(mark) {
//!     let page = page?;
//!     site.take(page.json.as_bytes())?;
//!     mark = page.last;
//! }
//! assert_eq!(mark, 2);
//! assert_eq!(site.ask(Question::Kinds)?, "[\"order.placed\",1]\n[\"order.shipped\",1]\n");
//! # std::fs::remove_dir_all(&folder).unwrap();
//! # Ok::<(), Error>(())
//! ```

#![warn(missing_docs)]

mod numbers;
mod outbox;
mod parts;

pub use numbers::Numbers;
pub use outbox::{OrderCounts, Outbox, RowPages, Rows};
pub use parts::{combine, combine_summaries, part_of, split, MAX_PARTS};

use jumbetai_sys as ffi;
use std::ffi::{c_int, CStr, CString};
use std::fmt;
use std::os::unix::ffi::OsStrExt;
use std::path::Path;
use std::ptr::{null_mut, NonNull};

/// The most events of a page.
pub const PAGE: u64 = 100;

/// Why a call isn't done. Its `Display` says so in words.
#[derive(Clone, Copy, PartialEq, Eq, Debug)]
#[non_exhaustive]
pub enum Error {
    /// Memory was refused. A `take` in memory may then have taken the first of its events: the same
    /// bytes may be given again. Over a file it has taken none.
    OutOfMemory,
    /// The bytes spell no event and no batch of events; nothing was taken. [`Site::check`] says why.
    NoEvents,
    /// An event has no sequence of twenty digits; nothing was taken. [`Site::check`] says which.
    NoNumber,
    /// The bytes of a peer's summary are no JSON.
    SummaryNotJson,
    /// They are JSON, and no summary.
    SummaryShape,
    /// They are of a version that isn't known.
    SummaryVersion,
    /// They aren't byte for byte as a summary is written.
    SummaryNotCanonical,
    /// The system gave no random bytes for [`Site::keep_views`], [`Site::open`] or [`Outbox::open`].
    NoRandom,
    /// Somebody else has the file open, or this process by another site or outbox.
    Busy,
    /// SQLite left a rollback journal beside the file, which it plays back when sqlite3 opens it.
    Journal,
    /// No regular file with one name has this path: a folder, a device, a file that has a second
    /// name, a log that is a link, or a path with a zero byte.
    NoFile,
    /// The system refuses to open, to lock, to read or to write a file: [`why`] says which error it has.
    System,
    /// The file is no database of SQLite, or has what isn't read here.
    NoDatabase,
    /// A page of the file isn't what SQLite writes.
    Damaged,
    /// The file has tables of others; or a statement was refused, as where the disk is full, which
    /// [`why`] says then, and nothing was taken, and no order written.
    Store,
    /// The tables aren't those that are made here, or their rows aren't those that are left here.
    Foreign,
    /// The events that a `take` was given are in the file, all of them, and memory ran out before
    /// all were counted: the next `take` counts the rest, and until then answers are without them.
    Owed,
    /// The order was placed before.
    OrderExists,
    /// The order was never placed.
    NoOrder,
    /// The order was shipped or cancelled before.
    WrongState,
    /// The last row of the outbox has the number 2^63-1, so that no further one has any.
    Full,
    /// The time is no moment of RFC 3339, as `2024-02-29T10:00:00Z`, or has more than 64 bytes.
    BadTime,
    /// The number of an order isn't from 1 to 2^63-1.
    BadOrder,
    /// The source isn't 1 to 1,024 bytes without control characters, or the base is above 2^63-1.
    BadSource,
    /// The outbox that is there has another source than was given.
    AnotherSource,
    /// An event that is to be numbered has a sequence; nothing was numbered.
    HasSequence,
    /// With a number the text of an event would have more than 262,144 bytes; nothing was numbered.
    TooLarge,
    /// A region is in 1 to [`MAX_PARTS`] parts.
    BadParts,
    /// A text that [`combine`] was given for a part's answer to [`Question::Cover`] is none.
    NotACover,
    /// A text that [`combine`] was given answers the question over no set of events, or isn't that of the
    /// cover beside it.
    NotAnAnswer,
    /// There are more or fewer covers than answers.
    CoverCount,
    /// A count of the whole is above 2^64-1.
    TooMany,
    /// A source stands in two of the parts.
    Overlap,
    /// The library that is linked hasn't what this crate calls: [`version`] is before the crate's, or
    /// one that may have changed what a call means. Nothing was opened.
    Version,
    /// The library answered bytes that are no UTF-8, which no text of it is.
    NotUtf8,
    /// A status that this crate doesn't know: the library that is linked is a later one.
    Other(i32),
}

impl Error {
    fn of(status: c_int) -> Error {
        match status {
            1 => Error::OutOfMemory,
            2 => Error::NoEvents,
            3 => Error::NoNumber,
            5 => Error::SummaryNotJson,
            6 => Error::SummaryShape,
            7 => Error::SummaryVersion,
            8 => Error::SummaryNotCanonical,
            10 => Error::NoRandom,
            12 => Error::Busy,
            13 => Error::Journal,
            14 => Error::NoFile,
            15 => Error::System,
            16 => Error::NoDatabase,
            17 => Error::Damaged,
            18 => Error::Store,
            19 => Error::Foreign,
            20 => Error::Owed,
            21 => Error::OrderExists,
            22 => Error::NoOrder,
            23 => Error::WrongState,
            24 => Error::Full,
            25 => Error::BadTime,
            26 => Error::BadOrder,
            27 => Error::BadSource,
            28 => Error::AnotherSource,
            30 => Error::HasSequence,
            31 => Error::TooLarge,
            32 => Error::BadParts,
            33 => Error::NotACover,
            34 => Error::NotAnAnswer,
            35 => Error::CoverCount,
            36 => Error::TooMany,
            37 => Error::Overlap,
            other => Error::Other(other),
        }
    }

    /// The status by which the C interface answers it; -1 of what it doesn't answer.
    pub fn status(self) -> i32 {
        match self {
            Error::OutOfMemory => 1,
            Error::NoEvents => 2,
            Error::NoNumber => 3,
            Error::SummaryNotJson => 5,
            Error::SummaryShape => 6,
            Error::SummaryVersion => 7,
            Error::SummaryNotCanonical => 8,
            Error::NoRandom => 10,
            Error::Busy => 12,
            Error::Journal => 13,
            Error::NoFile => 14,
            Error::System => 15,
            Error::NoDatabase => 16,
            Error::Damaged => 17,
            Error::Store => 18,
            Error::Foreign => 19,
            Error::Owed => 20,
            Error::OrderExists => 21,
            Error::NoOrder => 22,
            Error::WrongState => 23,
            Error::Full => 24,
            Error::BadTime => 25,
            Error::BadOrder => 26,
            Error::BadSource => 27,
            Error::AnotherSource => 28,
            Error::HasSequence => 30,
            Error::TooLarge => 31,
            Error::BadParts => 32,
            Error::NotACover => 33,
            Error::NotAnAnswer => 34,
            Error::CoverCount => 35,
            Error::TooMany => 36,
            Error::Overlap => 37,
            Error::Version | Error::NotUtf8 => -1,
            Error::Other(status) => status,
        }
    }
}

impl fmt::Display for Error {
    fn fmt(&self, f: &mut fmt::Formatter<'_>) -> fmt::Result {
        match self {
            Error::Version => write!(
                f,
                "the library has the version {}, and this crate {VERSION}",
                version()
            ),
            Error::NotUtf8 => f.write_str("the library answered bytes that are no UTF-8"),
            // SAFETY: any status has words, which live as long as the program.
            _ => f.write_str(unsafe { lasting(ffi::jumbetai_words(self.status())) }),
        }
    }
}

impl std::error::Error for Error {}

/// A question about the events of a site, as the program `site` has them.
#[derive(Clone, Copy, PartialEq, Eq, Debug)]
pub enum Question {
    /// Which sequence numbers each source has.
    Cover = 1,
    /// Of each source and id the event with the least text.
    Shown,
    /// The events that share a source and id.
    Conflicts,
    /// The latest event of each source and subject.
    Latest,
    /// How many shown events have each type.
    Kinds,
    /// How many shown events have each type and UTC day.
    Days,
    /// Which numbers each source lacks.
    Gaps,
}

impl Question {
    /// All seven.
    pub const ALL: [Question; 7] = [
        Question::Cover,
        Question::Shown,
        Question::Conflicts,
        Question::Latest,
        Question::Kinds,
        Question::Days,
        Question::Gaps,
    ];
}

/// What came of events that were taken.
#[derive(Clone, Copy, PartialEq, Eq, Debug)]
pub struct Taken {
    /// How many were new.
    pub fresh: u64,
    /// How many were there.
    pub repeated: u64,
}

/// How far a site and a peer are apart.
#[derive(Clone, Copy, PartialEq, Eq, Debug)]
pub struct Lag {
    /// How many numbers of its sources the peer has that the site lacks.
    pub lacking: u64,
    /// How many the site has that the peer lacks.
    pub ahead: u64,
    /// How many blocks of 1,024 numbers differ, or are on one side alone.
    pub blocks: u64,
}

/// A page of a site's events.
#[derive(Clone, PartialEq, Eq, Debug)]
pub struct Page {
    /// At which place of the whole list its first event stands, counted from 0.
    pub from: u64,
    /// How many events it has, 1 or more.
    pub events: u64,
    /// The events as a batch, a line of JSON that [`Site::take`] takes.
    pub json: String,
}

/// A site, in memory alone or over a file. It may go to another thread; one thread at a time uses
/// it, so that a service shares it by a `Mutex`. Over a file it lets go of that when it is dropped.
///
/// A process that is forked, as by `fork` of libc, has a copy of each site. One over a file it must
/// neither use nor drop ([`std::mem::forget`] is for that): what two processes write by their
/// copies garbles the file. One in memory is a copy from then on, unless another thread was in a
/// call on it at that moment: then it is to be forgotten too. [`std::process::Command`] does nothing
/// of the kind, since the process that it starts has no copy.
pub struct Site {
    raw: NonNull<ffi::Site>,
}

// SAFETY: a site has nothing in common with another one, and it is a law of the library that it may
// change thread, in memory and over files (`sites_may_go`). What C keeps beside it, numbers and
// copies of its files' descriptors, belongs to no thread.
unsafe impl Send for Site {}

impl Site {
    /// A site in memory, without events.
    pub fn new() -> Result<Site, Error> {
        fitting(version())?;
        // SAFETY: the call asks for nothing.
        match NonNull::new(unsafe { ffi::jumbetai_open() }) {
            Some(raw) => Ok(Site { raw }),
            None => Err(Error::OutOfMemory),
        }
    }

    /// A site over a database file, which is made where there is none. What it takes is kept in the
    /// file and synced before it is counted: once [`Site::take`] is done, neither a crash of the
    /// process nor one of the machine takes it back. No other call writes.
    ///
    /// Until the site is dropped, whoever else opens the file finds it busy ([`Error::Busy`] here),
    /// in this process too. Then the program `site`, sqlite3 and this call open it. A process that
    /// ends without dropping it, or is killed, leaves a log beside it (`-wal`), which belongs to it
    /// and is read by all of these.
    ///
    /// SQLite's own library may have the file open in the same process. Each finds it busy while the
    /// other uses it, and [`Error::Busy`] takes none of SQLite's locks away: a descriptor of the file
    /// stays open for the next opening. As a site is dropped, or an opening refused otherwise, the
    /// system drops what locks another thread takes on the file by SQLite in that moment: none is to.
    ///
    /// Of the file at most 256 MiB are kept in memory, beside the events, which all are. Time and
    /// memory in proportion to the events that are there.
    pub fn open(path: impl AsRef<Path>) -> Result<Site, Error> {
        Site::open_with_cache(path, 0)
    }

    /// The same, with so many MiB of the file in memory at most; 0 for as many as it has, and 16
    /// more, at most 256.
    pub fn open_with_cache(path: impl AsRef<Path>, mib: u32) -> Result<Site, Error> {
        fitting(version())?;
        let path = path_text(path.as_ref())?;
        let mut raw = null_mut();
        // SAFETY: the path ends with a zero byte, and is lent for the call.
        match unsafe { ffi::jumbetai_open_file(path.as_ptr(), mib, &mut raw) } {
            0 => NonNull::new(raw)
                .map(|raw| Site { raw })
                .ok_or(Error::OutOfMemory),
            status => Err(Error::of(status)),
        }
    }

    /// How many events the site has, each counted once.
    pub fn len(&self) -> u64 {
        // SAFETY: the site is open.
        unsafe { ffi::jumbetai_count(self.raw.as_ptr()) }
    }

    /// Whether the site has no events.
    pub fn is_empty(&self) -> bool {
        self.len() == 0
    }

    /// Takes an event, or a batch of events, in the JSON format of CloudEvents 1.0.2, of at most 33,554,432 bytes.
    /// Over a file all of them are kept, in one transaction, or none.
    pub fn take(&mut self, bytes: &[u8]) -> Result<Taken, Error> {
        let mut counts = ffi::Counts::default();
        // SAFETY: the site is open, and the bytes are lent for the call.
        let status = unsafe {
            ffi::jumbetai_take(
                self.raw.as_ptr(),
                bytes.as_ptr().cast(),
                bytes.len(),
                &mut counts,
            )
        };
        match status {
            0 => Ok(Taken {
                fresh: counts.fresh,
                repeated: counts.repeated,
            }),
            status => Err(Error::of(status)),
        }
    }

    /// Takes the bodies of several callers in their order, each as [`Site::take`] takes its bytes, and
    /// answers each. One at fault is refused alone. `fresh` counts what wasn't there before that body.
    ///
    /// Over a file the others are kept in one transaction: where that isn't done, none of them is, and
    /// each of their answers is why ([`Error::Owed`] where they are kept); a crash leaves all or none.
    /// In memory they are taken one by one, up to one that memory is refused to. The call itself is an
    /// error only where nothing could be asked, and then nothing was taken.
    pub fn take_each(&mut self, bodies: &[&[u8]]) -> Result<Vec<Result<Taken, Error>>, Error> {
        let given: Vec<ffi::Body> = bodies
            .iter()
            .map(|body| ffi::Body {
                bytes: body.as_ptr().cast(),
                length: body.len(),
            })
            .collect();
        let mut answers = vec![ffi::Answer::default(); given.len()];
        let (raw, count) = (self.raw.as_ptr(), given.len());
        // SAFETY: the site is open, the bodies are lent for the call, and there is room for as many
        // answers.
        let status =
            unsafe { ffi::jumbetai_take_each(raw, given.as_ptr(), count, answers.as_mut_ptr()) };
        match status {
            9 => Err(Error::of(status)),
            _ => Ok(answers.into_iter().map(taken).collect()),
        }
    }

    /// What is wrong with bytes that are refused: a line of JSON for each event at fault, as `site check -` prints
    /// it; empty where nothing is. Nothing is taken.
    pub fn check(&mut self, bytes: &[u8]) -> Result<String, Error> {
        // SAFETY: the site is open, and the bytes are lent for the call.
        let call = |raw, text: *mut _| unsafe {
            ffi::jumbetai_check(raw, bytes.as_ptr().cast(), bytes.len(), text)
        };
        Ok(self.text(call)?.0)
    }

    /// Keeps views of the events from now on: [`Question::Kinds`], [`Question::Days`] and
    /// [`Question::Latest`] then take the time that the answer takes, in place of a pass over all
    /// events, and each event that comes takes a little more. No answer changes.
    pub fn keep_views(&mut self) -> Result<(), Error> {
        // SAFETY: the site is open.
        match unsafe { ffi::jumbetai_keep_views(self.raw.as_ptr()) } {
            0 => Ok(()),
            status => Err(Error::of(status)),
        }
    }

    /// The answer to a question, in the lines that the program `site` prints.
    pub fn ask(&mut self, question: Question) -> Result<String, Error> {
        // SAFETY: the site is open.
        Ok(self
            .text(|raw, text| unsafe { ffi::jumbetai_ask(raw, question as c_int, text) })?
            .0)
    }

    /// The events that have a source and an id, as the texts that [`Question::Shown`] prints: none, the
    /// one, or those of a conflict, in the order of [`Question::Conflicts`]. The first is the one that is
    /// shown. Time with the logarithm of the events, and that of the texts.
    pub fn get(&mut self, source: &str, id: &str) -> Result<Vec<String>, Error> {
        let (at, length) = (source.as_ptr().cast(), source.len());
        // SAFETY: the site is open, and source and id are lent for the call.
        let (lines, events) = self.text(|raw, text| unsafe {
            ffi::jumbetai_get(raw, at, length, id.as_ptr().cast(), id.len(), text)
        })?;
        let found: Vec<String> = lines.lines().map(str::to_string).collect();
        debug_assert_eq!(found.len() as u64, events);
        Ok(found)
    }

    /// The summary, by which another site finds what this one lacks: [`Site::delta`] there.
    pub fn summary(&mut self) -> Result<String, Error> {
        // SAFETY: the site is open.
        Ok(self
            .text(|raw, text| unsafe { ffi::jumbetai_summary(raw, text) })?
            .0)
    }

    /// The page from a place on of what a peer lacks by its summary; none where there are no more events.
    pub fn delta_page(&mut self, summary: &str, from: u64) -> Result<Option<Page>, Error> {
        let (at, length) = (summary.as_ptr().cast(), summary.len());
        // SAFETY: the site is open, and the summary is lent for the call.
        let (json, events) =
            self.text(|raw, text| unsafe { ffi::jumbetai_delta(raw, at, length, from, text) })?;
        Ok((events > 0).then_some(Page { from, events, json }))
    }

    /// The same, of a larger size: at most so many events, [`PAGE`] where it is 0, and 2,000 where it
    /// is more. Where `bytes` isn't 0, it ends with the 100 events with which their texts have so many
    /// bytes.
    pub fn delta_part(
        &mut self,
        summary: &str,
        from: u64,
        events: u64,
        bytes: u64,
    ) -> Result<Option<Page>, Error> {
        let (at, length) = (summary.as_ptr().cast(), summary.len());
        // SAFETY: the site is open, and the summary is lent for the call.
        let (json, events) = self.text(|raw, text| unsafe {
            ffi::jumbetai_delta_part(raw, at, length, from, events, bytes, text)
        })?;
        Ok((events > 0).then_some(Page { from, events, json }))
    }

    /// The events that came after the first `after`, in the order in which they came, at most
    /// [`PAGE`]; none where no more came. The same number is the same event for ever, over a file also
    /// when it is opened again: who has taken a page keeps `from` and `events` together.
    pub fn arrivals(&mut self, after: u64) -> Result<Option<Page>, Error> {
        // SAFETY: the site is open.
        let (json, events) =
            self.text(|raw, text| unsafe { ffi::jumbetai_arrivals(raw, after, text) })?;
        Ok((events > 0).then_some(Page {
            from: after,
            events,
            json,
        }))
    }

    /// A site in memory that has the same events, come in the same order, for a reader beside the
    /// writer. It keeps no views. Time and memory in proportion to the events.
    pub fn copy(&mut self) -> Result<Site, Error> {
        let mut raw = null_mut();
        // SAFETY: the site is open.
        match unsafe { ffi::jumbetai_copy(self.raw.as_ptr(), &mut raw) } {
            0 => NonNull::new(raw)
                .map(|raw| Site { raw })
                .ok_or(Error::OutOfMemory),
            status => Err(Error::of(status)),
        }
    }

    /// The summary of version 1, without digests, as [`Question::Cover`] answers it: which numbers each
    /// source has. Time in proportion to it alone.
    pub fn cover(&mut self) -> Result<String, Error> {
        // SAFETY: the site is open.
        Ok(self
            .text(|raw, text| unsafe { ffi::jumbetai_cover(raw, text) })?
            .0)
    }

    /// The name of the set of events: the SHA-256 of the text of [`Site::summary`], without its line
    /// end. Two sites of one name have the same events, or two texts have one SHA-256.
    pub fn name(&mut self) -> Result<[u8; 32], Error> {
        let mut name = [0; 32];
        // SAFETY: the site is open, and the name has room for 32 bytes.
        match unsafe { ffi::jumbetai_name(self.raw.as_ptr(), &mut name) } {
            0 => Ok(name),
            status => Err(Error::of(status)),
        }
    }

    /// How far the site and a peer are apart, by the peer's summary. One of version 1 tells of no
    /// blocks, which are 0 then.
    pub fn compare(&mut self, summary: &str) -> Result<Lag, Error> {
        let (raw, mut lag) = (self.raw.as_ptr(), ffi::Lag::default());
        // SAFETY: the site is open, and the summary is lent for the call.
        let status =
            unsafe { ffi::jumbetai_compare(raw, summary.as_ptr().cast(), summary.len(), &mut lag) };
        match status {
            0 => Ok(Lag {
                lacking: lag.lacking,
                ahead: lag.ahead,
                blocks: lag.blocks,
            }),
            status => Err(Error::of(status)),
        }
    }

    /// Gives back what the site keeps of its last answer, at most 64 KiB.
    pub fn release(&mut self) {
        // SAFETY: the site is open.
        unsafe { ffi::jumbetai_release(self.raw.as_ptr()) }
    }

    /// The page from a place of key order on; none where there are no more events.
    pub fn page(&mut self, from: u64) -> Result<Option<Page>, Error> {
        // SAFETY: the site is open.
        let (json, events) =
            self.text(|raw, text| unsafe { ffi::jumbetai_page(raw, from, text) })?;
        Ok((events > 0).then_some(Page { from, events, json }))
    }

    /// What a peer lacks by its summary, page by page. It ends after the first error.
    pub fn delta<'a>(&'a mut self, summary: &'a str) -> Pages<'a> {
        Pages {
            site: self,
            of: Some(summary),
            from: Some(0),
        }
    }

    /// All events in key order, page by page. It ends after the first error.
    pub fn pages(&mut self) -> Pages<'_> {
        Pages {
            site: self,
            of: None,
            from: Some(0),
        }
    }

    /// The text that a call answers, and how many events it has.
    fn text(
        &mut self,
        call: impl FnOnce(*mut ffi::Site, *mut ffi::Text) -> c_int,
    ) -> Result<(String, u64), Error> {
        let raw = self.raw.as_ptr();
        text_of(|text| call(raw, text))
    }
}

impl Drop for Site {
    fn drop(&mut self) {
        // SAFETY: the site is open, and isn't used again.
        unsafe { ffi::jumbetai_close(self.raw.as_ptr()) }
    }
}

impl fmt::Debug for Site {
    fn fmt(&self, f: &mut fmt::Formatter<'_>) -> fmt::Result {
        f.debug_struct("Site").field("events", &self.len()).finish()
    }
}

/// Pages of events, made by [`Site::delta`] and [`Site::pages`].
pub struct Pages<'a> {
    site: &'a mut Site,
    of: Option<&'a str>,
    from: Option<u64>,
}

impl Iterator for Pages<'_> {
    type Item = Result<Page, Error>;

    fn next(&mut self) -> Option<Self::Item> {
        let from = self.from.take()?;
        let found = match self.of {
            Some(summary) => self.site.delta_page(summary, from),
            None => self.site.page(from),
        };
        let page = found.transpose()?;
        self.from = page.as_ref().ok().map(|page| from + page.events);
        Some(page)
    }
}

/// What [`Site::take`] would say of these bytes, and how many events they spell. It needs no site.
pub fn test(bytes: &[u8]) -> Result<u64, Error> {
    let mut events = 0;
    // SAFETY: the bytes are lent for the call.
    match unsafe { ffi::jumbetai_test(bytes.as_ptr().cast(), bytes.len(), &mut events) } {
        0 => Ok(events),
        status => Err(Error::of(status)),
    }
}

/// Which error of the system stands behind the last call of this thread that opened, took, wrote or
/// read rows, where that was [`Error::Store`] or [`Error::System`]: that of a full disk, or of one that
/// fails. None where the system refused nothing: [`Error::Store`] says then that a page isn't what was
/// written, or that others wrote in the file. Opened anew, it tells which.
pub fn why() -> Option<std::io::Error> {
    // SAFETY: the call asks for nothing.
    match unsafe { ffi::jumbetai_why() } {
        0 => None,
        number => Some(std::io::Error::from_raw_os_error(number)),
    }
}

/// What came of one body of several.
fn taken(answer: ffi::Answer) -> Result<Taken, Error> {
    match answer.status {
        0 => Ok(Taken {
            fresh: answer.counts.fresh,
            repeated: answer.counts.repeated,
        }),
        status => Err(Error::of(status)),
    }
}

/// A path with a zero byte behind.
fn path_text(path: &Path) -> Result<CString, Error> {
    CString::new(path.as_os_str().as_bytes()).map_err(|_| Error::NoFile)
}

/// A text of the library, which is given back in the end.
struct Text(ffi::Text);

impl Drop for Text {
    fn drop(&mut self) {
        // SAFETY: the text is none, or one that a call made, and isn't used again.
        unsafe { ffi::jumbetai_free(&mut self.0) }
    }
}

/// The text that a call answers, and how many events it has.
fn text_of(call: impl FnOnce(*mut ffi::Text) -> c_int) -> Result<(String, u64), Error> {
    text_or_index(call).map_err(|(error, _)| error)
}

/// The text that a call answers, and how many events it has; or the error, and the index that stands
/// in place of that count.
fn text_or_index(
    call: impl FnOnce(*mut ffi::Text) -> c_int,
) -> Result<(String, u64), (Error, u64)> {
    let mut text = Text(ffi::Text {
        bytes: null_mut(),
        length: 0,
        events: 0,
    });
    let status = call(&mut text.0);
    if status != 0 {
        return Err((Error::of(status), text.0.events));
    }
    // SAFETY: where a call is done, so many bytes lie there.
    let bytes = unsafe { std::slice::from_raw_parts(text.0.bytes.cast::<u8>(), text.0.length) };
    match copied(bytes) {
        Ok(json) => Ok((json, text.0.events)),
        Err(error) => Err((error, 0)),
    }
}

/// The very bytes as a text.
fn copied(bytes: &[u8]) -> Result<String, Error> {
    String::from_utf8(bytes.to_vec()).map_err(|_| Error::NotUtf8)
}

/// A text that lives as long as the program.
///
/// # Safety
///
/// A zero byte is behind its last one, and nobody ever writes there.
unsafe fn lasting(text: *const std::ffi::c_char) -> &'static str {
    CStr::from_ptr(text).to_str().unwrap_or("no text")
}

/// The version of this crate.
const VERSION: &str = env!("CARGO_PKG_VERSION");

/// The version of the library that is linked. It serves this crate where it is the same or a later
/// one that changes nothing, by semantic versioning; else whatever is opened is [`Error::Version`].
pub fn version() -> &'static str {
    // SAFETY: the text lives as long as the program.
    unsafe { lasting(ffi::jumbetai_version()) }
}

/// Whether a library of this version has all that this crate calls, with the same meaning.
fn fitting(library: &str) -> Result<(), Error> {
    let numbers = |version: &str| -> Option<Vec<u64>> {
        let plain = version.split('-').next()?;
        let all: Option<Vec<u64>> = plain.split('.').map(|it| it.parse().ok()).collect();
        all.filter(|it| it.len() == 3)
    };
    match (numbers(library), numbers(VERSION)) {
        (Some(has), Some(wants)) if has >= wants => {
            // Before 1.0.0 the second number tells what the first tells behind it.
            let same = if wants[0] > 0 { 1 } else { 2 };
            (has[..same] == wants[..same])
                .then_some(())
                .ok_or(Error::Version)
        }
        _ => Err(Error::Version),
    }
}

#[cfg(test)]
mod tests {
    use super::*;

    #[test]
    fn a_text_is_never_altered() {
        assert_eq!(
            copied("\u{e9}\0\u{fffd}".as_bytes()).unwrap(),
            "\u{e9}\0\u{fffd}"
        );
        assert_eq!(copied(b"").unwrap(), "");
        for bytes in [&b"\xff"[..], b"a\xc3", b"\xed\xa0\x80", b"\xc0\x80"] {
            assert_eq!(copied(bytes), Err(Error::NotUtf8));
        }
    }

    #[test]
    fn a_library_of_another_version_is_refused() {
        let [first, second, third] = [0, 1, 2].map(|at| {
            let number = VERSION
                .split('-')
                .next()
                .unwrap()
                .split('.')
                .nth(at)
                .unwrap();
            number.parse::<u64>().unwrap()
        });
        for (version, fits) in [
            (VERSION.to_string(), true),
            (format!("{first}.{second}.{}", third + 1), true),
            (format!("{first}.{}.{third}", second + 1), first > 0),
            (format!("{}.{second}.{third}", first + 1), false),
            (format!("{first}.{second}"), false),
            (format!("{first}.{second}.x"), false),
            (String::new(), false),
        ] {
            assert_eq!(fitting(&version).is_ok(), fits, "{version}");
        }
        if third > 0 {
            assert_eq!(
                fitting(&format!("{first}.{second}.{}", third - 1)),
                Err(Error::Version)
            );
        }
        assert_eq!(version(), VERSION);
        assert!(Error::Version.to_string().contains(VERSION));
        assert_eq!(Error::Version.status(), -1);
    }
}
