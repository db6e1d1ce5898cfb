//! Orders in a database file, and the rows that tell of them.

use crate::{fitting, path_text, text_of, version, Error};
use jumbetai_sys as ffi;
use std::ffi::{c_int, CString};
use std::fmt;
use std::path::Path;
use std::ptr::{null, null_mut, NonNull};

/// What is done with an order, by the numbers of the C interface.
const PLACE: c_int = 1;
const SHIP: c_int = 2;
const CANCEL: c_int = 3;

/// How many rows and orders an outbox has.
#[derive(Clone, Copy, PartialEq, Eq, Debug)]
pub struct OrderCounts {
    /// The number before that of the first row.
    pub base: u64,
    /// The number of the last row; the base where there is none.
    pub last: u64,
    /// How many orders there are, whatever became of them.
    pub orders: u64,
}

/// A page of rows.
#[derive(Clone, PartialEq, Eq, Debug)]
pub struct Rows {
    /// The number of its last row, behind which the next page begins.
    pub last: u64,
    /// How many rows it has, 1 to [`PAGE`](crate::PAGE).
    pub events: u64,
    /// Their events as a batch, a line of JSON that [`Site::take`](crate::Site::take) takes.
    pub json: String,
}

/// An outbox: the orders of a service in a database file, and a row for whatever was done with one.
///
/// Each row is an event, in the canonical text that the program `site` prints; rows are numbered
/// without a gap. An order is placed, and then shipped or cancelled. The order and its row are
/// written in one transaction and synced: once a call is done no crash takes them back. Where it
/// isn't, the outbox has what it had; a crash after [`Error::Store`] or [`Error::OutOfMemory`] may
/// leave both all the same.
///
/// It may go to another thread; one thread at a time uses it. Until it is dropped the file is busy
/// for whoever else opens it, as that of a [`Site`](crate::Site) is, also beside SQLite's own library
/// ([`Site::open`](crate::Site::open)); the events of a site may lie in the same file. A process
/// that was forked while it is open must neither use nor drop it.
pub struct Outbox {
    raw: NonNull<ffi::Outbox>,
}

// SAFETY: an outbox has nothing in common with another one, and it is a law of the library that it
// may change thread (`outboxes_may_go`). What C keeps beside it, numbers and copies of its files'
// descriptors, belongs to no thread.
unsafe impl Send for Outbox {}

impl Outbox {
    /// The outbox of a file, whatever its source; where there is none it is made, with the source
    /// `/orders` and the base 0.
    ///
    /// Time and memory in proportion to the rows, which are all tested; the memory is given back. Of
    /// the file at most 256 MiB are kept in memory.
    pub fn open(path: impl AsRef<Path>) -> Result<Outbox, Error> {
        Outbox::open_with_cache(path, None, 0, 0)
    }

    /// The same of this source, 1 to 1,024 bytes without control characters: that of all its
    /// events, which one that is there has to have ([`Error::AnotherSource`]). The rows of one that
    /// is made are numbered from the one behind the base on, which is 0 to 2^63-1.
    pub fn open_as(path: impl AsRef<Path>, source: &str, base: u64) -> Result<Outbox, Error> {
        Outbox::open_with_cache(path, Some(source), base, 0)
    }

    /// The same, of any source where none is given, and with so many MiB of the file in memory at
    /// most; 0 for as many as it has, and 16 more, at most 256.
    pub fn open_with_cache(
        path: impl AsRef<Path>,
        source: Option<&str>,
        base: u64,
        mib: u32,
    ) -> Result<Outbox, Error> {
        fitting(version())?;
        let path = path_text(path.as_ref())?;
        let source = source.map(CString::new).transpose();
        let source = source.map_err(|_| Error::BadSource)?;
        let named = source.as_ref().map_or(null(), |it| it.as_ptr());
        let mut raw = null_mut();
        // SAFETY: path and source end with a zero byte, or are null, and are lent for the call.
        let call = unsafe { ffi::jumbetai_open_outbox(path.as_ptr(), named, base, mib, &mut raw) };
        match call {
            0 => NonNull::new(raw)
                .map(|raw| Outbox { raw })
                .ok_or(Error::OutOfMemory),
            status => Err(Error::of(status)),
        }
    }

    /// Places an order of this number, 1 to 2^63-1, at this moment, as `2024-02-29T10:00:00Z`.
    /// Answers the line of its event, with its line end.
    pub fn place(&mut self, order: u64, time: &str) -> Result<String, Error> {
        self.order(PLACE, order, time)
    }

    /// Ships an order that was placed.
    pub fn ship(&mut self, order: u64, time: &str) -> Result<String, Error> {
        self.order(SHIP, order, time)
    }

    /// Cancels an order that was placed.
    pub fn cancel(&mut self, order: u64, time: &str) -> Result<String, Error> {
        self.order(CANCEL, order, time)
    }

    fn order(&mut self, action: c_int, order: u64, time: &str) -> Result<String, Error> {
        let time = CString::new(time).map_err(|_| Error::BadTime)?;
        let raw = self.raw.as_ptr();
        // SAFETY: the outbox is open, and the time ends with a zero byte and is lent for the call.
        let call = |text| unsafe { ffi::jumbetai_order(raw, action, order, time.as_ptr(), text) };
        Ok(text_of(call)?.0)
    }

    /// The rows with a number above this one, at most [`PAGE`](crate::PAGE); none where there are
    /// no more.
    pub fn rows_page(&mut self, after: u64) -> Result<Option<Rows>, Error> {
        let raw = self.raw.as_ptr();
        // SAFETY: the outbox is open.
        let (json, events) = text_of(|text| unsafe { ffi::jumbetai_rows(raw, after, text) })?;
        let last = after.max(self.counts().base).saturating_add(events);
        Ok((events > 0).then_some(Rows { last, events, json }))
    }

    /// All rows with a number above this one, page by page. It ends after the first error.
    pub fn rows(&mut self, after: u64) -> RowPages<'_> {
        RowPages {
            outbox: self,
            after: Some(after),
        }
    }

    /// How many rows and orders there are.
    pub fn counts(&self) -> OrderCounts {
        let mut counts = ffi::OrderCounts::default();
        // SAFETY: the outbox is open.
        unsafe { ffi::jumbetai_outbox_counts(self.raw.as_ptr(), &mut counts) };
        OrderCounts {
            base: counts.base,
            last: counts.last,
            orders: counts.orders,
        }
    }
}

impl Drop for Outbox {
    fn drop(&mut self) {
        // SAFETY: the outbox is open, and isn't used again.
        unsafe { ffi::jumbetai_close_outbox(self.raw.as_ptr()) }
    }
}

impl fmt::Debug for Outbox {
    fn fmt(&self, f: &mut fmt::Formatter<'_>) -> fmt::Result {
        f.debug_struct("Outbox")
            .field("counts", &self.counts())
            .finish()
    }
}

/// Pages of rows, made by [`Outbox::rows`].
pub struct RowPages<'a> {
    outbox: &'a mut Outbox,
    after: Option<u64>,
}

impl Iterator for RowPages<'_> {
    type Item = Result<Rows, Error>;

    fn next(&mut self) -> Option<Self::Item> {
        let after = self.after.take()?;
        let page = self.outbox.rows_page(after).transpose()?;
        self.after = page.as_ref().ok().map(|page| page.last);
        Some(page)
    }
}
