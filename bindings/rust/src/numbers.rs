//! Numbers for events that have none.

use crate::{fitting, path_text, text_or_index, version, Error};
use jumbetai_sys as ffi;
use std::fmt;
use std::path::Path;
use std::ptr::{null_mut, NonNull};

/// A numberer over a database file: it gives events that have no `sequence` their numbers.
///
/// It is the one home of the sources that it numbers. A text that was numbered has its number for
/// ever, over restarts too; another one has its source's next. The file is that of a
/// [`Site`](crate::Site), whose events are those that were numbered.
///
/// It may go to another thread; one thread at a time uses it. Until it is dropped the file is busy
/// for whoever else opens it, as that of a site is. A process that was forked while it is open must
/// neither use nor drop it.
pub struct Numbers {
    raw: NonNull<ffi::Numbers>,
    refused_at: Option<u64>,
}

// SAFETY: a numberer has nothing in common with another one, and it is a law of the library that it
// may change thread (`numberers_may_go`). What C keeps beside it, copies of its files' descriptors,
// belongs to no thread.
unsafe impl Send for Numbers {}

impl Numbers {
    /// The numberer of a file, which is made where there is none. Each source begins behind the base,
    /// which is given again at each opening, else it is [`Error::Foreign`]. Of the file so many MiB
    /// are kept in memory, as by [`Site::open_with_cache`](crate::Site::open_with_cache). Time in
    /// proportion to the events; memory, beside that cache and some bytes for each page of the file,
    /// for the last number of each source, and 1 to 17 MiB; while the file is tested, some 420 bytes
    /// an event too.
    pub fn open(path: impl AsRef<Path>, mib: u32, base: u64) -> Result<Numbers, Error> {
        fitting(version())?;
        let path = path_text(path.as_ref())?;
        let mut raw = null_mut();
        // SAFETY: the path ends with a zero byte, and is lent for the call.
        match unsafe { ffi::jumbetai_open_numbers(path.as_ptr(), mib, base, &mut raw) } {
            0 => NonNull::new(raw)
                .map(|raw| Numbers {
                    raw,
                    refused_at: None,
                })
                .ok_or(Error::OutOfMemory),
            status => Err(Error::of(status)),
        }
    }

    /// The events that the bytes spell, one or a batch, as a batch with their numbers, in their
    /// order, which [`Site::take`](crate::Site::take) takes. They are in the file, and synced, once
    /// it is done.
    ///
    /// [`Error::HasSequence`] and [`Error::TooLarge`] number nothing. After [`Error::Full`],
    /// [`Error::Store`] and [`Error::OutOfMemory`] it is to be opened again, and the same bytes may
    /// be given again.
    pub fn number(&mut self, bytes: &[u8]) -> Result<String, Error> {
        let raw = self.raw.as_ptr();
        // SAFETY: the numberer is open, and the bytes are lent for the call.
        let answer = text_or_index(|text| unsafe {
            ffi::jumbetai_number(raw, bytes.as_ptr().cast(), bytes.len(), text)
        });
        self.refused_at = match answer {
            Err((Error::HasSequence | Error::TooLarge | Error::Full, index)) => Some(index),
            _ => None,
        };
        match answer {
            Ok((json, _events)) => Ok(json),
            Err((error, _)) => Err(error),
        }
    }

    /// The index of the first event at fault, from 0, where the last call of [`Numbers::number`] was
    /// [`Error::HasSequence`], [`Error::TooLarge`] or [`Error::Full`].
    pub fn refused_at(&self) -> Option<u64> {
        self.refused_at
    }
}

impl Drop for Numbers {
    fn drop(&mut self) {
        // SAFETY: the numberer is open, and isn't used again.
        unsafe { ffi::jumbetai_close_numbers(self.raw.as_ptr()) }
    }
}

impl fmt::Debug for Numbers {
    fn fmt(&self, f: &mut fmt::Formatter<'_>) -> fmt::Result {
        f.debug_struct("Numbers").finish_non_exhaustive()
    }
}
