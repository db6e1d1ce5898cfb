//! The functions of `jumbetai.h`, which says what each of them does, who frees what, and which thread may call. The
//! crate `jumbetai` is safe code over them.
//!
//! `libjumbetai.a` is linked from the folder that `JUMBETAI_LIB_DIR` names while this is built, else from where the
//! linker looks.

#![no_std]
#![warn(missing_docs)]

use core::ffi::{c_char, c_int, c_void};
use core::marker::{PhantomData, PhantomPinned};

/// A site, which is used by pointer alone.
#[repr(C)]
pub struct Site {
    _private: [u8; 0],
    _is_not_shared: PhantomData<(*mut u8, PhantomPinned)>,
}

/// An outbox, which is used by pointer alone.
#[repr(C)]
pub struct Outbox {
    _private: [u8; 0],
    _is_not_shared: PhantomData<(*mut u8, PhantomPinned)>,
}

/// A numberer, which is used by pointer alone.
#[repr(C)]
pub struct Numbers {
    _private: [u8; 0],
    _is_not_shared: PhantomData<(*mut u8, PhantomPinned)>,
}

/// What came of events that were given.
#[repr(C)]
#[derive(Clone, Copy, Debug, Default)]
pub struct Counts {
    /// How many were new.
    pub fresh: u64,
    /// How many were there.
    pub repeated: u64,
}

/// Of which parts of a region a refusal tells.
#[repr(C)]
#[derive(Clone, Copy, Debug, Default)]
pub struct Parts {
    /// The part, or the first of two; or how many answers there are.
    pub first: u64,
    /// The second of two; or how many covers there are.
    pub second: u64,
}

/// The bytes of one caller.
#[repr(C)]
#[derive(Clone, Copy, Debug)]
pub struct Body {
    /// Where they lie.
    pub bytes: *const c_void,
    /// How many they are.
    pub length: usize,
}

/// What came of the bytes of one caller.
#[repr(C)]
#[derive(Clone, Copy, Debug, Default)]
pub struct Answer {
    /// Whether they were taken, or why they weren't.
    pub status: c_int,
    /// How many events were new, and how many were there.
    pub counts: Counts,
}

/// How far a site and a peer are apart.
#[repr(C)]
#[derive(Clone, Copy, Debug, Default)]
pub struct Lag {
    /// How many numbers the peer has that the site lacks.
    pub lacking: u64,
    /// How many the site has that the peer lacks.
    pub ahead: u64,
    /// How many blocks differ, or are on one side alone.
    pub blocks: u64,
}

/// A text of the caller's, which is given back by [`jumbetai_free`].
#[repr(C)]
#[derive(Debug)]
pub struct Text {
    /// Its bytes, UTF-8, with a zero byte behind the last one; null where there is no text.
    pub bytes: *mut c_char,
    /// How many they are without that zero byte.
    pub length: usize,
    /// How many events a page has, or the text of `jumbetai_get`, and 0 of other texts.
    pub events: u64,
}

/// How many rows and orders an outbox has.
#[repr(C)]
#[derive(Clone, Copy, Debug, Default)]
pub struct OrderCounts {
    /// The number before that of the first row.
    pub base: u64,
    /// The number of the last row; the base where there is none.
    pub last: u64,
    /// How many orders there are, whatever became of them.
    pub orders: u64,
}

extern "C" {
    /// A site without events; null where memory is refused.
    pub fn jumbetai_open() -> *mut Site;
    /// A site over a database file.
    pub fn jumbetai_open_file(path: *const c_char, cache_mib: u32, site: *mut *mut Site) -> c_int;
    /// Gives a site and its memory back; null is let through.
    pub fn jumbetai_close(site: *mut Site);
    /// How many events the site has.
    pub fn jumbetai_count(site: *const Site) -> u64;
    /// Takes an event, or a batch of events.
    pub fn jumbetai_take(
        site: *mut Site,
        bytes: *const c_void,
        length: usize,
        counts: *mut Counts,
    ) -> c_int;
    /// Takes the bodies of several callers, with an answer each.
    pub fn jumbetai_take_each(
        site: *mut Site,
        bodies: *const Body,
        count: usize,
        answers: *mut Answer,
    ) -> c_int;
    /// What `jumbetai_take` would say, without a site.
    pub fn jumbetai_test(bytes: *const c_void, length: usize, events: *mut u64) -> c_int;
    /// What is wrong with bytes that are refused.
    pub fn jumbetai_check(
        site: *mut Site,
        bytes: *const c_void,
        length: usize,
        text: *mut Text,
    ) -> c_int;
    /// Keeps views of the events from now on.
    pub fn jumbetai_keep_views(site: *mut Site) -> c_int;
    /// The answer to a question, 1 to 7.
    pub fn jumbetai_ask(site: *mut Site, question: c_int, text: *mut Text) -> c_int;
    /// The events of a source and an id.
    pub fn jumbetai_get(
        site: *mut Site,
        source: *const c_void,
        source_length: usize,
        id: *const c_void,
        id_length: usize,
        text: *mut Text,
    ) -> c_int;
    /// The summary.
    pub fn jumbetai_summary(site: *mut Site, text: *mut Text) -> c_int;
    /// A page of the events that a peer lacks by its summary.
    pub fn jumbetai_delta(
        site: *mut Site,
        summary: *const c_void,
        length: usize,
        from: u64,
        text: *mut Text,
    ) -> c_int;
    /// A part of the events that a peer lacks: so many events, and about so many bytes.
    pub fn jumbetai_delta_part(
        site: *mut Site,
        summary: *const c_void,
        length: usize,
        from: u64,
        events: u64,
        bytes: u64,
        text: *mut Text,
    ) -> c_int;
    /// The summary of version 1.
    pub fn jumbetai_cover(site: *mut Site, text: *mut Text) -> c_int;
    /// The name of the set of events.
    pub fn jumbetai_name(site: *mut Site, name: *mut [u8; 32]) -> c_int;
    /// How far the site and a peer are apart, by its summary.
    pub fn jumbetai_compare(
        site: *mut Site,
        summary: *const c_void,
        length: usize,
        lag: *mut Lag,
    ) -> c_int;
    /// A page of the events that came after so many.
    pub fn jumbetai_arrivals(site: *mut Site, after: u64, text: *mut Text) -> c_int;
    /// A site in memory that has the same events.
    pub fn jumbetai_copy(site: *mut Site, copy: *mut *mut Site) -> c_int;
    /// Gives back what a site keeps of its last answer; null is let through.
    pub fn jumbetai_release(site: *mut Site);
    /// A page of all events in key order.
    pub fn jumbetai_page(site: *mut Site, from: u64, text: *mut Text) -> c_int;
    /// The outbox of a database file; the source may be null.
    pub fn jumbetai_open_outbox(
        path: *const c_char,
        source: *const c_char,
        base: u64,
        cache_mib: u32,
        outbox: *mut *mut Outbox,
    ) -> c_int;
    /// Gives an outbox, its memory and its file back; null is let through.
    pub fn jumbetai_close_outbox(outbox: *mut Outbox);
    /// Places an order, by the action 1, ships it, 2, or cancels it, 3.
    pub fn jumbetai_order(
        outbox: *mut Outbox,
        action: c_int,
        order: u64,
        time: *const c_char,
        event: *mut Text,
    ) -> c_int;
    /// A page of the events of the rows with a greater number.
    pub fn jumbetai_rows(outbox: *mut Outbox, after: u64, text: *mut Text) -> c_int;
    /// How many rows and orders there are.
    pub fn jumbetai_outbox_counts(outbox: *const Outbox, counts: *mut OrderCounts);
    /// The numberer of a database file, whose sources begin behind the base.
    pub fn jumbetai_open_numbers(
        path: *const c_char,
        cache_mib: u32,
        base: u64,
        numbers: *mut *mut Numbers,
    ) -> c_int;
    /// Gives a numberer, its memory and its file back; null is let through.
    pub fn jumbetai_close_numbers(numbers: *mut Numbers);
    /// Events that have no numbers, as a batch with their numbers.
    pub fn jumbetai_number(
        numbers: *mut Numbers,
        bytes: *const c_void,
        length: usize,
        text: *mut Text,
    ) -> c_int;
    /// Of so many parts the one that a source falls to.
    pub fn jumbetai_part(source: *const c_void, length: usize, parts: u64, part: *mut u64)
        -> c_int;
    /// The events of the bytes in so many parts, a line each.
    pub fn jumbetai_split(
        site: *mut Site,
        bytes: *const c_void,
        length: usize,
        parts: u64,
        text: *mut Text,
    ) -> c_int;
    /// The answer of the whole from those of the parts, and their covers; `parts` may be null.
    pub fn jumbetai_combine(
        site: *mut Site,
        question: c_int,
        answers: *const Body,
        answer_count: usize,
        covers: *const Body,
        cover_count: usize,
        parts: *mut Parts,
        text: *mut Text,
    ) -> c_int;
    /// The summary of the whole from those of the parts; `parts` may be null.
    pub fn jumbetai_combine_summaries(
        site: *mut Site,
        summaries: *const Body,
        count: usize,
        parts: *mut Parts,
        text: *mut Text,
    ) -> c_int;
    /// Gives a text back; null and no text are let through.
    pub fn jumbetai_free(text: *mut Text);
    /// Which error of the system stands behind the last call of this thread, 0 for none.
    pub fn jumbetai_why() -> c_int;
    /// A status in words, which live as long as the program.
    pub fn jumbetai_words(status: c_int) -> *const c_char;
    /// The version of the library that is linked, which lives as long as the program.
    pub fn jumbetai_version() -> *const c_char;
}
