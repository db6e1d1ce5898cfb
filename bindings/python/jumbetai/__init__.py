"""A site of events in one's own process, over libjumbetai: a set of CloudEvents that keeps each once, its answers, its
summary, and what another site lacks of it. It wants nothing but Python 3.8 and the shared object of the library, which
the wheel brings. It is loaded when the first call needs it: from where the variable JUMBETAI_LIB of the environment
says, else from beside this file, else by its name libjumbetai.so.0 from where the system's loader looks.

    >>> north, south = Site(), Site()
    >>> north.take(b'{"specversion":"1.0","id":"1","source":"/shop","type":"sold","sequence":"00000000000000000001"}')
    Taken(fresh=1, repeated=0)
    >>> for page in north.delta(south.summary()):
    ...     south.take(page.json)
    Taken(fresh=1, repeated=0)
    >>> south.ask("kinds")
    b'["sold",1]\\n'
    >>> south.summary() == north.summary()
    True

Site(path) is over a database file: what it takes is in the file, and synced, before it is counted.
Once it is closed the file is opened by Site(path), by the program `site` and by sqlite3.

A service takes the bodies of several callers in one transaction, and answers each; a consumer keeps the number of the
last event that it has, and asks what came behind it:

    >>> south.take_each(['{"specversion":"1.0","id":"2","source":"/a","type":"t","sequence":"%020d"}' % 2, "{}"])
    [Taken(fresh=1, repeated=0), Error('the bytes spell no events')]
    >>> [(page.start, page.events) for page in south.arrivals(after=1)]
    [(1, 1)]

Outbox(path) has the orders of a service in a database file, each written with the event that tells of it in one
transaction, and hands those events on:

    >>> import tempfile
    >>> folder = tempfile.TemporaryDirectory()
    >>> with Outbox(folder.name + "/orders.db", source="/north") as orders:
    ...     event = orders.place(7, "2024-02-29T10:00:00Z")
    ...     event = orders.ship(7, "2024-02-29T11:00:00Z")
    ...     mark = 0
    ...     for page in orders.rows(after=mark):
    ...         south.take(page.json)
    ...         mark = page.last
    Taken(fresh=2, repeated=0)
    >>> mark
    2
    >>> south.ask("kinds")
    b'["order.placed",1]\\n["order.shipped",1]\\n["sold",1]\\n["t",1]\\n'
    >>> folder.cleanup()

Sites that took the same events, in whatever order and however often, give the same bytes for every answer. That is
proved of the library; this package, which calls it through C, is only tested. Threads may share a site or an outbox: a
call on it waits for the one before, while other threads of Python run.

A process that was made by os.fork has copies of what was open. Those over a file, sites and outboxes, are the parent's:
each call on one raises ValueError, and to close it leaves the file to the parent. A site in memory is a copy from then
on, but for one that another thread was using in the moment of the fork, which raises ValueError too.
"""
from __future__ import annotations

import ctypes
import enum
import os
import threading
import weakref
from types import TracebackType
from typing import Any, Iterator, NamedTuple, Optional, Sequence, Type, TypeVar, Union

from . import _c

__all__ = [
    "MAX_PARTS",
    "PAGE",
    "QUESTIONS",
    "Error",
    "Lag",
    "Numbers",
    "OrderCounts",
    "Outbox",
    "Page",
    "Rows",
    "Site",
    "Status",
    "Taken",
    "combine",
    "combine_summaries",
    "part_of",
    "split",
    "test",
    "version",
]

# The questions, each at its number less one.
QUESTIONS = ("cover", "shown", "conflicts", "latest", "kinds", "days", "gaps")
# The most events of a page.
PAGE = 100
# The most parts of a region.
MAX_PARTS = 65536

# What is taken for bytes: a text is its UTF-8.
Given = Union[str, bytes, bytearray, memoryview]
FilePath = Union[str, bytes, "os.PathLike[str]", "os.PathLike[bytes]"]
Self = TypeVar("Self", bound="_Open")


class Taken(NamedTuple):
    """How many events were new, and how many were there."""

    fresh: int
    repeated: int


class Lag(NamedTuple):
    """How many numbers of its sources a peer has that a site lacks, how many the site has that the peer lacks, and how
    many blocks of 1,024 numbers differ, or are on one side alone."""

    lacking: int
    ahead: int
    blocks: int


class Page(NamedTuple):
    """At which place of the whole list its first event stands, how many it has, and the events as a batch."""

    start: int
    events: int
    json: bytes


class Rows(NamedTuple):
    """The number of its last row, behind which the next page begins, how many rows it has, and their events as a
    batch."""

    last: int
    events: int
    json: bytes


class OrderCounts(NamedTuple):
    """The number before that of the first row, that of the last, which is the base where there is none, and how many
    orders there are, whatever became of them."""

    base: int
    last: int
    orders: int


class Status(enum.IntEnum):
    """Why a call isn't done."""

    OUT_OF_MEMORY = 1  # told as MemoryError
    NO_EVENTS = 2  # the bytes spell no event and no batch: `check` says why
    NO_NUMBER = 3  # an event has no sequence of twenty digits: `check` says which
    SUMMARY_NOT_JSON = 5
    SUMMARY_SHAPE = 6  # JSON, and no summary
    SUMMARY_VERSION = 7  # of a version that isn't known
    SUMMARY_NOT_CANONICAL = 8  # not byte for byte as a summary is written
    NO_RANDOM = 10  # the system gave no random bytes
    BUSY = 12  # somebody else has the file open, or this process by another site or outbox
    JOURNAL = 13  # SQLite left a rollback journal: open the file once with sqlite3
    NO_FILE = 14  # a folder, a device, a file that has a second name, a log that is a link
    SYSTEM = 15  # the system refuses to open, to lock, to read or to write a file
    NO_DATABASE = 16  # no database of SQLite, or one with what isn't read here
    DAMAGED = 17  # a page of the file isn't what SQLite writes
    STORE = 18  # it has tables of others; or a statement was refused, and nothing taken: a full disk
    FOREIGN = 19  # the tables aren't those that are made here, or their rows those that are left here
    OWED = 20  # all are in the file, and memory ran out: the next `take` counts the rest
    ORDER_EXISTS = 21  # the order was placed before
    NO_ORDER = 22  # the order was never placed
    WRONG_STATE = 23  # the order was shipped or cancelled before
    FULL = 24  # the last row has the number 2**63 - 1
    BAD_TIME = 25  # no moment of RFC 3339, or one of more than 64 bytes
    BAD_ORDER = 26  # an order has a number from 1 to 2**63 - 1
    BAD_SOURCE = 27  # not 1 to 1,024 bytes without control characters; or the base isn't 0 to 2**63 - 1
    ANOTHER_SOURCE = 28  # the outbox that is there has another source than was given
    HAS_SEQUENCE = 30  # an event that is to be numbered has a sequence
    TOO_LARGE = 31  # with a number its text would have more than 262,144 bytes
    BAD_PARTS = 32  # a region is in 1 to MAX_PARTS parts
    NOT_A_COVER = 33  # a text is no part's answer to cover
    NOT_AN_ANSWER = 34  # a text is no part's answer to the question, or isn't of the cover beside it
    COVER_COUNT = 35  # there are more or fewer covers than answers
    TOO_MANY = 36  # a count of the whole is above 2**64 - 1
    OVERLAP = 37  # a source stands in two parts


class Error(Exception):
    """A call that isn't done: its status, one of Status where it is known, and that in words. Of Status.STORE and
    Status.SYSTEM `errno` is the error of the system behind it, as errno.ENOSPC of a full disk; else 0, and where the
    system refused nothing: Status.STORE says then that a page isn't what was written, or that others wrote in the file,
    and opening anew tells which. Of `combine` `parts` tells which parts they are, counted from 0: the one whose text is
    none, and 0, or the two in which a source stands; of Status.COVER_COUNT how many answers and covers there are. Of
    `Numbers.number` `index` is that of the first event that isn't numbered, from 0, of Status.HAS_SEQUENCE,
    Status.TOO_LARGE and Status.FULL; else it is None."""

    parts = (0, 0)
    index: Optional[int] = None

    def __init__(self, status: int) -> None:
        super().__init__(_c.library().jumbetai_words(status).decode())
        self.status = Status(status) if status in set(Status) else status
        self.errno: int = _c.library().jumbetai_why() if status in (Status.STORE, Status.SYSTEM) else 0


def version() -> str:
    """The version of the library."""
    told: bytes = _c.library().jumbetai_version()
    return told.decode()


def test(given: Given) -> int:
    """How many events `take` would find in these bytes; where it would refuse them, the same error. No site is
    needed."""
    given, events = _bytes(given), ctypes.c_uint64()
    _judge(_c.library().jumbetai_test(given, len(given), ctypes.byref(events)))
    return events.value


def part_of(source: Given, parts: int) -> int:
    """Of so many parts of a region, 1 to MAX_PARTS, the one that a source falls to, counted from 0: the first eight
    bytes of its SHA-256 as a number, the greatest byte first, modulo the count. Every release answers the same."""
    source, part = _bytes(source), ctypes.c_uint64()
    parts = _number(parts, Status.BAD_PARTS)
    _judge(_c.library().jumbetai_part(source, len(source), parts, ctypes.byref(part)))
    return part.value


def split(given: Given, parts: int) -> "list[bytes]":
    """An event, or a batch of events, in so many parts, 1 to MAX_PARTS: of each the batch of its events, in their
    order, which `Site.take` takes, and `[]` of one that has none. What `Site.take` refuses is refused so. Nothing is
    taken.

    >>> split('{"specversion":"1.0","id":"1","source":"/a","type":"t","sequence":"%020d"}' % 1, 2)
    [b'[]', b'[{"id":"1","sequence":"00000000000000000001","source":"/a","specversion":"1.0","type":"t"}]']
    """
    given, parts = _bytes(given), _number(parts, Status.BAD_PARTS)
    with Site() as site:
        return site._text("jumbetai_split", given, len(given), parts)[0].splitlines()


def combine(question: str, answers: Sequence[Given], covers: Sequence[Given] = ()) -> bytes:
    """The answer to one of QUESTIONS over a whole region, from the answers of its parts, in any order of the parts: the
    very bytes that a site with all events answers. Beside answers to conflicts, latest, kinds, days and gaps stand the
    parts' answers to cover, one each and in the same order; of cover and shown no covers are looked at. An answer and
    its cover are of one moment: whoever asks a part that takes meanwhile asks again until two covers around the answer
    are the same. Time in proportion to the texts and the parts, times a logarithm."""
    if question not in QUESTIONS:
        raise ValueError(f"no such question: {question!r}")
    texts, beside = [_bytes(it) for it in answers], [_bytes(it) for it in covers]
    given = (_bodies(texts), len(texts), _bodies(beside), len(beside))
    return _whole("jumbetai_combine", QUESTIONS.index(question) + 1, *given)


def combine_summaries(summaries: Sequence[Given]) -> bytes:
    """The summary of a whole region, from those of its parts, in any order of the parts: the very bytes that a site
    with all events tells. Time as of `combine`."""
    texts = [_bytes(it) for it in summaries]
    return _whole("jumbetai_combine_summaries", _bodies(texts), len(texts))


def _whole(call: str, *given: Any) -> bytes:
    """What a call makes of the texts of parts; its refusal tells of which parts."""
    parts = _c.Parts()
    with Site() as site:
        try:
            return site._text(call, *given, ctypes.byref(parts))[0]
        except Error as fault:
            fault.parts = (parts.first, parts.second)
            raise


class _Open:
    """What is opened and closed: one call at a time."""

    def __init__(self, close: str, is_over_file: bool) -> None:
        # C writes the handle here, so that it has an owner whenever an interrupt comes.
        self._raw = ctypes.c_void_p()
        self._closes, self._is_over_file, self._process = close, is_over_file, os.getpid()
        self._lock, self._is_torn = threading.Lock(), False
        _all.add(self)

    def close(self) -> None:
        """Gives its memory back, and its file. No other call is possible then."""
        # What isn't this process's is looked at before the lock, which nobody may be left to give back.
        if self._fault():
            self._raw.value = None
            return
        with self._lock:
            raw, self._raw.value = self._raw.value, None
            if raw:
                getattr(_c.library(), self._closes)(raw)

    def __enter__(self: Self) -> Self:
        return self

    def __exit__(
        self, kind: Optional[Type[BaseException]], why: Optional[BaseException], at: Optional[TracebackType]
    ) -> None:
        self.close()

    def __del__(self) -> None:
        if getattr(self, "_raw", None):
            self.close()

    def __bool__(self) -> bool:
        return True

    def _fault(self) -> Optional[str]:
        """Why this process may not use it."""
        # What two processes wrote to one file by their copies would garble it.
        if self._is_over_file and self._process != os.getpid():
            return "is over a file, and another process's"
        return "was in use as this process was forked" if self._is_torn else None

    def _come_to_child(self) -> None:
        self._lock, self._is_torn = threading.Lock(), self._is_torn or self._lock.locked()

    def _call(self, name: str, *arguments: Any) -> int:
        fault = self._fault()
        if fault:
            raise ValueError(f"the {type(self).__name__.lower()} {fault}")
        with self._lock:
            if not self._raw:
                raise ValueError(f"the {type(self).__name__.lower()} is closed")
            answer: int = getattr(_c.library(), name)(self._raw, *arguments)
            return answer

    def _text(self, name: str, *arguments: Any) -> "tuple[bytes, int]":
        text = _c.Text()
        try:
            _judge(self._call(name, *arguments, ctypes.byref(text)))
            return _c.bytes_at(text.bytes, text.length).raw, text.events
        finally:
            _c.library().jumbetai_free(ctypes.byref(text))


# All that is open, of which a forked process is told.
_all: "weakref.WeakSet[_Open]" = weakref.WeakSet()


def _come_to_child() -> None:
    for it in list(_all):
        it._come_to_child()


os.register_at_fork(after_in_child=_come_to_child)


class Site(_Open):
    """A site in memory, without events; or, by a path, one over a database file, which is made where
    there is none. It is closed by `close`, by `with`, or when nothing refers to it.

    What a site over a file takes is kept in the file and synced before it is counted: once `take` is
    done, neither a crash of the process nor one of the machine takes it back. No other call writes.
    Until the site is closed, whoever else opens the file finds it busy (Status.BUSY), in this process
    too. Then the program `site`, sqlite3 and Site(path) open it. A process that ends without closing
    it, or is killed, leaves a log beside it (`-wal`), which belongs to it and is read by all of these.
    A process made by os.fork can't use a site over a file: it raises ValueError there.

    The module sqlite3 may have the file open in the same process. Each finds it busy while the other
    uses it, and Status.BUSY takes none of sqlite3's locks away: a descriptor of the file stays open for
    the next opening. As a site is closed, or an opening refused otherwise, the system drops what locks
    another thread takes on the file by sqlite3 in that moment: none is to.

    Of the file at most `cache_mib` MiB are kept in memory, 0 for as many as it has and 16 more, at
    most 256; beside the events, which all are. To open takes time in proportion to the events."""

    def __init__(self, path: Optional[FilePath] = None, cache_mib: int = 0) -> None:
        super().__init__("jumbetai_close", path is not None)
        if path is None:
            self._raw.value = _c.library().jumbetai_open()
        else:
            _open(self._raw, "jumbetai_open_file", path, cache_mib)
        if not self._raw:
            raise MemoryError("jumbetai")

    def __len__(self) -> int:
        """How many events the site has, each counted once. A site without events is true all the same."""
        return self._call("jumbetai_count")

    def take(self, given: Given) -> Taken:
        """Takes an event, or a batch of events, in the JSON format of CloudEvents 1.0.2, as bytes or as a text, of at
        most 33,554,432 bytes. Where they are at fault nothing is taken. At want of memory (MemoryError) the first of
        them may have been taken: the same may be given again. Over a file all of them are kept, in one transaction, or
        none."""
        given, counts = _bytes(given), _c.Counts()
        _judge(self._call("jumbetai_take", given, len(given), ctypes.byref(counts)))
        return Taken(counts.fresh, counts.repeated)

    def take_each(self, bodies: Sequence[Given]) -> "list[Union[Taken, Exception]]":
        """Takes the bodies of several callers in their order, each as `take` does, and answers each: a Taken, or why it
        wasn't taken, an Error or MemoryError. A body at fault is refused alone. `fresh` counts what wasn't there before
        that body. Over a file the others are kept in one transaction: where that isn't done, none of them is, and each
        of their answers is why (Status.OWED where they are kept); a crash leaves all or none. In memory they are taken
        one by one, up to one that memory is refused to."""
        texts = [_bytes(body) for body in bodies]
        given = _bodies(texts)
        answers = (_c.Answer * len(texts))()
        status = self._call("jumbetai_take_each", given, len(texts), answers)
        if status == _BAD_ARGUMENT:
            _judge(status)
        return [_answer(answer) for answer in answers]

    def check(self, given: Given) -> bytes:
        """What is wrong with what `take` refuses: a line of JSON for each event at fault, as `site check -` prints
        it."""
        given = _bytes(given)
        return self._text("jumbetai_check", given, len(given))[0]

    def keep_views(self) -> None:
        """Keeps views of the events from now on: kinds, days and latest then take the time that the answer takes, in
        place of a pass over all events, and each event that comes takes a little more. No answer changes."""
        _judge(self._call("jumbetai_keep_views"))

    def ask(self, question: str) -> bytes:
        """The answer to one of QUESTIONS, in the lines that the program `site` prints."""
        if question not in QUESTIONS:
            raise ValueError(f"no such question: {question!r}")
        return self._text("jumbetai_ask", QUESTIONS.index(question) + 1)[0]

    def get(self, source: Given, id: Given) -> "list[bytes]":
        """The events that have a source and an id, as the texts that `ask("shown")` prints: none, the one, or those of
        a conflict, in the order of `ask("conflicts")`. The first is the one that is shown. Time with the logarithm of
        the events, and that of the texts."""
        given, other = _bytes(source), _bytes(id)
        return self._text("jumbetai_get", given, len(given), other, len(other))[0].splitlines()

    def summary(self) -> bytes:
        """The summary, by which another site finds what this one lacks: `delta` there."""
        return self._text("jumbetai_summary")[0]

    def delta(self, summary: Given, start: int = 0) -> Iterator[Page]:
        """What a peer lacks by its summary, from a place on, a Page at a time. Where events come to the site between
        two pages, some may be passed over: the peer has all when nothing comes by its new summary. ValueError of a
        place below 0."""
        summary = _bytes(summary)
        return self._pages(_place(start), "jumbetai_delta", summary, len(summary))

    def delta_part(self, summary: Given, start: int = 0, events: int = 0, size: int = 0) -> Optional[Page]:
        """The part of that from a place on: at most so many events, PAGE where it is 0, and 2,000 where it is more.
        Where `size` isn't 0, it ends with the 100 events with which their texts have so many bytes. None where nothing
        is lacking there. ValueError of a number below 0."""
        given = _bytes(summary)
        numbers = [min(_place(it), _MOST) for it in (start, events, size)]
        json, count = self._text("jumbetai_delta_part", given, len(given), *numbers)
        return Page(start, count, json) if count else None

    def arrivals(self, after: int = 0) -> Iterator[Page]:
        """The events that came after the first `after`, in the order in which they came, a Page at a time. Its `start`
        is how many came before it. The same number is the same event for ever, over a file when it is opened again too:
        who has taken a page keeps its `start` and `events` together. ValueError of a number below 0."""
        return self._pages(_place(after), "jumbetai_arrivals")

    def copy(self) -> "Site":
        """A site in memory that has the same events, come in the same order, for a reader beside the writer. It keeps
        no views. Time and memory in proportion to the events."""
        site = Site.__new__(Site)
        _Open.__init__(site, "jumbetai_close", False)
        _judge(self._call("jumbetai_copy", ctypes.byref(site._raw)))
        return site

    def cover(self) -> bytes:
        """The summary of version 1, without digests, as `ask("cover")` answers it: which numbers each source has."""
        return self._text("jumbetai_cover")[0]

    def name(self) -> bytes:
        """The name of the set of events: the SHA-256 of the text of `summary`, without its line end. Two sites of one
        name have the same events, or two texts have one SHA-256."""
        name = ctypes.create_string_buffer(32)
        _judge(self._call("jumbetai_name", name))
        return name.raw

    def compare(self, summary: Given) -> Lag:
        """How far the site and a peer are apart, by the peer's summary. One of version 1 tells of no blocks, which are
        0 then."""
        given, lag = _bytes(summary), _c.Lag()
        _judge(self._call("jumbetai_compare", given, len(given), ctypes.byref(lag)))
        return Lag(lag.lacking, lag.ahead, lag.blocks)

    def release(self) -> None:
        """Gives back what the site keeps of its last answer, at most 64 KiB."""
        self._call("jumbetai_release")

    def pages(self, start: int = 0) -> Iterator[Page]:
        """The events in key order, from a place on, a Page at a time. ValueError of a place below 0."""
        return self._pages(_place(start), "jumbetai_page")

    def _pages(self, start: int, name: str, *arguments: Any) -> Iterator[Page]:
        while start <= _MOST:
            json, events = self._text(name, *arguments, start)
            if not events:
                return
            yield Page(start, events, json)
            start += events


class Outbox(_Open):
    """The outbox of a database file, which is made where there is none: the orders of a service, and a row for whatever
    was done with one. It is closed by `close`, by `with`, or when nothing refers to it.

    Each row is an event of the source, as the program `site` prints it. `source` is a text of 1 to 1,024 bytes, or None
    for that of the outbox that is there, and "/orders" for a new one; one that is there has to have the source that is
    given (Status.ANOTHER_SOURCE). Rows are numbered without a gap, those of a new outbox from `base` + 1 on.

    An order is placed, and then shipped or cancelled. The order and its row are written in one transaction and synced:
    once a call is done no crash takes them back. Where it isn't, the outbox has what it had; a crash after Status.STORE
    or want of memory (MemoryError) may leave both all the same.

    Until the outbox is closed the file is busy for everybody else, as that of a site is, and `cache_mib` is what it is
    there; the events of a site may lie in the same file. A process made by os.fork can't use the outbox: it raises
    ValueError there. To open takes time and memory in proportion to the rows, which are all tested."""

    def __init__(self, path: FilePath, source: Optional[Given] = None, base: int = 0, cache_mib: int = 0) -> None:
        super().__init__("jumbetai_close_outbox", True)
        named = None if source is None else _text_of(source, Status.BAD_SOURCE)
        base = _number(base, Status.BAD_SOURCE)
        _open(self._raw, "jumbetai_open_outbox", path, named, base, cache_mib)

    def place(self, order: int, time: Given) -> bytes:
        """Places an order of this number, 1 to 2**63 - 1, at this moment, as "2024-02-29T10:00:00Z". Answers the line
        of its event, with its line end."""
        return self._order(1, order, time)

    def ship(self, order: int, time: Given) -> bytes:
        """Ships an order that was placed."""
        return self._order(2, order, time)

    def cancel(self, order: int, time: Given) -> bytes:
        """Cancels an order that was placed."""
        return self._order(3, order, time)

    def rows(self, after: int = 0) -> Iterator[Rows]:
        """The rows with a number above this one, a page of Rows at a time. Who hands them on keeps the number of the
        last one that was taken; from any number before, rows come again, which a site only counts as repeated."""
        while True:
            json, events = self._text("jumbetai_rows", min(max(after, 0), _MOST))
            if not events:
                return
            after = max(after, self.counts().base) + events
            yield Rows(after, events, json)

    def counts(self) -> OrderCounts:
        """How many rows and orders there are, as OrderCounts."""
        counts = _c.OrderCounts()
        self._call("jumbetai_outbox_counts", ctypes.byref(counts))
        return OrderCounts(counts.base, counts.last, counts.orders)

    def _order(self, action: int, order: int, time: Given) -> bytes:
        order, time = _number(order, Status.BAD_ORDER), _text_of(time, Status.BAD_TIME)
        return self._text("jumbetai_order", action, order, time)[0]


class Numbers(_Open):
    """A numberer over a database file: it gives events that have no `sequence` their numbers. It is closed by `close`,
    by `with`, or when nothing refers to it.

    It is the one home of the sources that it numbers, each of which begins behind `base`; one that is there has to have
    been given the same (Status.FOREIGN). A text that was numbered has its number for ever; another one has its source's
    next. The file is that of a site, whose events are those that were numbered, and is made and kept busy as that is. A
    process made by os.fork can't use it: it raises ValueError there."""

    def __init__(self, path: FilePath, base: int = 0, cache_mib: int = 0) -> None:
        super().__init__("jumbetai_close_numbers", True)
        if not 0 <= base <= _MOST:
            raise ValueError(f"no such base: {base!r}")
        if not 0 <= cache_mib < 1 << 32:
            raise ValueError(f"no such cache: {cache_mib!r}")
        _judge(_c.library().jumbetai_open_numbers(_path(path), cache_mib, base, ctypes.byref(self._raw)))

    def number(self, given: Given) -> bytes:
        """The events of these bytes, one or a batch, as a batch with their numbers, in their order, which `Site.take`
        takes. They are in the file, and synced, once it is done. Status.HAS_SEQUENCE and Status.TOO_LARGE number
        nothing; after Status.FULL, Status.STORE and MemoryError it is to be opened again, and the same may be given
        again."""
        given, text = _bytes(given), _c.Text()
        try:
            _judge(self._call("jumbetai_number", given, len(given), ctypes.byref(text)))
            return _c.bytes_at(text.bytes, text.length).raw
        except Error as fault:
            if fault.status in (Status.HAS_SEQUENCE, Status.TOO_LARGE, Status.FULL):
                fault.index = text.events
            raise
        finally:
            _c.library().jumbetai_free(ctypes.byref(text))


# The largest number that a call takes.
_MOST = (1 << 64) - 1


def _number(given: int, fault: Status) -> int:
    """A number as C has it, which would cut off what doesn't fit."""
    if not 0 <= given <= _MOST:
        raise Error(fault)
    return given


def _place(given: int) -> int:
    """A place of a list, which C would count from the end of all numbers where it is below 0."""
    if given < 0:
        raise ValueError(f"no such place: {given!r}")
    return given


def _text_of(given: Given, fault: Status) -> bytes:
    """A text as C has it, which would end at a zero byte."""
    text = _bytes(given)
    if b"\0" in text:
        raise Error(fault)
    return text


def _path(path: FilePath) -> bytes:
    """A path as C has it, which would end at a zero byte."""
    file = os.fsencode(path)
    if b"\0" in file:
        raise ValueError("embedded null byte")
    return file


def _open(raw: ctypes.c_void_p, name: str, path: FilePath, *more: Any) -> None:
    """Opens a file; the handle is in `raw` as soon as it is done."""
    file = _path(path)
    if not 0 <= more[-1] < 1 << 32:
        raise ValueError(f"no such cache: {more[-1]!r}")
    _judge(getattr(_c.library(), name)(file, *more, ctypes.byref(raw)))


def _bytes(given: Given) -> bytes:
    if isinstance(given, str):
        return given.encode()
    return given if isinstance(given, bytes) else bytes(memoryview(given))


def _bodies(texts: Sequence[bytes]) -> "ctypes.Array[_c.Body]":
    """Texts as C has them, which have to live as long."""
    return (_c.Body * len(texts))(*(_c.Body(text, len(text)) for text in texts))


# A null pointer, or a length that no bytes have.
_BAD_ARGUMENT = 9


def _fault(status: int) -> Exception:
    return MemoryError("jumbetai") if status == 1 else Error(status)


def _answer(answer: _c.Answer) -> Union[Taken, Exception]:
    """What came of one body of several."""
    return _fault(answer.status) if answer.status else Taken(answer.counts.fresh, answer.counts.repeated)


def _judge(status: int) -> None:
    if status:
        raise _fault(status)
