"""Every command of the built program with its first, second, .. allocation refused, until a run meets no refusal.

Each run has to end with the answer of the run that meets no refusal, or with status 1, `site: out of memory` and nothing on standard
output (`run` with `site: no thread` too, where a thread's start was refused; `relay` of one page with `site: route failed`, since its
route goes into memory and fails for want of that alone; `follow` and `number` with a front of their lines on standard output, and
`delta` and `scrub` of all pages with those before the refusal, which has to come behind each but the last). A command that writes is
given once more after each refused run, with memory: it then has to answer as it does the first time, or as it does when it was done
already, and its database to hold what it holds after the run that meets no refusal. So nothing that was refused was half done, and
nothing that was done is refused for good.

Tests of libraries that hold whichever allocation is refused run so too, where the gate has built them; rows of the driver are played by
tests/test_rows.py.
"""
import contextlib
import itertools
import json
import os
import shutil
import sqlite3
import subprocess
import tempfile
import threading
from typing import Any, Callable, Iterator, NamedTuple, Optional, Sequence, Union

import pytest
from harness import Counts
from refuse_allocations import Refuser
from shell import TOP

pytestmark = pytest.mark.slow

# A status, and what was written to both streams.
Said = tuple[int, bytes, bytes]
REFUSED: Said = (1, b"", b"site: out of memory\n")
# What a command may say beside it, for want of memory too.
OTHER_WORDS = {"run": (1, b"", b"site: no thread\n"), "relay": (1, b"", b"site: route failed\n")}
AT = "2024-02-29T10:00:00Z"


def event(name: str, number: int, kind: str, subject: str, **more: Any) -> dict[str, Any]:
    members = {"id": name, "sequence": f"{number:020d}", "source": "/orders", "specversion": "1.0", "subject": subject}
    return {**members, "type": kind, **more}


E1, E2, E3, E4 = (event(*it) for it in [("a1", 1, "t.a", "x"), ("a2", 2, "t.b", "x"), ("a3", 3, "t.a", "y"), ("a4", 4, "t.a", "y")])
OTHER = event("a1", 1, "t.c", "x", time=AT, data={"lines": [1, "two"]})
FILES = {
    "asked.json": [E1, E2, E4, OTHER],
    "two.json": [E1, E2],
    "three.json": [E1, E2, E3],
    "more.json": [E2, E4],
    "peer.json": [E3, E4],
    "faulty.json": [E1, {**E2, "sequence": "2"}, 3],
    "paged.json": [event(f"a{number}", number, "t", "x") for number in range(1, 102)],
}
# Lines of an event or a batch each; and such of events that carry no number.
LINES = [[E1], E2, [E2, E3]]
BARE = [[{name: text for name, text in it.items() if name != "sequence"} for it in each] for each in ([E1], [E2], [E2, E3])]
# How a command's database is made, and how what it holds is told.
HELD = ["scrub", "--db", "s.db", "--from", "0"]
ROWS = ["relay", "--db", "o.db", "--after", "0"]
THREE = [["take", "--db", "s.db", "three.json"]]
PLACED = [["order", "--db", "o.db", "--at", AT, "place", "7"]]
# A database with a gap, a conflict and a day, and two of two pages.
ASKED = [["take", "--db", "s.db", "asked.json"]]
PAGED = [["take", "--db", "s.db", "paged.json"]]
PAGED_ROWS = [["order", "--db", "o.db", "--at", AT, "place", str(number)] for number in range(1, 102)]


def foreign(room: str) -> None:
    """Makes a database whose inbox isn't one that these commands leave."""
    with contextlib.closing(sqlite3.connect(f"{room}/f.db")) as base:
        base.execute("CREATE TABLE inbox (place INTEGER PRIMARY KEY, body TEXT)")


# The covers of two parts, the first of which has a gap, a conflict and a day, beside their answers.
COVERS = ["--cover", "one.cover", "--cover", "other.cover"]

# What is refused of answers: a source that stands in two parts, a text that is no cover or no answer, covers too many, and a sum.
REFUSED_PARTS = [
    ["cover", "one.cover", "one.cover"],
    [*COVERS, "latest", "one.latest", "one.latest"],
    ["cover", "one.cover", "one.kinds"],
    [*COVERS, "kinds", "one.kinds", "other.latest"],
    [*COVERS, "gaps", "one.gaps"],
    [*COVERS, "kinds", "most.kinds", "other.kinds"],
]


def answers_of_parts(room: str) -> None:
    """Writes what two parts of a region answer."""
    north, shown, last = (event(*it, source="/north") for it in [("a1", 1, "t.a", "x"), ("a1", 1, "t.b", "x"), ("a3", 3, "t.a", "y")])
    south = {**E1, "source": "/south", "time": AT}
    texts = [json.dumps(it, separators=(",", ":"), sort_keys=True) for it in (north, {**shown, "time": AT}, last, south)]
    answers: dict[str, list[str]] = {
        "one.cover": ['{"sources":{"/north":[[1,1],[3,3]]},"version":1}'],
        "one.gaps": ['["/north",[[2,2]]]'],
        "one.shown": texts[1:3],
        "one.latest": texts[1:3],
        "one.kinds": ['["t.a",1]', '["t.b",1]'],
        "one.days": [f'["t.b","{AT[:10]}",1]'],
        "one.conflicts": [f'{{"events":[{texts[1]},{texts[0]}],"id":"a1","source":"/north"}}'],
        "other.cover": ['{"sources":{"/south":[[1,1]]},"version":1}'],
        "other.gaps": [],
        "other.shown": texts[3:],
        "other.latest": texts[3:],
        "other.kinds": ['["t.a",1]'],
        "other.days": [f'["t.a","{AT[:10]}",1]'],
        "other.conflicts": [],
        "most.kinds": ['["t.a",18446744073709551615]'],
    }
    for name, lines in answers.items():
        with open(f"{room}/{name}", "w", encoding="utf-8") as it:
            it.writelines(f"{line}\n" for line in lines)


def deep(depth: int) -> list[Any]:
    """So many arrays, each in another."""
    return [deep(depth - 1)] if depth > 1 else []


# An event of every kind of value but bytes, and members by which it is none, by their fault.
VALUES = {**E1, "dataschema": "/s", "number": -1, "flag": True, "text": "", "none": None, "time": AT, "data": {"b": [1, "two", None], "a": {}}}
ILL: dict[str, dict[str, Any]] = {
    "SpecVersion": {"specversion": 1},
    "Id": {"id": None},
    "Source": {"source": ""},
    "Kind": {"type": "\x7f"},
    "Subject": {"subject": ""},
    "Time": {"time": "2023-02-29T00:00:00Z"},
    "ContentType": {"datacontenttype": False},
    "Schema": {"dataschema": ""},
    "ExtensionName": {"Bad": "b"},
    "ExtensionValue": {"number": 2147483648},
    "TwoData": {"data_base64": "AQI="},
    "Base64": {"data": None, "data_base64": "A*I="},
    "DataNumber": {"data": {"p": [1.5]}},
    "TooDeep": {"data": deep(121)},
    "TooLarge": {"text": "x" * 262_144},
}
# Batches and texts that are read, or refused as a whole.
TEXTS: dict[str, Any] = {
    "well": [VALUES, {**VALUES, "data": None, "data_base64": "AQI="}, {**VALUES, "data": deep(120)}],
    "lone": VALUES,
    "second": [E1, 5],
    "deeper": {**VALUES, "data": deep(127)},
    "null": None,
}


def texts(room: str) -> None:
    """Writes them, and an event of each fault."""
    for name, value in {**TEXTS, **{name: {**VALUES, **it} for name, it in ILL.items()}}.items():
        with open(f"{room}/{name}.json", "w", encoding="utf-8") as it:
            json.dump(value, it, separators=(",", ":"))
    with open(f"{room}/cut.json", "w", encoding="utf-8") as it:
        it.write("[5")


# What is said of lines that are there.
ACKNOWLEDGED = b"".join(b'{"line":%d,"new":0,"repeated":%d}\n' % it for it in ((1, 1), (2, 1), (3, 2)))


# A command: its words, the commands before it, how what its database then holds is told where it writes, what it
# answers where it was done already, if that is another answer, how many pages it writes as each is made, and how many
# of its first and of its last allocations are refused, if not all: others open the same database.
class Row(NamedTuple):
    words: list[str]
    before: Sequence[Union[list[str], Callable[[str], None]]] = ()
    told: Optional[list[str]] = None
    again: Optional[bytes] = None
    pages: Optional[int] = None
    ends: Optional[tuple[int, int]] = None

    @property
    def name(self) -> str:
        of_pages, behind = ", of two pages" if self.pages else "", f", behind {len(self.before)}" if self.before else ""
        return f"{' '.join(self.words)}{of_pages}{behind}"


ROWS_OF_ALL = [
    *[Row([it, "asked.json"]) for it in ("cover", "gaps", "shown", "latest", "kinds", "days", "conflicts")],
    Row(["part", "--of", "2", "asked.json"]),
    Row(["part", "--of", "1", "--part", "0", "--lines", "lines"]),
    Row(["part", "--of", "2", "--into", "p", "asked.json"], [], ["shown", "p0.json", "p1.json"]),
    *[Row(["combine", it, f"one.{it}", f"other.{it}"], [answers_of_parts]) for it in ("cover", "shown")],
    *[Row(["combine", *COVERS, it, f"one.{it}", f"other.{it}"], [answers_of_parts]) for it in ("gaps", "latest", "kinds", "days", "conflicts")],
    *[Row(["combine", *it], [answers_of_parts]) for it in REFUSED_PARTS],
    Row(["check", "asked.json"]),
    Row(["check", "faulty.json", "asked.json"]),
    *[Row([it, "--lines", "lines"]) for it in ("cover", "shown")],
    Row(["check", "--lines", "bare", "lines"]),
    *[Row(["check", "--numbers", *it]) for it in (["--lines", "bare"], ["faulty.json"])],
    Row(["check", "cut.json", "null.json"], [texts]),
    *[Row(["cover", f"{it}.json"], [texts]) for it in (*TEXTS, *ILL, "cut")],
    Row(["check", "--db", "s.db", "faulty.json"], THREE),
    Row(["check", "--db", "o.db"], PLACED),
    Row(["check", "--db", "none.db"]),
    Row(["check", "--db", "faulty.json"]),
    Row(["check", "--db", "f.db", "faulty.json"], [foreign], ends=(50, 150)),
    *[Row([it, "--db", "s.db", "asked.json"], THREE) for it in ("latest", "conflicts")],
    *[Row([it, "--db", "s.db"], ASKED, ends=(50, 100)) for it in ("cover", "gaps", "shown", "kinds", "days")],
    Row(["take", "--db", "n.db", "three.json"], [], ["scrub", "--db", "n.db"], b"read 3 new 0 repeated 3\n"),
    Row(["take", "--db", "s.db", "more.json"], THREE, HELD, b"read 2 new 0 repeated 2\n"),
    Row(["take", "--db", "s.db", "--lines", "lines"], THREE, HELD, b"read 4 new 0 repeated 4\n"),
    Row(["follow", "--db", "n.db", "lines"], [], ["scrub", "--db", "n.db"], ACKNOWLEDGED),
    Row(["follow", "--db", "s.db", "lines"], THREE, HELD, ACKNOWLEDGED),
    Row(["number", "--db", "n.db", "bare"], [], ["scrub", "--db", "n.db"], ends=(50, 1000)),
    Row(["number", "--db", "n.db", "bare"], [["number", "--db", "n.db", "bare"]], ["scrub", "--db", "n.db"], ends=(50, 200)),
    Row(["number", "--db", "n.db", "--aside", "first", "lines"], [], ["scrub", "--db", "n.db"], ends=(50, 200)),
    Row(["summary", "--db", "s.db"], THREE),
    Row(["delta", "--db", "s.db", "asked.summary"], THREE),
    Row(["delta", "--db", "s.db", "--all", "asked.summary"], THREE),
    Row(["delta", "--db", "s.db", "--all", "nothing.summary"], PAGED, pages=2, ends=(0, 220)),
    Row(["scrub", "--db", "s.db"], THREE),
    Row(["scrub", "--db", "s.db", "--all"], THREE),
    Row(["scrub", "--db", "s.db", "--all"], PAGED, pages=2, ends=(0, 220)),
    Row(["arrivals", "--db", "s.db", "--after", "1"], THREE),
    Row(["arrivals", "--db", "s.db", "--after", "0", "--all"], PAGED, pages=2, ends=(0, 220)),
    Row(["service", "--db", "n.db", "--source", "/north", "--base", "5"], [], ["relay", "--db", "n.db", "--after", "0"]),
    Row(["service", "--db", "o.db"], PLACED, ROWS),
    Row(["order", "--db", "n.db", "--source", "/north", "--at", AT, "place", "7"], [], ["relay", "--db", "n.db", "--after", "0"]),
    Row(["order", "--db", "o.db", "--at", AT, "place", "8"], PLACED, ROWS),
    Row(["order", "--db", "o.db", "--at", AT, "ship", "7"], PLACED, ROWS),
    Row(["order", "--db", "o.db", "--at", AT, "cancel", "7"], PLACED, ROWS),
    Row(["order", "--db", "o.db", "--at", AT, "place", "7"], PLACED, ROWS),
    Row(["relay", "--db", "o.db", "--after", "0"], PLACED),
    Row(["relay", "--db", "o.db", "--after", "0", "--all"], PLACED),
    Row(["relay", "--db", "o.db", "--after", "0", "--all"], PAGED_ROWS, ends=(0, 220)),
    Row(["run", "--db", "s.db", "--peer", "peer.json", "two.json", "more.json"], THREE, HELD),
]


# Tests that have to pass whichever allocation is refused, by their crate. Rows of the driver are tried by tests/test_rows.py.
TESTS = {
    "checks": [
        "refused::a_caller_takes_a_batch_or_its_front",
        "refused::a_desk_takes_a_batch_or_its_front",
        "refused::a_refused_call_has_its_turn_and_adds_nothing",
        "threads::what_was_refused_is_not_there",
    ],
}


class Trial:
    """One command, its allocations refused in turn by several workers."""

    def __init__(self, program: str, row: Row, refuser: Refuser) -> None:
        self.program, self.row, self.refuser = program, row, refuser
        self.lock, self.met, self.refused = threading.Lock(), 0, 0
        self.end: Optional[int] = None
        self.wrong: list[str] = []
        self.behind: set[int] = set()
        self.start = tempfile.mkdtemp(prefix="refusals-")
        for name, events in FILES.items():
            with open(f"{self.start}/{name}", "w", encoding="utf-8") as it:
                json.dump(events, it, separators=(",", ":"))
        every: list[tuple[str, list[Any]]] = [("lines", LINES), ("bare", BARE)]
        for name, lines in every:
            with open(f"{self.start}/{name}", "w", encoding="utf-8") as it:
                it.writelines(json.dumps(line, separators=(",", ":")) + "\n" for line in lines)
        with open(f"{self.start}/asked.summary", "w", encoding="utf-8") as it:
            it.write('{"sources":{"/orders":[[2,2]]},"version":1}')
        with open(f"{self.start}/nothing.summary", "w", encoding="utf-8") as it:
            it.write('{"sources":{},"version":1}')
        for step in row.before:
            if callable(step):
                step(self.start)
            else:
                self.ran(step, self.start, check=True)
        with self.room() as room:
            self.whole = self.said(self.ran(row.words, room))
            self.holds = row.told and self.said(self.ran(row.told, room))
        first, last = row.ends or (0, 0)
        last_ones = itertools.count(max(first, self.count() - last if row.ends else 0) + 1)
        self.numbers = itertools.chain(range(1, first + 1), last_ones)

    def ran(self, words: Sequence[str], room: str, **more: Any) -> subprocess.CompletedProcess[bytes]:
        return subprocess.run([self.program, *words], cwd=room, capture_output=True, stdin=subprocess.DEVNULL, timeout=60, **more)

    @staticmethod
    def said(ran: subprocess.CompletedProcess[bytes]) -> Said:
        return ran.returncode, ran.stdout, ran.stderr

    def room(self) -> "tempfile.TemporaryDirectory[str]":
        """A folder of its own, as the command finds it."""
        room = tempfile.TemporaryDirectory(prefix="refusal-")
        shutil.copytree(self.start, room.name, dirs_exist_ok=True)
        return room

    def count(self) -> int:
        """How many allocations the command makes."""

        def is_met(at: int) -> bool:
            with self.room() as room:
                return self.refuser.ran([self.program, *self.row.words], at, cwd=room)[1]

        below, high = 0, 1
        while is_met(high):
            below, high = high, 2 * high
        while high - below > 1:
            middle = (below + high) // 2
            below, high = (middle, high) if is_met(middle) else (below, middle)
        return below

    def tried(self, at: int) -> Optional[list[str]]:
        """What is wrong with the run whose allocation of this number is refused, if anything; None where it met none."""
        with self.room() as room:
            ran, was_met = self.refuser.ran([self.program, *self.row.words], at, cwd=room)
            if not was_met:
                return None
            said = self.said(ran)
            if said == self.whole:
                return []
            with self.lock:
                self.refused += 1
            is_front = self.whole[1].startswith(said[1]) and said[1][-1:] in (b"", b"\n")
            count = said[1].count(b"\n")
            if is_front and (self.row.words[0] in ("follow", "number") or count < (self.row.pages or 0)):
                # What was acknowledged, or the pages before the refusal, is written, in whole lines.
                with self.lock:
                    self.behind.add(count)
                said = (said[0], b"", said[2])
            if begun := [it for it in os.listdir(room) if it.endswith(".new")]:
                return [f"allocation {at} leaves {begun}"]
            if said != REFUSED and ("--all" in self.row.words or said != OTHER_WORDS.get(self.row.words[0])):
                return [f"allocation {at}: {said}"]
            if not self.row.told:
                return []
            again = self.said(self.ran(self.row.words, room))
            if again != self.whole and again != (0, self.row.again, b""):
                return [f"allocation {at}, given again: {again}"]
            holds = self.said(self.ran(self.row.told, room))
            return [] if holds == self.holds else [f"allocation {at}, given again, then holds: {holds}"]

    def work(self) -> None:
        while True:
            with self.lock:
                at = next(self.numbers)
            if self.end is not None and at >= self.end:
                return
            wrong = self.tried(at)
            with self.lock:
                if wrong is None:
                    self.end = min(at, self.end or at)
                    return
                self.met += 1
                self.wrong += wrong

    def run(self, jobs: int) -> int:
        workers = [threading.Thread(target=self.work) for _ in range(jobs)]
        for it in workers:
            it.start()
        for it in workers:
            it.join()
        shutil.rmtree(self.start)
        if self.row.pages and self.behind != set(range(self.row.pages)):
            self.wrong.append(f"refusals came behind {sorted(self.behind)} pages alone")
        return self.met


class LibraryTrial:
    """One test, its allocations refused in turn."""

    def __init__(self, program: str, test: str, refuser: Refuser) -> None:
        self.words, self.refuser = [program, test], refuser
        self.wrong: list[str] = []

    def run(self) -> int:
        at = 1
        while True:
            ran, was_met = self.refuser.ran(self.words, at, cwd="/")
            if ran.returncode:
                self.wrong.append(f"allocation {at}: {ran.stdout[-300:]!r} {ran.stderr[-300:]!r}")
            if not was_met:
                return at - 1
            at += 1


@pytest.fixture(scope="module")
def refuser() -> Iterator[Refuser]:
    with Refuser() as refuser:
        yield refuser


@pytest.mark.parametrize("row", ROWS_OF_ALL, ids=[it.name for it in ROWS_OF_ALL])
def test_command(row: Row, program: str, refuser: Refuser, jobs: int, checks: Counts) -> None:
    trial = Trial(program, row, refuser)
    every = trial.run(jobs)
    print(f"{every} allocations, {trial.refused} refusals told")
    checks.add(every, trial.wrong)


@pytest.mark.parametrize(("crate", "test"), [pytest.param(crate, test, id=f"{crate}: {test}") for crate, tests in TESTS.items() for test in tests])
def test_of_library(crate: str, test: str, refuser: Refuser, checks: Counts) -> None:
    built = f"{TOP}/crates/{crate}/out/{crate}_tests"
    if not os.path.exists(built):
        pytest.skip(f"the tests of {crate} aren't built here")
    trial = LibraryTrial(built, test, refuser)
    checks.add(trial.run(), trial.wrong)
