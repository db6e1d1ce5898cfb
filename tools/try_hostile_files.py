#!/usr/bin/env python3
"""Reads and writes database files that were damaged or made up, with the built program: it ends by itself, says
one line or an answer, and leaves a file that it refuses as it was.

    tools/try_hostile_files.py [--flips N] [--masks N] [--only WORD] [--flips-alone] [--jobs N] [--seconds N]
                               [--seed N] [--folder FOLDER] [PROGRAM]

Three files: one as the program leaves it, the same in pages of 512 bytes, and one of those with inner pages, texts
that run over several pages, and free pages. Each byte is flipped in turn, by N masks (1 by default) where it is used;
pages are dropped, repeated, emptied, exchanged and laid over others; each file is cut at each 512 bytes; and logs of
other states lie beside it. `--flips N` tries some N bytes of each file instead of all, `--only WORD` those files alone
that have the word in their name, `--flips-alone` no other damage.

Each damaged file is asked for its events and its orders' rows, and then takes an event more (where a byte is flipped
that nothing uses, each sixteenth does); and SQLite of Python is asked what it says of the same file (`PRAGMA
integrity_check`) and which rows it reads. A file has no sums, so some damage can't be told: then the answer is of
other rows, which the tables count by where the byte stands; anywhere but in an order's time and the source of the
orders that is wrong. Each process has a folder of its own in FOLDER, by default /dev/shm where it is there. By hand,
not in the gate.
"""

import argparse
import collections
import itertools
import json
import multiprocessing
import os
import random
import resource
import signal
import sqlite3
import subprocess
import sys
import tempfile
import time
from typing import Any, Callable, Iterable, Iterator, Optional

HERE = os.path.dirname(os.path.dirname(os.path.realpath(__file__)))
# What is done to the bytes of a file: its name and more; and the files beside it, by their endings.
Damage = tuple[Any, ...]
Beside = dict[str, bytes]
# The kind of a damage, where it strikes, what it does, and the files beside.
Case = tuple[str, str, Damage, Beside]
# How many files of a name came to what.
Counts = dict[str, "collections.Counter[str]"]
# A status, or that it hangs, and what was written to both streams.
Answer = tuple[Any, bytes, bytes]
AT = "2024-02-29T10:00:00Z"
PATIENCE = 20
# The words that a refusal may name.
REFUSALS = [f"site: x.db: {it}\n".encode() for it in ("Store", "Foreign")]
# What is said beside an answer where a file of no bytes gets a service.
MADE = b"site: x.db: a service /orders was made in it\n"
QUESTIONS = (["scrub", "--db", "x.db"], ["relay", "--db", "x.db", "--after", "0"])
MASKS = (1, 2, 4, 8, 16, 32, 64, 128, 255)
# The columns that nothing repeats: a flip in them may leave other rows.
UNTOLD = ("outbox.at", "service.source")
KINDS = {1: "order.placed", 2: "order.shipped", 3: "order.cancelled"}
# The fields of a file's header, by the place where each begins.
HEADER = {
    0: "magic",
    16: "page size",
    18: "write version",
    19: "read version",
    20: "reserved space",
    21: "fractions",
    24: "change counter",
    28: "count of pages",
    32: "first free page",
    36: "count of free pages",
    40: "schema cookie",
    44: "schema format",
    48: "cache size",
    52: "vacuum",
    56: "encoding",
    60: "user version",
    64: "vacuum",
    68: "application id",
    72: "for later",
    92: "change counter of the version",
    96: "version of SQLite",
}
COLUMNS = {
    "schema": ("type", "name", "tbl_name", "rootpage", "sql"),
    "inbox2": ("place", "source", "id", "number", "body", "block"),
    "sqlite_autoindex_inbox2_1": ("source", "id", "body", "place"),
    "service": ("one", "source", "base"),
    "orders": ("number", "state"),
    "outbox": ("number", "kind", "order_number", "at"),
}


def event(number: int, more: str = "") -> dict[str, str]:
    return {
        "id": f"a{number}",
        "sequence": f"{number:020}",
        "source": "/orders",
        "specversion": "1.0",
        "subject": "somebody" + more,
        "type": "t.a",
    }


def read(name: str) -> Optional[bytes]:
    try:
        with open(name, "rb") as file:
            return file.read()
    except FileNotFoundError:
        return None


def there(name: str) -> bytes:
    data = read(name)
    assert data is not None
    return data


def write(name: str, data: bytes) -> None:
    with open(name, "wb") as file:
        file.write(data)


class TooLong(Exception):
    pass


def rung(*_: object) -> None:
    raise TooLong


def run(program: str, words: list[str]) -> Answer:
    """The status and both streams of a run in this folder; a status below 0 is a signal."""
    to = os.O_WRONLY | os.O_CREAT | os.O_TRUNC
    streams = [
        (os.POSIX_SPAWN_OPEN, 0, "/dev/null", os.O_RDONLY, 0),
        (os.POSIX_SPAWN_OPEN, 1, "out", to, 0o600),
        (os.POSIX_SPAWN_OPEN, 2, "err", to, 0o600),
    ]
    child = os.posix_spawn(program, [program, *words], os.environ, file_actions=streams)
    signal.setitimer(signal.ITIMER_REAL, PATIENCE)
    try:
        _, status = os.waitpid(child, 0)
    except TooLong:
        os.kill(child, signal.SIGKILL)
        os.waitpid(child, 0)
        return "hangs", b"", b""
    finally:
        signal.setitimer(signal.ITIMER_REAL, 0)
    return os.waitstatus_to_exitcode(status), read("out") or b"", read("err") or b""


def is_refusal(status: object, out: bytes, err: bytes) -> bool:
    return status == 1 and out == b"" and err in REFUSALS


def made(program: str, folder: str, count: int, first: int = 1, more: Callable[[int], str] = lambda number: "") -> bytes:
    """Puts so many events and orders into a file, by the program; its bytes."""
    name = f"{folder}/x.db"
    with open(f"{folder}/e.json", "w", encoding="utf-8") as file:
        json.dump([event(n, more(n)) for n in range(first, count + 1)], file)
    commands = [["take", "--db", name, f"{folder}/e.json"]]
    for order in range(first, count + 1):
        commands += [["order", "--db", name, "--at", AT, it, str(order)] for it in ("place", "ship")]
    how: dict[str, Any] = {"stdin": subprocess.DEVNULL, "capture_output": True, "timeout": PATIENCE}
    for words in commands:
        subprocess.run([program, *words], check=True, **how)
    return there(name)


def after(data: bytes, folder: str, *statements: str) -> bytes:
    """A database behind statements that SQLite carries out."""
    name = f"{folder}/x.db"
    write(name, data)
    base = sqlite3.connect(name, isolation_level=None)
    for statement in statements:
        base.execute(statement)
    base.close()
    return there(name)


def in_small_pages(data: bytes, folder: str) -> bytes:
    """The same database in pages of 512 bytes, as SQLite writes it."""
    return after(data, folder, "PRAGMA journal_mode = delete", "PRAGMA page_size = 512", "VACUUM", "PRAGMA journal_mode = wal")


def with_free_pages(data: bytes, folder: str) -> bytes:
    """The same database with pages that a table left free."""
    return after(data, folder, "CREATE TABLE spare (a)", "INSERT INTO spare VALUES (zeroblob(2000))", "DROP TABLE spare")


def states(program: str, folder: str) -> dict[str, tuple[bytes, bytes, bytes]]:
    """Each file that is damaged, by its name: its bytes, and those of states before and after it."""
    found = {}
    several = []
    for count in (1, 2, 3):
        os.mkdir(f"{folder}/{count}")
        several.append(made(program, f"{folder}/{count}", count))
    older, data, newer = several
    found["as the program leaves it"] = data, older, newer
    older, data, newer = [in_small_pages(it, folder) for it in several]
    found["in pages of 512 bytes"] = data, older, newer
    os.mkdir(f"{folder}/deep")
    write(f"{folder}/deep/x.db", data)
    long = made(program, f"{folder}/deep", 9, 3, lambda number: "x" * 700 if number % 3 == 0 else "")
    found["with inner, long and free pages"] = with_free_pages(long, folder), data, long
    return found


# Where a byte stands.


def page_size(data: bytes) -> int:
    size = int.from_bytes(data[16:18], "big")
    return 65536 if size == 1 else size


def whole(data: bytes, at: int) -> tuple[int, int]:
    """A whole number of one to nine bytes at a place, and the place behind it."""
    value = 0
    for i in range(9):
        byte = data[at + i]
        if i == 8:
            return value << 8 | byte, at + 9
        value = value << 7 | byte & 127
        if byte < 128:
            return value, at + i + 1
    raise AssertionError


def width(serial: int) -> int:
    """How many bytes a value of this serial type takes."""
    return (serial - 12) // 2 if serial >= 12 else (0, 1, 2, 3, 4, 6, 8, 8, 0, 0)[serial]


class Places:
    """What each byte of a sound file is for."""

    def __init__(self, data: bytes) -> None:
        self.data, self.size = data, page_size(data)
        self.names = ["unused"] * len(data)
        self.pages = ["free page"] * (len(data) // self.size)
        with tempfile.TemporaryDirectory() as folder:
            write(f"{folder}/x.db", data)
            base = sqlite3.connect(f"{folder}/x.db")
            roots = base.execute("SELECT name, rootpage FROM sqlite_schema").fetchall()
            base.close()
        for name, root in [("schema", 1), *roots]:
            self.tree(name, root)
        for i, name in enumerate(self.pages):
            if name == "free page":
                self.names[i * self.size : (i + 1) * self.size] = [name] * self.size
        for at in range(100):
            self.names[at] = "header: " + HEADER[max(it for it in HEADER if it <= at)]

    def mark(self, start: int, end: int, name: str) -> None:
        self.names[start:end] = [name] * (end - start)

    def number(self, at: int, count: int) -> int:
        return int.from_bytes(self.data[at : at + count], "big")

    def tree(self, name: str, page: int) -> None:
        base = (page - 1) * self.size
        at = base + (100 if page == 1 else 0)
        kind, cells = self.data[at], self.number(at + 3, 2)
        inner = kind in (2, 5)
        self.pages[page - 1] = name
        behind = at + (12 if inner else 8)
        self.mark(at, behind, f"{name}: page's header")
        self.mark(behind, behind + 2 * cells, f"{name}: places of cells")
        block = self.number(at + 1, 2)
        while block:
            self.mark(base + block, base + block + 4, f"{name}: free block")
            block = self.number(base + block, 2)
        children = [self.number(at + 8, 4)] if inner else []
        for i in range(cells):
            cell = base + self.number(behind + 2 * i, 2)
            start = cell
            if inner:
                children.append(self.number(cell, 4))
                cell += 4
            if kind == 5:
                _, cell = whole(self.data, cell)
                self.mark(start, cell, f"{name}: child and key")
                continue
            length, cell = whole(self.data, cell)
            if kind == 13:
                _, cell = whole(self.data, cell)
            self.mark(start, cell, f"{name}: child, length or row's number")
            self.record(name, self.payload(name, cell, length, kind == 13))
        for child in children:
            self.tree(name, child)

    def payload(self, name: str, at: int, length: int, is_table: bool) -> list[int]:
        """The places of the bytes of a record, which may run over several pages."""
        usable = self.size - self.data[20]
        most = usable - 35 if is_table else (usable - 12) * 64 // 255 - 23
        least = (usable - 12) * 32 // 255 - 23
        here = length
        if length > most:
            here = least + (length - least) % (usable - 4)
            here = here if here <= most else least
        places = list(range(at, at + here))
        link = at + here
        while len(places) < length:
            page = self.number(link, 4)
            self.mark(link, link + 4, f"{name}: link to the next page")
            self.pages[page - 1] = name
            link = (page - 1) * self.size
            places += range(link + 4, link + 4 + min(usable - 4, length - len(places)))
        if link != at + here:
            self.mark(link, link + 4, f"{name}: link to the next page")
        return places

    def record(self, name: str, places: list[int]) -> None:
        text = bytes(self.data[it] for it in places)
        end, at = whole(text, 0)
        serials = []
        while at < end:
            serial, at = whole(text, at)
            serials.append(serial)
        for it in places[:end]:
            self.names[it] = f"{name}: types of a row"
        for column, serial in zip(COLUMNS[name], serials, strict=True):
            for it in places[end : end + width(serial)]:
                self.names[it] = f"{name}.{column}"
            end += width(serial)


# The damage. A case is its kind, where it strikes, what it does to the bytes, and the files beside.


def flips(places: Places, count: int, masks: int) -> list[tuple[int, int]]:
    """The bytes that are flipped, each with its mask: all of them, or some."""
    every = range(len(places.names))
    used = [it for it in every if places.names[it] not in ("unused", "free page")]
    idle = sorted(set(every) - set(used))
    if count:
        used = used if len(used) <= count * 9 // 10 else random.sample(used, count * 9 // 10)
        idle = random.sample(idle, min(len(idle), count - len(used)))
    chosen = [(it, mask) for it in used for mask in random.sample(MASKS, masks)]
    return chosen + [(it, random.choice(MASKS)) for it in idle]


def page_cases(names: list[str], some: int) -> Iterator[tuple[str, str, list[Optional[int]]]]:
    count = len(names)
    whole_file: list[Optional[int]] = list(range(count))
    for i, name in enumerate(names):
        yield "page dropped", name, whole_file[:i] + whole_file[i + 1 :]
        yield "page repeated", name, whole_file[: i + 1] + whole_file[i:]
        yield "page emptied", name, whole_file[:i] + [None] + whole_file[i + 1 :]
    pairs = list(itertools.combinations(range(count), 2))
    if some and len(pairs) > some:
        pairs = random.sample(pairs, some)
    for i, j in pairs:
        other = list(whole_file)
        other[i], other[j] = j, i
        yield "pages exchanged", f"{names[i]}, {names[j]}", other
        for a, b in ((i, j), (j, i)):
            other = list(whole_file)
            other[a] = b
            yield "page over another", f"{names[b]} over {names[a]}", other


def cases(data: bytes, older: bytes, newer: bytes, count: int, masks: int) -> Iterator[Case]:
    places = Places(data)
    for place, mask in flips(places, count, masks):
        yield "flip", places.names[place], ("flip", place, mask), {}
    for kind, where, pages in page_cases(places.pages, count):
        yield kind, where, ("pages", pages), {}
    for end in range(512, len(data), 512):
        yield "cut", "", ("cut", end), {}
    yield "cut to nothing, as a new file", "", ("cut", 0), {}
    yield "longer", "zeros", ("longer", bytes(places.size)), {}
    yield "longer", "the last page", ("longer", data[-places.size :]), {}
    for name, beside in left_over(data, older, newer):
        yield "files beside", name, ("cut", len(data)), beside


def left_over(data: bytes, older: bytes, newer: bytes) -> list[tuple[str, Beside]]:
    """Logs and journals of other states, as SQLite of Python leaves them where it is killed."""
    found: list[tuple[str, Beside]] = []
    for name, start in (("of before", older), ("of after", newer), ("of this state", data)):
        for mode in ("wal", "delete"):
            with tempfile.TemporaryDirectory() as folder:
                write(f"{folder}/x.db", start)
                base = sqlite3.connect(f"{folder}/x.db", isolation_level=None)
                base.execute(f"PRAGMA journal_mode = {mode}")
                base.execute("PRAGMA cache_size = 1")
                base.execute("BEGIN")
                base.execute("INSERT INTO orders VALUES (77, 1)")
                base.execute("INSERT INTO outbox SELECT max(number) + 1, 1, 77, ? FROM outbox", (AT,))
                if mode == "wal":
                    base.execute("COMMIT")
                else:
                    base.execute("CREATE TABLE spill (a)")
                    many = ", ".join(f"({it})" for it in range(8))
                    base.execute(f"INSERT INTO spill SELECT randomblob(3000) FROM (VALUES {many})")
                kept = {it[4:]: there(f"{folder}/{it}") for it in os.listdir(folder) if it != "x.db"}
                found.append((f"{mode} {name}", kept))
                for ending, text in kept.items():
                    found.append((f"{mode} {name}, {ending[1:]} alone", {ending: text}))
                    for end in range(512, len(text), max(512, len(text) // 16 // 512 * 512)):
                        found.append((f"{mode} {name}, {ending[1:]} cut", {**kept, ending: text[:end]}))
                    struck = random.sample(range(len(text)), min(24, len(text)))
                    for place in [*range(0, min(64, len(text)), 4), *struck]:
                        flipped = {**kept, ending: damaged(text, ("flip", place, random.choice(MASKS)))}
                        found.append((f"{mode} {name}, a byte of {ending[1:]} flipped", flipped))
                base.close()
    for ending in ("-wal", "-shm", "-journal"):
        texts = {"empty": b"", "zeros": bytes(4096), "random": random.randbytes(8192), "the file": data}
        for what, text in texts.items():
            found.append((f"{ending[1:]}, {what}", {ending: text}))
    return found


def damaged(data: bytes, damage: Damage) -> bytes:
    what, *how = damage
    if what == "flip":
        flipped = bytearray(data)
        flipped[how[0]] ^= how[1]
        return bytes(flipped)
    if what == "pages":
        size = page_size(data)
        pages = {it: data[it * size : (it + 1) * size] for it in how[0] if it is not None}
        return b"".join(pages.get(it, bytes(size)) for it in how[0])
    return data[: int(how[0])] if what == "cut" else data + bytes(how[0])


# What SQLite says of a file.


def of_sqlite(name: str) -> tuple[bool, str, list[Any]]:
    """Whether SQLite finds a file sound, what it says, and what our questions answer of the rows that it reads."""
    base = sqlite3.connect(name, isolation_level=None)
    base.text_factory = bytes
    said = b""
    rows: list[Any] = [None, None]
    try:
        said = base.execute("PRAGMA integrity_check").fetchone()[0]
        for i, ask in enumerate((events_of, rows_of)):
            try:
                rows[i] = ask(base)
            except (sqlite3.Error, TypeError, ValueError, KeyError, AttributeError):
                pass
    except (sqlite3.Error, UnicodeDecodeError) as fault:
        said = str(fault).encode()
    finally:
        base.close()
    return said == b"ok", said.decode(errors="replace"), rows


def events_of(base: sqlite3.Connection) -> Any:
    rows = base.execute("SELECT source, id, body FROM inbox2 NOT INDEXED").fetchall()
    return [json.loads(body) for _, _, body in sorted(rows)]


def rows_of(base: sqlite3.Connection) -> Any:
    ((source,),) = base.execute("SELECT source FROM service").fetchall()
    asked = "SELECT number, kind, order_number, at FROM outbox ORDER BY number"
    return [
        {
            "id": f"{number:020}",
            "sequence": f"{number:020}",
            "source": source.decode(),
            "specversion": "1.0",
            "subject": str(order),
            "time": at.decode(),
            "type": KINDS[kind],
        }
        for number, kind, order, at in base.execute(asked)
    ]


# One damaged file.


class Told:
    """What was seen of one file. `wrong` is empty where all is as it may be."""

    def __init__(self, kind: str, where: str, place: Optional[Damage] = None) -> None:
        self.kind, self.where, self.place = kind, where, place
        self.sound, self.said = False, ""
        self.wrong: list[str] = []
        self.verdicts: list[str] = []
        self.printed: list[Answer] = []
        self.columns: list[str] = []

    def verdict(self) -> str:
        """One word for both questions; other rows count, whatever the second question says."""
        worst = ("other rows", "refused", "another state")
        return next((it for it in worst if it in self.verdicts), "same")


class Trial:
    """What each process has at hand; it works in a folder of its own."""

    def __init__(self, program: str, until: float, more: bytes) -> None:
        self.program, self.until, self.more = program, until, more
        self.files: dict[str, bytes] = {}
        self.right: dict[str, list[bytes]] = {}
        self.every: list[tuple[str, Case]] = []

    def ask(self, data: bytes, words: list[str]) -> Answer:
        for it in os.listdir("."):
            os.remove(it)
        write("x.db", data)
        return run(self.program, words)

    def lay(self, data: bytes, beside: Beside) -> None:
        for it in os.listdir("."):
            os.remove(it)
        write("x.db", data)
        for ending, text in beside.items():
            write(f"x.db{ending}", text)

    def tried(self, file: str, case: Case) -> Told:
        kind, where, damage, beside = case
        told = Told(kind, where, damage[1:] if damage[0] == "flip" else None)
        data = damaged(self.files[file], damage)
        self.lay(data, beside)
        told.sound, told.said, rows = of_sqlite("x.db")
        for words, right, seen in zip(QUESTIONS, self.right[file], rows):
            self.lay(data, beside)
            self.judge(told, words, right, seen, data, beside)
        if told.verdict() == "other rows" and not (told.sound and where in UNTOLD):
            told.wrong.append(f"other rows, where SQLite says {told.said[:60]}: {told.printed}")
        if where != "unused" or damage[1] % 16 == 0:
            self.lay(data, beside)
            self.take(told, self.right[file][0], data, beside)
        return told

    def judge(self, told: Told, words: list[str], right: bytes, seen: Any, data: bytes, beside: Beside) -> None:
        status, out, err = run(self.program, words)
        told.printed.append((status, out, err))
        if read("x.db") != data and data and not beside:
            told.wrong.append(f"{words[0]} changed the file")
        if is_refusal(status, out, err):
            told.verdicts.append("refused")
        elif status == 0 and (not err or err == MADE and not data):
            self.compare(told, right, seen, out, data, beside)
        else:
            told.wrong.append(f"{words[0]}: {status} {out[:80]!r} {err[:80]!r}")

    def compare(self, told: Told, right: bytes, seen: Any, out: bytes, data: bytes, beside: Beside) -> None:
        try:
            rows = json.loads(out)
        except ValueError:
            told.wrong.append(f"no JSON: {out[:80]!r}")
            return
        if out == right:
            told.verdicts.append("same")
        elif beside and rows == seen or not data and rows == []:
            told.verdicts.append("another state")
        else:
            told.verdicts.append("other rows")
            told.columns.append(difference(json.loads(right), rows))
        if told.sound and seen is not None and rows != seen:
            told.wrong.append(f"other rows than SQLite reads: {out[:200]!r}")

    def take(self, told: Told, before: bytes, data: bytes, beside: Beside) -> None:
        """Takes an event more, and reads all: a take that is done isn't lost, whatever the file was."""
        write("more.json", self.more)
        status, out, err = run(self.program, ["take", "--db", "x.db", "more.json"])
        if is_refusal(status, out, err):
            if read("x.db") != data and not beside:
                told.wrong.append("a refused take changed the file")
            return
        if status != 0 or err:
            told.wrong.append(f"take: {status} {out[:80]!r} {err[:80]!r}")
            return
        status, out, err = run(self.program, QUESTIONS[0])
        if status != 0 or b'"id":"more"' not in out:
            told.wrong.append(f"a take was done and is lost: {status} {out[:80]!r} {err[:80]!r}")
        elif not out.startswith(before[:-2]) and "same" in told.verdicts[:1]:
            told.wrong.append(f"a take changed other rows: {out[:200]!r}")
        if told.sound and not of_sqlite("x.db")[0]:
            told.wrong.append("a take into a file that SQLite found sound left one that it doesn't")


def difference(right: list[Any], rows: list[Any]) -> str:
    """What of the rows isn't right."""
    if len(right) != len(rows):
        return f"{len(rows)} rows in place of {len(right)}"
    pairs = list(zip(right, rows))
    return " ".join(sorted({key for a, b in pairs for key in {**a, **b} if a.get(key) != b.get(key)}))


TRIAL: Optional[Trial] = None


def begin(folder: str) -> None:
    signal.signal(signal.SIGALRM, rung)
    os.chdir(tempfile.mkdtemp(dir=folder))


def one(number: int) -> tuple[str, Optional[Told]]:
    assert TRIAL
    file, case = TRIAL.every[number]
    if time.monotonic() > TRIAL.until:
        return file, None
    return file, TRIAL.tried(file, case)


# What is printed.


def row(cells: Iterable[object]) -> str:
    return "| " + " | ".join(str(it) for it in cells) + " |"


def tables(all_told: list[Told]) -> None:
    """The counts by kind, beside what SQLite says, and by where a byte was flipped or what lies beside."""
    columns = ("same", "another state", "other rows", "refused")
    kinds: Counts = collections.defaultdict(collections.Counter)
    places: dict[str, Counts] = collections.defaultdict(lambda: collections.defaultdict(collections.Counter))
    beside: Counts = collections.defaultdict(collections.Counter)
    for it in all_told:
        kinds[it.kind][it.verdict()] += 1
        beside["ok" if it.sound else "not ok"][it.verdict()] += 1
        if it.kind in ("flip", "files beside"):
            places[it.kind][it.where][it.verdict()] += 1
    every = [("damage", kinds), ("integrity_check", beside)]
    for head, counts in every + [(f"{kind}: where", places[kind]) for kind in sorted(places)]:
        print("\n" + row((head, "files", *columns)) + "\n" + "|---" * 6 + "|")
        for name, count in sorted(counts.items()):
            print(row((name, count.total(), *(count[it] for it in columns))))


def told_of(file: str, all_told: list[Told]) -> None:
    for it in all_told:
        if it.wrong:
            print(f"wrong: {file}: {it.kind} {it.where} {it.place or ''}: {it.wrong}"[:600])
    untold = [it for it in all_told if it.verdict() == "other rows"]
    counts = collections.Counter((it.where, ", ".join(it.columns)) for it in untold)
    for (where, columns), count in counts.most_common():
        print(f"not told: {count} in {where}: {columns}")
    strict = [it for it in all_told if it.sound and it.verdict() == "refused"]
    for (kind, where), count in collections.Counter((it.kind, it.where) for it in strict).most_common():
        print(f"sound by SQLite, and refused: {count}: {kind} {where}")
    missed = [it for it in all_told if not it.sound and it.verdict() == "same"]
    said = collections.Counter(it.said.splitlines()[0][:70] for it in missed)
    for what, count in said.most_common(12):
        print(f"unsound by SQLite, and the same answers: {count}: {what}")


def main() -> int:
    global TRIAL
    words = argparse.ArgumentParser(description=__doc__, formatter_class=argparse.RawDescriptionHelpFormatter)
    words.add_argument("program", nargs="?", default=os.path.join(HERE, "crates/site_cli/out/site_cli"))
    words.add_argument("--flips", type=int, default=0)
    words.add_argument("--masks", type=int, default=1)
    words.add_argument("--only", default="")
    words.add_argument("--flips-alone", action="store_true")
    words.add_argument("--jobs", type=int, default=4)
    words.add_argument("--seconds", type=int, default=1800)
    words.add_argument("--seed", type=int, default=25)
    words.add_argument("--folder", default="/dev/shm" if os.path.isdir("/dev/shm") else None)
    asked = words.parse_args()
    random.seed(asked.seed)
    signal.signal(signal.SIGALRM, rung)
    more = json.dumps([{**event(9), "id": "more"}]).encode()
    TRIAL = Trial(os.path.realpath(asked.program), time.monotonic() + asked.seconds, more)
    with tempfile.TemporaryDirectory(dir=asked.folder) as folder:
        for name, (data, older, newer) in states(TRIAL.program, folder).items():
            if asked.only not in name:
                continue
            os.makedirs(f"{folder}/first", exist_ok=True)
            os.chdir(f"{folder}/first")
            given = [TRIAL.ask(data, it) for it in QUESTIONS]
            assert all(it[0] == 0 for it in given) and of_sqlite("x.db")[0], given
            TRIAL.files[name], TRIAL.right[name] = data, [it[1] for it in given]
            struck = cases(data, older, newer, asked.flips, asked.masks)
            TRIAL.every += [(name, it) for it in struck if it[0] == "flip" or not asked.flips_alone]
        began = time.monotonic()
        found: dict[str, list[Told]] = {name: [] for name in TRIAL.files}
        with multiprocessing.get_context("fork").Pool(asked.jobs, begin, (folder,)) as pool:
            for name, told in pool.imap_unordered(one, range(len(TRIAL.every)), 16):
                if told:
                    found[name].append(told)
            pool.close()
            pool.join()
        took = time.monotonic() - began
        os.chdir("/")
    for name, all_told in found.items():
        data = TRIAL.files[name]
        print(f"\n{name}: {len(data)} bytes in pages of {page_size(data)}, {len(all_told)} damaged files")
        tables(all_told)
        print()
        told_of(name, all_told)
    everything = [it for all_told in found.values() for it in all_told]
    if len(found) > 1:
        print("\nall files:")
        tables(everything)
    right, count = sum(not it.wrong for it in everything), len(everything)
    used = resource.getrusage(resource.RUSAGE_CHILDREN)
    spent = used.ru_utime + used.ru_stime
    times = f"{took:.0f} s by the clock, {spent:.0f} s of processor time"
    each = f"10,000 files take {took / count * 10000:.0f} s, {spent / count * 10000:.0f} s of processor time"
    print(f"\n{len(TRIAL.every) - count} left out for time; {times}; {each}")
    print(f"{right} passed, {count - right} failed")
    return 0 if right == count else 1


if __name__ == "__main__":
    sys.exit(main())
