#!/usr/bin/env python3
"""Looks for shapes of input that are dear: times the built program on files of odd shapes, each beside a friendly
file of about its size, and prints how much more processor time a byte of it costs.

usage: bench/shapes.py PROGRAM [--size BYTES] [--runs N] [--limit RATIO] [--only WORD] [--commands COMMAND ..]

The commands are `cover` and `shown` where none is named; `all` means every one. `take`, `run` and `follow` bring the
file into a new database, `follow` its events one a line; `summary`, `scrub` and `delta` of the empty summary read what
a `take` left, all pages at once; `combine` what `shown` printed. `relay`, `order` and `service` have shapes of their own: databases of orders that SQLite
of Python made. The exit status is 1 where a shape costs more than RATIO times its friendly file. The shapes are the same
for everybody.
"""
import argparse
import datetime
import os
import random
import resource
import shutil
import sqlite3
import subprocess
import sys
import tempfile
from typing import Any, Callable, Iterable, Iterator, Optional

NUMBER = '"sequence":"%020d"'
BASE = '"specversion":"1.0","id":"%s","source":"%s","type":"%s",' + NUMBER


def event(place: int, more: str = "", source: str = "/s", number: Optional[int] = None, key: Optional[str] = None, kind: str = "t") -> str:
    return "{" + BASE % (key or f"e{place}", source, kind, number or place + 1) + more + "}"


def batch(size: int, make: Callable[[int], str]) -> str:
    """A batch of about that size, of the events that are made of their places."""
    parts, length, place = [], 2, 0
    while length < size:
        made = make(place)
        parts.append(made)
        length += len(made.encode()) + 2
        place += 1
    return "[" + ",\n".join(parts) + "]"


def ordered(size: int, kind: str, make: Callable[[int], str]) -> str:
    """Events in an order of their places; all files of a size have the same events."""
    count = size // len(make(100_000))
    places = list(range(count))
    if kind == "descending":
        places.reverse()
    elif kind == "shuffled":
        random.Random(1).shuffle(places)
    return "[" + ",\n".join(make(place) for place in places) + "]"


def names(kind: str, count: int) -> list[str]:
    made = [f"a{place:05d}" for place in range(count)]
    if kind == "descending":
        made.reverse()
    elif kind == "shuffled":
        random.Random(1).shuffle(made)
    return made


def with_attributes(kind: str, count: int) -> Callable[[int], str]:
    more = "".join(f',"{name}":"v"' for name in names(kind, count))
    return lambda place: event(place, more)


def with_data(text: str) -> Callable[[int], str]:
    return lambda place: event(place, ',"data":' + text)


def of_one_hash(place: int) -> str:
    """A text for each place; all of them have one hash where characters are summed up by powers of 31."""
    return "".join("BB" if place >> bit & 1 else "Aa" for bit in range(20))


def of_many_hashes(place: int) -> str:
    return of_one_hash(place).replace("BB", "Bb")


def of_the_known_hash(place: int) -> str:
    """A subject for each place; all of them have one hash in a table of the kit that has no seed of its own."""
    return f"subject-00000677B2[Pp8PM{place:08d}"


def near_the_known_hash(place: int) -> str:
    return of_the_known_hash(place).replace("PM", "Pm")


def hidden(size: int) -> str:
    """Events of one subject by their numbers; then from the last one down each again, with a lesser text."""
    count = size // len(event(100_000, ',"subject":"x"')) // 2
    firsts = [event(place, ',"subject":"x"') for place in range(count)]
    return "[" + ",\n".join(firsts + [event(place, ',"subject":"w"') for place in reversed(range(count))]) + "]"


def largest(place: int) -> str:
    """An event whose canonical text has 262,144 bytes, the most that is allowed."""
    room = 262_144 - len(event(place, ',"x":""'))
    return event(place, ',"x":"' + "b" * room + '"')


def members(kind: str) -> str:
    return "{" + ",".join(f'"{name}":1' for name in names(kind, 2_000)) + "}"


def shapes(size: int) -> Iterator[tuple[str, ...]]:
    """Name of the shape, the odd file, the friendly file."""

    def by_source(place: int) -> str:
        return event(place, source=f"/s/{place:07d}", number=1)

    def by_number(place: int) -> str:
        return event(place, number=2 * place + 1, key="k")

    def by_subject(subject: Callable[[int], int]) -> Callable[[int], str]:
        return lambda place: event(place, f',"subject":"s{subject(place):07d}"')

    def by_type(kind: Callable[[int], int]) -> Callable[[int], str]:
        return lambda place: event(place, kind=f"t{kind(place):07d}")

    def by_day(day: Callable[[int], int]) -> Callable[[int], str]:
        return lambda place: event(place, f',"time":"{datetime.date.min + datetime.timedelta(days=day(place))}T12:00:00Z"')

    def its_own(place: int) -> int:
        return place

    def of_ten(place: int) -> int:
        return place % 10

    sources = ordered(size, "ascending", by_source)
    numbers = ordered(size, "ascending", by_number)
    few = batch(size, with_attributes("ascending", 20))
    plain = batch(size, lambda place: event(place, ',"x":"' + "a" * 200 + '"'))
    flat = batch(size, with_data("[" + ",".join(["1"] * 120) + "]"))
    object_ = batch(size, with_data(members("ascending")))
    yield "sources descending", ordered(size, "descending", by_source), sources
    yield "sources shuffled", ordered(size, "shuffled", by_source), sources
    yield "numbers descending", ordered(size, "descending", by_number), numbers
    yield "numbers scattered", ordered(size, "shuffled", by_number), numbers
    yield "15,000 attributes an event", batch(size, with_attributes("ascending", 15_000)), few
    yield "15,000 attributes, descending", batch(size, with_attributes("descending", 15_000)), few
    yield "15,000 attributes, shuffled", batch(size, with_attributes("shuffled", 15_000)), few
    yield "marks escaped", batch(size, lambda place: event(place, ',"x":"' + '\\"' * 100 + '"')), plain
    yield "letters escaped", batch(size, lambda place: event(place, ',"x":"' + "\\u0061" * 33 + '"')), plain
    yield "no ASCII", batch(size, lambda place: event(place, ',"x":"' + "é" * 100 + '"')), plain
    yield "long text", batch(size, lambda place: event(place, ',"x":"' + "a" * 200_000 + '"')), plain
    yield "data nested 120 deep", batch(size, with_data("[" * 120 + "]" * 120)), flat
    yield "objects nested 120 deep", batch(size, with_data('{"a":' * 120 + "1" + "}" * 120)), flat
    yield "members of data descending", batch(size, with_data(members("descending"))), object_
    yield "members of data shuffled", batch(size, with_data(members("shuffled"))), object_
    yield "one key, many texts", ordered(size, "shuffled", lambda place: event(place, key="k")), numbers
    ten_subjects, ten_types = (ordered(size, "ascending", by(of_ten)) for by in (by_subject, by_type))
    yield "one subject", ordered(size, "shuffled", by_subject(lambda place: 1)), ten_subjects
    yield "a subject of its own", ordered(size, "shuffled", by_subject(its_own)), ten_subjects
    yield "a type of its own", ordered(size, "shuffled", by_type(its_own)), ten_types
    ten_days = ordered(size, "ascending", by_day(of_ten))
    yield "a day of its own", ordered(size, "shuffled", by_day(its_own)), ten_days
    yield "keys that begin alike", batch(size, lambda place: event(place, key="k" * 180 + str(place))), plain
    yield "a name repeated", batch(size, lambda place: event(place, ',"x":1' * 30)), few
    yield "bodies of 262,144 bytes", batch(size, largest), plain

    def by_id(place: int) -> str:
        return event(place, key=f"e{place:07d}")

    def by_text(text: Callable[[int], str]) -> Callable[[int], str]:
        return lambda place: event(place, f',"subject":"{text(place)}"', key=text(place), kind=text(place))

    def by_its_text(text: Callable[[int], str]) -> Callable[[int], str]:
        return lambda place: event(place, f',"subject":"{text(place)}"')

    ids = ordered(size, "ascending", by_id)
    yield "ids descending", ordered(size, "descending", by_id), ids
    yield "ids shuffled", ordered(size, "shuffled", by_id), ids
    *others, last = ids[1:-1].split(",\n")
    yield "ids ascending, the last one first", "[" + ",\n".join([last, *others]) + "]", ids

    def by_long_id(place: int) -> str:
        return event(place, key="k" * 400 + f"{place:07d}")

    long_ids = ordered(size, "ascending", by_long_id)
    yield "long ids that begin alike, shuffled", ordered(size, "shuffled", by_long_id), long_ids
    one_number = ordered(size, "shuffled", lambda place: event(place, key=f"e{place:07d}", number=1))
    yield "ids shuffled, one number", one_number, ids
    texts = of_one_hash, of_many_hashes
    yield "one hash for all", *(ordered(size, "shuffled", by_text(it)) for it in texts)
    subjects = of_the_known_hash, near_the_known_hash
    yield "one known hash for all", *(ordered(size, "shuffled", by_its_text(it)) for it in subjects)
    yield "the latest hidden by each next", hidden(size), ten_subjects
    apart = ordered(size, "shuffled", lambda place: event(place, number=1024 * place + 1))
    yield "each number in a block of its own", apart, numbers


def refused(size: int) -> Iterator[tuple[str, ...]]:
    """Name of the shape, the odd file, which is refused, and the friendly file."""
    plain = batch(size, lambda place: event(place, ',"x":"' + "a" * 200 + '"'))
    nested = batch(size, with_data("[" * 120 + "]" * 120))
    commas = batch(size, lambda place: event(place, ',"x":"' + "," * 200 + '"'))
    yield "a bad last member", plain[:-1] + ",{}]", plain
    yield "a bad last member, nested", nested[:-1] + ",{}]", nested
    yield "no closing bracket", plain[:-1], plain
    yield "no closing bracket, nested", nested[:-1], nested
    yield "no comma but in texts", "[" + commas[1:-1].replace("},\n{", "}{") + "]", plain
    yield "one member", '[{"x":"' + "," * size + '"}]', plain
    yield "empty members", "[" + ",".join(["{}"] * (size // 3)) + "]", plain
    yield "numbers in place of members", "[" + ",".join(["1"] * (size // 2)) + "]", plain


TABLES = (
    "CREATE TABLE service (one INTEGER PRIMARY KEY CHECK (one = 1), source TEXT NOT NULL, " "base INTEGER NOT NULL CHECK (base >= 0)) STRICT",
    "CREATE TABLE orders (number INTEGER PRIMARY KEY, state INTEGER NOT NULL CHECK (state >= 1 AND state <= 3)) STRICT",
    "CREATE TABLE outbox (number INTEGER PRIMARY KEY, kind INTEGER NOT NULL CHECK (kind >= 1 AND kind <= 3), "
    "order_number INTEGER NOT NULL, at TEXT NOT NULL) STRICT",
)
AT = "2026-11-25T12:00:00Z"


def services(count: int) -> Iterator[tuple[str, Any, Any]]:
    """Name of the shape; of the odd service and the friendly one the base, and each row's kind, order and time."""

    def placed(numbers: list[int], at: str = AT) -> list[tuple[int, int, str]]:
        return [(1, number, at) for number in numbers]

    numbers = list(range(1, count + 1))
    shuffled = random.Random(1).sample(numbers, count)
    friendly = 0, placed(numbers)
    yield "orders descending", (0, placed(numbers[::-1])), friendly
    yield "orders shuffled", (0, placed(shuffled)), friendly
    yield "orders far apart", (0, placed([(1 << 62) + (it << 30) for it in shuffled])), friendly
    yield "the last numbers", ((1 << 63) - 1 - 2 * count, placed(numbers)), friendly
    yield "times of 64 bytes", (0, placed(numbers, AT[:-1] + "." + "0" * 43 + "Z")), friendly
    half = shuffled[: count // 2]
    yield "each shipped in the end", (0, placed(half) + [(2, it, AT) for it in half[::-1]]), friendly


def make_service(path: str, base: int, rows: list[tuple[int, int, str]]) -> None:
    """A database with a service of these rows."""
    forget(path)
    made = sqlite3.connect(f"{path}.db", isolation_level=None)
    for it in ("PRAGMA journal_mode = wal", "BEGIN", *TABLES):
        made.execute(it)
    made.execute("INSERT INTO service VALUES (1, '/orders', ?)", (base,))
    states = {order: kind for kind, order, _ in rows}
    made.executemany("INSERT INTO orders VALUES (?, ?)", states.items())
    numbered = [(base + 1 + i, *it) for i, it in enumerate(rows)]
    made.executemany("INSERT INTO outbox VALUES (?, ?, ?, ?)", numbered)
    made.execute("COMMIT")
    made.close()


QUESTIONS = ["cover", "shown", "gaps", "latest", "kinds", "days", "conflicts", "check"]
# Commands that bring a file into a new database, and those over what a `take` leaves.
WRITERS = ["take", "run", "follow"]
# Commands over the parts of a region, with their words before the file.
PARTS = {"part": ["--of", "4"], "combine": ["shown"]}
READERS: dict[str, list[str]] = {"summary": [], "scrub": ["--all"], "delta": ["--all", "empty.summary"]}
OF_ORDERS: dict[str, list[str]] = {
    "relay": ["--after", "0", "--all"],
    "service": [],
    "order": ["--at", AT, "place", str(1 << 61)],
}


def words(command: str, path: str) -> list[str]:
    """The words of a command about a file, or about its database."""
    if command == "follow":
        return [command, "--db", f"{path}.db", f"{path}.lines"]
    if command in WRITERS:
        return [command, "--db", f"{path}.db", path]
    if command in QUESTIONS:
        return [command, path]
    if command in PARTS:
        return [command, *PARTS[command], f"{path}.shown" if command == "combine" else path]
    return [command, "--db", f"{path}.db", *{**READERS, **OF_ORDERS}[command]]


def forget(path: str) -> None:
    """Removes the database of a file."""
    for end in (".db", ".db-wal", ".db-shm", ".db-journal"):
        if os.path.exists(path + end):
            os.remove(path + end)


def write(path: str, text: str) -> None:
    """A file as a batch, and its events one a line."""
    forget(path)
    if os.path.exists(f"{path}.shown"):
        os.remove(f"{path}.shown")
    for name, content in ((path, text), (f"{path}.lines", text[1:-1].replace(",\n", "\n"))):
        with open(name, "w", encoding="utf-8") as file:
            file.write(content)


def seconds(program: str, command: str, path: str, wanted: int = 0) -> float:
    """The processor time of one run, which has to end with that status."""
    where = os.path.dirname(path)
    how: dict[str, Any] = {"cwd": where, "stdout": subprocess.DEVNULL, "stderr": subprocess.DEVNULL}
    if command in WRITERS:
        forget(path)
    elif command in READERS and not os.path.exists(f"{path}.db"):
        subprocess.run([program, *words("take", path)], check=True, **how)
    elif command == "combine" and not os.path.exists(f"{path}.shown"):
        with open(f"{path}.shown", "wb") as answer:
            subprocess.run([program, "shown", path], check=True, cwd=where, stdout=answer, stderr=subprocess.DEVNULL)
    kept = f"{path}.kept"
    if command == "order":
        shutil.copy(f"{path}.db", kept)
    before = resource.getrusage(resource.RUSAGE_CHILDREN)
    ran = subprocess.run([program, *words(command, path)], **how)
    if ran.returncode != wanted:
        sys.exit(f"{command} ended with {ran.returncode}")
    after = resource.getrusage(resource.RUSAGE_CHILDREN)
    if command == "order":
        forget(path)
        os.rename(kept, f"{path}.db")
    elif command in WRITERS:
        forget(path)
    return after.ru_utime + after.ru_stime - before.ru_utime - before.ru_stime


class Bench:
    """The files that are compared, and how many shapes were dear."""

    def __init__(self, options: argparse.Namespace, folder: str) -> None:
        self.options, self.dear = options, 0
        self.odd, self.friendly = f"{folder}/odd.json", f"{folder}/friendly.json"

    def compare(self, name: str, command: str, scale: Any, wanted: int = 0) -> None:
        """Runs both in turn, the odd file to a status, and compares the least of each."""
        turns = [[seconds(self.options.program, command, *it) for it in ((self.odd, wanted), (self.friendly, 0))] for _ in range(self.options.runs)]
        mine, theirs = (min(it) for it in zip(*turns))
        ratio = mine / theirs / scale
        mark = " DEAR" if ratio > self.options.limit else ""
        self.dear += ratio > self.options.limit
        times = f"{mine:6.2f} s  friendly {theirs:6.2f} s  ratio a byte {ratio:5.2f}{mark}"
        print(f"{name:32} {command:9}  {times}", flush=True)

    def files(self, commands: Iterable[str], made: Any = shapes, wanted: int = 0) -> None:
        for name, text, other in made(self.options.size):
            if commands and self.options.only in name:
                write(self.odd, text)
                write(self.friendly, other)
                scale = os.path.getsize(self.odd) / os.path.getsize(self.friendly)
                for command in commands:
                    self.compare(name, command, scale, wanted)

    def orders(self, commands: Iterable[str]) -> None:
        for name, odd, friendly in services(self.options.size // 50):
            if commands and self.options.only in name:
                make_service(self.odd, *odd)
                make_service(self.friendly, *friendly)
                scale = os.path.getsize(f"{self.odd}.db") / os.path.getsize(f"{self.friendly}.db")
                for command in commands:
                    self.compare(name, command, scale)


def main() -> int:
    parser = argparse.ArgumentParser(description=__doc__, formatter_class=argparse.RawTextHelpFormatter)
    parser.add_argument("program")
    parser.add_argument("--size", type=int, default=16_000_000)
    parser.add_argument("--runs", type=int, default=3)
    parser.add_argument("--limit", type=float, default=2.0)
    parser.add_argument("--only", default="")
    parser.add_argument("--commands", nargs="+", default=["cover", "shown"])
    options = parser.parse_args()
    options.program = os.path.abspath(options.program)
    every = [*QUESTIONS, *PARTS, *WRITERS, *READERS, *OF_ORDERS]
    asked = every if "all" in options.commands else options.commands
    with tempfile.TemporaryDirectory() as folder:
        with open(f"{folder}/empty.summary", "w", encoding="utf-8") as file:
            file.write('{"sources":{},"version":1}')
        bench = Bench(options, folder)
        bench.files([it for it in asked if it not in OF_ORDERS])
        bench.files([it for it in asked if it in QUESTIONS or it == "take"], refused, 1)
        bench.orders([it for it in asked if it in OF_ORDERS])
    print(f"{bench.dear} shapes above {options.limit} times their friendly file")
    return 1 if bench.dear else 0


sys.exit(main())
