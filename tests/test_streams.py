"""The program over an input whose first, second, .. read fails, that gives a byte at a time, or that never ends, and over streams
whose first, second, .. write fails, that take a few bytes at a time, or that take none.

A read that fails: one line on standard error, nothing on standard output, and every file as it was; of `follow` the lines that
were read whole before are kept and acknowledged, and no other. A write that fails: status 1, just the pieces that were written
before on that stream, and nothing on the other; what the command keeps is kept, since it is kept before it is told. However
small the pieces are, the answer is that of a run whose streams are whole. An input without an end is too large. The C compiler
`cc` builds what stands before the C library's `read` and `write`.
"""
import contextlib
import os
import shutil
import subprocess
from typing import Iterator, NamedTuple

import pytest
from events import AT, E1, E2, E3, acknowledgement, batch, event, lines
from shell import TOP, Room, Said, Stage

pytestmark = pytest.mark.alone

EVENTS = [E1, E2, E3]
# The length of each of their lines.
LINE = len(E1) + 1
FILES = {
    "two.json": batch(E1, E2),
    "three.json": batch(*EVENTS),
    "many.json": batch(*(event(f"a{it}", it, "t.a", subject="x") for it in range(1, 251))),
    "faulty.json": batch(E1, event("a2", "2", "t.b", subject="x"), "3"),
    "bad.json": "3",
    "lines": lines(*EVENTS),
    "one.summary": '{"sources":{"/orders":[[1,1]]},"version":1}',
    "one.cover": '{"sources":{"/orders":[[1,1]]},"version":1}\n',
    "one.kinds": '["t.a",1]\n',
}
# Databases, among them a service with two pages of rows.
MADE = (
    "site take --db s.db three.json",
    "site take --db m.db many.json",
    f"for it in $(seq 101); do site order --db o.db --at {AT} place $it || exit; done",
)
# How what a database has is told.
TOLD = (
    *((it, f"site scrub --db {it} --all") for it in ("s.db", "m.db", "n.db")),
    ("n.db", "site check --db n.db"),
    ("o.db", "site relay --db o.db --after 0 --all"),
)
# Lines that are typed, and the file that each reads, by its name or as standard input.
READS = {
    "site cover two.json": "two.json",
    "site cover - <two.json": "two.json",
    "site shown three.json two.json": "two.json",
    "site gaps two.json --db s.db": "two.json",
    "site check faulty.json": "faulty.json",
    "site check --db s.db faulty.json": "faulty.json",
    "site cover --lines lines": "lines",
    "site take --db n.db --lines lines": "lines",
    "site take --db n.db two.json": "two.json",
    "site take --db s.db two.json": "two.json",
    "site delta --db s.db one.summary": "one.summary",
    "site delta --db s.db --all - <one.summary": "one.summary",
    "site run --db s.db two.json three.json": "two.json",
    "site run --db s.db --peer three.json two.json": "three.json",
    "site part --of 2 two.json": "two.json",
    "site part --of 1 --part 0 - <two.json": "two.json",
    "site part --of 1 --into p two.json": "two.json",
    "site combine cover one.cover": "one.cover",
    "site combine --cover one.cover kinds one.kinds": "one.cover",
    "site combine --cover one.cover kinds - <one.kinds": "one.kinds",
}
FOLLOWS = {"site follow --db n.db lines": "lines", "site follow --db n.db <lines": "-"}


class Write(NamedTuple):
    """A line that is typed, the stream that it writes to, and whether it writes each line by itself."""

    typed: str
    output: int = 1
    is_by_line: bool = False


WRITES = (
    Write("site cover two.json"),
    Write("site kinds two.json --db s.db"),
    Write("site check faulty.json"),
    Write("site check --db s.db"),
    Write("site check --db o.db faulty.json"),
    Write("site check --db faulty.json"),
    Write("site take --db n.db two.json"),
    Write("site summary --db s.db"),
    Write("site delta --db s.db one.summary"),
    Write("site scrub --db m.db --all", is_by_line=True),
    Write("site delta --db m.db --all one.summary", is_by_line=True),
    Write("site arrivals --db s.db --after 1"),
    Write("site arrivals --db m.db --after 0 --all", is_by_line=True),
    Write("site service --db o.db"),
    Write("site service --db n.db --source /west --base 5"),
    Write(f"site order --db o.db --at {AT} ship 7"),
    Write("site relay --db o.db --after 0"),
    Write("site relay --db o.db --after 0 --all"),
    Write("site run --db n.db two.json"),
    Write("site part --of 2 two.json"),
    Write("site part --of 1 --part 0 two.json"),
    Write("site part --of 2 --into p two.json"),
    Write("site combine --cover one.cover kinds one.kinds"),
    Write("site combine kinds one.kinds", 2),
    Write("site --help"),
    Write("site --version"),
    Write("site cover bad.json", 2),
    Write(f"site order --db o.db --at {AT} place 7", 2),
    Write("site covers", 2),
)


class Bench:
    """Folders as each line finds them, and what stands before `read` and `write`."""

    def __init__(self, stage: Stage) -> None:
        self.stage, self.start = stage, stage.room()
        self.shim = self.start.folder + ".so"
        subprocess.run(["cc", "-O1", "-shared", "-fPIC", "-o", self.shim, f"{TOP}/tests/streams.c", "-ldl"], check=True)
        self.start.put(FILES)
        for it in MADE:
            assert self.start.run(it).status == 0

    @contextlib.contextmanager
    def room(self) -> Iterator[Room]:
        room = self.stage.room()
        shutil.copytree(self.start.folder, room.folder, dirs_exist_ok=True)
        yield room
        shutil.rmtree(room.folder)

    def run(self, room: Room, typed: str, **streams: str) -> Said:
        """Types a line whose streams are as told: the input by its name, the output by its descriptor, and of each how many bytes
        a call moves at most (0: all), which call fails (0: none), and whether it has no end, or takes nothing."""
        told = " ".join(f"STREAM_{name}={value}" for name, value in streams.items())
        return room.run(f"LD_PRELOAD={self.shim} {told} {typed}")

    def whole(self, typed: str) -> Said:
        """What comes of a line whose streams are whole."""
        with self.room() as room:
            return room.run(typed)


@pytest.fixture(scope="module")
def bench(stage: Stage) -> Bench:
    return Bench(stage)


def reads(typed: str) -> int:
    """How many reads of a hundred bytes an input takes; the last one finds the end."""
    return -(-len(FILES[READS[typed]]) // 100) + 1


def read(bench: Bench, typed: str, **streams: str) -> tuple[Said, bool]:
    """What comes of a line whose input is as told, and whether each file is as it was."""
    with bench.room() as room:
        before = room.contents()
        return bench.run(room, typed, INPUT=READS[typed], **streams), room.contents() == before


def refusal(typed: str, why: str) -> Said:
    name = READS[typed]
    return Said(1, "", f"site: {name if name in typed.split() else '-'}: {why}\n")


# Inputs.


@pytest.mark.parametrize("step", [pytest.param(1, id="a byte a read"), pytest.param(100, id="100 bytes a read")])
@pytest.mark.parametrize("typed", READS)
def test_input_in_pieces(typed: str, step: int, bench: Bench) -> None:
    assert read(bench, typed, IN=f"{step},0,0")[0] == bench.whole(typed)


@pytest.mark.parametrize(
    ("typed", "fails"),
    [pytest.param(typed, it, id=f"{typed}, read {it} of {reads(typed)}") for typed in READS for it in range(1, reads(typed) + 1)],
)
def test_read_that_fails(typed: str, fails: int, bench: Bench) -> None:
    assert read(bench, typed, IN=f"100,{fails},0") == (refusal(typed, "cannot read"), True)


@pytest.mark.parametrize("typed", READS)
def test_read_behind_the_end_that_would_fail(typed: str, bench: Bench) -> None:
    assert read(bench, typed, IN=f"100,{reads(typed) + 1},0")[0] == bench.whole(typed)


@pytest.mark.parametrize("typed", READS)
def test_input_without_an_end(typed: str, bench: Bench) -> None:
    assert read(bench, typed, IN="1,0,1") == (refusal(typed, "too large"), True)


# Lines, one a read.
ACKS = [acknowledgement(it, 1, 0) for it in (1, 2, 3)]


def follow(bench: Bench, typed: str, **streams: str) -> tuple[Said, list[str]]:
    """What comes of lines whose streams are as told, and the texts of the events that the database then has, by their numbers."""
    with bench.room() as room:
        said = bench.run(room, typed, INPUT="lines", **streams)
        return said, room.run("site shown --db n.db").out.splitlines() if os.path.exists(room.at("n.db")) else []


@pytest.mark.parametrize("step", [1, LINE, 1000])
@pytest.mark.parametrize("typed", FOLLOWS)
def test_lines_in_pieces(typed: str, step: int, bench: Bench) -> None:
    assert follow(bench, typed, IN=f"{step},0,0") == (Said(0, "".join(ACKS)), EVENTS)


@pytest.mark.parametrize("fails", [1, 2, 3, 4])
@pytest.mark.parametrize("typed", FOLLOWS)
def test_read_of_lines_that_fails(typed: str, fails: int, bench: Bench) -> None:
    refused = Said(1, "".join(ACKS[: fails - 1]), f"site: {FOLLOWS[typed]}: cannot read\n")
    assert follow(bench, typed, IN=f"{LINE},{fails},0") == (refused, EVENTS[: fails - 1])


@pytest.mark.parametrize("fails", [1, 2, 3])
@pytest.mark.parametrize("typed", FOLLOWS)
def test_write_of_an_acknowledgement_that_fails(typed: str, fails: int, bench: Bench) -> None:
    """A line is kept before it is acknowledged."""
    said, events = follow(bench, typed, IN=f"{LINE},0,0", OUTPUT="1", OUT=f"0,{fails},0")
    assert (said, events) == (Said(1, "".join(ACKS[: fails - 1])), EVENTS[:fails])


# Outputs.
Left = tuple[list[Said], dict[str, bytes]]


def left(room: Room, typed: str) -> Left:
    """What the database of a line tells of itself, since two with the same rows may differ in their bytes, and the bytes of all
    other files but logs."""
    words, bases = typed.split(), dict(TOLD)
    told = [room.run(it) for name, it in TOLD if name in words and os.path.exists(room.at(name))]
    return told, {name: it for name, it in room.contents().items() if not (name in words and name in bases) and not name.endswith("-wal")}


def write(bench: Bench, row: Write, out: str) -> tuple[Said, Left]:
    """What comes of a line whose output is as told, and what it leaves."""
    with bench.room() as room:
        return bench.run(room, row.typed, OUTPUT=str(row.output), OUT=out), left(room, row.typed)


def cut(text: str, step: int) -> list[str]:
    return [text[at : at + step] for at in range(0, len(text), step)]


def written(row: Write, status: int, text: str) -> Said:
    return Said(status, text) if row.output == 1 else Said(status, "", text)


each_write = pytest.mark.parametrize("row", [pytest.param(it, id=it.typed) for it in WRITES])


@pytest.fixture(scope="module")
def wholes(bench: Bench) -> dict[Write, tuple[Said, Left]]:
    """What comes of each line whose output is whole, and what it leaves."""
    found = {}
    for it in WRITES:
        with bench.room() as room:
            found[it] = room.run(it.typed), left(room, it.typed)
    return found


@pytest.mark.parametrize("is_cut", [pytest.param(False, id="whole"), pytest.param(True, id="in seven pieces")])
@each_write
def test_writes_of_which_one_fails(row: Write, is_cut: bool, bench: Bench, wholes: dict[Write, tuple[Said, Left]]) -> None:
    """Each of them in turn, and one behind the last, which isn't made."""
    said, leaves = wholes[row]
    text = said[row.output]
    assert isinstance(text, str) and said == written(row, said.status, text)
    units = text.splitlines(keepends=True) if row.is_by_line else [text]
    step = -(-len(text) // 7) * is_cut
    pieces = [part for it in units for part in cut(it, step or len(it))]
    for fails in range(1, len(pieces) + 2):
        wanted = written(row, 1, "".join(pieces[: fails - 1])) if fails <= len(pieces) else said
        assert write(bench, row, f"{step},{fails},0") == (wanted, leaves), f"write {fails} of {len(pieces)}"


@each_write
def test_output_that_takes_nothing(row: Write, bench: Bench, wholes: dict[Write, tuple[Said, Left]]) -> None:
    assert write(bench, row, "0,0,1") == (Said(1), wholes[row][1])
