"""Commands over databases in several processes at once: what was said to be done is in the file, once, and what was refused left
nothing in it.

A file has one process at a time; to each other one it is `Store`, as to one that asks while another program of SQLite has it.
The way out is to try again, or `flock` of util-linux.
"""
import contextlib
import json
import os
import random
import shutil
import signal
import sqlite3
import subprocess
import time
from concurrent.futures import ThreadPoolExecutor
from typing import Callable, Iterable, NamedTuple

import pytest
from events import AT, batch, event, lines, order_event, page
from old_files import while_held
from shell import Room, Row, Said, Stage, answers, rows, text_of

pytestmark = pytest.mark.alone

# Seconds that a process, and that all tries of one line, may take.
PATIENCE = 15
# The same orders and moments each time.
CHANCE = random.Random(25)


def three(name: str) -> list[str]:
    """Three events of a source of this name."""
    return [event(f"{name}-{it}", it, source=f"/{name}") for it in (1, 2, 3)]


# Twenty files, each of a source of its own; and many events, whose source is behind the others in key order.
FILES = {f"t{it}.json": batch(*three(f"s{it}")) for it in range(20)}
MANY = [event(f"z-{it}", it, source="/z") for it in range(1, 10_001)]
TAKEN, AGAIN = Said(0, "read 3 new 3 repeated 0\n"), Said(0, "read 3 new 0 repeated 3\n")
MANY_TAKEN = Said(0, "read 10000 new 10000 repeated 0\n")


def busy(file: str) -> Said:
    return Said(1, "", f"site: {file}: Store\n")


def place(file: str, order: int) -> str:
    return f"site order --db {file} --at {AT} place {order}"


def exists(order: int) -> Said:
    return Said(1, "", f"site: order {order}: OrderExists\n")


def run(room: Room, typed: str) -> Said:
    return room.run(typed, PATIENCE)


def begin(room: Room, typed: str, **how: int) -> "subprocess.Popen[bytes]":
    """Starts a line, and answers once it is about to be run."""
    ran = room.start(f"echo; {typed}", **how)
    assert ran.stdout and ran.stdout.read(1) == b"\n"
    return ran


def end(ran: "subprocess.Popen[bytes]") -> Said:
    try:
        out, err = ran.communicate(timeout=PATIENCE)
    except subprocess.TimeoutExpired:
        ran.kill()
        raise
    return Said(ran.returncode, text_of(out), text_of(err))


def run_at_once(room: Room, typed: Iterable[str]) -> list[Said]:
    """What comes of lines that begin at one moment."""
    waits, opens = os.pipe()
    each = [begin(room, f"read -r; exec {it} </dev/null", stdin=waits) for it in typed]
    os.close(waits)
    os.close(opens)
    return [end(it) for it in each]


def insist(room: Room, typed: str, refusal: Said) -> Said:
    """The first answer that isn't this refusal."""
    until = time.monotonic() + PATIENCE
    while (said := run(room, typed)) == refusal and time.monotonic() < until:
        time.sleep(CHANCE.uniform(0.005, 0.05))
    return said


def side_by_side(count: int, act: Callable[[str], Said], typed: Iterable[str]) -> list[Said]:
    """What comes of lines in so many threads, in their order."""
    with ThreadPoolExecutor(count) as pool:
        return list(pool.map(act, typed))


def every(room: Room, typed: str) -> list[str]:
    """The texts of all events that a command prints page by page, each behind those before it."""
    found: list[str] = []
    while True:
        status, out, err = run(room, f"{typed} {len(found)}")
        assert (status, err) == (0, "")
        events = [json.dumps(it, separators=(",", ":"), ensure_ascii=False) for it in json.loads(out)]
        assert out == page(*events)
        if not events:
            return found
        found += events


def events_in(room: Room, file: str) -> list[str]:
    return every(room, f"site scrub --db {file} --from")


def rows_in(room: Room, file: str) -> list[str]:
    return every(room, f"site relay --db {file} --after")


def make_room(stage: Stage) -> Room:
    """A folder with the files."""
    room = stage.room()
    room.put(FILES)
    return room


def names(events: Iterable[str]) -> list[str]:
    return sorted(str(json.loads(it)["id"]) for it in events)


# Twenty takes at once into a new file, twice.


class Takes(NamedTuple):
    """What each was told, what the file then has, and what each was told again, one behind the other."""

    told: list[Said]
    events: list[str]
    again: list[Said]

    def is_done(self, at: int) -> bool:
        return self.told[at] == TAKEN


@pytest.fixture(scope="module", params=["first", "second"])
def takes(request: pytest.FixtureRequest, stage: Stage) -> Takes:
    room = make_room(stage)
    typed = [f"site take --db new.db t{it}.json" for it in range(20)]
    return Takes(run_at_once(room, typed), events_in(room, "new.db"), [run(room, it) for it in typed])


def test_each_take_is_done_or_the_file_is_busy(takes: Takes) -> None:
    assert [it for it in takes.told if it not in (TAKEN, busy("new.db"))] == []


def test_one_take_is_done(takes: Takes) -> None:
    assert TAKEN in takes.told


def test_file_has_what_was_taken_and_nothing_else(takes: Takes) -> None:
    assert names(takes.events) == sorted(f"s{at}-{it}" for at in range(20) if takes.is_done(at) for it in (1, 2, 3))


def test_other_takes_are_done_then(takes: Takes) -> None:
    assert takes.again == [AGAIN if takes.is_done(at) else TAKEN for at in range(20)]


# Orders, each by processes of its own until it is placed; by a lock, each tried once; and beside takes.


class Orders(NamedTuple):
    """Orders, what each was told, the rows that then are there, and what takes beside them were told and left."""

    orders: list[int]
    told: list[Said]
    rows: list[str]
    takes: list[Said]
    events: list[str]


def many_orders() -> list[int]:
    return CHANCE.sample(range(100, 1000), 50)


def orders_tried_again(room: Room) -> Orders:
    """Fifty orders, twelve at a time."""
    orders = many_orders()
    told = side_by_side(12, lambda it: insist(room, it, busy("o.db")), [place("o.db", it) for it in orders])
    return Orders(orders, told, rows_in(room, "o.db"), [], [])


def orders_by_flock(room: Room) -> Orders:
    """The same, one behind the other by a lock."""
    if not shutil.which("flock"):
        pytest.skip("there is no flock here")
    orders = many_orders()
    told = side_by_side(12, lambda it: run(room, it), [f"flock orders.lock {place('o.db', it)}" for it in orders])
    return Orders(orders, told, rows_in(room, "o.db"), [], [])


def orders_beside_takes(room: Room) -> Orders:
    """Ten orders and ten takes into one new file, ten at a time, each until it is done."""
    typed = [it for at in range(10) for it in (f"site take --db o.db t{at}.json", place("o.db", at + 1))]
    told = side_by_side(10, lambda it: insist(room, it, busy("o.db")), typed)
    return Orders([*range(1, 11)], told[1::2], rows_in(room, "o.db"), told[0::2], events_in(room, "o.db"))


WAYS: dict[str, Callable[[Room], Orders]] = {"tried again": orders_tried_again, "by flock": orders_by_flock, "beside takes": orders_beside_takes}


@pytest.fixture(scope="module", params=WAYS)
def placed(request: pytest.FixtureRequest, stage: Stage) -> Orders:
    return WAYS[request.param](make_room(stage))


def test_each_order_is_placed(placed: Orders) -> None:
    assert [it for it in placed.told if it.status or it.err] == []


def test_numbers_from_1_on_each_once(placed: Orders) -> None:
    assert sorted(int(json.loads(it.out)["sequence"]) for it in placed.told) == [*range(1, len(placed.orders) + 1)]


def test_each_answer_is_the_row_of_its_order(placed: Orders) -> None:
    numbers = [int(json.loads(it.out)["sequence"]) for it in placed.told]
    assert [it.out for it in placed.told] == [lines(order_event(number, order, "placed")) for number, order in zip(numbers, placed.orders)]


def test_outbox_has_just_these_rows(placed: Orders) -> None:
    assert lines(*placed.rows) == "".join(sorted(it.out for it in placed.told))


@pytest.mark.parametrize("placed", ["beside takes"], indirect=True)
def test_each_take_is_done_beside_orders(placed: Orders) -> None:
    assert placed.takes == [TAKEN] * 10


@pytest.mark.parametrize("placed", ["beside takes"], indirect=True)
def test_file_has_all_that_was_taken_beside_orders(placed: Orders) -> None:
    assert names(placed.events) == sorted(f"s{at}-{it}" for at in range(10) for it in (1, 2, 3))


# The same order by twenty processes, each until the file isn't busy.


@pytest.fixture(scope="module")
def same(stage: Stage) -> tuple[list[Said], list[str]]:
    """What each was told, and the rows that then are there."""
    room = make_room(stage)
    return side_by_side(20, lambda it: insist(room, it, busy("one.db")), [place("one.db", 7)] * 20), rows_in(room, "one.db")


def test_one_is_told_the_row_of_the_same_order(same: tuple[list[Said], list[str]]) -> None:
    assert [it for it in same[0] if it.status == 0] == [Said(0, lines(order_event(1, 7, "placed")))]


def test_others_are_told_that_the_same_order_is_there(same: tuple[list[Said], list[str]]) -> None:
    assert same[0].count(exists(7)) == 19


def test_one_row_of_the_same_order(same: tuple[list[Said], list[str]]) -> None:
    assert same[1] == [order_event(1, 7, "placed")]


# Readers beside a take of many events.


class Reading(NamedTuple):
    """What readers were told before, beside and behind the take, each of the events behind the third one and of the last of all;
    what the writer was told; and all that was there before, and is there then."""

    room: Room
    before: tuple[Said, Said]
    beside: list[tuple[Said, Said]]
    behind: tuple[Said, Said]
    writer: Said
    was: Said
    now: Said

    def odd(self, at: int) -> list[Said]:
        """What a reader was told that is neither what was before, nor what is then, nor that the file is busy."""
        return [it[at] for it in self.beside if it[at] not in (self.before[at], self.behind[at], busy("read.db"))]


def read(room: Room) -> tuple[Said, Said]:
    return run(room, "site scrub --db read.db --from 3"), run(room, "site scrub --db read.db --from 10002")


@pytest.fixture(scope="module")
def reading(stage: Stage) -> Reading:
    room = make_room(stage)
    room.put({"many.json": batch(*MANY)})
    assert run(room, "site take --db read.db t0.json") == TAKEN
    was, before, beside, until = run(room, "site scrub --db read.db"), read(room), [], time.monotonic() + PATIENCE
    # A reader that has the file when the writer comes is in its way, as a writer would be.
    with begin(room, f"exec site take --db read.db --wait {PATIENCE} many.json") as ran:
        while ran.poll() is None and time.monotonic() < until:
            beside.append(read(room))
            time.sleep(0.005)
        writer = end(ran)
    return Reading(room, before, beside, read(room), writer, was, run(room, "site scrub --db read.db"))


def test_take_beside_readers_that_waits_is_done(reading: Reading) -> None:
    assert reading.writer == MANY_TAKEN


def test_readers_see_all_of_before_or_all(reading: Reading) -> None:
    assert reading.before[0] == Said(0, "[]\n")
    assert reading.odd(0) == []


def test_readers_see_so_at_the_end_too(reading: Reading) -> None:
    assert reading.before[1] == Said(0, "[]\n")
    assert reading.odd(1) == []


def test_what_was_there_still_is(reading: Reading) -> None:
    assert reading.was == Said(0, page(*three("s0")))
    assert reading.now.out.startswith(reading.was.out[:-2])


def test_all_events_are_there_once_they_are_taken_again(reading: Reading) -> None:
    assert run(reading.room, "site take --db read.db many.json").status == 0
    # The last in key order.
    assert read(reading.room)[1] == Said(0, page(MANY[9998]))


# Orders by many processes, some of which are killed.


class Killed(NamedTuple):
    """What each order was told before or when it was killed, and the rows then; what each was told again, and the rows then."""

    told: list[Said]
    rows: list[str]
    again: list[Said]
    rows_again: list[str]

    def is_there(self, order: int) -> bool:
        return str(order) in orders_of(self.rows)


ORDERS = [*range(1, 31)]


def orders_of(each: list[str]) -> list[str]:
    return [str(json.loads(it)["subject"]) for it in each]


@pytest.fixture(scope="module")
def killed(stage: Stage) -> Killed:
    room = make_room(stage)
    room.run("site service --db killed.db")

    def once(typed: str) -> Said:
        """Places an order, or is killed while it waits for the file, or has it."""
        with begin(room, f"exec {typed} --wait {PATIENCE}") as ran:
            time.sleep(CHANCE.uniform(0, 0.4))
            ran.kill()
            return end(ran)

    typed = [place("killed.db", it) for it in ORDERS]
    told, left = side_by_side(6, once, typed), rows_in(room, "killed.db")
    again = side_by_side(6, lambda it: insist(room, it, busy("killed.db")), typed)
    return Killed(told, left, again, rows_in(room, "killed.db"))


def test_killed_processes_tell_nothing_else(killed: Killed) -> None:
    assert [it for it in killed.told if it.status not in (0, -signal.SIGKILL)] == []


def test_what_killed_processes_told_is_there(killed: Killed) -> None:
    assert [it.out for it in killed.told if it.out.endswith("\n") and it.out[:-1] not in killed.rows] == []


def test_rows_from_1_on_behind_killed_processes(killed: Killed) -> None:
    assert [int(json.loads(it)["sequence"]) for it in killed.rows] == [*range(1, len(killed.rows) + 1)]


def test_each_order_at_most_once_behind_killed_processes(killed: Killed) -> None:
    assert len({*orders_of(killed.rows)}) == len(killed.rows)


def test_other_orders_are_placed_then_and_only_they(killed: Killed) -> None:
    odd = [(it, said) for it, said in zip(ORDERS, killed.again) if (said == exists(it), said.status == 0) != (killed.is_there(it), not killed.is_there(it))]
    assert odd == []


def test_rows_of_before_stay(killed: Killed) -> None:
    assert killed.rows_again[: len(killed.rows)] == killed.rows


def test_thirty_rows_of_thirty_orders(killed: Killed) -> None:
    assert sorted(map(int, orders_of(killed.rows_again))) == ORDERS


def held(what: str, typed: str) -> Row:
    """A row of a line that is typed while another program has begun to write."""
    return Row(what, while_held("held.db", lambda room: room.run(typed, PATIENCE), "BEGIN IMMEDIATE"), err=busy("held.db").err, status=1)


# A file that another program of SQLite has: it is busy, and then as ever.
test_file_of_another_program = rows(
    FILES,
    "site take --db held.db t0.json",
    held("a take", "site take --db held.db t1.json"),
    held("a scrub", "site scrub --db held.db"),
    held("an order", place("held.db", 1)),
    answers("nothing came in between", "site scrub --db held.db", page(*three("s0"))),
    answers("a take, once it is given free", "site take --db held.db t1.json", TAKEN.out),
)


def freed(what: str, typed: str, out: str, refused: bool = False) -> Row:
    """A row of a line that begins while another program writes to the file, which that lets go of half a second later."""

    def act(room: Room) -> Said:
        with contextlib.closing(sqlite3.connect(room.at("freed.db"), isolation_level=None)) as base:
            base.execute("BEGIN IMMEDIATE")
            with begin(room, f"exec {typed}") as ran:
                time.sleep(0.5)
                base.close()
                return end(ran)

    return Row(what, act, out, busy("freed.db").err if refused else "", int(refused))


RAN = 'read 3 refused 0 held 6\n{"sources":{"/s0":[[1,3]],"/s1":[[1,3]]},"version":1}\n'

# `run` has its way to wait apart from the other commands.
test_file_that_is_given_free = rows(
    FILES,
    "site take --db freed.db t0.json",
    freed("a run that doesn't wait", "site run --db freed.db t1.json", "", refused=True),
    freed("a run that waits", f"site run --db freed.db --wait {PATIENCE} t1.json", RAN),
    freed("a take that waits", f"site take --db freed.db --wait {PATIENCE} t1.json", AGAIN.out),
)
