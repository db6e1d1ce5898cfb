"""Files of before, whose inbox has no blocks: the first command that may write to one makes the table of now in its place."""
import contextlib
import sqlite3
from typing import Iterator

from events import AT, E1, E2, E3, QUESTIONS, batch, cover, event, lines, order_event, page
from old_files import NEW_INBOX, OLD_INBOX, downgrade, copy_with, sqlite
from shell import As, Room, Row, Said, Step, answers, asks, refuses, rows

B1 = event("b1", 1024, "t.a", subject="x")
FILES = {
    "three.json": batch(E1, E2, E3),
    "two.json": batch(E2, E3),
    "high.json": batch(B1),
    "first.json": batch(E1),
    "first_two.json": batch(E1, E2),
    "second.line": lines(E2),
    "nothing.json": f"{cover(None)}\n",
}
# Files of now: with two blocks, and with one event.
HIGH = ("site take --db high.db three.json", "site take --db high.db high.json")
ONE = "site take --db one.db first.json"


def tables(what: str, *names: str) -> Row:
    return asks(what, "old.db", "SELECT name FROM sqlite_schema WHERE type = 'table' ORDER BY name", lines(*names))


def take_over(words: str) -> Iterator[Step]:
    """A page takes a file of before over."""
    yield downgrade("high.db", "old.db")
    yield answers(f"a file of before: {words}", f"site {words}", page(E1, E2, E3, B1))
    yield tables("it has the table of now", "inbox2")
    places = lines("1|a1|1|0", "2|a2|2|0", "3|a3|3|0", "4|b1|1024|1")
    yield asks("its rows have their places, and their blocks", "old.db", "SELECT place, id, number, block FROM inbox2 ORDER BY place", places)
    yield asks("as SQLite tests it", "old.db", "PRAGMA integrity_check", "ok\n")


test_pages_of_it = rows(FILES, *HIGH, *take_over("scrub --db old.db"), *take_over("delta --db old.db nothing.json"))


def read(words: str) -> Row:
    """Who only reads a file of before leaves it as it is, and answers as over a file of now."""
    word, _, rest = words.partition(" ")
    return answers(f"reading: {words}", f"site {word} --db old.db {rest}", As(f"site {word} --db high.db {rest}"), keeps="old.db")


READERS = ("summary", "scrub --all", "arrivals --after 0", "arrivals --after 0 --all", "delta --all nothing.json", *QUESTIONS)
test_who_only_reads = rows(FILES, *HIGH, downgrade("high.db", "old.db"), *map(read, READERS))

# Events that come into it.
test_events_that_come = rows(
    FILES,
    ONE,
    downgrade("one.db", "old.db"),
    answers("a stream into a file of before", "site follow --db old.db second.line", '{"line":1,"new":1,"repeated":0}\n'),
    tables("which has the table of now behind it", "inbox2"),
    downgrade("one.db", "old.db"),
    answers("taking into a file of before", "site take --db old.db first_two.json", "read 2 new 1 repeated 1\n"),
    downgrade("one.db", "old.db"),
    answers("a run over a file of before", "site run --db old.db first_two.json", f"read 2 refused 0 held 2\n{cover(2)}\n"),
)


def service_beside_inbox(file: str, count: int) -> Iterator[Step]:
    """A service with so many rows, beside an inbox that becomes one of now: it has its rows, and goes on."""

    def its_rows(room: Room) -> str:
        return room.sqlite("old.db", "SELECT * FROM outbox UNION ALL SELECT number, state, 0, 0 FROM orders ORDER BY 1, 2, 3")

    ship = f"site order --db old.db --at {AT} ship 70"
    yield downgrade(file, "old.db")
    yield answers(f"an order beside an inbox of before, {file}", f"site order --db old.db --at {AT} place 70", lines(order_event(count + 1, 70, "placed")))
    yield tables("the inbox stays as it was", "inbox", "orders", "outbox", "service")
    yield lambda room: room.put({"rows": its_rows(room)})
    yield answers("the events beside a service", "site scrub --db old.db", page(E1, E2, E3))
    yield tables("the table of now beside a service", "inbox2", "orders", "outbox", "service")
    yield Row("the service has its rows", lambda room: Said(0, its_rows(room)), As("cat rows"))
    yield answers("and goes on", ship, lines(order_event(count + 2, 70, "shipped")))
    # What the old table took is given back by SQLite, which numbers the tables anew.
    yield asks("VACUUM of such a file", "old.db", "VACUUM")
    yield answers("the events after it", "site scrub --db old.db", page(E1, E2, E3))
    yield refuses("the service after it", ship, "order 70: WrongState")


test_service_beside_it = rows(
    FILES,
    *(f"site order --db o.db --at {AT} {it}" for it in ("place 7", "ship 7", "place 9", "cancel 9")),
    "site take --db o.db three.json",
    f"site order --db o.db --at {AT} place 10",
    "site take --db mixed.db three.json",
    f"site order --db mixed.db --at {AT} place 7",
    *service_beside_inbox("o.db", 5),
    *service_beside_inbox("mixed.db", 1),
    ONE,
    downgrade("one.db", "old.db"),
    "site scrub --db old.db",
    answers("a service beside an inbox that was of before", f"site order --db old.db --at {AT} place 1", lines(order_event(1, 1, "placed"))),
    answers("and events beside both", "site take --db old.db three.json", "read 3 new 2 repeated 1\n"),
)

# A file of before with more rows than one step copies.
test_many_rows = rows(
    {**FILES, "much.json": page(*(event(f"c{it}", it, source="/many") for it in range(1, 2501)))},
    "site take --db much.db much.json",
    downgrade("much.db", "old.db"),
    answers("taking into a file of before of 2,500 rows", "site take --db old.db much.json two.json", "read 2502 new 2 repeated 2500\n"),
    asks(
        "its rows have their places, and their blocks",
        "old.db",
        "SELECT count(*), min(place), max(place), sum(number), sum(block) FROM inbox2 WHERE source = '/many'",
        "2500|1|2500|3126250|1930\n",
    ),
    downgrade("much.db", "old.db"),
    "site scrub --db old.db",
    answers("the events of a file of before of 2,500 rows", "site scrub --db old.db --all", As("site scrub --db much.db --all")),
)


def file_with_hole(room: Room) -> None:
    """Makes a file whose schema has a hole until VACUUM: a table stood before the inbox and was dropped."""
    with contextlib.closing(sqlite3.connect(room.at("hole.db"))) as base:
        base.execute("CREATE TABLE strange (a INTEGER)")
        base.execute(OLD_INBOX)
        base.execute("INSERT INTO inbox VALUES (1, '/orders', 'a1', 1, ?)", (E1,))
        base.execute("DROP TABLE strange")
        base.commit()


def refusals(statement: str) -> Iterator[Step]:
    """What a statement made of a file of before is refused, and stays as it was."""
    yield downgrade("one.db", "bad.db", statement)
    yield refuses(f"refused: {statement}", "site scrub --db bad.db", "bad.db: Foreign", keeps="bad.db")
    yield refuses(f"refused, taking: {statement}", "site take --db bad.db three.json", "bad.db: Foreign", keeps="bad.db")


# Files that are refused, and stay as they were.
test_files_that_are_refused = rows(
    FILES,
    file_with_hole,
    refuses("a file of before whose schema has a hole", "site take --db hole.db three.json", "hole.db: Store", keeps="hole.db"),
    sqlite("hole.db", "VACUUM"),
    answers("it is taken after VACUUM", "site take --db hole.db three.json", "read 3 new 2 repeated 1\n"),
    ONE,
    *refusals("UPDATE inbox SET body = '{}'"),
    *refusals("UPDATE inbox SET place = 2"),
    *refusals("UPDATE inbox SET number = 2"),
    *refusals("UPDATE inbox SET id = 'a9'"),
    *refusals("UPDATE inbox SET source = '/other'"),
    *refusals(NEW_INBOX),
    *HIGH,
    copy_with("high.db", "block.db", "UPDATE inbox2 SET block = 0 WHERE place = 4"),
    refuses("a block of another number", "site scrub --db block.db", "block.db: Foreign", keeps="block.db"),
    downgrade("one.db", "beside.db", "CREATE TABLE strange (a INTEGER)"),
    refuses("a table of another program beside an inbox of before", "site scrub --db beside.db", "beside.db: Store", keeps="beside.db"),
)
