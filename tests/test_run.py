"""The command `run`: what it prints of feeds and a peer, and what its database then holds."""
import os
import time

from events import E1, E2, E3, E4, batch, cover, event, lines, page
from logs import commits
from shell import Room, answers, fails, lacks, refuses, rejects, rows

BARE = event("z", None)
FILES = {
    "f.json": batch(E1, E2),
    "g.json": batch(E2, E3),
    "p.json": batch(E3, E4),
    "bare.json": batch(E1, BARE),
    "empty.json": "",
    "none.json": "[]",
}


def answer(read: int, refused: int, held: int) -> str:
    """What `run` prints: what it read, refused and then held, and which numbers of /orders these are, from 1 on."""
    return f"read {read} refused {refused} held {held}\n{cover(held)}\n"


# Feeds side by side, with a peer.
test_feeds = rows(
    FILES,
    answers("two feeds and a peer", "site run --db s.db --peer p.json f.json g.json", answer(4, 0, 4)),
    answers("what was taken was kept", "site take --db s.db f.json", "read 2 new 0 repeated 2\n"),
    answers("all events", "site scrub --db s.db", page(E1, E2, E3, E4)),
    answers("again", "site run --db s.db f.json", answer(2, 0, 4)),
    answers("one feed", "site run --db one.db f.json", answer(2, 0, 2)),
    answers("a feed without events", "site run --db nothing.db none.json", answer(0, 0, 0)),
    answers("an event without a number in a feed", "site run --db bare.db bare.json g.json", answer(4, 1, 3)),
)

# Files at fault.
test_files_at_fault = rows(
    {**FILES, "folder.db/": ""},
    refuses("a feed that is not JSON", "site run --db bad.db f.json empty.json", "empty.json: not JSON"),
    answers("the other feed stays", "site take --db bad.db f.json", "read 2 new 0 repeated 2\n"),
    refuses("a feed at fault beside a peer", "site run --db bad.db --peer p.json empty.json none.json", "empty.json: not JSON"),
    answers("the peer stays", "site take --db bad.db p.json", "read 2 new 0 repeated 2\n"),
    refuses("an event without a number in the peer", "site run --db peer.db --peer bare.json f.json", "bare.json: event 1: NoSequence"),
    refuses("a missing feed", "site run --db peer.db f.json missing.json", "missing.json: cannot read"),
    refuses("a missing peer", "site run --db peer.db --peer missing.json f.json", "missing.json: cannot read"),
    refuses("the peer is read first", "site run --db peer.db --peer missing.json missing2.json", "missing.json: cannot read"),
    lacks("files at fault make no database", "peer.db"),
    refuses("a folder", "site run --db folder.db f.json", "folder.db: Store"),
)


def many(first: int, last: int) -> str:
    return batch(*(event(f"{it:04d}", it) for it in range(first, last + 1)))


# Two feeds, of which one is at fault or both are: the other is kept whole, and the first one at fault is told.
test_feeds_at_fault = rows(
    {"good.json": many(1, 1500), "cut.json": "[", "three.json": "3"},
    refuses("a feed behind 1,500 events", "site run --db behind.db good.json cut.json", "cut.json: not JSON"),
    answers("they were kept", "site take --db behind.db good.json", "read 1500 new 0 repeated 1500\n"),
    refuses("a feed before 1,500 events", "site run --db before.db cut.json good.json", "cut.json: not JSON"),
    answers("they were kept too", "site take --db before.db good.json", "read 1500 new 0 repeated 1500\n"),
    refuses("two feeds at fault", "site run --db first.db cut.json three.json", "cut.json: not JSON"),
    answers("nothing came of them", "site shown --db first.db"),
    refuses("the other way round", "site run --db second.db three.json cut.json", "three.json: not an event or a batch"),
    answers("nor then", "site shown --db second.db"),
)

# More events than a batch, in two feeds, and an answer that nobody reads.
test_many_events = rows(
    {"low.json": many(1, 950), "high.json": many(901, 1850)},
    answers("1,850 events in two feeds", "site run --db many.db low.json high.json", answer(1900, 0, 1850)),
    fails("standard output closed", "site run --db closed.db low.json high.json >&-"),
    answers("all was kept", "site take --db closed.db low.json high.json", "read 1900 new 0 repeated 1900\n"),
)


def test_what_comes_is_kept_while_workers_work(room: Room) -> None:
    """A run that is killed once its fifth transaction is written has kept some events, and not all."""
    room.put({name: batch(*(event(f"{it:06d}", it, source=f"/{name}") for it in range(1, 100_001))) for name in ("a", "b")})
    with room.start("exec site run --db k.db a b") as ran:
        until = time.monotonic() + 60
        while not os.path.exists(room.at("k.db-wal")) or commits(room.at("k.db-wal")) < 5:
            assert ran.poll() is None and time.monotonic() < until
            time.sleep(0.0005)
        ran.kill()
    kept = room.run("site shown --db k.db").out.count("\n")
    assert 0 < kept < 200_000


# Lines, each an event or a batch. All are judged before a database is opened.
LINES = {
    "f.lines": f"{E1}\r\n \n{E2}",
    "g.lines": lines(batch(E2, E3), "[]"),
    "p.lines": lines(E3, batch(E4)),
    "bare.lines": lines(E1, BARE),
    "bad.lines": lines(E1, "", "[]", batch(E2, '{"id":"x"}')),
    "cut.lines": lines(E1, E2[:40]),
    "blank.lines": " \n\n",
    "f.json": batch(E1, E2),
}
test_lines = rows(
    LINES,
    answers("lines of two feeds and a peer", "site run --db s.db --lines --peer p.lines f.lines g.lines", answer(4, 0, 4)),
    answers(
        "the same as of their batches",
        "site run --db t.db --peer p.lines --lines f.lines g.lines && site summary --db s.db >s && site summary --db t.db >t && cmp s t",
        answer(4, 0, 4),
    ),
    answers("an event without a number in a line", "site run --db bare.db --lines bare.lines f.lines", answer(4, 1, 2)),
    answers("lines of nothing", "site run --db none.db --lines blank.lines", f"read 0 refused 0 held 0\n{cover(None)}\n"),
    answers("a batch of one line", "site run --db one.db --lines f.json", answer(2, 0, 2)),
    refuses("the first line at fault", "site run --db bad.db --lines f.lines bad.lines cut.lines", "bad.lines line 4: event 1: SpecVersion"),
    refuses("a line that is cut", "site run --db bad.db --lines cut.lines bad.lines", "cut.lines line 2: not JSON"),
    refuses("a line of the peer without a number", "site run --db bad.db --lines --peer bare.lines bad.lines", "bare.lines line 2: event 0: NoSequence"),
    refuses("a line at fault behind a peer", "site run --db bad.db --lines --peer p.lines f.lines bad.lines", "bad.lines line 4: event 1: SpecVersion"),
    lacks("lines at fault make no database", "bad.db"),
    refuses("lines without the word", "site run --db bad.db f.lines", "f.lines: not JSON"),
)

SIXTEEN = " ".join(["f.json"] * 16)

# Words.
test_words = rows(
    FILES,
    answers("sixteen files", f"site run --db w.db {SIXTEEN}", answer(32, 0, 2)),
    rejects("seventeen files", f"site run --db v.db --peer p.json {SIXTEEN}"),
    rejects("no file", "site run --db v.db"),
    rejects("no database", "site run f.json"),
    lacks("faulty words make no file", "v.db"),
)
