"""Lines that are kept as they come: what `follow` acknowledges, and what of them is kept."""
import array
import fcntl
import os
import subprocess
import termios
import time
from typing import IO, Iterator

import pytest
from events import E1, E2, E3, E4, acknowledgement, batch, event, lines, numbered_events, page
from logs import commits
from shell import As, Room, answers, asks, finds, lacks, refuses, rows

NONE = event("a", None, source="/")
MANY = numbered_events(250, 3)
THREE = batch(E1, E2, E3)
# What is said of the three pages of MANY.
PAGES = acknowledgement(1, 100, 0) + acknowledgement(2, 100, 0) + acknowledgement(3, 50, 0)

# Lines, those at fault among others, and a line that is too long.
test_lines = rows(
    {
        "two.lines": lines(E1, batch(E1, E2)),
        "odd.lines": f"{E3}\r\n\n[{{}}]\nhalf a li\n3\n{NONE}\n[{E4},{{}}]\n[]\n[{E4},{E4}]\n\ufeff{E1}\n\n{E2}",
        "long.lines": f"{' ' * 33_554_433}\n{E1}\n",
        "lines.folder/": "",
    },
    answers("lines", "site follow --db f.db two.lines", acknowledgement(1, 1, 0) + acknowledgement(2, 1, 1)),
    answers("lines that are there", "site follow --db f.db two.lines", acknowledgement(1, 0, 1) + acknowledgement(2, 0, 2)),
    answers("each of their events once", "site scrub --db f.db", page(E1, E2)),
    finds(
        "lines at fault among others",
        "site follow --db f.db odd.lines",
        lines(
            '{"line":1,"new":1,"repeated":0}',
            '{"line":3,"fault":"event 0: SpecVersion"}',
            '{"line":4,"fault":"not JSON"}',
            '{"line":5,"fault":"not an event or a batch"}',
            '{"line":6,"fault":"event 0: NoSequence"}',
            '{"line":7,"fault":"event 1: SpecVersion"}',
            '{"line":8,"new":0,"repeated":0}',
            '{"line":9,"new":1,"repeated":1}',
            '{"line":10,"fault":"not JSON"}',
            '{"line":12,"new":0,"repeated":1}',
        ),
        err="site: 6 lines refused\n",
    ),
    answers("the others were kept", "site scrub --db f.db", page(E1, E2, E3, E4)),
    finds(
        "a line that is too long",
        "site follow --db f.db long.lines",
        '{"line":1,"fault":"too large"}\n{"line":2,"new":0,"repeated":1}\n',
        err="site: 1 lines refused\n",
    ),
    asks("the file of lines as SQLite tests it", "f.db", "PRAGMA integrity_check", "ok\n"),
    refuses("a file of lines that is not there", "site follow --db unmade.db missing.lines", "missing.lines: cannot read"),
    lacks("it makes no database", "unmade.db"),
    refuses("a folder in place of lines", "site follow --db unmade.db lines.folder", "lines.folder: cannot read"),
    lacks("it makes no database either", "unmade.db"),
)

# A line may have 33,554,432 bytes; a longer one is passed over, and the one behind it is there.
test_long_lines = rows(
    {},
    *(
        finds(
            f"a line of {count} letters",
            f"(head -c {count} /dev/zero | tr '\\0' a; echo; echo b) | site follow --db l.db",
            f'{{"line":1,"fault":"{why}"}}\n{{"line":2,"fault":"not JSON"}}\n',
            err="site: 2 lines refused\n",
        )
        for count, why in ((33_554_432, "not JSON"), (33_554_433, "too large"), (40_000_000, "too large"))
    ),
)


def pieces(text: bytes, step: int) -> Iterator[bytes]:
    return (text[at : at + step] for at in range(0, len(text), step))


def give(stream: IO[bytes], text: bytes, step: int) -> None:
    """Writes so many bytes at a time to a pipe, each once whoever reads it has taken those before, so that as many come a read."""
    left = array.array("i", [0])
    for it in pieces(text, step):
        os.write(stream.fileno(), it)
        until = time.monotonic() + 30
        while fcntl.ioctl(stream.fileno(), termios.FIONREAD, left) == 0 and left[0]:
            assert time.monotonic() < until, "nobody reads"
            time.sleep(0.0002)


CUT = f"{E1}\n\n{E2}\r\nhalf a li\n{batch(E2, E3)}"
CUT_SAID = lines('{"line":1,"new":1,"repeated":0}', '{"line":3,"new":1,"repeated":0}', '{"line":4,"fault":"not JSON"}', '{"line":5,"new":1,"repeated":1}')


@pytest.mark.parametrize("step", [1, 2, 5, 100, 1000])
@pytest.mark.parametrize(("text", "said"), [(CUT, CUT_SAID), (f"{CUT}\n", CUT_SAID), ("\n", ""), ("", "")], ids=["cut", "whole", "empty", "none"])
def test_however_many_bytes_come_a_read(room: Room, text: str, said: str, step: int) -> None:
    """LF ends a line, and the last one needs none; CR is of its line."""
    with room.start("site follow --db p.db", stdin=subprocess.PIPE) as ran:
        assert ran.stdin
        give(ran.stdin, text.encode(), step)
        out, _ = ran.communicate(timeout=30)
    assert (out.decode(), ran.returncode) == (said, int("fault" in said))


TEN = [event(f"{it:04d}", it) for it in range(1, 11)]


@pytest.mark.parametrize(("whole", "more", "turns"), [(0, 1, 10), (1, 0, 10), (3, 0, 4), (3, 7, 4), (10, 0, 1)])
def test_lines_that_come_at_once_share_a_turn(room: Room, whole: int, more: int, turns: int) -> None:
    """Of ten lines so many come a read, and so many bytes of the next: those that stand whole are kept in one transaction."""
    text = lines(*TEN)
    with room.start("exec site follow --db t.db", stdin=subprocess.PIPE) as ran:
        assert ran.stdin and ran.stdout
        # The first line has the table made, and so its own turns.
        give(ran.stdin, lines(E1).encode(), 1000)
        assert ran.stdout.readline().decode() == acknowledgement(1, 1, 0)
        before = commits(room.at("t.db-wal"))
        give(ran.stdin, text.encode(), len(lines(TEN[0])) * whole + more)
        said = [ran.stdout.readline().decode() for _ in TEN]
        behind = commits(room.at("t.db-wal"))
        ran.stdin.close()
        assert ran.wait(30) == 0
    assert said == [acknowledgement(it, 1, 0) for it in range(2, 12)]
    assert behind - before == turns


# Pages of a site are lines, each a batch.
test_pipes = rows(
    {"many.json": batch(*MANY), "three.json": THREE},
    "site take --db many.db many.json",
    answers("all pages of a site through a pipe", "site scrub --db many.db --all | site follow --db far.db", PAGES),
    answers("then both have the same", "site summary --db far.db", As("site summary --db many.db")),
    "site take --db half.db three.json",
    answers(
        "a pipe that begins and ends with one database",
        "site summary --db half.db | site delta --db many.db --all - | site follow --db half.db",
        PAGES,
    ),
)


def test_stream_that_waits_for_its_first_bytes(room: Room) -> None:
    """A stream of which nothing came yet leaves its database to others."""
    room.put({"three.json": THREE, "two.json": batch(E2, E3)})
    room.run("site take --db half.db three.json")
    with room.start("site follow --db half.db", stdin=subprocess.PIPE) as ran:
        with pytest.raises(subprocess.TimeoutExpired):
            ran.wait(0.5)
        assert room.run("site take --db half.db two.json") == (0, "read 2 new 0 repeated 2\n", "")
        assert ran.communicate(E4.encode(), 30) == (acknowledgement(1, 1, 0).encode(), b"")
    assert ran.returncode == 0


def test_producer_that_waits(room: Room) -> None:
    """A producer that waits for each acknowledgement before it sends the next line, and ends there."""
    with room.start("site follow --db waits.db", stdin=subprocess.PIPE) as ran:
        assert ran.stdin and ran.stdout and ran.stderr
        for number, line in enumerate([E1, E2, E3], 1):
            ran.stdin.write(lines(line).encode())
            ran.stdin.flush()
            assert ran.stdout.readline().decode() == acknowledgement(number, 1, 0)
        ran.stdin.close()
        assert (ran.wait(30), ran.stdout.read(), ran.stderr.read()) == (0, b"", b"")


@pytest.mark.slow
def test_stream_of_a_million_lines(room: Room) -> None:
    """More lines than any count of a turn: empty batches, and events on the last."""
    room.put({"long.lines": "[]\n" * 1_000_050 + THREE})
    status, out, err = room.run("site follow --db long.db long.lines")
    assert (status, err) == (0, "")
    assert (out.count("\n"), out[out.rindex("\n", 0, -1) + 1 :]) == (1_000_051, acknowledgement(1_000_051, 3, 0))


def test_salts_and_caches(room: Room) -> None:
    """A log's salts are drawn at random, and the cache is as large as the variable says: of two streams that stay open, whose
    first bytes are many, by what their logs begin with and what memory they asked for."""
    salts, sizes = {bytes(8)}, []
    for mib in (1, 256):
        given, line = os.pipe()
        os.write(line, (E1 + " " * 60_000 + "\n").encode())
        with room.start(f"SITE_CACHE_MIB={mib} exec site follow --db salts{mib}.db", stdin=given) as ran:
            os.close(given)
            try:
                assert ran.stdout and ran.stdout.readline().decode() == acknowledgement(1, 1, 0)
                with open(f"/proc/{ran.pid}/status", encoding="ascii") as said:
                    sizes += [int(it.split()[1]) for it in said if it.startswith("VmSize:")]
                salts.add(room.contents(f"salts{mib}.db-wal")[f"salts{mib}.db-wal"][16:24])
            finally:
                os.close(line)
            assert (ran.wait(30), ran.stderr and ran.stderr.read()) == (0, b"")
    assert len(salts) == 3
    assert sizes[1] - sizes[0] > 200 * 1024
