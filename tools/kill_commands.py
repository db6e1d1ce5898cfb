#!/usr/bin/env python3
"""Ends `take`, `order`, `run` and `follow` by a signal at random moments, and looks at what their databases then hold.

    tools/kill_commands.py [--rounds N] [--seconds N] [--program FILE] [--seed N] [take|order|run|follow ..]

Each round gives one command and kills it (SIGKILL) at a moment drawn between its start and a little more than its usual
end. `order` places an order of its own in each round; `take` brings fifty events of its own; `follow` 2,500 lines, an
event each, through a pipe, in pieces of a size that is drawn; `run` serves two files of fifty. An answer that was read
whole is noted as acknowledged, of `follow` each line's. After each round the file is opened by SQLite: it must be sound
(`PRAGMA integrity_check`), what was acknowledged must be there, once, what was not is there whole or not at all (of
`follow` and `run` each event), and the rows are numbered from 1 without a gap. A round that was not acknowledged is given again, and has to be answered: as
the first time, or as what was done already. After some rounds a new file is begun, so that no round waits for all that
those before it brought. With --seconds no round begins after that time.
"""
import argparse
import contextlib
import glob
import json
import os
import random
import sqlite3
import subprocess
import sys
import tempfile
import threading
import time
from typing import IO, Any

TOP = os.path.dirname(os.path.dirname(os.path.realpath(__file__)))
# How much each round left, and whether the numbers are as they have to be.
Held = tuple[dict[int, int], bool]
AT = "2024-02-29T10:00:00Z"
FEW = 50


class Kind:
    """A command that is given once a round."""

    # How much each round leaves, and how many rounds have one file.
    whole = 1
    rounds = 1_000

    def words(self, number: int) -> list[str]:
        raise NotImplementedError

    def prepare(self, number: int) -> None:
        """Writes what the command reads from files."""

    def is_answer(self, number: int, status: int, out: bytes, err: bytes) -> bool:
        """Whether a command that was given for the first time answers so."""
        raise NotImplementedError

    def was_done(self, number: int, status: int, out: bytes, err: bytes) -> bool:
        """Whether one answers so that was done already."""
        raise NotImplementedError

    def held(self, base: sqlite3.Connection) -> Held:
        """What each round left, and whether the numbers are as they have to be."""
        raise NotImplementedError

    def feed(self, number: int, to: IO[bytes]) -> None:
        """Writes what the command reads from its standard input, a pipe."""

    def lost(self, number: int, out: bytes, base: sqlite3.Connection) -> list[Any]:
        """What stands acknowledged on standard output by the part and isn't in the database."""
        return []

    def is_part(self, count: int) -> bool:
        """Whether a round may have left so much."""
        return count == self.whole


class Place(Kind):
    """Orders that are placed, one a round."""

    def words(self, number: int) -> list[str]:
        return ["order", "--db", "k.db", "--at", AT, "place", str(number)]

    def is_answer(self, number: int, status: int, out: bytes, err: bytes) -> bool:
        return status == 0 and out.endswith(b"}\n") and f'"subject":"{number}"'.encode() in out

    def was_done(self, number: int, status: int, out: bytes, err: bytes) -> bool:
        return (status, out, err) == (1, b"", f"site: order {number}: OrderExists\n".encode())

    def held(self, base: sqlite3.Connection) -> Held:
        rows = base.execute("SELECT number, order_number FROM outbox ORDER BY number").fetchall()
        states = base.execute("SELECT count(*) FROM orders").fetchone()[0]
        held: dict[int, int] = {}
        for _, order in rows:
            held[order] = held.get(order, 0) + 1
        return held, [it[0] for it in rows] == list(range(1, len(rows) + 1)) and states == len(rows)


class Take(Kind):
    """Files that are taken, fifty events a round."""

    whole = FEW
    rounds = 200

    def words(self, number: int) -> list[str]:
        return ["take", "--db", "k.db", "f.json"]

    def prepare(self, number: int) -> None:
        low = FEW * (number - 1) + 1
        with open("f.json", "w", encoding="utf-8") as it:
            json.dump([self.event(n) for n in range(low, low + FEW)], it, separators=(",", ":"))

    @staticmethod
    def event(number: int) -> dict[str, str]:
        return {"id": f"e{number:07}", "sequence": f"{number:020}", "source": "/s", "specversion": "1.0", "type": "t"}

    def is_answer(self, number: int, status: int, out: bytes, err: bytes) -> bool:
        return (status, out) == (0, f"read {FEW} new {FEW} repeated 0\n".encode())

    def was_done(self, number: int, status: int, out: bytes, err: bytes) -> bool:
        return (status, out) == (0, f"read {FEW} new 0 repeated {FEW}\n".encode())

    def held(self, base: sqlite3.Connection) -> Held:
        rows = base.execute("SELECT place, number, block FROM inbox2 ORDER BY place").fetchall()
        held: dict[int, int] = {}
        every = list(range(1, len(rows) + 1))
        for _, number, _ in rows:
            held[(number - 1) // self.whole + 1] = held.get((number - 1) // self.whole + 1, 0) + 1
        are_once = len({it[1] for it in rows}) == len(rows)
        return held, are_once and [it[0] for it in rows] == every and all(it[1] // 1024 == it[2] for it in rows)


class Follow(Take):
    """Lines that come through a pipe, 2,500 a round; the first line of a round is the one behind the last's."""

    whole = 2_500
    rounds = 10

    def __init__(self, draw: random.Random) -> None:
        self.draw = draw

    def words(self, number: int) -> list[str]:
        return ["follow", "--db", "k.db"]

    def prepare(self, number: int) -> None:
        self.low = self.whole * (number - 1) + 1
        lines = [json.dumps(self.event(n), separators=(",", ":")) + "\n" for n in range(self.low, self.low + self.whole)]
        step = self.draw.choice([1, 7, 100, self.whole])
        self.pieces = ["".join(lines[at : at + step]).encode() for at in range(0, self.whole, step)]

    def feed(self, number: int, to: IO[bytes]) -> None:
        try:
            for piece in self.pieces:
                to.write(piece)
                to.flush()
            to.close()
        except OSError:
            pass

    def answers(self, out: bytes) -> list[tuple[int, int, int]]:
        """The acknowledgements that stand whole: of each line how many events were new."""
        return [(it["line"], it["new"] + it["repeated"], it["new"]) for it in map(json.loads, out.split(b"\n")[:-1])]

    def are_all(self, out: bytes, new: int) -> bool:
        return self.answers(out) == [(line, 1, new) for line in range(1, self.whole + 1)]

    def is_answer(self, number: int, status: int, out: bytes, err: bytes) -> bool:
        return status == 0 and self.are_all(out, 1)

    def was_done(self, number: int, status: int, out: bytes, err: bytes) -> bool:
        told = self.answers(out)
        return status == 0 and [it[:2] for it in told] == [(line, 1) for line in range(1, self.whole + 1)]

    def lost(self, number: int, out: bytes, base: sqlite3.Connection) -> list[Any]:
        held = {it[0] for it in base.execute("SELECT number FROM inbox2 WHERE number >= ?", (self.low,))}
        return [line for line, _, _ in self.answers(out) if self.low + line - 1 not in held]

    def is_part(self, count: int) -> bool:
        return count <= self.whole


class Run(Take):
    """Two files that are served side by side, fifty events each; what was done before a kill may be a part."""

    whole = 2 * FEW

    def words(self, number: int) -> list[str]:
        return ["run", "--db", "k.db", "a.json", "b.json"]

    def prepare(self, number: int) -> None:
        low = self.whole * (number - 1) + 1
        for name, first in (("a.json", low), ("b.json", low + FEW)):
            with open(name, "w", encoding="utf-8") as it:
                json.dump([self.event(n) for n in range(first, first + FEW)], it, separators=(",", ":"))

    def is_answer(self, number: int, status: int, out: bytes, err: bytes) -> bool:
        # What is held is all of the file's rounds.
        held = self.whole * ((number - 1) % self.rounds + 1)
        front = f"read {self.whole} refused 0 held {held}\n".encode()
        return status == 0 and out.startswith(front) and out.endswith(b"}\n")

    def was_done(self, number: int, status: int, out: bytes, err: bytes) -> bool:
        return False

    def is_part(self, count: int) -> bool:
        return count <= self.whole


def feed(kind: Kind, number: int, to: IO[bytes]) -> None:
    kind.feed(number, to)
    with contextlib.suppress(OSError):
        to.close()


def given(program: str, kind: Kind, number: int, **more: Any) -> tuple[subprocess.Popen[bytes], threading.Thread]:
    """The command of a round, begun, with what it reads written by a thread."""
    ran = subprocess.Popen([program, *kind.words(number)], stdin=subprocess.PIPE, **more)
    assert ran.stdin
    feeder = threading.Thread(target=feed, args=(kind, number, ran.stdin))
    feeder.start()
    return ran, feeder


def tried(program: str, kind: Kind, rounds: int, draw: random.Random, until: float) -> tuple[int, int, list[str]]:
    """How many rounds were killed, how many ended before, and what was wrong."""
    usual, killed, ended = 0.02, 0, 0
    wrong: list[str] = []
    acknowledged: list[int] = []
    for number in range(1, rounds + 1):
        if time.monotonic() > until:
            break
        if number % kind.rounds == 1:
            for name in glob.glob("k.db*"):
                os.remove(name)
            acknowledged = []
        kind.prepare(number)
        began = time.monotonic()
        with open("out", "wb") as out, open("err", "wb") as err:
            ran, feeder = given(program, kind, number, stdout=out, stderr=err)
            try:
                ran.wait(draw.uniform(0, usual * 1.1))
                ended += 1
                usual = 0.9 * usual + 0.1 * (time.monotonic() - began)
            except subprocess.TimeoutExpired:
                ran.kill()
                ran.wait()
                killed += 1
            feeder.join()
        with open("out", "rb") as out_file, open("err", "rb") as err_file:
            said = out_file.read(), err_file.read()
        # An answer that stands whole on standard output was given, whatever became of the process.
        is_told = kind.is_answer(number, 0, *said)
        if os.path.exists("k.db"):
            base = sqlite3.connect("k.db")
            try:
                sound = base.execute("PRAGMA integrity_check").fetchone()[0]
                held, is_numbered = kind.held(base)
                unkept = kind.lost(number, said[0], base)
            except sqlite3.OperationalError:
                # Nothing was committed yet, so there is no table.
                sound, held, is_numbered, unkept = "ok", {}, True, list(said[0].splitlines())
            base.close()
            lost = [it for it in acknowledged + [number] * is_told if held.get(it) != kind.whole] + unkept
            halves = [it for it, count in held.items() if not kind.is_part(count)]
            if sound != "ok" or not is_numbered or lost or halves:
                wrong.append(f"round {number}: {sound}, numbered {is_numbered}, lost {lost[:3]}, halves {halves[:3]}")
        elif is_told:
            wrong.append(f"round {number}: no file")
        if not is_told:
            began = time.monotonic()
            again, feeder = given(program, kind, number, stdout=subprocess.PIPE, stderr=subprocess.PIPE)
            assert again.stdout and again.stderr
            answer = again.stdout.read(), again.stderr.read()
            status = again.wait()
            feeder.join()
            # Else rounds that take longer than was thought would all be killed at their beginning.
            usual = 0.9 * usual + 0.1 * (time.monotonic() - began)
            if not kind.is_answer(number, status, *answer) and not kind.was_done(number, status, *answer):
                wrong.append(f"round {number}, given again: {status} {answer}")
        acknowledged.append(number)
    return killed, ended, wrong


def main() -> int:
    words = argparse.ArgumentParser(description=__doc__, formatter_class=argparse.RawDescriptionHelpFormatter)
    words.add_argument("--rounds", type=int, default=100)
    words.add_argument("--program", default=f"{TOP}/crates/site_cli/out/site_cli")
    words.add_argument("--seed", type=int, default=1)
    words.add_argument("--seconds", type=float, default=float("inf"), help="of each command")
    words.add_argument("kinds", nargs="*", choices=["take", "order", "run", "follow", []])
    asked = words.parse_args()
    program, passed, failed = os.path.abspath(asked.program), 0, 0
    for name in asked.kinds or ["take", "order", "run", "follow"]:
        draw = random.Random(asked.seed)
        kind = {"take": Take, "order": Place, "run": Run}[name]() if name != "follow" else Follow(draw)
        with tempfile.TemporaryDirectory() as room:
            os.chdir(room)
            until = time.monotonic() + asked.seconds
            killed, ended, wrong = tried(program, kind, asked.rounds, draw, until)
            os.chdir("/")
        print(f"{name}: {killed + ended} rounds: {killed} killed, {ended} ended before; {len(wrong)} wrong", flush=True)
        for line in wrong[:10]:
            print(f"wrong: {line}")
        passed, failed = passed + max(killed + ended - len(wrong), 0), failed + len(wrong)
    print(f"{passed} passed, {failed} failed")
    return 1 if failed else 0


if __name__ == "__main__":
    sys.exit(main())
