#!/usr/bin/env python3
"""Gives the built program a disk that is full, a folder that can't be written and one that is removed meanwhile: each
is named, and nothing that was acknowledged is lost.

    tools/try_disks.py [PROGRAM]           by default the program at crates/site_cli/out/site_cli

A limit on the size of files stands for a full disk: `take`, `order`, `run` and `follow` are given with each limit from
0 on, in steps of a page, until one meets no limit. A refused command has status 1 and `site: x.db: Store`, the file is
sound (`PRAGMA integrity_check`), holds what it held or, of `run` and `follow`, a part more, each event once, and the
command given once more without a limit is answered. The last line is 'N passed, M failed'. By hand, not in the gate.
"""
import json
import os
import resource
import shutil
import signal
import sqlite3
import subprocess
import sys
import tempfile
from typing import Any, Callable

TOP = os.path.dirname(os.path.dirname(os.path.realpath(__file__)))
STORE = (1, b"", b"site: x.db: Store\n")
PAGE = 4096
AT = "2024-02-29T10:00:00Z"
NOBODY = 65534
COMMANDS = {
    "take": ["take", "--db", "x.db", "more.json"],
    "order": ["order", "--db", "x.db", "--at", AT, "place", "9"],
    "run": ["run", "--db", "x.db", "more.json", "others.json"],
    "follow": ["follow", "--db", "x.db"],
}


def event(number: int) -> dict[str, str]:
    name = f"e{number:05}"
    return {"id": name, "sequence": f"{number:020}", "source": "/s", "specversion": "1.0", "subject": "x" * 300, "type": "t"}


def limited(bound: int) -> Callable[[], None]:
    """What a child does before it runs: a write past the limit answers an error, and no signal ends the child."""

    def before() -> None:
        signal.signal(signal.SIGXFSZ, signal.SIG_IGN)
        resource.setrlimit(resource.RLIMIT_FSIZE, (bound, bound))

    return before


def unprivileged() -> None:
    os.setgid(NOBODY)
    os.setuid(NOBODY)


class Trial:
    def __init__(self, program: str) -> None:
        self.program, self.passed = program, 0
        self.wrong: list[str] = []

    def is_good(self, good: bool, what: str) -> None:
        self.passed += good
        if not good:
            self.wrong.append(what)

    def ran(self, words: list[str], room: str, given: bytes = b"", **how: Any) -> tuple[int, bytes, bytes]:
        ran = subprocess.run([self.program, *words], cwd=room, input=given, capture_output=True, timeout=60, restore_signals=False, **how)
        return ran.returncode, ran.stdout, ran.stderr

    def held(self, room: str) -> Any:
        """The numbers of the events and the orders that a sound file holds; none where it isn't sound."""
        base = sqlite3.connect(f"{room}/x.db")
        try:
            events = [it[0] for it in base.execute("SELECT number FROM inbox2 ORDER BY place")]
            orders = [it[0] for it in base.execute("SELECT order_number FROM outbox ORDER BY number")]
            sound = base.execute("PRAGMA integrity_check").fetchone()[0] == "ok"
        finally:
            base.close()
        return (events, orders) if sound else None

    def start(self, room: str) -> None:
        for name, numbers in (("first", range(1, 41)), ("more", range(41, 141)), ("others", range(141, 241))):
            with open(f"{room}/{name}.json", "w", encoding="utf-8") as it:
                json.dump([event(n) for n in numbers], it, separators=(",", ":"))
        assert self.ran(["take", "--db", "x.db", "first.json"], room)[0] == 0
        assert self.ran(["order", "--db", "x.db", "--at", AT, "place", "8"], room)[0] == 0

    def is_kept(self, before: Any, after: Any, kind: str, acknowledged: Any) -> bool:
        """Whether what was held is held, nothing twice, and what came since is whole or, of some commands, a part."""
        if after is None or after[0][: len(before[0])] != before[0] or after[1][: len(before[1])] != before[1]:
            return False
        events, orders = after[0][len(before[0]) :], after[1][len(before[1]) :]
        if len(set(after[0])) != len(after[0]) or not set(range(41, 41 + acknowledged)) <= set(after[0]):
            return False
        whole: dict[str, Any] = {"take": ([[], list(range(41, 141))], [[]]), "order": ([[]], [[], [9]])}
        return kind not in whole or events in whole[kind][0] and orders in whole[kind][1]

    def full(self, kind: str) -> None:
        given = b"".join(json.dumps(event(n)).encode() + b"\n" for n in range(41, 141)) if kind == "follow" else b""
        bound, refused = 0, 0
        with tempfile.TemporaryDirectory() as start:
            self.start(start)
            before = self.held(start)
            while True:
                with tempfile.TemporaryDirectory() as room:
                    shutil.copytree(start, room, dirs_exist_ok=True)
                    said = self.ran(COMMANDS[kind], room, given, preexec_fn=limited(bound))
                    acknowledged = said[1].count(b"\n") if kind == "follow" else 0
                    named = (said[0], b"" if kind == "follow" else said[1], said[2])
                    kept = self.is_kept(before, self.held(room), kind, acknowledged)
                    again = self.ran(COMMANDS[kind], room, given)
                    is_done = again[0] == 0 or said[0] == 0 and kind == "order"
                    self.is_good((said[0] == 0 or named == STORE) and kept and is_done, f"{kind}, {bound} bytes: {said} {kept} {again}")
                    refused += said[0] != 0
                    if said[0] == 0:
                        break
                bound += PAGE
        print(f"a full disk, {kind}: {refused} limits refused it, at {bound} bytes it was done", flush=True)

    def unwritable(self) -> None:
        """A folder and a file of another's, read as nobody in particular; only the superuser can become that."""
        if os.getuid() != 0:
            print("a folder that can't be written: left out, since it takes the superuser")
            return
        with tempfile.TemporaryDirectory() as room:
            self.start(room)
            before = self.held(room)
            for name in os.listdir(room):
                os.chmod(f"{room}/{name}", 0o444)
            os.chmod(room, 0o555)
            # `follow` would have to open the superuser's pipe, which it may not.
            for kind in ("take", "order", "run"):
                said = self.ran(COMMANDS[kind], room, preexec_fn=unprivileged)
                self.is_good(said == STORE, f"{kind}, a folder that can't be written: {said}")
                new = [{"x.db": "n.db"}.get(it, it) for it in COMMANDS[kind]]
                said = self.ran(new, room, preexec_fn=unprivileged)
                self.is_good(said == (1, b"", b"site: n.db: Store\n"), f"{kind}, a new file there: {said}")
            self.is_good(self.held(room) == before and not os.path.exists(f"{room}/n.db"), "a folder that can't be written was changed")
            os.chmod(room, 0o755)

    def removed(self) -> None:
        """The folder goes while a stream is taken: the next line is acknowledged, into the file that is open and has no name
        any more, or the end is named."""
        room = tempfile.mkdtemp()
        self.start(room)
        ran = subprocess.Popen([self.program, *COMMANDS["follow"]], cwd=room, stdin=subprocess.PIPE, stdout=subprocess.PIPE, stderr=subprocess.PIPE)
        assert ran.stdin and ran.stdout
        ran.stdin.write(json.dumps(event(41)).encode() + b"\n")
        ran.stdin.flush()
        first = ran.stdout.readline()
        shutil.rmtree(room)
        out, err = ran.communicate(json.dumps(event(42)).encode() + b"\n", timeout=60)
        ended = (ran.returncode, out, err)
        good = first == b'{"line":1,"new":1,"repeated":0}\n' and ended in (STORE, (0, b'{"line":2,"new":1,"repeated":0}\n', b""))
        self.is_good(good, f"a folder that is removed: {first!r} {ended}")
        print(f"a folder that is removed meanwhile: {ended}")


def main() -> int:
    given = sys.argv[1] if len(sys.argv) > 1 else f"{TOP}/crates/site_cli/out/site_cli"
    trial = Trial(os.path.abspath(given))
    for kind in COMMANDS:
        trial.full(kind)
    trial.unwritable()
    trial.removed()
    for line in trial.wrong[:10]:
        print(f"wrong: {line[:400]}")
    print(f"{trial.passed} passed, {len(trial.wrong)} failed")
    return 1 if trial.wrong else 0


if __name__ == "__main__":
    sys.exit(main())
