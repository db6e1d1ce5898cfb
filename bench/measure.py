#!/usr/bin/env python3
"""Measures the built program beside plain Rust programs, and prints tables in Markdown.

usage: bench/measure.py PLAIN [PLAIN_TABLES] [--program FILE] [--hold FILE] [--rounds N] [--threads N]
           [--folder FOLDER] [--groups GROUP..]

PLAIN is the program of bench/baseline, PLAIN_TABLES that of bench/baseline_tables. The programs run in turn, the same
words over the same files, N rounds (3 by default). A table gives of each the least and the middle of processor time
(user and system), the least time by the clock, the largest memory that a round took, and the ratios of ours to the
plain one: of processor time, least by least, of the clock, and of memory. Where two programs answer a question, their outputs must be equal
byte for byte, or the exit status is 1. The batches are made in FOLDER, or in one of its own that goes in the end.

The groups: questions (no data), data, conflicts (times and conflicts), nested (data 40 deep), escapes (texts with
escaped marks), files (several files), tables (take and run), streams (follow, pages and questions over a database),
held (a site held open over 120,000 events, by examples/rust/hold.rs as cargo builds it, which --hold names), million
(with --hold also a site held open over them). All but the last two by default.

Ours reads large files with as many threads as there are processors. With --threads N it has N of them; the plain
programs have one.
"""
import argparse
import hashlib
import json
import os
import re
import shutil
import subprocess
import sys
import tempfile
import time
from typing import Any, Callable

TOP = os.path.dirname(os.path.dirname(os.path.realpath(__file__)))
QUESTIONS = ("cover", "shown", "gaps", "latest", "kinds", "days", "conflicts")
# A batch: the name of its file, and how tools/make_batch.py makes it.
BATCHES: dict[str, list[str]] = {
    "plain": [],
    "data": ["--data", "200", "--events", "60000"],
    "conflicts": ["--events", "110000", "--conflicts", "0.05", "--gaps", "0.05", "--days", "30", "--subjects", "5000"],
    "nested": ["--events", "85000", "--nested", "40"],
    "escapes": ["--events", "60000", "--escapes", "70"],
    "bytes": ["--events", "60000"],
    **{f"part{i}": ["--data", "200", "--events", "7500", "--seed", str(i)] for i in range(1, 9)},
    **{f"many{i}": ["--data", "200", "--events", "25000", "--seed", str(i)] for i in range(1, 41)},
}
GROUPS = ("questions", "data", "conflicts", "nested", "escapes", "files", "tables", "streams", "held", "million")
# How many lines a waiting producer sends.
WAITING = 1_000


def held_lines(source: str) -> str:
    """Lines of new events of a source for examples/rust/hold.rs: a hundred, ten of a hundred each, ten of 64, and 640."""
    counts = [1] * 100 + [100] * 10 + [64] * 10 + [1] * 640
    lines, number = [], 0
    for count in counts:
        events = [f'{{"specversion":"1.0","id":"{it}","source":"{source}","type":"t","sequence":"{it:020d}"}}' for it in range(number + 1, number + count + 1)]
        lines.append(events[0] if count == 1 else f"[{','.join(events)}]")
        number += count
    return "\n".join(lines) + "\n"


class Measured:
    """What the runs of one program took."""

    def __init__(self) -> None:
        self.processor: list[float] = []
        self.clock: list[float] = []
        self.memory, self.output = 0, ""

    def add(self, words: list[str], folder: str) -> None:
        began = time.monotonic()
        with subprocess.Popen(words, cwd=folder, stdin=subprocess.DEVNULL, stdout=subprocess.PIPE) as ran:
            digest = hashlib.sha256()
            assert ran.stdout
            while chunk := ran.stdout.read(1 << 20):
                digest.update(chunk)
            _, status, used = os.wait4(ran.pid, 0)
            ran.returncode = os.waitstatus_to_exitcode(status)
        if ran.returncode:
            sys.exit(f"{' '.join(words)} ended with {ran.returncode}")
        self.clock.append(time.monotonic() - began)
        self.processor.append(used.ru_utime + used.ru_stime)
        self.memory = max(self.memory, used.ru_maxrss * 1024)
        self.output = digest.hexdigest()

    def text(self) -> str:
        return f"{min(self.processor):.2f} s, {min(self.clock):.2f} s, {self.memory / 1e6:.0f} MB"


def waited(words: list[str], events: list[dict[str, Any]]) -> list[float]:
    """How long each line took to its answer, the first apart, which waits for the open."""
    took = []
    with subprocess.Popen(words, stdin=subprocess.PIPE, stdout=subprocess.PIPE) as ran:
        assert ran.stdin and ran.stdout
        for event in events:
            began = time.monotonic()
            ran.stdin.write(json.dumps(event).encode() + b"\n")
            ran.stdin.flush()
            if b'"new":1' not in ran.stdout.readline():
                sys.exit(f"{' '.join(words)} took none of {event}")
            took.append(time.monotonic() - began)
        ran.stdin.close()
    return took[1:]


def middle(values: list[float]) -> float:
    return sorted(values)[len(values) // 2]


class Bench:
    def __init__(self, given: argparse.Namespace, folder: str) -> None:
        self.given, self.folder, self.well = given, folder, True
        held = ["taskset", "--cpu-list", f"0-{given.threads - 1}"] if given.threads else []
        self.ours = [*held, given.program]

    def batch(self, name: str) -> str:
        path = f"{self.folder}/{name}.json"
        if not os.path.exists(path):
            with open(path, "wb") as out:
                subprocess.run([f"{TOP}/tools/make_batch.py", *BATCHES[name]], stdout=out, check=True)
        return path

    def turns(self, runs: Any, before: Callable[[], object] = lambda: None) -> Any:
        """What each of some programs took, run in turn."""
        found = [Measured() for _ in runs]
        for _ in range(self.given.rounds):
            for words, it in zip(runs, found):
                before()
                it.add(words, self.folder)
        return found

    def question(self, what: str, words: list[str]) -> None:
        ours, plain = self.turns([[*self.ours, *words], [self.given.plain, *words]])
        if ours.output != plain.output:
            print(f"{what}: the outputs differ", file=sys.stderr)
            self.well = False
        ratios = [min(ours.processor) / min(plain.processor), min(ours.clock) / min(plain.clock), ours.memory / plain.memory]
        print(f"| {what} | {ours.text()} | {plain.text()} | {' | '.join(f'{it:.2f}' for it in ratios)} |", flush=True)

    def heads(self, title: str) -> None:
        print(f"\n{title}\n\n| what | `site` | plain Rust | processor | clock | memory |\n|---|---|---|---|---|---|")

    def questions(self, name: str) -> None:
        path = self.batch(name)
        self.heads(f"{os.path.basename(path)}, {os.path.getsize(path) / 1e6:.1f} MB")
        for it in QUESTIONS:
            self.question(f"`{it}`", [it, path])

    def files(self) -> None:
        eight = [self.batch(f"part{i}") for i in range(1, 9)]
        size = sum(os.path.getsize(it) for it in eight)
        self.heads(f"several files with data, eight of {size / 1e6:.1f} MB in all")
        for it in ("cover", "shown", "latest"):
            self.question(f"`{it}` of eight files", [it, *eight])
        self.question("`cover` of four of them", ["cover", *eight[:4]])

    def tables(self) -> None:
        database = f"{self.folder}/measured.db"

        def gone() -> None:
            for end in ("", "-wal", "-shm", "-journal"):
                if os.path.exists(database + end):
                    os.remove(database + end)

        data, without = self.batch("data"), self.batch("bytes")
        four = [self.batch(f"part{i}") for i in range(1, 5)]
        print("\n| what | processor time, memory | by the clock |\n|---|---|---|")
        for what, words in (
            (f"`take` of 60,000 events with data, {os.path.getsize(data) / 1e6:.1f} MB", ["take", "--db", database, data]),
            (f"`take` of 60,000 without, {os.path.getsize(without) / 1e6:.1f} MB", ["take", "--db", database, without]),
            (f"`take` of four files with data, {sum(map(os.path.getsize, four)) / 1e6:.1f} MB", ["take", "--db", database, *four]),
            ("`run` of the same four", ["run", "--db", database, *four]),
        ):
            found = self.turns([[*self.ours, *words]], gone)[0]
            print(f"| {what} | {found.text()} | {middle(found.clock):.2f} s |", flush=True)
        if self.given.plain_tables:
            found = self.turns([[self.given.plain_tables, "take", database, data]], gone)[0]
            print(f"| plain Rust takes the 60,000 with data | {found.text()} | {middle(found.clock):.2f} s |", flush=True)
        gone()

    def streams(self) -> None:
        """Lines of one event each, sent without waiting and each behind the answer to the one before; pages; questions."""
        batch, lines, few = self.batch("plain"), f"{self.folder}/lines", f"{self.folder}/few"
        with open(batch, encoding="utf-8") as file:
            events = json.load(file)
        with open(lines, "w", encoding="utf-8") as file:
            file.writelines(json.dumps(it) + "\n" for it in events)
        more = [{**it, "id": it["id"] + "-late", "source": "/late"} for it in events[:WAITING]]
        names = [f"{self.folder}/ours.db", f"{self.folder}/plain.db"]
        programs = [[self.given.program, "follow", "--db", names[0], lines]]
        if self.given.plain_tables:
            programs.append([self.given.plain_tables, "follow", names[1], lines])

        def gone() -> None:
            for name in names:
                for end in ("", "-wal", "-shm", "-journal"):
                    if os.path.exists(name + end):
                        os.remove(name + end)

        gone()
        found = self.turns(programs, gone)
        print("\n| what | processor time, memory | by the clock |\n|---|---|---|")
        for whose, it in zip(("`site`", "plain Rust"), found):
            print(f"| {whose}: {len(events):,} lines into a new file | {it.text()} | {middle(it.clock):.2f} s |", flush=True)
        gone()
        for words in programs:
            subprocess.run(words, stdout=subprocess.DEVNULL, check=True)
        for whose, words in zip(("`site`", "plain Rust"), programs):
            took = waited([*words[:-1], "/dev/stdin"], more)
            print(f"| {whose}: a line that waits, over {len(events):,} events, the middle of {WAITING:,} | | {middle(took) * 1e3:.2f} ms |", flush=True)
        with open(few, "w", encoding="ascii") as file:
            file.write('{"sources":{},"version":1}')
        for what, words in (
            ("`scrub`, a page", ["scrub", "--db", names[0]]),
            ("`scrub --all`", ["scrub", "--db", names[0], "--all"]),
            ("`delta --all` of an empty summary", ["delta", "--db", names[0], "--all", few]),
            ("`summary`", ["summary", "--db", names[0]]),
            ("`kinds --db`", ["kinds", "--db", names[0]]),
            ("`kinds` of the batch", ["kinds", batch]),
            ("`cover --db`", ["cover", "--db", names[0]]),
            ("`cover` of the batch", ["cover", batch]),
        ):
            it = self.turns([[self.given.program, *words]])[0]
            print(f"| {what} | {it.text()} | {middle(it.clock):.2f} s |", flush=True)
        gone()

    def million(self) -> None:
        """Forty files, and the memory that grows from twenty of them to all: that of the files and what is kept."""
        paths = [self.batch(f"many{i}") for i in range(1, 41)]
        sizes = [os.path.getsize(it) for it in paths]
        self.heads(f"a million events with data in forty files, {sum(sizes) / 1e6:.0f} MB")
        self.question("`cover`", ["cover", *paths])
        half, whole = self.turns([[self.given.program, "cover", *it] for it in (paths[:20], paths)])
        shown = subprocess.run([self.given.program, "shown", *paths], stdout=subprocess.PIPE, check=True).stdout
        events, text = shown.count(b"\n"), len(shown)
        kept = 2 * (whole.memory - half.memory - sum(sizes[20:]))
        print(f"\n{events} events of {text / 1e6:.0f} MB of canonical text; kept of them are {kept / 1e6:.0f} MB: ", end="")
        print(f"{kept / text:.2f} times the text, or the text and {(kept - text) / events:.0f} bytes an event")

        if self.given.hold:
            database = f"{self.folder}/million.db"
            subprocess.run([self.given.program, "take", "--db", database, *paths], stdout=subprocess.DEVNULL, check=True)
            print(f"\na site held open over them, the least of the middles of {self.given.rounds} rounds, by the clock:\n")
            for name, micros in self.held_open([self.given.hold, database], database).items():
                print(f"{name}: {micros:,} us")

    def held_open(self, words: list[str], database: str) -> dict[str, int]:
        """What a program that holds a database open printed, of each line the least of the rounds, each over a copy of it."""
        lines, none, copy = f"{self.folder}/held", f"{self.folder}/none", f"{self.folder}/copy.db"
        with open(lines, "w", encoding="ascii") as file:
            file.write(held_lines("/held"))
        with open(none, "w", encoding="ascii") as file:
            file.write('{"sources":{},"version":1}\n')
        found: dict[str, int] = {}
        for _ in range(self.given.rounds):
            shutil.copyfile(database, copy)
            said = subprocess.run([*words[:-1], copy, lines, none], stdout=subprocess.PIPE, text=True, check=True).stdout
            for name, micros in re.findall(r"^(.*): (\d+) us$", said, re.M):
                found[name] = min(int(micros), found.get(name, int(micros)))
        for end in ("", "-wal", "-shm", "-journal"):
            if os.path.exists(copy + end):
                os.remove(copy + end)
        return found

    def held(self) -> None:
        """A site that a process holds open, beside a plain program over rusqlite and a map."""
        if not self.given.hold or not self.given.plain_tables:
            print("held: wants --hold and PLAIN_TABLES", file=sys.stderr)
            return
        batch, ours, plain = self.batch("plain"), f"{self.folder}/held.db", f"{self.folder}/held-plain.db"
        subprocess.run([self.given.program, "take", "--db", ours, batch], stdout=subprocess.DEVNULL, check=True)
        subprocess.run([self.given.plain_tables, "take", plain, batch], stdout=subprocess.DEVNULL, check=True)
        both = [self.held_open([self.given.hold, ours], ours), self.held_open([self.given.plain_tables, "hold", plain], plain)]
        print("\n| a site held open over 120,000 events | the library | rusqlite and a map | ratio |\n|---|---|---|---|")
        for name, micros in both[0].items():
            other = both[1].get(name)
            print(f"| {name} | {micros:,} us | {f'{other:,} us' if other else ''} | {f'{micros / other:.2f}' if other else ''} |")

    def run(self, group: str) -> None:
        if group in ("files", "tables", "streams", "held", "million"):
            getattr(self, group)()
        else:
            self.questions("plain" if group == "questions" else group)


def main() -> int:
    words = argparse.ArgumentParser(description=__doc__, formatter_class=argparse.RawDescriptionHelpFormatter)
    words.add_argument("plain")
    words.add_argument("plain_tables", nargs="?")
    words.add_argument("--program", default=f"{TOP}/crates/site_cli/out/site_cli")
    words.add_argument("--hold")
    words.add_argument("--rounds", type=int, default=3)
    words.add_argument("--threads", type=int, default=0)
    words.add_argument("--folder")
    words.add_argument("--groups", nargs="*", choices=GROUPS, default=GROUPS[:-2])
    given = words.parse_args()
    given.program, given.plain = os.path.realpath(given.program), os.path.realpath(given.plain)
    if given.plain_tables:
        given.plain_tables = os.path.realpath(given.plain_tables)
    if given.hold:
        given.hold = os.path.realpath(given.hold)
    with tempfile.TemporaryDirectory() as own:
        bench = Bench(given, os.path.realpath(given.folder or own))
        for it in given.groups:
            bench.run(it)
    return 0 if bench.well else 1


if __name__ == "__main__":
    sys.exit(main())
