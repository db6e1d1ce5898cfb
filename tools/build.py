#!/usr/bin/env python3
"""Proves the program's crates and builds the program, side by side by what stands on what.

    tools/build.py [--jobs N] [CRATE..]      by default site_cli, with what it stands on

As many crates at once as there are processors and memory (2 GB each). The one for which most waits is proved by as many
processes as there are processors, and each other by one, since several do some work twice; fewer crates than processors
share them. Of crates side by side the system gives that the most time for which most waits, and what it leaves goes to
the others. What is built as its sources are is left as it is, also where `rt ci` left it (crates/NAME/out/rlib). A
library goes to crates/NAME/out/built, as the statements that the crates above it rest on, which is what `rt ci` makes
too; the program, and a static library as libNAME.a, go to crates/NAME/out. `rt` itself lets one command at a time work
in a crate and in those below it, so `rattle` is called as `rt` calls it.

How far it is stands on standard error: on one line that is rewritten where that is a terminal, else a line a crate.
What each crate took is kept, and tells the next time how long is left to wait.
"""

import argparse
import contextlib
import os
import re
import shutil
import subprocess
import sys
import tempfile
import time
from typing import Any, Iterable, Iterator, Optional

from kept import SOURCES, Crates, Sums

TOP = os.path.dirname(os.path.dirname(os.path.realpath(__file__)))
PROGRAM = "site_cli"
MEMORY_EACH = 2_000_000_000
BUILT, OF_RT = "built", "rlib"
FUNCTION = re.compile(r"^\s*(?:pub(?:\([a-z]+\))? )?(?:const |unsafe )*fn ", re.M)


def crates_listed(top: str = TOP) -> Crates:
    """The crates of crates.txt, each with those of the repository and those of the kit that it uses."""
    lines = {}
    with open(f"{top}/crates.txt", encoding="utf-8") as it:
        for line in it:
            head, colon, names = line.partition(":")
            if colon and not line.lstrip().startswith("#"):
                lines[head.split()[0]] = names.split()
    return {name: ([it for it in names if it in lines], [it for it in names if it not in lines]) for name, names in lines.items()}


def reached(crates: Crates, roots: Iterable[str]) -> list[str]:
    """The roots and the crates that they stand on, each after those that it uses."""
    order = []

    def visit(name: str) -> None:
        if name not in order:
            for below in crates[name][0]:
                visit(below)
            order.append(name)

    for root in roots:
        visit(root)
    return order


def kit() -> str:
    """The folder of the Rattle kit."""
    return os.path.dirname(subprocess.run(["rt", "doc"], capture_output=True, text=True, check=True).stdout.strip())


def free_memory() -> int:
    with open("/proc/meminfo", encoding="ascii") as it:
        found = re.search(r"MemAvailable:\s+(\d+)", it.read())
    return 1024 * int(found[1]) if found else 0


def lanes_for(jobs: int) -> int:
    """How many checks run side by side: as many as asked for, else as there are processors and memory."""
    return jobs or max(1, min(len(os.sched_getaffinity(0)), int(free_memory() // MEMORY_EACH)))


def is_program(name: str) -> bool:
    return os.path.exists(f"{TOP}/crates/{name}/src/main.rt")


def is_static(name: str) -> bool:
    """Whether a crate is a static library, as crates.txt says."""
    with open(f"{TOP}/crates.txt", encoding="utf-8") as it:
        return any(line.split(":")[0].split() == [name, "staticlib"] for line in it)


def sources(name: str) -> Iterator[str]:
    """The files that a crate is made of."""
    for part in SOURCES:
        for at, _, files in os.walk(f"{TOP}/crates/{name}/{part}"):
            yield from (f"{at}/{it}" for it in files)


def made_of(name: str, folder: Optional[str] = None) -> str:
    """The file below a crate's out/ that tells that it is built."""
    if is_program(name):
        return name
    return f"lib{name}.a" if is_static(name) else f"{folder or BUILT}/{name}.rlib/format"


class Made:
    """Which crates are built as their sources are.

    Beside what is built stands a note of what it was built from: the sum of its sources, of those of the crates below
    and of the kit. What has no note was built by `rt`, and counts where it is newer than all these sources.
    """

    def __init__(self, crates: Crates) -> None:
        self.crates, self.sums = crates, Sums(TOP, crates, kit())
        self.changed: dict[str, float] = {}

    @staticmethod
    def note_of(name: str, file: str) -> str:
        return f"{TOP}/crates/{name}/out/{file.split('/')[0]}.sum"

    @staticmethod
    def stamp(name: str, file: str) -> str:
        """What tells whether something else was built in its place."""
        found = os.stat(f"{TOP}/crates/{name}/out/{file}")
        return f"{found.st_ino} {found.st_size} {found.st_mtime_ns}"

    def note(self, name: str, file: str, total: str) -> None:
        """Notes what a crate was built from."""
        with open(self.note_of(name, file), "w", encoding="ascii") as it:
            it.write(f"{total}\n{self.stamp(name, file)}\n")

    def changed_last(self, name: str) -> float:
        """When a source of the crate or of one below it was last written."""
        if name not in self.changed:
            own = [os.path.getmtime(it) for it in [*sources(name), f"{TOP}/crates.txt"]]
            self.changed[name] = max([*own, *(self.changed_last(it) for it in self.crates[name][0])])
        return self.changed[name]

    def is_made(self, name: str, file: str) -> bool:
        """Whether a file below the crate's out/ was built from what is there now."""
        if not os.path.exists(f"{TOP}/crates/{name}/out/{file}"):
            return False
        with contextlib.suppress(OSError, ValueError), open(self.note_of(name, file), encoding="ascii") as it:
            total, stamp = it.read().splitlines()
            if stamp == self.stamp(name, file):
                return total == self.sums.of(name)
        return self.changed_last(name) <= os.path.getmtime(f"{TOP}/crates/{name}/out/{file}")

    def folder(self, name: str) -> Optional[str]:
        """The folder of out/ where the library is as its sources are: where `rt` leaves it, or where this script puts it."""
        return next((it for it in (OF_RT, BUILT) if self.is_made(name, made_of(name, it))), None)

    def folders(self, names: list[str]) -> dict[str, str]:
        """The folders of libraries, those that aren't built as this script will build them."""
        return {it: self.folder(it) or BUILT for it in names if not is_program(it) and not is_static(it)}

    def stale(self, names: list[str]) -> list[str]:
        """Those of the crates, in their order, that aren't built as their sources are."""
        return [it for it in names if not (self.is_made(it, made_of(it)) or self.is_made(it, made_of(it, OF_RT)))]


def clear_of_rt(made: Made) -> None:
    """Removes the libraries that `rt` left, where one isn't as its sources are: else `rt ci` puts them back behind its run."""
    there = [it for it in made.crates if os.path.exists(f"{TOP}/crates/{it}/out/{OF_RT}")]
    if not all(made.is_made(it, made_of(it, OF_RT)) for it in there):
        for name in there:
            shutil.rmtree(f"{TOP}/crates/{name}/out/{OF_RT}", ignore_errors=True)


def note_of_rt(before: Made) -> None:
    """Notes of what `rt ci` left what it was built from, where no source changed since `before`: it takes libraries of
    earlier runs too, which are older than a new clone's sources."""
    after = Made(crates_listed())
    for name in after.crates:
        file = made_of(name, OF_RT)
        is_there = not is_static(name) and os.path.exists(f"{TOP}/crates/{name}/out/{file}")
        if is_there and name in before.crates and before.sums.of(name) == after.sums.of(name):
            after.note(name, file, after.sums.of(name))


def words_of(crates: Crates, name: str, folders: dict[str, str], where: str) -> list[str]:
    """The words by which `rattle` reads the crate in the current folder, over libraries each in its folder of out/."""
    own, of_kit = crates[name]
    words = ["--crate-name", name, f"src/{'main' if is_program(name) else 'lib'}.rt", "-L", f"dependency={where}/rlibs"]
    for library in ["std", *of_kit]:
        words += ["--extern", f"{library}={where}/rlibs/{library}.rlib"]
    for library in own:
        words += ["--extern", f"{library}={TOP}/crates/{library}/out/{folders[library]}/{library}.rlib"]
    for library in reached(crates, own):
        words += ["-L", f"dependency={TOP}/crates/{library}/out/{folders[library]}"]
    words += ["--antt-project", f"{where}/rattle/logic/antt-project.json", "--logic-built", f"{where}/logic_built"]
    return [*words, *["--crate-type", "staticlib"] * is_static(name), "--links", f"{name}="]


class Build:
    """One crate's proof and building, running."""

    def __init__(self, crates: Crates, name: str, jobs: int, nice: int, where: str, folders: dict[str, str]) -> None:
        self.name, self.started, self.processor = name, time.monotonic(), 0.0
        self.folder = f"{TOP}/crates/{name}"
        self.log = tempfile.TemporaryFile("w+", errors="replace")
        words = ["rattle", "build", *words_of(crates, name, folders, where), "--jobs", str(jobs)]
        made, compiled = f"out/{name}", f"out/{name}.o"
        tools = ["--toolchain", f"{where}/toolchain"]
        if is_program(name):
            link = ["rattle-link", "--target", "x86_64-unknown-linux-gnu", *tools, "-o", f"{made}.new", compiled]
            link += [f"{where}/c/libos_c.a", f"{where}/c/liblibc_c.a"]
            steps = [[*words, *tools, "--backend", "llvm", "-o", compiled], link, ["mv", f"{made}.new", made]]
        elif is_static(name):
            made = f"out/lib{name}.a"
            steps = [[*words, *tools, "--backend", "llvm", "-o", f"{made}.new"], ["mv", f"{made}.new", made]]
        else:
            os.makedirs(f"{self.folder}/out/{BUILT}", exist_ok=True)
            steps = [[*words, "--statements", "-o", f"out/{BUILT}/{name}.rlib"]]
        os.makedirs(f"{self.folder}/out", exist_ok=True)
        script = " && ".join(f'"${{@:{at + 1}:{count}}}"' for at, count in spans(steps))
        how: dict[str, Any] = {"cwd": self.folder, "stdin": subprocess.DEVNULL, "stdout": self.log, "stderr": subprocess.STDOUT}
        how["env"] = {**os.environ, "PATH": f"{os.environ.get('PATH', '')}:{where}/bin"}
        words = ["nice", "-n", str(nice), "bash", "-c", script, "bash", *sum(steps, [])]
        # A group of its own, by which it is ended, and no session: Linux shares processors out by sessions first, so that
        # nice would not tell.
        self.process = subprocess.Popen(words, preexec_fn=os.setpgrp, **how)

    def seconds(self) -> float:
        return time.monotonic() - self.started

    def said(self) -> str:
        self.log.seek(0)
        return self.log.read()

    def has_ended(self) -> bool:
        """Whether its process has ended, whose processor time is then known."""
        if self.process.returncode is None:
            pid, status, used = os.wait4(self.process.pid, os.WNOHANG)
            if pid:
                self.process.returncode = os.waitstatus_to_exitcode(status)
                self.processor = used.ru_utime + used.ru_stime
        return self.process.returncode is not None

    def note_time(self) -> None:
        with open(f"{self.folder}/out/build.seconds", "w", encoding="ascii") as it:
            it.write(f"{self.processor:.0f}\n")

    def end(self) -> None:
        if not self.has_ended():
            os.killpg(self.process.pid, 15)
            self.process.wait()
        self.log.close()


def spans(steps: list[list[str]]) -> Iterator[tuple[int, int]]:
    """Where each step's words begin in the list of all, and how many they are."""
    at = 0
    for words in steps:
        yield at, len(words)
        at += len(words)


def functions(name: str) -> int:
    """How many functions a crate's text has."""
    count = 0
    for file in sources(name):
        if file.endswith(".rt"):
            with open(file, encoding="utf-8", errors="replace") as it:
                count += len(FUNCTION.findall(it.read()))
    return count


def guess(name: str, depth: int) -> float:
    """About how many processor seconds a crate takes: by its lines, its functions, and on how many crates it stands, one on
    the other, since a check reads them all first."""
    lines = 0
    for file in sources(name):
        with open(file, encoding="utf-8", errors="replace") as it:
            lines += it.read().count("\n")
    return 10 + 8 * depth + lines / 33 + functions(name)


def weight(name: str, depth: int) -> tuple[float, bool]:
    """The processor seconds that a crate took when it was last built, else a guess; and whether it is known."""
    try:
        with open(f"{TOP}/crates/{name}/out/build.seconds", encoding="ascii") as it:
            return float(it.read()), True
    except (OSError, ValueError):
        return guess(name, depth), False


def minutes(seconds: float) -> str:
    return f"{max(round(seconds), 0) // 60}:{max(round(seconds), 0) % 60:02}"


class Show:
    """How far something is, on standard error."""

    def __init__(self) -> None:
        self.is_terminal = sys.stderr.isatty()

    def line(self, text: str) -> None:
        if self.is_terminal:
            width = shutil.get_terminal_size().columns - 1
            sys.stderr.write(f"\r\033[K{text[:width]}")
            sys.stderr.flush()

    def say(self, text: str) -> None:
        sys.stderr.write(("\r\033[K" if self.is_terminal else "") + text + "\n")
        sys.stderr.flush()

    def over(self) -> None:
        if self.is_terminal:
            sys.stderr.write("\r\033[K")
            sys.stderr.flush()


class Plan:
    """Crates to build: what waits for what, how long each takes, and how far all are."""

    def __init__(self, names: list[str], made: Made) -> None:
        self.names, self.crates, self.made = names, made.crates, made
        self.folders = {**made.folders(reached(self.crates, names)), **dict.fromkeys(names, BUILT)}
        self.sums = {it: made.sums.of(it) for it in names}
        depths: dict[str, int] = {}
        for it in reached(self.crates, names):
            depths[it] = 1 + max((depths[below] for below in self.crates[it][0]), default=0)
        weights = {it: weight(it, depths[it]) for it in names}
        self.is_known = all(known for _, known in weights.values())
        self.weights = {it: seconds for it, (seconds, _) in weights.items()}
        self.functions = {it: functions(it) for it in names}
        self.behind = dict.fromkeys(names, 0.0)
        for name in reversed(names):
            self.behind[name] += self.weights[name]
            for below in self.crates[name][0]:
                if below in self.behind:
                    self.behind[below] = max(self.behind[below], self.behind[name])
        self.left, self.started = sorted(names, key=lambda it: -self.behind[it]), time.monotonic()
        self.running: list[Build] = []
        self.done: list[str] = []

    def ready(self) -> list[str]:
        """The crates that wait for nothing, those first that most waits for."""
        unmade = {*self.left, *(it.name for it in self.running)}
        return [it for it in self.left if not unmade.intersection(self.crates[it][0])]

    @staticmethod
    def processes(ahead: int, crowd: int, lanes: int) -> int:
        """By how many processes a crate is proved, where for so many of those that run more waits, and so many run or wait for
        a lane alone. Fewer crates than lanes share them."""
        if crowd < lanes:
            return lanes // crowd + (1 if ahead < lanes % crowd else 0)
        return lanes if ahead == 0 else 1

    def start(self, lanes: int, where: str) -> None:
        ready = self.ready()
        crowd = len(self.running) + len(ready)
        for name in ready:
            if len(self.running) >= lanes or self.running and free_memory() < MEMORY_EACH:
                break
            self.left.remove(name)
            ahead = sum(self.behind[it.name] >= self.behind[name] for it in self.running)
            jobs = self.processes(ahead, crowd, lanes)
            self.running.append(Build(self.crates, name, jobs, 5 * ahead, where, self.folders))

    def wait_left(self, lanes: int) -> float:
        """How many seconds are left, by the last build's times."""
        done = {it.name: min(it.seconds() * lanes / len(self.running), self.weights[it.name]) for it in self.running}
        ends = [self.behind[it] / lanes for it in self.left]
        ends += [(self.behind[it] - seconds) / lanes for it, seconds in done.items()]
        work = sum(self.weights[it] for it in self.left) + sum(self.weights[it] - seconds for it, seconds in done.items())
        return max([work / lanes, *ends])

    def far(self, lanes: int) -> str:
        done = sum(self.functions[it] for it in self.done)
        wait = f", {minutes(self.wait_left(lanes))} left by the last build" if self.is_known and self.running else ""
        now = ", ".join(it.name for it in self.running)
        crates = f"{len(self.done)} of {len(self.names)} crates, {done} of {sum(self.functions.values())} functions"
        return f"site: proved {crates} in {minutes(time.monotonic() - self.started)}{wait}; now {now}"


def note_built(plan: Plan, name: str) -> None:
    """Notes what a crate was built from, if that is what is still there: what changed meanwhile is built again."""
    now = Made(plan.crates).sums.of(name)
    plan.made.note(name, made_of(name), now if now == plan.sums[name] else "changed")


def build(names: list[str], lanes: int, show: Show, made: Made) -> Optional[tuple[str, str]]:
    """Builds crates; answers the name of the one that failed, with what it said, if any did."""
    plan, where = Plan(names, made), kit()
    try:
        while plan.left or plan.running:
            plan.start(lanes, where)
            time.sleep(0.2)
            for it in [it for it in plan.running if it.has_ended()]:
                plan.running.remove(it)
                if it.process.returncode:
                    return it.name, it.said()
                note_built(plan, it.name)
                it.note_time()
                it.end()
                plan.done.append(it.name)
                if not show.is_terminal:
                    took = f"{minutes(it.seconds())}, {it.processor:.0f} s of processor time"
                    show.say(f"site: proved {it.name} in {took} (crate {len(plan.done)} of {len(names)})")
            show.line(plan.far(lanes))
    finally:
        for it in plan.running:
            it.end()
        show.over()
    return None


def main() -> int:
    words = argparse.ArgumentParser(description=__doc__, formatter_class=argparse.RawDescriptionHelpFormatter)
    words.add_argument("--jobs", type=int, default=0, help="how many processors may be used")
    words.add_argument("crates", nargs="*")
    given = words.parse_args()
    if given.jobs:
        os.sched_setaffinity(0, sorted(os.sched_getaffinity(0))[: given.jobs])
    show, made = Show(), Made(crates_listed())
    failed = build(made.stale(reached(made.crates, given.crates or [PROGRAM])), lanes_for(given.jobs), show, made)
    if failed:
        log = f"{TOP}/crates/{failed[0]}/out/build.log"
        os.makedirs(os.path.dirname(log), exist_ok=True)
        with open(log, "w", encoding="utf-8") as it:
            it.write(failed[1])
        show.say(f"site: the build failed in {failed[0]} (see {log})")
        return 1
    return 0


if __name__ == "__main__":
    try:
        sys.exit(main())
    except KeyboardInterrupt:
        sys.exit(130)
