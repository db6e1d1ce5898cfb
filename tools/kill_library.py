#!/usr/bin/env python3
"""Kills a process by SIGKILL while eight callers wait on one site over a file, and looks what the file has.

    tools/kill_library.py [--rounds N] [--library FILE]     by default 1,000 rounds, and the library is made

In each round a process opens the file and lets eight threads offer bodies, of 1 to 4 events each, every fifth of them
at fault; one thread takes all that wait by `take_each`, in one transaction, and each caller writes down what it was
answered once it is answered. The process is killed at a moment of chance, in the middle of a transaction mostly. Then
the file is opened again: it has each body that was answered, each body whole or not at all, no event twice, the bodies
of one caller in their order, and what came before at the same numbers. The last line is 'N passed, M failed'; a file
at fault is kept, and told.
"""
import argparse
import json
import os
import queue
import random
import shutil
import signal
import subprocess
import sys
import tempfile
import threading
from typing import Iterator

sys.dont_write_bytecode = True
TOP = os.path.dirname(os.path.dirname(os.path.realpath(__file__)))
CALLERS = 8


def body(caller: int, turn: int) -> bytes:
    """The events of a caller's body: their ids name it, and say which of how many each is."""
    count = turn % 4 + 1
    made = [
        {
            "specversion": "1.0",
            "id": f"{caller} {turn} {at} {count}",
            "source": f"/caller/{caller}",
            "type": "t",
            "sequence": f"{turn * 4 + at + 1:020d}",
        }
        for at in range(count)
    ]
    return json.dumps(made).encode()


def is_at_fault(turn: int) -> bool:
    return turn % 5 == 4


def taker(path: str, turns: list[int], answers: int) -> None:
    """Takes what eight callers offer, from these turns on, until it is killed."""
    import jumbetai

    site = jumbetai.Site(path)
    waiting: queue.Queue[tuple[bytes, queue.Queue[object]]] = queue.Queue()

    def call(caller: int, turn: int) -> None:
        while True:
            told: queue.Queue[object] = queue.Queue()
            given = b"[{}]" if is_at_fault(turn) else body(caller, turn)
            waiting.put((given, told))
            came = told.get()
            is_taken = isinstance(came, jumbetai.Taken) and came.fresh + came.repeated == turn % 4 + 1
            if is_at_fault(turn) == is_taken:
                os.write(answers, f"{caller} {turn} wrong {came!r}\n".encode())
            elif is_taken:
                os.write(answers, f"{caller} {turn} taken\n".encode())
            turn += 1

    for caller, turn in enumerate(turns):
        threading.Thread(target=call, args=(caller, turn), daemon=True).start()
    os.write(answers, b"open\n")
    while True:
        bodies = [waiting.get()]
        while len(bodies) < CALLERS and not waiting.empty():
            bodies.append(waiting.get())
        for came, (_, told) in zip(site.take_each([given for given, _ in bodies]), bodies):
            told.put(came)


def found(path: str) -> list[str]:
    """The ids of the file's events, in the order in which they came."""
    import jumbetai

    with jumbetai.Site(path) as site:
        return [it["id"] for page in site.arrivals() for it in json.loads(page.json)]


def faults(ids: list[str], before: list[str], answered: list[tuple[int, int]]) -> Iterator[str]:
    """What is wrong with what the file has."""
    if ids[: len(before)] != before:
        yield "what came before stands elsewhere"
    if len(set(ids)) != len(ids):
        yield "an event is there twice"
    bodies: dict[tuple[int, int], list[tuple[int, int]]] = {}
    for it in ids:
        caller, turn, at, count = map(int, it.split())
        bodies.setdefault((caller, turn), []).append((at, count))
    for (caller, turn), has in bodies.items():
        if has != [(at, turn % 4 + 1) for at in range(turn % 4 + 1)]:
            yield f"body {turn} of caller {caller} is there in part: {has}"
    for caller, turn in answered:
        if (caller, turn) not in bodies:
            yield f"body {turn} of caller {caller} was answered, and is missing"
    for caller in range(CALLERS):
        turns = [turn for other, turn in bodies if other == caller]
        if turns != sorted(turns):
            yield f"the bodies of caller {caller} came in another order"


def round_of(path: str, before: list[str], chance: random.Random) -> tuple[list[str], int, list[str]]:
    """Lets callers take, kills them, and says what the file has then, how many were answered, and what is wrong."""
    turns = [0] * CALLERS
    for it in before:
        caller, turn = map(int, it.split()[:2])
        turns[caller] = max(turns[caller], turn + 1)
    ours, theirs = os.pipe()
    words = [sys.executable, __file__, "--take", path, "--turns", *map(str, turns), "--answers", str(theirs)]
    child = subprocess.Popen(words, pass_fds=[theirs])
    os.close(theirs)
    with os.fdopen(ours, "rb") as told:
        is_open = told.readline() == b"open\n"
        killer = threading.Timer(chance.uniform(0.001, 0.05), child.send_signal, [signal.SIGKILL])
        killer.start()
        lines = [it.decode() for it in told.read().splitlines()]
    killer.join()
    child.wait()
    wrong = [] if is_open and child.returncode == -signal.SIGKILL else [f"the process ended with {child.returncode}"]
    wrong += [it for it in lines if not it.endswith(" taken")]
    answered = [(int(it.split()[0]), int(it.split()[1])) for it in lines if it.endswith(" taken")]
    ids = found(path)
    return ids, len(answered), [*wrong, *faults(ids, before, answered)]


def main() -> int:
    words = argparse.ArgumentParser(description=__doc__, formatter_class=argparse.RawDescriptionHelpFormatter)
    words.add_argument("--rounds", type=int, default=1000)
    words.add_argument("--library", help="the shared object, in place of one that is made")
    words.add_argument("--take", help=argparse.SUPPRESS)
    words.add_argument("--turns", nargs=CALLERS, type=int, help=argparse.SUPPRESS)
    words.add_argument("--answers", type=int, help=argparse.SUPPRESS)
    given = words.parse_args()
    sys.path.insert(0, f"{TOP}/bindings/python")
    if given.take:
        taker(given.take, given.turns, given.answers)
    with tempfile.TemporaryDirectory(prefix="kill-library-") as folder:
        if given.library:
            os.environ["JUMBETAI_LIB"] = os.path.abspath(given.library)
        else:
            subprocess.run([f"{TOP}/tools/library.py", "--object", f"{folder}/libjumbetai.so"], check=True)
            os.environ["JUMBETAI_LIB"] = f"{folder}/libjumbetai.so"
        path, chance, right, answered, seed = f"{folder}/killed.db", random.Random(), 0, 0, random.getrandbits(32)
        ids: list[str] = []
        chance.seed(seed)
        for at in range(given.rounds):
            # A file of a few thousand events is opened at once.
            if len(ids) > 4000:
                ids = []
                for it in (path, f"{path}-wal"):
                    if os.path.exists(it):
                        os.remove(it)
            ids, count, wrong = round_of(path, ids, chance)
            answered, right = answered + count, right + (not wrong)
            if wrong:
                kept = tempfile.mkdtemp(prefix="kill-library-wrong-")
                shutil.copy(path, kept)
                print(f"wrong: round {at} of seed {seed}, kept in {kept}: {'; '.join(wrong[:5])}", flush=True)
        print(f"{answered} bodies were answered")
        print(f"{right} passed, {given.rounds - right} failed")
        return 0 if right == given.rounds and answered else 1


if __name__ == "__main__":
    sys.exit(main())
