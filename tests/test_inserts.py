"""Events are put into a database as such that aren't there, and looked for by its index, by how many instructions the program takes.

No contract says by which statement an event is put in, or how it is looked for: the answer is the same. So instructions are counted,
which no load changes. To take a new event has 2.2 times the instructions of checking it; put in alone 2.75 times, and looked for first
some 4.4. To number an event again takes as many among a thousand others as among two hundred, and fewer than a new one where it
came lately. What `take` adds is written to the log once, which the greatest size of a file shows.
"""
import os
import random
import re
import shutil
import subprocess

import pytest
from shell import Room

FEW, MANY = 200, 600


def instructions(program: str, words: str, room: Room) -> int:
    """How many instructions a run of the program takes, which has to end with 0."""
    command = ["valgrind", "--tool=callgrind", "--callgrind-out-file=/dev/null", program, *words.split()]
    ran = subprocess.run(command, cwd=room.folder, stdin=subprocess.DEVNULL, capture_output=True, text=True, check=True)
    counted = re.search(r"Collected : (\d+)", ran.stderr)
    assert counted, ran.stderr
    return int(counted[1])


def more_for(program: str, words: str, room: Room) -> int:
    """How many instructions more a run over MANY events takes than one over FEW."""
    return instructions(program, words.format(MANY), room) - instructions(program, words.format(FEW), room)


@pytest.mark.slow
def test_new_events_are_put_in_without_a_search(program: str, room: Room) -> None:
    if not shutil.which("valgrind"):
        pytest.skip("valgrind isn't there")
    events = [f'{{"specversion":"1.0","id":"{it:07d}","source":"/s","type":"t","sequence":"{it:020d}"}}' for it in range(1, MANY + 1)]
    room.put({f"{count}.json": f"[{','.join(events[:count])}]" for count in (FEW, MANY)})
    ratio = more_for(program, "take --db {0}.db {0}.json", room) / more_for(program, "check {0}.json", room)
    assert ratio <= 2.7, f"{ratio:.2f} times the instructions of reading"


@pytest.mark.slow
def test_what_was_numbered_is_looked_for_by_the_index(program: str, room: Room) -> None:
    if not shutil.which("valgrind"):
        pytest.skip("valgrind isn't there")
    lines = [f'{{"specversion":"1.0","id":"{it:07d}","source":"/s","type":"t"}}\n' for it in range(1_000)]
    room.put({"200.lines": "".join(lines[:200]), "1000.lines": "".join(lines), "known": "".join(lines[:20]), "none": ""})
    more = {}
    for rows in (200, 1_000):
        subprocess.run([program, "number", "--db", f"{rows}.db", f"{rows}.lines"], cwd=room.folder, stdout=subprocess.DEVNULL, check=True)
        more[rows] = instructions(program, f"number --db {rows}.db known", room) - instructions(program, f"number --db {rows}.db none", room)
    ratio = more[1_000] / more[200]
    assert ratio <= 1.5, f"{ratio:.2f} times the instructions where five times as many rows are there"


@pytest.mark.slow
def test_what_was_numbered_lately_is_not_looked_for(program: str, room: Room) -> None:
    if not shutil.which("valgrind"):
        pytest.skip("valgrind isn't there")
    lines = "".join(f'{{"specversion":"1.0","id":"{it:07d}","source":"/s","type":"t"}}\n' for it in range(1_000))
    room.put({"none": "", "once": lines, "twice": lines * 2})
    none, once, twice = (instructions(program, f"number --db {it}.db {it}", room) for it in ("none", "once", "twice"))
    ratio = (twice - once) / (once - none)
    assert ratio <= 0.9, f"{ratio:.2f} times the instructions of new events"


def test_what_is_added_goes_to_the_log_once(room: Room) -> None:
    """Ids in no order, so that a page that went to the log before the end would be written again: no file grows past what is added."""
    numbers = list(range(1, 8_001))
    random.Random(1).shuffle(numbers)
    data = '"' + "x" * 1_500 + '"'
    events = (f'{{"specversion":"1.0","id":"{it:07d}","source":"/s","type":"t","sequence":"{it:020d}","data":{data}}}' for it in numbers)
    room.put({"events.json": f"[{','.join(events)}]"})
    answer = room.run("site take --db free.db events.json")
    assert answer.out == "read 8000 new 8000 repeated 0\n"
    size = os.path.getsize(room.at("free.db"))
    assert room.run(f"trap '' XFSZ; ulimit -f {size * 11 // 10 // 1024}; site take --db limited.db events.json") == answer
    assert os.path.getsize(room.at("limited.db")) == size
