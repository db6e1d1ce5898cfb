"""Batches are read member by member, by how much memory the program touches.

No contract says that a batch is read member by member, nor with several threads: an answer is the same where the whole batch
becomes one tree first. So page faults are counted, which are the same on every machine and under every load, but for a few.
A batch is read as a tree where a run touches some 15 bytes for each of its bytes, and 80 where its data is nested.
"""
import os
import subprocess

import pytest
from shell import Room

PAGE = os.sysconf("SC_PAGE_SIZE")
SIZE = 4_000_000


def event(place: int, more: str) -> str:
    """An event of one source, with more members."""
    return f'{{"specversion":"1.0","id":"{place:07d}","source":"/s","type":"t","sequence":"{place + 1:020d}"{more}}}'


def large_batch(more: str, *last: str) -> str:
    """A batch of about SIZE bytes, whose events have more members, with others behind them."""
    return "[" + ",\n".join([*(event(it, more) for it in range(SIZE // len(event(0, more)))), *last]) + "]"


NESTED = ',"data":' + "[" * 40 + "]" * 40
DATA = ',"data":{"amount":17,"lines":[' + ",".join(['{"sku":"a-17","count":3}'] * 8) + "]}"


def pages_touched(program: str, words: str, room: Room) -> tuple[int, int]:
    """The status of a run of the program, without a shell, and how many pages it touched."""
    none = subprocess.DEVNULL
    with subprocess.Popen([program, *words.split()], cwd=room.folder, stdin=none, stdout=none, stderr=none) as ran:
        _, status, used = os.wait4(ran.pid, 0)
        ran.returncode = os.waitstatus_to_exitcode(status)
    return ran.returncode, used.ru_minflt


# Words, what events have more, a member behind them, the status, and the most bytes that the run may touch for each byte.
@pytest.mark.parametrize(
    ("words", "more", "last", "status", "most"),
    [
        pytest.param("cover", "", (), 0, 14, id="events without data"),
        pytest.param("cover", DATA, (), 0, 6, id="events with data"),
        pytest.param("cover", NESTED, (), 0, 8, id="events with nested data"),
        pytest.param("cover", DATA, ("{}",), 1, 11, id="a bad last member"),
        pytest.param("cover", NESTED, ("{}",), 1, 13, id="a bad last member, nested"),
        pytest.param("check", DATA, ("{}",), 1, 8, id="what is wrong with each member"),
        pytest.param("take --db new.db", DATA, (), 0, 14, id="events that are kept"),
    ],
)
def test_memory_that_is_touched(words: str, more: str, last: tuple[str, ...], status: int, most: int, program: str, room: Room) -> None:
    batch = large_batch(more, *last)
    room.put({"batch.json": batch})
    ended, count = pages_touched(program, f"{words} batch.json", room)
    touched = count * PAGE / len(batch)
    assert (ended, touched <= most) == (status, True), f"{touched:.2f} bytes touched for each byte"
