"""What `take`, `run` and `follow` show on a terminal of how far they came: one line, which is gone in the end; and that they are
silent on a pipe."""
from typing import NamedTuple

import pytest
from events import acknowledgement, batch, event, lines
from old_files import downgrade
from shell import Room, Said, Stage
from terminal import AWAY, TERMINAL, run_on_terminal

# What is shown goes by the clock.
pytestmark = [pytest.mark.alone, TERMINAL]


def some(source: str, count: int) -> list[str]:
    return [event(f"{source}-{it}", it, source=f"/{source}") for it in range(1, count + 1)]


FILES = {
    "a": batch(*some("a", 2500)),
    "b": batch(*some("b", 2500)),
    "one": event("c-1", 1, source="/c"),
    "lines": lines(*some("c", 2500)),
    "faulty": lines(*some("d", 1500), "no"),
    "void": "",
}
HELD = 'read 5000 refused 0 held 5000\n{"sources":{"/a":[[1,2500]],"/b":[[1,2500]]},"version":1}\n'
# What is said of both files, and of files whose events are there.
NEW = {"take": "read 5000 new 5000 repeated 0\n", "run": HELD}
AGAIN = {"take": "read 5000 new 0 repeated 5000\n", "run": HELD}
# What is said of the lines, and of lines whose events are there.
NEW_LINES = "".join(acknowledgement(it, 1, 0) for it in range(1, 2501))
LINES_AGAIN = "".join(acknowledgement(it, 0, 1) for it in range(1, 2501))


class Shown(NamedTuple):
    """What came of a line that was typed on a terminal, and what stood there, one behind the other."""

    room: Room
    typed: str
    status: int
    out: str
    each: list[str]

    @property
    def is_gone(self) -> bool:
        """Nothing stood there before the first line of progress, and nothing does in the end."""
        return (self.each[0], self.each[-1]) == ("", "")


def show(room: Room, typed: str) -> Shown:
    status, out, seen = run_on_terminal(room, typed)
    return Shown(room, typed, status, out, seen.split(AWAY))


def make_desk(stage: Stage) -> Room:
    """A folder with the files."""
    room = stage.room()
    room.put(FILES)
    return room


@pytest.fixture(scope="module")
def desk(stage: Stage) -> Room:
    return make_desk(stage)


@pytest.fixture(scope="module", params=NEW)
def kept(request: pytest.FixtureRequest, stage: Stage) -> tuple[str, Shown]:
    """A command, and what it shows of two files."""
    return request.param, show(make_desk(stage), f"site {request.param} --db s.db a b")


@pytest.fixture(scope="module")
def moved(stage: Stage) -> Shown:
    """An event that is taken into a file of before, whose 5,000 events then come into the table of now."""
    room = make_desk(stage)
    room.run("site take --db now.db a b")
    downgrade("now.db", "old.db")(room)
    return show(room, "site take --db old.db one")


@pytest.fixture(scope="module")
def followed(stage: Stage) -> Shown:
    return show(make_desk(stage), "site follow --db s.db lines")


# Two files.


def test_answer(kept: tuple[str, Shown]) -> None:
    assert (kept[1].status, kept[1].out) == (0, NEW[kept[0]])


def test_files_that_are_left(kept: tuple[str, Shown]) -> None:
    assert kept[1].each[1:3] == ["site: files left to read: 2", "site: files left to read: 1"]


def test_events_that_are_kept(kept: tuple[str, Shown]) -> None:
    assert any(it.startswith("site: ") and it.endswith(" events kept") for it in kept[1].each[3:])


def test_line_that_is_gone(kept: tuple[str, Shown]) -> None:
    assert kept[1].is_gone


def test_silence_on_a_pipe(kept: tuple[str, Shown]) -> None:
    assert kept[1].room.run(kept[1].typed) == (0, AGAIN[kept[0]], "")


# A file of before.


def test_answer_of_a_file_of_before(moved: Shown) -> None:
    assert (moved.status, moved.out) == (0, "read 1 new 1 repeated 0\n")


def test_events_in_the_new_table(moved: Shown) -> None:
    assert any(" of 5000 events kept" in it for it in moved.each)


def test_line_of_a_file_of_before_that_is_gone(moved: Shown) -> None:
    assert moved.is_gone


# Lines.


def test_answers_of_lines(followed: Shown) -> None:
    assert (followed.status, followed.out) == (0, NEW_LINES)


def test_lines_that_are_done_with(followed: Shown) -> None:
    """Some of them first, then no fewer, and all in the end."""
    counts = [int(it.removeprefix("site: lines followed: ")) for it in followed.each[1:-1]]
    assert counts == sorted(counts)
    assert 0 < counts[0] < 2500
    assert counts[-1] == 2500


def test_line_of_lines_that_is_gone(followed: Shown) -> None:
    assert followed.is_gone


def test_silence_of_lines_on_a_pipe(followed: Shown) -> None:
    assert followed.room.run(followed.typed) == (0, LINES_AGAIN, "")


def test_answers_alone_where_they_go_there_too(followed: Shown) -> None:
    assert run_on_terminal(followed.room, followed.typed, has_both=True) == (0, "", LINES_AGAIN.replace("\n", "\r\n"))


def test_faulty_words(followed: Shown) -> None:
    status, out, seen = run_on_terminal(followed.room, "site follow --db s.db void lines")
    assert (status, out) == (2, "")


# Refusals, each with a hint behind it, where the progress stood.


def test_refused_lines(followed: Shown) -> None:
    status, out, seen = run_on_terminal(followed.room, "site follow --db s.db faulty")
    assert status == 1
    assert f"{AWAY}site: 1 lines refused\r\nsite: hint: " in seen


@pytest.mark.parametrize("command", NEW)
def test_refused_file(command: str, desk: Room) -> None:
    status, out, seen = run_on_terminal(desk, f"site {command} --db void.db void")
    assert (status, out) == (1, "")
    assert f"{AWAY}site: void: not JSON\r\nsite: hint: it is empty" in seen


def test_question_that_shows_nothing(desk: Room) -> None:
    assert run_on_terminal(desk, "site cover a") == Said(0, '{"sources":{"/a":[[1,2500]]},"version":1}\n', "")
