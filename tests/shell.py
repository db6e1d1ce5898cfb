"""Rows of what is typed into a shell, and of what has to come of it.

`rows` makes a test of each row of a session: lines that are typed one behind the other in a folder of their own. Whichever
rows are asked for, those before them are played too, each once.
"""
import contextlib
import os
import signal
import sqlite3
import subprocess
from dataclasses import dataclass, field
from typing import Any, Callable, Iterator, Mapping, NamedTuple, Union

import pytest

TOP = os.path.dirname(os.path.dirname(os.path.realpath(__file__)))
# What a line may take, in seconds.
LONGEST = 120


class Said(NamedTuple):
    """What came of a line: its status, and what stands on standard output and on standard error."""

    status: int
    out: str = ""
    err: str = ""


class Room:
    """A folder in which lines are typed into bash. There `site` is the program, the status of a pipe is that of its last
    command that failed, standard input is empty, and $LEFT is a pipe whose reader has left."""

    def __init__(self, folder: str, commands: str, left: int) -> None:
        self.folder, self.left = folder, left
        self.environment = {**os.environ, "PATH": f"{commands}:{os.environ['PATH']}", "LEFT": str(left)}
        self.environment.pop("SITE_CACHE_MIB", None)
        os.makedirs(folder)

    def at(self, name: str) -> str:
        return os.path.join(self.folder, name)

    def put(self, files: Mapping[str, str]) -> None:
        """Writes files by their names and texts; a name that ends with / is a folder's."""
        for name, text in files.items():
            if name.endswith("/"):
                os.makedirs(self.at(name))
                continue
            with open(self.at(name), "wb") as it:
                it.write(text.encode())

    def contents(self, *names: str) -> dict[str, bytes]:
        """The bytes of the files of these names, or of all."""
        found = {}
        for name in names or os.listdir(self.folder):
            if os.path.isfile(self.at(name)):
                with open(self.at(name), "rb") as it:
                    found[name] = it.read()
        return found

    def start(self, typed: str, **how: Any) -> "subprocess.Popen[bytes]":
        """Types a line, whose streams stay with whoever asks."""
        words = [b"bash", b"-o", b"pipefail", b"-c", typed.encode()]
        how = {"stdin": subprocess.DEVNULL, "stdout": subprocess.PIPE, "stderr": subprocess.PIPE, **how}
        return subprocess.Popen(words, cwd=self.folder, env=self.environment, pass_fds=[self.left], **how)

    def run(self, typed: str, longest: float = LONGEST) -> Said:
        """Types a line, and waits for its end."""
        with self.start(typed, start_new_session=True) as ran:
            try:
                out, err = ran.communicate(timeout=longest)
            except subprocess.TimeoutExpired:
                os.killpg(ran.pid, signal.SIGKILL)
                raise
        return Said(ran.returncode, text_of(out), text_of(err))

    def sqlite(self, file: str, *statements: str) -> str:
        """What another program of SQLite answers to the last of the statements: a line a row, with | between its values."""
        with contextlib.closing(sqlite3.connect(self.at(file))) as base:
            found = [base.execute(it).fetchall() for it in statements]
            base.commit()
        return "".join("|".join(map(str, row)) + "\n" for row in found[-1])


def text_of(said: bytes) -> str:
    """What was written as a text, each byte that is none as a surrogate."""
    return said.decode("utf-8", "surrogateescape")


@dataclass(frozen=True)
class Has:
    """A text that isn't empty, and has this part, and this one."""

    part: str = ""
    other: str = ""

    def is_so(self, said: str, _: Room) -> bool:
        return bool(said) and self.part in said and self.other in said


@dataclass(frozen=True)
class Hint:
    """The line of a refusal, and behind it one line that says what to do, which has this part."""

    line: str
    part: str

    def is_so(self, said: str, _: Room) -> bool:
        hint = said.removeprefix(self.line)
        return said == self.line + hint and hint.startswith("site: hint: ") and self.part in hint and hint.find("\n") == len(hint) - 1


@dataclass(frozen=True)
class As:
    """The text that another line gives, typed behind this one, which ends with the status and says nothing else."""

    typed: str
    status: int = 0

    def is_so(self, said: str, room: Room) -> bool:
        return room.run(self.typed) == Said(self.status, said)


Wanted = Union[str, Has, Hint, As]
SOME = Has()


@dataclass(frozen=True)
class Row:
    """What is asked; what is typed or done; what stands on each stream then; and the status. Before it files are written.
    Behind it some files are as they were before it, and some aren't there: names with spaces between them. A slow one takes
    more than a second. Where what it wants isn't there, it is skipped."""

    what: str
    act: Union[str, Callable[[Room], Said]]
    out: Wanted = ""
    err: Wanted = ""
    status: int = 0
    files: Mapping[str, str] = field(default_factory=dict)
    keeps: str = ""
    lacks: str = ""
    is_slow: bool = False
    wants: tuple[pytest.MarkDecorator, ...] = ()

    def play(self, room: Room) -> list[str]:
        """What is wrong with it, line by line."""
        room.put(self.files)
        before = room.contents(*self.keeps.split()) if self.keeps else {}
        said = room.run(self.act) if isinstance(self.act, str) else self.act(room)
        found = [f"status: {said.status} in place of {self.status}"] * (said.status != self.status)
        for stream, text, wanted in (("standard output", said.out, self.out), ("standard error", said.err, self.err)):
            if text != wanted if isinstance(wanted, str) else not wanted.is_so(text, room):
                found.append(f"{stream}: {difference(text, wanted)}")
        if self.keeps and room.contents(*self.keeps.split()) != before:
            found.append(f"changed: {self.keeps}")
        return found + [f"made: {it}" for it in self.lacks.split() if os.path.lexists(room.at(it))]


def difference(said: str, wanted: Wanted) -> str:
    """What was said in place of what, from a little before where they part."""
    if not isinstance(wanted, str):
        return f"{said[:300]!r} in place of {wanted}"
    at = max(len(os.path.commonprefix([said, wanted])) - 40, 0)
    return f"{'.. ' * bool(at)}{said[at : at + 300]!r} in place of {wanted[at : at + 300]!r}"


def answers(what: str, typed: str, out: Wanted = "", **more: Any) -> Row:
    """A row of status 0."""
    return Row(what, typed, out, **more)


def finds(what: str, typed: str, out: Wanted, **more: Any) -> Row:
    """A row of status 1, whose lines stand on standard output."""
    return Row(what, typed, out, status=1, **more)


def refuses(what: str, typed: str, why: str, **more: Any) -> Row:
    """A row of status 1, whose one line stands on standard error."""
    return Row(what, typed, err=f"site: {why}\n", status=1, **more)


def fails(what: str, typed: str, **more: Any) -> Row:
    """A row of status 1 without a word, since there is nowhere to say it."""
    return Row(what, typed, status=1, **more)


def rejects(what: str, typed: str, err: Wanted = SOME, **more: Any) -> Row:
    """A row of status 2, of faulty words: what is wrong with them stands on standard error."""
    return Row(what, typed, err=err, status=2, **more)


def tells(what: str, typed: str, out: Wanted = SOME) -> Row:
    """A row of status 2, of help that is asked for: it stands on standard output."""
    return Row(what, typed, out, status=2)


def asks(what: str, file: str, statement: str, out: str = "") -> Row:
    """A row of what another program of SQLite sees in a file."""
    return Row(what, lambda room: Said(0, room.sqlite(file, statement)), out)


def lacks(what: str, names: str) -> Row:
    """A row by which no such file was made."""
    return Row(what, lambda _: Said(0), lacks=names)


# A row; a line that is typed without being one, which has to end with status 0; or what is done to the folder.
Step = Union[Row, str, Callable[[Room], object]]


def perform(step: Step, room: Room) -> list[str]:
    """Does a step, and answers what is wrong with it."""
    if isinstance(step, Row):
        return step.play(room)
    if not isinstance(step, str):
        step(room)
        return []
    said = room.run(step)
    return [f"typed before: {step}: {said}"] * bool(said.status)


class Session:
    """Steps in one folder."""

    def __init__(self, files: Mapping[str, str], steps: tuple[Step, ...]) -> None:
        self.files, self.steps = files, steps

    def play(self, room: Room) -> Iterator[list[str]]:
        """Plays the steps, and gives what is wrong with each row, or with what is done before it."""
        room.put(self.files)
        wrong: list[str] = []
        for it in self.steps:
            try:
                wrong += perform(it, room)
            except Exception as why:
                wrong.append(f"not done: {why!r}")
            if isinstance(it, Row):
                yield wrong
                wrong = []


class Stage:
    """Makes rooms, each with a folder of its own, and keeps how far each session is played."""

    def __init__(self, folder: str, program: str) -> None:
        self.folder, self.program, self.count = folder, program, 0
        self.played: dict[Session, tuple[list[list[str]], Iterator[list[str]]]] = {}
        os.mkdir(f"{folder}/bin")
        os.symlink(program, f"{folder}/bin/site")
        read, self.left = os.pipe()
        os.close(read)

    def room(self) -> Room:
        self.count += 1
        return Room(f"{self.folder}/{self.count}", f"{self.folder}/bin", self.left)

    def wrong(self, session: Session, at: int) -> list[str]:
        """What is wrong with a row of a session, by its place among the rows."""
        if session not in self.played:
            self.played[session] = [], session.play(self.room())
        found, rest = self.played[session]
        while len(found) <= at:
            found.append(next(rest))
        return found[at]


def rows(files: Mapping[str, str], *steps: Step) -> Callable[..., None]:
    """A test of each row of a session, which begins in a folder with these files."""
    session, every = Session(files, steps), [it for it in steps if isinstance(it, Row)]
    each = [pytest.param(at, id=it.what, marks=[*it.wants, *[pytest.mark.slow] * it.is_slow]) for at, it in enumerate(every)]

    @pytest.mark.parametrize("at", each)
    def test(at: int, stage: Stage) -> None:
        found = stage.wrong(session, at)
        if found:
            typed = every[at].act
            pytest.fail("\n".join([f"typed: {typed}"] * isinstance(typed, str) + found), pytrace=False)

    return test
