"""What tools/build.py and tools/library.py build anew and what they take, with a script in the prover's place."""
import os
import shutil
import subprocess
import sys
import tempfile
from typing import Iterator, Optional

import pytest
from build import Plan, guess
from copies import LOW, SMALL, Copy
from shell import TOP

pytestmark = pytest.mark.scripts

OLD = (946_684_800, 946_684_800)
# Notes of what `rt ci` left, as the gate makes them.
NOTE = """import sys
sys.path.insert(0, "tools")
import build
before = build.Made(build.crates_listed())
if sys.argv[1] == "clear":
    build.clear_of_rt(before)
else:
    build.note_of_rt(before)
"""
LIBRARY = """import sys
sys.path.insert(0, "tools")
import library
library.CRATE = "small"
print(library.proved_part("--anew" in sys.argv))
"""


class Built(Copy):
    """A repository of two crates that are built by a script in the prover's place."""

    def __init__(self, folder: str) -> None:
        super().__init__(folder)
        shutil.copy(f"{TOP}/tools/library.py", f"{self.top}/tools/library.py")
        self.write("top/note.py", NOTE)
        self.write("top/library.py", LIBRARY)

    def ran(self, words: list[str], top: Optional[str] = None) -> tuple[int, str, list[str]]:
        """The status of a command, what it said, and which crates the prover built."""
        built = f"{self.folder}/asked.built"
        with open(built, "w", encoding="utf-8"):
            pass
        more = {"PATH": f"{self.folder}/bin:{os.environ['PATH']}", "JUMBETAI_KEPT": f"{self.folder}/kept", "ASKED": f"{self.folder}/asked"}
        ran = subprocess.run(words, cwd=top or self.top, env={**os.environ, **more, "PYTHONDONTWRITEBYTECODE": "1"}, capture_output=True, text=True)
        with open(built, encoding="utf-8") as it:
            return ran.returncode, (ran.stdout + ran.stderr).strip(), it.read().split()

    def build(self, top: Optional[str] = None) -> list[str]:
        return self.ran(["tools/build.py", "small"], top)[2]

    def rlib(self, name: str, times: Optional[tuple[float, float]] = None) -> None:
        """What `rt` leaves of a library, at a time."""
        self.write(f"top/crates/{name}/out/rlib/{name}.rlib/format", "built")
        if times:
            os.utime(f"{self.top}/crates/{name}/out/rlib/{name}.rlib/format", times)


@pytest.fixture
def copy() -> Iterator[Built]:
    """A repository of which nothing is built."""
    with tempfile.TemporaryDirectory(prefix="built-") as folder:
        yield Built(folder)


@pytest.fixture
def built(copy: Built) -> Built:
    """A repository of which all is built."""
    assert copy.build() == ["low", "small"]
    return copy


# What is built anew.


def test_nothing_is_built_twice(built: Built) -> None:
    assert built.build() == []


def test_source_that_was_written_again_as_it_was(built: Built) -> None:
    os.utime(f"{built.top}/crates/low/src/lib.rt")
    assert built.build() == []


@pytest.mark.parametrize(
    ("file", "text", "again"),
    [
        pytest.param("top/crates/small/src/lib.rt", SMALL + "\n", ["small"], id="a source of the upper crate"),
        pytest.param("top/crates/low/src/lib.rt", LOW + "\n", ["low", "small"], id="a source of the lower crate"),
        pytest.param("top/crates.txt", "low: std json\nsmall: low\n", ["low", "small"], id="another library below the lower crate"),
        pytest.param("kit/KIT-ID", "another kit\n", ["low", "small"], id="another kit"),
    ],
)
def test_change(file: str, text: str, again: list[str], built: Built) -> None:
    built.write(file, text)
    assert built.build() == again


def test_what_stands_in_the_place_of_what_was_built(built: Built) -> None:
    """It is taken where it is newer than its sources."""
    built.write("top/crates/low/out/built/low.rlib/format", "another")
    assert built.build() == []
    os.utime(f"{built.top}/crates/low/out/built/low.rlib/format", OLD)
    assert built.build() == ["low"]


def test_crates_share_a_session_and_each_has_a_group(built: Built) -> None:
    """The system shares processors out by sessions before it looks at nice, and a group is ended as one."""
    with open(f"{built.folder}/asked.sessions", encoding="ascii") as it:
        found = [line.split() for line in it]
    assert [session for session, _ in found] == [str(os.getsid(0))] * 2
    assert len({group for _, group in found} | {str(os.getpgrp())}) == 3


# What `rt` left.


def test_library_of_rt_that_is_newer_than_its_sources(copy: Built) -> None:
    copy.rlib("low")
    assert copy.build() == ["small"]


def test_library_that_rt_took_of_an_earlier_run(copy: Built) -> None:
    for it in ("low", "small"):
        copy.rlib(it, OLD)
    assert copy.ran([sys.executable, "note.py", "note"])[0] == 0
    assert copy.build() == []
    copy.write("top/crates/small/src/lib.rt", SMALL + "\n")
    assert copy.build() == ["small"]


def test_library_of_before_that_is_older_than_its_sources(copy: Built) -> None:
    for it in ("low", "small"):
        copy.rlib(it, OLD)
    assert copy.build() == ["low", "small"]
    copy.ran([sys.executable, "note.py", "clear"])
    assert not os.path.exists(f"{copy.top}/crates/low/out/rlib")


def test_library_that_is_as_its_sources_are_is_not_cleared(built: Built) -> None:
    built.rlib("low")
    built.ran([sys.executable, "note.py", "clear"])
    assert os.path.exists(f"{built.top}/crates/low/out/rlib")


# The archive of the library in C.
CALL = [sys.executable, "library.py"]
ARCHIVE = "crates/small/out/libsmall.a"


@pytest.fixture
def archived(copy: Built) -> Built:
    """A repository whose archive is built."""
    copy.write("top/crates.txt", "low: std\nsmall staticlib: low\n")
    status, said, built = copy.ran(CALL)
    assert (status, built, "0 kept, 1 built anew" in said) == (0, ["low", "small"], True), said
    return copy


def clone(copy: Built) -> str:
    """Another clone, of which nothing is built."""
    shutil.copytree(copy.top, f"{copy.folder}/clone", ignore=shutil.ignore_patterns("out"))
    return f"{copy.folder}/clone"


def test_archive_is_there(archived: Built) -> None:
    assert archived.ran(CALL) == (0, f"{archived.top}/{ARCHIVE}", [])


def test_another_clone_takes_the_archive(archived: Built) -> None:
    top = clone(archived)
    status, said, built = archived.ran(CALL, top)
    assert (status, built, "1 kept, 0 built anew" in said) == (0, [], True), said
    assert os.path.exists(f"{top}/{ARCHIVE}")


def test_archive_is_built_anew(archived: Built) -> None:
    assert archived.ran([*CALL, "--anew"])[2] == ["small"]


def test_archive_that_is_damaged(archived: Built) -> None:
    top = clone(archived)
    kept = next(it for it in os.listdir(f"{archived.folder}/kept/libraries") if it.endswith(".made"))
    with open(f"{archived.folder}/kept/libraries/{kept}", "w", encoding="ascii") as it:
        it.write("another")
    status, said, built = archived.ran(CALL, top)
    assert (status, built, "was damaged" in said) == (1, [], True), said
    assert archived.ran(CALL, top)[2] == ["low", "small"]


def test_source_below_the_archive_that_changed(archived: Built) -> None:
    archived.write("top/crates/low/src/lib.rt", LOW + "\n")
    assert archived.ran(CALL)[2] == ["low", "small"]


@pytest.mark.parametrize(
    ("place", "ready", "wanted"),
    [
        pytest.param(0, 7, 4, id="the crate for which most waits has a process for each processor"),
        pytest.param(1, 7, 1, id="another has one where enough others wait"),
        pytest.param(1, 4, 1, id="and where there are as many as processors"),
        pytest.param(1, 2, 2, id="where there are fewer they share the processors"),
        pytest.param(0, 3, 2, id="what is left over is the first one's"),
        pytest.param(2, 3, 1, id="and not the last one's"),
        pytest.param(0, 1, 4, id="a crate alone has all"),
    ],
)
def test_processes(place: int, ready: int, wanted: int) -> None:
    assert Plan.processes(place, ready, 4) == wanted


def test_guess() -> None:
    """What has more lines is taken to last longer, and what stands higher."""
    assert guess("paging", 1) < guess("paging", 2) < guess("attributes", 1)
