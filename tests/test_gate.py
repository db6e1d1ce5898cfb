"""The gate in a repository of two crates, with scripts in the place of `rt`, the prover and the built program's tests: what turns it
red, what it takes of earlier runs, and what runs beside what."""
import os
import shutil
import subprocess
import sys
import tempfile
from importlib.machinery import SourceFileLoader
from importlib.util import module_from_spec, spec_from_loader
from typing import Iterator, NamedTuple, Optional

import pytest
import run_tests
from copies import Copy, kept_files
from shell import TOP

pytestmark = pytest.mark.scripts
GATE = spec_from_loader("gate", SourceFileLoader("gate", f"{TOP}/gate"))
assert GATE and GATE.loader
of_gate = module_from_spec(GATE)
GATE.loader.exec_module(of_gate)
# In the place of `rt`: `rt ci` leaves libraries, as old as those that it keeps, and the program, and says what a run says.
RT = """#!/bin/sh
[ "$1" = doc ] && { echo FOLDER/kit/START-HERE.md; exit; }
[ "$1" = ci ] || exit 2
echo "$RT_JOBS" >FOLDER/lanes
for it in low small; do
    rm -rf crates/$it/out
    mkdir -p crates/$it/out/rlib/$it.rlib
    echo built >crates/$it/out/rlib/$it.rlib/format
    touch -d 2020-01-01 crates/$it/out/rlib/$it.rlib/format
    echo "rt: $it proved"
done
if [ -e FOLDER/bad_row ]; then
    echo "rt: small: it wrote something else than crates/small/stdout"
    echo "rt: FAILED: small (run)"
    echo "1 passed, 1 failed"
    exit 1
fi
echo "rt: ok; handles allowed: Threads, Wait; done in this run: 1 of the 2 proofs (of crates and of their tests); the others are kept"
echo "2 passed, 0 failed"
"""
# In the place of each script of the part `program`: it notes when it began and ended, with its words, and whether edits were
# tried then.
SCRIPT = """#!/bin/sh
name="$(basename "$0")${1:+ $*}"
echo "begin $name" >>FOLDER/order
[ "$name" = "run_tests.py -m library and not alone" ] && {
    i=0
    while ! grep -q 'begin try_edits' FOLDER/order && [ $i -lt 300 ]; do i=$((i + 1)); sleep 0.1; done
    echo "library: 1 kept, 0 built anew"
}
echo "end $name" >>FOLDER/order
[ "$name" = "$(cat FOLDER/bad_script)" ] && { echo "wrong: it"; echo "3 passed, 1 failed"; exit 1; }
echo "4 passed, 0 failed"
"""
# What notes when the edits began and ended.
EDITS = """#!/bin/sh
echo "begin try_edits" >>FOLDER/order
FOLDER/top/tools/try_edits_itself.py "$@"
status=$?
echo "end try_edits" >>FOLDER/order
exit $status
"""
BUILDS = "run_tests.py -m library and not alone"
OF_LIBRARY = [BUILDS]
OF_PROGRAM = ["run_tests.py -m not alone and not library and not scripts"]
ALONE = ["run_tests.py -m alone"]
FIRST = ["lint.py"]
OF_SCRIPTS = "run_tests.py -m scripts"
SCRIPTS = [*FIRST, *OF_LIBRARY, *OF_PROGRAM, *ALONE, OF_SCRIPTS]
# What `rt ci`, the edits and the scripts count.
COUNTS = 2 + 3 + 4 * len(SCRIPTS)
# The order of a run that ends behind the first part.
ONLY_FIRST = [f"{what} {it}" for it in FIRST for what in ("begin", "end")]


class Ran(NamedTuple):
    """The status of a gate, what it said, and the order in which its scripts began and ended."""

    status: int
    said: list[str]
    order: list[str]

    @property
    def end(self) -> tuple[int, str]:
        return self.status, self.said[-1]


class Tried(Copy):
    """A repository with the gate, whose edits are tried by the real script with a script in the prover's place."""

    def __init__(self, folder: str) -> None:
        super().__init__(folder)
        shutil.copy(f"{TOP}/gate", f"{self.top}/gate")
        os.rename(f"{self.top}/tools/try_edits.py", f"{self.top}/tools/try_edits_itself.py")
        self.write("bad_script", "none\n")
        self.write("bin/rt", RT.replace("FOLDER", folder))
        for it in {it.split()[0] for it in SCRIPTS}:
            self.write(f"top/tools/{it}", SCRIPT.replace("FOLDER", folder))
            os.chmod(f"{self.top}/tools/{it}", 0o755)
        self.write("top/tools/try_edits.py", EDITS.replace("FOLDER", folder))
        os.chmod(f"{self.top}/tools/try_edits.py", 0o755)

    def gate(self, *words: str) -> Ran:
        self.write("order", "")
        path = f"{self.folder}/bin:{os.environ['PATH']}"
        more = {"PATH": path, "JUMBETAI_KEPT": f"{self.folder}/kept", "ASKED": f"{self.folder}/asked", "PYTHONDONTWRITEBYTECODE": "1"}
        ran = subprocess.run([f"{self.top}/gate", *words], env={**os.environ, **more}, capture_output=True, text=True)
        with open(f"{self.folder}/order", encoding="utf-8") as it:
            return Ran(ran.returncode, ran.stdout.splitlines() + ran.stderr.splitlines(), it.read().splitlines())


@pytest.fixture(scope="module")
def first() -> Iterator[tuple[Tried, Ran]]:
    """A repository in which the gate ran once, and what came of it."""
    with tempfile.TemporaryDirectory(prefix="gate-tried-") as folder:
        copy = Tried(folder)
        yield copy, copy.gate()


@pytest.fixture(scope="module")
def copy(first: tuple[Tried, Ran]) -> Tried:
    return first[0]


@pytest.fixture(scope="module")
def run(first: tuple[Tried, Ran]) -> Ran:
    return first[1]


# A first run.


def test_first_run(run: Ran) -> None:
    assert run.end == (0, f"{COUNTS} passed, 0 failed"), run.said


def test_what_a_first_run_took(run: Ran) -> None:
    assert sorted(run.said[-4:-1]) == ["edits: 0 kept, 3 tried anew", "library: 1 kept, 0 built anew", "proofs: 1 kept, 1 tried anew"]


def test_scripts_beside_the_edits(run: Ran) -> None:
    assert run.order.index("begin try_edits") < run.order.index(f"end {BUILDS}"), run.order


def test_tests_of_scripts_before_the_edits(run: Ran) -> None:
    assert run.order.index(f"end {OF_SCRIPTS}") < run.order.index("begin try_edits"), run.order


@pytest.mark.parametrize("script", ALONE)
def test_script_alone_behind_the_edits(script: str, run: Ran) -> None:
    assert run.order.index(f"begin {script}") > run.order.index("end try_edits"), run.order


@pytest.mark.parametrize("lane", [FIRST, OF_LIBRARY, OF_PROGRAM, ALONE], ids=["the first part", "of the library", "of the program", "alone"])
def test_scripts_of_a_lane_in_turn(lane: list[str], run: Ran) -> None:
    own = [it for it in run.order if it.partition(" ")[2] in lane]
    assert own == [f"{what} {it}" for it in lane for what in ("begin", "end")], run.order


def test_nothing_beside_those_that_run_alone(run: Ran) -> None:
    assert run.order[-2 * len(ALONE)] == f"begin {ALONE[0]}", run.order


def test_times(copy: Tried, run: Ran) -> None:
    with open(f"{copy.top}/out/gate/times", encoding="utf-8") as it:
        times = it.read()
    assert [it for it in (*SCRIPTS, "try_edits.py") if f"tools/{it}: " not in times] == [], run.said


def test_libraries_that_rt_left_are_not_built(copy: Tried, run: Ran) -> None:
    assert not os.path.exists(f"{copy.top}/crates/small/out/built")


# Processors by memory.


@pytest.mark.parametrize(
    ("processors", "memory", "given", "wanted"),
    [(4, 22_000_000_000, None, ["env", "RT_JOBS=4"]), (4, 21_900_000_000, None, []), (2, 11_000_000_000, "3", [])],
    ids=["enough memory", "too little memory", "where it was told"],
)
def test_lanes(processors: int, memory: int, given: Optional[str], wanted: list[str], monkeypatch: pytest.MonkeyPatch) -> None:
    monkeypatch.delenv("RT_JOBS", raising=False)
    if given:
        monkeypatch.setenv("RT_JOBS", given)
    assert of_gate.lanes(processors, memory) == wanted


def test_lanes_that_were_told(copy: Tried, monkeypatch: pytest.MonkeyPatch) -> None:
    monkeypatch.setenv("RT_JOBS", "3")
    copy.gate()
    with open(f"{copy.folder}/lanes", encoding="ascii") as it:
        assert it.read() == "3\n"


# Later runs.


def test_second_run(copy: Tried, run: Ran) -> None:
    again = copy.gate()
    assert again.end == (0, f"{COUNTS} passed, 0 failed"), again.said
    assert "edits: 3 kept, 0 tried anew" in again.said


def test_run_anew(copy: Tried, run: Ran) -> None:
    assert "edits: 0 kept, 3 tried anew" in copy.gate("--anew").said


def test_row_that_is_answered_otherwise(copy: Tried) -> None:
    copy.write("bad_row", "")
    ran = copy.gate()
    os.remove(f"{copy.folder}/bad_row")
    assert (ran.end, ran.order) == ((1, "5 passed, 1 failed"), ONLY_FIRST), ran.said


def test_text_that_is_laid_out_otherwise(copy: Tried) -> None:
    copy.write("bad_script", "lint.py\n")
    ran = copy.gate()
    copy.write("bad_script", "none\n")
    assert (ran.end, ran.order) == ((1, "3 passed, 1 failed"), ONLY_FIRST), ran.said
    assert not any("small proved" in it for it in ran.said)


def test_kept_result_that_is_damaged(copy: Tried, run: Ran) -> None:
    os.truncate(kept_files(copy.folder)[0], 30)
    ran = copy.gate()
    assert ran.end == (1, f"{COUNTS - 1} passed, 1 failed"), ran.said
    assert any("what was kept of it was damaged" in it for it in ran.said), ran.said
    assert copy.gate().status == 0


def test_edit_that_is_let_through(copy: Tried) -> None:
    copy.edit("two", "first", "first_is_as_right")
    ran = copy.gate()
    copy.edit("two", "first", "first_is_wrong")
    assert ran.end == (1, f"{COUNTS - 1} passed, 1 failed"), ran.said


@pytest.mark.parametrize("script", [*OF_PROGRAM, *ALONE, OF_SCRIPTS])
def test_script_that_fails(script: str, copy: Tried) -> None:
    copy.write("bad_script", f"{script}\n")
    ran = copy.gate()
    copy.write("bad_script", "none\n")
    assert ran.end == (1, f"{COUNTS - 1} passed, 1 failed"), ran.said


# Tests of pytest: one that passes, ones that fail, and one that can't begin; and a file that can't be read.
OF_PYTEST = """def test_right(): pass
def test_wrong(): assert False
def test_without(nothing): pass
def test_checks(checks):
    for it in ("one", "two", "three"):
        checks.judge(it, it != "two", "because")
"""
NO_TESTS = "import nothing_of_this_name\n"


def run_pytest(text: str) -> tuple[int, str]:
    """The status of a run of these tests with this conftest, and what it said."""
    with tempfile.TemporaryDirectory(prefix="gate-pytest-") as folder:
        for it in ("tests/conftest.py", "tests/shell.py", "tools/harness.py"):
            shutil.copy(f"{TOP}/{it}", folder)
        with open(f"{folder}/test_it.py", "w", encoding="ascii") as file:
            file.write(text)
        words = [sys.executable, "-B", "-m", "pytest", "-q", "-p", "no:cacheprovider"]
        ran = subprocess.run(words, cwd=folder, capture_output=True, text=True)
    return ran.returncode, ran.stdout


def test_counts_of_pytest() -> None:
    status, said = run_pytest(OF_PYTEST)
    assert (status, of_gate.counted(said, status)) == (1, (1, 3)), said
    assert "wrong: two: because" in said
    assert "3 checks within tests" in said.splitlines()


def test_file_that_pytest_cannot_read() -> None:
    status, said = run_pytest(NO_TESTS)
    assert (status, of_gate.counted(said, status)) == (2, (0, 1)), said


def test_no_pytest(monkeypatch: pytest.MonkeyPatch, capsys: pytest.CaptureFixture[str]) -> None:
    monkeypatch.setattr(run_tests, "PYTHONS", ("false",))
    monkeypatch.setattr(sys, "argv", ["run_tests.py"])
    status = run_tests.main()
    assert of_gate.counted(capsys.readouterr().out, status) == (0, 1)
