"""tools/try_edits.py: what it tells of good edits and of bad ones in a crate of two functions, by the prover; and what it keeps, takes
and tries anew, by a script in the prover's place."""
import os
import shutil
import tempfile
from typing import Callable, Iterator

import build
import pytest
import try_edits
from copies import LOW, SMALL, Copy, kept_files

pytestmark = pytest.mark.scripts
PROVER = pytest.mark.skipif(not shutil.which("rattle"), reason="the prover isn't here")

CRATE = """//! The lesser of two numbers.
#![tactic(auto)]

ghost use Rattle.std.specs.Prelude.{◌≤◌};

/// The lesser number.
pub fn least(first: u8, second: u8) -> u8
    ensures first { result ≤ first }
    ensures second { result ≤ second }
{
    if first < second { first } else { second }
}

/// The least of three numbers.
pub fn least_of(first: u8, second: u8, third: u8) -> u8
    ensures first { result ≤ first }
    ensures third { result ≤ third }
{
    let last = least(second, third);
    least(first, last)
}

/// Half a number, without what is left.
pub fn half(number: u8) -> u8
    ensures less { result ≤ number }
    ensures few { result ≤ 127 }
{
    number / 2
}
"""
BODY = "if first < second { first } else { second }"
# A written answer, so that a function has a folder of proofs.
ANSWERS = """use Rattle.std.proofs.Common.{rules}
use Rattle.small.proofs.half.Goals as goal

pub returns-clause-less : goal.returns-clause-less
returns-clause-less c = search rules
"""
# What is tried: the function, the clause, the old line, the new one; whether it counts as refused, and what is told.
Try = tuple[str, str, str, str, bool, str]
ROWS = {
    "a wrong body": ("least", "second", BODY, "first", True, "refused at returns-clause-second"),
    "a body that proves": ("least", "second", BODY, "if first <= second { first } else { second }", False, "LET THROUGH"),
    "one that doesn't compile": ("least", "second", BODY, "third", False, "ERROR: the edit did not reach the prover"),
    "an old line that isn't there": ("least", "second", "if second < first", "first", False, "ERROR: an old line stands"),
    "a refusal at another clause": ("least", "first", BODY, "first", False, "REFUSED ELSEWHERE, not at first: returns-clause-second"),
    "a function that isn't there": ("most", "second", BODY, "first", False, "ERROR: the edit did not reach the prover"),
    "no clause": ("least", "", BODY, "first", False, "ERROR: it lacks a line"),
}
# What is tried in one check, each edit as above: `least_of` calls `least`, whose body is wrong, and `half` has copies.
TOGETHER = {
    "a callee's wrong body": ("least", "first", BODY, "second", True, "refused at returns-clause-first"),
    "a body whose answer is written": ("half", "less", "number / 2", "10", True, "refused at returns-clause-less"),
    "another one, in a copy": ("half", "less", "number / 2", "127", True, "refused at returns-clause-less"),
    "a copy that proves": ("half", "less", "number / 2", "number / 3", False, "LET THROUGH"),
    "a caller's": ("least_of", "third", "least(first, last)", "least(first, second)", True, "refused at returns-clause-third"),
}
BESIDE = {
    "a callee's again": ("least", "first", BODY, "second", True, "refused at returns-clause-first"),
    "a caller that is right": ("least_of", "third", "least(first, last)", "least(last, first)", False, "LET THROUGH"),
    "one that doesn't compile either": ("least_of", "third", "least(first, last)", "fourth", False, "ERROR: the edit did"),
}
# `least` isn't tried, so it has no body here.
HOLLOW = {
    "a caller's wrong body over one without": ("least_of", "third", "least(first, last)", "last", False, "REFUSED ELSEWHERE, not at third"),
    "another caller's": ("least_of", "first", "least(first, last)", "last", True, "refused at returns-clause-first"),
    "a caller's that is right over one without": ("least_of", "first", "least(first, last)", "least(last, first)", False, "LET THROUGH"),
}
# Which bodies are taken away: of a law its proof alone, and none of a trait's, a circle's, a constant or of what stays.
BODIES = """pub const fn zero() -> u8 {
    0
}

pub trait Least {
    fn least(&self) -> u8
        ensures { result ≤ 0 };
}

impl Least for Pair<u8> {
    fn least(&self) -> u8 {
        0
    }
}

impl<T: Copy> Pair<T> {
    pub fn first(&self) -> T
        ensures first { IfOk result (λ r. r ≡ 1 → {
            ⊤ }) }
    {
        self.first
    }

    pub fn second(&self) -> T {
        self.second
    }
}

#[cycle(parity)]
pub fn is_even(n: u8) -> bool {
    n == 0 || is_odd(n - 1)
}

pub fn law()
    ensures { ⊤ }
{}

pub fn stays() -> u8 {
    zero()
}
"""
HOLLOWED = {"first": "self.first", "second": "self.second"}
# A method of a type that another file declares.
METHOD = """impl Triple {
    pub fn third(&self) -> u8 {
        self.third
    }
}
"""


@pytest.fixture(scope="module")
def top() -> Iterator[str]:
    """A repository of one crate, in the place of this one."""
    with tempfile.TemporaryDirectory(prefix="edits-tried-") as folder, pytest.MonkeyPatch.context() as patch:
        files = {
            "crates/small/src/lib.rt": CRATE,
            "crates/small/proofs/half/Answers.antt": ANSWERS,
            "crates.txt": "small\n",
            "crates/small/edits/README.md": "",
        }
        for name, text in files.items():
            os.makedirs(os.path.dirname(f"{folder}/{name}"), exist_ok=True)
            with open(f"{folder}/{name}", "w", encoding="utf-8") as it:
                it.write(text)
        patch.setattr(build, "TOP", folder)
        patch.setattr(try_edits, "TOP", folder)
        yield folder


def written(top: str, name: str, row: Try) -> str:
    """The file of an edit."""
    only, clause, old, new, _, _ = row
    file = f"{top}/crates/small/edits/{name.replace(' ', '_')}.edit"
    with open(file, "w", encoding="utf-8") as it:
        it.write(f"only: {only}\nclause: {clause}\nfile: src/lib.rt\nold: {old}\nnew: {new}\n")
    return file


@PROVER
@pytest.mark.slow
@pytest.mark.parametrize("name", ROWS)
def test_edit(name: str, top: str) -> None:
    is_refused, told = ROWS[name][4:]
    well, text, _ = try_edits.tried({"small": ([], [])}, written(top, name, ROWS[name]), {}, f"{top}/kept")
    assert (well, text[: len(told)]) == (is_refused, told), text


GROUPS = {"together": TOGETHER, "beside others": BESIDE, "without bodies": HOLLOW}
# What the script says of the edits of a group.
Told = dict[str, tuple[bool, str]]


@pytest.fixture(scope="module")
def told_of_group(top: str) -> Callable[[str], Told]:
    """What is said of the edits of a group, which are tried in as few checks as can be, once."""
    found: dict[str, Told] = {}

    def told(group: str) -> Told:
        if group not in found:
            files = [written(top, *it) for it in GROUPS[group].items()]
            found[group] = {name: (well, text) for name, (_, well, text, _) in zip(GROUPS[group], try_edits.tried_of({"small": ([], [])}, files, {}))}
        return found[group]

    return told


@PROVER
@pytest.mark.slow
@pytest.mark.parametrize(("group", "name"), [pytest.param(group, name, id=f"{group}: {name}") for group, every in GROUPS.items() for name in every])
def test_edits_of_one_check(group: str, name: str, told_of_group: Callable[[str], Told]) -> None:
    is_refused, told = GROUPS[group][name][4:]
    well, text = told_of_group(group)[name]
    assert (well, text[: len(told)]) == (is_refused, told), text


def test_table_that_lacks_an_edit_and_names_one_too_many(top: str) -> None:
    folder = f"{top}/crates/small/edits"
    with open(f"{folder}/README.md", "w", encoding="utf-8") as it:
        it.write("| edit | function |\n|---|---|\n| `there` | `least` |\n| `gone` | `least` |\n")
    said = try_edits.untold([f"{folder}/there.edit", f"{folder}/untold.edit"])
    assert said == ["ERROR: its table has no row for untold", "ERROR: its table names gone, which isn't there"]


ALL_TRIED = ["edits: 0 kept, 3 tried anew", "3 passed, 0 failed"]
ALL_KEPT = ["edits: 3 kept, 0 tried anew", "3 passed, 0 failed"]
# What changes, and how many of the three edits are then tried: each file that a result rests on.
CHANGES = {
    "another source of the crate": ("top/crates/small/src/lib.rt", SMALL.replace("/// The number", "/// A number", 1), 3),
    "another source below": ("top/crates/low/src/lib.rt", LOW.replace("0", "1"), 3),
    "a proof more below": ("top/crates/low/proofs/Lib.antt", "mod Lemmas\n", 3),
    "a definition more": ("top/crates/small/specs/Lib.antt", "pub mod Right\n", 3),
    "another library of the kit below": ("top/crates.txt", "low: std json\nsmall: low\n", 3),
    "another kit": ("kit/KIT-ID", "another kit\n", 3),
    "a prover built anew": ("kit/bin/prover", "as it was built again\n", 3),
    "another script": ("top/tools/try_edits.py", None, 3),
    "another script that it uses": ("top/tools/build.py", None, 3),
    "another edit": ("top/crates/small/edits/three.edit", None, 1),
}


@pytest.fixture
def folder() -> Iterator[str]:
    with tempfile.TemporaryDirectory(prefix="edits-kept-") as folder:
        yield folder


@pytest.fixture(scope="module")
def kept() -> Iterator[Copy]:
    """A repository whose edits were tried, and are kept."""
    with tempfile.TemporaryDirectory(prefix="edits-kept-") as folder:
        copy = Copy(f"{folder}/first")
        copy.run()
        yield copy


def test_first_run(folder: str) -> None:
    status, said, checks = Copy(folder).run()
    assert (status, said[-2:], checks) == (0, ALL_TRIED, ["first second first_edit2 first_edit1"]), said


def test_second_run(kept: Copy) -> None:
    status, said, checks = kept.run()
    assert (status, said[-2:], checks) == (0, ALL_KEPT, []), said


def test_run_of_another_clone(kept: Copy) -> None:
    shutil.copytree(kept.top, f"{kept.folder}/clone", ignore=shutil.ignore_patterns("out"))
    status, said, checks = kept.run(top=f"{kept.folder}/clone")
    assert (status, said[-2:], checks) == (0, ALL_KEPT, []), said


def test_run_anew(kept: Copy) -> None:
    status, said, checks = kept.run("--anew")
    assert (status, said[-2:], len(checks)) == (0, ALL_TRIED, 1), said


@pytest.mark.parametrize("what", CHANGES)
def test_change(what: str, kept: Copy) -> None:
    file, text, tried_anew = CHANGES[what]
    with kept.changed(file, text):
        status, said, checks = kept.run()
    wanted = [f"edits: {3 - tried_anew} kept, {tried_anew} tried anew", "3 passed, 0 failed"]
    assert (status, said[-2:], len(checks)) == (0, wanted, 1), said


def test_all_as_it_was_before(kept: Copy) -> None:
    for file, text, _ in CHANGES.values():
        with kept.changed(file, text):
            pass
    status, said, checks = kept.run()
    assert (status, said[-2:], checks) == (0, ALL_KEPT, []), said


def test_one_that_is_let_through_is_not_kept(folder: str) -> None:
    copy = Copy(folder)
    copy.edit("two", "first", "first_is_as_right")
    for _ in range(2):
        status, said, checks = copy.run()
        is_told = any(it.startswith("small/edits/two.edit: LET THROUGH") for it in said)
        assert (status, is_told, said[-1], len(checks) > 0) == (1, True, "2 passed, 1 failed", True), said
    assert len(kept_files(copy.folder)) == 2


DAMAGES: dict[str, Callable[[str, str], object]] = {
    "cut off": lambda one, _: os.truncate(one, 40),
    "of another edit": lambda one, other: shutil.copy(other, one),
}


@pytest.mark.parametrize("damage", DAMAGES)
def test_kept_result_that_is_damaged(damage: str, folder: str) -> None:
    copy = Copy(folder)
    copy.run()
    one, other, _ = kept_files(copy.folder)
    DAMAGES[damage](one, other)
    status, said, checks = copy.run()
    assert (status, sum("ERROR: what was kept of it was damaged" in it for it in said), checks) == (1, 1, []), said
    status, said, checks = copy.run()
    assert (status, said[-2:], len(checks)) == (0, ["edits: 2 kept, 1 tried anew", ALL_KEPT[1]], 1), said


def test_one_that_is_not_read_beside_others(folder: str) -> None:
    copy = Copy(folder)
    copy.write("top/crates/small/edits/four.edit", "only: fourth\nclause: right\nfile: src/lib.rt\nold: fn second() -> u8\nnew: fn second() -> u8 \n")
    copy.table("four", "one", "three", "two")
    status, said, checks = copy.run()
    is_told = any(it.startswith("small/edits/four.edit: ERROR: the edit did not reach the prover") for it in said)
    # Both halves, of which one is read; what is left of the other is tried alone.
    assert (status, is_told, said[-1], len(checks), checks[-2:]) == (1, True, "3 passed, 1 failed", 5, ["fourth", "first"]), (said, checks)


def test_copy_that_is_not_faithful(folder: str) -> None:
    copy = Copy(folder)
    copy.write("asked.faithless", "")
    status, said, checks = copy.run()
    assert (status, said[-1], checks[1:]) == (0, ALL_TRIED[1], ["first second first_edit2 first_edit1", "first"]), (said, checks)


def test_copy_that_calls_what_an_edit_made_wrong(folder: str) -> None:
    copy = Copy(folder)
    copy.write("asked.calls", "")
    status, said, checks = copy.run()
    assert (status, said[-1], len(checks)) == (0, ALL_TRIED[1], 1), (said, checks)


@pytest.mark.parametrize("place", ["a file", "a folder that all may write"])
def test_place_that_is_not_the_users_own(place: str, folder: str) -> None:
    copy = Copy(folder)
    if place == "a file":
        copy.write("place", "")
    else:
        os.makedirs(f"{copy.folder}/place")
        os.chmod(f"{copy.folder}/place", 0o777)
    for _ in range(2):
        status, said, _ = copy.run(JUMBETAI_KEPT=f"{copy.folder}/place")
        assert (status, said[-2:]) == (0, ALL_TRIED), said


# Copies of functions whose edits name them by the end of their paths.


def test_proofs_of_a_copy(folder: str) -> None:
    at = f"{folder}/proofs/outer/inner"
    os.makedirs(f"{at}/least")
    with open(f"{at}/least/Answers.antt", "w", encoding="utf-8") as it:
        it.write("use Rattle.small.proofs.outer.inner.least.Goals as goal\nuse Rattle.small.proofs.outer.inner.least_of.Met\n")
    try_edits.copy_proofs(folder, "inner::least", "least_edit2")
    with open(f"{at}/least_edit2/Answers.antt", encoding="utf-8") as it:
        text = it.read()
    assert text == "use Rattle.small.proofs.outer.inner.least_edit2.Goals as goal\nuse Rattle.small.proofs.outer.inner.least_of.Met\n"


CALLS = "it calls `small::outer::inner::other`, which is not proved"


@pytest.mark.parametrize(
    ("line", "is_faithful"),
    [
        ("fn small::outer::inner::least_edit1: proved", True),
        (f"fn small::outer::inner::least_edit1: no proof: {CALLS}", True),
        (f"fn small::outer::inner::least_edit1: not proved; {CALLS}", False),
        (f"fn small::outer::inner::least_edit1: no proof: expected answers in ./proofs; {CALLS}", False),
        ("fn small::least_edit1: proved", False),
    ],
)
def test_line_of_a_copy(line: str, is_faithful: bool) -> None:
    assert try_edits.is_faithful("small", "inner::least_edit1", [line]) == is_faithful


@pytest.fixture
def hollow(folder: str) -> str:
    """A crate whose functions lost their bodies, but one."""
    os.makedirs(f"{folder}/src/outer")
    os.makedirs(f"{folder}/proofs/outer/inner/Pair/first")
    with open(f"{folder}/proofs/outer/inner/Pair/first/Answers.antt", "w", encoding="utf-8") as it:
        it.write(ANSWERS)
    for path, text in (("outer/inner.rt", BODIES), ("outer.rt", "pub struct Triple {\n    third: u8,\n}\n"), ("outer/method.rt", METHOD)):
        with open(f"{folder}/src/{path}", "w", encoding="utf-8") as it:
            it.write(text)
    os.makedirs(f"{folder}/proofs/outer/Triple/third")
    with open(f"{folder}/proofs/outer/Triple/third/Answers.antt", "w", encoding="utf-8") as it:
        it.write(ANSWERS)
    try_edits.hollow(folder, {"inner::stays"})
    return folder


def test_bodies_that_are_taken_away(hollow: str) -> None:
    wanted = BODIES
    for body in HOLLOWED.values():
        wanted = wanted.replace(f"        {body}\n", "        loop {}\n")
    assert try_edits.text_of(hollow, "src/outer/inner.rt") == wanted


def test_file_in_place_of_the_proofs(hollow: str) -> None:
    found = sorted(os.path.relpath(f"{at}/{it}", f"{hollow}/proofs/outer") for at, _, files in os.walk(f"{hollow}/proofs") for it in files)
    assert found == ["Triple/third/Proof.antt", "inner/Pair/first/Proof.antt", "inner/Pair/second/Proof.antt", "inner/law/Proof.antt"]


@pytest.mark.parametrize("path", ["outer::Triple::third", "method::Triple::third", "Triple::third"])
def test_method_that_stays(hollow: str, path: str) -> None:
    at = f"{hollow}/src/outer/method.rt"
    with open(at, "w", encoding="utf-8") as it:
        it.write(METHOD)
    try_edits.hollow(hollow, {path})
    assert try_edits.text_of(hollow, "src/outer/method.rt") == METHOD
