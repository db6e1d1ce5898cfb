"""tools/check_alone.py on two crates, of which the lower isn't proved: what it tells of the upper one, by the prover and by hand."""
import os
import shutil
import subprocess
import sys
import tempfile
from typing import Iterator

import pytest
from shell import TOP

pytestmark = [pytest.mark.by_hand, pytest.mark.scripts, pytest.mark.slow]
HEAD = "#![tactic(auto)]\n\nghost use Rattle.std.specs.Prelude.{◌≤◌};\n\n"
# The body is wrong, which nobody above it sees.
LEAST = "pub fn least(first: u8, second: u8) -> u8\n    ensures first { result ≤ first }\n{\n    second\n}\n"
# What a trait's functions are called where the trait or the type has parameters or a path; a `drop` has no proof.
OF_TRAITS = """
use std::alloc;
use std::alloc::AllocFailed;

#[derive(Drop)]
pub struct Fault;

impl<T: Drop> From<AllocFailed<T>> for Fault {
    fn from(_error: AllocFailed<T>) -> Fault {
        Fault
    }
}

impl From<alloc::AllocError> for Fault {
    fn from(_error: alloc::AllocError) -> Fault {
        Fault
    }
}

pub struct Held<T: Drop> {
    it: T,
}

impl<T: Drop> Drop for Held<T> {
    fn drop(self) {
        let Held { it: _ } = self;
    }
}
"""
LOW = HEAD + LEAST + OF_TRAITS
HIGH = HEAD + "pub fn least_of(first: u8, second: u8) -> u8\n    ensures { result ≤ first }\n{\n    low::least(BODY)\n}\n"


def write(path: str, text: str) -> None:
    os.makedirs(os.path.dirname(path), exist_ok=True)
    with open(path, "w", encoding="utf-8") as it:
        it.write(text)


@pytest.fixture(scope="module")
def top() -> Iterator[str]:
    """A repository of both crates."""
    with tempfile.TemporaryDirectory(prefix="alone-") as top:
        write(f"{top}/crates.txt", "low:\nhigh: low\n")
        write(f"{top}/HANDLES", "Handles allowed: Threads, Wait.\n")
        os.makedirs(f"{top}/tools")
        for name in ("build.py", "check_alone.py", "kept.py"):
            shutil.copy(f"{TOP}/tools/{name}", f"{top}/tools/{name}")
        write(f"{top}/crates/low/src/lib.rt", LOW)
        yield top


@pytest.mark.parametrize(
    ("words", "status", "line"),
    [
        pytest.param("first, second", 0, "as it stands: 0 of high not proved", id="a right body over a lower one that is wrong"),
        pytest.param("second, first", 1, "as it stands: 1 of high not proved", id="a wrong body"),
        pytest.param("first", 1, "as it stands: 1 of high not proved", id="a body that doesn't compile"),
    ],
)
def test_upper_crate(words: str, status: int, line: str, top: str) -> None:
    write(f"{top}/crates/high/src/lib.rt", HIGH.replace("BODY", words))
    told = [sys.executable, f"{top}/tools/check_alone.py", "--keep", f"{top}/keep", "high"]
    ran = subprocess.run(told, capture_output=True, text=True, check=False)
    assert (ran.returncode, ran.stdout.strip().split("\n")[-1]) == (status, line), ran.stdout[-500:] + ran.stderr[-500:]
