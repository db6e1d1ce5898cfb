#!/usr/bin/env python3
"""Looks at texts: the layout of Rattle, Python, shell, C and Rust by their linters, and the subjects of commits.

    tools/lint.py [CHECK..]     all checks, or those of these names
    tools/lint.py --fix         lays out what rattle, black, clang-format and rustfmt lay out
    tools/lint.py --install     Debian's packages of the linters and of pytest, as root

The settings stand in pyproject.toml, .flake8, .clang-format and .shellcheckrc, and for Rust in rustfmt.toml and
clippy.toml. Layouts differ between versions of black and clang-format: Debian 12's are asked, and others left out. Clippy
and rustfmt are those of the Rust that builds the service. What isn't there is left out, and told. The last line is
'N passed, M failed'.
"""
import argparse
import os
import re
import shutil
import subprocess
import sys
import time
from concurrent.futures import ThreadPoolExecutor
from typing import Callable, Iterable, Optional

sys.dont_write_bytecode = True
TOP = os.path.dirname(os.path.dirname(os.path.realpath(__file__)))
sys.path.insert(0, f"{TOP}/tools")
import run_tests  # noqa: E402
import service  # noqa: E402

PACKAGES = ("black", "clang-format", "flake8", "mypy", "shellcheck", run_tests.PACKAGE)
# Whose layout is asked for: that of Debian 12.
LAYOUTS = {"black": "23.", "clang-format": "14."}
OUT = f"{TOP}/out/lint"
# Programs in Python and in a shell whose names don't say so.
OF_PYTHON, OF_SHELL = ("gate",), ("site", ".ci/run", "contrib/debian/postinst", "contrib/debian/postrm", "contrib/debian/prerm")
# The package for Python has a length of its own, and is what others read.
PACKAGE = ("bindings/python/", "examples/python/")
COLUMNS, COMMITS = 72, 50
# A check answers what it says, or None where it passes.
Said = Optional[str]


class Missing(Exception):
    """What a check wants isn't there."""


def run(words: Iterable[str], folder: str = TOP) -> tuple[int, str]:
    """The status of a command, and what it said."""
    ran = subprocess.run([*words], cwd=folder, stdin=subprocess.DEVNULL, stdout=subprocess.PIPE, stderr=subprocess.STDOUT, text=True, errors="replace")
    return ran.returncode, ran.stdout


def wanted(tool: str) -> str:
    if not shutil.which(tool):
        raise Missing(f"{tool} isn't there")
    if tool in LAYOUTS:
        found = re.search(r"\b(\d+\.\d+\S*)", run([tool, "--version"])[1])
        if not found or not found[1].startswith(LAYOUTS[tool]):
            raise Missing(f"{tool} is {found[1] if found else 'of no version'}, and the layout is that of {LAYOUTS[tool]}*")
    return tool


def files(*ends: str) -> list[str]:
    """The files of the repository whose names end so."""
    said = subprocess.run(["git", "ls-files", "-z"], cwd=TOP, capture_output=True, text=True, check=True).stdout
    return [it for it in said.split("\0") if it.endswith(ends) and os.path.exists(f"{TOP}/{it}")]


def pythons(is_package: bool) -> list[str]:
    if is_package:
        return [it for it in files(".py") if it.startswith(PACKAGE)]
    return [*OF_PYTHON, *(it for it in files(".py") if not it.startswith(PACKAGE))]


def clean(*words: str, folder: str = TOP) -> Said:
    """What a linter says, if its status isn't 0."""
    status, said = run(words, folder)
    return said or f"status {status}" if status else None


def flake8() -> Said:
    own, package = pythons(False), pythons(True)
    tool = wanted("flake8")
    return clean(tool, *own) or clean(tool, "--config", "bindings/python/.flake8", *package)


def black(*how: str) -> Said:
    tool, how = wanted("black"), how or ("--check", "--diff")
    package = clean(tool, "-q", "--config", "bindings/python/pyproject.toml", *how, *pythons(True))
    return package or clean(tool, "-q", "--config", "pyproject.toml", *how, *pythons(False))


def mypy() -> Said:
    """Without pytest, whose types the tests stand on, of all but these."""
    return clean(wanted("mypy"), "--cache-dir", f"{OUT}/mypy", *([] if run_tests.python_with_pytest() else ["bench", "gate", "tools"]))


def mypy_of_package() -> Said:
    return clean(wanted("mypy"), "--cache-dir", f"{OUT}/mypy-package", folder=f"{TOP}/bindings/python")


def shellcheck() -> Said:
    return clean(wanted("shellcheck"), *OF_SHELL, *files(".sh"))


def clang_format(*how: str) -> Said:
    return clean(wanted("clang-format"), *(how or ("--dry-run", "-Werror")), *files(".c", ".h"))


def rustfmt(*how: str) -> Said:
    return clean(wanted("rustfmt"), *(how or ("--check",)), "--edition", "2021", *files(".rs"))


def rattle() -> Said:
    """The layout without which `rt ci` refuses a crate, though only when its turn comes."""
    return clean(wanted("rattle"), "fmt", "--check", *files(".rt", ".antt"))


def clippy() -> Said:
    """Over the bindings and their examples, which stand on nothing else."""
    wanted("cargo-clippy")
    manifest = f"{TOP}/bindings/rust/Cargo.toml"
    words = ["cargo", "clippy", "--offline", "--quiet", "--manifest-path", manifest, "--workspace", "--all-targets", "--target-dir", f"{OUT}/cargo"]
    said = clean(*words, "--", "-D", "warnings")
    lock = f"{TOP}/bindings/rust/Cargo.lock"
    if os.path.exists(lock):
        os.remove(lock)
    return said


def clippy_of_service() -> Said:
    wanted("cargo-clippy")
    if not service.has_crates():
        raise Missing("the crates that it stands on aren't there: tools/service.py --install")
    words = ["clippy", "--all-targets", "--features", service.FEATURES, "--", "-D", "warnings"]
    ran = service.cargo(words, OUT, f"{OUT}/service", capture_output=True, text=True)
    return ran.stdout + ran.stderr if ran.returncode else None


def subjects() -> Said:
    """Of the commits that origin's main has not, and of the last ones anyway."""
    if run(["git", "rev-parse", "--verify", "-q", "HEAD"])[0]:
        raise Missing("there are no commits")
    status, ahead = run(["git", "rev-list", "--count", "origin/main..HEAD"])
    most = max(COMMITS, 0 if status else int(ahead))
    told = [it.partition(" ") for it in run(["git", "log", f"--max-count={most}", "--format=%h %s"])[1].splitlines()]
    return "\n".join(f"{name} has {len(it)} columns: {it}" for name, _, it in told if len(it) > COLUMNS) or None


CHECKS: dict[str, Callable[[], Said]] = {
    "rattle": rattle,
    "flake8": flake8,
    "black": black,
    "mypy": mypy,
    "mypy-package": mypy_of_package,
    "shellcheck": shellcheck,
    "clang-format": clang_format,
    "rustfmt": rustfmt,
    "clippy": clippy,
    "clippy-service": clippy_of_service,
    "subjects": subjects,
}


def look(name: str) -> Optional[bool]:
    """Makes a check and tells how it went; answers whether it passed, or None where it was left out."""
    began = time.monotonic()
    try:
        said = CHECKS[name]()
    except Missing as why:
        print(f"skipped: {name}, since {why}", flush=True)
        return None
    print(f"{name}: {time.monotonic() - began:.1f} s" if said is None else f"wrong: {name}:\n{said.rstrip()}", flush=True)
    return said is None


def fix() -> int:
    each = (clean(wanted("rattle"), "fmt", "--write", *files(".rt", ".antt")), black("-q"), clang_format("-i"), rustfmt("-q"))
    print(*(it for it in each if it), sep="\n", end="")
    return 1 if any(each) else 0


def main() -> int:
    words = argparse.ArgumentParser(description=__doc__, formatter_class=argparse.RawDescriptionHelpFormatter)
    words.add_argument("--fix", action="store_true")
    words.add_argument("--install", action="store_true")
    words.add_argument("checks", nargs="*", metavar="CHECK", choices=[[], *CHECKS])
    given = words.parse_args()
    if given.install:
        return run_tests.install(*PACKAGES)
    os.makedirs(OUT, exist_ok=True)
    if given.fix:
        return fix()
    with ThreadPoolExecutor(4) as pool:
        told = [it for it in pool.map(look, given.checks or CHECKS) if it is not None]
    print(f"{sum(told)} passed, {len(told) - sum(told)} failed")
    return 0 if all(told) else 1


if __name__ == "__main__":
    sys.exit(main())
