#!/usr/bin/env python3
"""Runs the tests of what is built, which stand in tests/, by pytest.

    tools/run_tests.py [WORD..]     words of pytest, as -k WORD, -m 'not slow', -m alone or tests/test_run.py
    tools/run_tests.py --install    Debian's package of pytest, as root, where it isn't there

Of the program, the library in C and the service each is what the gate left, or is built, unless --program FILE, --library
FOLDER or --service FILE names another one. pyproject.toml says which marks there are, tests/conftest.py which words more.
The package is for Debian's own python3, which needn't be the first one on the path. Where there is no pytest, that is a
failure. Above the last line, 'N passed, M failed', stand the slowest tests, and what was left out since a tool isn't there.
"""
import argparse
import os
import subprocess
import sys
from typing import Optional

TOP = os.path.dirname(os.path.dirname(os.path.realpath(__file__)))
PACKAGE = "python3-pytest"
# Words of tests/conftest.py that name a file or a folder.
FILES = ("program", "library", "service", "root", "pictures")
PYTHONS: tuple[str, ...] = ("/usr/bin/python3", "python3")


def python_with_pytest() -> Optional[str]:
    for it in PYTHONS:
        if subprocess.run([it, "-c", "import pytest"], capture_output=True, check=False).returncode == 0:
            return it
    return None


def install(*packages: str) -> int:
    """Installs packages of Debian, and answers a status."""
    each = (["apt-get", "update"], ["apt-get", "install", "-y", "--no-install-recommends", *packages])
    return max(subprocess.run(it, check=False).returncode for it in each)


def main() -> int:
    words = argparse.ArgumentParser(description=__doc__, formatter_class=argparse.RawDescriptionHelpFormatter)
    words.add_argument("--install", action="store_true")
    for it in FILES:
        words.add_argument(f"--{it}")
    given, rest = words.parse_known_args()
    python = python_with_pytest()
    if given.install:
        return 0 if python else install(PACKAGE)
    if not python:
        print("wrong: pytest isn't there: tools/run_tests.py --install\n0 passed, 1 failed")
        return 1
    files = [f"--{name}={os.path.abspath(it)}" for name, it in vars(given).items() if name in FILES and it]
    os.chdir(TOP)
    os.execvp(python, [python, "-B", "-m", "pytest", "-q", "--durations=12", *files, *rest])


if __name__ == "__main__":
    sys.exit(main())
