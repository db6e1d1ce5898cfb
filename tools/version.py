#!/usr/bin/env python3
"""Prints the version, which stands in crates/command_words/src/program.rt: what `site --version` tells.

    tools/version.py [--check]

With --check it says where another one stands: in the header of the C library, in the crate for Rust, or as the latest
release of CHANGELOG.md; status 1 then.
"""
import os
import re
import sys
from typing import Optional

TOP = os.path.dirname(os.path.dirname(os.path.realpath(__file__)))
NUMBER = r"(\d+\.\d+\.\d+(?:-[0-9A-Za-z.-]+)?)"
ONE = ("crates/command_words/src/program.rt", rf'\.version\("{NUMBER}"\)')
OTHERS = (
    ("bindings/c/jumbetai.h", rf'^#define JUMBETAI_VERSION "{NUMBER}"$'),
    ("bindings/rust/Cargo.toml", rf'^version = "{NUMBER}"$'),
    ("CHANGELOG.md", rf"^## {NUMBER}, \d{{4}}-\d\d-\d\d$"),
)


def told_in(file: str, pattern: str) -> Optional[str]:
    """The first version that a file tells, or none."""
    with open(f"{TOP}/{file}", encoding="utf-8") as it:
        found = re.search(pattern, it.read(), re.M)
    return found[1] if found else None


def version() -> Optional[str]:
    return told_in(*ONE)


def told() -> dict[str, Optional[str]]:
    """The version that each other place tells."""
    return {file: told_in(file, pattern) for file, pattern in OTHERS}


def main() -> int:
    others = {file: it for file, it in told().items() if it != version()} if "--check" in sys.argv[1:] else {}
    for file, it in others.items():
        print(f"version: {file} has {it}, and {ONE[0]} {version()}", file=sys.stderr)
    print(version())
    return 1 if others or not version() else 0


if __name__ == "__main__":
    sys.exit(main())
