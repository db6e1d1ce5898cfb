#!/usr/bin/env python3
"""Tells how many words each page has, and how many it may have; tests/test_pages.py holds pages to that.

    tools/words.py
"""
import os
import subprocess
import sys
from typing import Optional

sys.dont_write_bytecode = True
TOP = os.path.dirname(os.path.dirname(os.path.realpath(__file__)))
# The most lines, where that matters, and the most words. A reason stands behind a limit that is above its neighbours'.
LIMITS = {
    "README.md": (90, 1000),
    "CHANGELOG.md": (None, 1500),  # grows by at most 30 lines a version
    "CONTRIBUTING.md": (None, 1700),  # what a walk by the prover doesn't name
    "SECURITY.md": (None, 500),
    "docs/ARCHITECTURE.md": (104, 2000),  # a row a crate
    "docs/DECISIONS.md": (None, 3500),
    "docs/DEVELOPMENT.md": (60, 1000),
    "docs/FORMATS.md": (None, 5500),  # every rule, line and fault that others implement against
    "docs/GLOSSARY.md": (None, 700),
    "docs/GUARANTEES.md": (None, 1700),
    "docs/GUIDE.md": (310, 2500),  # every command with what it prints, since all of it is run
    "docs/OPERATIONS.md": (None, 2100),
    "docs/PERFORMANCE.md": (128, 1600),  # the service beside PostgreSQL, and in parts, too
    "crates/database_commands/README.md": (60, 1200),  # fourteen commands
    "crates/inbox_table/README.md": (60, 1050),  # what each call leaves at each exit
    "crates/site/README.md": (60, 1050),  # what all above stands on
    "docs/SERVICE.md": (None, 1100),  # an interface, as others call it
    "docs/SCALING.md": (80, 950),  # a region on several machines, with what is run of it
    "docs/PRODUCERS.md": (300, 2400),  # a recipe for each kind of producer, with its faults
}
OF_CRATES = (60, 1000)
OTHERS = (None, 600)
# All of these together, the page of the service among them with its 1,100, those of the numberer with 600, of parts with
# 590, and of a region on several machines with 924; what stands beside code that people copy (NOT_COUNTED) has limits of
# its own alone.
ALL_WORDS = 49_494
NOT_COUNTED = ("bench/", "bindings/", "contrib/", "examples/", "tools/")


def every_page() -> list[str]:
    """All pages of the repository but those of edits, which tools/try_edits.py holds against the edits."""
    said = subprocess.run(["git", "ls-files", "*.md"], cwd=TOP, capture_output=True, text=True, check=True).stdout.split("\n")
    return [it for it in said if it and "/edits/" not in it and os.path.exists(f"{TOP}/{it}")]


def text_of(page: str) -> str:
    with open(f"{TOP}/{page}", encoding="utf-8") as file:
        return file.read()


def limit_of(page: str) -> tuple[Optional[int], int]:
    return LIMITS.get(page, OF_CRATES if page.startswith("crates/") else OTHERS)


def counts() -> dict[str, int]:
    """How many words each page has."""
    return {page: len(text_of(page).split()) for page in every_page()}


def total() -> int:
    """How many words all pages have that are counted together."""
    return sum(count for page, count in counts().items() if not page.startswith(NOT_COUNTED))


def main() -> None:
    for page, count in counts().items():
        print(f"{count:6} of {limit_of(page)[1]:6} {page}")
    print(f"{total():6} of {ALL_WORDS:6} all together")


if __name__ == "__main__":
    main()
