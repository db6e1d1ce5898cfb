"""The pages that people read: links, pipes, lengths, dates, and that what they name is there.

Of each page of the repository: each link leads to a file, and to a heading where it names one; a pipe in a block of a shell stands
behind `set -o pipefail` or within a bash that has it; a `console` block stands in a page that tests/test_guide.py runs, and a block
of such a page that isn't run wants what a gate's machine may not have; no date stands outside PAGES_WITH_DATES, but in code; no path
of a machine; and no more lines and words than tools/words.py says. The contracts that docs/GUARANTEES.md names stand in the crates.
"""
import os
import re
from typing import Iterator

import pytest
from harness import Counts
from pages import PAGES, blocks
from shell import TOP
from words import ALL_WORDS, every_page, limit_of, text_of, total

PAGES_WITH_DATES = ("CHANGELOG.md", "docs/PERFORMANCE.md")
DATE = re.compile(r"\b20\d\d-[01]\d-[0-3]\d\b")
PATH = re.compile(r"(?<![\w.])/(?:work|opt/rattle|root)\b|(?<![\w.])/tmp/")
LINK = re.compile(r"\[[^][]*\]\(([^()\s]+)\)")
# What a block that isn't run wants, in a page whose other blocks are.
WANTED = ("mosquitto_", "psql ", "mariadb ", "tar -x", "./site", "./gate", "tools/service.py")
SHELLS = ("sh", "console", "bash")


def without_code(text: str) -> str:
    return re.sub(r"`[^`\n]*`", "", re.sub(r"^```.*?^```", "", text, flags=re.M | re.S))


def anchors(page: str) -> set[str]:
    """The names by which headings are linked to."""
    found = re.findall(r"^#+ (.*)$", re.sub(r"^```.*?^```", "", text_of(page), flags=re.M | re.S), re.M)
    return {re.sub(r"[^\w\- ]", "", it.lower()).replace(" ", "-") for it in found}


def links(page: str) -> Iterator[str]:
    """What is wrong with the links of a page."""
    for to in LINK.findall(re.sub(r"^```.*?^```", "", text_of(page), flags=re.M | re.S)):
        if re.match(r"[a-z]+:", to):
            continue
        file, _, heading = to.partition("#")
        where = os.path.normpath(os.path.join(os.path.dirname(page), file)) if file else page
        if not os.path.exists(f"{TOP}/{where}"):
            yield f"{to} leads nowhere"
        elif heading and (not where.endswith(".md") or heading not in anchors(where)):
            yield f"{to}: there is no such heading"


def pipes(page: str) -> Iterator[str]:
    """Pipes of a page that stand before it says how their status is told."""
    is_told = False
    for _, mark, lines in blocks(page):
        if mark[:1] and mark[0] in SHELLS:
            text = "\n".join(lines)
            is_told = is_told or "pipefail" in text
            if re.search(r"(?<!\|)\|(?!\|)", re.sub(r"'[^']*'|\"[^\"]*\"", "", text)) and not is_told:
                yield f"a pipe without pipefail: {lines[0]}"


def runs(page: str) -> Iterator[str]:
    """Blocks that are to be run and aren't."""
    for _, mark, lines in blocks(page):
        text = "\n".join(lines)
        if page not in PAGES and mark[:1] == ["console"]:
            yield f"a block that tests/test_guide.py doesn't run: {lines[0]}"
        elif page in PAGES and mark[:1] == ["sh"] and len(mark) == 1 and not any(it in text for it in WANTED):
            yield f"a block that could be run: {lines[0]}"


def dates(page: str) -> Iterator[str]:
    if page not in PAGES_WITH_DATES:
        yield from (f"a date: {it}" for it in DATE.findall(without_code(text_of(page))))


def paths(page: str) -> Iterator[str]:
    yield from (f"the path of a machine: {it}" for it in PATH.findall(text_of(page)))


def lengths(page: str) -> Iterator[str]:
    text, (most_lines, most_words) = text_of(page), limit_of(page)
    if most_lines and text.count("\n") > most_lines:
        yield f"{text.count(chr(10))} lines, and at most {most_lines} are allowed"
    if len(text.split()) > most_words:
        yield f"{len(text.split())} words, and at most {most_words} are allowed"


def sources(crate: str) -> Iterator[str]:
    for part in ("src", "specs"):
        for at, _, files in os.walk(f"{TOP}/crates/{crate}/{part}"):
            for it in files:
                with open(f"{at}/{it}", encoding="utf-8") as file:
                    yield file.read()


def contracts(page: str) -> Iterator[str]:
    """Functions, types, clauses and definitions that docs/GUARANTEES.md names and that their crates don't have."""
    if page != "docs/GUARANTEES.md":
        return
    crates = set(os.listdir(f"{TOP}/crates"))
    for row in re.findall(r"^\|.*\|(.*)\|$", text_of(page), re.M):
        crate = None
        for name in re.findall(r"`([\w:]+)`", row):
            parts = name.split("::")
            if parts[0] in crates and (len(parts) > 1 or crate is None):
                crate = parts[0]
            text = "\n".join(sources(crate)) if crate else ""
            is_there = re.search(rf"\b(?:fn|struct|enum|trait|ensures) {parts[-1]}\b|^{parts[-1]} .*[:=]", text, re.M)
            if not is_there and parts[-1] not in crates:
                yield f"{name} stands in no source of {crate}"


CHECKS = (links, pipes, runs, dates, paths, lengths, contracts)


@pytest.mark.parametrize("page", every_page())
def test_page(page: str, checks: Counts) -> None:
    for it in CHECKS:
        wrong = [*it(page)]
        checks.judge(it.__name__, not wrong, wrong)


def test_words_of_all_pages() -> None:
    assert total() <= ALL_WORDS
