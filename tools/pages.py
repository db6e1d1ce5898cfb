"""The pages that people paste from: what of them is typed, and what it is to print.

The first word behind ``` says what a block is:

    console     a line that begins with `$ ` is a command; the lines up to the next one are what it prints, on either
                stream. The words behind it are programs that the block wants: where one isn't there, the block is left
                out. `sizes=N,M` is no program: these numbers may be divided, so that the block takes no time;
                tools/try_regions.py runs it as it stands
    sh run      is given to the shell whole, and the block behind it, where that is `text`, is what it prints
    LANG file=F is written to the file F

Other blocks aren't run.
"""
import contextlib
import os
import re
import shutil
import tempfile
from typing import Any, Iterable, Iterator, Optional

HERE = os.path.dirname(os.path.dirname(os.path.realpath(__file__)))
PAGES = ("README.md", "docs/GUIDE.md", "docs/OPERATIONS.md", "docs/PRODUCERS.md", "docs/SERVICE.md", "docs/SCALING.md")
# The service, where no other one is named.
SERVICE = os.path.join(HERE, "out/service/jumbetaid")
# What a stand-in for ssh does: it leaves out the host, and joins the words to one text for a shell, as ssh does.
SSH = '#!/bin/sh\nshift\nexec sh -c "$*"\n'

# The heading that a block stands below, the words of its mark, and its lines.
Block = tuple[str, list[str], list[str]]
# A command with what it is to print, or a text for a file, whose command is none and which stands with the file's name.
Step = tuple[Optional[str], Any]


def blocks(page: str) -> Iterator[Block]:
    """The blocks of a page: the heading that each stands below, the words of its mark, and its lines."""
    with open(os.path.join(HERE, page), encoding="utf-8") as file:
        text = file.read()
    heading = ""
    inside: Optional[Block] = None
    for line in text.splitlines():
        if line.startswith("```") and inside is None:
            inside = (heading, line[3:].split(), [])
        elif inside is None:
            heading = line.lstrip("# ") if line.startswith("#") else heading
        elif line.startswith("```"):
            yield inside
            inside = None
        else:
            inside[2].append(line)


def absent(mark: list[str]) -> set[str]:
    """The programs that a block wants and that aren't there, but the service, which is built."""
    return {it for it in mark[1:] if "=" not in it and it != "jumbetaid" and not shutil.which(it)}


def of_console(mark: list[str], lines: list[str], times: int, of: int) -> list[tuple[str, str]]:
    """The commands of a block, each with what it is to print."""
    found: list[tuple[str, list[str]]] = []
    sizes = [size for word in mark[1:] if word.startswith("sizes=") for size in word[6:].split(",")]
    for line in lines:
        for size in sizes:
            line = re.sub(rf"\b{size}\b", str(int(size) * times // of), line)
        if line.startswith("$ "):
            found.append((line[2:], []))
        else:
            found[-1][1].append(line)
    return [(command, "".join(line + "\n" for line in lines)) for command, lines in found]


def steps(page: str, part: Optional[str] = None, times: int = 1, of: int = 1) -> tuple[list[Step], set[str]]:
    """The commands of a page's console blocks, or of those below a heading, with what each is to print, and the
    programs that blocks want and that aren't there. The sizes of a block are multiplied by `times` and divided by
    `of`."""
    found: list[Step] = []
    lacking: set[str] = set()
    for heading, mark, lines in blocks(page):
        if mark[:1] != ["console"] or part not in (None, heading):
            continue
        lacking |= absent(mark)
        if not absent(mark):
            found += of_console(mark, lines, times, of)
    return found, lacking


def script(page: str, of: int) -> tuple[list[Step], set[str]]:
    """All that a page gives to its shell, in order: commands with what each is to print, and texts that are written
    into files, whose command is none; and the programs that blocks want and that aren't there."""
    found: list[Step] = []
    lacking: set[str] = set()
    is_answered = False
    for _, mark, lines in blocks(page):
        text = "".join(line + "\n" for line in lines)
        file = next((word[5:] for word in mark if word.startswith("file=")), None)
        if mark[:1] == ["text"] and is_answered:
            found[-1] = (found[-1][0], text)
        elif mark[:1] == ["console"]:
            lacking |= absent(mark)
            found += of_console(mark, lines, 1, of) if not absent(mark) else []
        elif mark[:2] == ["sh", "run"]:
            found.append((text, ""))
        elif file:
            found.append((None, (file, text)))
        is_answered = mark[:2] == ["sh", "run"]
    return found, lacking


@contextlib.contextmanager
def room(program: str, ssh: str = SSH, service: Optional[str] = None) -> Iterator[tuple[str, dict[str, str]]]:
    """An empty folder, and an environment in which a shell finds what the guide names: the program as `site`, make_batch.py,
    the service, and a stand-in for ssh, which gives the command to a shell here."""
    with tempfile.TemporaryDirectory() as folder, tempfile.TemporaryDirectory() as path:
        os.symlink(os.path.realpath(program), os.path.join(path, "site"))
        os.symlink(os.path.join(HERE, "tools", "make_batch.py"), os.path.join(path, "make_batch.py"))
        os.symlink(service or SERVICE, os.path.join(path, "jumbetaid"))
        with open(os.path.join(path, "ssh"), "w", encoding="utf-8") as file:
            file.write(ssh)
        os.chmod(os.path.join(path, "ssh"), 0o755)
        yield folder, dict(os.environ, PATH=path + os.pathsep + os.environ["PATH"])


def gone_to(folder: str, command: str) -> str:
    """The folder that what stands below a command is run in."""
    return os.path.normpath(os.path.join(folder, command[3:])) if re.fullmatch(r"cd [\w./-]+", command) else folder


def typed(steps_of_page: Iterable[Step], mark: str) -> Iterator[str]:
    """The text for bash: each command, and behind it a mark, which leaves the status as it was."""
    for command, rest in steps_of_page:
        if command is None:
            file, text = rest
            yield f"cat >{file} <<'{mark}'\n{text}{mark}\n"
        else:
            yield command + "\n"
        yield f"_status=$?; printf '%s\\n' '{mark}'; (exit $_status)\n"
