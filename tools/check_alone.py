#!/usr/bin/env python3
"""Checks one crate where those below it aren't proved yet, or says what of its proof is dear.

    tools/check_alone.py [--only WORD]... [--test] [--jobs N] [--dear N] [--keep FOLDER] NAME

The crates below it are read as sources, as copies in which a hole stands for each function's proof, so that their
contracts are taken as they are written and nothing of them is proved. What is left is the crate's own: a function with
`--only` in a minute, where the libraries would first take half an hour on a new machine. It proves nothing: the holes
do, if ever. So it prints what the check says of the crate itself and ends with one line, `as it stands: N of NAME not
proved`, with status 1 where that isn't 0. A check that stops before it judges anything is told so, with status 2.

What was checked is kept in FOLDER (by default under the system's folder for temporary files), by the crate, so a
second call takes what didn't change. With --dear it also lists the N functions that took longest, by the times at
which their modules were kept: so only what was checked in one go, by one process and on a quiet machine counts.
"""

import argparse
import collections
import hashlib
import os
import re
import shutil
import subprocess
import sys
import tempfile
from typing import Iterator, Optional

sys.dont_write_bytecode = True
TOP = os.path.dirname(os.path.dirname(os.path.abspath(__file__)))
sys.path.insert(0, f"{TOP}/tools")
import build  # noqa: E402

FUNCTION = re.compile(r"(\s*)(?:pub(?:\([a-z]+\))? )?(?:const )?fn ([a-z_0-9]+)")
TYPE = re.compile(r"^(?:pub(?:\([a-z]+\))? )?(?:struct|enum|union) ([A-Za-z0-9_]+)", re.M)
# The parts of a function's proof, each of which is a module that a check keeps.
PARTS = {"Code", "Given", "Goals", "Key", "Kinds", "Layout", "Links", "Lts", "Met", "Proof", "Routine", "Statement", "Symbol", "TheLink", "Tie"}


def names_in(text: str) -> list[str]:
    """The names of a type, without its lifetimes."""
    return re.findall(r"[A-Za-z_][A-Za-z0-9_]*", re.sub(r"'[a-z_]+", "", text))


def parted(head: str) -> tuple[str, str]:
    """The parameters of an `impl`, and what stands behind them."""
    if not head.startswith("<"):
        return "", head
    depth = 0
    for at, letter in enumerate(head):
        depth += (letter == "<") - (letter == ">" and head[at - 1] != "-")
        if depth == 0:
            return head[1:at], head[at + 1 :].strip()
    return "", head


def name_of_impl(parameters: str, trait: str, its_type: str) -> str:
    """The name of the module of a trait's functions for a type: each name of both but the parameters, as types are named."""
    bound = set(re.findall(r"(?:^|,)\s*(?:const )?([A-Za-z_][A-Za-z0-9_]*)", parameters))
    words = [names_in(its_type)[0], *(it for it in names_in(trait) if it not in bound)]
    return "".join(it[0].upper() + it[1:] for it in words)


def owner_of(lines: list[str], at: int) -> tuple[str, str]:
    """Whose functions follow the line of an `impl`: a type's, or those of a trait for a type."""
    head = lines[at]
    while "{" not in head.split("ghost")[0] and at + 1 < len(lines):
        at += 1
        head += " " + lines[at].strip()
    parameters, head = parted(head[4:].split("{")[0].split(" where ")[0].strip())
    if " for " not in head:
        return ("type", names_in(head)[0])
    trait, its_type = head.split(" for ", 1)
    if trait == "Drop":
        return ("none", "")
    return ("trait", name_of_impl(parameters, trait, its_type))


def functions_of(text: str, modules: list[str], home: dict[str, list[str]]) -> Iterator[list[str]]:
    """The paths of the functions of a file whose theorems stand alone: cycles, tests and those of traits have none."""
    owner: Optional[tuple[str, str]] = None
    is_cycle, lines = False, text.split("\n")
    for at, line in enumerate(lines):
        if line.startswith("impl"):
            owner = owner_of(lines, at)
        elif re.match(r"(pub(\([a-z]+\))? )?trait ", line):
            owner = ("none", "")
        elif line == "}":
            owner = None
        is_cycle = is_cycle or "#[cycle(" in line
        found = FUNCTION.match(line)
        if not found:
            continue
        if is_cycle or at and "#[test]" in lines[at - 1]:
            is_cycle = False
        elif not found[1]:
            yield [*modules, found[2]]
        elif len(found[1]) == 4 and owner and owner[0] == "type":
            yield [*home.get(owner[1], modules), owner[1], found[2]]
        elif len(found[1]) == 4 and owner and owner[0] == "trait":
            yield [*modules, owner[1], found[2]]


def sources_of(crate: str) -> Iterator[tuple[str, list[str]]]:
    """The sources of a crate, each with the path of its module."""
    for at, _, files in os.walk(f"{crate}/src"):
        for name in sorted(files):
            path = os.path.relpath(f"{at}/{name}", f"{crate}/src")
            modules = path[:-3].split("/")
            yield f"{at}/{name}", [] if modules in (["lib"], ["main"]) else modules


def copy_with_holes(crate: str, name: str, to: str) -> int:
    """Copies a crate, with a hole as each function's proof, and answers how many there are."""
    shutil.rmtree(to, ignore_errors=True)
    shutil.copytree(crate, to, ignore=shutil.ignore_patterns("out", "edits", "must-fail", "data"))
    texts = [(open(path, encoding="utf-8").read(), modules) for path, modules in sources_of(crate)]
    home = {found: modules for text, modules in texts for found in TYPE.findall(text)}
    count = 0
    for text, modules in texts:
        for path in functions_of(text, modules, home):
            folder = f"{to}/proofs/" + "/".join(path)
            os.makedirs(folder, exist_ok=True)
            for old in ("Answers.antt", "Invariants.antt"):
                if os.path.exists(f"{folder}/{old}"):
                    os.remove(f"{folder}/{old}")
            with open(f"{folder}/Proof.antt", "w", encoding="utf-8") as it:
                it.write(
                    f"use Rattle.{name}.proofs.{'.'.join(path)}.Statement.{{statement}}\n\n"
                    f"pub {path[-1]}_spec : {{M : Type 1}} → statement M\n{path[-1]}_spec = ?\n"
                )
            count += 1
    return count


def sum_of(crate: str) -> str:
    """A checksum of what a crate's copy is made of."""
    sums = hashlib.sha256()
    for at, folders, files in os.walk(crate):
        folders[:] = sorted(set(folders) - {"out", "edits", "must-fail", "data"})
        for name in sorted(files):
            sums.update(f"{at}/{name}\0".encode())
            with open(f"{at}/{name}", "rb") as it:
                sums.update(it.read())
    return sums.hexdigest()


def bring_copy(name: str, keep: str) -> None:
    """Makes the copy of a crate anew where the crate changed."""
    crate, to, mark = f"{TOP}/crates/{name}", f"{keep}/below/{name}", f"{keep}/{name}.sum"
    now = sum_of(crate)
    if not os.path.exists(mark) or open(mark, encoding="utf-8").read() != now:
        copy_with_holes(crate, name, to)
        with open(mark, "w", encoding="utf-8") as it:
            it.write(now)


def words_of(name: str, keep: str, jobs: int) -> tuple[list[str], dict[str, str]]:
    """The words of the check, up to those that the caller gives."""
    crates, where = build.crates_listed(TOP), build.kit()
    own, of_kit = crates[name]
    below = build.reached(crates, own)
    root = "main" if os.path.exists(f"{TOP}/crates/{name}/src/main.rt") else "lib"
    words = ["rattle", "check", "--crate-name", name, f"src/{root}.rt", "-L", f"dependency={where}/rlibs"]
    for library in ["std", *sorted(set(of_kit).union(*(crates[it][1] for it in below)))]:
        words += ["--extern", f"{library}={where}/rlibs/{library}.rlib"]
    for library in below:
        bring_copy(library, keep)
        used = ",".join([*crates[library][0], "std", *crates[library][1]])
        words += ["--lib", f"{library}:{used}={keep}/below/{library}/src/lib.rt"]
    words += ["--antt-project", f"{where}/rattle/logic/antt-project.json", "--logic-built", f"{where}/logic_built"]
    words += ["--links", f"{name}=", "--jobs", str(jobs), "--incremental", f"{keep}/{name}"]
    return [*words, "--allow-holes", "--short-goals"], {**os.environ, "PATH": f"{os.environ['PATH']}:{where}/bin"}


def seconds_by_function(folder: str) -> dict[str, float]:
    """How long each function took, by the times of the modules that were kept."""
    kept = []
    for at, folders, files in os.walk(folder):
        folders[:] = [it for it in folders if it != "records"]
        kept += [(os.stat(f"{at}/{it}").st_mtime, it[:-6]) for it in files if it.endswith(".oantt")]
    kept.sort()
    seconds: dict[str, float] = collections.defaultdict(float)
    for (before, _), (after, module) in zip(kept, kept[1:]):
        path = module.split("-", 1)[-1].split(".")
        seconds[".".join(it for it in path if it not in PARTS)] += after - before
    return seconds


def main() -> int:
    words = argparse.ArgumentParser(description=__doc__, formatter_class=argparse.RawDescriptionHelpFormatter)
    words.add_argument("--only", action="append", default=[])
    words.add_argument("--test", action="store_true")
    words.add_argument("--jobs", type=int, default=1)
    words.add_argument("--dear", type=int, default=0)
    words.add_argument("--keep", default=f"{tempfile.gettempdir()}/check_alone")
    words.add_argument("name")
    given = words.parse_args()
    os.makedirs(f"{given.keep}/below", exist_ok=True)
    call, names = words_of(given.name, os.path.abspath(given.keep), given.jobs)
    call += [word for it in given.only for word in ("--only", it)] + ["--test"] * given.test
    ran = subprocess.Popen(call, cwd=f"{TOP}/crates/{given.name}", env=names, stdout=subprocess.PIPE, stderr=subprocess.STDOUT, text=True)
    left, is_judged = set(), False
    assert ran.stdout
    for line in ran.stdout:
        is_judged = is_judged or re.match(r"only=\d|holes=\d|logic=", line) is not None
        if line.startswith(f"{given.keep}/below") or f"={given.keep}/below" in line:
            continue
        own = re.match(rf"fn ({given.name}::\S+): (not proved|no proof|could not tell)", line.removeprefix("so far: "))
        if own:
            left.add(own[1])
        elif re.match(r"(so far: )?\S+: error", line):
            left.add(line)
        elif re.match(r"fn |crate |statements |so far: \d", line):
            continue
        print(line, end="", flush=True)
    ran.wait()
    taken = seconds_by_function(f"{given.keep}/{given.name}")
    for function, seconds in sorted(taken.items(), key=lambda it: -it[1])[: given.dear]:
        print(f"{seconds:7.1f} s  {function}")
    if not is_judged and not left:
        print("nothing was judged: the check stopped before, at what it says of the copies below", flush=True)
        return 2
    print(f"as it stands: {len(left)} of {given.name} not proved", flush=True)
    return 1 if left else 0


if __name__ == "__main__":
    sys.exit(main())
