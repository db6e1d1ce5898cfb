#!/usr/bin/env python3
"""Tries the wrong bodies in crates/NAME/edits/*.edit: each must be refused at the clause that it names.

    tools/try_edits.py [--jobs N] [--anew] [CRATE..]      by default every crate that has edits

An edit is a file of lines: 'only: PATH', the function whose proof is to refuse it; 'clause: NAME', the clause at
which ('ensures' for a contract of one clause without a name), or another goal by the name that a check gives it
('CALL-requires' of what a call asks, 'invariant_of-result'); and then 'file: src/..', 'old: TEXT' (once in that file)
and 'new: TEXT', a line each. It is applied to a copy of the crate, and that one function is checked with what it calls, over the
libraries as they are built. Crates are tried side by side, all edits of a crate in one check: a proof rests on what a
function calls by its contract alone, so the other functions get an empty loop for a body there, and aren't proved. The
second edit of a function is made to a copy of it, under another name and with a copy of its folder of proofs. One copy more
stays as it was, of each such function or, where there is none, of one; each of its goals has to be met, or nothing is said
of the check. What such a check doesn't show refused at its clause is tried alone, with all bodies. An edit that proves is let through; one
that doesn't read or compile, whose old line isn't there once, or that takes away a name that the proof uses, is an
error; one that is refused at other clauses alone is told with those. Each of these fails, and so does a README.md
beside the edits whose table doesn't name just these. The last line is 'N passed, M failed'.

That an edit was refused at its clause is kept on this machine (tools/kept.py) by the checksums of the edit, of its
crate's sources and those of all crates below, of their lines of crates.txt, of the kit and of these scripts: a later run
here, in another clone too, tries what changed. With --anew all are tried. A kept result that is damaged fails.

Libraries that aren't built, or aren't as their sources are, are built first (tools/build.py).
"""

import argparse
import contextlib
import glob
import os
import re
import shutil
import subprocess
import sys
import tempfile
from concurrent.futures import ThreadPoolExecutor, as_completed
from typing import Any, Iterable, Optional, Sequence

import kept
from build import TOP, Made, crates_listed, kit, lanes_for, reached, words_of
from kept import SOURCES, Crates, Damaged, Kept, Sums, file_sum, sum_of

# A proof that cites what the edit took away says nothing of the clause.
TAKEN_AWAY = re.compile(r"is not in scope|has no field|has no `|is no name|was not admitted")
# A goal, as a check names it where its written answer is refused, and where none is written and the search finds none.
ANSWERED = re.compile(r"^(?:\./)?proofs/(\S+?)/\w+\.antt:\d+:\d+: error: `([^`]+)`: ")
SEARCHED = re.compile(r"^note: (src/\S+?):(\d+):\d+: it is not proved that .*\(`([^`]+)`\)")
FUNCTION = r"(\s*)(?:pub(?:\([a-z]+\))? )?(?:const |unsafe )*fn "
# A copy of a function can't stand among a trait's, nor alone in a circle of calls.
OF_TRAIT = re.compile(r"\s*(?:unsafe )?(?:impl\b.* for |(?:pub(?:\([a-z]+\))? )?trait )")
IN_CYCLE = re.compile(r"^\s*#\[cycle\(", re.M)
# What the answers rest on beside the sources and the kit.
SCRIPTS = [os.path.realpath(it) for it in (__file__, kept.__file__, f"{os.path.dirname(__file__)}/build.py")]

# A path with its old and new text each; the function, the clause and the changes; those with their file; and goals, each
# with whether its proof only names what was taken away.
Changes = list[tuple[str, str, str]]
Edit = tuple[str, str, Changes]
Given = tuple[str, Edit]
Goals = dict[str, bool]


class BadEdit(Exception):
    """The edit can't be tried."""


def read_edit(file: str) -> Edit:
    """The function, the clause and the changes, a path with its old and new text each."""
    only = clause = path = old = None
    changes = []
    with open(file, encoding="utf-8") as it:
        for line in it.read().splitlines():
            word, _, rest = line.partition(": ")
            if word == "only":
                only = rest.strip()
            elif word == "clause":
                clause = rest.strip()
            elif word == "file":
                path = rest.strip()
            elif word == "old":
                old = rest
            elif word in ("new", "new:"):
                if not path or not old:
                    raise BadEdit("a line 'new:' before its 'file:' or 'old:'")
                changes.append((path, old, rest))
                old = None
    if not only or not clause or not changes:
        raise BadEdit("it lacks a line 'only:', 'clause:' or a pair 'old:' and 'new:'")
    if any(not path.startswith("src/") or os.path.normpath(path) != path for path, _, _ in changes):
        raise BadEdit("it changes a file that isn't below src/")
    return only, clause, changes


def is_goal_of(clause: str, goal: str) -> bool:
    """Whether a goal, as a check names it, is of the clause: `returns-in-Ok-clause-count` is of `count`."""
    if clause == "ensures":
        return goal.startswith("returns") and "-clause-" not in goal
    return goal == clause or goal.startswith("returns") and goal.endswith(f"-clause-{clause}")


def goals_of(only: str, changes: Changes, lines: list[str], room: str) -> Goals:
    """The goals of a function that a check refused, by what it said, each with whether its proof only names what was
    taken away. An answer that is written stands in a folder of the function's path; where none is, the place in the
    source is that of the function."""
    name = only.split("::")[-1]
    goals: Goals = {}
    for line in lines:
        answered, searched = ANSWERED.match(line), SEARCHED.match(line)
        if answered:
            goal = answered[2]
            folder, own = f"/{answered[1]}", "/" + only.replace("::", "/")
            # Functions that call one another have one folder, `+` and a name, in the place of theirs.
            in_cycle = os.path.basename(folder).startswith("+")
            is_of = os.path.dirname(folder).endswith(os.path.dirname(own)) if in_cycle else folder.endswith(own)
        elif searched:
            goal = searched[3]
            is_of = any(path == searched[1] for path, _, _ in changes) and names_at(room, searched[1], searched[2]) == name
        else:
            continue
        if is_of:
            goals.setdefault(goal, TAKEN_AWAY.search(line) is not None)
    return goals


def names_at(room: str, path: str, line: str) -> Optional[str]:
    """The function in which a line of a source stands; that line may be one of the lines right above it."""
    with open(f"{room}/{path}", encoding="utf-8") as it:
        lines = it.read().splitlines()
    at = int(line) - 1
    while re.match(r"\s*(///|#\[|//)", lines[at]):
        at += 1
    for text in reversed(lines[: at + 1]):
        if found := re.match(r"\s*(?:pub(?:\([a-z]+\))? )?(?:const |unsafe )*fn (\w+)", text):
            return found[1]
    return None


def asked_and_proved(status: int, lines: list[str]) -> Optional[tuple[int, int]]:
    """How many functions a check was asked for and how many it proved, or None where the prover wasn't reached."""
    counts = re.fullmatch(r"only=(\d+) proved=(\d+)", lines[-1] if lines else "")
    return None if not counts or counts[1] == "0" or status not in (0, 1) else (int(counts[1]), int(counts[2]))


def unreached(lines: list[str]) -> tuple[bool, str]:
    first = next((it for it in lines if re.search(r"\berror\b[:\[]", it)), lines[-1] if lines else "nothing was said")
    return False, f"ERROR: the edit did not reach the prover: {first[:200]}"


def judged(only: str, clause: str, goals: Goals) -> tuple[bool, str]:
    """Whether the goals that were refused are what is wanted, and what to tell."""
    met = [it for it in goals if is_goal_of(clause, it)]
    if any(not goals[it] for it in met):
        return True, "refused at " + ", ".join(met)
    if met:
        return False, "ERROR: the proof names what the edit took away, so nothing is said of the clause"
    return False, f"REFUSED ELSEWHERE, not at {clause}: {', '.join(goals) or 'no goal of its own'}"


def is_faithful(name: str, control: str, lines: list[str]) -> bool:
    """Whether a check of a crate says of a copy that stayed as it was that its own goals are met: it is proved, or it is
    not for the sole reason that it calls what another edit made wrong."""
    said = next((it for it in lines if re.match(rf"fn {name}::(\w+::)*{control}: ", it)), "")
    return re.fullmatch(r"fn \S+: (proved|no proof: it calls (`\S+`( and )?)+, which (is|are) not proved)", said) is not None


def apply(room: str, changes: Changes) -> None:
    """Makes the changes in a copy of the crate, all or none."""
    texts = {}
    for path, old, new in changes:
        if path not in texts:
            with open(f"{room}/{path}", encoding="utf-8") as it:
                texts[path] = it.read()
        if texts[path].count(old) != 1:
            raise BadEdit(f"an old line stands in {path} {texts[path].count(old)} times, and not once")
        texts[path] = texts[path].replace(old, new)
    for path, text in texts.items():
        with open(f"{room}/{path}", "w", encoding="utf-8") as it:
            it.write(text)


class Placed:
    """An edit's place in a copy of its crate: the function that it changes, or the copy of that function."""

    def __init__(self, file: str, edit: Edit, name: Optional[str] = None) -> None:
        self.file, (self.only, self.clause, self.changes) = file, edit
        self.name = name or self.only.split("::")[-1]
        self.path = "::".join([*self.only.split("::")[:-1], self.name])
        self.control = ""


def function_in(lines: list[str], name: str) -> Optional[tuple[int, int]]:
    """Where a function stands among a source's lines, with what stands right above it, or None where it can't be copied."""
    found = [at for at, text in enumerate(lines) if re.match(rf"{FUNCTION}{name}\b", text)]
    if len(found) != 1:
        return None
    start = at = found[0]
    indent = lines[at][: len(lines[at]) - len(lines[at].lstrip())]
    end = next((it for it in range(at, len(lines)) if re.match(rf"{indent}(}}|\S.*{{}}|{{}})$", lines[it])), at)
    while start and lines[start - 1].strip() and not lines[start - 1].endswith(("{", "}")):
        start -= 1
    around = next((it for it in reversed(lines[:start]) if it.strip() and len(it) - len(it.lstrip()) < len(indent)), "")
    is_alone = lines[end] == f"{indent}}}" and not OF_TRAIT.match(around) and not IN_CYCLE.search("\n".join(lines[start:at]))
    return (start, end + 1) if is_alone else None


def text_of(room: str, path: str) -> str:
    with open(f"{room}/{path}", encoding="utf-8") as it:
        return it.read()


def body_of(room: str, only: str, changes: Changes) -> Optional[str]:
    """The text of an edit's function, if all that the edit changes stands in it once and nowhere else."""
    paths = {path for path, _, _ in changes}
    if len(paths) != 1:
        return None
    text = text_of(room, *paths)
    lines = text.split("\n")
    place = function_in(lines, only.split("::")[-1])
    body = place and "\n".join(lines[slice(*place)])
    return body if body and all(text.count(old) == body.count(old) == 1 for _, old, _ in changes) else None


def folder_of(room: str, only: str) -> Optional[str]:
    """The folder of a function's proofs, below that of all, or None: an edit may name the function by the end of its path."""
    own = f"/{only.replace('::', '/')}"
    found = [at for at, _, files in os.walk(f"{room}/proofs") if at.endswith(own) and any(it.endswith(".antt") for it in files)]
    return os.path.relpath(found[0], f"{room}/proofs") if len(found) == 1 else None


def copy_proofs(room: str, only: str, name: str) -> None:
    """Copies a function's folder of proofs for its copy of another name."""
    folder = folder_of(room, only)
    if folder is None:
        return
    copied = os.path.join(os.path.dirname(folder), name)
    shutil.copytree(f"{room}/proofs/{folder}", f"{room}/proofs/{copied}")
    path, other = re.escape(folder.replace("/", ".")), copied.replace("/", ".")
    for file in os.listdir(f"{room}/proofs/{copied}"):
        text = text_of(f"{room}/proofs/{copied}", file)
        text = re.sub(rf"\b(proofs|contracts)\.{path}(?![\w-])", rf"\g<1>.{other}", text)
        with open(f"{room}/proofs/{copied}/{file}", "w", encoding="utf-8") as it:
            it.write(text)


def add_copy(room: str, only: str, path: str, name: str, body: str) -> None:
    """Puts a copy of a function, with a body of its own, behind it."""
    own = only.split("::")[-1]
    lines = text_of(room, path).split("\n")
    place = function_in(lines, own)
    assert place
    end = place[1]
    body = re.sub(rf"^({FUNCTION}){own}\b", rf"\g<1>{name}", body, count=1, flags=re.M)
    lines[end:end] = ["", *body.split("\n")]
    with open(f"{room}/{path}", "w", encoding="utf-8") as it:
        it.write("\n".join(lines))
    copy_proofs(room, only, name)


def placed(room: str, edits: Sequence[Given], has_copies: bool, has_controls: bool) -> tuple[list[Placed], list[Given]]:
    """Makes edits in a copy of their crate, each further one of a function in a copy of it, as far as that goes. Where
    controls are asked for and no function has further edits, one of them has a copy too that stays as it was. Answers
    those that were made, and those that are left."""
    bodies = {file: body_of(room, only, changes) for file, (only, _, changes) in edits}
    here: dict[str, Placed] = {}
    copies: list[Given] = []
    left: list[Given] = []
    taken: list[tuple[str, str]] = []
    for file, edit in sorted(edits, key=lambda it: bodies[it[0]] is not None):
        only, _, changes = edit
        if only in here:
            can_copy = has_copies and bodies[file] is not None
            (copies if can_copy else left).append((file, edit))
        elif any(path == at and (old in text or text in old) for path, *texts in changes for old in texts for at, text in taken):
            left.append((file, edit))
        else:
            here[only] = Placed(file, edit)
            taken += [(path, text) for path, *texts in changes for text in texts]
    for it in here.values():
        apply(room, it.changes)
    made: list[Placed] = []
    controls: dict[str, str] = {}

    def control_of(only: str, path: str, body: str) -> str:
        """The copy of a function that stays as it was, which is made where it isn't there."""
        *around, own = only.split("::")
        if only not in controls:
            controls[only] = "::".join([*around, f"{own}_edit1"])
            add_copy(room, only, path, f"{own}_edit1", body)
        return controls[only]

    if has_controls and not copies:
        for first in [it for it in here.values() if bodies[it.file]][:1]:
            first.control = control_of(first.only, first.changes[0][0], bodies[first.file] or "")
    for file, (only, clause, changes) in copies:
        path, body, own = changes[0][0], bodies[file] or "", only.split("::")[-1]
        it = Placed(file, (only, clause, changes), f"{own}_edit{len(made) + 2}")
        it.control = control_of(only, path, body)
        for _, old, new in changes:
            body = body.replace(old, new)
        add_copy(room, only, path, it.name, body)
        made.append(it)
    return [*here.values(), *made], left


def body_at(lines: list[str], start: int) -> Optional[tuple[int, int]]:
    """Which lines are the body of a function whose head begins at a line; of an empty one on one line none. None where it
    isn't laid out so."""
    indent = lines[start][: len(lines[start]) - len(lines[start].lstrip())]
    has_clauses = False
    for at in range(start, len(lines)):
        has_clauses = has_clauses or re.match(r"\s*(ensures|requires|ghost)\b", lines[at]) is not None
        if lines[at] == f"{indent}{{}}":
            return (at, at)
        if lines[at] == f"{indent}{{" or not has_clauses and lines[at].endswith("{"):
            end = next((it for it in range(at, len(lines)) if lines[it] == f"{indent}}}"), None)
            return (at + 1, end) if end is not None else None
        if not has_clauses and lines[at].endswith(("}", ";")):
            return None
    return None


def module_of(path: str) -> list[str]:
    """The module that a file of src/ is."""
    names = path.removesuffix(".rt").split(os.sep)
    return [] if names in (["lib"], ["main"]) else names


def modules_of_types(room: str) -> dict[str, list[str]]:
    """The module that each type of a crate stands in, where there is one of its name: its methods are proved by the path
    of the type, in whichever file they stand."""
    found: dict[str, list[list[str]]] = {}
    for at, _, files in os.walk(f"{room}/src"):
        for file in files:
            for name in re.findall(r"^(?:pub(?:\([a-z]+\))? )?(?:struct|enum) (\w+)", text_of(at, file), re.M):
                found.setdefault(name, []).append(module_of(os.path.relpath(f"{at}/{file}", f"{room}/src")))
    return {name: modules[0] for name, modules in found.items() if len(modules) == 1}


def hollow(room: str, stay: set[str]) -> None:
    """Takes the bodies of a copy's functions away, but for those of traits and of circles of calls and those that stay, each
    by the end of its path; each gets a file in place of its proof, so that whoever calls it is checked by its contract.
    Its own proof is then refused at once."""
    types = modules_of_types(room)
    for at, _, files in os.walk(f"{room}/src"):
        for file in files:
            module = module_of(os.path.relpath(f"{at}/{file}", f"{room}/src"))
            lines = text_of(f"{at}", file).split("\n")
            inside: list[str] = []
            is_of_trait, line = False, 0
            while line < len(lines):
                text = lines[line]
                if found := re.match(r"(?:unsafe )?impl\b(?:<.*?>)? (?:.* for )?(\w+)", text):
                    inside, is_of_trait = [found[1]], OF_TRAIT.match(text) is not None
                elif OF_TRAIT.match(text):
                    is_of_trait = True
                elif text == "}":
                    inside, is_of_trait = [], False
                head = re.match(rf"{FUNCTION}(\w+)", text)
                can_lose = not is_of_trait and " const fn " not in f" {text}" and not IN_CYCLE.search("\n".join(lines[max(0, line - 2) : line]))
                body = body_at(lines, line) if head and can_lose else None
                if head and body:
                    own = inside if head[1] else []
                    names = [[*around, *own, head[2]] for around in (module, types.get(own[0], module) if own else module)]
                    if not any(f"::{'::'.join(name)}".endswith(f"::{it}") for name in names for it in stay):
                        lines[slice(*body)] = [f"{head[1]}    loop {{}}"] * (body[0] < body[1])
                        folder = "/".join([room, "proofs", *names[1]])
                        shutil.rmtree(folder, ignore_errors=True)
                        os.makedirs(folder)
                        with open(f"{folder}/Proof.antt", "w", encoding="ascii") as it:
                            it.write("-- this function isn't tried\n")
                line += 1
            with open(f"{at}/{file}", "w", encoding="utf-8") as it:
                it.write("\n".join(lines))


def checked(
    crates: Crates, name: str, edits: Sequence[Given], folders: dict[str, str], kept: str, has_copies: bool = False, is_hollow: bool = False
) -> tuple[int, list[str], float, list[tuple[Placed, Goals]], list[Given]]:
    """Checks the edits' functions over a copy of the crate with as many of these edits as go into one. Answers the status,
    the lines that the check said, the processor seconds, each edit that was made with its refused goals, and the edits
    that weren't."""
    with tempfile.TemporaryDirectory(prefix="try-edit-") as room:
        for part in SOURCES:
            if os.path.isdir(f"{TOP}/crates/{name}/{part}"):
                shutil.copytree(f"{TOP}/crates/{name}/{part}", f"{room}/{part}")
        made, left = placed(room, edits, has_copies, is_hollow)
        if is_hollow:
            hollow(room, {it.path for it in made} | {it.control for it in made})
        how: dict[str, Any] = {"cwd": room, "stdin": subprocess.DEVNULL, "stdout": subprocess.PIPE, "stderr": subprocess.STDOUT}
        words = ["rattle", "check", *words_of(crates, name, folders, kit()), "--jobs", "1", "--incremental", kept]
        for only in dict.fromkeys([*(it.path for it in made), *(it.control for it in made if it.control)]):
            words += ["--only", only]
        with subprocess.Popen(words, errors="replace", **how) as ran:
            assert ran.stdout
            lines = ran.stdout.read().splitlines()
            _, status, used = os.wait4(ran.pid, 0)
            ran.returncode = os.waitstatus_to_exitcode(status)
        goals = [(it, goals_of(it.path, it.changes, lines, room)) for it in made]
        return ran.returncode, lines, used.ru_utime + used.ru_stime, goals, left


def tried(crates: Crates, file: str, folders: dict[str, str], kept: str) -> tuple[bool, str, float]:
    """Whether an edit is refused at its clause, alone, what to tell, and the processor seconds that it took. The
    libraries below stand in their folders of out/, and `kept` has what earlier checks of the crate proved."""
    try:
        only, clause, changes = read_edit(file)
        name = file.split(os.sep)[-3]
        status, lines, seconds, goals, _ = checked(crates, name, [(file, (only, clause, changes))], folders, kept)
    except (BadEdit, OSError) as why:
        return False, f"ERROR: {why}", 0.0
    counts = asked_and_proved(status, lines)
    if counts is None:
        return *unreached(lines), seconds
    if counts[0] == counts[1]:
        return False, f"LET THROUGH: {only} is still proved", seconds
    return *judged(only, clause, goals[0][1]), seconds


def tried_of(crates: Crates, files: list[str], folders: dict[str, str]) -> list[tuple[str, bool, str, float]]:
    """What came of a crate's edits. All are tried in one check, as far as they go into one, without other bodies. Where that
    isn't read, each half is tried, so that one edit at fault leaves the others together; where most isn't, all once more with
    their bodies, and without copies. What isn't shown refused at its clause is tried alone."""
    found, edits = {}, []
    for file in files:
        with contextlib.suppress(BadEdit, OSError):
            edits.append((file, read_edit(file)))
    with tempfile.TemporaryDirectory(prefix="edits-kept-") as kept:
        has_further = len({only for _, (only, _, _) in edits}) < len(edits)
        for has_copies, is_hollow in ((True, True), (has_further, False), *([(False, False)] * has_further)):
            groups = [[(file, edit) for file, edit in edits if file not in found]]
            unread, most = 0, 2 * len(edits).bit_length()
            while groups:
                todo = groups.pop()
                if len(todo) < 2:
                    continue
                name = todo[0][0].split(os.sep)[-3]
                lines: list[str] = []
                with contextlib.suppress(BadEdit, OSError):
                    status, lines, seconds, goals, left = checked(crates, name, todo, folders, kept, has_copies, is_hollow)
                if not lines or asked_and_proved(status, lines) is None:
                    unread += 1
                    if unread > most:
                        break
                    groups += [todo[: len(todo) // 2], todo[len(todo) // 2 :]]
                    continue
                groups.append(left)
                controls = {it.control for it, _ in goals if it.control}
                if is_hollow and not (controls and all(is_faithful(name, it, lines) for it in controls)):
                    continue
                for it, refused in goals:
                    well, text = judged(it.only, it.clause, refused)
                    if well and (not it.control or is_faithful(name, it.control, lines)):
                        found[it.file] = well, text, seconds / len(goals)
            else:
                # Without bodies nothing may have been shown, for want of a copy, or as none of its goals was met.
                if found or not is_hollow:
                    break
        return [(file, *(found.get(file) or tried(crates, file, folders, kept))) for file in files]


def untold(files: list[str]) -> list[str]:
    """What is wrong with the README.md beside a crate's edits: its table has a row for each of them, and no other."""
    names = {os.path.basename(it).removesuffix(".edit") for it in files}
    try:
        with open(f"{os.path.dirname(files[0])}/README.md", encoding="utf-8") as it:
            rows = set(re.findall(r"^\| `([^`]+)` \|", it.read(), re.M))
    except OSError as why:
        return [f"ERROR: no table of the edits: {why}"]
    lacking = [f"ERROR: its table has no row for {it}" for it in sorted(names - rows)]
    return lacking + [f"ERROR: its table names {it}, which isn't there" for it in sorted(rows - names)]


def folders_of(crates: Crates, names: Iterable[str]) -> Optional[dict[str, str]]:
    """The folders of out/ in which the libraries below these crates are as their sources are, which are built first where
    they aren't. None where they can't be built."""
    below = reached(crates, [it for name in names for it in crates[name][0]])
    if below and None in map(Made(crates).folder, below):
        if subprocess.run([f"{TOP}/tools/build.py", *below]).returncode:
            return None
    return Made(crates).folders(below)


def keys_of(sums: Sums, files: Iterable[str]) -> dict[str, str]:
    """The sums of all that what came of each edit rests on."""
    scripts = [file_sum(it) for it in SCRIPTS]
    names = {file: file.split(os.sep)[-3] for file in files}
    return {file: sum_of(scripts, sums.of(name), os.path.basename(file), file_sum(file)) for file, name in names.items()}


class Tally:
    """What came of all edits, told as it comes."""

    def __init__(self, kept: Kept) -> None:
        self.kept, self.passed, self.failed, self.taken = kept, 0, 0, 0

    def tell(self, file: str, well: bool, text: str) -> None:
        self.passed, self.failed = self.passed + well, self.failed + (not well)
        print(f"{os.path.relpath(file, f'{TOP}/crates')}: {text}", flush=True)

    def is_kept(self, file: str, key: str) -> bool:
        """Whether an edit was refused at its clause before; a kept result that is damaged fails, and is tried the next time."""
        try:
            found = self.kept.result(key)
        except Damaged as why:
            self.tell(file, False, f"ERROR: what was kept of it was damaged, and is removed: {why}")
            return True
        if found is not None:
            self.taken += 1
            self.tell(file, True, f"{found['told']} (kept)")
        return found is not None


def main() -> int:
    words = argparse.ArgumentParser(description=__doc__, formatter_class=argparse.RawDescriptionHelpFormatter)
    words.add_argument("--jobs", type=int, default=0)
    words.add_argument("--anew", action="store_true", help="try those too of which it is kept that they were refused")
    words.add_argument("crates", nargs="*")
    given = words.parse_args()
    crates = crates_listed()
    edits = {it: sorted(glob.glob(f"{TOP}/crates/{it}/edits/*.edit")) for it in given.crates or crates}
    edits = {name: files for name, files in edits.items() if files}
    tally = Tally(Kept("edits"))
    for files in edits.values():
        for text in untold(files):
            tally.failed += 1
            print(f"{os.path.relpath(os.path.dirname(files[0]), f'{TOP}/crates')}/README.md: {text}")
    before = keys_of(Sums(TOP, crates, kit()), sum(edits.values(), []))
    todo = {name: [it for it in files if given.anew or not tally.is_kept(it, before[it])] for name, files in edits.items()}
    todo = {name: files for name, files in todo.items() if files}
    folders = folders_of(crates, todo)
    if folders is None:
        print("0 passed, 1 failed")
        return 1
    with ThreadPoolExecutor(lanes_for(given.jobs)) as pool:
        # The highest crates first: theirs are the longest checks.
        runs = [pool.submit(tried_of, crates, files, folders) for _, files in reversed(todo.items())]
        for run in as_completed(runs):
            now = keys_of(Sums(TOP, crates, kit()), [it[0] for it in run.result()])
            for file, well, text, seconds in run.result():
                tally.tell(file, well, f"{text} ({seconds:.0f} s)")
                if well and now[file] == before[file]:
                    tally.kept.keep(before[file], {"told": text})
    tally.kept.shrink()
    print(f"edits: {tally.taken} kept, {sum(map(len, todo.values()))} tried anew")
    print(f"{tally.passed} passed, {tally.failed} failed")
    return 1 if tally.failed else 0


if __name__ == "__main__":
    sys.exit(main())
