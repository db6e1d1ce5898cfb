"""Repositories of two crates, in which the scripts of this one are tried with a script in the prover's place."""
import contextlib
import os
import shutil
import subprocess
from typing import Iterator, Optional

from shell import TOP

# A script in the place of `rattle`: a library is built by making its `format`, and a function is refused at the clause
# `right` where a line of it says that it is wrong. What it was asked for goes to the file `asked`.
PROVER = """#!/usr/bin/env python3
import os, re, sys
words = sys.argv[1:]
if words[0] == "build":
    made = words[words.index("-o") + 1]
    with open(os.environ["ASKED"] + ".built", "a") as it:
        it.write(words[words.index("--crate-name") + 1] + chr(10))
    with open(os.environ["ASKED"] + ".sessions", "a") as it:
        it.write(f"{os.getsid(0)} {os.getpgrp()}" + chr(10))
    if made.endswith(".rlib"):
        os.makedirs(made, exist_ok=True)
        made += "/format"
    with open(made, "w") as it:
        it.write("built")
    sys.exit()
asked = [word for at, word in enumerate(words) if words[at - 1] == "--only"]
with open(os.environ["ASKED"], "a") as it:
    it.write(" ".join(asked) + chr(10))
with open("src/lib.rt") as it:
    lines = it.read().split(chr(10))
proved = 0
for only in asked:
    at = next((at for at, line in enumerate(lines) if re.match(rf"pub fn {only}\\b", line)), None)
    if at is None:
        sys.exit(2)
    is_wrong = any("wrong" in line for line in lines[at : lines.index("}", at)])
    is_control = only.endswith("_edit1")
    if is_wrong or is_control and os.path.exists(os.environ["ASKED"] + ".faithless"):
        print(f"note: src/lib.rt:{at + 1}:1: it is not proved that it is right (`returns-clause-right`)")
        print(f"fn small::{only}: no proof: `search` did not prove `returns-clause-right`; it calls `small::other`, which is not proved")
    elif is_control and os.path.exists(os.environ["ASKED"] + ".calls"):
        print(f"fn small::{only}: no proof: it calls `small::second` and `small::third`, which are not proved")
    else:
        proved += 1
        print(f"fn small::{only}: proved")
print(f"only={len(asked)} proved={proved}")
sys.exit(proved < len(asked))
"""
LOW = "/// The number.\npub fn number() -> u8\n{\n    0\n}\n"
SMALL = "".join(f"/// The number.\npub fn {it}() -> u8\n{{\n    {it}_is_right\n}}\n\n" for it in ("first", "second"))


class Copy:
    """A repository of two crates, with something in the prover's place and in the kit's."""

    def __init__(self, folder: str) -> None:
        self.folder, self.top = folder, f"{folder}/top"
        for name, text in {"low": LOW, "small": SMALL}.items():
            self.write(f"top/crates/{name}/src/lib.rt", text)
        self.write("top/crates.txt", "low: std\nsmall: low\n")
        self.write("kit/KIT-ID", "a kit\n")
        self.write("kit/bin/prover", "as it was built\n")
        self.write("bin/rattle", PROVER)
        self.write("bin/rt", f"#!/bin/sh\necho {folder}/kit/START-HERE.md\n")
        for it in ("rattle", "rt"):
            os.chmod(f"{folder}/bin/{it}", 0o755)
        for it in ("build.py", "kept.py", "try_edits.py"):
            self.write(f"top/tools/{it}", "")
            shutil.copy(f"{TOP}/tools/{it}", f"{self.top}/tools/{it}")
        for name, only in {"one": "first", "two": "first", "three": "second"}.items():
            self.edit(name, only, f"{only}_is_wrong")
        self.table("one", "two", "three")

    def write(self, name: str, text: str) -> None:
        os.makedirs(os.path.dirname(f"{self.folder}/{name}"), exist_ok=True)
        with open(f"{self.folder}/{name}", "w", encoding="utf-8") as it:
            it.write(text)

    def edit(self, name: str, only: str, new: str) -> None:
        lines = ("only: " + only, "clause: right", "file: src/lib.rt", f"old: {only}_is_right", f"new: {new}")
        self.write(f"top/crates/small/edits/{name}.edit", "\n".join(lines) + "\n")

    def table(self, *names: str) -> None:
        self.write("top/crates/small/edits/README.md", "".join(f"| `{it}` |\n" for it in names))

    @contextlib.contextmanager
    def changed(self, name: str, text: Optional[str]) -> Iterator[None]:
        """Changes a file, a line more where no text is given, and makes it again what it was."""
        file, was = f"{self.folder}/{name}", None
        if os.path.exists(file):
            was = os.stat(file)
            shutil.copy(file, f"{self.folder}/was")
            with open(file, encoding="utf-8") as it:
                text = text or it.read() + "\n"
        self.write(name, text or "")
        yield
        os.remove(file)
        if was:
            shutil.copy(f"{self.folder}/was", file)
            os.utime(file, ns=(was.st_atime_ns, was.st_mtime_ns))

    def run(self, *words: str, top: Optional[str] = None, **more: str) -> tuple[int, list[str], list[str]]:
        """Its status, how many were kept and tried anew, how many passed and failed, and what the prover was asked for."""
        asked = f"{self.folder}/asked"
        with open(asked, "w", encoding="utf-8"):
            pass
        path = f"{self.folder}/bin:{os.environ['PATH']}"
        how = {**os.environ, "PATH": path, "JUMBETAI_KEPT": f"{self.folder}/kept", "ASKED": asked, "PYTHONDONTWRITEBYTECODE": "1", **more}
        ran = subprocess.run([f"{top or self.top}/tools/try_edits.py", "--jobs", "1", *words], env=how, capture_output=True, text=True)
        with open(asked, encoding="utf-8") as it:
            checks = it.read().splitlines()
        return ran.returncode, ran.stdout.splitlines(), checks


def kept_files(folder: str) -> list[str]:
    return [f"{folder}/kept/edits/{it}" for it in sorted(os.listdir(f"{folder}/kept/edits"))]
