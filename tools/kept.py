"""What earlier runs on this machine came to, kept by the checksums of all that it rests on.

It stands in the folder that $JUMBETAI_KEPT names, else in jumbetai in the user's folder for caches ($XDG_CACHE_HOME, or
~/.cache): outside every checkout, so that a new clone finds it, and the user's own, since whoever writes there says what
passed. A result's name is the sum of what it rests on, so that it never goes stale. One that isn't as it was written is
told and removed. Where the folder can't be used nothing is kept.
"""

import contextlib
import hashlib
import json
import os
import shutil
import stat
import sys
import tempfile
import time
from typing import Any, Iterator, Optional

# The parts of a crate that a check reads.
SOURCES = ("src", "specs", "proofs")
# What of the kit a check or a build reads beside its libraries, whose files are held to the sum in their `format`.
KIT_PARTS = ("bin", "c", "logic_built", "rattle/logic", "toolchain")
UNUSED_SECONDS = 60 * 86_400
# Of each crate, those of the repository and those of the kit that it uses.
Crates = dict[str, tuple[list[str], list[str]]]


class Damaged(Exception):
    """A kept result isn't as it was written."""


def sum_of(*told: Any) -> str:
    return hashlib.sha256(json.dumps(told, sort_keys=True).encode()).hexdigest()


def file_sum(file: str) -> str:
    with open(file, "rb") as it:
        return hashlib.sha256(it.read()).hexdigest()


def files_below(folder: str) -> Iterator[str]:
    """The files below a folder, in one order."""
    for at, folders, files in os.walk(folder):
        folders.sort()
        yield from (f"{at}/{it}" for it in sorted(files))


def kit_sum(kit: str) -> str:
    """The sum of a kit: the texts that name it, and the size and the time of each file that a check reads."""
    told: list[Any] = [file_sum(f"{kit}/{it}") for it in sorted(os.listdir(kit)) if os.path.isfile(f"{kit}/{it}")]
    for part in KIT_PARTS:
        for file in files_below(f"{kit}/{part}"):
            found = os.lstat(file)
            told.append((file[len(kit) :], found.st_size, found.st_mtime_ns))
    formats = [f"rlibs/{it}/format" for it in sorted(os.listdir(f"{kit}/rlibs"))] if os.path.isdir(f"{kit}/rlibs") else []
    return sum_of(told, [(it, file_sum(f"{kit}/{it}")) for it in formats if os.path.exists(f"{kit}/{it}")])


class Sums:
    """The sums of all that a check of each crate rests on: its sources, its line of crates.txt, the same of the crates
    below it, and the kit."""

    def __init__(self, top: str, crates: Crates, kit: str) -> None:
        self.top, self.crates, self.kit = top, crates, kit_sum(kit)
        self.found: dict[str, str] = {}

    def sources(self, name: str) -> list[tuple[str, str]]:
        folder = f"{self.top}/crates/{name}"
        return [(file[len(folder) :], file_sum(file)) for part in SOURCES for file in files_below(f"{folder}/{part}")]

    def of(self, name: str) -> str:
        if name not in self.found:
            below = [self.of(it) for it in self.crates[name][0]]
            self.found[name] = sum_of(self.kit, name, self.crates[name], self.sources(name), below)
        return self.found[name]


def place() -> Optional[str]:
    """The folder of what is kept, or None where it can't be the user's own."""
    caches = os.environ.get("XDG_CACHE_HOME") or os.path.expanduser("~/.cache")
    folder = os.path.abspath(os.environ.get("JUMBETAI_KEPT") or f"{caches}/jumbetai")
    try:
        os.makedirs(folder, 0o700, exist_ok=True)
        found = os.stat(folder)
    except OSError:
        return None
    return folder if found.st_uid == os.geteuid() and not found.st_mode & (stat.S_IWGRP | stat.S_IWOTH) else None


class Kept:
    """Results of one kind, by the sums of what they rest on; with each there may be a file that was made."""

    def __init__(self, kind: str) -> None:
        at = place()
        self.folder = at and f"{at}/{kind}"
        if self.folder is None:
            print("kept: no folder of the user's own is there for what is kept, so nothing is", file=sys.stderr)

    def name(self, key: str) -> str:
        return f"{self.folder}/{key}"

    def result(self, key: str, to: Optional[str] = None) -> Any:
        """What was kept of it, or None; the file beside it is copied where `to` tells. Damaged where it isn't whole."""
        if self.folder is None or not os.path.exists(self.name(key)):
            return None
        try:
            with open(self.name(key), encoding="utf-8") as it:
                found = json.load(it)
            if found["sum"] != sum_of(key, found["told"], found["file"]):
                raise ValueError
            if to is not None:
                shutil.copyfile(f"{self.name(key)}.made", f"{to}.new")
                if file_sum(f"{to}.new") != found["file"]:
                    raise ValueError
                os.replace(f"{to}.new", to)
            os.utime(self.name(key))
            return found["told"]
        except (OSError, ValueError, KeyError, TypeError) as why:
            for file in (self.name(key), f"{self.name(key)}.made"):
                with contextlib.suppress(OSError):
                    os.remove(file)
            raise Damaged(self.name(key)) from why

    def keep(self, key: str, told: Any, file: Optional[str] = None) -> None:
        """Keeps a result, and a file that was made, each whole or not at all."""
        if self.folder is None:
            return
        with contextlib.suppress(OSError):
            os.makedirs(self.folder, 0o700, exist_ok=True)
            with tempfile.TemporaryDirectory(prefix="new-", dir=self.folder) as room:
                if file is not None:
                    shutil.copyfile(file, f"{room}/made")
                made = file and file_sum(f"{room}/made")
                with open(f"{room}/told", "w", encoding="utf-8") as it:
                    json.dump({"sum": sum_of(key, told, made), "told": told, "file": made}, it)
                if file is not None:
                    os.replace(f"{room}/made", f"{self.name(key)}.made")
                os.replace(f"{room}/told", self.name(key))

    def shrink(self, most: Optional[int] = None) -> None:
        """Removes what was long unused, and of what is left all but so many that were used last."""
        with contextlib.suppress(OSError):
            names = [it for it in os.scandir(self.folder or "") if it.is_file() and not it.name.endswith(".made")]
            names.sort(key=lambda it: -it.stat().st_mtime)
            for at, it in enumerate(names):
                if (most is not None and at >= most) or it.stat().st_mtime < time.time() - UNUSED_SECONDS:
                    for file in (it.path, f"{it.path}.made"):
                        with contextlib.suppress(OSError):
                            os.remove(file)
