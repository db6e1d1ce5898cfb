"""The library as its users have it: a folder with the archive, its header and the shared object, and what is compiled over them."""
import contextlib
import os
import re
import shutil
import subprocess
from typing import Any, Iterable, Iterator, Mapping, Optional

import library
import pytest
from shell import TOP

QUESTIONS = ("cover", "shown", "conflicts", "latest", "kinds", "days", "gaps")
STRICT = ["-std=c11", "-Wall", "-Wextra", "-Wconversion", "-Werror", "-pedantic", "-O1", "-g"]
# The tests of some of the C alone, without the proved part, and with what each is linked.
ALONE: dict[str, list[str]] = {
    "bindings/c/test_files.c": ["files.c", "errno.c", "-Wl,--wrap=fcntl,--wrap=fsync,--wrap=syncfs,--wrap=open"],
    "bindings/c/test_parts.c": ["errno.c", "heap.c", "outbox.c", "site.c", "-ffunction-sections", "-Wl,--gc-sections"],
}
# The programs in C, and with what else each is linked.
PROGRAMS: dict[str, list[str]] = {
    "bindings/c/test_site.c": [],
    "bindings/c/test_file.c": [],
    "bindings/c/test_outbox.c": [],
    "bindings/c/test_service.c": [],
    "bindings/c/test_full.c": [],
    "bindings/c/test_numbers.c": [],
    "bindings/c/test_division.c": [],
    "bindings/c/try_want.c": [],
    "bindings/c/try_want_outbox.c": ["-Wl,--wrap=malloc,--wrap=realloc"],
    "examples/c/ask.c": [],
    "examples/c/orders.c": [],
}
NOTHING: dict[str, str] = {}
DONE = re.compile(rb"(\d+) passed, 0 failed|([1-9]\d*) requests refused")


def is_apart(source: str) -> bool:
    """Whether a program in C is no test, or one that wants a disk of its own."""
    return source.startswith("examples/") or source.endswith("/test_full.c")


def name_of(source: str) -> str:
    return os.path.basename(source).removesuffix(".c")


def sources(names: Iterable[str]) -> list[str]:
    """The files of bindings/c among the words of a command, where they lie."""
    return [f"{TOP}/bindings/c/{it}" if it.endswith(".c") else it for it in names]


def worked_answers() -> dict[str, str]:
    """The answers of examples/README.md about examples/orders.json, worked out by hand: a block below each question."""
    with open(f"{TOP}/examples/README.md", encoding="utf-8") as file:
        text = file.read()
    return dict(re.findall(r"^## `(\w+)`$.*?^```\n(.*?)^```$", text, re.M | re.S))


@contextlib.contextmanager
def small_disk(folder: str) -> Iterator[Optional[str]]:
    """A folder on a file system of 2 MiB; none where this user can't mount one."""
    os.makedirs(folder)
    words = ["mount", "-t", "tmpfs", "-o", "size=2m", "tmpfs", folder]
    is_mounted = shutil.which("mount") is not None and subprocess.run(words, capture_output=True, check=False).returncode == 0
    try:
        yield folder if is_mounted else None
    finally:
        if is_mounted:
            subprocess.run(["umount", folder], check=True)


class Bench:
    """A folder with the library, in which programs are compiled and run."""

    def __init__(self, folder: str, of: str, program: str) -> None:
        self.folder, self.compiled = folder, dict[str, tuple[int, bytes]]()
        self.environment = {**os.environ, "PYTHONDONTWRITEBYTECODE": "1", "JUMBETAI_LIB_DIR": f"{folder}/library"}
        self.own_program = program if os.path.exists(program) else None
        if self.own_program:
            self.environment["JUMBETAI_SITE"] = program
        os.makedirs(f"{folder}/library")
        for file in ("libjumbetai.a", "jumbetai.h"):
            shutil.copy(f"{of}/{file}", f"{folder}/library/{file}")
        # Apart from the archive, or the programs in C would be linked with it.
        os.makedirs(f"{folder}/shared")
        self.run_well([f"{TOP}/tools/library.py", "--from", "library", "--object", "shared/libjumbetai.so"])

    @property
    def program(self) -> str:
        """The program, beside which the library is tried."""
        if self.own_program is None:
            pytest.skip("the program isn't there")
        return self.own_program

    def at(self, name: str) -> str:
        return f"{self.folder}/{name}"

    def wants(self, tool: str) -> None:
        """Skips a test where a tool isn't there."""
        if shutil.which(tool) is None or self.run([tool, "--version"])[0]:
            pytest.skip(f"{tool} isn't there")

    def run(self, words: list[str], more: Mapping[str, str] = NOTHING, folder: Optional[str] = None) -> tuple[int, bytes]:
        """The status of a command with more in its environment, and what it said on either stream."""
        how: dict[str, Any] = {"stdin": subprocess.DEVNULL, "stdout": subprocess.PIPE, "stderr": subprocess.STDOUT}
        ran = subprocess.run(words, cwd=folder or self.folder, env={**self.environment, **more}, check=False, **how)
        return ran.returncode, ran.stdout

    def run_well(self, words: list[str], said: "Optional[re.Pattern[bytes]]" = None, more: Mapping[str, str] = NOTHING) -> bytes:
        """Runs a command that has to end with status 0, and to say what it has to."""
        status, out = self.run(words, more)
        assert status == 0 and (said is None or said.search(out)), f"{words}: status {status}: {out.decode(errors='replace')[-3000:]}"
        return out

    def compile(self, source: str) -> str:
        """Compiles a program, over the library as its users do but where it is tried alone, once; answers the word that runs it."""
        name = name_of(source)
        if name not in self.compiled:
            over = ["-Ilibrary", f"{TOP}/{source}", "-Llibrary", "-ljumbetai", *PROGRAMS[source]] if source in PROGRAMS else [f"{TOP}/{source}"]
            self.compiled[name] = self.run([library.compiler(), *STRICT, *over, *sources(ALONE.get(source, ())), "-o", name])
        status, out = self.compiled[name]
        assert status == 0, out.decode(errors="replace")
        return f"./{name}"

    def batch(self, name: str, events: int) -> str:
        """A file with so many events."""
        if not os.path.exists(self.at(name)):
            with open(self.at(name), "wb") as out:
                subprocess.run([f"{TOP}/tools/make_batch.py", "--events", str(events)], stdout=out, check=True)
        return self.at(name)
