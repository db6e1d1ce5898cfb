#!/usr/bin/env python3
"""Feeds bytes of libFuzzer's to the library for a bounded while: to `take`, `check`, `delta` and `open_file`.

    tools/fuzz_library.py [--seconds N] [--library FOLDER]     by default 60 seconds, and the library is made

It wants clang with its runtime for sanitizers and libFuzzer (on Debian the packages clang and libclang-rt-dev, or
libclang-common-14-dev), says so where that isn't there, and installs nothing. The C of the library is looked at by the
sanitizers; the proved part isn't compiled for them, so that inputs are found by mutation of the seeds alone: examples,
summaries and database files. An input that is at fault is kept in out/fuzz, and told. No part of a gate.
"""
import argparse
import os
import shutil
import subprocess
import sys
import tempfile

sys.dont_write_bytecode = True
TOP = os.path.dirname(os.path.dirname(os.path.realpath(__file__)))
sys.path.insert(0, f"{TOP}/tools")
import library  # noqa: E402

FLAGS = ["-std=c11", "-O1", "-g", "-fsanitize=fuzzer,address,undefined", "-fno-sanitize-recover=all"]
WORDS = (
    *('"specversion"', '"id"', '"source"', '"type"', '"sequence"', '"00000000000000000001"', '"time"', '"data"', '"1.0"'),
    *('"2024-02-29T10:00:00Z"', '"sources"', '"version"', '"blocks"', '"data_base64"', '"datacontenttype"', '"subject"'),
    *("\\\\u0000", "\\\\ud800", "18446744073709551615", "null", "[[1,2]]", "SQLite format 3\\x00", "\\xff", "\\x00"),
)


def seeds(folder: str, made: str) -> None:
    """Writes what is well and what nearly is, each behind the byte that says what it is given to."""

    def seed(which: bytes, name: str, content: bytes) -> None:
        with open(f"{folder}/{name}", "wb") as out:
            out.write(which + content)

    for name in ("batch.json", "orders.json"):
        with open(f"{TOP}/examples/{name}", "rb") as file:
            seed(b"\0", name, file.read())
    seed(b"\0", "event", b'{"specversion":"1.0","id":"1","source":"/a","type":"t","sequence":"00000000000000000001"}')
    seed(b"\1", "first", b'{"sources":{"/a":[[1,5],[8,8]]},"version":1}\n')
    seed(b"\1", "second", b'{"blocks":{},"sources":{},"version":2}\n')
    words = [f"{made}/ask", "summary", f"{TOP}/examples/orders.json"]
    seed(b"\1", "summary", subprocess.run(words, capture_output=True, check=True).stdout)
    subprocess.run([f"{made}/orders", "place", "7", "2024-02-29T10:00:00Z", f"{made}/orders.db"], check=True, stdout=subprocess.DEVNULL)
    subprocess.run([f"{made}/orders", "relay", "0", f"{made}/orders.db", f"{made}/site.db"], check=True, stdout=subprocess.DEVNULL)
    for name in ("orders.db", "site.db"):
        with open(f"{made}/{name}", "rb") as file:
            seed(b"\2", name, file.read())
    seed(b"\2", "none.db", b"")
    seed(b"\3", "cover", b'{"sources":{"/a":[[1,5],[8,8]]},"version":1}\n')
    seed(b"\3", "kinds", b'["a",1]\n["b",2]\n')


def main() -> int:
    words = argparse.ArgumentParser(description=__doc__, formatter_class=argparse.RawDescriptionHelpFormatter)
    words.add_argument("--seconds", type=int, default=60)
    words.add_argument("--library")
    given = words.parse_args()
    # In memory where that is had: what is synced says nothing here.
    with tempfile.TemporaryDirectory(prefix="fuzz-", dir="/dev/shm" if os.path.isdir("/dev/shm") else None) as folder:
        with open(f"{folder}/none.c", "w", encoding="ascii") as out:
            out.write("int LLVMFuzzerTestOneInput(const unsigned char *it, unsigned long size) { return !it && size; }\n")
        has = shutil.which("clang") and subprocess.run(["clang", *FLAGS, "none.c", "-o", "none"], cwd=folder, capture_output=True).returncode == 0
        if not has:
            print("skipped: all, since clang with the runtimes of its sanitizers and of libFuzzer isn't here")
            return 0
        where = os.path.abspath(given.library) if given.library else f"{folder}/library"
        if not given.library:
            library.make(where, library.proved_part())
        link = [f"-I{where}", f"-L{where}", "-l:libjumbetai.a"]
        for it in ("ask", "orders"):
            subprocess.run([library.compiler(), f"{TOP}/examples/c/{it}.c", *link, "-o", it], cwd=folder, check=True)
        parts = [f"{TOP}/bindings/c/{it}" for it in ("fuzz.c", *library.PARTS)]
        subprocess.run(["clang", *FLAGS, *parts, *link, "-o", "fuzz"], cwd=folder, check=True)
        os.mkdir(f"{folder}/seeds")
        seeds(f"{folder}/seeds", folder)
        with open(f"{folder}/words", "w", encoding="ascii") as out:
            out.writelines('"{}"\n'.format(it.replace('"', '\\"')) for it in WORDS)
        kept = f"{TOP}/out/fuzz"
        os.makedirs(kept, exist_ok=True)
        limits = [f"-max_total_time={given.seconds}", "-max_len=65536", "-timeout=20", "-rss_limit_mb=2048", "-len_control=0"]
        told = ["-dict=words", f"-artifact_prefix={kept}/", "-print_final_stats=1", "-verbosity=1"]
        return subprocess.run(["./fuzz", *limits, *told, "seeds"], cwd=folder, check=False).returncode


if __name__ == "__main__":
    sys.exit(main())
