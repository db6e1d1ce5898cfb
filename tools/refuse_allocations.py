#!/usr/bin/env python3
"""Runs the built program with the first, second, .. allocation refused, until a run meets no refusal.

usage: tools/refuse_allocations.py PROGRAM WORD..

Each run has to end with the answer of the whole run, or with status 1, `site: out of memory` and nothing on standard
output. The C compiler `cc` builds the shim that refuses.
"""
import os
import subprocess
import sys
import tempfile
import threading
from typing import Any

SHIM = r"""
#define _GNU_SOURCE
#include <dlfcn.h>
#include <errno.h>
#include <stdlib.h>
#include <fcntl.h>
#include <unistd.h>

static long count, refused_at = -1;

static int refuses(void) {
    if (refused_at < 0) {
        const char *at = getenv("REFUSE_AT");
        refused_at = at ? atol(at) : 0;
    }
    if (++count != refused_at) return 0;
    if (getenv("REFUSE_MARK")) close(creat(getenv("REFUSE_MARK"), 0600));
    errno = ENOMEM;
    return 1;
}

#define NEXT(name) ((__typeof__(&name))dlsym(RTLD_NEXT, #name))
void *malloc(size_t n) { return refuses() ? NULL : NEXT(malloc)(n); }
void *realloc(void *p, size_t n) { return refuses() ? NULL : NEXT(realloc)(p, n); }
void *aligned_alloc(size_t a, size_t n) { return refuses() ? NULL : NEXT(aligned_alloc)(a, n); }
int posix_memalign(void **p, size_t a, size_t n) { return refuses() ? ENOMEM : NEXT(posix_memalign)(p, a, n); }
"""


class Refuser:
    """Runs commands with one allocation refused."""

    def __enter__(self) -> "Refuser":
        self.room = tempfile.TemporaryDirectory()
        with open(f"{self.room.name}/shim.c", "w") as out:
            out.write(SHIM)
        self.shim = f"{self.room.name}/shim.so"
        subprocess.run(["cc", "-O1", "-shared", "-fPIC", "-o", self.shim, f"{self.room.name}/shim.c", "-ldl"], check=True)
        return self

    def __exit__(self, *why: object) -> None:
        self.room.cleanup()

    def ran(self, words: list[str], at: int, **how: Any) -> tuple[subprocess.CompletedProcess[bytes], bool]:
        """The run of the words whose allocation of this number, from 1, is refused, and whether it came so far."""
        mark = f"{self.room.name}/mark-{threading.get_ident()}-{at}"
        env = {**os.environ, "LD_PRELOAD": self.shim, "REFUSE_AT": str(at), "REFUSE_MARK": mark}
        if "input" not in how:
            how["stdin"] = subprocess.DEVNULL
        ran = subprocess.run(words, capture_output=True, env=env, timeout=60, **how)
        was_met = os.path.exists(mark)
        if was_met:
            os.remove(mark)
        return ran, was_met


def main() -> int:
    program, words = os.path.abspath(sys.argv[1]), sys.argv[2:]
    whole = subprocess.run([program, *words], capture_output=True)
    bad, refused, at = 0, 0, 0
    with Refuser() as refuser:
        while True:
            at += 1
            ran, was_met = refuser.ran([program, *words], at)
            said = (ran.returncode, ran.stdout, ran.stderr)
            if not was_met:
                break
            out_of_memory = said == (1, b"", b"site: out of memory\n")
            refused += out_of_memory
            if not out_of_memory and said != (whole.returncode, whole.stdout, whole.stderr):
                bad += 1
                print(f"allocation {at}: status {said[0]}, {said[1][:80]!r}, {said[2][:80]!r}")
        print(f"{at - 1} allocations refused in turn: {refused} ended with out of memory, {bad} with another answer")
    return 1 if bad else 0


if __name__ == "__main__":
    sys.exit(main())
