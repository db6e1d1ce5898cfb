"""How rows of a driver are played, by one in C that asks memory for each call, once before it and once in it: what is told of good
rows and of bad ones."""
import os
import subprocess
import tempfile
from typing import Iterator, Union

import pytest
from driver_rows import Driver
from refuse_allocations import Refuser

pytestmark = pytest.mark.scripts
# `put N` adds to a sum that `sum` tells, N times one, and asks memory at each but the first; what is left where it is
# refused is added then. `PUTS_AGAIN` makes it forget that some were added before.
DRIVER = r"""
#include <stdio.h>
#include <stdlib.h>
#include <string.h>
static long sum;
static int play(const char *call) {
    long n, i;
    void *more;
    if (!strcmp(call, "sum")) return printf("%ld\n", sum);
    if (sscanf(call, "put %ld", &n) != 1) return printf("no answer\n");
    for (i = 0; i < n; i++) {
        if (i) {
            more = malloc(16);
            if (!more) {
                printf("(again) %ld came\n", i);
                if (PUTS_AGAIN) i = 0;
            }
            free(more);
        }
        sum++;
    }
    return printf("put\n");
}
int main(void) {
    static char line[1000], room[100000], out[100000];
    setvbuf(stdin, room, _IOFBF, sizeof room);
    setvbuf(stdout, out, _IOFBF, sizeof out);
    while (fgets(line, sizeof line, stdin)) {
        line[strcspn(line, "\n")] = 0;
        puts(line);
        if (!strncmp(line, "> ", 2)) play(line + 2);
    }
    return 0;
}
"""
FIRST = "# First.\n> put 1\nput\n\n"
THREE = "# Three come, and the sum is four.\n> put 3\nput\n~ once 1 came\n~ 2 came\n> sum\n4\n"
# Rows with their answers, whether the driver is one that forgets, and how many groups and refused allocations there are where all is
# right, or what has to be told.
ROWS: dict[str, tuple[str, int, Union[int, str]]] = {
    "good rows": (FIRST + THREE, 0, 4),
    "an answer that isn't the driver's": (FIRST + THREE.replace("\n4\n", "\n5\n"), 0, "status 0, ['> sum', '4'], and not ['> sum', '5']"),
    "a refused call that leaves what isn't told": (FIRST + THREE.replace("~ 2 came\n", ""), 0, "> put 3 left behind: 2 came"),
    "lines of what may be left that don't come up": (FIRST + "> put 1\nput\n~ 1 came\n", 0, "nothing of what it may leave behind came up"),
    "one that comes up once and not": (FIRST + THREE.replace("~ 2 came\n", "~ 2 came\n~ once 3 came\n"), 0, "it left behind 0 times: ~ once 3 came"),
    "a call of which no line says what it may leave": (FIRST + THREE.replace("~ once 1 came\n~ 2 came\n", ""), 0, 4),
    "a refused call that answers otherwise later": (FIRST + THREE, 1, "and not ['> sum', '4']"),
    "what isn't refused": (FIRST + "# No allocation is refused of what follows.\n\n" + THREE.replace("~ 2 came\n", ""), 0, 3),
    "one line more of what may be left once": (FIRST + THREE.replace("put 3", "put 2").replace("~ 2 came\n", "").replace("\n4\n", "\n3\n"), 0, 3),
}


@pytest.fixture(scope="module")
def folder() -> Iterator[str]:
    with tempfile.TemporaryDirectory(prefix="rows-tried-") as folder:
        yield folder


@pytest.fixture(scope="module")
def refuser() -> Iterator[Refuser]:
    with Refuser() as refuser:
        yield refuser


def play(folder: str, text: str, forgets: int, refuser: Refuser) -> tuple[int, list[str]]:
    """How many groups and refused allocations these rows have, and what is wrong with them."""
    program = f"{folder}/driver{forgets}"
    if not os.path.exists(program):
        with open(f"{folder}/driver.c", "w", encoding="ascii") as it:
            it.write(DRIVER)
        subprocess.run(["cc", "-O1", f"-DPUTS_AGAIN={forgets}", "-o", program, f"{folder}/driver.c"], check=True)
    lines = text.splitlines(True)
    asked = [it for it in lines if it.startswith(("#", ">", "~")) or it == "\n"]
    for name, own in (("stdin", asked), ("stdout", lines)):
        with open(f"{folder}/{name}", "w", encoding="ascii") as it:
            it.writelines(own)
    driver = Driver(program, folder, refuser)
    count = sum(1 + driver.play(at) for at in range(len(driver.groups)))
    return count, [line for it in driver.groups for line in it.wrong]


@pytest.mark.parametrize("name", ROWS)
def test_rows(name: str, folder: str, refuser: Refuser) -> None:
    text, forgets, told = ROWS[name]
    count, wrong = play(folder, text, forgets, refuser)
    if isinstance(told, int):
        assert (count, wrong) == (told, [])
    else:
        assert any(told in it for it in wrong), wrong
