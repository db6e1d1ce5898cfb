"""Lines that are typed on a terminal, and what it is given."""
import os
import pty
import subprocess
import tempfile
import threading
from typing import Callable

import pytest
from shell import LONGEST, Room, Said, text_of

# What takes the line of progress away.
AWAY = "\r\x1b[K"
# What no program writes to a terminal.
MARK = b"\x00\x01\x02"


def has_terminal() -> bool:
    try:
        for end in pty.openpty():
            os.close(end)
    except OSError:
        return False
    return True


TERMINAL = pytest.mark.skipif(not has_terminal(), reason="this machine gives no terminal")


def all_of(run: "subprocess.Popen[bytes]", ours: int, theirs: int) -> bytes:
    """What a terminal is given until a process has ended. The other end is held open, and a mark is written behind what came:
    of a terminal whose last holder closes it, what was written last may be lost."""

    def mark() -> None:
        try:
            run.wait(timeout=LONGEST)
        except subprocess.TimeoutExpired:
            run.kill()
            run.wait()
        os.write(theirs, MARK)

    ender = threading.Thread(target=mark)
    ender.start()
    seen = b""
    while not seen.endswith(MARK):
        seen += os.read(ours, 65536)
    ender.join()
    os.close(ours)
    os.close(theirs)
    return seen.removesuffix(MARK)


def run_on_terminal(room: Room, typed: str, has_both: bool = False) -> Said:
    """Types a line whose standard error goes to a terminal, and, where it has both streams, standard output too."""
    ours, theirs = pty.openpty()
    with tempfile.TemporaryFile() as out:
        run = room.start(typed, stdout=theirs if has_both else out, stderr=theirs)
        seen = all_of(run, ours, theirs)
        out.seek(0)
        return Said(run.returncode, text_of(out.read()), text_of(seen))


def on_terminal(typed: str) -> Callable[[Room], Said]:
    """What comes of a line on a terminal, as standard error what stands there once the progress is gone."""

    def act(room: Room) -> Said:
        status, out, seen = run_on_terminal(room, typed)
        return Said(status, out, seen.rpartition(AWAY)[2].replace("\r\n", "\n"))

    return act
