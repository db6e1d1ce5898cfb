#!/usr/bin/env python3
"""Brings two regions to one view by the lines of docs/GUIDE.md, at the size that stands there, and says what each took.

    tools/try_regions.py [--program FILE] [--events N] [--by follow|take|ssh]

The lines are those of the part 'Two regions of 100,000 events', which tests/test_guide.py runs at a hundredth of that
size. With --events each region has N events, a multiple of 200, and what a line prints has to go by that. By `take`,
what the other region sends is kept by one `take` of the files that `split` makes of it. By `ssh`, the regions come
together by the three lines of the part 'Over ssh', through a real `ssh` to a server that is started here, on the
loopback address and with keys of its own, whose processor time isn't counted; where there is no server of ssh, it says
so and tries nothing. In the end all seven answers have to be the same at both, and those of both regions' files
together. By hand, since it takes two minutes. The last line is 'N passed, M failed'.
"""
import argparse
import contextlib
import getpass
import os
import re
import resource
import shutil
import socket
import subprocess
import sys
import tempfile
import time
from typing import Iterator, Optional

sys.dont_write_bytecode = True
TOP = os.path.dirname(os.path.dirname(os.path.realpath(__file__)))
sys.path.insert(0, f"{TOP}/tools")
from pages import SSH, gone_to, room, steps  # noqa: E402

GUIDE, AT_SIZE, OVER_SSH = "docs/GUIDE.md", "Two regions of 100,000 events", "Over ssh"
QUESTIONS = ("cover", "gaps", "shown", "latest", "kinds", "days", "conflicts")
BY_TAKE = r"| split -l 1 -a 4 - for-\1. && site take --db \1.db for-\1.* && rm for-\1.*"
SERVER = """\
Port {port}
ListenAddress 127.0.0.1
HostKey {keys}/host
AuthorizedKeysFile {keys}/user.pub
PidFile none
StrictModes no
UsePAM no
PasswordAuthentication no
ForceCommand cd '{folder}/big' && PATH='{path}' exec sh -c "$SSH_ORIGINAL_COMMAND"
"""
CLIENT = """\
Host south
HostName 127.0.0.1
Port {port}
User {user}
IdentityFile {keys}/user
IdentitiesOnly yes
IdentityAgent none
UserKnownHostsFile {keys}/known
StrictHostKeyChecking accept-new
LogLevel ERROR
"""


# A command with what it prints, or none where that isn't known.
Line = tuple[str, Optional[str]]


class Runs:
    def __init__(self, folder: str, environment: dict[str, str]) -> None:
        self.folder, self.environment, self.passed, self.failed = folder, environment, 0, 0

    def run(self, command: str, want: Optional[str] = None) -> float:
        """Runs a command of the shell, compares what it prints where that is known, and says what it took."""
        before, began = resource.getrusage(resource.RUSAGE_CHILDREN), time.monotonic()
        words = ["bash", "-o", "pipefail", "-c", command]
        ran = subprocess.run(words, cwd=self.folder, env=self.environment, stdin=subprocess.DEVNULL, capture_output=True, text=True)
        after, clock = resource.getrusage(resource.RUSAGE_CHILDREN), time.monotonic() - began
        spent = after.ru_utime + after.ru_stime - before.ru_utime - before.ru_stime
        print(f"{clock:7.2f} s, {spent:6.2f} s of processor time: {command}", flush=True)
        is_right = ran.returncode == 0 and want in (None, ran.stdout)
        self.judge(is_right, f"{command}: status {ran.returncode}, {ran.stdout[:200]!r}, {ran.stderr[:200]!r}")
        self.folder = gone_to(self.folder, command)
        return clock

    def judge(self, is_right: bool, why: str) -> None:
        self.passed, self.failed = self.passed + is_right, self.failed + (not is_right)
        if not is_right:
            print(f"wrong: {why}")


def sshd() -> str:
    return shutil.which("sshd") or shutil.which("sshd", path="/usr/sbin:/usr/local/sbin") or ""


@contextlib.contextmanager
def server(keys: str, folder: str, path: str) -> Iterator[None]:
    """A server of ssh, whose commands are run in the folder of both regions, and what its client has to know."""
    with socket.socket() as it:
        it.bind(("127.0.0.1", 0))
        port = it.getsockname()[1]
    for name in ("host", "user"):
        subprocess.run(["ssh-keygen", "-q", "-t", "ed25519", "-N", "", "-f", f"{keys}/{name}"], check=True)
    for name, text in (("server", SERVER), ("client", CLIENT)):
        with open(f"{keys}/{name}", "w", encoding="utf-8") as it:
            it.write(text.format(port=port, keys=keys, folder=folder, path=path, user=getpass.getuser()))
    with open(f"{keys}/log", "w", encoding="utf-8") as log:
        ran = subprocess.Popen([sshd(), "-D", "-e", "-f", f"{keys}/server"], stdout=log, stderr=log)
    try:
        for _ in range(100):
            with socket.socket() as it:
                if ran.poll() is not None or it.connect_ex(("127.0.0.1", port)) == 0:
                    break
            time.sleep(0.05)
        if ran.poll() is not None:
            with open(f"{keys}/log", encoding="utf-8") as log:
                sys.exit(f"the server of ssh didn't start: {log.read()}")
        yield
    finally:
        ran.terminate()
        ran.wait()


def of_part(part: str, times: int = 1, of: int = 1) -> list[Line]:
    """The commands of a part of the guide, each with what it prints."""
    return [(command, want) for command, want in steps(GUIDE, part, times, of)[0] if command is not None]


def lines(given: argparse.Namespace) -> tuple[list[Line], list[Line], list[Line]]:
    """The lines of the guide: those in front of the exchange, those of it, and those behind, each with what it prints."""
    every = of_part(AT_SIZE, given.events, 100_000)
    places = [place for place, (command, _) in enumerate(every) if "site summary" in command]
    exchange = every[places[0] : places[-1] + 1]
    if given.by == "take":
        by_take = [re.sub(r"\| site follow --db (\w+)\.db >\S+", BY_TAKE, command) for command, _ in exchange]
        exchange = [(command, None if "site take" in command else want) for command, (_, want) in zip(by_take, exchange)]
    elif given.by == "ssh":
        # What the streams acknowledge stands there for the few events of that part.
        exchange = [(it, None if "follow" in it else want) for it, want in of_part(OVER_SSH) if "site summary" in it]
    return every[: places[0]], exchange, every[places[-1] + 1 :]


def main() -> int:
    words = argparse.ArgumentParser(description=__doc__, formatter_class=argparse.RawDescriptionHelpFormatter)
    words.add_argument("--program", default=f"{TOP}/crates/site_cli/out/site_cli")
    words.add_argument("--events", type=int, default=100_000)
    words.add_argument("--by", choices=["follow", "take", "ssh"], default="follow")
    given = words.parse_args()
    if given.events % 200 or given.events < 200:
        words.error("--events is a multiple of 200")
    if given.by == "ssh" and not sshd():
        print("there is no server of ssh here, so nothing was tried (Debian: openssh-server)")
        return 0
    before, exchange, after = lines(given)
    with contextlib.ExitStack() as stack:
        keys = stack.enter_context(tempfile.TemporaryDirectory())
        ssh = f'#!/bin/sh\nexec {shutil.which("ssh")} -F {keys}/client "$@"\n' if given.by == "ssh" else SSH
        folder, environment = stack.enter_context(room(given.program, ssh))
        if given.by == "ssh":
            stack.enter_context(server(keys, folder, environment["PATH"]))
        runs = Runs(folder, environment)
        for command, want in before:
            runs.run(command, want)
        clock = sum(runs.run(command, want) for command, want in exchange)
        print(f"from two regions to one view, and seen to be one: {clock:.1f} s by the clock")
        for question in QUESTIONS:
            for name, of in (("north", "--db north.db"), ("south", "--db south.db"), ("files", "north.json south.json")):
                runs.run(f"site {question} {of} >{name}.answer")
            runs.run("cmp north.answer south.answer && cmp north.answer files.answer")
        for command, want in after:
            runs.run(command, want)
        print(f"{runs.passed} passed, {runs.failed} failed")
    return 1 if runs.failed else 0


if __name__ == "__main__":
    sys.exit(main())
