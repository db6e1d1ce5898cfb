#!/usr/bin/env python3
"""Brings two regions to one view over a real broker, Mosquitto, which is stopped and killed, as its subscribers are.

    tools/try_broker.py [--program FILE] [--orders N]

The lines are those of docs/GUIDE.md, of the parts 'Over a broker' and 'Over ssh', but for the broker's address and the
first number of `relay`; for `ssh` there is the stand-in of tools/pages.py. The services of two regions publish the
events of their orders, each under a topic of its own, and two sites follow both topics. In the middle the broker is
stopped and started, and its subscribers come back by themselves; it is killed and started; the south's subscriber is
killed, together with its `follow`, and misses what comes; and one service sends everything twice. Then the south has to
lack something, and the three lines have to bring both sites to one summary and the same seven answers. At last both
services send everything once more, and both sites must have every order of both. What a site acknowledged it must hold
at each moment. Where there is no Mosquitto it says so and tries nothing. By hand, since it wants a broker.
The last line is 'N passed, M failed'.
"""
import argparse
import contextlib
import json
import os
import pwd
import shutil
import signal
import socket
import subprocess
import sys
import time
from typing import Optional

sys.dont_write_bytecode = True
TOP = os.path.dirname(os.path.dirname(os.path.realpath(__file__)))
sys.path.insert(0, f"{TOP}/tools")
from pages import blocks, room, steps  # noqa: E402

GUIDE = "docs/GUIDE.md"
QUESTIONS = ("cover", "gaps", "shown", "latest", "kinds", "days", "conflicts")
NEEDED = ("mosquitto", "mosquitto_pub", "mosquitto_sub")
REGIONS = ("north", "south")
AT = "2024-02-29T10:00:00Z"


def found(name: str) -> Optional[str]:
    return shutil.which(name) or shutil.which(name, path="/usr/sbin:/usr/local/sbin")


def of_guide() -> tuple[dict[str, str], dict[str, str], list[str]]:
    """The guide's lines that publish and that subscribe, of the north and of the south, and those that mend."""
    every = [line for heading, _, lines in blocks(GUIDE) if heading == "Over a broker" for line in lines]
    publish = [line for line in every if line.startswith("site relay")]
    subscribe = [line for line in every if line.startswith("mosquitto_sub")]
    mend = [command for command, _ in steps(GUIDE, "Over ssh")[0] if command and "site summary" in command]
    if (len(publish), len(subscribe), len(mend)) != (2, 2, 3):
        sys.exit(f"{GUIDE} has not the lines that are to be tried: {publish}, {subscribe}, {mend}")
    return dict(zip(REGIONS, publish)), dict(zip(REGIONS, subscribe)), mend


class Trial:
    def __init__(self, folder: str, environment: dict[str, str]) -> None:
        self.folder, self.environment, self.passed, self.failed = folder, environment, 0, 0
        with socket.socket() as it:
            it.bind(("127.0.0.1", 0))
            self.port = it.getsockname()[1]
        with open(f"{folder}/broker.conf", "w", encoding="ascii") as settings:
            settings.write(
                f"listener {self.port} 127.0.0.1\nallow_anonymous true\npersistence true\npersistence_location {folder}/\n"
                # Else a broker that root starts goes over to a user of its own, who can't write here.
                f"user {pwd.getpwuid(os.getuid()).pw_name}\nautosave_interval 1\nmax_queued_messages 0\n"
            )
        self.publishes, self.subscribes, self.mends = of_guide()
        self.broker: Optional[subprocess.Popen[bytes]] = None
        self.followers: dict[str, subprocess.Popen[bytes]] = {}

    def judge(self, is_right: bool, what: str) -> None:
        self.passed, self.failed = self.passed + is_right, self.failed + (not is_right)
        if not is_right:
            print(f"wrong: {what}")

    def shell(self, command: str) -> str:
        words = ["bash", "-o", "pipefail", "-c", self.here(command)]
        ran = subprocess.run(words, cwd=self.folder, env=self.environment, capture_output=True, text=True, timeout=120)
        self.judge(ran.returncode == 0, f"{command}: status {ran.returncode}: {ran.stdout[:300]}{ran.stderr[:300]}")
        return ran.stdout

    def here(self, command: str) -> str:
        return command.replace("-h broker", f"-h 127.0.0.1 -p {self.port}")

    def start_broker(self) -> None:
        with open(f"{self.folder}/broker.log", "a", encoding="utf-8") as log:
            self.broker = subprocess.Popen([found("mosquitto") or "", "-c", f"{self.folder}/broker.conf"], stdout=log, stderr=log)
        for _ in range(100):
            with socket.socket() as it:
                if it.connect_ex(("127.0.0.1", self.port)) == 0:
                    return
            time.sleep(0.05)
        raise RuntimeError("the broker didn't start")

    def end_broker(self, how: int) -> None:
        assert self.broker
        self.broker.send_signal(how)
        self.broker.wait(timeout=30)

    def subscribe(self, *sites: str, more: str = "") -> None:
        """Follows both topics into the databases of sites, each by a process group of its own."""
        for site in sites:
            words = ["bash", "-o", "pipefail", "-c", self.here(self.subscribes[site]).replace("mosquitto_sub", f"mosquitto_sub{more}")]
            with open(f"{self.folder}/{site}.err", "a", encoding="utf-8") as err:
                self.followers[site] = subprocess.Popen(words, cwd=self.folder, env=self.environment, stderr=err, start_new_session=True)
        time.sleep(1)

    def end(self, site: str, how: int = signal.SIGTERM, *names: str) -> None:
        """Sends a signal to those of a subscription's processes that have one of the names, and waits for its end."""
        follower = self.followers.pop(site)
        for it in filter(str.isdigit, os.listdir("/proc")):
            try:
                with open(f"/proc/{it}/stat", encoding="utf-8") as stat:
                    name, rest = stat.read().split("(", 1)[1].rsplit(") ", 1)
                if int(rest.split()[2]) == follower.pid and name in names:
                    os.kill(int(it), how)
            except OSError:
                pass
        follower.wait(timeout=60)
        with open(f"{self.folder}/{site}.err", encoding="utf-8") as err:
            refusals = [line for line in err if line.startswith("site: ")]
        self.judge(not refusals, f"the {site} said {refusals}")
        acknowledged = self.acknowledged(site)
        self.judge(acknowledged <= self.held(site), f"the {site} acknowledged {acknowledged} events and holds {self.held(site)}")

    def acknowledged(self, site: str) -> int:
        """How many events a site acknowledged as new; of a `follow` that is killed the last line may be cut."""
        count = 0
        with open(f"{self.folder}/{site}.told", encoding="utf-8") as told:
            for line in told:
                with contextlib.suppress(ValueError):
                    answer = json.loads(line)
                    if "fault" in answer:
                        self.judge(False, f"the {site} refused a line: {line}")
                    count += answer.get("new", 0)
        return count

    def publish(self, service: str, after: int = 0) -> None:
        self.shell(self.publishes[service].replace("--after 0", f"--after {after}"))

    def place(self, service: str, first: int, last: int) -> None:
        for number in range(first, last + 1):
            words = ["site", "order", "--db", f"{service}-orders.db", "--source", f"/{service}", "--at", AT, "place", str(number)]
            ran = subprocess.run(words, cwd=self.folder, env=self.environment, capture_output=True, check=False)
            if ran.returncode:
                self.judge(False, f"{' '.join(words)}: {ran.stderr!r}")

    def held(self, site: str) -> int:
        """How many events a site has, of both services."""
        words = ["site", "kinds", "--db", f"{site}.db"]
        ran = subprocess.run(words, cwd=self.folder, env=self.environment, capture_output=True, text=True, check=False)
        return sum(int(it.rsplit(",", 1)[1].rstrip("]\n")) for it in ran.stdout.splitlines())

    def are_alike(self) -> None:
        for question in QUESTIONS:
            self.shell(f"cmp <(site {question} --db north.db) <(site {question} --db south.db)")


def main() -> int:
    words = argparse.ArgumentParser(description=__doc__, formatter_class=argparse.RawDescriptionHelpFormatter)
    words.add_argument("--program", default=f"{TOP}/crates/site_cli/out/site_cli")
    words.add_argument("--orders", type=int, default=150)
    given = words.parse_args()
    if not all(found(it) for it in NEEDED):
        print("there is no Mosquitto here, so nothing was tried (Debian: mosquitto, mosquitto-clients)")
        return 0
    third, every = given.orders // 3, given.orders
    with room(given.program) as (folder, environment):
        trial = Trial(folder, environment)
        try:
            trial.start_broker()
            trial.subscribe(*REGIONS)
            for service in REGIONS:
                trial.place(service, 1, third)
                trial.publish(service)
            # The broker is stopped, and its subscribers, who go on, find it again.
            trial.end_broker(signal.SIGTERM)
            trial.start_broker()
            time.sleep(3)
            for service in REGIONS:
                trial.place(service, third + 1, 2 * third)
                trial.publish(service, third)
            # It is killed with what it had in hand, and its subscribers are started anew.
            trial.end_broker(signal.SIGKILL)
            for site in REGIONS:
                trial.end(site, signal.SIGTERM, "mosquitto_sub")
            trial.start_broker()
            trial.subscribe(*REGIONS)
            # The south's subscriber is killed with what follows it, and isn't there for what comes now.
            trial.end("south", signal.SIGKILL, "mosquitto_sub", "site")
            for service in REGIONS:
                trial.place(service, 2 * third + 1, every)
                trial.publish(service, 2 * third)
            # Everything of one service once more.
            trial.publish("north")
            time.sleep(2)
            trial.end("north", signal.SIGTERM, "mosquitto_sub")
            north, south = trial.held("north"), trial.held("south")
            print(f"before: the north has {north} events, the south {south}, of {2 * every}")
            trial.judge(south < north, "the south lacks nothing, so nothing is mended")
            for line in trial.mends:
                trial.shell(line)
            trial.are_alike()
            print(f"by the three lines: the north has {trial.held('north')}, the south {trial.held('south')}")
            # What came to neither site is sent again by who has it; the subscriptions end by themselves.
            trial.subscribe(*REGIONS, more=" -W 5")
            for service in REGIONS:
                trial.publish(service)
            for site in REGIONS:
                trial.end(site)
            trial.are_alike()
            north, south = trial.held("north"), trial.held("south")
            trial.judge(north == south == 2 * every, f"in the end the north has {north} events, the south {south}, of {2 * every}")
        finally:
            for site in list(trial.followers):
                trial.end(site, signal.SIGKILL, "mosquitto_sub", "site")
            if trial.broker and trial.broker.poll() is None:
                trial.end_broker(signal.SIGKILL)
        print(f"{trial.passed} passed, {trial.failed} failed")
    return 1 if trial.failed else 0


if __name__ == "__main__":
    sys.exit(main())
