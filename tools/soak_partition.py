#!/usr/bin/env python3
"""Tries regions of jumbetaid that lose one another: each in a network namespace of its own, as root.

    tools/soak_partition.py [--program FILE] [--regions N] [--parts N] [--seconds N] [--seed N] [--rate N] [--events N] [--spare N]

By default it is 3 regions for 60 seconds, with 270 events a second each, as in tests/test_partition.py. Writers give
events to each region, and note what was acknowledged, while regions are cut off, cut off one way, slowed down, made
to lose packets, stopped and killed. Behind it all regions have to come to the same summary, which has each event that
was acknowledged, and none that nobody gave. Some sources are written by two regions, so that there are conflicts.
With --parts the first region is a front before so many parts; what is killed or hangs is then the front or one of them.
With --events a source has at most so many, which are then given again, so that the regions stop growing; with --spare
the last N regions aren't killed. Each second memory and descriptors of each region are looked at, and how they grow
is told: by the events, in the last half beside the first one, by the hour once no event is new, and what is left of
both at rest; and how many events were acknowledged a second in each region, repeated ones too. It wants `ip`, `tc`,
curl and namespaces, and the built service: what isn't there is told, and nothing is tried. The last line is 'N
passed, M failed'.
"""
import argparse
import contextlib
import http.client
import json
import os
import random
import re
import shutil
import signal
import subprocess
import sys
import tempfile
import threading
import time
from typing import Any, Callable, Iterator, Optional

sys.dont_write_bytecode = True
TOP = os.path.dirname(os.path.dirname(os.path.realpath(__file__)))
sys.path.insert(0, f"{TOP}/tools")
from harness import Counts  # noqa: E402

PORT = 8087
# The process of a region, its events, its memory in KiB, and its descriptors.
Row = tuple[int, int, int, int]
TROUBLES = ("cut", "cut one way", "kill", "hang", "slow", "loss", "rest")
QUESTIONS = ("cover", "gaps", "shown", "latest", "kinds", "days", "conflicts")
SETTINGS = """name = "{name}"
{more}
listen = "{address}"
open_to_all = true
[sync]
wait_seconds = 5
connect_seconds = 2
request_seconds = 5
backoff_max_ms = 3000
repair_seconds = 5
"""
# What a region sends gets through at this rate and with this burst; what waits longer than the latency is lost.
SLOW = ("200kbit", "4k", "2s")
LOSSY = ("500kbit", "4k", "3ms")
NOTHING = ("8kbit", "50", "1ms")


def run(*words: str, check: bool = True, **how: Any) -> subprocess.CompletedProcess[bytes]:
    return subprocess.run(words, check=check, capture_output=True, timeout=30, **how)


def write(address: str, source: str, batch: int, rate: float, most: int, region: str, file: str) -> None:
    """Gives events of a source at a rate, each batch until it is acknowledged, and notes those; until SIGTERM. Behind the
    most that a source has it begins with the first ones again."""
    is_over: list[int] = []
    signal.signal(signal.SIGTERM, lambda *_: is_over.append(True))
    connection: Optional[http.client.HTTPConnection] = None
    number, due, is_first, given = 0, time.monotonic(), True, 0
    with open(file, "w", encoding="utf-8") as out:
        while not is_over:
            events = [
                {"specversion": "1.0", "id": str(it), "source": source, "type": "t", "subject": region, "sequence": f"{it:020d}"}
                for it in range(number + 1, number + 1 + batch)
            ]
            try:
                connection = connection or http.client.HTTPConnection(address, PORT, timeout=5)
                connection.request("POST", "/events", json.dumps(events), {"Content-Type": "application/cloudevents-batch+json"})
                answer = connection.getresponse()
                said = answer.read()
            except (OSError, http.client.HTTPException):
                connection = None
                time.sleep(0.05)
                continue
            if answer.status == 400:
                sys.exit(f"a writer: {said!r}")
            if answer.status == 200:
                if is_first:
                    out.writelines(f"{source} {it['id']} {region}\n" for it in events)
                    out.flush()
                given += batch
                number, due = number + batch, max(due + batch / rate, time.monotonic() - 1)
                if number >= most:
                    number, is_first = 0, False
            time.sleep(max(0.0, due - time.monotonic()))
    with open(f"{file}.given", "w", encoding="ascii") as out:
        out.write(str(given))


class Region:
    def __init__(self, net: "Net", place: int, parts: int = 0) -> None:
        self.net, self.place, self.name = net, place, f"r{place}"
        self.space, self.address = f"{net.name}r{place}", f"10.77.0.{place + 1}"
        self.ran: Any = None
        # The parts, where it is a front before such.
        self.parts: list[Any] = [None] * parts

    def inside(self, *words: str, **how: Any) -> subprocess.CompletedProcess[bytes]:
        return run("ip", "netns", "exec", self.space, *words, **how)

    def started(self, *words: str, **how: Any) -> subprocess.Popen[bytes]:
        ran = subprocess.Popen(["ip", "netns", "exec", self.space, *words], stdin=subprocess.DEVNULL, **how)
        self.net.running.append(ran)
        return ran

    def settings(self) -> Iterator[tuple[str, str]]:
        """The name of each of its services, and its settings."""
        for at in range(len(self.parts)):
            db = f'db = "{self.net.folder}/{self.name}p{at}.db"\npart = "{at}/{len(self.parts)}"'
            yield f"{self.name}p{at}", SETTINGS.format(name=f"{self.name}p{at}", more=db, address=f"127.0.0.1:{PORT + 1 + at}")
        db = "" if self.parts else f'db = "{self.net.folder}/{self.name}.db"'
        text = SETTINGS.format(name=self.name, more=db, address=f"{self.address}:{PORT}")
        text += "".join(f'[[parts]]\nurl = "http://127.0.0.1:{PORT + 1 + at}"\n' for at in range(len(self.parts)))
        peers = [it for it in self.net.regions if it is not self]
        yield self.name, text + "".join(f'[[peers]]\nname = "{it.name}"\nurl = "http://{it.address}:{PORT}"\n' for it in peers)

    def service(self, name: str) -> Any:
        with open(f"{self.net.folder}/{name}.log", "ab") as log:
            return self.started(self.net.program, "--config", f"{self.net.folder}/{name}.toml", stdout=log, stderr=log)

    def start(self) -> None:
        """Starts each of its services that doesn't run."""
        for at, part in enumerate(self.parts):
            if part is None or part.poll() is not None:
                self.parts[at] = self.service(f"{self.name}p{at}")
        if self.ran is None or self.ran.poll() is not None:
            self.ran = self.service(self.name)
        if not self.net.until(lambda: self.get("/readyz", 1) is not None, self.net.patience):
            print(f"wrong: {self.name} isn't ready within {self.net.patience} s", flush=True)

    def get(self, path: str, seconds: int = 10, body: Optional[str] = None) -> Optional[bytes]:
        words = ["curl", "-sf", "--max-time", str(seconds), f"http://{self.address}:{PORT}{path}"]
        ran = self.inside(*words, *(["--data-binary", body] if body else []), check=False)
        return bytes(ran.stdout) if ran.returncode == 0 else None

    def sends(self, rate: str = "", burst: str = "", latency: str = "") -> None:
        """What leaves the region: as fast as it comes, or as such a queue lets it."""
        queue = ("tbf", "rate", rate, "burst", burst, "latency", latency) if rate else ("pfifo", "limit", "1000")
        self.inside("tc", "qdisc", "replace", "dev", "eth0", "root", *queue)

    def link(self, state: str) -> None:
        run("ip", "netns", "exec", self.net.switch, "ip", "link", "set", f"p{self.place}", state)

    def events(self) -> set[tuple[str, ...]]:
        """All that it has, as source, id and region."""
        found: set[tuple[str, ...]] = set()
        start = 0
        while page := self.get(f"/delta?from={start}", 30, '{"sources":{},"version":1}'):
            got = [event for line in page.splitlines() for event in json.loads(line)]
            found |= {(it["source"], it["id"], it["subject"]) for it in got}
            start += len(got)
        return found


class Net:
    """Regions around a switch, which go away in the end."""

    def __init__(self, folder: str, program: str, regions: int, patience: int, parts: int) -> None:
        self.folder, self.program, self.patience = folder, program, patience
        self.running: list[subprocess.Popen[bytes]] = []
        self.name = f"jmb{os.getpid() % 10000}"
        self.switch = f"{self.name}sw"
        self.spaces: list[str] = []
        self.regions = [Region(self, it, 0 if it else parts) for it in range(regions)]

    def make(self) -> None:
        for space in (self.switch, *(it.space for it in self.regions)):
            run("ip", "netns", "add", space)
            self.spaces.append(space)
        run("ip", "netns", "exec", self.switch, "ip", "link", "add", "br0", "type", "bridge")
        run("ip", "netns", "exec", self.switch, "ip", "link", "set", "br0", "up")
        for it in self.regions:
            run("ip", "link", "add", "eth0", "netns", it.space, "type", "veth", "peer", "name", f"p{it.place}", "netns", self.switch)
            it.inside("ip", "addr", "add", f"{it.address}/24", "dev", "eth0")
            for link in ("eth0", "lo"):
                it.inside("ip", "link", "set", link, "up")
            run("ip", "netns", "exec", self.switch, "ip", "link", "set", f"p{it.place}", "master", "br0", "up")
            for name, text in it.settings():
                with open(f"{self.folder}/{name}.toml", "w", encoding="utf-8") as out:
                    out.write(text)

    def end(self) -> None:
        for it in self.running:
            if it.poll() is None:
                it.kill()
            it.wait()
        for space in self.spaces:
            run("ip", "netns", "del", space, check=False)

    @staticmethod
    def until(ready: Callable[[], bool], seconds: int) -> bool:
        """Whether something comes to be so within the time."""
        end = time.monotonic() + seconds
        while not ready():
            if time.monotonic() > end:
                return False
            time.sleep(0.05)
        return True


def held(region: Region) -> tuple[int, int]:
    """How many KiB of memory and how many descriptors a region has; `ip netns exec` became the service."""
    with open(f"/proc/{region.ran.pid}/status", encoding="ascii") as status:
        found = re.search(r"VmRSS:\s+(\d+)", status.read())
    if not found:
        raise ProcessLookupError
    return int(found[1]), len(os.listdir(f"/proc/{region.ran.pid}/fd"))


def slope(rows: list[Row]) -> float:
    """The bytes of memory that go with an event more, by least squares within each start."""
    above = below = 0.0
    for pid in {it[0] for it in rows}:
        events, memory = ([it[at] for it in rows if it[0] == pid] for at in (1, 2))
        mean, middle = sum(events) / len(events), sum(memory) / len(memory)
        above += sum((x - mean) * (y - middle) * 1024 for x, y in zip(events, memory))
        below += sum((x - mean) ** 2 for x in events)
    return above / below if below else 0.0


def stands_still(name: str, rows: list[Row]) -> bool:
    """Says how a region's memory went while it lived and no event was new; false where it grew."""
    at_rest = [it[2] for it in rows if it[:2] == rows[-1][:2]]
    third = len(at_rest) // 3
    # Less than some minutes tell nothing.
    if third < 100:
        return True
    first, last = (sum(it) / third for it in (at_rest[:third], at_rest[-third:]))
    hourly = (last - first) / (len(at_rest) - third) * 3600 / 1024
    print(f"{name}, {len(at_rest)} s without a new event: {first / 1024:.1f} MiB in the first third, {last / 1024:.1f} in the last, {hourly:+.1f} MiB an hour")
    return last <= first * 1.02 + 4096


class Watch(threading.Thread):
    """Looks each second how much memory and how many descriptors each region has, and how many events."""

    def __init__(self, regions: list[Region]) -> None:
        super().__init__(daemon=True)
        self.regions, self.is_over = regions, threading.Event()
        self.rows: dict[str, list[Row]] = {it.name: [] for it in regions}

    def run(self) -> None:
        while not self.is_over.wait(1):
            for it in self.regions:
                with contextlib.suppress(OSError, ValueError, AttributeError, subprocess.SubprocessError):
                    pid, events = it.ran.pid, json.loads(it.get("/status", 1) or "{}").get("events")
                    if events is not None:
                        self.rows[it.name].append((pid, events, *held(it)))

    def tell(self) -> bool:
        """Says how it went; false where a region's descriptors or its memory for an event grew."""
        is_right = True
        for name, rows in self.rows.items():
            last = [it for it in rows if it[0] == rows[-1][0]] if rows else []
            if len(last) < 2:
                continue
            half = len(last) // 2
            descriptors = [max(it[3] for it in part) for part in (last[:half], last[half:])]
            told = f"{last[0][2] >> 10} to {last[-1][2] >> 10} MiB over {last[-1][1] - last[0][1]} events"
            print(f"{name}, {len(last)} s since its last start: {told}; descriptors at most {descriptors[0]}, then {descriptors[1]}")
            print(f"{name}, {len(rows)} s in {len({it[0] for it in rows})} starts: {slope(rows):.0f} bytes more for an event more")
            # A connection or two more is no leak.
            is_right = is_right and stands_still(name, last) and descriptors[1] <= descriptors[0] + 8
        return is_right


def trouble(region: Region, dice: random.Random, is_spared: bool) -> str:
    """Something that happens to a region, for some seconds; answers what."""
    what = dice.choice([it for it in TROUBLES if it != "kill" or not is_spared])
    seconds = dice.uniform(1, 4)
    victim = dice.choice([region.ran, *region.parts]) if region.parts else region.ran
    if what == "kill":
        victim.send_signal(signal.SIGKILL)
        victim.wait()
        time.sleep(seconds / 4)
        region.start()
    elif what == "hang":
        victim.send_signal(signal.SIGSTOP)
        time.sleep(seconds + 3)
        victim.send_signal(signal.SIGCONT)
    elif what == "cut":
        region.link("down")
        time.sleep(seconds)
        region.link("up")
    elif what == "rest":
        time.sleep(seconds)
    else:
        region.sends(*{"cut one way": NOTHING, "slow": SLOW, "loss": LOSSY}[what])
        time.sleep(seconds)
        region.sends()
    return what


def lacks(program: str) -> Optional[str]:
    """What isn't there that is wanted, or None."""
    if os.geteuid() or not all(map(shutil.which, ("ip", "tc", "curl"))):
        return "it wants root, ip, tc and curl"
    if not os.path.exists(program):
        return "the service isn't built (tools/service.py)"
    name = f"jumbetai-{os.getpid()}"
    if run("ip", "netns", "add", name, check=False).returncode:
        return "no network namespace can be made"
    run("ip", "netns", "del", name)
    return None


def options() -> argparse.ArgumentParser:
    words = argparse.ArgumentParser(description=__doc__, formatter_class=argparse.RawDescriptionHelpFormatter)
    words.add_argument("--program", default=f"{TOP}/out/service/jumbetaid")
    words.add_argument("--regions", type=int, default=3)
    words.add_argument("--parts", type=int, default=0, help="how many parts the first region has")
    words.add_argument("--seconds", type=float, default=60)
    words.add_argument("--seed", type=int, default=1)
    words.add_argument("--rate", type=int, default=270, help="events a second in each region")
    words.add_argument("--events", type=int, default=1 << 40, help="how many events a source has at most")
    words.add_argument("--spare", type=int, default=0, help="how many regions aren't killed")
    return words


def soak(given: argparse.Namespace, counts: Counts) -> None:
    """Lets regions lose one another, and judges what they then have."""
    dice = random.Random(given.seed)
    did: dict[str, int] = {}
    with tempfile.TemporaryDirectory() as folder, contextlib.ExitStack() as end:
        # A start reads each event anew.
        net = Net(folder, os.path.abspath(given.program), given.regions, 20 if given.events > 1 << 30 else 90, given.parts)
        end.callback(net.end)
        net.make()
        for it in net.regions:
            it.start()
        writers: list[tuple[subprocess.Popen[bytes], str, str]] = []
        for it in net.regions:
            share = given.rate / 270
            for source, batch, rate in ((f"/{it.name}/single", 1, 60 * share), (f"/{it.name}/batch", 10, 200 * share), ("/shared", 1, 10)):
                file = f"{folder}/acked.{len(writers)}"
                told = [sys.executable, os.path.realpath(__file__), "--write", it.address, source, str(batch), str(rate), str(given.events)]
                told += [it.name, file]
                writers.append((it.started(*told), file, it.name))
        watch = Watch(net.regions)
        watch.start()
        started = time.monotonic()
        until = started + given.seconds
        while time.monotonic() < until:
            region = dice.choice(net.regions)
            what = trouble(region, dice, region in net.regions[given.regions - given.spare :])
            did[what] = did.get(what, 0) + 1
        for ran, _, _ in writers:
            ran.terminate()
        gave = time.monotonic() - started
        for ran, _, _ in writers:
            ran.wait(30)
        watch.is_over.set()
        watch.join()
        counts.judge("memory and descriptors stay", watch.tell())
        began = time.monotonic()

        def same() -> bool:
            texts = {it.get("/summary") for it in net.regions}
            return len(texts) == 1 and None not in texts

        counts.judge("all summaries are the same within 60 s", net.until(same, 60))
        took = time.monotonic() - began
        acked: set[tuple[str, ...]] = set()
        rates: dict[str, int] = {}
        for _, file, name in writers:
            with open(file, encoding="utf-8") as lines, open(f"{file}.given", encoding="ascii") as count:
                acked |= {tuple(it.split()) for it in lines}
                rates[name] = rates.get(name, 0) + int(count.read())
        for it in net.regions:
            print(f"{it.name}: {rates[it.name] / gave:.0f} events a second were acknowledged, of {given.rate} asked for")
            has = it.events()
            counts.judge(f"{it.name} has each event that was acknowledged", acked <= has, f"it lacks {len(acked - has)}")
            # What was given and whose answer was lost may be there: of each source the event, or the batch, behind the last.
            counts.judge(f"{it.name} has no other", len(has - acked) <= 12 * len(writers), f"it has {len(has - acked)} more")
        for question in QUESTIONS:
            counts.judge(f"{question} is the same everywhere", len({it.get(f"/{question}", 30) for it in net.regions}) == 1)
        time.sleep(3)
        for it in net.regions:
            memory, descriptors = held(it)
            print(f"{it.name} at rest: {memory >> 10} MiB, {descriptors} descriptors")
        conflicts = len((net.regions[0].get("/conflicts", 30) or b"").splitlines())
        counts.judge("there are conflicts", conflicts > 0)
        for it in net.regions:
            for name, ran in zip([name for name, _ in it.settings()], [*it.parts, it.ran]):
                ran.terminate()
                counts.judge(f"{name} ends well", ran.wait(20) == 0)
                with open(f"{folder}/{name}.log", encoding="utf-8") as log:
                    text = log.read()
                counts.judge(f"{name} never panics", not re.search("panicked|can't go on", text), text[-1000:])
    print(f"{given.regions} regions for {given.seconds:.0f} s, seed {given.seed}: {did}")
    print(f"{len(acked)} events were acknowledged, with {conflicts} conflicts; all the same {took:.1f} s behind the last")


def main() -> int:
    given, counts = options().parse_args(), Counts()
    why = lacks(given.program)
    if why:
        counts.skip("regions that part", why)
    else:
        soak(given, counts)
    return counts.tell()


if __name__ == "__main__":
    if sys.argv[1:2] == ["--write"]:
        place, source_given, batch_given, rate_given, most_given, region_given, file_given = sys.argv[2:]
        write(place, source_given, int(batch_given), float(rate_given), int(most_given), region_given, file_given)
        sys.exit(0)
    sys.exit(main())
