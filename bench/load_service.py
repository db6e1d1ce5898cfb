#!/usr/bin/env python3
"""Durable events a second that jumbetaid takes over HTTP, beside PostgreSQL, Redis and RabbitMQ by as many clients.

    bench/load_service.py [--program FILE] [--rounds N] [--seconds N] [--shapes LIST]
    bench/load_service.py [--program FILE] --sync N
    bench/load_service.py [--program FILE] --ask N
    bench/load_service.py [--program FILE] --backup N
    bench/load_service.py [--program FILE] [--rounds N] [--seconds N] [--shapes LIST] --parts LIST [--events N] [--settings TEXT]
    bench/load_service.py [--program FILE] [--seconds N] --rest LIST [--settings TEXT]

A shape is CONNECTIONSxBATCH, by default 1x1,16x1,64x1,256x1,16x100. By turns each gets events of 350 bytes for so many
seconds, 3 rounds of 3: the service by wrk, each event answered once it is synced; PostgreSQL by pgbench, prepared, with
synchronous_commit, into a table with the keys of a site's; Redis by redis-benchmark, a batch as commands in one write, into
a stream with appendfsync always, and RabbitMQ by bench/load_rabbitmq.c, confirmed, into a quorum queue of one node, which
both have no keys and tell no repeat. RabbitMQ runs during its own turns alone, since an idle node disturbs the others. Told
are the middle of the rounds, with the least and the most rate, and the median and the 99th percentile of the time to an
answer. --sync tells how long two services take to come to one view, where one has N events and where each has N others;
--ask how long GET /kinds takes while a service over N events takes 1,000 a second, how long it took to start, and its
memory; --backup how long a backup of N events takes while 1,000 a second come, what it does to their answers, and how long
it takes a site whose disk is lost to be restored from it and to catch up from its peer: status 1 where an event that was
acknowledged isn't there then; --parts how a front before each of these counts of parts does, all on this machine (0: a
site without a front): events of 64 sources a second, the time to their answers, for how many microseconds an event the
front and all parts were on a processor, and the time of GET /kinds; with --events N where they hold N events of 640 sources
before, and then also how long they take to start and their memory; --rest how long each of these counts of empty parts takes
to start side by side, and what one costs that does nothing: memory, threads, and how long a second it is on a processor;
--settings 'cache_mib = 1' is what each part's settings have beside its number. It wants wrk and,
for the comparison, initdb and pgbench, redis-server and redis-benchmark, rabbitmq-server and librabbitmq (on Debian wrk,
postgresql-15, redis-server, redis-tools, rabbitmq-server, librabbitmq-dev); as root PostgreSQL runs as the user postgres. No part of a gate.
"""
import argparse
import contextlib
import glob
import os
import re
import shutil
import signal
import statistics
import subprocess
import sys
import tempfile
import threading
import time
from typing import Callable, Iterable, Optional, Sequence

sys.dont_write_bytecode = True
TOP = os.path.dirname(os.path.dirname(os.path.realpath(__file__)))
sys.path.insert(0, f"{TOP}/tools")
from postgres import Postgres  # noqa: E402
from serving import MANY, Site, Tries, event, part_of  # noqa: E402

# How many connections there are, and how many events a request has.
Shape = tuple[int, int]
# Events a second, and the middle and the 99th percentile of the time to an answer in milliseconds.
Rates = tuple[float, float, float]
# The events of a thread of wrk, from a source of its own.
SCRIPT = """
local threads, number = 0, 0
function setup(thread) thread:set("id", threads) threads = threads + 1 end
local function event()
    number = number + 1
    local source = SOURCES == 1 and id or string.format("%d/%d", id, number % SOURCES)
    return string.format('{"specversion":"1.0","id":"/load/%d-%012d","source":"/load/RUN/%s","type":"com.example.order.placed",' ..
        '"subject":"customer/%06d","sequence":"%020d","time":"2024-02-29T10:00:%02dZ","attempt":1,' ..
        '"datacontenttype":"application/json","data":{"lines":[{"sku":"%08x","count":%d}]}}',
        id, number, source, number * 7919 % 5000, math.ceil(number / SOURCES), number % 60, number * 40503 % 4294967296, number % 19 + 1)
end
function request()
    if BATCH == 1 then
        return wrk.format("POST", "/events", {["Content-Type"] = "application/cloudevents+json"}, event())
    end
    local all = {}
    for at = 1, BATCH do all[at] = event() end
    return wrk.format("POST", "/events", {["Content-Type"] = "application/cloudevents-batch+json"}, "[" .. table.concat(all, ",") .. "]")
end
"""
TABLE = """CREATE TABLE inbox2 (place bigserial PRIMARY KEY, source text NOT NULL, id text NOT NULL, number bigint NOT NULL,
body text NOT NULL, block bigint NOT NULL, UNIQUE (source, id, body))"""
BODY = (
    """'{"attempt":1,"data":{"lines":[{"count":' || k % 19 + 1 || ',"sku":"' || lpad(to_hex(k * 40503 % 4294967296), 8, '0') || '"}]},"""
    """"datacontenttype":"application/json","id":"/load/' || :client_id || '-' || lpad(k::text, 12, '0') || '","sequence":"' || """
    """lpad(k::text, 20, '0') || '","source":"/load/' || :client_id || '","specversion":"1.0","subject":"customer/' || """
    """lpad((k * 7919 % 5000)::text, 6, '0') || '","time":"2024-02-29T10:00:00Z","type":"com.example.order.placed"}'"""
)
INSERT = f"""INSERT INTO inbox2 (source, id, number, body, block)
SELECT '/load/' || :client_id, '/load/' || :client_id || '-' || lpad(k::text, 12, '0'), k, {BODY}, k / 1024
FROM generate_series(:n::bigint - BATCH + 1, :n::bigint) AS k ON CONFLICT DO NOTHING;
"""


def found(pattern: str, text: str) -> "re.Match[str]":
    """What of a text is as the pattern says; it has to be there."""
    match = re.search(pattern, text, re.M)
    if not match:
        sys.exit(f"nothing is as {pattern}: {text[-1000:]}")
    return match


def of_service(tries: Tries, folder: str, shape: Shape, seconds: int) -> Rates:
    site = tries.site(f"s{time.monotonic_ns()}").start()
    rates, _ = by_wrk(site, folder, shape, seconds, 1)
    site.stop(seconds=30)
    shutil.rmtree(site.folder)
    return rates


def processor_seconds(sites: Iterable[Site]) -> float:
    """For how long services were on a processor so far, in the program and in the system."""
    ticks = 0
    for it in sites:
        with open(f"/proc/{it.ran.pid}/stat", encoding="utf-8") as stat:
            ticks += sum(map(int, stat.read().rpartition(")")[2].split()[11:13]))
    return ticks / os.sysconf("SC_CLK_TCK")


def by_wrk(site: Site, folder: str, shape: Shape, seconds: int, sources: int, behind: Sequence[Site] = ()) -> tuple[Rates, list[float]]:
    """What a service takes of events that nobody gave before, of so many sources for each of two threads of wrk; and for how
    many microseconds an event it was on a processor, and those behind it."""
    connections, batch = shape
    had = int(site.get("/kinds").headers["site-events"])
    with open(f"{folder}/load.lua", "w", encoding="ascii") as out:
        out.write(SCRIPT.replace("BATCH", str(batch)).replace("SOURCES", str(sources)).replace("RUN", str(had)))
    threads = str(min(2, connections))
    words = ["wrk", "-t", threads, "-c", str(connections), "-d", f"{seconds}s", "--latency", "-s", f"{folder}/load.lua", f"http://127.0.0.1:{site.port}"]
    before = [processor_seconds(it) for it in ([site], behind)]
    said = subprocess.run(words, capture_output=True, text=True, check=True, timeout=seconds + 30).stdout
    costs = [processor_seconds(it) - had for it, had in zip(([site], behind), before)]
    count = int(site.get("/kinds").headers["site-events"])
    refused = re.search(r"Non-2xx or 3xx responses: (\d+)", said)
    if refused:
        sys.exit(f"the service refused {refused[1]} requests: {said}")
    took = float(found(r"requests in ([\d.]+)s", said)[1])

    def milliseconds(percent: int) -> float:
        value, unit = found(rf"^\s+{percent}%\s+([\d.]+)(us|ms|s)$", said).groups()
        return float(value) * {"us": 0.001, "ms": 1.0, "s": 1000.0}[unit]

    rates = (count - had) / took, milliseconds(50), milliseconds(99)
    return rates, [it / max(1, count - had) * 1e6 for it in costs]


class LoadedPostgres(Postgres):
    """A server that clients of pgbench load."""

    def load(self, shape: Shape, seconds: int) -> Rates:
        connections, batch = shape
        with open(f"{self.folder}/load.sql", "w", encoding="ascii") as out:
            out.write(f"\\set n :n + {batch}\n{INSERT.replace('BATCH', str(batch))}")
        to = ["-h", self.folder, "-U", "load"]
        self.run("psql", *to, "-q", "-c", f"DROP TABLE IF EXISTS inbox2; {TABLE}", "postgres")
        words = ["-n", "-M", "prepared", "-c", str(connections), "-j", "2", "-T", str(seconds), "-D", "n=0", "-f", "load.sql", "-l", "--log-prefix=times"]
        said = self.run("pgbench", *to, *words, "postgres")
        times = []
        for file in glob.glob(f"{self.folder}/times*"):
            with open(file, encoding="ascii") as lines:
                times += [int(it.split()[2]) / 1000 for it in lines]
            os.remove(file)
        times.sort()
        rate = re.search(r"tps = ([\d.]+)", said)
        if not rate or not times:
            sys.exit(f"pgbench did nothing in its time: {said}")
        return float(rate[1]) * batch, times[len(times) // 2], times[int((len(times) - 1) * 0.99)]


class Redis:
    """A server of its own in a folder, over a socket there, into a stream."""

    # An event of a source, with as many bytes as those of the others.
    EVENT = (
        '{"specversion":"1.0","id":"/load/1-__rand_int__","source":"/load/1","type":"com.example.order.placed",'
        '"subject":"customer/000007","sequence":"00000000__rand_int__","time":"2024-02-29T10:00:00Z","attempt":1,'
        '"datacontenttype":"application/json","data":{"lines":[{"sku":"0000ab12","count":7}],"note":"%s"}}' % ("x" * 50)
    )

    def __init__(self, folder: str) -> None:
        self.folder, self.socket = f"{folder}/redis", f"{folder}/redis/socket"
        self.ran: Optional[subprocess.Popen[bytes]] = None

    @staticmethod
    def is_there() -> bool:
        return all(shutil.which(it) for it in ("redis-server", "redis-benchmark", "redis-cli"))

    def start(self) -> None:
        os.mkdir(self.folder)
        words = ["redis-server", "--port", "0", "--unixsocket", self.socket, "--dir", self.folder]
        words += ["--appendonly", "yes", "--appendfsync", "always", "--save", ""]
        self.ran = subprocess.Popen(words, stdout=subprocess.DEVNULL)
        until = time.monotonic() + 10
        while not os.path.exists(self.socket) and time.monotonic() < until:
            time.sleep(0.05)

    def stop(self) -> None:
        assert self.ran
        self.ran.terminate()
        self.ran.wait(30)

    def asked(self, shape: Shape, count: int) -> Rates:
        connections, batch = shape
        words = ["redis-benchmark", "-s", self.socket, "-c", str(connections), "-P", str(batch), "-n", str(count), "--csv", "-r", "1000000"]
        said = subprocess.run([*words, "XADD", "load", "*", "event", self.EVENT], capture_output=True, text=True, check=True, timeout=120)
        rate, _, _, middle, _, late, _ = said.stdout.splitlines()[-1].replace('"', "").rsplit(",", 7)[1:]
        return float(rate), float(middle), float(late)

    def load(self, shape: Shape, seconds: int) -> Rates:
        subprocess.run(["redis-cli", "-s", self.socket, "flushall"], capture_output=True, check=True)
        count = 100 * shape[0] * shape[1]
        return self.asked(shape, max(count, int(self.asked(shape, count)[0] * seconds)))


class RabbitMQ:
    """A node of its own in a folder, which runs while it is loaded."""

    SERVER, PORTS = "/usr/lib/rabbitmq/bin/rabbitmq-server", (25672, 25673, 25674)

    def __init__(self, folder: str) -> None:
        self.folder, self.client = f"{folder}/rabbitmq", f"{folder}/rabbitmq/load"
        node, others, names = self.PORTS
        mine = {"MNESIA_BASE": "data", "LOG_BASE": "log", "ENABLED_PLUGINS_FILE": "plugins", "CONFIG_FILE": "none", "CONF_ENV_FILE": "env"}
        self.environment = {**os.environ, **{f"RABBITMQ_{name}": f"{self.folder}/{it}" for name, it in mine.items()}}
        self.environment.update({"HOME": self.folder, "RABBITMQ_NODENAME": "load@localhost", "ERL_EPMD_PORT": str(names)})
        self.environment.update({"RABBITMQ_NODE_PORT": str(node), "RABBITMQ_DIST_PORT": str(others), "RABBITMQ_NODE_IP_ADDRESS": "127.0.0.1"})

    def is_there(self) -> bool:
        if not os.path.exists(self.SERVER):
            return False
        os.mkdir(self.folder)
        words = ["gcc", "-O2", "-o", self.client, f"{TOP}/bench/load_rabbitmq.c", "-lrabbitmq", "-lpthread"]
        return subprocess.run(words, check=False, stderr=subprocess.DEVNULL).returncode == 0

    def start(self) -> subprocess.Popen[bytes]:
        with open(f"{self.folder}/said", "wb") as said:
            ran = subprocess.Popen([self.SERVER], env=self.environment, cwd=self.folder, stdout=said, stderr=said)
        until = time.monotonic() + 60
        while time.monotonic() < until and ran.poll() is None:
            time.sleep(0.1)
            with open(f"{self.folder}/said", encoding="utf-8") as said:
                if "completed with" in said.read():
                    return ran
        sys.exit(f"RabbitMQ didn't start: see {self.folder}/said")

    def load(self, shape: Shape, seconds: int) -> Rates:
        ran = self.start()
        try:
            words = [self.client, str(self.PORTS[0]), *map(str, shape), str(seconds)]
            said = subprocess.run(words, capture_output=True, text=True, check=True, timeout=seconds + 60)
        finally:
            ran.terminate()
            ran.wait(60)
            subprocess.run(["epmd", "-kill"], env=self.environment, check=False, capture_output=True)
        rate, middle, late = map(float, said.stdout.split())
        return rate, middle, late


def fill(site: Site, source: str, count: int) -> None:
    for at in range(1, count + 1, 1000):
        told = site.give(
            [
                event(it, source, subject=f"customer/{it * 7919 % 5000}", time="2024-02-29T10:00:00Z", data={"count": it % 19})
                for it in range(at, min(at + 1000, count + 1))
            ]
        )
        if told.status != 200:
            sys.exit(f"the service refused: {told}")


def of_sync(tries: Tries, count: int) -> None:
    """Seconds in which two services come to one view: one way, and mutually."""
    took = []
    for is_mutual in (False, True):
        sites = [tries.site(f"{name}{is_mutual}").start() for name in ("north", "south")]
        for site, source in zip(sites, ("/north", "/south")):
            if is_mutual or source == "/north":
                fill(site, source, count)
        for site, other in (sites, sites[::-1]):
            site.set(f'[[peers]]\nname = "peer"\nurl = "http://127.0.0.1:{other.port}"\n')
            site.ran.send_signal(signal.SIGHUP)
        took.append(wait_for_one_view(sites))
        for site in sites:
            site.stop(seconds=30)
    print(f"{count} events: one way {took[0]:.1f} s; as many others each {took[1]:.1f} s, {took[1] / took[0]:.2f} times that")


class Writer(threading.Thread):
    """Gives a service 1,000 events a second, in batches of ten, and notes which were acknowledged and how long each took."""

    def __init__(self, site: Site) -> None:
        super().__init__(daemon=True)
        self.site, self.over, self.acknowledged, self.refused = site, threading.Event(), 0, 0
        self.times: list[tuple[float, float]] = []

    def run(self) -> None:
        number, due = 0, time.monotonic()
        while not self.over.is_set():
            began = time.monotonic()
            told = self.site.give([event(number + it, "/now") for it in range(1, 11)])
            if told.status == 200:
                number += 10
                self.acknowledged = number
                self.times.append((began, (time.monotonic() - began) * 1000))
            else:
                self.refused += 1
            due += 0.01
            time.sleep(max(0.0, due - time.monotonic()))

    def end(self) -> None:
        self.over.set()
        self.join()

    def told(self, begin: float, end: float) -> str:
        """How long the answers took that were asked for between two times."""
        times = sorted(took for at, took in self.times if begin <= at < end)
        return f"p50 {times[len(times) // 2]:.1f}, p99 {times[int((len(times) - 1) * 0.99)]:.1f}, at most {times[-1]:.1f} ms of {len(times)}"


def field(site: Site, file: str, name: str) -> int:
    """A number in a file that the system has of a service's process."""
    with open(f"/proc/{site.ran.pid}/{file}", encoding="ascii") as it:
        return int(found(rf"^{name}:\s+(\d+)", it.read())[1])


def resident(site: Site) -> list[int]:
    """How many MiB of memory a service has, and how many it had at most."""
    return [field(site, "status", name) >> 10 for name in ("VmRSS", "VmHWM")]


def wait_for_one_view(sites: list[Site]) -> float:
    """Waits until services have one set, and answers how long that took."""
    began = time.monotonic()
    while len({it.get("/cover").headers["etag"] for it in sites}) > 1:
        if time.monotonic() - began > 600:
            sys.exit("they don't come to one view")
        time.sleep(0.1)
    return time.monotonic() - began


def hold(site: Site, sources: list[str], count: int) -> None:
    """Gives a service so many events of each of the sources, a thousand at a time, of one type in twenty."""
    for first in range(1, count + 1, 1000):
        numbers = range(first, min(first + 1000, count + 1))
        for source in sources:
            each = (
                f'{{"specversion":"1.0","id":"{source}-{it:012d}","source":"{source}","type":"com.example.order.t{it % 20}",'
                f'"subject":"customer/{it * 7919 % 5000:06d}","sequence":"{it:020d}","time":"2024-02-{it % 29 + 1:02d}T10:00:00Z",'
                f'"datacontenttype":"application/json","data":{{"lines":[{{"sku":"{it * 40503 % 2**32:08x}","count":{it % 19}}}]}}}}'
                for it in numbers
            )
            told = site.ask("POST", "/events", f"[{','.join(each)}]", MANY, seconds=60)
            if told.status != 200:
                sys.exit(f"the service refused: {told}")


def begin(sites: list[Site]) -> float:
    """Starts services side by side, and answers how long that took."""
    began = time.monotonic()
    threads = [threading.Thread(target=it.start, args=(900,)) for it in sites]
    for thread in threads:
        thread.start()
    for thread in threads:
        thread.join()
    return time.monotonic() - began


def parts_of(tries: Tries, name: str, count: int, more: str) -> list[Site]:
    """So many parts with more settings, or a site where there are none, that don't run yet."""
    settings = [f'part = "{it}/{count}"\n{more}\n' for it in range(count)] or [f"{more}\n"]
    return [tries.site(f"{name}-{at}", it) for at, it in enumerate(settings)]


def hold_all(sites: list[Site], events: int) -> tuple[list[Site], str]:
    """Services that hold events and have started again; how long that took."""
    begin(sites)
    if not events:
        return sites, ""
    sources = [f"/held/{it}" for it in range(640)]
    own = [[it for it in sources if part_of(it, len(sites)) == at] for at in range(len(sites))]
    threads = [threading.Thread(target=hold, args=(site, of_site, events // 640)) for site, of_site in zip(sites, own)]
    for thread in threads:
        thread.start()
    for thread in threads:
        thread.join()
    for it in sites:
        it.stop(seconds=120)
    took = begin(sites)
    held = sum(int(it.get("/cover").headers["site-events"]) for it in sites)
    return sites, f"{held:,} events held, start {took:.1f} s, {sum(resident(it)[0] for it in sites):,} MiB"


# What a region takes, the microseconds of a processor that an event costs its front and its parts, and the milliseconds of
# GET /kinds behind that: first where nothing came between two, then where an event did.
Row = tuple[Rates, list[float], list[float]]


def of_region(tries: Tries, folder: str, count: int, shapes: list[Shape], given: argparse.Namespace) -> list[Row]:
    """How a front before so many parts does with each shape in turn."""
    name = f"p{time.monotonic_ns()}"
    parts, told = hold_all(parts_of(tries, name, count, given.settings), given.events)
    if told:
        print(f"{count or 'no'} parts: {told}", file=sys.stderr, flush=True)
    rows = "".join(f'[[parts]]\nurl = "{it.url}"\n' for it in parts)
    front = tries.site(name, rows, is_front=True).start(60) if count else parts[0]
    found: list[Row] = []
    for shape in shapes:
        rates, costs = by_wrk(front, folder, shape, given.seconds, 32, parts if count else [])
        times: list[list[float]] = [[], []]
        for turn in range(100):
            if turn % 2:
                front.give(event(turn, f"/asked/{len(found)}"))
            began = time.monotonic()
            front.get("/kinds")
            times[turn % 2].append((time.monotonic() - began) * 1000)
        found.append((rates, costs, [statistics.median(it) for it in times]))
    for it in {front, *parts}:
        it.stop(seconds=120)
        shutil.rmtree(it.folder)
    return found


def of_parts(tries: Tries, folder: str, given: argparse.Namespace, shapes: list[Shape]) -> None:
    heads = ["connections x batch", "parts", "events a second", "p50, p99 ms", "front, parts: us an event", "GET /kinds, nothing new, and new: ms"]
    print(f"| {' | '.join(heads)} |\n{'|---' * len(heads)}|")
    got: dict[tuple[Shape, int], list[Row]] = {}
    for _ in range(given.rounds):
        for count in map(int, given.parts.split(",")):
            for shape, row in zip(shapes, of_region(tries, folder, count, shapes, given)):
                got.setdefault((shape, count), []).append(row)
    for shape in shapes:
        for (_, count), rows in ((at, rows) for at, rows in got.items() if at[0] == shape):
            rates = [[row[0][at] for row in rows] for at in range(3)]
            costs, kinds = ([statistics.median(row[of][at] for row in rows) for at in range(2)] for of in (1, 2))
            told = f"{statistics.median(rates[0]):,.0f} ({min(rates[0]):,.0f}..{max(rates[0]):,.0f})"
            told += f" | {statistics.median(rates[1]):.1f}, {statistics.median(rates[2]):.1f}"
            # A site stands behind no front.
            told += f" | {costs[0]:.1f}, {costs[1]:.1f}" if count else f" | none, {costs[0]:.1f}"
            told += f" | {kinds[0]:.1f}, {kinds[1]:.1f}"
            print(f"| {shape[0]} x {shape[1]} | {count or 'a site'} | {told} |", flush=True)


def of_rest(tries: Tries, given: argparse.Namespace) -> None:
    """What parts cost that hold nothing and that nobody asks but the front before them."""
    print("| empty parts | start of all, s | RSS, PSS each, KiB | threads each | processor of all, ms a second |\n|---|---|---|---|---|")
    for count in map(int, given.rest.split(",")):
        name = f"r{time.monotonic_ns()}"
        parts = parts_of(tries, name, count, given.settings)
        took = begin(parts)
        front = tries.site(name, "".join(f'[[parts]]\nurl = "{it.url}"\n' for it in parts), is_front=True).start(60)
        # The thread that opened the database goes after ten seconds.
        time.sleep(11)
        before = processor_seconds(parts)
        time.sleep(given.seconds)
        busy = (processor_seconds(parts) - before) / given.seconds * 1000
        memory = [statistics.median(field(it, "smaps_rollup", kind) for it in parts) for kind in ("Rss", "Pss")]
        threads = statistics.median(field(it, "status", "Threads") for it in parts)
        print(f"| {count} | {took:.2f} | {memory[0]:,.0f}, {memory[1]:,.0f} | {threads:.0f} | {busy:.1f} |", flush=True)
        for it in (front, *parts):
            it.stop(seconds=60)
            shutil.rmtree(it.folder)


def of_backup(tries: Tries, count: int) -> bool:
    """A backup of a service over so many events while more come; then its disk is lost, and it begins with the backup."""
    folder = f"{tries.folder}/backups"
    south = tries.site("south").start()
    north = tries.site("north", f'backups = "{folder}"\n[[peers]]\nname = "south"\nurl = "http://127.0.0.1:{south.port}"\n').start()
    south.set(f'[[peers]]\nname = "north"\nurl = "http://127.0.0.1:{north.port}"\n')
    fill(north, "/before", count)
    south.ran.send_signal(signal.SIGHUP)
    wait_for_one_view([north, south])
    before, writer = resident(north)[0], Writer(north)
    writer.start()
    begin = time.monotonic()
    time.sleep(5)
    began = time.monotonic()
    told = north.ask("POST", "/backup", seconds=600)
    made = time.monotonic()
    time.sleep(2)
    writer.end()
    if told.status != 200 or writer.refused:
        sys.exit(f"no backup, or {writer.refused} batches were refused: {told}")
    copied, most = told.json, resident(north)[1]
    print(f"a backup of {copied['events']} events, {copied['bytes'] >> 20} MiB, in {made - began:.1f} s, while 1,000 events a second came")
    print(f"answers before: {writer.told(begin, began)}; meanwhile: {writer.told(began, made)}; memory {before} MiB before, at most {most}")
    wait_for_one_view([north, south])
    name = south.get("/cover").headers["etag"]
    north.stop(signal.SIGKILL)
    for file in glob.glob(f"{north.folder}/site.db*"):
        os.remove(file)
    shutil.copy(copied["file"], north.db)
    began = time.monotonic()
    north.start(seconds=600)
    started = time.monotonic() - began
    has, caught = int(north.get("/kinds").headers["site-events"]), wait_for_one_view([north, south])
    is_right = north.get("/cover").headers["etag"] == name and north.cover() == {"/before": [[1, count]], "/now": [[1, writer.acknowledged]]}
    lacked = count + writer.acknowledged - copied["events"]
    print(f"restored: ready in {started:.1f} s with {has} events; {lacked} more from its peer in {caught:.1f} s")
    print(f"the set is {'what it was' if is_right else 'ANOTHER'}, with all {count + writer.acknowledged} events that were acknowledged")
    for site in (north, south):
        site.stop(seconds=60)
    return is_right


def of_questions(tries: Tries, count: int) -> None:
    """Times of GET /kinds while a service over so many events takes 1,000 a second."""
    site = tries.site("asked").start()
    fill(site, "/before", count)
    site.stop(seconds=60)
    began = time.monotonic()
    site.start(seconds=600)
    opened, times, writer = time.monotonic() - began, [], Writer(site)
    writer.start()
    until = time.monotonic() + 20
    while time.monotonic() < until:
        began = time.monotonic()
        site.get("/kinds")
        times.append((time.monotonic() - began) * 1000)
        time.sleep(0.02)
    writer.end()
    memory = int(found(r"process_resident_memory_bytes (\d+)", site.get("/metrics").body.decode())[1])
    has = int(site.get("/kinds").headers["site-events"])
    site.stop(seconds=60)
    times.sort()
    p50, p99 = times[len(times) // 2], times[int((len(times) - 1) * 0.99)]
    started = f"{count} events: start {opened:.1f} s, {memory >> 20} MiB"
    print(f"{started}; {(has - count) / 20:.0f} events a second beside; GET /kinds p50 {p50:.1f}, p99 {p99:.1f} ms of {len(times)}")


def main() -> int:
    words = argparse.ArgumentParser(description=__doc__, formatter_class=argparse.RawDescriptionHelpFormatter)
    words.add_argument("--program", default=f"{TOP}/out/service/jumbetaid")
    words.add_argument("--rounds", type=int, default=3)
    words.add_argument("--seconds", type=int, default=3)
    words.add_argument("--shapes", default="1x1,16x1,64x1,256x1,16x100")
    words.add_argument("--sync", type=int, metavar="N")
    words.add_argument("--ask", type=int, metavar="N")
    words.add_argument("--backup", type=int, metavar="N")
    words.add_argument("--parts", metavar="LIST")
    words.add_argument("--rest", metavar="LIST")
    words.add_argument("--events", type=int, default=0, metavar="N", help="what parts hold before they are measured")
    words.add_argument("--settings", default="", metavar="TEXT", help="lines of the parts' settings")
    given = words.parse_args()
    if given.sync or given.ask or given.backup or given.rest:
        with tempfile.TemporaryDirectory() as folder, contextlib.ExitStack() as end:
            tries = Tries(folder, os.path.abspath(given.program))
            end.callback(tries.end)
            if given.sync:
                of_sync(tries, given.sync)
            if given.ask:
                of_questions(tries, given.ask)
            if given.rest:
                of_rest(tries, given)
            if given.backup and not of_backup(tries, given.backup):
                return 1
        return 0
    if not shutil.which("wrk"):
        sys.exit("skipped: wrk isn't there")
    pairs = [it.split("x") for it in given.shapes.split(",")]
    shapes = [(int(connections), int(batch)) for connections, batch in pairs]
    if given.parts:
        with tempfile.TemporaryDirectory() as folder, contextlib.ExitStack() as end:
            tries = Tries(folder, os.path.abspath(given.program))
            end.callback(tries.end)
            of_parts(tries, folder, given, shapes)
        return 0
    got: dict[tuple[Shape, str], list[Rates]] = {}
    with tempfile.TemporaryDirectory() as folder, contextlib.ExitStack() as end:
        tries = Tries(folder, os.path.abspath(given.program))
        end.callback(tries.end)
        systems: dict[str, Callable[[Shape], Rates]] = {"jumbetaid": lambda shape: of_service(tries, folder, shape, given.seconds)}
        postgres = LoadedPostgres(folder)
        if postgres.is_there():
            postgres.start()
            end.callback(postgres.stop)
            systems["PostgreSQL"] = lambda shape: postgres.load(shape, given.seconds)
        redis = Redis(folder)
        if redis.is_there():
            redis.start()
            end.callback(redis.stop)
            systems["Redis"] = lambda shape: redis.load(shape, given.seconds)
        rabbitmq = RabbitMQ(folder)
        if rabbitmq.is_there():
            systems["RabbitMQ"] = lambda shape: rabbitmq.load(shape, given.seconds)
        for turn in range(given.rounds):
            for shape in shapes:
                for name in list(systems)[:: 1 if turn % 2 else -1]:
                    got.setdefault((shape, name), []).append(systems[name](shape))
    with open("/proc/loadavg", encoding="ascii") as load:
        print(f"{os.cpu_count()} threads, load {load.read().split()[0]}, {given.rounds} rounds of {given.seconds} s")
    print("| connections x batch | system | events a second | p50, p99 ms | beside PostgreSQL |\n|---|---|---|---|---|")
    for shape in shapes:
        for name in systems:
            rates, middles, lates = zip(*got[shape, name])
            other = [it[0] for it in got.get((shape, "PostgreSQL"), [])]
            ratio = f"{statistics.median(rates) / statistics.median(other):.2f}" if other else ""
            told = f"{statistics.median(rates):,.0f} ({min(rates):,.0f}..{max(rates):,.0f}) | {statistics.median(middles):.1f}, {statistics.median(lates):.1f}"
            print(f"| {shape[0]} x {shape[1]} | {name} | {told} | {ratio} |")
    return 0


if __name__ == "__main__":
    sys.exit(main())
