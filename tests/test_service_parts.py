"""A region in parts by source: a front before its parts answers as a site does that has all of their events."""
import contextlib
import hashlib
import http.client
import http.server
import json
import os
import random
import shutil
import signal
import socket
import subprocess
import threading
import time
from concurrent.futures import ThreadPoolExecutor
from typing import Any, Callable, Iterator
from urllib.parse import quote

import pytest
from serving import HEAD, MANY, ONE, QUESTIONS, Authority, Producer, Site, Told, Tries, event, part_of, serving

pytestmark = [pytest.mark.library, pytest.mark.alone, pytest.mark.slow]

QUICK = "[sync]\nevery_ms = 50\nwait_seconds = 2\nconnect_seconds = 1\nrequest_seconds = 5\nbackoff_ms = 50\nbackoff_max_ms = 500\n"
SOURCES = ["/", "/north", "/süd", '/"quoted"\\', "urn:x:1", *(f"/shop/{it}" for it in range(12))]
ANSWERS = (*QUESTIONS, "summary")
# Ways in which a service ends that holds nothing up, and how often a client that gives events is disturbed.
TROUBLES = (signal.SIGKILL, signal.SIGTERM, signal.SIGSTOP)


def tables(parts: list[Site]) -> str:
    """The settings of a front before these parts."""
    return QUICK + "".join(f'[[parts]]\nurl = "{it.url}"\n' for it in parts)


@contextlib.contextmanager
def region(tries: Tries, count: int, fronts: int = 1, name: str = "r") -> Iterator[tuple[list[Site], list[Site]]]:
    """So many parts that run, and so many fronts before them."""
    with contextlib.ExitStack() as stack:
        each = range(count)
        parts = [stack.enter_context(serving(tries, f'part = "{it}/{count}"\n{QUICK}', f"{name}part{it}")) for it in each]
        before = [stack.enter_context(serving(tries, tables(parts), f"{name}front{it}", is_front=True)) for it in range(fronts)]
        yield parts, before


def random_events(chance: random.Random, count: int) -> list[dict[str, Any]]:
    """Events that lack numbers before them, stand again, share an id or a number, or have no subject or time."""
    found: list[dict[str, Any]] = []
    for _ in range(count):
        more: dict[str, Any] = {"type": chance.choice(["sold", "returned", 'a"b', "ü"])}
        if chance.random() < 0.7:
            more["subject"] = chance.choice(["x", "y", "ä", '"'])
        if chance.random() < 0.6:
            more["time"] = f"2024-0{chance.randrange(1, 4)}-1{chance.randrange(3)}T0{chance.randrange(3)}:00:00+01:00"
        one = event(chance.randrange(1, 40), chance.choice(SOURCES), **more)
        found.append({**one, "id": f"e{chance.randrange(20)}"})
        if chance.random() < 0.2:
            found.append(chance.choice(found))
    return found


def differences(one: Site, other: Site) -> list[str]:
    """To what two answer otherwise, or with another name of their set."""
    found = []
    for it in ANSWERS:
        told = [site.get(f"/{it}") for site in (one, other)]
        heads = [[answer.headers.get(name) for name in ("etag", "site-events", "content-type")] for answer in told]
        if told[0].body != told[1].body or heads[0] != heads[1] or told[0].status != 200:
            found.append(f"{it}: {heads}, {told[0].body[:200]!r}, {told[1].body[:200]!r}")
    return found


def pages(site: Site, more: str = "") -> list[str]:
    """All events that a site or a front has, page by page, as a peer asks for them that takes nothing meanwhile."""
    start, found = 0, []
    while (told := site.ask("POST", f"/delta?from={start}{more}", '{"sources":{},"version":1}')).status == 200:
        found += [json.dumps(it) for line in told.body.splitlines() for it in json.loads(line)]
        assert int(told.headers["site-next"]) > start
        start = int(told.headers["site-next"])
    assert told.status == 204
    return sorted(found)


def test_answers(tries: Tries) -> None:
    """All that a front answers is, byte for byte, what a site answers that took the same."""
    with region(tries, 4, 2) as (parts, fronts), serving(tries, QUICK, "whole") as whole:
        front = fronts[0]
        tries.judge("no event", not differences(front, whole), differences(front, whole))
        chance = random.Random(7)
        for turn in range(6):
            batch = random_events(chance, 60)
            told = [whole.give(batch), fronts[turn % 2].give(batch)]
            tries.judge(f"batch {turn}", told[0].json == told[1].json and told[1].status == 200, told)
            wrong = differences(fronts[turn // 2 % 2], whole)
            tries.judge(f"all answers behind batch {turn}", not wrong, wrong)
        tries.judge("each part has some", all(it.cover() for it in parts))
        one = {**event(50, "/alone"), "data": {"a": [1, "x"]}}
        binary = {"ce-specversion": "1.0", "ce-id": "9", "ce-source": "/b", "ce-type": "t", "ce-sequence": f"{9:020d}"}
        for what, body, headers in (
            ("an event", json.dumps(one), ONE),
            ("it again", json.dumps([one, one]), MANY),
            ("an empty batch", "[]", MANY),
            ("no sequence", json.dumps([one, {k: v for k, v in one.items() if k != "sequence"}]), MANY),
            ("no event", "[{}]", MANY),
            ("no JSON", "[", MANY),
            ("another mode", json.dumps([one]), ONE),
            ("another media type", "x", {"Content-Type": "text/plain"}),
            ("binary mode", "7", {**binary, "Content-Type": "application/json"}),
        ):
            for path in ("/events", "/check"):
                told = [it.ask("POST", path, body, headers) for it in (whole, front)]
                said = [(it.status, it.headers["content-type"], it.json) for it in told]
                tries.judge(f"{what}: {path}", said[0] == said[1], told)
        tries.judge("behind these", not differences(front, whole), differences(front, whole))
        for source, id in (("/north", "e1"), ('/"quoted"\\', "e2"), ("/süd", "e3"), ("/alone", "50"), ("/none", "1")):
            told = [it.get(f"/get?source={quote(source, safe='')}&id={id}") for it in (whole, front)]
            tries.judge(f"get of {source}", (told[0].status, told[0].body) == (told[1].status, told[1].body), told)
        tries.judge("get of nothing", front.get("/get").problem == "query")
        tag = front.get("/kinds").headers["etag"]
        for it in ANSWERS:
            told = [fronts[1].get(f"/{it}", If_None_Match=tag), front.ask("HEAD", f"/{it}")]
            tries.judge(f"{it} of a known set", [at.status for at in told] == [304, 200] and not told[0].body + told[1].body, told)
        everything = pages(whole)
        for more in ("", "&limit=7", "&bytes=1"):
            found = pages(front, more)
            tries.judge(f"all pages of a delta{more}", found == everything and len(found) > 200, (len(found), len(everything)))
        tries.judge("a delta of what is known", front.ask("POST", "/delta", whole.get("/summary").body).status == 204)
        tries.judge("a delta by no summary", front.ask("POST", "/delta", b"{}").problem == "summary")
        # Arrivals are those of the parts.
        for at, part in enumerate(parts):
            told = [front.get(f"/arrivals?part={at}&after=2&limit=5"), part.get("/arrivals?after=2&limit=5")]
            tries.judge(f"arrivals of part {at}", told[0].body == told[1].body and told[0].headers["site-next"] == "7", told)
        for path in ("/arrivals", "/arrivals?part=4", "/arrivals?part=x&after=1"):
            tries.judge(path, front.get(path).problem == "query", front.get(path))
        stream, _ = front.raw(b"GET /arrivals?part=0&after=0 HTTP/1.1\r\nHost: localhost\r\nAccept: text/event-stream\r\n\r\n", seconds=1)
        tries.judge("a stream of a part", b"id: 1\ndata: {" in stream, stream[:300])
        for path, code in (("/", 200), ("/healthz", 200), ("/readyz", 200), ("/events", 405), ("/x", 404)):
            tries.judge(path, front.get(path).status == code, front.get(path))
        tries.judge("backups are the parts'", front.ask("POST", "/backup").problem == "no-backups")
        status, sums = front.get("/status").json, [it.get("/status").json for it in parts]
        both = {it: (status[it], sum(at[it] for at in sums)) for it in ("events", "sources", "gaps", "conflicts")}
        tries.judge("the status has the sums of the parts'", all(a == b for a, b in both.values()) and status["ready"], both)
        tries.judge("each part says which it is", [it["part"] for it in sums] == [{"index": at, "of": 4} for at in range(4)], sums)
        tries.judge("parts are measured", [front.measured(f'jumbetai_part_up{{part="{it}"}}') for it in range(4)] == [1.0] * 4)
        tries.judge("the whole has as many", status["events"] == whole.get("/status").json["events"], status)


def test_parts_refuse(tries: Tries) -> None:
    """A part takes no event of another one, whoever gives it, and opens no other part's file."""
    mine = next(it for it in SOURCES if part_of(it, 4) == 1)
    other = next(it for it in SOURCES if part_of(it, 4) == 3)
    with serving(tries, f'part = "1/4"\n{QUICK}', "part") as part:
        tries.judge("its own", part.give(event(1, mine)).status == 200)
        for what, body in (("an event", event(1, other)), ("a batch", [event(2, mine), event(1, other)])):
            told = part.give(body)
            tries.judge(f"{what} of another part", told.problem == "misdirected" and told.status == 421, told)
            tries.judge("it says which", (told.json["source"], told.json["part"]) == (other, {"index": 3, "of": 4}), told)
        tries.judge("nothing of it is there", part.cover() == {mine: [[1, 1]]}, part.cover())
        tries.judge("faults are told as ever", part.give([{}, event(1, other)]).problem == "events-at-fault")
        for asked, status in (("1/4", 200), ("0/4", 421), ("1/2", 421), ("", 421)):
            told = part.get("/kinds", Site_Part=asked)
            tries.judge(f"meant for {asked}", told.status == status and told.headers["site-part"] == "1/4", told)
        settings = f'{QUICK}[[peers]]\nname = "part"\nurl = "{part.url}"\n'
        with serving(tries, settings, "whole") as whole:
            told = whole.get("/kinds", Site_Part="1/4")
            tries.judge("a whole site is no part", told.problem == "misdirected" and "site-part" not in told.headers, told)
            whole.give([event(1, other), event(2, mine)])
            part.set(f'part = "1/4"\n{QUICK}[[peers]]\nname = "whole"\nurl = "{whole.url}"\n')
            part.ran.send_signal(signal.SIGHUP)

            def why() -> str:
                return (part.get("/status").json["peers"].get("whole") or {}).get("why") or ""

            tries.judge("nor does it pull from one", part.waits_for(lambda: "Misdirected" in why()) and list(part.cover()) == [mine], why())
            tries.judge("a whole site may pull from a part", whole.waits_for(lambda: whole.cover().get(mine) == [[1, 2]]), whole.cover())
    copy = tries.site("copy", f'part = "2/4"\n{QUICK}')
    shutil.copy(part.db, copy.db)
    with contextlib.suppress(OSError):
        copy.start()
    tries.judge("another part's file", copy.ran.wait(8) == 1 and f"{mine}, which is of part 1/4, not 2/4" in copy.text_of_log(), copy.text_of_log())


def test_waits(tries: Tries) -> None:
    """A front holds an answer back until a part changes, or has as many events as are wanted."""
    with region(tries, 3, 2) as (parts, (front, other)):
        front.give([event(it, "/a") for it in range(1, 4)])
        tag = front.get("/cover").headers["etag"]
        began = time.monotonic()
        told = front.get("/cover", If_None_Match=tag, Prefer="wait=1")
        tries.judge("nothing came", told.status == 304 and 0.9 < time.monotonic() - began < 3, told)
        for what, path, headers, source, count in (
            ("another set", "/cover", {"If_None_Match": tag}, "/v", 1),
            ("so many events", "/kinds?min=7", dict[str, str](), "/w", 3),
        ):
            threading.Timer(0.4, other.give, ([event(it, source) for it in range(1, count + 1)],)).start()
            began = time.monotonic()
            told = front.get(path, Prefer="wait=9", **headers)
            tries.judge(what, told.status == 200 and 0.3 < time.monotonic() - began < 3, (told, time.monotonic() - began))
        # What was acknowledged is in each answer that is asked for behind it, by any front.
        for number in range(1, 60):
            front.give(event(number, f"/shop/{number}"))
            told = other.get("/kinds")
            if told.body != f'["t",{7 + number}]\n'.encode():
                tries.judge("what was acknowledged is there", False, (number, told))
        tries.judge("parts that end hold nothing up", parts[0].stop() == 0)


def test_part_that_is_away(tries: Tries) -> None:
    """What a part that is away lacks is told, and is taken once it is given again."""
    batch = [event(1, it) for it in SOURCES]
    with region(tries, 4) as (parts, (front,)), serving(tries, QUICK, "whole") as whole:
        front.give([event(9, "/shop/0")])
        whole.give([event(9, "/shop/0")])
        away = sorted({it for it in SOURCES if part_of(it, 4) == 1}, key=str.encode)
        here = [it for it in batch if it["source"] not in away]
        parts[1].stop(signal.SIGKILL)
        told = front.give(batch)
        tries.judge("a part is away", told.status == 503 and told.problem == "part-away" and told.headers["retry-after"] == "1", told)
        said = told.json
        tries.judge("it says which and what", [(it["part"], it["sources"], it["of"]) for it in said["parts"]] == [(1, away, len(away))], said)
        tries.judge("and what the others took", (said["events"], said["new"], said["repeated"]) == (len(here), len(here), 0), said)
        tries.judge("others go on", front.give(here).json == {"events": len(here), "new": 0, "repeated": len(here)})
        for it in ANSWERS:
            told = front.get(f"/{it}")
            tries.judge(f"{it} names it", told.problem == "part-away" and told.status == 503 and told.json["parts"][0]["part"] == 1, told)
        tries.judge("a page names it", front.ask("POST", "/delta", '{"sources":{},"version":1}').problem == "part-away")
        tries.judge("what is of one part", front.get(f"/get?source={quote(here[0]['source'])}&id=1").status == 200)
        tries.judge("what is of that part", front.get(f"/get?source={quote(away[0])}&id=1").problem == "part-away")
        tries.judge("it isn't ready", front.waits_for(lambda: front.get("/readyz").problem == "part-away"), front.get("/readyz"))
        status = front.get("/status").json
        tries.judge("the status says so", not status["ready"] and [it["state"] for it in status["parts"]] == ["up", "down", "up", "up"], status["parts"])
        tries.judge("so does a metric", front.measured('jumbetai_part_up{part="1"}') == 0)
        lines = [it for it in front.log() if it.get("message") == "the part is away"]
        tries.judge("and the log", [it["part"] for it in lines] == ["1/4"] and lines[0]["why"], lines)
        parts[1].start()
        tries.judge("it is there again", front.waits_for(lambda: front.get("/readyz").status == 200), front.get("/readyz"))
        told = front.give(batch)
        tries.judge("given again", told.json == {"events": len(batch), "new": len(away), "repeated": len(here)}, told)
        whole.give(batch)
        tries.judge("all is there", not differences(front, whole), differences(front, whole))
        # One that hangs is told within the time that an answer has.
        parts[2].ran.send_signal(signal.SIGSTOP)
        os.waitid(os.P_PID, parts[2].ran.pid, os.WSTOPPED | os.WNOWAIT)
        began = time.monotonic()
        told = front.give(batch)
        took = time.monotonic() - began
        parts[2].ran.send_signal(signal.SIGCONT)
        tries.judge("a part that hangs", told.problem == "part-away" and [it["part"] for it in told.json["parts"]] == [2] and took < 8, (took, told))


class Other(http.server.BaseHTTPRequestHandler):
    """What answers all that it is asked, and doesn't know of parts."""

    given: list[str] = []

    def do_GET(self) -> None:
        self.send_response(200)
        self.send_header("Content-Length", "0")
        self.send_header("ETag", '"x"')
        self.end_headers()

    def do_POST(self) -> None:
        self.given.append(self.path)
        self.do_GET()

    do_HEAD = do_GET

    def log_message(self, *_: Any) -> None:
        pass


def test_service_of_another_kind(tries: Tries) -> None:
    """What stands at a part's place and doesn't say that it is the part is given nothing."""
    server = http.server.ThreadingHTTPServer(("127.0.0.1", 0), Other)
    threading.Thread(target=server.serve_forever, daemon=True).start()
    settings = f'{QUICK}[[parts]]\nurl = "http://127.0.0.1:{server.server_port}"\n'
    with serving(tries, settings, "front", is_front=True) as front:
        told = front.get("/readyz")
        tries.judge("it isn't ready", told.problem == "part-away" and "not that it is this part" in told.json["detail"], told)
        tries.judge("no answer", front.get("/kinds").problem == "part-away", front.get("/kinds"))
        tries.judge("no event", front.give(event(1)).problem == "part-away" and not Other.given, Other.given)
    server.shutdown()


class Strange(http.server.BaseHTTPRequestHandler):
    """What says that it is part 0 of 2, and answers what it is asked in one of several wrong ways."""

    how = ""
    over = threading.Event()
    real: Site
    count = 2**64 - 1

    def head(self, length: int) -> None:
        self.send_response(200)
        for name, value in (("Content-Length", length), ("ETag", '"x"'), ("Site-Part", "0/2"), ("Site-Events", self.count)):
            self.send_header(name, str(value))
        self.end_headers()

    def do_HEAD(self) -> None:
        self.head(0)

    def do_GET(self) -> None:
        given = self.rfile.read(int(self.headers.get("Content-Length", 0)))
        if self.how == "late":
            self.over.wait(10)
        elif self.how == "drips":
            self.head(1000)
            with contextlib.suppress(OSError):
                while not self.over.wait(0.1):
                    self.wfile.write(b" ")
        elif self.how == "cut":
            self.head(1000)
            self.wfile.write(b'{"new":1,"repeated":0}')
        else:
            counts = b'{"new":%d,"repeated":%d}' % (self.count, self.count)
            other = self.real.ask(self.command, self.path, given, {"Site-Part": "1/2"}).body
            body = {"another's": other, "too much": counts}.get(self.how, b"{}")
            self.head(len(body))
            self.wfile.write(body)

    do_POST = do_GET

    def log_message(self, *_: Any) -> None:
        pass


def test_strange_part(tries: Tries) -> None:
    """A part that answers late, drop by drop, half, or what is another's is told as such; no answer is made of it, and others go on."""
    first, second = (next(it for it in SOURCES if part_of(it, 2) == at) for at in range(2))
    server = http.server.ThreadingHTTPServer(("127.0.0.1", 0), Strange)
    threading.Thread(target=server.serve_forever, daemon=True).start()
    quick = QUICK.replace("request_seconds = 5", "request_seconds = 1")
    with serving(tries, f'part = "1/2"\n{QUICK}', "part") as part:
        Strange.real = part
        rows = f'{quick}[[parts]]\nurl = "http://127.0.0.1:{server.server_port}"\n[[parts]]\nurl = "{part.url}"\n'
        with serving(tries, rows, "front", is_front=True) as front:
            tries.judge("it is there", front.waits_for(lambda: front.get("/readyz").status == 200), front.get("/readyz"))
            front.give(event(1, second))
            for number, (how, asked, given) in enumerate(
                (
                    ("late", "part-away", "no answer within 1 seconds"),
                    ("drips", "part-away", "no whole answer within 1 seconds"),
                    ("cut", "part-away", "end of file"),
                    ("another's", "overlap", "missing field"),
                    ("too much", "uncombined", "more events than it was given"),
                    ("nothing that is known", "uncombined", "missing field"),
                ),
                2,
            ):
                Strange.how = how
                began = time.monotonic()
                told = front.get("/kinds")
                tries.judge(f"{how}: no answer", told.problem == asked and told.status in (502, 503), told)
                told = front.give([event(1, first), event(number, second)])
                tries.judge(f"{how}: not acknowledged", told.status == 503 and told.problem == "part-away", told)
                said = told.json["parts"]
                tries.judge(f"{how}: it says why", [(it["part"], it["sources"]) for it in said] == [(0, [first])] and given in said[0]["why"], said)
                tries.judge(f"{how}: within its time", time.monotonic() - began < 4, time.monotonic() - began)
                tries.judge(f"{how}: others go on", front.give(event(number, second)).json["repeated"] == 1)
                tries.judge(f"{how}: their answers", front.get(f"/get?source={quote(second)}&id={number}").status == 200)
                tries.judge(f"{how}: it is watched all the same", [front.get(it).status for it in ("/healthz", "/status", "/metrics")] == [200] * 3)
            Strange.how = "cut"
            with pytest.raises(http.client.IncompleteRead):
                front.get(f"/get?source={quote(first)}&id=1")
            Strange.over.set()
    server.shutdown()


def test_identity(tries: Tries) -> None:
    """What answers in the place of a part and isn't that part gets no event and is no part of an answer."""
    with contextlib.ExitStack() as stack:
        parts = [stack.enter_context(serving(tries, f'part = "{it}/2"\n{QUICK}', f"part{it}")) for it in range(2)]
        whole = stack.enter_context(serving(tries, QUICK, "whole"))
        third = stack.enter_context(serving(tries, f'part = "1/3"\n{QUICK}', "third"))
        batch = [event(1, it) for it in SOURCES]
        for what, at, said in (
            ("parts in another order", [parts[1], parts[0]], "part 1/2"),
            ("a whole site", [parts[0], whole], "no part"),
            ("a part of another count", [parts[0], third], "part 1/3"),
        ):
            with serving(tries, tables(at), "front", is_front=True) as front:
                told = front.get("/readyz")
                tries.judge(f"{what}: not ready", told.problem == "part-away" and said in told.json["detail"], told)
                tries.judge(f"{what}: no answer", front.get("/kinds").problem == "part-away", front.get("/kinds"))
                tries.judge(f"{what}: no event", front.give(batch).problem == "part-away", front.give(batch))
        tries.judge("none is at the wrong place", not whole.cover() and not third.cover() and not parts[1].cover(), (whole.cover(), third.cover()))
        # The second part moves, and the front is told by a signal where it is.
        with serving(tries, tables([parts[0], whole]), "front", is_front=True) as front:
            front.set(tables(parts))
            front.ran.send_signal(signal.SIGHUP)
            tries.judge("a part that moved", front.waits_for(lambda: front.get("/readyz").status == 200), front.get("/readyz"))
            tries.judge("all is taken", front.give(batch).status == 200 and len(front.cover()) == len(SOURCES), front.cover())

            def refusals() -> list[str]:
                return [it["why"] for it in front.log() if it.get("message") == "the settings stay as they were"]

            lost = f'[[peers]]\nname = "peer"\nurl = "{whole.url}"\ntoken_file = "{tries.folder}/none"\n'
            for what, text, why in (
                ("fewer parts", tables(parts[:1]), "as many"),
                ("more parts", tables([*parts, third]), "as many"),
                ("no parts", QUICK, "no database"),
                ("none, and a database", f'db = "{whole.db}"\n{QUICK}', "as many"),
                ("other places, and a token that isn't there", tables([third, whole]) + lost, "none"),
            ):
                before = len(refusals())
                front.set(text)
                front.ran.send_signal(signal.SIGHUP)
                tries.judge(f"{what}: refused", front.waits_for(lambda: len(refusals()) > before) and why in refusals()[-1], front.log()[-2:])
                tries.judge(f"{what}: all stays", front.get("/readyz").status == 200 and front.give(batch).status == 200, front.get("/readyz"))
        one = tries.site("both", 'db = "x"\n[[parts]]\nurl = "http://127.0.0.1:1"\n', is_front=True)
        with contextlib.suppress(OSError):
            one.start()
        tries.judge("a front with a database", one.ran.wait(8) == 1 and "db is the business of the parts" in one.text_of_log(), one.text_of_log())


def names_part(batch: list[dict[str, Any]], told: Told) -> bool:
    """Whether an answer refuses the events of part 1 of 4 alone, and says of which sources these are."""
    own = sorted({it["source"] for it in batch if part_of(it["source"], 4) == 1}, key=str.encode)
    said = told.json
    refused = [(it["part"], it["sources"], it["of"]) for it in said.get("parts", [])]
    others = len(batch) - len(own)
    return (told.problem, told.status, refused, said["new"], said["repeated"]) == ("part-away", 503, [(1, own, len(own))], others, 0)


def file_of(site: Site) -> tuple[bytes, list[str], int]:
    """A site's database, what lies beside it, and when it was written."""
    with open(site.db, "rb") as file:
        return file.read(), sorted(it for it in os.listdir(site.folder) if it.startswith("site.db")), os.stat(site.db).st_mtime_ns


def test_part_that_moves(tries: Tries) -> None:
    """A part moves while events of all parts come: those of the others are taken all the while, and no event is lost or there twice."""
    with region(tries, 4) as (parts, (front,)), serving(tries, QUICK, "whole") as whole:
        # Two give events of all parts, and two of all but the one that moves.
        sources = [[f"/{at}/{it}" for it in range(20)] for at in range(4)]
        mixed = [Producer(front, it) for it in sources[:2]]
        others = [Producer(front, [it for it in own if part_of(it, 4) != 1]) for own in sources[2:]]
        for it in (*mixed, *others):
            it.start()
        tries.judge("events come", front.waits_for(lambda: all(len(it.told) > 9 for it in (*mixed, *others))))
        tries.judge("the part ends", parts[1].stop() == 0)
        gone, left = time.monotonic(), file_of(parts[1])
        moved = tries.site("moved", f'part = "1/4"\n{QUICK}')
        shutil.copy(parts[1].db, moved.db)
        told = front.waits_for(lambda: all(it.since(gone) > 9 for it in (*mixed, *others)))
        tries.judge("others go on while it is nowhere", told, [it.since(gone) for it in (*mixed, *others)])
        back = time.monotonic()
        moved.start()
        front.set(tables([parts[0], moved, *parts[2:]]))
        front.ran.send_signal(signal.SIGHUP)
        tries.judge("all is taken again", front.waits_for(lambda: all(it.told[-1][2].status == 200 and it.since(back) > 9 for it in mixed)))
        for it in (*mixed, *others):
            it.over.set()
            it.join()
        meanwhile = sum(it.since(gone) - it.since(back) for it in others)
        tries.judge("other parts' events were all taken", not any(it.batches(False) for it in others) and meanwhile > 19, meanwhile)
        refused = [(batch, answer) for it in mixed for _, batch, answer in it.told if answer.status != 200]
        tries.judge("what was refused is that part's", len(refused) > 19 and all(names_part(*it) for it in refused), refused[:1])
        kept = {(one["source"], one["id"]) for it in (*mixed, *others) for batch in it.batches(True) for one in batch}
        has = [(it["source"], it["id"]) for it in map(json.loads, front.get("/shown").body.splitlines())]
        tries.judge("what was acknowledged is there", kept <= set(has), sorted(kept - set(has))[:9])
        again = [front.give(batch) for batch, _ in refused]
        lacked = sum(part_of(one["source"], 4) == 1 for batch, _ in refused for one in batch)
        tries.judge("given again, all is taken", {it.status for it in again} == {200}, again[:1])
        tries.judge("which is what that part lacked", sum(it.json["new"] for it in again) == lacked, (len(again), lacked))
        every = [one for it in (*mixed, *others) for _, batch, _ in it.told for one in batch]
        for at in range(0, len(every), 1000):
            whole.give(every[at : at + 1000])
        tries.judge("all is as in one site", not differences(front, whole), differences(front, whole))
        tries.judge("each event is there once", front.get("/cover").headers["site-events"] == str(len(every)), len(every))
        came = moved.get("/arrivals?after=0&limit=2000").body.splitlines()
        tries.judge("each came once to that part", len(came) == len(set(came)) == sum(part_of(it["source"], 4) == 1 for it in every), len(came))
        tries.judge("the file of before isn't written", file_of(parts[1]) == left, file_of(parts[1])[1:])
        # Longer than whoever looked after the place of before would rest.
        time.sleep(0.6)
        said = [it["message"] for it in front.log() if it.get("part") == "1/4"]
        tries.judge("it is looked for there alone", said.count("the part is away") == 1 and front.get("/readyz").status == 200, said)
        tries.judge("it ends well", moved.stop() == 0, moved.text_of_log()[-800:])


def test_two_fronts_at_once(tries: Tries) -> None:
    """The same events given to two fronts at the same time are kept once, and both acknowledge them."""
    with region(tries, 2, 2) as (_, fronts), ThreadPoolExecutor(2) as pool:
        for number in range(1, 21):
            batch = [event(number, it) for it in SOURCES]
            giving = [pool.submit(it.give, batch) for it in fronts]
            told = [it.result() for it in giving]
            fresh = [it.json["new"] for it in told]
            tries.judge(f"batch {number}", {it.status for it in told} == {200} and sum(fresh) == len(SOURCES), told)
        for it in fronts:
            tries.judge("each once", it.cover() == {at: [[1, 20]] for at in SOURCES} and it.get("/kinds").body == b'["t",340]\n', it.cover())


def test_tls_before_parts(tries: Tries) -> None:
    """A front and its parts over TLS, by an authority of their own and a token; what another authority signed is no part."""
    if why := Authority.lack(str(tries.program)):
        pytest.skip(why)
    own, other = (Authority(f"{tries.folder}/{tries.what}-{it}") for it in ("own", "other"))
    batch = [event(1, it) for it in SOURCES]
    with contextlib.ExitStack() as stack:
        parts = [stack.enter_context(serving(tries, f'part = "{it}/2"\n{QUICK}', f"part{it}", authority=own)) for it in range(2)]

        def settings(by: Authority) -> str:
            """A front's, which holds what an authority signed for its parts."""
            rows = "".join(f'[[parts]]\nurl = "{it.url}"\ntoken_file = "{own.folder}/token"\n' for it in parts)
            return QUICK.replace("[sync]\n", f'[sync]\nca = "{by.folder}/ca.pem"\n') + rows

        whole = stack.enter_context(serving(tries, QUICK, "whole"))
        front = stack.enter_context(serving(tries, settings(own), "front", is_front=True, authority=own))
        for it in (front, whole):
            tries.judge("events over TLS", it.give(batch).status == 200, it.give(batch))
        tries.judge("its answers", not differences(front, whole), differences(front, whole))
        tries.judge("each part has some", all(it.cover() for it in parts), [it.cover() for it in parts])
        wrong = stack.enter_context(serving(tries, settings(other), "wrong", is_front=True, authority=own))
        told = wrong.give([event(2)])
        tries.judge("another authority", told.problem == "part-away" and {it["part"] for it in told.json["parts"]} <= {0, 1}, told)
        tries.judge("no event came", front.cover() == whole.cover(), front.cover())


def test_tokens_of_parts(tries: Tries) -> None:
    """The front has a token of its own for its parts, and clients have theirs for the front."""
    file = f"{tries.folder}/front.token"
    with open(file, "w", encoding="ascii") as out:
        out.write("of the front\n")
    own = f'[[tokens]]\nname = "front"\nroles = ["write", "read", "peer"]\nfile = "{file}"\n'
    with contextlib.ExitStack() as stack:
        parts = [stack.enter_context(serving(tries, f'part = "{it}/2"\n{QUICK}{own}', f"part{it}")) for it in range(2)]
        rows = "".join(f'[[parts]]\nurl = "{it.url}"\ntoken_file = "{file}"\n' for it in parts)
        sha = hashlib.sha256(b"till").hexdigest()
        clients = f'[[tokens]]\nname = "till"\nroles = ["write", "read"]\nsources = ["/shop/*"]\nsha256 = "{sha}"\n'
        front = stack.enter_context(serving(tries, QUICK + rows + clients, "front", is_front=True))
        till = {**MANY, "Authorization": "Bearer till"}
        shops = [event(1, f"/shop/{it}") for it in range(6)]
        tries.judge("without a token", front.give(shops).status == 401)
        tries.judge("with one", front.give(shops, till).json == {"events": 6, "new": 6, "repeated": 0})
        told = front.give([*shops, event(1, "/north")], till)
        tries.judge("of another source", told.problem == "source" and told.json["source"] == "/north", told)
        tries.judge("a question", front.ask("GET", "/kinds", headers=till).body == b'["t",6]\n')
        tries.judge("a role that it hasn't", front.ask("POST", "/delta", "{}", till).problem == "role")
        bare = stack.enter_context(serving(tries, tables(parts), "bare", is_front=True))
        told = bare.get("/readyz")
        tries.judge("a front without its token", told.problem == "part-away" and "401" in told.json["detail"], told)
        tries.judge("is refused nothing itself", bare.give(shops).problem == "part-away", bare.give(shops))
        # The token is another one, in the same file.
        with open(file, "w", encoding="ascii") as out:
            out.write("another")
        for it in parts:
            it.ran.send_signal(signal.SIGHUP)
        tries.judge("the token of before", front.waits_for(lambda: "401" in front.get("/readyz").body.decode()), front.get("/readyz"))
        front.ran.send_signal(signal.SIGHUP)
        tries.judge("a token's file is read again", front.waits_for(lambda: front.get("/readyz").status == 200), front.get("/readyz"))
        tries.judge("and events are taken", front.give([event(2, it["source"]) for it in shops], till).json["new"] == 6)


def test_large_answers(tries: Tries) -> None:
    """A front joins answers up to its limit, and says so beyond it; a body that has no room is refused as by a site."""
    with contextlib.ExitStack() as stack:
        parts = [stack.enter_context(serving(tries, f'part = "{it}/2"\n{QUICK}', f"part{it}")) for it in range(2)]
        settings = f"{tables(parts)}[limits]\nanswer_bytes = 20000\nbody_bytes = 100000\nwaiting_bytes = 100000\nwaiting_ms = 100\n"
        front = stack.enter_context(serving(tries, settings, "front", is_front=True))
        front.give([event(1, it, data="x" * 2000) for it in SOURCES])
        told = front.get("/shown")
        tries.judge("an answer beyond the limit", told.problem == "too-large-answer" and told.status == 507, told)
        tries.judge("others go on", front.get("/kinds").body == f'["t",{len(SOURCES)}]\n'.encode(), front.get("/kinds"))
        told = front.give("[" + " " * 100000 + "]", MANY)
        tries.judge("a body that is too large", told.problem == "too-large", told)
        said, _ = front.raw(HEAD + b"Content-Length: 90000\r\n\r\n" + b" " * 10, seconds=1)
        tries.judge("a body that waits holds nobody up", front.give(event(2, "/a")).status == 200, said)


def test_refusals_of_parts(tries: Tries) -> None:
    """What a part refuses is told by the front: that the body be smaller, or why it can't be taken now."""
    with contextlib.ExitStack() as stack:
        small = "[limits]\nbody_bytes = 1000\nwaiting_bytes = 1000\n"
        sha = hashlib.sha256(b"reader").hexdigest()
        reader = f'[[tokens]]\nname = "reader"\nroles = ["read", "peer"]\nsha256 = "{sha}"\n'
        file = f"{tries.folder}/reader.token"
        with open(file, "w", encoding="ascii") as out:
            out.write("reader")
        for what, more, status in (("too large", small, 413), ("a role that is lacking", reader, 503)):
            part = stack.enter_context(serving(tries, f'part = "0/1"\n{QUICK}{more}', "part"))
            token = f'token_file = "{file}"\n' if more == reader else ""
            front = stack.enter_context(serving(tries, tables([part]) + token, "front", is_front=True))
            told = front.give([event(it, data="x" * 300) for it in range(1, 6)])
            tries.judge(f"{what}: refused", told.status == status and told.problem == "part-away" and told.json["new"] == 0, told)
            why = told.json["parts"][0]
            tries.judge(f"{what}: told", why["sources"] == ["/a"] and ("413" if status == 413 else "403") in why["why"], told)
            tries.judge(f"{what}: ready all the same", front.get("/readyz").status == 200 and front.get("/kinds").body == b"")


def test_ring(tries: Tries) -> None:
    """Regions of four parts, of three, and of one site come to one view, with events of one number and id too."""
    chance = random.Random(11)
    with region(tries, 4, name="four") as (fours, (four,)), region(tries, 3, name="three") as (threes, (three,)), serving(tries, QUICK, "one") as one:
        ring, parts = [four, three, one], [fours, threes, list[Site]()]
        for at, it in enumerate(ring):
            it.give(random_events(chance, 200))
            it.give([event(number, f"/long/{at}/{number % 5}") for number in range(1, 2500)])
            it.give([event(7, "/both", data=at)])
        for at, it in enumerate(ring):
            of = ring[(at + 1) % 3]
            it.set(f'{tables(parts[at])}[[peers]]\nname = "next"\nurl = "{of.url}"\n')
            it.ran.send_signal(signal.SIGHUP)

        def same() -> bool:
            return len({it.get("/summary").body for it in ring}) == 1

        tries.judge("one summary", one.waits_for(same, 60), [it.get("/status").json["peers"] for it in ring])
        for it in ring[:2]:
            tries.judge("all answers are the same", not differences(it, one), differences(it, one))
        conflict = [json.loads(it) for it in one.get("/conflicts").body.splitlines()]
        tries.judge("with the conflict", any(it["source"] == "/both" and len(it["events"]) == 3 for it in conflict), conflict[:3])

        def sees(site: Site) -> Any:
            return site.get("/status").json["peers"]["next"]

        tries.judge("each sees that", one.waits_for(lambda: all(sees(it)["equal"] for it in ring)), [sees(it) for it in ring])
        one.give(event(1, "/last"))
        began = time.monotonic()
        tries.judge("an event goes round", one.waits_for(same, 10), time.monotonic() - began)


def test_parts_as_peers(tries: Tries) -> None:
    """Regions of as many parts come to one view part by part, without their fronts."""
    with region(tries, 2, name="north") as (norths, (north,)), region(tries, 2, name="south") as (souths, (south,)):
        chance = random.Random(3)
        for it in (north, south):
            it.give(random_events(chance, 100))
        for at, pair in enumerate(zip(norths, souths)):
            for it, of in (pair, pair[::-1]):
                it.set(f'part = "{at}/2"\n{QUICK}[[peers]]\nname = "peer"\nurl = "{of.url}"\n')
                it.ran.send_signal(signal.SIGHUP)
        tries.judge("one view", north.waits_for(lambda: not differences(north, south)), differences(north, south))


def disturb(chance: random.Random, sites: list[Site], over: threading.Event, notes: list[str]) -> None:
    """Kills, ends or stops a part or a front now and then, and starts it again."""
    while not over.wait(chance.uniform(0.1, 0.5)):
        site, how = chance.choice(sites), chance.choice(TROUBLES)
        notes.append(f"{site.title} {how.name}")
        if how == signal.SIGSTOP:
            site.ran.send_signal(how)
            over.wait(chance.uniform(0.1, 0.6))
            site.ran.send_signal(signal.SIGCONT)
        else:
            site.stop(how)
            site.start()


def give_until_taken(fronts: list[Site], batch: list[dict[str, Any]], until: float) -> bool:
    """Gives a batch to one front after another, until one says that all of it is kept."""
    turn = 0
    while time.monotonic() < until:
        with contextlib.suppress(OSError, http.client.HTTPException):
            told = fronts[turn % len(fronts)].give(batch)
            if told.status == 200:
                return True
        turn += 1
        time.sleep(0.02)
    return False


NGINX = """daemon off;
pid {folder}/pid;
error_log {folder}/error.log;
events {{}}
http {{
    access_log off;
    client_body_temp_path {folder}/body;
    proxy_temp_path {folder}/proxy;
    fastcgi_temp_path {folder}/fastcgi;
    uwsgi_temp_path {folder}/uwsgi;
    scgi_temp_path {folder}/scgi;
    upstream fronts {{ {servers} }}
    server {{
        listen 127.0.0.1:{port};
        location / {{
            proxy_pass http://fronts;
            proxy_set_header Host localhost;
            proxy_next_upstream error timeout non_idempotent;
        }}
    }}
}}
"""


@contextlib.contextmanager
def balancer(folder: str, fronts: list[Site]) -> Iterator[str]:
    """nginx before these, as docs/SCALING.md has it; its address."""
    os.makedirs(folder)
    with socket.socket() as free:
        free.bind(("127.0.0.1", 0))
        port = free.getsockname()[1]
    servers = " ".join(f"server {it.url.removeprefix('http://')} max_fails=0;" for it in fronts)
    with open(f"{folder}/conf", "w", encoding="ascii") as out:
        out.write(NGINX.format(folder=folder, port=port, servers=servers))
    with subprocess.Popen([shutil.which("nginx") or "", "-p", folder, "-e", f"{folder}/error.log", "-c", f"{folder}/conf"]) as ran:
        try:
            yield f"127.0.0.1:{port}"
        finally:
            ran.terminate()


def test_balancer(tries: Tries) -> None:
    """Fronts behind nginx are killed and ended in turn while a client gives events: each is answered, and kept once."""
    if not shutil.which("nginx"):
        pytest.skip("nginx isn't there")
    with region(tries, 2, 2) as (parts, fronts), balancer(f"{tries.folder}/nginx", fronts) as address:
        statuses = list[int]()

        def ask(method: str, path: str, body: str = "") -> int:
            connection = http.client.HTTPConnection(address, timeout=10)
            with contextlib.closing(connection):
                connection.request(method, path, body, MANY)
                answer = connection.getresponse()
                answer.read()
                return answer.status

        tries.judge("it is there", fronts[0].waits_for(lambda: not refuses(lambda: ask("GET", "/healthz"))))
        for turn in range(6):
            front = fronts[turn % 2]
            front.stop((signal.SIGKILL, signal.SIGTERM)[turn % 3 % 2])
            for number in range(turn * 10 + 1, turn * 10 + 11):
                statuses.append(ask("POST", "/events", json.dumps([event(number, f"/c{it}") for it in range(8)])))
            front.start()
        tries.judge("each is answered", statuses == [200] * 60, statuses)
        wanted = {f"/c{it}": [[1, 60]] for it in range(8)}
        for it in fronts:
            tries.judge("each is kept", it.cover() == wanted and it.get("/kinds").body == b'["t",480]\n', it.cover())
        tries.judge("both parts have some", all(it.cover() for it in parts))


def refuses(call: Callable[[], object]) -> bool:
    """Whether nobody answers yet."""
    try:
        call()
    except OSError:
        return True
    return False


def test_kills(tries: Tries) -> None:
    """Parts and fronts are killed, ended and stopped while clients give events: none is lost, and all end with one view."""
    chance, over, notes = random.Random(5), threading.Event(), list[str]()
    with region(tries, 3, 2) as (parts, fronts), serving(tries, QUICK, "whole") as whole:
        whole.set(f'{QUICK}[[peers]]\nname = "front"\nurl = "{fronts[0].url}"\n')
        whole.ran.send_signal(signal.SIGHUP)
        troubles = threading.Thread(target=disturb, args=(chance, [*parts, *fronts], over, notes))
        end = time.monotonic() + 8
        acknowledged: list[list[dict[str, Any]]] = [[] for _ in range(4)]

        def client(at: int) -> None:
            number = 0
            while time.monotonic() < end:
                batch = [event(number + it, f"/c{at}/{source}") for source in range(4) for it in range(1, 6)]
                if not give_until_taken([fronts[at % 2], fronts[1 - at % 2]], batch, end + 30):
                    notes.append(f"client {at} gave up")
                    return
                acknowledged[at] += batch
                number += 5

        clients = [threading.Thread(target=client, args=(at,)) for at in range(4)]
        for thread in (troubles, *clients):
            thread.start()
        for thread in clients:
            thread.join()
        over.set()
        troubles.join()
        tries.judge("no client gave up, and many were disturbed", len(notes) > 4 and not any("gave up" in it for it in notes), notes)
        ready = whole.waits_for(lambda: all(it.get("/readyz").status == 200 for it in fronts), 15)
        tries.judge("all are ready", ready, [it.get("/readyz") for it in fronts])
        wanted = {(it["source"], it["id"]) for batch in acknowledged for it in batch}
        shown = [json.loads(it) for it in fronts[1].get("/shown").body.splitlines()]
        has = {(it["source"], it["id"]) for it in shown}
        tries.judge("no event is lost, none is there that nobody gave", has == wanted and len(wanted) > 100, (len(has), len(wanted), notes))
        same = whole.waits_for(lambda: fronts[0].get("/summary").body == whole.get("/summary").body, 20)
        tries.judge("the peer comes to the same", same, whole.get("/status").json["peers"])
        for it in fronts:
            tries.judge("all answers are the same", not differences(it, whole), differences(it, whole))
