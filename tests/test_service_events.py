"""Events over HTTP: what is taken and refused, and what is answered."""
import base64
import hashlib
import http.client
import json
import os
import signal
import socket
import subprocess
import threading
import time
import urllib.parse
from concurrent.futures import ThreadPoolExecutor
from typing import Any

import pytest
from serving import MANY, ONE, QUESTIONS, Told, Tries, event, serving

pytestmark = [pytest.mark.library, pytest.mark.alone, pytest.mark.slow]


def test_content_modes(tries: Tries) -> None:
    """Events in the three content modes, each kept once, and what they come to."""
    with serving(tries) as site:
        told = site.give(event(1))
        tries.judge("an event", (told.status, told.json) == (200, {"events": 1, "new": 1, "repeated": 0}), told)
        tries.judge("the count of the set", told.headers["site-events"] == "1", told)
        told = site.give([event(1), event(2), event(4), event(4)])
        tries.judge("a batch", told.json == {"events": 4, "new": 2, "repeated": 2} and told.headers["site-events"] == "3", told)
        told = site.give([])
        tries.judge("an empty batch", (told.status, told.json) == (200, {"events": 0, "new": 0, "repeated": 0}), told)
        told = site.give(json.dumps(event(5)).encode("utf-8"), {"Content-Type": "Application/CloudEvents+JSON; charset=UTF-8"})
        tries.judge("letters of a media type", told.json["new"] == 1, told)
        binary = {
            **{"ce-specversion": "1.0", "ce-id": "8", "CE-Source": "/b%20%E2%82%AC", "ce-type": "t", "ce-sequence": f"{1:020d}"},
            **{"ce-subject": '"x \\"y\\""', "ce-extra": "7", "Content-Type": "application/json; charset=utf-8"},
        }
        told = site.give('{"a":[9007199254740993,"é"],  "b":{}}'.encode(), binary)
        tries.judge("binary mode", told.status == 200 and told.json["new"] == 1, told)
        shown = [it for it in site.get("/shown").body.decode().splitlines() if "/b" in it]
        line = json.loads(shown[0]) if shown else {}
        is_right = (line.get("source"), line.get("subject"), line.get("extra")) == ("/b €", 'x "y"', "7")
        tries.judge("attributes of headers", is_right and line["datacontenttype"] == "application/json; charset=utf-8", shown)
        tries.judge("numbers of data keep their digits", "9007199254740993" in str(shown), shown)
        for number, (kind, body, member) in enumerate(
            ((("image/png", b"\0\xff", '"data_base64":"AP8="')), ("text/plain", b"hey", '"data":"hey"'), ("text/plain", b"", '"id":"12"')), 10
        ):
            headers = {**binary, "ce-id": str(number), "ce-sequence": f"{number:020d}", "Content-Type": kind}
            told = site.give(body, headers)
            text = site.get("/shown").body.decode()
            tries.judge(f"data of {kind}", told.status == 200 and member in text, (told, text[-500:]))
        lines = site.get("/shown").body
        for it in ({**binary, "Content-Type": "application/json"}, {**binary, "ce-datacontenttype": "a/b"}):
            told = site.give(b"{", it)
            tries.judge("data that isn't what it says", told.problem == "malformed", told)
        told = site.give(b"", {name: value for name, value in binary.items() if name != "ce-sequence"})
        entry = (told.json.get("errors") or [{}])[0]
        tries.judge("a header that is lacking", (entry.get("fault"), entry.get("pointer")) == ("NoSequence", "#/sequence"), told)
        tries.judge("nothing of them is taken", site.get("/shown").body == lines)
        told = site.ask("OPTIONS", "/events")
        tries.judge("what may be sent", told.status == 200 and "cloudevents-batch" in told.headers["accept-post"], told)


def test_faults(tries: Tries) -> None:
    """What is refused, and in which words."""
    with serving(tries) as site:
        site.give(event(1))
        before = site.get("/shown").body
        told = site.give([event(5), {**event(6), "sequence": "6"}, {}, event(7)])
        tries.judge("a batch with faults", told.problem == "events-at-fault" and told.json["faults"] == 2, told)
        errors = told.json["errors"]
        tries.judge("which are at fault", [it["index"] for it in errors] == [1, 2], told)
        first = {name: errors[0].get(name) for name in ("pointer", "fault", "attribute")}
        tries.judge("where and why", first == {"pointer": "#/1/sequence", "fault": "BadSequence", "attribute": "sequence"} and errors[0]["detail"], told)
        told = site.give([event(8), {**event(9), "data": {"a/b": [1, 0.5]}}])
        tries.judge("where in data", [it["pointer"] for it in told.json["errors"]] == ["#/1/data/a~1b/1"], told)
        told = site.give([{}] * 150)
        tries.judge("at most a hundred entries", told.json["faults"] == 150 and len(told.json["errors"]) == 100, told.json["faults"])
        for what, body, headers, name in (
            ("no JSON", "half a fi", ONE, "events-at-fault"),
            ("an array as an event", [event(2)], ONE, "mode"),
            ("an event as a batch", json.dumps(event(2)), MANY, "mode"),
            ("another media type", "{}", {"Content-Type": "application/json"}, "media-type"),
            ("another format of events", "{}", {"Content-Type": "application/cloudevents+avro"}, "media-type"),
            ("another charset", "{}", {"Content-Type": f"{ONE['Content-Type']}; charset=utf-16"}, "media-type"),
            ("a content coding", "{}", {**ONE, "Content-Encoding": "gzip"}, "media-type"),
            ("no media type", "{}", {"Accept": "*/*"}, "media-type"),
            ("two events", json.dumps(event(2)) * 2, ONE, "events-at-fault"),
            ("what is JSON only between others", f"{json.dumps(event(2))}],[{json.dumps(event(3))}", ONE, "events-at-fault"),
        ):
            told = site.give(body if isinstance(body, str) else json.dumps(body), headers)
            tries.judge(what, told.problem == name and ("accept-post" in told.headers) == (name == "media-type"), told)
        for given, want in ((event(9), {"events": 1, "faults": 0}), ([event(9), event(10)], {"events": 2, "faults": 0})):
            told = site.ask("POST", "/check", json.dumps(given), MANY if isinstance(given, list) else ONE)
            tries.judge("check", (told.status, told.json) == (200, want), told)
        told = site.ask("POST", "/check", json.dumps([{}]), MANY)
        tries.judge("check of a fault", told.problem == "events-at-fault" and told.json["errors"][0]["pointer"].startswith("#/0"), told)
        tries.judge("nothing of them is taken", site.get("/shown").body == before)
        for method, path, status, allow in (
            ("DELETE", "/events", 405, "POST, OPTIONS"),
            ("GET", "/events", 405, "POST, OPTIONS"),
            ("PUT", "/delta", 405, "POST"),
            ("POST", "/kinds", 405, "GET, HEAD"),
            ("GET", "/nothing", 404, None),
            ("GET", "/kinds/", 404, None),
        ):
            told = site.ask(method, path)
            tries.judge(f"{method} {path}", told.status == status and told.headers.get("allow") == allow and told.problem, told)
        for path in ("/kinds?min=x", "/arrivals?after=-1"):
            tries.judge(path, site.get(path).status == 400)
        for summary in (b"{", b"\xff", b'{"sources":{},"version":9}', b'{"sources":{"b":[[1,1]],"a":[[1,1]]},"version":1}'):
            told = site.ask("POST", "/delta", summary)
            tries.judge("no summary", told.problem == "summary", told)


def test_questions(tries: Tries) -> None:
    """Answers, one tag for all of them, and waits for a change."""
    with serving(tries) as site:
        site.give([event(it, time="2024-02-29T10:00:00Z") for it in (1, 2, 4)] + [event(2, id="x", data=1)])
        tags = set()
        for it in (*QUESTIONS, "summary"):
            told = site.get(f"/{it}")
            kind = "application/json" if it in ("cover", "summary") else "application/x-ndjson"
            tries.judge(it, told.status == 200 and told.headers["content-type"] == kind and told.headers["site-events"] == "4", told)
            tags.add(told.headers["etag"])
            tries.judge(f"{it}: HEAD", (lambda head: head.status == 200 and not head.body)(site.ask("HEAD", f"/{it}")))
            same = site.get(f"/{it}", If_None_Match=f'"x", W/{told.headers["etag"]}')
            tries.judge(f"{it}: not modified", (same.status, same.body, same.headers["etag"]) == (304, b"", told.headers["etag"]), same)
        summary = site.get("/summary").body
        name = hashlib.sha256(summary.rstrip(b"\n")).hexdigest()
        tries.judge("one tag, the set's name", tags == {f'"{name}"'}, tags)
        tries.judge("what is answered", site.get("/cover").body == b'{"sources":{"/a":[[1,2],[4,4]]},"version":1}\n')
        tries.judge("gaps", site.get("/gaps").body == b'["/a",[[3,3]]]\n')
        tries.judge("kinds", site.get("/kinds").body == b'["t",4]\n')
        tag, began = f'"{name}"', time.monotonic()
        told = site.get("/kinds", If_None_Match=tag, Prefer="wait=1")
        tries.judge("a wait in vain", told.status == 304 and 0.9 < time.monotonic() - began < 3, told)
        with ThreadPoolExecutor(1) as pool:
            waits = pool.submit(lambda: (site.get("/kinds", If_None_Match=tag, Prefer="wait=8"), time.monotonic()))
            time.sleep(0.3)
            began = time.monotonic()
            kept = site.give(event(5))
            told, at = waits.result()
        tries.judge("a wait for a change", told.status == 200 and at - began < 2 and told.headers["etag"] != tag, (told, at - began))
        told = site.get(f"/cover?min={kept.headers['site-events']}", Prefer="wait=8")
        tries.judge("what was given is read", b"[4,5]" in told.body, told)
        began = time.monotonic()
        told = site.get("/cover?min=99", Prefer="wait=1")
        tries.judge("a wait for more than comes", told.status == 200 and 0.9 < time.monotonic() - began < 3, told)
        told = site.ask("POST", "/delta", b'{"sources":{"/a":[[1,2]]},"version":1}')
        tries.judge("a delta by numbers", told.status == 200 and told.headers["site-next"] == "2" and len(json.loads(told.body.splitlines()[0])) == 2, told)
        tries.judge("a delta of none", site.ask("POST", "/delta", site.get("/summary").body).status == 204)
        site.give([event(it, "/many") for it in range(1, 2501)])
        told = site.ask("POST", "/delta", b'{"sources":{},"version":1}')
        count = sum(len(json.loads(it)) for it in told.body.splitlines())
        tries.judge("pages of 2,000", count == int(told.headers["site-next"]) and 2000 <= count < 2100, (count, told.headers))
        told = site.ask("POST", f"/delta?from={count}&limit=100", b'{"sources":{},"version":1}')
        tries.judge("the next page", told.headers["site-next"] == str(count + 100), told)
        answers = {it: site.get(f"/{it}").body for it in (*QUESTIONS, "summary")}
    if not os.path.exists(tries.other):
        tries.skip("the answers of the program", "it isn't built")
        return
    for it, body in answers.items():
        ran = subprocess.run([tries.other, it, "--db", site.db], capture_output=True, timeout=8, check=False)
        tries.judge(f"{it} of the program", (ran.returncode, ran.stdout) == (0, body), ran.stderr)
    ran = subprocess.run(
        [tries.other, "take", "--db", site.db, "-"], input=json.dumps(event(9, "/program")).encode(), capture_output=True, timeout=8, check=False
    )
    site.start()
    tries.judge("what the program took", ran.returncode == 0 and site.cover().get("/program") == [[9, 9]], ran)
    tries.judge("it ends well behind it", site.stop() == 0)


def test_events_of_an_id(tries: Tries) -> None:
    """The events of a source and an id."""
    with serving(tries) as site:
        strange = {"source": "/a b/%C3%A9?x=1&y#z", "id": "1+2 \u00e9\U0001f600"}
        site.give([event(1, data="b"), {**event(1, data="a"), "id": "1"}, event(2), {**event(3), **strange}])

        def get(source: str, id: str, **headers: str) -> Told:
            return site.get(f"/get?{urllib.parse.urlencode({'source': source, 'id': id})}", **headers)

        told = get("/a", "2")
        shown = [it for it in site.get("/shown").body.splitlines() if json.loads(it)["id"] == "2"]
        tries.judge("an event", (told.status, told.body.splitlines()) == (200, shown) and told.headers["content-type"] == "application/x-ndjson", told)
        told = get("/a", "1")
        both = json.loads(site.get("/conflicts").body)["events"]
        tries.judge("a conflict, with what is shown first", [json.loads(it) for it in told.body.splitlines()] == both and both[0]["data"] == "a", told)
        told = get(**strange)
        tries.judge("any letters", told.status == 200 and json.loads(told.body)["id"] == strange["id"], told)
        for source, id in (("/a", "3"), ("/b", "1"), ("", ""), ("/a", "1\n")):
            told = get(source, id)
            tries.judge("none", (told.status, told.problem) == (404, "no-event") and told.headers["site-events"] == "4", told)
        for query in ("", "?source=/a", "?id=1", "?source=%FF&id=1", "?source=/a&id=1&min=x"):
            tries.judge(f"/get{query}", site.get(f"/get{query}").problem == "query", site.get(f"/get{query}"))
        tag = site.get("/kinds").headers["etag"]
        told = get("/a", "2", If_None_Match=tag)
        tries.judge("one tag for all", (told.status, told.headers["etag"]) == (304, tag), told)
        with ThreadPoolExecutor(1) as pool:
            waits = pool.submit(lambda: get("/new", "7", If_None_Match=tag, Prefer="wait=8"))
            time.sleep(0.2)
            site.give(event(7, "/new"))
            told = waits.result()
        tries.judge("a wait for it", told.status == 200 and json.loads(told.body)["source"] == "/new", told)
        tries.judge("what was given is read", get("/new", "7").status == 200)


def test_arrivals(tries: Tries) -> None:
    """The feed of what comes, in the order in which it came, over a restart."""
    with serving(tries) as site:
        site.give([event(3, "/z"), event(1, "/b"), event(9, "/a"), event(1, "/b")])
        order = ["/z", "/b", "/a"]
        told = site.get("/arrivals?after=0")
        lines = [json.loads(it)["source"] for it in told.body.splitlines()]
        tries.judge("an event a line", lines == order and told.headers["site-next"] == "3", told)
        told = site.get("/arrivals?after=1&limit=1")
        tries.judge("from a mark on", json.loads(told.body)["source"] == "/b" and told.headers["site-next"] == "2", told)
        told = site.get("/arrivals?after=3")
        tries.judge("nothing new", (told.status, told.headers["site-next"]) == (204, "3"), told)
        tries.judge("behind the end", site.get("/arrivals?after=4").problem == "beyond")
        with ThreadPoolExecutor(1) as pool:
            waits = pool.submit(lambda: site.get("/arrivals?after=3", Prefer="wait=8"))
            time.sleep(0.2)
            site.give(event(2, "/b"))
            told = waits.result()
        tries.judge("a wait for the next", told.status == 200 and told.headers["site-next"] == "4", told)
        with socket.create_connection(("127.0.0.1", site.port), timeout=5) as it, it.makefile("rb") as said:
            it.sendall(b"GET /arrivals HTTP/1.1\r\nHost: localhost\r\nAccept: text/event-stream\r\nLast-Event-ID: 3\r\n\r\n")
            seen: list[bytes] = []

            def until(mark: bytes) -> None:
                while not any(mark in it for it in seen):
                    seen.append(said.readline())

            until(b"id: 4")
            site.give(event(7, "/b"))
            until(b"id: 5")
            seen.append(said.readline())
            head = b"".join(seen)
            tries.judge("a stream goes on", b"text/event-stream" in head and b'"id":"7"' in seen[-1] and b"id: 3" not in head, seen)
            began = time.monotonic()
            tries.judge("a stream ends with the service", site.stop() == 0 and time.monotonic() - began < 3)
        site.start()
        told = site.get("/arrivals?after=0")
        lines = [json.loads(it)["source"] for it in told.body.splitlines()]
        tries.judge("the same numbers behind a restart", lines == [*order, "/b", "/b"], told)
        site.stop(signal.SIGKILL)
        site.start()
        tries.judge("and behind a kill", site.get("/arrivals?after=0").body == told.body)
        site.give([event(it, "/many") for it in range(1, 2501)])
        told = site.get("/arrivals?after=5")
        tries.judge("at most 2,000", told.headers["site-next"] == "2005" and told.body.count(b"\n") == 2000, told.headers)


def test_events_without_numbers(tries: Tries) -> None:
    """Events that carry no number: each text of a source whose home is here gets one, for ever."""

    def bare(text: Any, source: str = "/here/a", **more: Any) -> dict[str, Any]:
        return {"specversion": "1.0", "id": str(text), "source": source, "type": "t", **more}

    file = f"{tries.folder}/numbers.db"
    there = '[[number]]\nsources = ["/there/*"]\nhome = "https://there.example.com"\n'
    settings = f'numbers = "{file}"\n[[number]]\nsources = ["/here/*"]\n[[number]]\nsources = ["/odd"]\ncarry = true\n{there}'
    with serving(tries, settings) as site:

        def sequences(source: str = "/here/a") -> dict[str, int]:
            lines = [json.loads(it) for it in site.get("/shown").body.splitlines()]
            return {it["id"]: int(it["sequence"]) for it in lines if it["source"] == source}

        told = site.give(bare("x"))
        tries.judge("an event", (told.status, told.json) == (200, {"events": 1, "new": 1, "repeated": 0, "numbered": 1}), told)
        told = site.give(bare("x"))
        tries.judge("the same again", told.json == {"events": 1, "new": 0, "repeated": 1, "numbered": 1}, told)
        told = site.give([bare("y"), event(1, "/counted"), bare("x"), bare("z", "/here/b"), bare("y")])
        tries.judge("a batch of both kinds", told.json == {"events": 5, "new": 3, "repeated": 2, "numbered": 4}, told)
        tries.judge("numbers of a source", sequences() == {"x": 1, "y": 2} and sequences("/here/b") == {"z": 1}, sequences())
        binary = {"ce-specversion": "1.0", "ce-id": "w", "ce-source": "/here/a", "ce-type": "t", "Content-Type": "text/plain"}
        tries.judge("binary mode", site.give(b"hey", binary).json.get("numbered") == 1 and sequences()["w"] == 3, sequences())
        before = site.get("/shown").body
        for what, events, homes in (
            ("another source", [bare(1, "/else")], None),
            ("a source that is numbered elsewhere", [bare(1), bare(2, "/there/x")], {"/there/x": "https://there.example.com"}),
            ("another fault beside", [bare(1), {**bare(2), "type": ""}], None),
            ("a number that is none", [bare(1), {**bare(2), "sequence": "7"}], None),
            ("data that isn't carried", [bare(1, data=1.5)], None),
        ):
            told = site.give(events)
            tries.judge(f"refused: {what}", told.problem == "events-at-fault" and told.json.get("homes") == homes, told)
        tries.judge("nothing of them is taken", site.get("/shown").body == before)
        tries.judge("or numbered", site.give(bare("v")).json["new"] == 1 and sequences()["v"] == 4, sequences())
        told = site.give('{"specversion":"1.0","id":"p","source":"/odd","type":"t","data":{"price":12.50, "n":1e3}}')
        line = next((it for it in site.get("/shown").body.decode().splitlines() if '"/odd"' in it), "{}")
        carried = base64.b64decode(json.loads(line).get("data_base64", ""))
        tries.judge(
            "data as it came",
            told.json.get("numbered") == 1 and carried == b'{"price":12.50, "n":1e3}' and json.loads(line)["datacontenttype"] == "application/json",
            (told, line),
        )
        tries.judge("data as it came, with a number", site.give({**event(2, "/odd"), "data": 0.5}).json.get("new") == 1)
        with ThreadPoolExecutor(16) as pool:
            every = list(pool.map(lambda it: site.give([bare(it, "/here/many"), bare(it + 1, "/here/many")]), range(200)))
        numbers = sequences("/here/many")
        tries.judge(
            "many at once", all(it.status == 200 for it in every) and sorted(numbers.values()) == list(range(1, 202)) and len(numbers) == 201, len(numbers)
        )
        if os.path.exists(tries.other):
            # As behind a stop between the two files, whose event is never given again.
            site.stop()
            ran = subprocess.run(
                [tries.other, "number", "--db", file], input=json.dumps(bare("late", "/here/late")).encode(), capture_output=True, timeout=8, check=False
            )
            site.start()
            tries.judge("what was numbered and not taken", ran.returncode == 0 and sequences("/here/late") == {"late": 1}, (ran, sequences("/here/late")))
            tries.judge("it is told", any(it.get("events") == 1 and "numbered" in it["message"] for it in site.log()), site.log()[-3:])
        # Killed while it numbers: what is given again has the number that it has.
        over = threading.Event()

        def client(number: int) -> Any:
            sent = 0
            while not over.is_set():
                try:
                    if site.give(bare(f"{number}-{sent}", "/here/kill")).status == 200:
                        sent += 1
                except (OSError, http.client.HTTPException):
                    time.sleep(0.02)
            return sent

        with ThreadPoolExecutor(8) as pool:
            clients = [pool.submit(client, it) for it in range(8)]
            for _ in range(3):
                time.sleep(0.3)
                site.stop(signal.SIGKILL)
                site.start()
            over.set()
            sent = sum(it.result() for it in clients)
        numbers = sequences("/here/kill")
        given = site.give(
            [
                bare(f"{number}-{it}", "/here/kill")
                for number in range(8)
                for it in range(max([int(name.split("-")[1]) for name in numbers if name.startswith(f"{number}-")] + [-1]) + 2)
            ]
        )
        numbers = sequences("/here/kill")
        tries.judge(
            "no gap and no double behind kills",
            given.status == 200 and sorted(numbers.values()) == list(range(1, len(numbers) + 1)) and sent <= len(numbers) <= sent + 16,
            (given, sent, len(numbers)),
        )
        tries.judge("no conflict", site.get("/conflicts").body == b"")
    for lacks, text in (("no file", '[[number]]\nsources = ["/a"]\n'), ("a star within", f'numbers = "{file}"\n[[number]]\nsources = ["*a"]\n')):
        with open(f"{tries.folder}/number.toml", "w", encoding="utf-8") as out:
            out.write(f'db = "{tries.folder}/none.db"\n{text}')
        words = [str(tries.program), "--config", f"{tries.folder}/number.toml", "--check"]
        checked = subprocess.run(words, capture_output=True, text=True, timeout=5, check=False)
        tries.judge(f"settings: {lacks}", checked.returncode == 1 and "number" in checked.stderr, checked)
