"""Clients that are slow, large, many or gone, and a service that ends or is killed meanwhile."""
import contextlib
import http.client
import json
import resource
import signal
import socket
import threading
import time
from concurrent.futures import ThreadPoolExecutor
from typing import Any

import pytest
from serving import HEAD, MANY, ONE, Site, Tries, event, serving

pytestmark = [pytest.mark.library, pytest.mark.alone, pytest.mark.slow]


def test_limits(tries: Tries) -> None:
    """Clients that are slow, large, or mean something else than they say."""
    limits = "[limits]\nidle_seconds = 2\nbody_seconds = 2\nbody_bytes = 100000\n"
    with serving(tries, limits) as site:
        whole = json.dumps(event(1)).encode()
        said, took = site.raw(HEAD)
        tries.judge("a slow head", took is not None and took < 4 and not said, (said, took))
        said, took = site.raw(HEAD + b"Content-Length: 100\r\n\r\n{")
        tries.judge("a slow body", said.startswith(b"HTTP/1.1 408") and took is not None and took < 5, (said, took))
        said, took = site.raw(HEAD + b"Content-Length: 100001\r\n\r\n")
        tries.judge("a body that is too long", said.startswith(b"HTTP/1.1 413") and took is not None and took < 2, (said, took))
        said, took = site.raw(HEAD + b"Content-Length: 5000000\r\n\r\n", b"x" * 5_000_000)
        tries.judge("its answer is read by who sends it all", said.startswith(b"HTTP/1.1 413") and took is not None, (said, took))
        said, took = site.raw(HEAD + b"Transfer-Encoding: chunked\r\n\r\n", *[b"4000\r\n" + b"x" * 0x4000 + b"\r\n"] * 8)
        tries.judge("chunks without end", said.startswith(b"HTTP/1.1 413"), (said, took))
        said, took = site.raw(b"GET /kinds HTTP/1.1\r\nHost: localhost\r\n" + b"".join(b"X-%d: %s\r\n" % (it, b"y" * 900) for it in range(90)) + b"\r\n")
        tries.judge("a head of 81 KB", said.startswith(b"HTTP/1.1 431"), said[:200])
        for what, headers in (
            ("200 headers", b"A: b\r\n" * 200),
            ("a head of 8 MB", (b"A: %s\r\n" % (b"b" * 8000)) * 1000),
            ("a name without end", b"A" * 4_000_000),
        ):
            said, took = site.raw(b"GET /kinds HTTP/1.1\r\nHost: localhost\r\n" + headers + b"\r\n")
            tries.judge(what, took is not None and (not said or said.startswith(b"HTTP/1.1 431")), said[:200])
        # What a proxy may take for one request and the service for two, or the other way round.
        behind = b"POST /events HTTP/1.1\r\nHost: localhost\r\n\r\n"
        chunked = b"%x\r\n%s\r\n0\r\n\r\n" % (len(whole), whole)
        for what, lengths in (
            ("length and chunks", b"Content-Length: 5\r\nTransfer-Encoding: chunked\r\n"),
            ("chunks and length", b"Transfer-Encoding: chunked\r\nContent-Length: 5\r\n"),
        ):
            said, took = site.raw(HEAD + lengths + b"\r\n" + chunked + behind)
            tries.judge(what, said.count(b"HTTP/1.1 ") == 1 and took is not None, (said, took))
        for what, lengths in (
            ("two lengths", b"Content-Length: 5\r\nContent-Length: 6\r\n"),
            ("another coding", b"Transfer-Encoding: gzip\r\n"),
            ("no number", b"Content-Length: +5\r\n"),
        ):
            said, took = site.raw(HEAD + lengths + b"\r\n" + chunked + behind)
            tries.judge(what, said.startswith(b"HTTP/1.1 400") and said.count(b"HTTP/1.1 ") == 1, (said, took))
        said, took = site.raw(
            HEAD
            + b"Transfer-Encoding: chunked\r\n\r\n"
            + b"%x\r\n%s\r\n" % (len(whole) // 2, whole[: len(whole) // 2])
            + b"%x\r\n%s\r\n0\r\n\r\n" % (len(whole) - len(whole) // 2, whole[len(whole) // 2 :])
        )
        tries.judge("an event in chunks", b"HTTP/1.1 200" in said, (said, took))
        said, _ = site.raw(
            (HEAD + b"Content-Length: %d\r\n\r\n%s" % (len(whole), whole)) * 2 + b"GET /kinds HTTP/1.1\r\nHost: localhost\r\nConnection: close\r\n\r\n"
        )
        tries.judge("requests behind one another", said.count(b"HTTP/1.1 200 OK") == 3, said)
        said, _ = site.raw(b"\x16\x03\x01\x02\x00\x01\x00\x01\xfc\x03\x03 TLS at a plain port\r\n\r\n")
        tries.judge("no HTTP", said.startswith(b"HTTP/1.1 400") or not said, said)
        tries.judge("nobody else waited", site.give(event(2)).status == 200)
    with serving(tries, "[limits]\nbody_bytes = 33554432\n") as site:
        said, took = site.raw(HEAD + b"Content-Length: 33554433\r\n\r\n")
        is_soon = took is not None and took < 2
        tries.judge("a body of 33,554,433 bytes", said.startswith(b"HTTP/1.1 413") and b"33554432" in said and is_soon, (said, took))


def test_readers_that_do_not_read(tries: Tries) -> None:
    """A client that doesn't read its answers is cut, and holds up nobody."""
    with serving(tries, "[limits]\nidle_seconds = 2\n") as site:
        for part in range(4):
            site.give([event(part * 1000 + it, "/large", data="x" * 900) for it in range(1, 1001)])
        with socket.create_connection(("127.0.0.1", site.port), timeout=8) as it:
            it.setsockopt(socket.SOL_SOCKET, socket.SO_RCVBUF, 4096)
            it.sendall(b"GET /shown HTTP/1.1\r\nHost: localhost\r\n\r\n" * 4)
            began = time.monotonic()
            tries.judge("others are answered meanwhile", site.give(event(1)).status == 200 and time.monotonic() - began < 1)
            gone = site.waits_for(lambda: b"jumbetai_http_connections 1\n" in site.get("/metrics").body, 6)
            tries.judge("it is cut", gone, site.get("/metrics").body[-300:])


def crowd(tries: Tries, site: Site) -> None:
    """Beside a thousand idle connections, and where there is room for no more."""
    with contextlib.ExitStack() as files:
        for _ in range(1000):
            files.enter_context(socket.create_connection(("127.0.0.1", site.port), timeout=5))
        began = time.monotonic()
        tries.judge("beside a thousand idle connections", site.give(event(1)).status == 200 and time.monotonic() - began < 1, time.monotonic() - began)
        for _ in range(60):
            files.enter_context(socket.create_connection(("127.0.0.1", site.port), timeout=5))
        began = time.monotonic()
        tries.judge("where all places are taken", site.give(event(2)).status == 200 and time.monotonic() - began < 2.5, time.monotonic() - began)


def test_crowds(tries: Tries) -> None:
    """A thousand idle connections, and more than there are places."""
    soft, hard = resource.getrlimit(resource.RLIMIT_NOFILE)
    with contextlib.ExitStack() as end:
        end.callback(resource.setrlimit, resource.RLIMIT_NOFILE, (soft, hard))
        resource.setrlimit(resource.RLIMIT_NOFILE, (min(hard, 4096), hard))
        for descriptors in (4096, 1024):
            with serving(tries, prefix=["sh", "-c", f'ulimit -Sn {descriptors} && exec "$@"', "x"]) as site:
                crowd(tries, site)


def test_counts(tries: Tries) -> None:
    """Many clients at once: each answer is exact, and the transactions are fewer than the bodies."""
    with serving(tries) as site:
        local = threading.local()

        def one(number: int) -> Any:
            if not hasattr(local, "connection"):
                local.connection = http.client.HTTPConnection("127.0.0.1", site.port, timeout=10)
            body = json.dumps([event(number % 50 + 1, "/many"), event(number + 100, "/many")])
            if number % 20 == 7:
                body = json.dumps([{}])
            local.connection.request("POST", "/events", body, MANY)
            answer = local.connection.getresponse()
            return answer.status, json.loads(answer.read())

        with ThreadPoolExecutor(32) as pool:
            told = list(pool.map(one, range(600)))
        bad = [it for it in told if it[0] == 400]
        good = [it[1] for it in told if it[0] == 200]
        tries.judge("bodies at fault are refused alone", len(bad) == 30 and len(good) == 570, (len(bad), len(good)))
        sums = [sum(it[name] for it in good) for name in ("events", "new", "repeated")]
        has = sum(last - first + 1 for first, last in site.cover()["/many"])
        tries.judge("counts", sums[0] == 1140 and sums[1] == has and sums[1] + sums[2] == 1140, (sums, has))
        commits = int(site.measured("jumbetai_commits_total"))
        print(f"{len(told)} bodies of 32 clients: {commits} transactions", flush=True)


def test_full_queue(tries: Tries) -> None:
    """A queue that is full is told, and nothing of what was refused is there."""
    with serving(tries, "[limits]\nwaiting_bodies = 1\nwaiting_ms = 1\n") as site:

        def one(number: int) -> Any:
            return site.give([event(number * 200 + it, "/q") for it in range(1, 201)])

        with ThreadPoolExecutor(24) as pool:
            told = list(pool.map(one, range(150)))
        full = [it for it in told if it.status == 429]
        kept = sum(it.json["new"] for it in told if it.status == 200)
        tries.judge("429 says when to come again", full and all(it.problem == "full" and it.headers["retry-after"] == "1" for it in full), len(full))
        has = sum(last - first + 1 for first, last in site.cover()["/q"])
        tries.judge("just what was answered 200 is there", has == kept > 0, (has, kept))


def test_ends(tries: Tries) -> None:
    """SIGTERM in the middle of a take, of waits, and of a body that never ends."""
    with serving(tries, "[limits]\nshutdown_seconds = 3\n") as site:
        body = json.dumps(event(1, "/late")).encode()
        tag = site.get("/kinds").headers["etag"]
        with ThreadPoolExecutor(3) as pool:

            def late() -> tuple[int, bytes]:
                connection = http.client.HTTPConnection("127.0.0.1", site.port, timeout=9)
                connection.putrequest("POST", "/events")
                connection.putheader("Content-Type", ONE["Content-Type"])
                connection.putheader("Content-Length", str(len(body)))
                connection.endheaders()
                connection.send(body[:10])
                time.sleep(1)
                connection.send(body[10:])
                answer = connection.getresponse()
                return answer.status, answer.read()

            waits = pool.submit(lambda: (site.get("/kinds", If_None_Match=tag, Prefer="wait=60").status, time.monotonic()))
            taken, stuck = pool.submit(late), pool.submit(lambda: site.raw(HEAD + b"Content-Length: 9\r\n\r\n{"))
            time.sleep(0.4)
            began = time.monotonic()
            status, took = site.stop(), time.monotonic() - began
            tries.judge("a take that was begun", taken.result()[0] == 200, taken.result())
            tries.judge("a wait ends at once", waits.result()[0] == 304 and waits.result()[1] - began < 1, waits.result())
            tries.judge("a body that never ends is cut", stuck.result()[1] is not None, stuck.result())
            tries.judge("within its time", status == 0 and took < 5, (status, took))
        site.start()
        tries.judge("what was answered is there", site.cover() == {"/late": [[1, 1]]}, site.cover())


def test_kills(tries: Tries) -> None:
    """Clients at a service that is killed again and again: what was acknowledged is there, and nothing else."""
    with serving(tries) as site:
        acked, over = {}, threading.Event()

        def client(number: int) -> Any:
            sent, connection = 1, None
            while not over.is_set():
                try:
                    connection = connection or http.client.HTTPConnection("127.0.0.1", site.port, timeout=5)
                    connection.request("POST", "/events", json.dumps(event(sent, f"/c{number}")), ONE)
                    answer = connection.getresponse()
                    answer.read()
                    if answer.status == 200:
                        acked[number], sent = sent, sent + 1
                except (OSError, http.client.HTTPException):
                    connection = None
                    time.sleep(0.02)

        threads = [threading.Thread(target=client, args=(it,)) for it in range(16)]
        for it in threads:
            it.start()
        lost = 0
        for _ in range(4):
            time.sleep(0.6)
            before = dict(acked)
            site.stop(signal.SIGKILL)
            site.start()
            has = site.cover()
            lost += sum(has.get(f"/c{it}", [[1, 0]])[0][1] < last for it, last in before.items())
        over.set()
        for it in threads:
            it.join()
        has = site.cover()
        tries.judge(
            "nothing that was acknowledged is lost", lost == 0 and acked and all(has[f"/c{it}"][0][1] >= last for it, last in acked.items()), (lost, acked)
        )
        tries.judge("nothing else is there", all(len(it) == 1 and it[0][0] == 1 and it[0][1] <= acked[int(name[2:])] + 1 for name, it in has.items()), has)
