"""Regions that come to one view, with peers that hang, lie or lose their disk, and clocks that jump."""
import contextlib
import hashlib
import json
import os
import shutil
import signal
import socket
import subprocess
import threading
import time
from concurrent.futures import ThreadPoolExecutor
from typing import Any, Optional

import pytest
from serving import QUESTIONS, Site, Tries, event, serving

pytestmark = [pytest.mark.library, pytest.mark.alone, pytest.mark.slow]


def test_peers(tries: Tries) -> None:
    """Two sites come to one view, with events of one number too; peers are added and taken away by SIGHUP."""
    quick = "[sync]\nevery_ms = 50\nwait_seconds = 3\n"
    with serving(tries, quick, name="north") as north, serving(tries, quick, name="south") as south:

        def same() -> bool:
            texts = [it.get("/summary") for it in (north, south)]
            return texts[0].body == texts[1].body

        def peer(of: Site, url: Optional[str] = None) -> str:
            return f'{quick}[[peers]]\nname = "peer"\nurl = "{url or f"http://127.0.0.1:{of.port}"}"\n'

        def seen(of: Site) -> Any:
            return of.get("/status").json["peers"].get("peer", {})

        north.give([event(it, "/north") for it in range(1, 2601)])
        south.give([event(it, "/south") for it in range(1, 1301)] + [event(7, "/both", data=1)])
        north.give(event(7, "/both", data=2))
        for one, other in ((north, south), (south, north)):
            one.set(peer(other))
            one.ran.send_signal(signal.SIGHUP)
        tries.judge("two sites come to one view", north.waits_for(same), (north.cover(), south.cover()))
        answers = [[it.get(f"/{question}").body for question in QUESTIONS] for it in (north, south)]
        tries.judge("seven answers are the same", answers[0] == answers[1] and len(answers[0][6].splitlines()) == 1, answers[0][6])
        tries.judge("each sees that", north.waits_for(lambda: seen(north).get("equal") and seen(south).get("equal")), (seen(north), seen(south)))
        began = time.monotonic()
        north.give(event(1, "/new"))
        tries.judge("an event goes over at once", north.waits_for(same, 2), time.monotonic() - began)
        # A peer that hangs is told, and holds up nobody.
        south.ran.send_signal(signal.SIGSTOP)
        tries.judge("beside a peer that hangs", north.give(event(2, "/new")).status == 200)
        south.ran.send_signal(signal.SIGCONT)
        tries.judge("it catches up", north.waits_for(same, 5))
        # Settings that can't be used leave what there is.
        north.set("peers = 7\n")
        north.ran.send_signal(signal.SIGHUP)
        kept = north.waits_for(lambda: any(it.get("message") == "the settings stay as they were" for it in north.log()))
        tries.judge("settings at fault stay out", kept and seen(north), north.log()[-3:])
        north.set(quick)
        north.ran.send_signal(signal.SIGHUP)
        tries.judge("a peer is taken away", north.waits_for(lambda: not seen(north)), seen(north))
        tries.judge("its metrics too", b'peer="peer"' not in north.get("/metrics").body)
        sha = hashlib.sha256(b"new").hexdigest()
        north.set(f'webhook_rate = 5\n[[tokens]]\nname = "a"\nroles = ["read", "peer"]\nsha256 = "{sha}"\n{quick}[limits]\nfaults = 1\n')
        north.ran.send_signal(signal.SIGHUP)
        tries.judge("tokens are read again", north.waits_for(lambda: north.get("/kinds").status == 401), north.get("/kinds"))
        told = [it.get("settings") for it in north.log() if "restart" in it.get("message", "")]
        tries.judge("what wants a restart is told", told == ["limits"], told)
        tries.judge("a peer that refuses is told", south.waits_for(lambda: "401" in (seen(south).get("why") or "")), seen(south))
        file = f"{tries.folder}/south.token"
        south.set(f'{peer(north)}token_file = "{file}"\n')
        for token, state in (("old", "down"), ("new", "up")):
            with open(file, "w", encoding="ascii") as out:
                out.write(token)
            south.ran.send_signal(signal.SIGHUP)
            tries.judge(f"a token's file is read again: {token}", south.waits_for(lambda: seen(south).get("state") == state), seen(south))


def test_peer_that_lies(tries: Tries) -> None:
    """A peer that claims what it hasn't, sends what can't be taken, or none of HTTP; the others go on."""
    answers: dict[str, Any] = {}

    def lie(connection: socket.socket) -> None:
        with connection, connection.makefile("rb") as asked:
            while head := asked.readline():
                length = 0
                while (line := asked.readline()) not in (b"\r\n", b""):
                    if line.lower().startswith(b"content-length:"):
                        length = int(line.split(b":")[1])
                asked.read(length)
                path, _, query = head.split()[1].decode().partition("?")
                status, headers, body = answers[path](query) if callable(answers[path]) else answers[path]
                begin = f"HTTP/1.1 {status} X\r\nContent-Length: {len(body)}\r\n{headers}\r\n"
                with contextlib.suppress(OSError):
                    connection.sendall(begin.encode() + body)

    with socket.create_server(("127.0.0.1", 0)) as liar:
        port = liar.getsockname()[1]

        def serve() -> None:
            with contextlib.suppress(OSError):
                while True:
                    threading.Thread(target=lie, args=(liar.accept()[0],), daemon=True).start()

        threading.Thread(target=serve, daemon=True).start()
        cover = b'{"sources":{"/l":[[1,9223372036854775807]]},"version":1}\n'
        answers.update({"/cover": (200, 'ETag: "x"\r\n', cover), "/delta": (204, "", b"")})
        quick = "[sync]\nevery_ms = 20\nbackoff_ms = 20\nbackoff_max_ms = 50\n"
        with serving(tries, f'{quick}[[peers]]\nname = "liar"\nurl = "http://127.0.0.1:{port}"\n') as site:

            def why() -> Any:
                return site.get("/status").json["peers"]["liar"]

            tries.judge("numbers that never come", site.waits_for(lambda: why()["lacking"] == 2**63 - 1 and why()["state"] == "up"), why())
            more = b'{"sources":{"/l":[[1,9223372036854775807]],"/m":[[1,9223372036854775807]]},"version":1}\n'
            answers["/cover"] = (200, 'ETag: "w"\r\n', more)

            def lag() -> Any:
                return site.measured('jumbetai_peer_lacking_numbers{peer="liar"}')

            tries.judge("the lag of such is never below nothing", site.waits_for(lambda: lag() > 2.0**63 + 1), lag())
            for what, path, answer, told in (
                ("events at fault", "/delta", (200, "Site-Next: 1\r\n", b"[{}]\n"), "a page at fault"),
                ("no place for the next page", "/delta", (200, "", json.dumps([event(1, "/l")]).encode() + b"\n"), "where the next one begins"),
                ("no summary", "/cover", (200, 'ETag: "y"\r\n', b"{}"), ""),
                ("another status", "/cover", (500, "", b""), "500"),
                ("no UTF-8", "/cover", (200, 'ETag: "z"\r\n', b"\xff"), "utf-8"),
            ):
                answers[path] = answer
                tries.judge(what, site.waits_for(lambda: why()["state"] == "down" and told in why()["why"]), why())
            tries.judge("the site goes on", site.give(event(1)).status == 200 and list(site.cover()) == ["/a"], site.cover())
            # Pages without end, each of which says that there is one more, and answers without end.
            pages = []

            def endless(query: str) -> Any:
                pages.append(query)
                return 200, f"Site-Next: {int(query.partition('=')[2]) + 1}\r\n", json.dumps([event(1, "/l")]).encode() + b"\n"

            answers.update({"/cover": (200, 'ETag: "v"\r\n', cover), "/delta": endless})
            tries.judge("pages that bring nothing", site.waits_for(lambda: "nothing new" in (why()["why"] or "")) and len(pages) > 60, (why(), len(pages)))
            answers["/cover"] = (200, 'ETag: "u"\r\n', b'{"sources":{"/a":[[1,1]],"/l":[[1,1]]},"version":1}\n')
            asked = len(pages)
            tries.judge(
                "blocks that never are the same", site.waits_for(lambda: why()["state"] == "up" and len(pages) > asked + 501), (why(), len(pages) - asked)
            )
            answers["/cover"] = (200, 'ETag: "t"\r\n', b" " * (65 << 20))
            tries.judge("an answer without end", site.waits_for(lambda: "without end" in (why()["why"] or "")), why())
            tries.judge("the site goes on beside it", site.give(event(2)).status == 200 and site.cover() == {"/a": [[1, 2]], "/l": [[1, 1]]}, site.cover())


def test_clock_that_jumps(tries: Tries) -> None:
    """A clock that is put back and forth by years: events come, peers come to one view, and waits end in their time."""
    fake = "/usr/lib/x86_64-linux-gnu/faketime/libfaketime.so.1"
    if not os.path.exists(fake):
        pytest.skip("libfaketime isn't there")
    clock = f"{tries.folder}/clock"

    def set_clock(shift: str) -> None:
        with open(f"{clock}.new", "w", encoding="ascii") as out:
            out.write(shift)
        os.replace(f"{clock}.new", clock)

    set_clock("+0")
    faking = ["env", f"LD_PRELOAD={fake}", f"FAKETIME_TIMESTAMP_FILE={clock}", "FAKETIME_NO_CACHE=1", "DONT_FAKE_MONOTONIC=1"]
    quick = "[sync]\nevery_ms = 50\nwait_seconds = 2\n"
    with serving(tries, quick, name="south") as south:
        settings = f'{quick}[[peers]]\nname = "south"\nurl = "http://127.0.0.1:{south.port}"\n'
        with serving(tries, settings, name="north", prefix=faking) as north:
            for number, shift in enumerate(("+0", "-300d", "+3000d", "-1d", "+0"), 1):
                set_clock(shift)
                south.give(event(number, "/south"))
                told = north.give(event(number, "/north"))
                tries.judge(f"an event at {shift}", told.status == 200 and told.json["new"] == 1, told)
                tries.judge(f"what the peer has at {shift}", north.waits_for(lambda: north.cover().get("/south") == [[1, number]]), north.get("/status").json)
                tag, began = north.get("/kinds").headers["etag"], time.monotonic()
                told = north.get("/kinds", If_None_Match=tag, Prefer="wait=1")
                tries.judge(f"a wait at {shift}", told.status == 304 and 0.9 < time.monotonic() - began < 3, time.monotonic() - began)
                status = north.get("/status").json
                shown = abs(status["recent"]["until"] - time.time() - {"-300d": -300, "+3000d": 3000, "-1d": -1}.get(shift, 0) * 86400)
                tries.judge(f"/status at {shift}", shown < 30 and status["ready"], status)


def test_backup(tries: Tries) -> None:
    """A backup while events come, and a site that is restored from it."""
    quick = "[sync]\nevery_ms = 50\n"
    with serving(tries, quick, name="south") as south:
        folder = f"{tries.folder}/backups"
        settings = f'backups = "{folder}"\n{quick}[[peers]]\nname = "south"\nurl = "http://127.0.0.1:{south.port}"\n'
        with serving(tries, settings, name="north") as north:
            north.give([event(it, "/first", data="x" * 100) for it in range(1, 2001)])
            over, given = threading.Event(), []

            def client(number: int) -> Any:
                sent = 0
                while not over.is_set():
                    sent += 1
                    told = north.give([event(sent * 10 + it, f"/c{number}") for it in range(10)])
                    given.append(told.status)

            threads = [threading.Thread(target=client, args=(it,)) for it in range(4)]
            for it in threads:
                it.start()
            time.sleep(0.3)
            told = north.ask("POST", "/backup")
            after = north.get("/arrivals?after=0&limit=1")
            over.set()
            for it in threads:
                it.join()
            tries.judge("a backup", told.status == 200 and os.path.isfile(told.json["file"]), told)
            tries.judge("events come meanwhile", set(given) == {200} and after.status == 200, set(given))
            made, has = told.json, int(north.get("/kinds").headers["site-events"])
            tries.judge(
                "its name says the set",
                os.path.basename(made["file"]) == f"{made['events']:012d}-{made['name']}.db" and 2000 <= made["events"] <= has,
                (made, has),
            )
            tries.judge("nothing else is left", os.listdir(folder) == [os.path.basename(made["file"])], os.listdir(folder))
            with ThreadPoolExecutor(4) as pool:
                four = list(pool.map(lambda _: north.ask("POST", "/backup"), range(4)))
            tries.judge("one at a time", {it.status for it in four} <= {200, 409} and any(it.status == 200 for it in four), four)
            last = next(it for it in four if it.status == 200).json
            tag = north.get("/kinds").headers["etag"].strip('"')
            tries.judge("of a set that stays there is one", (last["events"], last["name"]) == (has, tag) and len(os.listdir(folder)) == 2, last)
            text = north.get("/metrics").body
            tries.judge("it is counted", b'jumbetai_backups_total{result="done"}' in text and b"jumbetai_backup_last_success_timestamp_seconds 1" in text, text)
            north_order = b"".join(north.get(f"/arrivals?after={it}").body for it in range(0, made["events"], 2000))
            ran = subprocess.run([str(tries.program), "--db", made["file"], "--check"], capture_output=True, text=True, timeout=8, check=False)
            tries.judge("--check of it", ran.returncode == 0 and f"{made['events']} events" in ran.stdout, ran)
            # The south catches up; then the north loses its disk, and begins with the backup.
            south.set(f'{quick}[[peers]]\nname = "north"\nurl = "http://127.0.0.1:{north.port}"\n')
            south.ran.send_signal(signal.SIGHUP)
            tries.judge("the south catches up", north.waits_for(lambda: north.get("/summary").body == south.get("/summary").body))
            north.stop()
            os.remove(north.db)
            with contextlib.suppress(FileNotFoundError):
                os.remove(f"{north.db}-wal")
            shutil.copy(made["file"], north.db)
            north.set(quick)
            north.start()
            told = north.get("/kinds")
            tries.judge("the restored set", (told.headers["site-events"], told.headers["etag"]) == (str(made["events"]), f'"{made["name"]}"'), told.headers)
            again = b"".join(north.get(f"/arrivals?after={it}").body for it in range(0, made["events"], 2000))
            tries.judge("each event has its number of arrival", again == b"".join(it + b"\n" for it in north_order.split(b"\n")[: made["events"]]))
            tries.judge("behind its end nothing came", north.get(f"/arrivals?after={made['events'] + 1}").problem == "beyond")
            north.set(settings)
            north.ran.send_signal(signal.SIGHUP)
            tries.judge(
                "it catches up",
                north.waits_for(lambda: north.get("/summary").body == south.get("/summary").body and int(north.get("/kinds").headers["site-events"]) == has),
            )
            # What a crash broke off is taken away by the next one, and a folder that can't be written leaves nothing.
            north.stop()
            north.set(settings)
            for partial in (".partial-site.db", ".partial-site.db-wal"):
                with open(f"{folder}/{partial}", "wb") as out:
                    out.write(b"half a copy")
            north.start()
            north.give(event(1, "/last"))
            told = north.ask("POST", "/backup")
            tries.judge("behind a crash", told.status == 200 and not [it for it in os.listdir(folder) if "partial" in it], (told, os.listdir(folder)))
        with serving(tries, f'backups = "{north.db}"\n') as site:
            told = site.ask("POST", "/backup")
            tries.judge("a folder that is none", told.problem == "backup" and told.status == 503, told)
        with serving(tries) as site:
            tries.judge("no folder is set", site.ask("POST", "/backup").problem == "no-backups")
