#!/usr/bin/env python3
"""Sends jumbetaid requests that are nearly well, for a bounded while: bodies, headers, queries, and raw bytes.

    tools/fuzz_service.py [--program FILE] [--seconds N] [--seed N]     by default out/service/jumbetaid, 20 seconds, seed 1

No part of a gate. It has to live, to answer nothing with 5xx, to log no panic, to keep nothing but events, and to open
its database again. Status 1 where it doesn't.
"""
import argparse
import contextlib
import http.client
import json
import os
import random
import socket
import sys
import tempfile
import time
from typing import Any, Union

sys.dont_write_bytecode = True
TOP = os.path.dirname(os.path.dirname(os.path.realpath(__file__)))
sys.path.insert(0, f"{TOP}/tools")
from serving import MANY, ONE, Tries, event  # noqa: E402

EVENT = json.dumps(event(1, "/fuzz", data={"a": "x"})).encode()
COVER = b'{"sources":{"/fuzz":[[1,2],[4,9]]},"version":1}'
KINDS = ("application/json", "text/plain", "image/png", 'a/b; charset="', "application/cloudevents+json;;;", "x/y+json", "")
PATHS = ("/events", "/delta", "/arrivals", "/kinds", "/summary", "/check", "/", "/status", "/metrics", "/backup")


def mutated(dice: random.Random, text: bytes) -> bytes:
    """A text with some bytes other, more or fewer."""
    out = bytearray(text)
    for _ in range(dice.randrange(1, 6)):
        at, what = dice.randrange(len(out) + 1), dice.randrange(5)
        if what == 0 and at < len(out):
            out[at] = dice.randrange(256)
        elif what == 1:
            out[at:at] = bytes(dice.choice(b'[]{}",:\\0 \n\xff%=&') for _ in range(dice.randrange(1, 5)))
        elif what == 2:
            del out[at : at + dice.randrange(1, 9)]
        elif what == 3:
            out[at:at] = out[at : at + 30]
        else:
            out[at:at] = b"[" * dice.choice([1, 130, 5000])
    return bytes(out)


def header_text(dice: random.Random) -> str:
    return bytes(dice.choice([*range(32, 127), *range(128, 256)]) for _ in range(dice.randrange(40))).decode("latin1")


def one(site: Any, dice: random.Random) -> Any:
    """A request, and the status that it is answered with."""
    kind = dice.randrange(6)
    if kind == 0:
        return site.give(mutated(dice, EVENT), ONE).status
    if kind == 1:
        return site.ask("POST", dice.choice(["/events", "/check"]), mutated(dice, b"[%s,%s]" % (EVENT, EVENT)), MANY).status
    if kind == 2:
        headers = {"ce-specversion": "1.0", "ce-id": "1", "ce-source": "/fuzz", "ce-type": "t", "ce-sequence": f"{1:020d}"}
        name = "".join(dice.choice("abcXYZ019-_.~") for _ in range(dice.randrange(1, 9)))
        headers.update({f"ce-{name}": header_text(dice), "Content-Type": dice.choice(KINDS)})
        return site.give(mutated(dice, b'{"a":1}'), headers).status
    if kind == 3:
        query = "".join(dice.choice("afterlimnsourcd=&%+0123456789/") for _ in range(dice.randrange(30)))
        headers = {dice.choice(["Prefer", "If-None-Match", "Authorization", "Last-Event-ID"]): header_text(dice)}
        return site.ask("GET", f"{dice.choice(PATHS)}?{query}", headers=headers).status
    if kind == 4:
        return site.ask("POST", "/delta", mutated(dice, COVER)).status
    raw = bytearray(
        b"POST /events HTTP/1.1\r\nHost: localhost\r\nContent-Type: %s\r\nContent-Length: %d\r\n\r\n%s" % (ONE["Content-Type"].encode(), len(EVENT), EVENT)
    )
    for _ in range(dice.randrange(1, 8)):
        raw[dice.randrange(len(raw))] = dice.randrange(256)
    with socket.create_connection(("127.0.0.1", site.port), timeout=2) as it:
        it.sendall(raw)
        it.shutdown(socket.SHUT_WR)
        said = it.recv(4000)
    return int(said.split()[1]) if said.startswith(b"HTTP/1.1 ") else "closed"


def main() -> int:
    words = argparse.ArgumentParser(description=__doc__, formatter_class=argparse.RawDescriptionHelpFormatter)
    words.add_argument("--program", default=f"{TOP}/out/service/jumbetaid")
    words.add_argument("--seconds", type=int, default=20)
    words.add_argument("--seed", type=int, default=1)
    given = words.parse_args()
    dice, counts = random.Random(given.seed), dict[Union[int, str], int]()
    with tempfile.TemporaryDirectory() as folder, contextlib.ExitStack() as end:
        tries = Tries(folder, os.path.abspath(given.program))
        end.callback(tries.end)
        site = tries.site("fuzz").start()
        until = time.monotonic() + given.seconds
        while time.monotonic() < until:
            try:
                status = one(site, dice)
            except (OSError, http.client.HTTPException, ValueError) as why:
                status = type(why).__name__
            counts[status] = counts.get(status, 0) + 1
        tries.judge("it lives", site.ran.poll() is None)
        tries.judge("nothing is 5xx", not any(isinstance(it, int) and it >= 500 and it != 501 for it in counts), counts)
        shown = site.get("/shown").body
        tries.judge("what is kept are events", all(json.loads(it)["specversion"] == "1.0" for it in shown.splitlines()))
        tries.judge("it ends well", site.stop() == 0)
        tries.judge("no panic", "panicked" not in site.text_of_log())
        site.start()
        tries.judge("it opens again with what it had", site.get("/shown").body == shown)
        site.stop()
    print(f"{sum(counts.values())} requests, {len(shown.splitlines())} events kept; answers {counts}")
    return tries.tell()


if __name__ == "__main__":
    sys.exit(main())
