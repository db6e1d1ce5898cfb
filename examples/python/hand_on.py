#!/usr/bin/env python3
"""Hands the events of an outbox on to the service of a region, over HTTP.

    hand_on.py DB URL MARK [--token FILE]      as: hand_on.py orders.db http://127.0.0.1:8087 orders.mark

The file MARK has the number of the last row that was taken; without one it begins at the first row. A page of rows is
given again until the service answers that it is kept, and then the mark moves on: however this ends, nothing is lost,
and what is given twice is kept once. It ends once there are no more rows, with how many events were handed on.
"""
import argparse
import os
import sys
import time
import urllib.error
import urllib.request

import jumbetai
from typing import Optional

# What may be otherwise the next time: too slow, too much at once, and a service that ends or whose disk is full.
LATER = (408, 429, 502, 503, 504)


def read_mark(file: str) -> int:
    if not os.path.exists(file):
        return 0
    with open(file, encoding="ascii") as mark:
        return int(mark.read())


def write_mark(file: str, number: int) -> None:
    with open(f"{file}.new", "w", encoding="ascii") as mark:
        mark.write(f"{number}\n")
        mark.flush()
        os.fsync(mark.fileno())
    os.replace(f"{file}.new", file)


def give(url: str, batch: bytes, token: Optional[str]) -> None:
    """Gives a batch until it is kept. What is refused for what it is ends the program."""
    headers = {"Content-Type": "application/cloudevents-batch+json"}
    if token:
        headers["Authorization"] = f"Bearer {token}"
    for tries in range(sys.maxsize):
        try:
            with urllib.request.urlopen(urllib.request.Request(f"{url}/events", batch, headers), timeout=30):
                return
        except urllib.error.HTTPError as why:
            with why:
                if why.code not in LATER:
                    sys.exit(f"hand_on: {why.code} {why.read().decode(errors='replace')}")
        except OSError as why:
            print(f"hand_on: {why}", file=sys.stderr)
        time.sleep(min(0.1 * 2**tries, 10))


def main() -> None:
    words = argparse.ArgumentParser(description=__doc__, formatter_class=argparse.RawDescriptionHelpFormatter)
    for it in ("db", "url", "mark"):
        words.add_argument(it)
    words.add_argument("--token", metavar="FILE")
    given, token, count = words.parse_args(), None, 0
    if given.token:
        with open(given.token, encoding="utf-8") as file:
            token = file.read().strip()
    try:
        with jumbetai.Outbox(given.db) as outbox:
            for page in outbox.rows(after=read_mark(given.mark)):
                give(given.url, page.json, token)
                write_mark(given.mark, page.last)
                count += page.events
    except jumbetai.Error as why:
        sys.exit(f"hand_on: {given.db}: {why}")
    print(count)


if __name__ == "__main__":
    main()
