#!/usr/bin/env python3
"""Writes a batch of CloudEvents to standard output, the same one for the same arguments.

usage: tools/make_batch.py [--events N] [--seed N] [--data BYTES] [--nested DEPTH] [--escapes N] [--conflicts SHARE]
           [--gaps SHARE] [--days N] [--subjects N] > FILE
       tools/make_batch.py --region north|south [--events N] > FILE

With no argument: 120,000 events in 30 MB, of five services in four regions, each with a sequence of its own. Numbers
come in a shuffled order, one in fifty is left out and one event in a hundred stands twice. No two different events
have one source and id, and none has a time.

With --region: the events of one of two regions that are to come to one view. Half of them are its own, of the source
/north or /south. The others are of the source /shared, which both regions have, and of those three in a hundred stand
otherwise in each, with another subject: one source and id, two events. No number is left out and no event stands
twice, and they come in an order that has nothing to do with their numbers. 100,000 events are 19 MB.
"""
from __future__ import annotations

import argparse
import datetime
import json
import random
import sys
from typing import Any, Dict, TextIO

KINDS = {
    "orders": ["order.placed", "order.shipped", "order.cancelled"],
    "payments": ["payment.authorised", "payment.captured", "payment.refunded"],
    "stock": ["stock.received", "stock.reserved", "stock.released"],
    "returns": ["return.requested", "return.received"],
    "invoices": ["invoice.issued", "invoice.paid"],
}
REGIONS = ["eu-north", "eu-south", "us-east", "ap-west"]
ZONES = ["Z", "+00:00", "+01:00", "-05:00", "+05:30", "+14:00", "-12:00"]
Event = Dict[str, Any]


def time(dice: random.Random, days: int) -> str:
    """A time of one of that many days from 2026 on, by the clock of some zone."""
    day = datetime.date(2026, 1, 1) + datetime.timedelta(days=dice.randrange(days))
    second = dice.randrange(86_400)
    return f"{day}T{second // 3600:02d}:{second // 60 % 60:02d}:{second % 60:02d}{dice.choice(ZONES)}"


def event(dice: random.Random, service: str, region: str, number: int, options: argparse.Namespace) -> Event:
    made: Event = {
        "specversion": "1.0",
        "id": f"{service}-{region}-{number:012d}-{dice.getrandbits(40):010x}",
        "source": f"/{region}/{service}",
        "type": "com.example." + dice.choice(KINDS[service]),
        "subject": f"customer/{dice.randrange(options.subjects):06d}",
        "sequence": f"{number:020d}",
        "traceid": f"{dice.getrandbits(64):016x}",
        "attempt": dice.randrange(1, 4),
        "replayed": dice.random() < 0.02,
    }
    if options.days:
        made["time"] = time(dice, options.days)
    if options.data:
        made["datacontenttype"] = "application/json"
        lines: list[Event] = []
        while len(json.dumps(lines, separators=(",", ":"))) < options.data - 30:
            sku = f"{dice.getrandbits(32):08x}"
            lines.append({"sku": sku, "count": dice.randrange(1, 20), "gift": dice.random() < 0.1})
        made["data"] = {"lines": lines, "note": "é" * dice.randrange(3)}
    if options.nested:
        made["data"] = dice.randrange(100)
        for _ in range(options.nested):
            made["data"] = [made["data"]]
    if options.escapes:
        made["note"] = '\\"' * options.escapes + f"{dice.getrandbits(32):08x}"
    return made


def batch(options: argparse.Namespace) -> list[Event]:
    """The events of many services."""
    dice = random.Random(options.seed)
    streams = [(service, region) for service in KINDS for region in REGIONS]
    events: list[Event] = []
    numbers = {stream: 0 for stream in streams}
    while len(events) < options.events:
        stream = dice.choice(streams)
        numbers[stream] += 1
        if dice.random() < options.gaps:
            continue
        events.append(event(dice, *stream, numbers[stream], options))
    for place in range(0, len(events), 100):
        events[place] = events[dice.randrange(len(events))]
    for place in dice.sample(range(len(events)), round(options.conflicts * len(events))):
        other = dice.choice(events)
        events[place] = dict(other, attempt=other["attempt"] + 3)
    dice.shuffle(events)
    return events


def event_of_region(source: str, number: int, subject: str) -> Event:
    return {
        "specversion": "1.0",
        "id": f"{source[1:]}-{number * 7919 % 1_000_003:07d}-{number:07d}",
        "source": source,
        "type": f"com.example.{('placed', 'shipped', 'cancelled')[number % 3]}",
        "subject": subject,
        "time": f"2026-01-{number % 28 + 1:02d}T{number % 24:02d}:00:00Z",
        "sequence": f"{number:020d}",
    }


def region(name: str, count: int) -> list[Event]:
    """The events of a region: half are its own, half those that both have, some of which stand otherwise here."""
    shared = count // 2
    differ = shared * 3 // 100
    every = shared // max(1, differ)
    events = [event_of_region(f"/{name}", number, f"customer/{number % 9000:05d}") for number in range(1, count - shared + 1)]
    for number in range(1, shared + 1):
        whose = name if number % every == 0 and number // every <= differ else "both"
        events.append(event_of_region("/shared", number, f"customer/{whose}-{number % 7000:05d}"))
    events.sort(key=lambda it: str(it["id"][-3:] + it["id"]))
    return events


def write(events: list[Event], out: TextIO) -> None:
    out.write("[")
    for place, made in enumerate(events):
        out.write(",\n" if place else "\n")
        out.write(json.dumps(made, separators=(",", ":"), ensure_ascii=False))
    out.write("\n]\n")


def main() -> None:
    parser = argparse.ArgumentParser()
    parser.add_argument("--events", type=int, default=120_000)
    parser.add_argument("--seed", type=int, default=1)
    parser.add_argument("--data", type=int, default=0, help="bytes of data an event, about")
    parser.add_argument("--nested", type=int, default=0, help="how deep data is that is an array in an array")
    parser.add_argument("--escapes", type=int, default=0, help="escaped marks of an attribute")
    parser.add_argument("--conflicts", type=float, default=0, help="share of events that are another one, changed")
    parser.add_argument("--gaps", type=float, default=0.02, help="share of the numbers that are left out")
    parser.add_argument("--days", type=int, default=0, help="days that the events' times are from")
    parser.add_argument("--subjects", type=int, default=40_000, help="customers that the events are about")
    parser.add_argument("--region", choices=["north", "south"], help="the events of one of two regions; only --events goes with it")
    options = parser.parse_args()
    others = {name for name, value in vars(options).items() if value != parser.get_default(name)} - {"events", "region"}
    if options.region and others:
        parser.error(f"--region goes with --events alone, not with --{' and --'.join(sorted(others))}")
    write(region(options.region, options.events) if options.region else batch(options), sys.stdout)


main()
