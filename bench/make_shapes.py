#!/usr/bin/env python3
"""Write a batch of events whose sources and numbers come in an order that may be dear.

    bench/make_shapes.py --sources descending > shape.json

Each event has a source of its own where --sources is asked for, and the number 1; with --numbers all
events have one source, and numbers that descend, or that no two of touch and that are shuffled. With
--texts all events have one source and id and different texts; with --subject they have one source and
subject; with --types and --days each event has a type or a day of its own.
The shapes are the same for everybody (the seed is an option).
"""
import argparse
import datetime
import random
import sys


def order(kind: str, count: int, dice: random.Random) -> list[int]:
    places = list(range(count))
    if kind == "descending":
        places.reverse()
    elif kind in ("shuffled", "scattered"):
        dice.shuffle(places)
    return places


def event(place: int, options: argparse.Namespace) -> str:
    """The event of a place in the order that was asked for."""
    key, source, kind, number, more = str(place), "/s", "t", place + 1, ""
    if options.sources:
        source, number = f"/s/{place:06d}", 1
    elif options.numbers == "scattered":
        number = place * 2 + 1
    elif options.texts:
        key = "k"
    elif options.subject:
        more = ',"subject":"s"'
    elif options.types:
        kind = f"t{place:06d}"
    elif options.days:
        more = f',"time":"{datetime.date.min + datetime.timedelta(days=place)}T12:00:00Z"'
    return f'{{"specversion":"1.0","id":"{key}","source":"{source}","type":"{kind}","sequence":"{number:020d}"{more}}}'


def main() -> None:
    parser = argparse.ArgumentParser(description=__doc__, formatter_class=argparse.RawTextHelpFormatter)
    shape = parser.add_mutually_exclusive_group(required=True)
    shape.add_argument("--sources", choices=["ascending", "descending", "shuffled"])
    shape.add_argument("--numbers", choices=["ascending", "descending", "scattered"])
    for name in ("--texts", "--subject", "--types", "--days"):
        shape.add_argument(name, choices=["ascending", "descending", "shuffled"])
    parser.add_argument("--events", type=int, default=240_000)
    parser.add_argument("--seed", type=int, default=1)
    options = parser.parse_args()
    dice = random.Random(options.seed)
    kinds = (options.sources, options.numbers, options.texts, options.subject, options.types, options.days)
    out = sys.stdout
    out.write("[")
    for count, place in enumerate(order(next(filter(None, kinds)), options.events, dice)):
        out.write(",\n" if count else "\n")
        out.write(event(place, options))
    out.write("\n]\n")


main()
