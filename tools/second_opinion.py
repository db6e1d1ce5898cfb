#!/usr/bin/env python3
"""Runs two programs over many small files, many of them at fault, and compares what they print and how they end.

usage: tools/second_opinion.py PROGRAM OTHER [--files N] [--seed N] [--commands COMMAND ..]

The programs are `site` as the gate builds it and the plain Rust program in bench/baseline. Half of the files are made
of a good event by up to three changes: other values, names, times, numbers, encodings, repeated members, cut or garbled
bytes. The other half are batches of good events that meet: few sources, ids, types, subjects and numbers, so that there
are conflicts, repeated events and gaps, and times near the ends of days in many zones; one in ten of these has a change
of the first sort. Each is given to each command, at times with the file before it; the commands are `cover` and `shown`
where none is named. Prints a line for each difference and keeps its files; the exit status is 1 where there was one.
"""
import argparse
import json
import os
import random
import subprocess
import sys
import tempfile
from typing import Any

VALUES = [
    "null",
    "true",
    "false",
    "0",
    "-0",
    "1",
    "-1",
    "1.0",
    "1e2",
    "1e400",
    "2147483647",
    "2147483648",
    "-2147483648",
    "-2147483649",
    "9223372036854775807",
    "18446744073709551615",
    "18446744073709551616",
    '""',
    '"a"',
    '"1.0"',
    '"1"',
    '" "',
    '"\\u0000"',
    '"\\u001f"',
    '"\\u007f"',
    '"\\u009f"',
    '"\\u00a0"',
    '"é"',
    '"\\ud83d\\ude00"',
    '"\\ud83d"',
    '"a\\"b\\\\c\\/d"',
    '"line\\n"',
    "[]",
    "{}",
    "[1,2.5]",
    '{"a":null}',
    '{"b":1,"a":[true,{"d":2,"c":"\\t"}]}',
    '{"a":1,"a":2}',
    "[" * 119 + "]" * 119,
    "[" * 120 + "]" * 120,
    "[" * 121 + "]" * 121,
    "[" * 130 + "]" * 130,
]
NAMES = [
    "id",
    "source",
    "specversion",
    "type",
    "subject",
    "time",
    "datacontenttype",
    "dataschema",
    "sequence",
    "data",
    "data_base64",
    "traceid",
    "a",
    "z9",
    "0",
    "",
    "A",
    "a-b",
    "a_b",
    "é",
    " a",
    "data1",
]
TIMES = [
    "2024-02-29T23:59:60Z",
    "2023-02-29T00:00:00Z",
    "1900-02-29T00:00:00Z",
    "2000-02-29t12:00:00.5z",
    "0000-01-01T00:00:00Z",
    "0000-01-01T00:00:00+00:01",
    "0000-01-01T00:01:00+00:01",
    "9999-12-31T23:59:59-00:01",
    "9999-12-31T23:58:59-00:01",
    "9999-12-31T23:59:60Z",
    "2024-13-01T00:00:00Z",
    "2024-00-01T00:00:00Z",
    "2024-01-00T00:00:00Z",
    "2024-04-31T00:00:00Z",
    "2024-01-01T24:00:00Z",
    "2024-01-01T00:60:00Z",
    "2024-01-01T00:00:61Z",
    "2024-01-01T00:00:00",
    "2024-01-01T00:00:00.Z",
    "2024-01-01T00:00:00.1234567890123Z",
    "2024-01-01T00:00:00+24:00",
    "2024-01-01T00:00:00+23:59",
    "2024-01-01T00:00:00-23:60",
    "2024-01-01 00:00:00Z",
    "2024-1-01T00:00:00Z",
    "+2024-01-01T00:00:00Z",
    "2024-01-01T00:00:00Zz",
    "２０24-01-01T00:00:00Z",
    "",
]
SEQUENCES = [
    "00000000000000000001",
    "00000000000000000000",
    "09223372036854775807",
    "09223372036854775808",
    "99999999999999999999",
    "1",
    "000000000000000000001",
    "0000000000000000000a",
    "+0000000000000000001",
    "",
]
# What the good events of a batch share, so that they meet.
SOURCES = ["/orders", "/orders/a", "/Orders", "/é", '/"q"', "/\uffff", "/\U0001f600"]
IDS = ["1", "10", "2", "a1", "é", "\\", "\uffff", "\U0001f600"]
KINDS = ["t.a", "t", "t.b", "T.a", "té", '"t"', "t\uffff", "t\U0001f600"]
SUBJECTS = ["s", "s/1", "S", "é", "\\", "\uffff", "\U0001f600"]
DATES = [
    "2024-02-28",
    "2024-02-29",
    "2024-03-01",
    "2023-02-28",
    "2023-03-01",
    "2000-02-29",
    "1900-02-28",
    "1900-03-01",
    "2024-12-31",
    "2025-01-01",
    "2024-04-30",
    "2024-05-01",
    "2024-07-15",
    "0000-01-02",
    "0000-02-29",
    "9999-12-30",
]
CLOCKS = ["00:00:00", "00:00:59", "00:59:60", "12:00:00.5", "23:59:59", "23:59:60", "23:59:60.999", "23:00:00"]
ZONES = ["Z", "z", "+00:00", "-00:00", "+00:01", "-00:01", "+01:00", "-01:00", "+23:59", "-23:59", "+05:30", "-08:00"]
CODED = ["", "AA==", "AA=", "AA", "AB==", "AAAA", "AAA=", "AAB=", "A A=", "////", "____", "====", "AA==AA==", "é", "aGVsbG8="]
GARBLED = [b"\xef\xbb\xbf", b"\xff", b"\x00", b"\xc0\x80", b"\xed\xa0\x80", b",", b"}", b"]", b" ", b"\n\t", b"//", b'"']


def words(text: str) -> str:
    return json.dumps(text, ensure_ascii=False)


def member(dice: random.Random) -> tuple[str, str]:
    """A name and the JSON text of a value, most often one that some rule speaks of."""
    which = dice.randrange(8)
    if which == 0:
        return "time", words(dice.choice(TIMES))
    if which == 1:
        return "sequence", words(dice.choice(SEQUENCES))
    if which == 2:
        return "data_base64", words(dice.choice(CODED))
    if which == 3:
        return "data", dice.choice(VALUES)
    if which == 4:
        # About as long as a canonical text may be.
        return "subject", words(dice.choice(["x", "é", '"']) * (dice.choice([262_144, 131_072]) - dice.randrange(90, 130)))
    return dice.choice(NAMES), dice.choice(VALUES)


def changed(dice: random.Random, members: list[tuple[str, str]]) -> list[tuple[str, str]]:
    """The members with up to three changes."""
    for _ in range(dice.choice([0, 1, 1, 1, 2, 3])):
        change = dice.randrange(4)
        made = member(dice)
        if change == 0:
            members.pop(dice.randrange(len(members)))
        elif change == 1:
            at = dice.randrange(len(members))
            members[at] = (members[at][0], made[1])
        else:
            members.insert(dice.randrange(len(members) + 1), made)
        if not members:
            break
    return members


def written(dice: random.Random, members: list[tuple[str, str]]) -> str:
    """The JSON text of the object with these members, in their order."""
    space = dice.choice(["", "", "", " ", "\n"])
    return "{" + ("," + space).join(words(name) + ":" + space + value for name, value in members) + "}"


def event(dice: random.Random) -> str:
    """The JSON text of an object that is an event, or nearly one."""
    return written(
        dice,
        changed(dice, [("specversion", '"1.0"'), ("id", '"a1"'), ("source", '"/orders"'), ("type", '"t.a"'), ("sequence", '"%020d"' % dice.randrange(1, 9))]),
    )


def time(dice: random.Random) -> str:
    if dice.random() < 0.1:
        return dice.choice(["0000-01-01T00:00:00Z", "0000-01-01T00:01:00+00:01", "9999-12-31T23:58:59-00:01", "9999-12-31T23:59:60Z", "2000-02-29t12:00:00.5z"])
    return dice.choice(DATES) + dice.choice("TTTt") + dice.choice(CLOCKS) + dice.choice(ZONES)


def good_members(dice: random.Random, variety: int) -> list[tuple[str, str]]:
    """The members of a good event, each of the first few values."""

    def one_of(values: Any) -> str:
        return words(dice.choice(values[:variety]))

    numbers = dice.choice([range(1, 4), range(1, 12), range(1, 40), [2**63 - 1, 2**63 - 3]])
    members = [
        ("specversion", '"1.0"'),
        ("id", one_of(IDS)),
        ("source", one_of(SOURCES)),
        ("type", one_of(KINDS)),
        ("sequence", '"%020d"' % dice.choice(numbers)),
    ]
    for name, value, share in [
        ("subject", one_of(SUBJECTS), 0.7),
        ("time", words(time(dice)), 0.7),
        ("note", dice.choice(["true", "0", '"a"', "null"]), 0.2),
        ("data", '{"b":[1],"a":null}', 0.2),
    ]:
        if dice.random() < share:
            members.insert(dice.randrange(len(members) + 1), (name, value))
    return members


def good_batch(dice: random.Random) -> list[str]:
    """The JSON texts of good events that meet: the same ones again, some with members in another order, and others of
    the same source and id."""
    variety = dice.choice([1, 2, 3, 8])
    drawn = [good_members(dice, variety) for _ in range(dice.choice([1, 2, 3, 5, 8, 13, 30]))]
    for _ in range(dice.choice([0, 1, 3])):
        again = list(dice.choice(drawn))
        dice.shuffle(again)
        drawn.append(again)
    for _ in range(dice.choice([0, 0, 1, 3])):
        drawn.append(dice.choice(drawn) + [("other", dice.choice(["1", "2", "false", '"é"']))])
    dice.shuffle(drawn)
    if dice.random() < 0.1:
        at = dice.randrange(len(drawn))
        drawn[at] = changed(dice, list(drawn[at]))
    return [written(dice, members) for members in drawn]


def file(dice: random.Random) -> bytes:
    if dice.random() < 0.5:
        events = good_batch(dice)
    else:
        count = dice.choice([0, 1, 1, 2, 3])
        events = [event(dice) if dice.random() < 0.95 else dice.choice(VALUES) for _ in range(count)]
    lone = len(events) == 1 and dice.random() < 0.5
    text = (events[0] if lone else "[" + ",".join(events) + "]").encode()
    if dice.random() < 0.05:
        at = dice.randrange(len(text) + 1)
        text = text[:at] if dice.random() < 0.5 else text[:at] + dice.choice(GARBLED) + text[at:]
    return text


def answer(program: str, words: list[str]) -> tuple[int, bytes, bytes]:
    run = subprocess.run([program, *words], stdin=subprocess.DEVNULL, capture_output=True, timeout=60)
    return run.returncode, run.stdout, run.stderr


def main() -> None:
    parser = argparse.ArgumentParser()
    parser.add_argument("programs", nargs=2)
    parser.add_argument("--files", type=int, default=5_000)
    parser.add_argument("--seed", type=int, default=1)
    parser.add_argument("--commands", nargs="+", default=["cover", "shown"])
    options = parser.parse_args()
    dice = random.Random(options.seed)
    folder = tempfile.mkdtemp(prefix="second_opinion.")
    ends: dict[str, int] = {}
    kept: set[str] = set()
    differences, before = 0, ""
    for number in range(options.files):
        path = os.path.join(folder, f"{number}.json")
        with open(path, "wb") as out:
            out.write(file(dice))
        paths = [before, path] if before and dice.random() < 0.25 else [path]
        differs = False
        for command in options.commands:
            one, other = (answer(program, [command, *paths]) for program in options.programs)
            end = one[2].decode().split(": ")[-1].strip() if one[0] else "answered" if one[1] else "answered, no line"
            ends[end] = ends.get(end, 0) + 1
            if one != other:
                differs = True
                print(f'{command} {" ".join(paths)}: {one[0]} {one[2]!r} against {other[0]} {other[2]!r}')
        differences += differs
        kept.update(paths if differs else [])
        if before and before not in kept:
            os.remove(before)
        before = path
    if before and before not in kept:
        os.remove(before)
    for end, count in sorted(ends.items(), key=lambda pair: -pair[1]):
        print(f"{count:7} {end}")
    print(f"{options.files} files, {differences} with a difference")
    if not kept:
        os.rmdir(folder)
    sys.exit(differences > 0)


if __name__ == "__main__":
    main()
