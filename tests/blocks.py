"""The summary of a site's events, made by the rule of docs/FORMATS.md."""
import hashlib
import json
from itertools import groupby
from typing import Iterator

BLOCK = 1_024


def intervals(numbers: list[int]) -> Iterator[list[int]]:
    """The intervals of ascending numbers, each as its first and last one."""
    for _, run in groupby(enumerate(numbers), lambda it: it[1] - it[0]):
        found = [number for _, number in run]
        yield [found[0], found[-1]]


def summary_of(*events: str) -> str:
    """The summary of version 2 of these events, each in its canonical text."""
    texts: dict[str, list[tuple[int, str]]] = {}
    for it in set(events):
        event = json.loads(it)
        texts.setdefault(event["source"], []).append((int(event["sequence"]), it))
    blocks, sources = {}, {}
    for source, found in sorted((source.encode(), found) for source, found in texts.items()):
        name = source.decode()
        sources[name] = list(intervals(sorted({number for number, _ in found})))
        blocks[name] = [
            [place, hashlib.sha256("".join(f"{text}\n" for _, text in block).encode()).hexdigest()]
            for place, block in groupby(sorted(found, key=lambda it: (it[0], it[1].encode())), lambda it: it[0] // BLOCK)
        ]
    return json.dumps({"blocks": blocks, "sources": sources, "version": 2}, separators=(",", ":"), ensure_ascii=False)
