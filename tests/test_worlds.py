"""Random schedules among two to five sites, which the driver plays: each step has to mean what a plain reader takes it for."""
import json
import subprocess
from itertools import groupby, islice
from typing import Iterable, NamedTuple

from blocks import BLOCK, intervals
from events import batch, event, lines
from shell import TOP

DRIVER = f"{TOP}/crates/rows/out/rows"
WORLDS = 1_000


class Event(NamedTuple):
    """An event of the source /orders. As tuples those below are in key order: by id, then by text."""

    id: str
    number: int
    kind: str
    subject: str

    def text(self) -> str:
        return event(self.id, self.number, self.kind, subject=self.subject)


# The first two have one source and id, the first three one number. The last two stand in a block of their own.
EVENTS = [
    Event("a1", 1, "t.a", "x"),
    Event("a1", 1, "t.b", "y"),
    Event("p", 1, "t.a", "x"),
    Event("a2", 2, "t.b", "x"),
    Event("a3", 3, "t.a", "y"),
    Event("a4", 4, "t.a", "y"),
    Event("b1", BLOCK, "t.c", "z"),
    Event("b2", BLOCK + 5, "t.a", "z"),
]


class Dice:
    """Numbers that look random, the same for the same start."""

    def __init__(self, state: int) -> None:
        self.state = state

    def below(self, n: int) -> int:
        self.state = (self.state * 6364136223846793005 + 1442695040888963407) % 2**64
        return (self.state >> 33) % n


class Site:
    """What came to a site, each event once, and how many of the first outlast a restart."""

    def __init__(self) -> None:
        self.came: list[Event] = []
        self.kept = 0

    def take(self, events: Iterable[Event]) -> None:
        for it in events:
            if it not in self.came:
                self.came.append(it)

    def block(self, of: Event) -> list[Event]:
        """Its events of the block of an event, in key order."""
        return sorted(it for it in self.came if it.number // BLOCK == of.number // BLOCK)

    def lacking(self, peer: "Site") -> list[Event]:
        """Its events of those blocks in which a peer has not the same ones, in key order."""
        return sorted(it for it in self.came if self.block(it) != peer.block(it))

    def told(self) -> list[str]:
        """What the driver tells of it. Its answers are worked out from its events in key order, so sites with the same ones answer alike."""
        keys = [list(alike) for _, alike in groupby(sorted(self.came), lambda it: it.id)]
        numbers = sorted({it.number for it in self.came})
        return [
            " ".join(f"{it.id}:{it.kind}" for it in self.came) or "none",
            f"kept {self.kept}",
            *(alike[0].text() for alike in keys),
            *(f'{{"events":{batch(*(it.text() for it in alike))},"id":"{alike[0].id}","source":"/orders"}}' for alike in keys if len(alike) > 1),
            json.dumps({"sources": {"/orders": [*intervals(numbers)]} if numbers else {}, "version": 1}, separators=(",", ":")),
        ]


def step(dice: Dice, sites: list[Site]) -> str:
    """The words of a random step, which the sites have made then."""
    place, to = dice.below(len(sites)), dice.below(len(sites))
    here, there = sites[place], sites[to]
    kind = dice.below(6)
    if kind == 0:
        there.take(here.lacking(there))
        return f"gossip {place} {to}"
    if kind == 1:
        there.take(sorted(here.came))
        return f"scrub {place} {to}"
    if kind == 2:
        there.kept = len(there.came)
        return f"flush {to}"
    if kind == 3:
        del there.came[there.kept :]
        return f"restart {to}"
    names = [dice.below(len(EVENTS)) for _ in range(dice.below(7))]
    there.take(EVENTS[it] for it in names)
    return " ".join([f"deliver {to}", *(f"e{it}" for it in names)])


def world(dice: Dice) -> tuple[list[str], list[str]]:
    """The calls that play a random schedule, and what the driver has to write: each call again, with its answer below it."""
    sites = [Site() for _ in range(2 + dice.below(4))]
    steps = [step(dice, sites) for _ in range(dice.below(30))]
    calls = [f"> schedule w {len(sites)}", *(f"> then w {it}" for it in steps), "> tell w"]
    return calls, [*calls, *(line for it in sites for line in it.told())]


def test_random_worlds() -> None:
    """Each site has what the steps give it, each event once and as they came, keeps what was flushed, and shows, finds in conflict and
    covers what follows from its events."""
    dice = Dice(1)
    front = ["> sites", *(f"> event e{at} {it.id} {it.number} {it.kind} subject={it.subject}" for at, it in enumerate(EVENTS))]
    worlds = [(front, front), *(world(dice) for _ in range(WORLDS))]
    given = lines(*(line for calls, _ in worlds for line in calls))
    ran = subprocess.run([DRIVER], input=given, capture_output=True, text=True, timeout=60, check=True)
    said = iter(ran.stdout.splitlines())
    for _, wanted in worlds:
        assert [*islice(said, len(wanted))] == wanted
    assert not [*said]
