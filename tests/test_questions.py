"""Questions about files: what each of the seven answers."""
import json
import random
import re

import pytest
from blocks import intervals
from events import QUESTIONS, batch, cover, event, lines
from shell import TOP, Room, answers, refuses, rows


def example(question: str) -> str:
    """What the page of the examples says that a question prints, worked out by hand: the block below its title."""
    with open(f"{TOP}/examples/README.md", encoding="utf-8") as it:
        found = re.search(rf"^## `{question}`$.*?^```\n(.*?)^```$", it.read(), re.M | re.S)
    assert found
    return found[1]


# The examples that were worked out by hand.
test_examples = rows({}, *(answers(f"the example of {it}", f"site {it} '{TOP}/examples/orders.json'", example(it)) for it in QUESTIONS))


# An event of 111 bytes, with another type, with a sequence that is too short, and in another spelling. A lesser id, and a lesser
# source.
FIRST, GREATER, SHORT = event("a1", 1, "t.a", subject="x"), event("a1", 1, "t.b", subject="x"), event("a1", "1", "t.a", subject="x")
SPELLED = r'{"type":"t.a","subject":"x","specversion":"1.0","source":"/orders","sequence":"00000000000000000001","id":"\u0061\u0031"}'
LESSER_ID, LESSER_SOURCE = event("a0", 2, "t.a"), event("b", 1, "t.a", "/")
# Events of one source, with gaps between their numbers and in them.
NUMBERS = batch(event("a", 1), event("b", 2), event("c", 5))
FILES = {
    "empty": "[]",
    "numbers": NUMBERS,
    "more": batch(event("d", 4), event("e", 3)),
    "last": event("z", 2**63 - 1),
    "first": FIRST,
    "spelled": SPELLED,
    "greater": GREATER,
    "keys": batch(FIRST, LESSER_ID, LESSER_SOURCE),
}


def test_length_of_the_first_event() -> None:
    assert len(FIRST) == 111


# Questions.
test_questions = rows(
    FILES,
    answers("no event covers nothing", "site cover empty", f"{cover(0)}\n"),
    answers("a gap between intervals", "site cover numbers", '{"sources":{"/orders":[[1,2],[5,5]]},"version":1}\n'),
    answers("two files fill the gap", "site cover numbers more", f"{cover(5)}\n"),
    answers("the greatest number", "site cover last empty", '{"sources":{"/orders":[[9223372036854775807,9223372036854775807]]},"version":1}\n'),
    answers("no event is shown", "site shown empty"),
    answers("the canonical text is shown", "site shown spelled empty", lines(FIRST)),
    answers("the lesser text is shown, which comes last", "site shown greater first", lines(FIRST)),
    answers("the lesser text is shown, which comes first", "site shown first greater", lines(FIRST)),
    answers("by source, then id", "site shown greater keys first", lines(LESSER_SOURCE, LESSER_ID, FIRST)),
)

# Lines, each read as a file of its own: LF ends them, white space alone is none, a CR before LF is white space.
test_lines = rows(
    {
        "lines": lines(FIRST, NUMBERS),
        "cut.lines": f" \t\r\n\n{GREATER}\r\n[{LESSER_ID}\n,{LESSER_SOURCE}]\n",
        "empty.lines": "\n \n",
        "batch.lines": f"[{NUMBERS}]",
        "bad.lines": f"\n{FIRST}\n3\n{{}}",
        "short.lines": f"{FIRST}\n\n{batch(FIRST, SHORT)}",
        "one": FIRST,
        "-": "[]",
    },
    answers("an event and a batch", "site cover --lines lines", '{"sources":{"/orders":[[1,2],[5,5]]},"version":1}\n'),
    answers("no line but white space", "site cover --lines empty.lines", f"{cover(0)}\n"),
    refuses("lines as one file", "site cover lines", "lines: not JSON"),
    refuses("a text that is cut by a line end", "site cover --lines lines cut.lines", "cut.lines line 4: not JSON"),
    refuses("a batch in a batch", "site gaps --lines batch.lines lines", "batch.lines line 1: event 0: SpecVersion"),
    refuses("the first line at fault", "site shown --lines bad.lines", "bad.lines line 3: not an event or a batch"),
    refuses("the first event at fault of a line", "site kinds --lines short.lines", "short.lines line 3: event 1: BadSequence"),
    refuses("a file that is not there", "site cover --lines lines missing.lines", "missing.lines: cannot read"),
    answers("a file of one event", "site shown --lines one", lines(FIRST)),
    answers("lines on standard input", "site shown --lines - <one", lines(FIRST)),
)

# A hundred files have the answer of one.
test_many_files = rows(
    {"f": FIRST},
    answers("cover of a hundred files", f"site cover {'f ' * 100}", f"{cover(1)}\n"),
    answers("shown of a hundred files", f"site shown {'f ' * 100}", lines(FIRST)),
)


MANY = [event(f"n{it:05d}", it, f"n{it:05d}", subject=f"n{it:05d}", time="2024-02-29T00:00:00Z") for it in range(1, 1501)]
ODD = [event(f"{it:05d}", it) for it in range(1, 3001, 2)]
SOURCES = [event("a", it + 1, source=f"/s{it}") for it in range(1500)]

# Nothing gives up above a size, nor where there is nothing to tell.
test_sizes = rows(
    {"many": batch(*MANY), "odd": batch(*ODD), "sources": batch(*SOURCES), "first": FIRST},
    *(answers(f"{it} of 1,500 types and subjects", f"site {it} many | wc -l", "1500\n") for it in ("kinds", "days", "latest", "shown")),
    answers("cover of one source", "site cover many", f"{cover(1500)}\n"),
    answers(
        "cover of 1,500 intervals", "site cover odd", f'{{"sources":{{"/orders":{[[it, it] for it in range(1, 3001, 2)]}}},"version":1}}\n'.replace(" ", "")
    ),
    answers("gaps of 1,500 intervals", "site gaps odd", f'["/orders",{[[it, it] for it in range(2, 2999, 2)]}]\n'.replace(" ", "")),
    "site take --db sources.db sources; site cover sources >sources.cover; site summary --db sources.db >sources.summary",
    answers("a summary of 1,500 sources is read back", "site delta --db sources.db --all sources.summary"),
    answers("a cover of them too", "site delta --db sources.db --all sources.cover"),
    answers("no day without a time", "site days first"),
    answers("no conflict of one event", "site conflicts first"),
    *(
        refuses(
            f"a comment of {count} letters",
            "site cover large",
            "large: event 0: TooLarge",
            files={"large": event("a", None, source="/s", comment="a" * count)},
        )
        for count in (262_144, 300_000, 1_048_576)
    ),
)


def numbers_of(of: set[int]) -> str:
    """What `cover` prints of the numbers of /orders."""
    return json.dumps({"sources": {"/orders": list(intervals(sorted(of)))}, "version": 1}, separators=(",", ":")) + "\n"


@pytest.mark.parametrize("seed", range(12))
def test_random_numbers_beside_sets(room: Room, seed: int) -> None:
    """Numbers up to 900, some of which come again: their union, gaps and difference, and which are new, as sets of Python have them."""
    dice = random.Random(seed)
    first, second = ([dice.randint(1, 900) for _ in range(125 * (1 + seed % 4))] for _ in range(2))
    room.put({name: batch(*(event(f"{it:04d}", it) for it in of)) for name, of in (("first", first), ("second", second))})
    one, other = set(first), set(second)
    said = {it: room.run(f"site {it}") for it in ("cover first", "cover second", "cover second first", "gaps first", "gaps first second")}
    assert [said[it].out for it in said if "cover" in it] == [numbers_of(one), numbers_of(other), numbers_of(one | other)]
    for words, of in (("gaps first", one), ("gaps first second", one | other)):
        gaps = list(intervals(sorted(set(range(1, max(of))) - of)))
        assert said[words].out == json.dumps(["/orders", gaps], separators=(",", ":")) + "\n"
    assert room.run("site take --db s.db first").out == f"read {len(first)} new {len(one)} repeated {len(first) - len(one)}\n"
    fresh = len(other - one)
    assert room.run("site cover second >c && site delta --db s.db --all c | site cover --lines -").out == (numbers_of(one - other))
    assert room.run("site take --db s.db second").out == f"read {len(second)} new {fresh} repeated {len(second) - fresh}\n"
