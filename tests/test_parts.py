"""The parts of a region: to which a source falls, and the answer of the whole from those of the parts."""
import hashlib
import json
import os
import random

import pytest
from events import QUESTIONS, batch, event, lines, page
from shell import As, Has, Room, Row, Said, answers, fails, refuses, rejects, rows

# Questions whose answers show each source of their part, so that no covers stand beside them.
ALONE = ("cover", "shown")
SOURCES = ["/", "/north", "/south", "/süd", '/"quoted"\\', "urn:x:1", *(f"/shop/{it}" for it in range(6))]


def part_of(source: str, count: int) -> int:
    """The first eight bytes of the SHA-256 of the source, the greatest byte first, modulo the count."""
    return int.from_bytes(hashlib.sha256(source.encode()).digest()[:8], "big") % count


def placed(count: int, *sources: str) -> str:
    """The lines of these sources, which stand in the order of their bytes, with their parts."""
    return lines(*(json.dumps([it, part_of(it, count)], ensure_ascii=False, separators=(",", ":")) for it in sources))


def counted(prefix: str, count: int, *sources: str) -> str:
    """The lines of the files of so many parts of events that have these sources, each with its count of events."""
    found = [sum(part_of(source, count) == it for source in sources) for it in range(count)]
    return lines(*(json.dumps([f"{prefix}{it}.json", events], ensure_ascii=False, separators=(",", ":")) for it, events in enumerate(found)))


def random_events(chance: random.Random) -> list[tuple[str, str]]:
    """Events with their sources: some lack numbers before them, stand again, share an id or a number, or have no subject or time."""
    found: list[tuple[str, str]] = []
    for _ in range(chance.randrange(80)):
        source = chance.choice(SOURCES)
        more: dict[str, object] = {}
        if chance.random() < 0.7:
            more["subject"] = chance.choice(["x", "y", "ä", '"'])
        if chance.random() < 0.6:
            more["time"] = f"2024-0{chance.randrange(1, 4)}-1{chance.randrange(3)}T0{chance.randrange(3)}:00:00+01:00"
        kind = chance.choice(["sold", "returned", 'a"b', "ü"])
        found.append((source, event(f"e{chance.randrange(12)}", chance.randrange(1, 15), kind, source, **more)))
        if chance.random() < 0.2:
            found.append(chance.choice(found))
    return found


@pytest.mark.parametrize("count", [1, 2, 4, 7])
@pytest.mark.parametrize("seed", range(4))
def test_whole_of_parts(seed: int, count: int, room: Room) -> None:
    """Each question to the parts, in any order, comes to what it is answered with over the whole; their files are what is printed."""
    chance = random.Random(f"{seed} {count}")
    events = random_events(chance)
    room.put({"whole.json": batch(*(text for _, text in events)), "whole.lines": lines(*(text for _, text in events)), "in/": ""})
    sources = sorted({it for it, _ in events}, key=str.encode)
    assert room.run(f"site part --of {count} whole.json") == Said(0, placed(count, *sources))
    told = counted("in/ä", count, *(source for source, _ in events))
    assert room.run(f"site part --of {count} --into in/ä whole.json") == Said(0, told)
    assert room.run(f"site part --of {count} --into in/l --lines whole.lines") == Said(0, told.replace("ä", "l"))
    assert len(os.listdir(room.at("in"))) == 2 * count
    for it in range(count):
        wanted = page(*(text for source, text in events if part_of(source, count) == it))
        assert room.run(f"site part --of {count} --part {it} whole.json | tee {it}.json") == Said(0, wanted)
        assert set(room.contents(f"in/ä{it}.json", f"in/l{it}.json").values()) == {wanted.encode()}
    order = chance.sample(range(count), count)
    covers = " ".join(f"--cover {it}.cover" for it in order)
    for question in QUESTIONS:
        files = " ".join(f"{it}.{question}" for it in order)
        each = f"for it in {' '.join(map(str, order))}; do site {question} $it.json >$it.{question} || exit; done"
        whole = room.run(f"site {question} whole.json")
        combined = room.run(f"{each}; site combine {'' if question in ALONE else covers} {question} {files}")
        assert (combined, whole.status) == (whole, 0), question


NORTH, LATER, OTHER, SOUTH = (
    event("n1", 1, "sold", "/north", subject="x"),
    event("n3", 3, "sold", "/north", subject="x"),
    event("n3", 3, "returned", "/north", subject="x"),
    event("s1", 1, "sold", "/south", subject="x"),
)
FILES = {
    "a.json": batch(NORTH, LATER, OTHER),
    "b.json": batch(SOUTH),
    "none.json": "[]",
    "bad.json": batch(NORTH, "3"),
    "some.lines": lines(SOUTH, batch(NORTH, LATER)),
}
# The part of each source, and the events of one part.
test_parts = rows(
    FILES,
    answers("the part of each source", "site part --of 4 b.json a.json", placed(4, "/north", "/south")),
    answers("one part", "site part --of 1 a.json b.json", '["/north",0]\n["/south",0]\n'),
    answers("as many parts as may be", "site part --of 65536 a.json", placed(65536, "/north")),
    answers("no event has a source", "site part --of 4 none.json"),
    answers("the parts of lines", "site part --of 4 --lines some.lines", placed(4, "/north", "/south")),
    answers("the events of the one part", "site part --of 1 --part 0 b.json a.json", page(SOUTH, NORTH, LATER, OTHER)),
    answers("of lines, in their order", "site part --of 1 --part 0 --lines some.lines", page(SOUTH, NORTH, LATER)),
    answers("standard input", "site part --of 1 --part 0 - <b.json", page(SOUTH)),
    answers("a part without events", "site part --of 9 --part 8 none.json", page()),
    refuses("a member at fault", "site part --of 2 bad.json", "bad.json: event 1: SpecVersion"),
    refuses("a member at fault, of one part", "site part --of 2 --part 1 b.json bad.json", "bad.json: event 1: SpecVersion"),
    refuses("a line at fault", "site part --of 2 --lines some.lines bad.json", "bad.json line 1: event 1: SpecVersion"),
    refuses("a file that isn't there", "site part --of 2 bad.json missing.json", "missing.json: cannot read"),
    rejects("no count", "site part a.json", Has("--of <N>")),
    rejects("no file", "site part --of 2", Has("<FILE>...")),
    rejects("no part at all", "site part --of 0 a.json", Has("invalid value '0' for '--of <N>'", "a number from 1 to 65536")),
    rejects("more parts than may be", "site part --of 65537 a.json", Has("invalid value '65537' for '--of <N>'")),
    rejects("a count that is no number", "site part --of two a.json", Has("invalid value 'two' for '--of <N>'")),
    rejects("a part behind the last", "site part --of 2 --part 2 a.json", Has("invalid value '2' for '--part <I>'", "below that of --of")),
    rejects("a part that is no number", "site part --of 2 --part one a.json", Has("invalid value 'one' for '--part <I>'")),
    rejects("a database", "site part --of 2 --db x.db a.json", Has("unexpected argument '--db'"), lacks="x.db"),
)

# Of four parts the first has all of the north, the third all of the south.
EACH = counted("p", 4, "/north", "/north", "/north", "/south")
# To root every folder is open.
USER = pytest.mark.skipif(os.geteuid() == 0, reason="root writes into every folder")
# A file has at most 1,024 bytes, and whoever writes more is told so.
SMALL = "trap '' XFSZ; ulimit -f 1; "

# The events of each part in a file of its own.
test_parts_in_files = rows(
    FILES,
    answers("a file for each part", "site part --of 4 --into p a.json b.json", EACH),
    answers("the events of each", "cat p0.json p1.json p2.json p3.json", page(NORTH, LATER, OTHER) + page() + page(SOUTH) + page()),
    answers("they are all that is there", "ls p*", lines(*(f"p{it}.json" for it in range(4)))),
    answers("the same once more", "site part --of 4 --into p a.json b.json", EACH, keeps="p0.json p1.json p2.json p3.json"),
    answers("what has the name is replaced", "ln -sf b.json p0.json; site part --of 4 --into p none.json", counted("p", 4), keeps="b.json"),
    answers("also by a part without events", "cat p0.json p1.json p2.json p3.json", page() * 4),
    answers("of lines", "site part --of 1 --into l --lines some.lines && cat l0.json", '["l0.json",3]\n' + page(SOUTH, NORTH, LATER)),
    answers("no prefix", "site part --of 1 --into '' b.json && cat 0.json", '["0.json",1]\n' + page(SOUTH)),
    answers("a prefix that looks like an option", "site part --of 1 --into=--of b.json && cat ./--of0.json", '["--of0.json",1]\n' + page(SOUTH)),
    answers("a name with a quote and a line feed", r"""site part --of 1 --into $'"\n' none.json""", r'["\"\n0.json",0]' + "\n"),
    answers("a part in the place of the whole", "cp a.json w0.json; site part --of 1 --into w w0.json b.json", '["w0.json",4]\n'),
    answers("it has all", "cat w0.json", page(NORTH, LATER, OTHER, SOUTH)),
    answers("standard input", "site part --of 1 --into i - <b.json && cat i0.json", '["i0.json",1]\n' + page(SOUTH)),
    answers("a thousand parts", "mkdir m; site part --of 1000 --into m/ none.json | wc -l; ls m | wc -l", "1000\n" * 2, is_slow=True),
    refuses("no such folder", "site part --of 2 --into no/p a.json", "no/p0.json: cannot write", lacks="no"),
    refuses("a name with a control character", r"site part --of 2 --into $'no/\t' a.json", r"no/\t0.json: cannot write"),
    refuses("a folder has a part's name", "mkdir q1.json; site part --of 3 --into q a.json", "q1.json: cannot write", lacks="q1.json.new q2.json"),
    answers("the parts before it are there", "site part --of 3 --part 0 a.json | cmp - q0.json"),
    refuses("a folder has the name beside", "mkdir r1.json.new; site part --of 2 --into r a.json", "r1.json: cannot write", lacks="r1.json"),
    refuses("a file beside a folder's name", "site part --of 2 --into a.json/ a.json", "a.json/0.json: cannot write", keeps="a.json"),
    refuses(
        "a folder that is closed",
        "mkdir closed && echo old >closed/p0.json && chmod 555 closed; site part --of 2 --into closed/p a.json",
        "closed/p0.json: cannot write",
        lacks="closed/p0.json.new",
        wants=(USER,),
    ),
    refuses(
        "no room on the disk",
        f"{SMALL}site part --of 4 --into p big.json",
        "p2.json: cannot write",
        files={"big.json": batch(*(event(f"s{it}", it, "sold", "/south") for it in range(1, 20)), NORTH)},
        keeps="p1.json p2.json p3.json",
        lacks="p2.json.new p3.json.new",
    ),
    answers("the part before it is there", "cat p0.json", page(NORTH)),
    refuses("a member at fault", "site part --of 2 --into f b.json bad.json", "bad.json: event 1: SpecVersion", lacks="f0.json f1.json"),
    refuses("a file that isn't there", "site part --of 2 --into f bad.json missing", "missing: cannot read", lacks="f0.json f1.json"),
    fails("the counts to nobody", "site part --of 4 --into o a.json b.json >&-"),
    answers("the files are there all the same", "cat o0.json o2.json", page(NORTH, LATER, OTHER) + page(SOUTH)),
    rejects("one part too", "site part --of 2 --part 0 --into f a.json", Has("'--part <I>' cannot be used with '--into <PREFIX>'"), lacks="f0.json"),
    rejects("no prefix at all", "site part --of 2 a.json --into", Has("a value is required for '--into <PREFIX>'"), lacks="0.json.new"),
    rejects("no count of parts", "site part --into f a.json", Has("--of <N>"), lacks="f0.json"),
)

COVERS = "--cover a.cover --cover b.cover"


def overlaps(words: str, file: str, other: str) -> Row:
    """A refusal since the source stands in both files."""
    return refuses(f"a source in two parts: {words}", f"site combine {words}", f"{file}: Overlap with {other}: /north")


def combines(words: str, question: str, files: str = "a.json b.json") -> Row:
    """An answer as the whole gives it."""
    return answers(words, f"site combine {words}", As(f"site {question} {files}"))


# What is refused of answers, and what isn't.
test_answers_of_parts = rows(
    FILES,
    *(f"site {question} {it}.json >{it}.{question}" for question in QUESTIONS for it in ("a", "b", "none")),
    "head -c -1 b.kinds >cut.kinds; echo '[\"sold\",18446744073709551615]' >most.kinds; printf '\\xff\\n' >odd; sort -r a.shown >turned.shown",
    "site take --db a.db a.json && site summary --db a.db >a.summary",
    combines("cover a.cover b.cover", "cover"),
    combines("shown b.shown none.shown a.shown", "shown"),
    combines(f"{COVERS} latest a.latest b.latest", "latest"),
    combines(f"--cover none.cover {COVERS} kinds none.kinds a.kinds b.kinds", "kinds"),
    combines("--cover a.cover gaps a.gaps", "gaps", "a.json"),
    combines("cover none.cover none.cover", "cover", "none.json"),
    answers("standard input", "site combine cover a.cover - <b.cover", As("site cover a.json b.json")),
    answers("beside shown no cover is read", "site combine --cover missing shown a.shown b.shown", As("site shown a.json b.json")),
    answers("beside cover none is either", "site combine --cover odd cover a.cover", As("site cover a.json")),
    overlaps("cover a.cover b.cover a.cover", "a.cover", "a.cover"),
    overlaps("shown a.shown a.shown", "a.shown", "a.shown"),
    overlaps("--cover a.cover --cover a.cover kinds a.kinds b.kinds", "a.cover", "a.cover"),
    overlaps("--cover b.cover --cover a.cover --cover a.cover days b.days a.days a.days", "a.cover", "a.cover"),
    overlaps("--cover a.cover --cover a.cover gaps a.gaps a.gaps", "a.cover", "a.cover"),
    overlaps("--cover a.cover --cover a.cover latest a.latest b.latest", "a.cover", "a.cover"),
    overlaps(f"{COVERS} latest a.latest a.latest", "a.latest", "a.latest"),
    overlaps(f"{COVERS} conflicts a.conflicts a.conflicts", "a.conflicts", "a.conflicts"),
    refuses("no cover", "site combine kinds a.kinds b.kinds", "0 covers beside 2 answers: CoverCount"),
    refuses("covers too few", "site combine --cover a.cover latest a.latest b.latest", "1 covers beside 2 answers: CoverCount"),
    refuses("covers too many", f"site combine {COVERS} gaps a.gaps", "2 covers beside 1 answers: CoverCount"),
    refuses("answers to another question", f"site combine {COVERS} kinds a.kinds b.latest", "b.latest: NotAnAnswer"),
    refuses("answers in place of covers", "site combine --cover a.cover --cover b.kinds kinds a.kinds b.kinds", "b.kinds: NotACover"),
    refuses("an answer that is no cover", "site combine cover a.cover b.kinds", "b.kinds: NotACover"),
    refuses("a summary of version 2", "site combine cover a.summary", "a.summary: NotACover"),
    refuses("events", "site combine shown a.json", "a.json: NotAnAnswer"),
    refuses("lines in another order", "site combine shown turned.shown", "turned.shown: NotAnAnswer"),
    refuses("an answer that is cut", f"site combine {COVERS} kinds a.kinds cut.kinds", "cut.kinds: NotAnAnswer"),
    refuses("gaps of other events than the cover's", f"site combine {COVERS} gaps a.gaps a.gaps", "a.gaps: NotAnAnswer"),
    refuses("an answer that is no text", "site combine shown a.shown odd", "odd: NotAnAnswer"),
    refuses("an answer to cover that is no text", "site combine cover a.cover odd", "odd: NotACover"),
    refuses("a cover that is no text", "site combine --cover odd kinds a.kinds", "odd: NotACover"),
    refuses("a sum that no count holds", f"site combine {COVERS} kinds a.kinds most.kinds", "the parts: TooMany"),
    refuses("an answer that isn't there", "site combine --cover gone kinds a.kinds missing", "missing: cannot read"),
    refuses("a cover that isn't there", "site combine --cover gone kinds odd", "gone: cannot read"),
    refuses("a name with a line feed", r"cp a.cover $'a\nb'; site combine cover a.cover $'a\nb'", r"a\nb: Overlap with a.cover: /north"),
    rejects("no question", "site combine", Has("<QUESTION>", "<FILE>...")),
    rejects("no answer", "site combine cover", Has("<FILE>...")),
    rejects("no such question", "site combine count a.kinds", Has("invalid value 'count' for '<QUESTION>'", "days or conflicts")),
    rejects("lines", "site combine cover --lines a.cover", Has("unexpected argument '--lines'")),
)
