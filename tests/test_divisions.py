"""Divisions of a region, each answer worked out by the rule: the part of a source, the events of parts, what answers of parts come to."""
from typing import Sequence

from events import batch, event, lines, page
from shell import Has, Row, answers, refuses, rejects, rows

# Of n parts a source falls to that with the first eight bytes of its SHA-256 as a number, the greatest first, modulo n. There are at most
# 65,536 parts. The numbers are those of Python's hashlib.
SOURCES = {"north": "/north", "south": "/south", "a": "/a", "b": "/b%20€", "orders": "/orders"}
test_part_of_a_source = rows(
    {f"{name}.json": event("1", 1, source=source) for name, source in SOURCES.items()},
    answers("of four parts", "site part --of 4 north.json south.json", '["/north",0]\n["/south",2]\n'),
    answers("of seven", "site part --of 7 a.json", '["/a",3]\n'),
    answers("of sixty-four", "site part --of 64 b.json", '["/b%20€",58]\n'),
    answers("of as many as may be", "site part --of 65536 orders.json", '["/orders",23861]\n'),
    rejects("of one more", "site part --of 65537 orders.json", Has("invalid value '65537' for '--of <N>'", "a number from 1 to 65536")),
)

# Each part has the events of its sources, in the order of the batch.
X1, Y1, Y2 = event("x1", 1, "t.a", "/north"), event("y1", 1, "t.b", "/south"), event("y2", 2, "t.b", "/south")
SOME = batch(Y2, X1, Y1)
test_events_of_parts = rows(
    {"some.json": SOME, "none.json": batch()},
    answers("how many four parts have", "site part --of 4 --into p some.json", '["p0.json",1]\n["p1.json",0]\n["p2.json",2]\n["p3.json",0]\n'),
    answers("which they have", "cat p0.json p1.json p2.json p3.json", page(X1) + page() + page(Y2, Y1) + page()),
    answers("one part has all", "site part --of 1 --into p some.json && cat p0.json", '["p0.json",3]\n' + page(Y2, X1, Y1)),
    answers("no events", "site part --of 2 --into p none.json && cat p0.json p1.json", '["p0.json",0]\n["p1.json",0]\n' + page() * 2),
)


def combine(question: str, parts: int, covers: int) -> str:
    """The command over the files of so many parts, part0 and so on, and so many covers beside them, cover0 and so on."""
    beside, files = (f"--cover cover{it}" for it in range(covers)), (f"part{it}" for it in range(parts))
    return " ".join(["site combine", *beside, question, *files])


def files_of(parts: Sequence[str], covers: Sequence[str]) -> dict[str, str]:
    return {**{f"part{at}": it for at, it in enumerate(parts)}, **{f"cover{at}": it for at, it in enumerate(covers)}}


def whole(what: str, question: str, parts: Sequence[str], out: str, covers: Sequence[str] = ()) -> Row:
    """What the answers of parts come to, with the covers beside them."""
    return answers(what, combine(question, len(parts), len(covers)), out, files=files_of(parts, covers))


def no_whole(what: str, question: str, parts: Sequence[str], why: str, covers: Sequence[str] = ()) -> Row:
    """Why the answers of parts come to nothing."""
    return refuses(what, combine(question, len(parts), len(covers)), why, files=files_of(parts, covers))


def cover(numbers: str) -> str:
    """The answer to `cover` in which sources have these numbers."""
    return f'{{"sources":{{{numbers}}},"version":1}}\n'


def conflict(name: str, source: str, *events: str) -> str:
    """The line of `conflicts` in which these events have one key."""
    return f'{{"events":{batch(*events)},"id":"{name}","source":"{source}"}}'


NOTHING, A3, FIVE = cover(""), cover('"/a":[[1,3]]'), cover('"/a":[[5,5]]')
# The cover of the whole is put together from those of its parts, in any order of them.
test_covers = rows(
    {"some.json": SOME},
    answers("of all events", "site cover some.json", cover('"/north":[[1,1]],"/south":[[1,2]]')),
    whole(
        "of three parts",
        "cover",
        [cover('"/south":[[1,2]]'), NOTHING, cover('"/north":[[1,1]]')],
        cover('"/north":[[1,1]],"/south":[[1,2]]'),
    ),
    whole(
        "of five",
        "cover",
        [cover('"/e":[[1,1]]'), cover('"/a":[[2,3]],"/f":[[1,1]]'), NOTHING, cover('"/b":[[4,4]]'), cover('"/c":[[1,1],[3,3]],"/d":[[9,9]]')],
        cover('"/a":[[2,3]],"/b":[[4,4]],"/c":[[1,1],[3,3]],"/d":[[9,9]],"/e":[[1,1]],"/f":[[1,1]]'),
    ),
    whole("of one", "cover", [A3], A3),
    answers("each event is new", "site take --db new.db some.json", "read 3 new 3 repeated 0\n"),
)

# Refused are a source that stands in two parts, and a text that is no cover: of version 2, not as it is written, or none.
test_no_covers = rows(
    {},
    no_whole(
        "a source of two parts",
        "cover",
        [cover('"/b":[[1,1]]'), cover('"/a":[[1,1]]'), cover('"/b":[[2,2]],"/c":[[1,1]]')],
        "part2: Overlap with part0: /b",
    ),
    no_whole(
        "three such sources",
        "cover",
        [cover('"/a":[[1,1]],"/b":[[1,1]]'), cover('"/c":[[1,1]]'), cover('"/b":[[2,2]],"/c":[[2,2]]'), FIVE],
        "part2: Overlap with part0: /b",
    ),
    no_whole("one cover twice", "cover", [A3, A3], "part1: Overlap with part0: /a"),
    no_whole("a summary of version 2", "cover", [A3, '{"blocks":{},"sources":{},"version":2}\n'], "part1: NotACover"),
    no_whole("sources in another order", "cover", [cover('"/c":[[1,1]],"/b":[[2,2]]')], "part0: NotACover"),
    no_whole("an object without members", "cover", ["{}\n"], "part0: NotACover"),
)

N1, N2 = event("x1", 1, "t.a", "/north", subject="k"), event("x2", 2, "t.a", "/north", subject="k")
S1, S2 = event("y1", 1, "t.b", "/south", subject="k"), event("y2", 2, "t.b", "/south")
# Shown events of parts are put together in key order, in whichever order the parts stand, and a part may have none; and so are latest
# events, by source, then subject.
test_events_of_the_whole = rows(
    {},
    whole("shown by three parts", "shown", [lines(S1, S2), "", lines(N1, N2)], lines(N1, N2, S1, S2)),
    whole("shown by one", "shown", [lines(N1)], lines(N1)),
    whole("shown by one without events", "shown", [""], ""),
    whole("latest of two", "latest", [lines(S1), lines(N2)], lines(N2, S1), [cover('"/south":[[1,1]]'), cover('"/north":[[2,2]]')]),
    whole("latest of one and none", "latest", [lines(N2), ""], lines(N2), [cover('"/north":[[2,2]]'), NOTHING]),
)

# Refused are a source that stands in two parts, and a text that no set of events has for its answer: one that is no event, two texts of
# one key, another order, or two events of one subject.
test_no_events_of_the_whole = rows(
    {},
    no_whole("shown of a source by two parts", "shown", [lines(N1), lines(S1), lines(N2)], "part2: Overlap with part0: /north"),
    no_whole(
        "latest of a source of two parts",
        "latest",
        [lines(N2), lines(N1)],
        "cover1: Overlap with cover0: /north",
        [cover('"/north":[[2,2]]'), cover('"/north":[[1,1]]')],
    ),
    no_whole("what is no event", "shown", [lines(N1), "{}\n"], "part1: NotAnAnswer"),
    no_whole("two texts of one key", "shown", [lines(N1, event("x1", 1, "t.b", "/north", subject="k"))], "part0: NotAnAnswer"),
    no_whole("shown in another order", "shown", [lines(N2, N1)], "part0: NotAnAnswer"),
    no_whole("two latest of one subject", "latest", [lines(N1, N2)], "part0: NotAnAnswer", [cover('"/north":[[1,2]]')]),
    no_whole("latest without a subject", "latest", [lines(S2)], "part0: NotAnAnswer", [cover('"/south":[[2,2]]')]),
)

NORTH, SOUTH, BOTH = cover('"/north":[[1,2]]'), cover('"/south":[[1,4],[9,9]]'), cover('"/north":[[3,3]],"/south":[[5,5]]')
# Counts are summed: a type that one part has stays, and one that several have is counted once. A cover stands beside each answer.
test_sums = rows(
    {},
    whole(
        "kinds of three parts",
        "kinds",
        [lines('["t.a",2]', '["t.c",1]'), lines('["t.a",1]', '["t.b",7]'), ""],
        lines('["t.a",3]', '["t.b",7]', '["t.c",1]'),
        [NORTH, SOUTH, NOTHING],
    ),
    whole(
        "days of two",
        "days",
        [lines('["t.a","2026-02-28",2]', '["t.b","0000-01-01",1]'), lines('["t.a","2026-02-28",1]', '["t.a","2026-03-01",4]')],
        lines('["t.a","2026-02-28",3]', '["t.a","2026-03-01",4]', '["t.b","0000-01-01",1]'),
        [NORTH, SOUTH],
    ),
    whole(
        "the greatest sum",
        "kinds",
        ['["t.a",18446744073709551614]\n', '["t.a",1]\n'],
        '["t.a",18446744073709551615]\n',
        [NORTH, SOUTH],
    ),
    whole("gaps of one of two", "gaps", ["", '["/south",[[5,8]]]\n'], '["/south",[[5,8]]]\n', [NORTH, SOUTH]),
)

# Refused are covers that are more or fewer than the answers, a source that stands in two of them, and a sum above 2^64 - 1.
test_no_sums = rows(
    {},
    no_whole("fewer covers", "kinds", ['["t.a",2]\n', '["t.a",1]\n'], "1 covers beside 2 answers: CoverCount", [NORTH]),
    no_whole("more covers", "latest", [""], "2 covers beside 1 answers: CoverCount", [NORTH, SOUTH]),
    *(
        no_whole(f"a source in two covers of {it}", it, [""] * 3, "cover2: Overlap with cover0: /north", [NORTH, SOUTH, BOTH])
        for it in ("kinds", "days", "gaps", "latest", "conflicts")
    ),
    no_whole("what is no cover", "days", ["", ""], "cover1: NotACover", [NORTH, "{}\n"]),
    no_whole("a sum above", "kinds", ['["t.a",18446744073709551615]\n', '["t.a",1]\n'], "the parts: TooMany", [NORTH, SOUTH]),
)


def no_answer(what: str, question: str, *told: str, beside: str = NORTH) -> Row:
    """A refusal of what the second part tells."""
    return no_whole(what, question, ["", lines(*told)], "part1: NotAnAnswer", [NOTHING, beside])


ONE, OTHER = (event("x1", 1, it, "/north") for it in ("t.a", "t.b"))
# Refused is a text that no set has for its answer: types or days that come twice or in another order, a count of 0 or of more than 64
# bits, a day that no month has, lines that are written otherwise, gaps that are not those of the cover, a conflict of one event or with
# another id.
test_no_answers = rows(
    {},
    no_answer("types in another order", "kinds", '["t.b",1]', '["t.a",1]'),
    no_answer("a type twice", "kinds", '["t.a",1]', '["t.a",1]'),
    no_answer("a count of 0", "kinds", '["t.a",0]'),
    no_answer("a count of 65 bits", "kinds", '["t.a",18446744073709551616]'),
    no_answer("two counts", "kinds", '["t.a",1,1]'),
    no_answer("a type with an escape", "kinds", r'["t\u002ea",1]'),
    no_answer("a type alone", "kinds", "t.a"),
    no_answer("a day that no month has", "days", '["t.a","2023-02-29",1]'),
    no_answer("days in another order", "days", '["t.a","2026-03-01",1]', '["t.a","2026-02-28",1]'),
    no_answer("a time in place of a day", "days", '["t.a","2026-03-01T00:00:00",1]'),
    no_answer("no day", "days", '["t.a",1]'),
    no_answer("gaps that the cover lacks", "gaps", '["/north",[[1,1]]]'),
    no_answer("no gaps, where the cover has some", "gaps", beside=SOUTH),
    whole("a conflict", "conflicts", ["", lines(conflict("x1", "/north", ONE, OTHER))], lines(conflict("x1", "/north", ONE, OTHER)), [NOTHING, NORTH]),
    no_answer("a conflict of one event", "conflicts", conflict("x1", "/north", ONE)),
    no_answer("a conflict with another id", "conflicts", conflict("x3", "/north", ONE, OTHER)),
    no_answer("an event in place of a conflict", "conflicts", ONE),
)


def divided(question: str, count: int, out: str) -> Row:
    """The answer of the whole from those of so many parts of its events, each of which is asked by itself."""
    each = f"for it in {' '.join(map(str, range(count)))}; do site {question} p$it.json >part$it && site cover p$it.json >cover$it || exit; done"
    typed = f"site part --of {count} --into p whole.json >told && {each} && {combine(question, count, count)}"
    return answers(f"{question} of {count}", typed, out)


def events_of(table: str) -> list[str]:
    """The events of lines that have an id, a number, a type and further members each."""
    found = []
    for line in table.strip().splitlines():
        name, number, kind, *more = line.split()
        members = dict(it.split("=") for it in more)
        found.append(event(name, int(number), kind, members.pop("source"), **members))
    return found


def at(events: Sequence[str], *places: int) -> str:
    """The lines of the events of these places."""
    return lines(*(events[it] for it in places))


# Of a set as it falls, the answer put together from those of its parts is that over the whole: the one worked out from the events by the
# rule.
NINE = events_of(
    """
    c3 8 t.b source=/south subject=k time=2026-02-28T23:59:59Z
    b3 8 t.b source=/south
    b3 2 t.a source=/ö subject=k time=9999-12-31T23:00:00-00:30
    a2 9 t.b source=/north subject=l
    aa3 3 t.b source=/e subject=l
    b2 9 t.é source=/e subject=é
    c3 1 T source=/north/1 subject=l
    aa3 5 t.b source=/ö subject=é
    b2 1 t.b source=/north/1 subject=l time=9999-12-31T23:00:00-00:30
    """
)
test_nine_events = rows(
    {"whole.json": batch(*NINE)},
    divided("cover", 3, cover('"/e":[[3,3],[9,9]],"/north":[[9,9]],"/north/1":[[1,1]],"/south":[[8,8]],"/ö":[[2,2],[5,5]]')),
    divided("shown", 2, at(NINE, 4, 5, 3, 8, 6, 1, 0, 7, 2)),
    divided("conflicts", 3, ""),
    divided("latest", 5, at(NINE, 4, 5, 3, 6, 0, 2, 7)),
    divided("kinds", 9, lines('["T",1]', '["t.a",1]', '["t.b",6]', '["t.é",1]')),
    divided("days", 4, lines('["t.a","9999-12-31",1]', '["t.b","2026-02-28",1]', '["t.b","9999-12-31",1]')),
    divided("gaps", 1, lines('["/e",[[1,2],[4,8]]]', '["/north",[[1,8]]]', '["/south",[[1,7]]]', '["/ö",[[1,1],[3,4]]]')),
    answers("each event is new", "site take --db new.db whole.json", "read 9 new 9 repeated 0\n"),
)
test_no_event = rows(
    {"whole.json": batch()},
    divided("cover", 3, NOTHING),
    *(divided(it, 3, "") for it in ("shown", "conflicts", "latest", "kinds", "days", "gaps")),
)

# Answers are put together from those of parts of larger sets too.
FOURTEEN = events_of(
    """
    aa2 5 t.b source=/south subject=é time=0000-01-01T00:00:00Z
    b1 3 T source=/south
    a3 3 t.é source=/north/1 subject=k time=9999-12-31T23:00:00-00:30
    a3 1 t.a source=/north subject=k time=9999-12-31T23:00:00-00:30
    a2 2 t.é source=/north/1 subject=k time=2026-03-01T12:00:00Z
    b3 2 t.é source=/north time=9999-12-31T23:00:00-00:30
    c2 5 t.a source=/e subject=l time=0000-01-01T00:00:00Z
    b3 2 t.a source=/north
    a2 3 t.a source=/north time=0000-01-01T00:00:00Z
    b1 3 t.é source=/ö subject=é time=2026-03-01T12:00:00Z
    b3 2 T source=/north subject=l time=2026-03-01T00:30:00+01:00
    a2 9 t.a source=/south subject=k time=2026-02-28T23:59:59Z
    a1 1 t.é source=/ö subject=k
    b2 5 t.b source=/south subject=é
    """
)
test_fourteen_events = rows(
    {"whole.json": batch(*FOURTEEN)},
    divided("cover", 1, cover('"/e":[[5,5]],"/north":[[1,3]],"/north/1":[[2,3]],"/south":[[3,3],[5,5],[9,9]],"/ö":[[1,1],[3,3]]')),
    divided("shown", 3, at(FOURTEEN, 6, 8, 3, 10, 4, 2, 11, 0, 1, 13, 12, 9)),
    divided("conflicts", 4, lines(conflict("b3", "/north", FOURTEEN[10], FOURTEEN[5], FOURTEEN[7]))),
    divided("latest", 64, at(FOURTEEN, 6, 3, 10, 2, 11, 13, 12, 9)),
    divided("kinds", 7, lines('["T",2]', '["t.a",4]', '["t.b",2]', '["t.é",4]')),
    divided(
        "days",
        2,
        lines(
            '["T","2026-02-28",1]',
            '["t.a","0000-01-01",2]',
            '["t.a","2026-02-28",1]',
            '["t.a","9999-12-31",1]',
            '["t.b","0000-01-01",1]',
            '["t.é","2026-03-01",2]',
            '["t.é","9999-12-31",1]',
        ),
    ),
    divided("gaps", 5, lines('["/e",[[1,4]]]', '["/north/1",[[1,1]]]', '["/south",[[1,2],[4,4],[6,8]]]', '["/ö",[[2,2]]]')),
    answers("each event is new", "site take --db new.db whole.json", "read 14 new 14 repeated 0\n"),
)

MANY = events_of(
    """
    c3 5 T source=/south subject=é time=0000-01-01T00:00:00Z
    c2 2 t.é source=/north/1 subject=k time=2026-03-01T00:30:00+01:00
    a3 5 t.b source=/ö subject=l time=9999-12-31T23:00:00-00:30
    c1 1 t.b source=/north subject=l time=2026-03-01T12:00:00Z
    aa1 1 t.a source=/north/1 subject=k
    aa2 1 t.é source=/south subject=l time=2026-03-01T00:30:00+01:00
    b3 1 t.b source=/north/1 time=9999-12-31T23:00:00-00:30
    aa3 5 t.é source=/ö subject=é time=0000-01-01T00:00:00Z
    a3 8 t.a source=/south subject=l time=9999-12-31T23:00:00-00:30
    c3 3 T source=/north subject=l time=2026-02-28T23:59:59Z
    c2 2 t.b source=/north subject=é time=2026-03-01T12:00:00Z
    aa1 5 t.a source=/south subject=é
    aa1 9 t.a source=/north/1 subject=k time=2026-03-01T00:30:00+01:00
    a3 2 t.a source=/ö subject=l time=2026-03-01T12:00:00Z
    c3 8 t.a source=/north/1 subject=é time=0000-01-01T00:00:00Z
    b2 2 t.é source=/ö subject=é time=2026-02-28T23:59:59Z
    b2 5 T source=/south subject=k time=2026-03-01T12:00:00Z
    b3 1 T source=/e subject=k
    a3 1 t.b source=/north/1 time=2026-03-01T12:00:00Z
    b1 2 T source=/north subject=k time=2026-02-28T23:59:59Z
    aa2 8 T source=/e subject=é
    b2 2 t.a source=/e subject=l
    aa3 9 t.b source=/e subject=l
    a3 1 t.b source=/north/1 subject=l time=2026-03-01T00:30:00+01:00
    """
)
# Of as many parts as may be only five have events, of a source each; the others answer as the first does.
FULL = {"/e": 17706, "/north": 48796, "/north/1": 38282, "/south": 20042, "/ö": 33126}
ASK = "site part --of 65536 --part $it whole.json >p.json && site days p.json >$it && site cover p.json >c$it"
EVERY = [it if it in FULL.values() else 0 for it in range(65536)]
test_many_events = rows(
    {"whole.json": batch(*MANY), "words": lines(*(f"--cover=c{it} {it}" for it in EVERY))},
    divided("cover", 4, cover('"/e":[[1,2],[8,9]],"/north":[[1,3]],"/north/1":[[1,2],[8,9]],"/south":[[1,1],[5,5],[8,8]],"/ö":[[2,2],[5,5]]')),
    divided("shown", 4, at(MANY, 20, 22, 21, 17, 19, 3, 10, 9, 23, 4, 6, 1, 14, 8, 11, 5, 16, 0, 13, 7, 15)),
    divided(
        "conflicts",
        2,
        lines(
            conflict("a3", "/north/1", MANY[23], MANY[18]),
            conflict("aa1", "/north/1", MANY[4], MANY[12]),
            conflict("a3", "/ö", MANY[13], MANY[2]),
        ),
    ),
    divided("latest", 7, at(MANY, 17, 22, 20, 19, 9, 10, 1, 23, 14, 16, 8, 0, 13, 7)),
    divided("kinds", 3, lines('["T",6]', '["t.a",6]', '["t.b",5]', '["t.é",4]')),
    answers("which of 65,536 have events", "site part --of 65536 whole.json", lines(*(f'["{source}",{part}]' for source, part in FULL.items()))),
    answers(
        "days of 65,536",
        f"for it in 0 {' '.join(map(str, FULL.values()))}; do {ASK} || exit; done && site combine days $(<words)",
        lines(
            '["T","0000-01-01",1]',
            '["T","2026-02-28",2]',
            '["T","2026-03-01",1]',
            '["t.a","0000-01-01",1]',
            '["t.a","2026-03-01",1]',
            '["t.a","9999-12-31",1]',
            '["t.b","2026-02-28",1]',
            '["t.b","2026-03-01",2]',
            '["t.b","9999-12-31",1]',
            '["t.é","0000-01-01",1]',
            '["t.é","2026-02-28",3]',
        ),
    ),
    divided("gaps", 9, lines('["/e",[[3,7]]]', '["/north/1",[[3,7]]]', '["/south",[[2,4],[6,7]]]', '["/ö",[[1,1],[3,4]]]')),
    answers("each event is new", "site take --db new.db whole.json", "read 24 new 24 repeated 0\n"),
)
