"""Standard input from wherever a shell takes it, and outputs that are closed, full, or left by who reads them."""
from typing import Iterator

from events import AT, acknowledgement, batch, cover, event, lines, numbered_events
from shell import As, Room, Row, answers, fails, finds, refuses, rows

EVENT = event("a1", 1, "t.a")
LINE = f"{cover(1)}\n"
NEW, AGAIN = acknowledgement(1, 1, 0), acknowledgement(1, 0, 1)
MANY = numbered_events(20_000)

# Standard input.
test_standard_input = rows(
    {"f.json": EVENT, "empty.json": "[]", "-": "[]"},
    answers("standard input by -", "site cover - <f.json", LINE),
    answers("standard input by its device", "site cover /dev/stdin <f.json", LINE),
    answers("a pipe by -", "cat f.json | site cover - empty.json", LINE),
    refuses("standard input at fault", "printf 3 | site cover -", "-: not an event or a batch"),
    answers("a file that is named -", "site cover ./-", f"{cover(None)}\n"),
    answers("standard input closed", "site cover f.json <&-", LINE),
)

# Lines from standard input, and where they are acknowledged.
test_lines = rows(
    {"lines": lines(EVENT), "-": "[]", "-x.json": EVENT, "bad.lines": "3\n", "many.lines": lines(*MANY), "folder/": ""},
    answers("lines of standard input", "site follow --db stream.db <lines", NEW),
    answers("lines of -", "site follow --db stream.db - <lines", AGAIN),
    answers("lines of /dev/stdin", "site follow --db stream.db /dev/stdin <lines", AGAIN),
    answers("lines of a pipe", "cat lines | site follow --db stream.db", AGAIN),
    answers("lines of a file that is named -", "site follow --db stream.db ./-", AGAIN, files={"-": lines(EVENT)}),
    answers("lines of a name with a dash in front", "site follow --db stream.db -- -x.json", AGAIN),
    refuses("lines of a name with a line feed", r"site follow --db stream.db $'a\nb'", r"a\nb: cannot read"),
    refuses("lines of a folder", "site follow --db stream.db folder", "folder: cannot read"),
    answers("no lines", "site follow --db stream.db"),
    answers("lines of a standard input that is closed", "site follow --db stream.db <&-"),
    fails("acknowledgements to a closed stream", "site follow --db closed.db lines >&-"),
    answers("the line was kept all the same", "site follow --db closed.db lines", AGAIN),
    fails("acknowledgements to a full device", "site follow --db full.db lines >/dev/full"),
    finds("refused lines, standard error closed", "site follow --db stream.db bad.lines 2>&-", '{"line":1,"fault":"not an event or a batch"}\n'),
    finds("a reader of acknowledgements that leaves", "site follow --db cut.db many.lines | head -n 1", NEW),
    answers("a line for each of many", "site follow --db whole.db many.lines", "".join(acknowledgement(it, 1, 0) for it in range(1, len(MANY) + 1))),
)

# Streams that are closed, full or cut.
test_outputs = rows(
    {"f.json": EVENT, "bad.json": "3", "many.json": batch(*MANY)},
    fails("standard output closed", "site cover f.json >&-"),
    fails("standard output full", "site cover f.json >/dev/full"),
    fails("standard output closed, of parts", "site part --of 2 f.json >&-"),
    fails("standard output full, of parts", "site cover f.json | site combine cover - >/dev/full"),
    fails("standard error closed, of parts", "site combine cover f.json 2>&-"),
    answers("standard error closed, an answer", "site cover f.json 2>&-", LINE),
    fails("standard error closed, a refusal", "site cover bad.json 2>&-"),
    fails("standard error closed, faulty words", "site covers 2>&-"),
    fails("standard error full", "site cover bad.json 2>/dev/full"),
    fails("all streams closed", "site cover f.json <&- >&- 2>&-"),
    finds("a reader that leaves", "site shown many.json | head -n 1", lines(MANY[0])),
)


def unheard_commands(to: str, new: str) -> Iterator[Row]:
    """Commands over databases whose answer goes to where nobody hears it."""
    for words in (
        "kinds --db stream.db",
        "shown --db stream.db f.json",
        "summary --db stream.db",
        "delta --db stream.db --all nothing.summary",
        "scrub --db stream.db --all",
        "service --db rows.db",
        "relay --db rows.db --after 0 --all",
        "check --db rows.db",
    ):
        yield fails(f"{words} {to}", f"site {words} {to}", keeps=words.split()[2])
    yield fails(f"a service that is made {to}", f"site service --db {new} --source /west --base 5 {to}")
    yield answers(f"it was made all the same {to}", f"site service --db {new}", '{"base":5,"orders":0,"rows":0,"source":"/west"}\n')


# Commands over databases, to a closed stream, a full device, and a pipe whose reader has left.
test_commands_unheard = rows(
    {"f.json": EVENT, "nothing.summary": f"{cover(None)}\n", "lines": lines(EVENT)},
    "site follow --db stream.db lines",
    f"site order --db rows.db --at {AT} place 7",
    *unheard_commands(">&-", "x.db"),
    *unheard_commands(">/dev/full", "xx.db"),
    *unheard_commands(">&$LEFT", "xxx.db"),
)


def thousand_orders(room: Room) -> None:
    """Puts 999 orders and their rows behind the first one."""
    more = range(2, 1001)
    every = ", ".join(f"({it}, 1)" for it in more), ", ".join(f"({it}, 1, {it}, '{AT}')" for it in more)
    room.sqlite("pages.db", "PRAGMA journal_mode = DELETE", f"INSERT INTO orders VALUES {every[0]}", f"INSERT INTO outbox VALUES {every[1]}")


# Readers that leave behind the first line, where more follows than a pipe holds.
test_readers_that_leave = rows(
    {"some.lines": lines(*MANY[:2000]), "nothing.summary": f"{cover(None)}\n"},
    "site follow --db some.db some.lines",
    f"site order --db pages.db --at {AT} place 1",
    thousand_orders,
    finds("scrub", "site scrub --db some.db --all | head -n 1", As("site scrub --db some.db"), keeps="some.db"),
    finds("delta", "site delta --db some.db --all nothing.summary | head -n 1", As("site scrub --db some.db"), keeps="some.db"),
    finds("shown", "site shown --db some.db | head -n 1", lines(MANY[0]), keeps="some.db"),
    finds("relay", "site relay --db pages.db --after 0 --all | head -n 1", As("site relay --db pages.db --after 0"), keeps="pages.db"),
)
