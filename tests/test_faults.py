"""Files at fault: what `check` says of each event, and which fault a question names."""
from events import E1, E2, NO_FILE, batch, cover, event, fault, lines, numbered_events
from shell import SOME, Row, answers, fails, finds, refuses, rows

EVENT = event("a1", 1, "t.a")
WHOLE = "a file is an event, which is an object, or an array of events"


def no_batch(file: str) -> str:
    return fault(file=file, fault="not an event or a batch", hint=WHOLE)


# What is at fault in files, and where it is told. Each of many events has a sequence that is too short.
test_check = rows(
    {"f.json": EVENT, "bad.json": "3", "short.json": batch(*numbered_events(20_000)).replace("000000000", "0"), "-": "[]", "folder/": ""},
    finds("what is at fault", "site check f.json bad.json", no_batch("bad.json")),
    answers("nothing at fault", "site check f.json"),
    finds("a check of a database that is not there", "site check --db none.db f.json", fault(db="none.db", fault="cannot read", hint=NO_FILE)),
    refuses("a check of a folder", "site check bad.json folder", "folder: cannot read"),
    finds("a check of standard input", "site check - <bad.json", no_batch("-")),
    fails("what is at fault to a closed stream", "site check bad.json >&-"),
    fails("what is at fault to a full device", "site check bad.json >/dev/full"),
    finds("what is at fault, standard error closed", "site check bad.json 2>&-", no_batch("bad.json")),
    finds("a reader that leaves what is at fault", "site check short.json | head -n 1", SOME),
)

FIRST = event("a1", 1, "t.a", subject="x")
NUMBERS = batch(event("a", 1), event("b", 2), event("c", 5))
SHORT = event("a1", "1", "t.a", subject="x")
PAD = "a sequence is a text of twenty digits, from 1 to 9223372036854775807: pad it with zeros on the left"
TEN = "an event is an object whose specversion is the text 1.0"


def event_with_sequence(name: str, sequence: str) -> str:
    """An event whose sequence is that JSON text."""
    return event(name, "0", source="/").replace('"0"', sequence)


# Every event at fault, of every file and of every line.
test_every_fault = rows(
    {
        "good": FIRST,
        "numbers": NUMBERS,
        "empty": "[]",
        "bad": "3",
        "short": batch(FIRST, event_with_sequence("b", '"2"'), event_with_sequence("c", "3")),
        "old": '[{"id":"b","source":"/","specversion":"0.3","type":"t"},3]',
        "lines": lines(FIRST, NUMBERS),
        "short.lines": f"{FIRST}\n\n{batch(FIRST, SHORT)}",
        "empty.lines": "\n \n",
    },
    answers("no fault", "site check good numbers empty"),
    finds("no event", "site check good bad", no_batch("bad")),
    finds(
        "two sequences",
        "site check short good",
        fault(file="short", index=1, id="b", fault="BadSequence", attribute="sequence", value="2", hint=PAD)
        + fault(file="short", index=2, id="c", fault="BadSequence", attribute="sequence", value=3, hint=PAD),
    ),
    finds(
        "another version, and a number in an event's place",
        "site check old",
        fault(file="old", index=0, id="b", fault="SpecVersion", attribute="specversion", value="0.3", hint=TEN)
        + fault(file="old", index=1, fault="SpecVersion", attribute="specversion", hint=TEN),
    ),
    refuses("a file that is not there", "site check bad none", "none: cannot read"),
    finds(
        "an event of a line",
        "site check --lines lines short.lines",
        fault(file="short.lines line 3", index=1, id="a1", fault="BadSequence", attribute="sequence", value="1", hint=PAD),
    ),
    answers("no line at fault", "site check --lines lines empty.lines"),
)


def names(what: str, file: str, told: str) -> Row:
    """A row by which a question names the fault of a file that stands between a good one and a bad one."""
    return refuses(what, "site cover good f bad", f"f: {told}", files={"f": file})


ONE, NONE = event_with_sequence("a", '"00000000000000000001"'), event("a", None, source="/")

# The first fault: of one file between a good one and a bad one.
test_first_fault = rows(
    {"good": FIRST, "bad": "3"},
    names("a number that is too great", event_with_sequence("a", '"09223372036854775808"'), "event 0: BadSequence"),
    names("the number 0", event_with_sequence("a", '"00000000000000000000"'), "event 0: BadSequence"),
    names("a number of one digit", batch(ONE, event_with_sequence("a", '"1"')), "event 1: BadSequence"),
    names("a number that is no text", event_with_sequence("a", "1"), "event 0: BadSequence"),
    names("no number", NONE, "event 0: NoSequence"),
    names("another version before no number", f'[{NONE},{{"specversion":"0.3"}}]', "event 1: SpecVersion"),
    names("half a batch", "[{},", "not JSON"),
    names("no text", "", "not JSON"),
    names("a text that is no batch", "3", "not an event or a batch"),
)

# All files are read before one is judged; 33,554,432 bytes are the most that one may have.
test_files = rows(
    {"bad": "3", "over": " " * 33_554_433, "full": " " * 33_554_432, "-": "[]"},
    refuses("a file that is not there behind a bad one", "site cover bad none", "none: cannot read"),
    refuses("a file that is too large before one that is not there", "site cover bad over none", "over: too large"),
    refuses("the largest file", "site cover full", "full: not JSON"),
    refuses("the folder itself", "site cover .", ".: cannot read"),
    refuses("control characters, a letter and a backslash", r"site cover $'a\tb\n\e[1m\xc2\x9b\xc3\xa9\\'", r"a\tb\n\u001b[1m\u009bé\: cannot read"),
    answers("a file that is named -", "site cover ./-", f"{cover(0)}\n"),
)


def deep_event(count: int) -> str:
    """An event whose data are that many nested arrays."""
    return f'{{"data":{"[" * count}{"]" * count},"id":"d","sequence":"00000000000000000002","source":"/orders","specversion":"1.0","type":"t"}}'


# Data of 120 nested arrays is the deepest, of an event and of a batch's member.
test_depth = rows(
    {},
    answers("120 arrays", "site shown deep", lines(deep_event(120)), files={"deep": deep_event(120)}),
    answers("120 arrays in a batch", "site shown deep", lines(FIRST, deep_event(120)), files={"deep": batch(FIRST, deep_event(120))}),
    refuses("121 arrays", "site shown deep", "deep: event 0: TooDeep", files={"deep": deep_event(121)}),
    refuses("121 arrays in a batch", "site shown deep", "deep: event 1: TooDeep", files={"deep": batch(FIRST, deep_event(121))}),
)

TWO = batch(E1, E2)


def test_length_of_a_batch_of_two_events() -> None:
    assert len(TWO) == 225


# A batch that is cut anywhere is no JSON text.
test_cuts = rows(
    {},
    *(refuses(f"the first {it} bytes of a batch", "site cover cut.json", "cut.json: not JSON", files={"cut.json": TWO[:it]}) for it in range(len(TWO))),
)

CUT = "a file is one JSON text in UTF-8; where events stand one a line, --lines reads them so, or jq -s . makes one"
OWN = "number gives an event its sequence: take keeps the one that it has, or --aside NAME puts it by"
BARE = event("a1", None)


def numbered(file: str, index: int) -> str:
    """The line on an event of the id a1 that has a number, or a sequence that is none."""
    return fault(file=file, index=index, id="a1", fault="HasSequence", hint=OWN)


# What `number` would refuse: each event that it can't number, or, where some are none, each member that is no event.
test_for_number = rows(
    {
        "bare": BARE,
        "bare.lines": lines(BARE, "", batch(BARE, event("b", None))),
        "own": batch(BARE, FIRST),
        "both": batch(FIRST, BARE, SHORT),
        "old": batch(BARE, event("b", None).replace('"1.0"', '"0.3"'), FIRST, "3"),
        "cut": f"[{BARE}",
        "bad.lines": lines(BARE, "3", batch(BARE, SHORT)),
        "large": event("a1", None, data="x" * 262_060),
    },
    answers("events without a number", "site check --numbers bare"),
    answers("lines of them", "site check --lines --numbers bare.lines bare"),
    finds("a number", "site check --numbers bare own", numbered("own", 1)),
    finds("each number, or what is none", "site check --numbers both", numbered("both", 0) + numbered("both", 2)),
    finds(
        "members that are no events come first",
        "site check --numbers old",
        fault(file="old", index=1, id="b", fault="SpecVersion", attribute="specversion", value="0.3", hint=TEN)
        + fault(file="old", index=3, fault="SpecVersion", attribute="specversion", hint=TEN),
    ),
    finds("no JSON", "site check --numbers cut", fault(file="cut", fault="not JSON", hint=CUT)),
    finds(
        "two lines",
        "site check --numbers --lines bad.lines",
        no_batch("bad.lines line 2") + numbered("bad.lines line 3", 1),
    ),
    finds(
        "no room for a number",
        "site check --numbers large",
        fault(file="large", index=0, id="a1", fault="TooLarge", hint="with its number an event has at most 262,144 bytes; keep large data elsewhere"),
    ),
    answers("what number then takes", "site number --db n.db bare.lines | wc -l", "2\n"),
    refuses("a file that is not there, either", "site check --numbers none bare", "none: cannot read"),
)
