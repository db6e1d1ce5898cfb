"""Texts as the program reads them: which are events, with the canonical text of each, and which fault the others have.

A text that is none is judged twice: `check` tells each fault that it has, and a question names the first.
"""
import re
from typing import Optional

from events import E1, E2, batch, cover, event, fault, lines, page
from shell import TOP, Row, answers, rows


def hints() -> dict[str, str]:
    """What the page of formats says to do about each fault."""
    with open(f"{TOP}/docs/FORMATS.md", encoding="utf-8") as it:
        table = it.read().split("| fault | hint |\n")[1].split("\n\n")[0]
    return {name: hint.replace("`", "") for name, hint in re.findall(r"^\| `(.*?)` \| (.*) \|$", table, re.M)}


HINTS = hints()


def given(members: str, name: str = "a1") -> str:
    """The text of an event with more members behind those that it has to have."""
    return f'{{"id":"{name}","source":"/o","specversion":"1.0","type":"t"{"," * bool(members)}{members}}}'


def got(number: int = 1, name: str = "a1", **more: object) -> str:
    """The canonical text of such an event, once it has its number."""
    return event(name, number, "t", "/o", **more)


def reads(what: str, text: str, *events: str) -> Row:
    """A text that is these events, once each has its number."""
    return answers(what, "site check --numbers f && rm -f n.db && site number --db n.db f", page(*events), files={"f": text})


def puts_aside(what: str, members: str, own: object) -> Row:
    """An event whose sequence is none, and goes by another name."""
    return answers(what, "rm -f n.db && site number --db n.db --aside own f", page(got(own=own)), files={"f": given(members)})


def well(what: str, members: str, **more: object) -> Row:
    """An event with these members, which are such in its canonical text."""
    return reads(what, given(members), got(1, "a1", **more))


def faulty(what: str, text: str, first: str, *told: str, how: str = "--numbers") -> Row:
    """A text that is refused, in the words of the first fault, and in lines about all of them."""
    return Row(what, f"site check {how} f; site cover f", "".join(told), f"site: f: {first}\n", 1, {"f": text})


def no_batch(what: str, text: str, words: str) -> Row:
    """A text that is refused as a whole."""
    return faulty(what, text, words, fault(file="f", fault=words, hint=HINTS[words]))


def member(index: int, name: str, of: Optional[str] = "a1", **more: object) -> str:
    """What is told of a member at fault: its id, where that is a text, and what the fault is of."""
    own = {} if of is None else {"id": of}
    return fault(file="f", index=index, **own, fault=name, **more, hint=HINTS[name])


def ill(what: str, members: str, name: str, attribute: str, of: Optional[str] = "a1", **more: object) -> Row:
    """An event with these members, one of which is at fault."""
    return faulty(what, given(members), f"event 0: {name}", member(0, name, of, attribute=attribute, **more))


# An extension is a whole number of 32 bits, a truth value or a text without control characters.
test_extensions = rows(
    {},
    well("the number 0", '"x":0', x=0),
    well("a number below 0", '"x":-1', x=-1),
    well("the greatest number", '"x":2147483647', x=2147483647),
    well("the least number", '"x":-2147483648', x=-2147483648),
    ill("minus 0", '"x":-0', "ExtensionValue", "x"),
    ill("a fraction", '"x":1.0', "ExtensionValue", "x"),
    ill("an exponent", '"x":1e2', "ExtensionValue", "x"),
    ill("one above the greatest", '"x":2147483648', "ExtensionValue", "x", value=2147483648),
    ill("one below the least", '"x":-2147483649', "ExtensionValue", "x", value=-2147483649),
    ill("a number of 65 bits", '"x":18446744073709551616', "ExtensionValue", "x"),
    no_batch("a number beyond the floats", given('"x":1e999'), "not JSON"),
    no_batch("a zero in front", given('"x":01'), "not JSON"),
    no_batch("a plus in front", given('"x":+1'), "not JSON"),
    no_batch("no number", given('"x":NaN'), "not JSON"),
    well("a truth value", '"x":true', x=True),
    well("the empty text", '"x":""', x=""),
    ill("an object", '"x":{}', "ExtensionValue", "x"),
    ill("an array", '"x":[]', "ExtensionValue", "x"),
    well("a pair of surrogates", r'"x":"\ud83d\ude00"', x="\U0001f600"),
    no_batch("a lone surrogate", given(r'"x":"\ud800"'), "not JSON"),
    ill("a control character", r'"x":"\u0000"', "ExtensionValue", "x", value="\0"),
    well("a name that stands twice, well at last", '"x":1.5,"x":1', x=1),
    ill("a name that stands twice, ill at last", '"x":1,"x":1.5', "ExtensionValue", "x"),
    well("quotes, backslashes and letters that are escaped", r'"x":"\u0022\u005c\/\u00e9"', x='"\\/\u00e9'),
)

# Attributes, of which the last of a name counts, in the order in which they are tested.
test_attributes = rows(
    {},
    ill("a version that is a number", '"specversion":1', "SpecVersion", "specversion", value=1),
    ill("no id", '"id":null', "Id", "id", None, value=None),
    ill("an id that is a number", '"id":7', "Id", "id", None, value=7),
    ill("an id before a source and a type", '"id":"","source":"","type":""', "Id", "id", "", value=""),
    ill("an empty source", '"source":""', "Source", "source", value=""),
    faulty("a control character in a type", given(r'"type":"\u007f"'), "event 0: Kind", member(0, "Kind", attribute="type", value="-").replace("-", "\x7f")),
    ill("an empty subject", '"subject":""', "Subject", "subject", value=""),
    well("a leap second", '"time":"2024-02-29T23:59:60+00:00"', time="2024-02-29T23:59:60+00:00"),
    ill("a day that its month lacks", '"time":"2023-02-29T00:00:00Z"', "Time", "time", value="2023-02-29T00:00:00Z"),
    ill("a time that is a number", '"time":0', "Time", "time", value=0),
    ill("a content type that is no text", '"datacontenttype":false', "ContentType", "datacontenttype", value=False),
    ill("an empty schema", '"dataschema":""', "Schema", "dataschema", value=""),
    well("a bad name without a value", '"Bad":null'),
    ill("a bad name", '"Bad":"b"', "ExtensionName", "Bad", value="b"),
    ill("a bad name before its value and two data", '"Bad":1,"data":1,"data_base64":"AQI="', "ExtensionName", "Bad", value=1),
    puts_aside("a short sequence", '"sequence":"1"', "1"),
    puts_aside("a sequence that is a number", '"sequence":1', 1),
)

# Data are any JSON whose numbers are whole and fit 64 bits, or bytes in Base64, and not both.
test_data = rows(
    {},
    well("no data", '"data":null'),
    well("a text", '"data":"d"', data="d"),
    well("the greatest number", '"data":18446744073709551615', data=18446744073709551615),
    ill("one above it", '"data":18446744073709551616', "DataNumber", "data", pointer="/data"),
    well("the least number", '"data":-9223372036854775808', data=-9223372036854775808),
    ill("one below it", '"data":-9223372036854775809', "DataNumber", "data", pointer="/data"),
    ill("minus 0", '"data":-0', "DataNumber", "data", pointer="/data"),
    ill("a fraction in an array", '"data":[1.0]', "DataNumber", "data", pointer="/data/0"),
    ill("a fraction in an object", '"data":{"p":1.5}', "DataNumber", "data", pointer="/data/p"),
    well("a fraction that another value follows", '"data":{"p":1.5,"p":1}', data={"p": 1}),
    well("bytes that are JSON", '"data_base64":"eyJwIjoxLjV9"', data_base64="eyJwIjoxLjV9"),
    well("no bytes", '"data_base64":""', data_base64=""),
    ill("no padding", '"data_base64":"AQI"', "Base64", "data_base64", value="AQI"),
    ill("bits behind the last byte", '"data_base64":"AQJ="', "Base64", "data_base64", value="AQJ="),
    ill("another alphabet", '"data_base64":"A*I="', "Base64", "data_base64", value="A*I="),
    ill("a line feed", r'"data_base64":"AQI=\n"', "Base64", "data_base64", value="AQI=\n"),
    ill("a number in place of bytes", '"data_base64":7', "Base64", "data_base64", value=7),
    ill("an object in place of bytes", '"data_base64":{}', "Base64", "data_base64"),
    well("bytes beside no data", '"data":null,"data_base64":"AQI="', data_base64="AQI="),
    well("data beside no bytes", '"data":1,"data_base64":null', data=1),
    ill("both", '"data":1,"data_base64":"AQI="', "TwoData", "data_base64", value="AQI="),
    ill("both, before what is no Base64", '"data":1,"data_base64":"A*I="', "TwoData", "data_base64", value="A*I="),
    ill("both, before a fraction", '"data":1.5,"data_base64":"AQI="', "TwoData", "data_base64", value="AQI="),
)

# Members of objects within data are in order, and a control character is escaped if it is below a space.
test_canonical_texts = rows(
    {},
    reads(
        "bytes in front",
        '{"data":null,"data_base64":"AQI=","id":"a1","source":"/o","specversion":"1.0","type":"t"}',
        got(data_base64="AQI="),
    ),
    well("objects within data", ' "data" : {"b":1,"a":[null,{"d":-7,"c":true}]}', data={"a": [None, {"c": True, "d": -7}], "b": 1}),
    well(
        "control characters",
        r'"data":"\u0008\u0009\u000a\u000c\u000d\u0001\u001F\u007f"',
        data="\b\t\n\f\r\x01\x1f\x7f",
    ),
)

TWO = batch(given(""), given("", "a2"))
SPELLED = r'{"type":"t.a","subject":"x","specversion":"1.0","source":"/orders","sequence":"00000000000000000001","id":"\u0061\u0031"}'
# A batch is written as it was read: by a part of a region, and by the lines of a run for its database.
test_batches = rows(
    {"none": "[]", "two": batch(E1, E2), "twice": batch(SPELLED, SPELLED), "spelled": SPELLED, "lines": lines(SPELLED, batch(E2))},
    reads("two events", TWO, got(), got(2, "a2")),
    answers("two events that have numbers", "site check two && site part --of 1 --part 0 two", page(E1, E2)),
    answers("no event", "site part --of 1 --part 0 none", page()),
    answers("an event in another spelling", "site part --of 1 --part 0 spelled", page(E1)),
    answers("the same event twice", "site part --of 1 --part 0 twice", page(E1, E1)),
    answers("lines of a run", "site run --db r.db --lines lines && site scrub --db r.db", f"read 2 refused 0 held 2\n{cover(2)}\n{page(E1, E2)}"),
    answers("spaces and a line feed around no event", "site check f && site take --db n.db f", "read 0 new 0 repeated 0\n", files={"f": " [ ] \n"}),
)

NONE = member(0, "SpecVersion", None, attribute="specversion")
# Whole texts that are none, or of whose members some are none.
test_whole_texts = rows(
    {},
    no_batch("something behind the end", "[] x", "not JSON"),
    no_batch("a byte order mark", "\ufeff[]", "not JSON"),
    Row(
        "a byte that is no UTF-8",
        r"""printf '["\xff"]' >f; site check f; site cover f""",
        fault(file="f", fault="not JSON", hint=HINTS["not JSON"]),
        "site: f: not JSON\n",
        1,
    ),
    no_batch("half a batch", "[5", "not JSON"),
    no_batch("null", "null", "not an event or a batch"),
    no_batch("a text", '"[]"', "not an event or a batch"),
    faulty("an object without members", "{}", "event 0: SpecVersion", NONE),
    faulty("two that are none", "[{}, 5]", "event 0: SpecVersion", NONE, member(1, "SpecVersion", None, attribute="specversion")),
    faulty("one that is none behind an event", batch(given(""), "5"), "event 1: SpecVersion", member(1, "SpecVersion", None, attribute="specversion")),
    faulty(
        "two of them, of which one is an object",
        batch(given(""), given("", "a2").replace("1.0", "0.3"), "5"),
        "event 1: SpecVersion",
        member(1, "SpecVersion", "a2", attribute="specversion", value="0.3"),
        member(2, "SpecVersion", None, attribute="specversion"),
    ),
)


def cuts(what: str, text: str) -> Row:
    """A text of which each front is no JSON: one a line, by the number of its bytes."""
    every = range(1, len(text))
    told = "".join(fault(file=f"f line {it}", fault="not JSON", hint=HINTS["not JSON"]) for it in every)
    first = "".join(fault(line=it, fault="not JSON") for it in every)
    return Row(
        what,
        "site check --lines f; site number --db c.db f",
        told,
        f"{first}site: {len(every)} lines refused\n",
        1,
        {"f": lines(*(text[:it] for it in every))},
    )


# A text that is cut anywhere is no JSON; a batch of events that have numbers is in tests/test_faults.py.
test_cuts = rows({}, cuts("a batch of 115 bytes", TWO), cuts("an event of 111 bytes", E1))


def test_lengths_of_what_is_cut() -> None:
    assert (len(TWO), len(E1)) == (115, 111)


def in_arrays(depth: int) -> str:
    """An event whose data are so many arrays, each in another."""
    return given(f'"data":{"[" * depth}{"]" * depth}')


DEEP = member(0, "TooDeep", attribute="data")
WELL = got().replace('"id"', f'"data":{"[" * 120}{"]" * 120},"id"', 1)
# Data are 120 arrays deep at most. A text is 127 deep at most, of which an event is one level, and a batch one more.
test_depths = rows(
    {},
    reads("120 arrays", in_arrays(120), WELL),
    reads("120 arrays in a batch", batch(in_arrays(120)), WELL),
    *(faulty(f"{it} arrays", in_arrays(it), "event 0: TooDeep", DEEP) for it in (121, 125, 126)),
    *(faulty(f"{it} arrays in a batch", batch(in_arrays(it)), "event 0: TooDeep", DEEP) for it in (121, 125)),
    no_batch("127 arrays", in_arrays(127), "not JSON"),
    *(no_batch(f"{it} arrays in a batch", batch(in_arrays(it)), "not JSON") for it in (126, 127)),
)


def letters(count: int) -> str:
    """An event with so many letters as its data."""
    return f'{E1[:-1]},"data":"{"a" * count}"}}'


LONGEST = event("a1", 1, "t.a", subject="x", data="a" * 262_023)
# An event has at most 262,144 bytes.
test_sizes = rows(
    {},
    answers("the longest event", "site check f && site shown f", lines(LONGEST), files={"f": letters(262_023)}),
    faulty("an event of one byte more", letters(262_024), "event 0: TooLarge", member(0, "TooLarge"), how=""),
    reads(
        "a thousand events",
        batch(*[given("").replace("a1", "1")] * 999, given("").replace("a1", "2")),
        *[got(1, "1")] * 999,
        got(2, "2"),
    ),
)


def test_length_of_the_longest_event() -> None:
    assert len(LONGEST) == 262_144
