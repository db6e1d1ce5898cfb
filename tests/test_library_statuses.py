"""The statuses of the library's header are those of both bindings, of the proved code and of its definitions, and each has words."""
import re

import library
import pytest
from shell import TOP

BLOCK = re.search(r"enum jumbetai_status \{(.*?)\n\};", library.header(), re.S)
assert BLOCK
STATUSES = {name: int(number) for name, number in re.findall(r"JUMBETAI_(\w+)\s*=\s*(\d+)", BLOCK[1])}
# By these no call of a binding can be answered.
APART = ("DONE", "NO_SUCH_QUESTION", "BAD_ARGUMENT", "NOT_OPEN", "NO_SUCH_ACTION")
KNOWN = {(name, number) for name, number in STATUSES.items() if name not in APART}
CAMEL = {("".join(part.capitalize() for part in name.split("_")), number) for name, number in KNOWN}
# The names of the proved code and of its definitions for what the header has another name for.
CALLED = {"NOT_OPEN": "NOT_OPEN", "NO_BODY": "BAD_ARGUMENT", "NO_TIME": "BAD_TIME", "NO_ORDER_NUMBER": "BAD_ORDER", "NO_SOURCE": "BAD_SOURCE"}
OF_REPORTS = {"Read": "NoEvents", "Event": "NoNumber"}
OF_PARTS = {"NotACover": "Not_A_Cover"}


def read(file: str) -> str:
    with open(f"{TOP}/{file}", encoding="utf-8") as text:
        return text.read()


@pytest.mark.parametrize(
    ("file", "row", "wanted"),
    [
        pytest.param("rust/src/lib.rs", r"^ +(\d+) => Error::(\w+),$", CAMEL, id="the crate, by number"),
        pytest.param("rust/src/lib.rs", r"^ +Error::(\w+) => (\d+),$", CAMEL, id="the crate, by name"),
        pytest.param("python/jumbetai/__init__.py", r"^    ([A-Z_]+) = (\d+)\b", KNOWN, id="the package"),
    ],
)
def test_statuses_of_a_binding(file: str, row: str, wanted: set[tuple[str, int]]) -> None:
    found = {tuple(sorted(it, key=str.isdigit)) for it in re.findall(row, read(f"bindings/{file}"), re.M)}
    assert found == {(name, str(number)) for name, number in wanted}


def test_each_status_has_words() -> None:
    assert re.findall(r"\[JUMBETAI_(\w+)\] = ", read("bindings/c/site.c")) == [*STATUSES]


def definition(equation: str) -> str:
    """The rows of a function of definitions, by its name and that of its variants' type."""
    function, variants = equation.split()
    return rf"^{function} \(?{variants}\.(\w+).* = (\d+)$"


def header_name(name: str) -> str:
    return CALLED.get(name) or re.sub(r"(?<=[a-z])(?=[A-Z])", "_", name).upper()


CONSTANTS = tuple(f"library_calls/src/{it}.rt" for it in ("calls", "file_calls", "number_calls", "offers", "outbox_calls", "part_calls"))


# SUMMARY stands behind the numbers of questions.
STATUS = r"const (?!SUMMARY:)([A-Z_]+): u32 = (\d+);"


@pytest.mark.parametrize(
    ("files", "row", "names", "prefix", "least"),
    [
        pytest.param(CONSTANTS, STATUS, {}, "", 20, id="the code's constants"),
        pytest.param(["library_calls/src/file_calls.rt"], r"(?:Open|Table)Fault::(\w+) => (\d+),", {}, "", 7, id="the code's opening and table"),
        pytest.param(["library_calls/src/outbox_calls.rt"], r"OutboxFault::(\w+) => (\d+),", {}, "", 6, id="the code's outbox"),
        pytest.param(["library_calls/src/number_calls.rt"], r"NumbererFault::(\w+).* => (\d+),", {}, "", 3, id="the code's numbers"),
        pytest.param(["library_calls/src/calls.rt"], r"SummaryFault::(\w+) => (\d+),", {}, "Summary", 4, id="the code's summaries"),
        pytest.param(["library_calls/specs/Files.antt"], definition("open_status opening"), {}, "", 3, id="the definition of opening"),
        pytest.param(["library_calls/specs/Files.antt"], definition("table_status table"), {}, "", 3, id="the definition of table"),
        pytest.param(["library_calls/specs/Outboxes.antt"], definition("outbox_status outbox"), {}, "", 3, id="the definition of outbox"),
        pytest.param(["library_calls/specs/Numbers.antt"], definition("number_status fault"), {}, "", 3, id="the definition of numbers"),
        pytest.param(["library_calls/specs/Parts.antt"], definition("combine_status fault"), OF_PARTS, "", 6, id="the definition of parts"),
        pytest.param(
            ["library_calls/specs/Calls.antt"],
            definition("summary_status summary"),
            {"OutOfMemory": "OutOfMemory"},
            "Summary",
            3,
            id="the definition of summaries",
        ),
        pytest.param(["event_files/specs/Numbers.antt"], definition("fault_number fault"), OF_REPORTS, "", 3, id="the definition of reports"),
        pytest.param(["event_files/src/refusal.rt"], r"ReportFault::(\w+).* => (\d),", OF_REPORTS, "", 3, id="the code's reports"),
    ],
)
def test_statuses_of_what_is_proved(files: list[str], row: str, names: dict[str, str], prefix: str, least: int) -> None:
    """By their names, which the header writes in its own way."""
    rows = [it for file in files for it in re.findall(row, read(f"crates/{file}"), re.M)]
    assert len(rows) >= least
    told = {header_name(names.get(name, f"{prefix}{name}")): int(number) for name, number in rows}
    assert told == {name: STATUSES.get(name) for name in told}
