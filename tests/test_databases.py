"""Events in a database: what is taken, handed on page by page, and answered, and what that leaves in the file."""
from typing import Iterator

from blocks import summary_of
from events import AT, E1, E2, E3, QUESTIONS, batch, cover, event, lines, numbered_events, page, pages
from old_files import sqlite
from shell import SOME, As, Row, answers, asks, fails, finds, lacks, refuses, rejects, rows

MANY = numbered_events(250, 3)
FILES = {
    "three.json": batch(E1, E2, E3),
    "two.json": batch(E2, E3),
    "many.json": batch(*MANY),
    "held.json": '{"sources":{"/orders":[[2,2]]},"version":1}',
    "nothing.json": f"{cover(None)}\n",
}

# Taking, and what another site lacks.
test_taking = rows(
    FILES,
    answers("repeats within the files", "site take --db s.db three.json two.json", "read 5 new 3 repeated 2\n"),
    answers("events that are there", "site take --db s.db two.json", "read 2 new 0 repeated 2\n"),
    answers("all events", "site scrub --db s.db", page(E1, E2, E3)),
    answers("events from a place", "site scrub --db s.db --from 2", page(E3)),
    answers("no event behind the last", "site scrub --db s.db --from 3", page()),
    answers("what a summary lacks", "site delta --db s.db held.json", page(E1, E3)),
    answers("what it lacks from a place", "site delta --db s.db --from 1 held.json", page(E3)),
    answers("a summary with a line end", "site delta --db s.db nothing.json", page(E1, E2, E3)),
    answers("a new file", "site delta --db new.db nothing.json", page(), err="site: new.db: made, it wasn't there\n"),
    refuses("files are read before the database is opened", "site take --db s.db three.json missing.json", "missing.json: cannot read"),
    asks(
        "the rows as SQLite has them",
        "s.db",
        "SELECT place, source, id, number, block FROM inbox2 ORDER BY place",
        lines("1|/orders|a1|1|0", "2|/orders|a2|2|0", "3|/orders|a3|3|0"),
    ),
    asks("the file as SQLite tests it", "s.db", "PRAGMA integrity_check", "ok\n"),
    fails("taking with standard output closed", "site take --db closed.db three.json >&-"),
    answers("it was kept all the same", "site take --db closed.db three.json", "read 3 new 0 repeated 3\n"),
)

# What came, in the order in which it came: here not that of the keys.
test_arrivals = rows(
    FILES,
    "site take --db came.db two.json",
    "site take --db came.db three.json",
    answers("what came", "site arrivals --db came.db --after 0", page(E2, E3, E1)),
    answers("what came behind the second", "site arrivals --db came.db --after 2", page(E1)),
    answers("all that came behind the first", "site arrivals --db came.db --after 1 --all", page(E3, E1)),
    answers("nothing came behind the last", "site arrivals --db came.db --after 3", page()),
    answers("nor far behind it", "site arrivals --db came.db --after 18446744073709551615 --all"),
    refuses("no file is made for what came", "site arrivals --db none.db --after 0", "none.db: cannot read", lacks="none.db"),
    rejects("no number", "site arrivals --db came.db"),
    rejects("a number below 0", "site arrivals --db came.db --after -1"),
    rejects("a word behind --all", "site arrivals --db came.db --after 0 --all 1"),
    rejects("no database", "site arrivals --after 0"),
)


def fault_of_summary(fault: str, summary: str) -> Row:
    """A row by which the fault of a summary is named."""
    return refuses(f"the summary {summary}", "site delta --db unmade.db faulty.json", f"faulty.json: {fault}", files={"faulty.json": summary})


# A summary at fault is named, and no file is made.
test_summaries_at_fault = rows(
    {},
    fault_of_summary("not JSON", ""),
    fault_of_summary("not JSON", "{"),
    fault_of_summary("Shape", "[]"),
    fault_of_summary("Shape", '{"version":1}'),
    fault_of_summary("Shape", '{"version":-1}'),
    fault_of_summary("Shape", '{"sources":{"/orders":[[1]]},"version":1}'),
    fault_of_summary("Shape", '{"sources":{},"version":1,"x":0}'),
    fault_of_summary("Version", '{"sources":{},"version":3}'),
    fault_of_summary("NotCanonical", '{"sources":{}, "version":1}'),
    fault_of_summary("NotCanonical", '{"sources":{"/orders":[]},"version":1}'),
    fault_of_summary("NotCanonical", '{"sources":{"/orders":[[0,1]]},"version":1}'),
    fault_of_summary("NotCanonical", '{"sources":{"/orders":[[2,1]]},"version":1}'),
    fault_of_summary("NotCanonical", '{"sources":{"/orders":[[1,3],[4,6]]},"version":1}'),
    fault_of_summary("NotCanonical", '{"sources":{"/orders":[[1,18446744073709551615]]},"version":1}'),
    fault_of_summary("NotCanonical", '{"sources":{"":[[1,1]]},"version":1}'),
    fault_of_summary("NotCanonical", '{"sources":{"/a":[[1,1]],"/a":[[2,2]]},"version":1}'),
    lacks("a summary at fault makes no file", "unmade.db"),
)

# Lines of files: all are taken, in their order, or none.
test_lines_of_files = rows(
    {"some.lines": f"{E2}\n \n{batch(E1, E2)}\n", "bad.lines": f"{E3}\nno\n", "one.lines": E3},
    answers("lines that are taken", "site take --db lines.db --lines some.lines", "read 3 new 2 repeated 1\n"),
    answers("lines in their order", "site arrivals --db lines.db --after 0", page(E2, E1)),
    refuses("a line at fault", "site take --db lines.db --lines some.lines bad.lines", "bad.lines line 2: not JSON"),
    refuses("a line at fault makes no file", "site take --db unmade.db --lines bad.lines", "bad.lines line 2: not JSON", lacks="unmade.db"),
    answers("what lines left", "site shown --db lines.db", lines(E1, E2)),
    answers("a database and lines", "site shown --db lines.db --lines one.lines some.lines", lines(E1, E2, E3)),
)


def one_page(place: int) -> Iterator[Row]:
    """The page behind a place, where a page has at most a hundred events."""
    for words in (f"delta --db many.db --from {place} nothing.json", f"scrub --db many.db --from {place}"):
        yield answers(words, f"site {words}", page(*MANY[place : place + 100]))


def every_page(words: str, one: str) -> Iterator[Row]:
    """All pages, each a line, and then by a loop that asks for one page after the other."""
    yield answers(words, f"site {words}", pages(*MANY))
    yield answers(f"{words}: as page by page", f"site {words}", As(f"for from in 0 100 200; do site {one} || exit; done"))


# More events than a page holds.
test_pages = rows(
    {**FILES, "page.json": page(*MANY[:100])},
    "site take --db s.db three.json",
    answers("250 events", "site take --db many.db many.json", "read 250 new 250 repeated 0\n"),
    *(row for place in (0, 100, 200, 250) for row in one_page(place)),
    *every_page("delta --db many.db --all nothing.json", "delta --db many.db --from $from nothing.json"),
    *every_page("scrub --db many.db --all", "scrub --db many.db --from $from"),
    *every_page("arrivals --db many.db --all --after 0", "arrivals --db many.db --after $from"),
    answers("all of less than a page", "site scrub --db s.db --all", page(E1, E2, E3)),
    answers("all that a summary lacks", "site delta --db s.db --all held.json", page(E1, E3)),
    "site cover three.json >three.summary",
    answers("nothing lacks", "site delta --db s.db --all three.summary"),
    answers("a line is a batch", "site take --db first.db page.json", "read 100 new 100 repeated 0\n"),
    fails("all pages to a closed stream", "site scrub --db many.db --all >&-"),
)


def rising(other: int = 0) -> list[str]:
    """250 events of two blocks, of which one may be of another type."""
    return [event(f"{it:020d}", it, "t.b" if it == other else "t.a") for it in range(900, 1150)]


RISING, OTHER = rising(), rising(1100)

# Events of two blocks, which came with the greatest number first.
test_blocks = rows(
    {
        "falling.json": batch(*RISING[::-1]),
        "other.json": batch(*OTHER),
        "some.summary": '{"sources":{"/orders":[[900,1000],[1120,2000]]},"version":1}',
        "all.summary": '{"sources":{"/orders":[[900,1149]]},"version":1}',
    },
    answers("events in falling order", "site take --db s.db falling.json", "read 250 new 250 repeated 0\n"),
    "site take --db other.db other.json",
    answers("a summary is that of the events", "site summary --db s.db | tee s.summary", f"{summary_of(*RISING)}\n"),
    answers("and of one that is another", "site summary --db other.db | tee other.summary", f"{summary_of(*OTHER)}\n"),
    finds("which isn't the same", "cmp s.summary other.summary", SOME),
    answers("all events, page after page", "site scrub --db s.db --all", pages(*RISING)),
    answers("what a summary of numbers lacks", "site delta --db s.db --all some.summary", pages(*RISING[101:220])),
    answers("of events under the same numbers it says nothing", "site delta --db s.db --all all.summary"),
    answers("a block with another event comes whole", "site delta --db s.db --all other.summary", pages(*RISING[124:])),
    answers("blocks that are the same don't", "site delta --db s.db --all s.summary"),
)


def without_inbox(name: str, count: int) -> Iterator[Row]:
    """A database without an inbox holds nothing, and none is made in it. A file of no bytes gets its first page."""
    keeps = name * (name != "empty.db")
    yield answers(f"the events of {name}", f"site shown --db {name}", keeps=keeps)
    yield answers(f"its summary: {name}", f"site summary --db {name}", f"{summary_of()}\n", keeps=keeps)
    yield answers(f"all pages of it: {name}", f"site scrub --db {name} --all", keeps=keeps)
    yield answers(f"what a summary lacks of it: {name}", f"site delta --db {name} --all some.summary", keeps=keeps)
    yield asks(f"its tables: {name}", name, "SELECT count(*) FROM sqlite_schema", f"{count}\n")


test_databases_without_an_inbox = rows(
    {"some.summary": cover(7), "empty.db": ""},
    "site service --db served.db",
    sqlite("vacant.db", "CREATE TABLE t (a)", "DROP TABLE t"),
    *(row for name, count in (("empty.db", 0), ("vacant.db", 0), ("served.db", 3)) for row in without_inbox(name, count)),
)


def questions_of_database(question: str) -> Iterator[Row]:
    """A question of a database answers as of the files that were taken, with other files beside them too."""
    yield answers(f"{question} of a database", f"site {question} --db s.db", As(f"site {question} three.json"))
    yield answers(f"{question} of a database and files", f"site {question} --db s.db many.json two.json", As(f"site {question} many.json three.json"))


# Summaries, and questions over a database.
test_summaries_and_questions = rows(
    FILES,
    "site take --db s.db three.json",
    "site take --db many.db many.json",
    answers("a summary", "site summary --db s.db | tee s.summary", SOME),
    answers("a database lacks nothing of its own", "site delta --db s.db s.summary", page()),
    answers("by the summary of another site", "site delta --db many.db --all s.summary", pages(*MANY)),
    *(row for it in QUESTIONS for row in questions_of_database(it)),
    answers("a question changes nothing", "site take --db s.db three.json", "read 3 new 0 repeated 3\n"),
    f"site order --db served.db --at {AT} place 7",
    "cp served.db served.before",
    answers("a summary beside a service alone", "site summary --db served.db", SOME),
    answers("a question beside a service alone", "site kinds --db served.db"),
    answers("nothing is made beside it", "cmp served.db served.before"),
)


def absence(words: str) -> Row:
    """What only reads a database makes none."""
    word, _, rest = words.partition(" ")
    return refuses(f"{words} of a database that isn't there", f"site {word} --db absent.db {rest}", "absent.db: cannot read")


test_databases_that_are_not_there = rows(
    {**FILES, "bad.json": "[{}]"},
    "site take --db s.db three.json",
    *map(absence, ("summary", "scrub --all", "arrivals --after 0", "delta --all nothing.json", "cover", "kinds three.json")),
    refuses("files are read before the database of a question", "site cover --db s.db missing.json", "missing.json: cannot read"),
    refuses("and judged", "site cover --db absent.db bad.json", "bad.json: event 0: SpecVersion"),
    lacks("none of them makes a file", "absent.db"),
)
