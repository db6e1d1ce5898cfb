"""The mistakes that people make at the command line: what is typed, what is told, and what it says to do next.

A refusal is typed twice: with standard error on a pipe, where one line is told, and on a terminal, where a hint stands behind
it. What was made without a word for it is told in both.
"""
import json
import os
from typing import Iterator

import pytest
from events import AT, acknowledgement, batch, event, fault, lines, order_event, page
from old_files import copy_with, sqlite, while_held
from shell import Has, Hint, Room, Row, Wanted, answers, finds, lacks, rejects, rows
from terminal import TERMINAL, on_terminal

HELP = "For more information, try '--help'."
CHECK = "site check FILE says of each event what is wrong"
LINES_CHECK = "site check --lines FILE"
BEGIN = "echo '[]' | site take --db DB - begins one"
BUSY = "another program has the file open: --wait 30 waits for it"
BY_LINES = "with --lines take, run, check and the questions read them so"
GOOD_LINES = "follow keeps the good ones"
# To root no file is closed.
USER = pytest.mark.skipif(os.geteuid() == 0, reason="root reads and writes every file")

GOOD, NEXT = event("e1", 1, "sold"), event("e2", 2, "sold")
PRICE = event("e2", 2, "sold", data={"price": 1.5})
BARE = event("e1", None, "sold")
FILES = {
    "good.json": GOOD,
    "empty.json": "",
    "blank.json": "\n \n",
    "cut.json": GOOD[:40],
    "marked.json": f"\ufeff{GOOD}",
    "lines.json": lines(GOOD, NEXT),
    "mixed.json": lines(GOOD, "no"),
    "plain.txt": "hello\n",
    "page.html": "<html></html>\n",
    "three.json": "3",
    "text.json": '"no"',
    "nosequence.json": BARE,
    "short.json": event("e1", "1", "sold"),
    "counted.json": event("e1", "1", "sold").replace('"1"', "1"),
    "price.json": batch(GOOD, PRICE),
    "untyped.json": GOOD.replace(',"type":"sold"', ""),
    "version.json": GOOD.replace('"1.0"', '"0.3"'),
    "camel.json": event("e1", 1, "sold", traceId="x"),
    "pretty.json": json.dumps(json.loads(event("e1", 1, "sold", x0=0, x1=1, x2=2, x3=3, x4=4)), indent=2) + "\n",
    "faults.json": "\n".join([PRICE, "no", BARE, event("e3", 3, "sold", data=[0.5])]),
    "later.summary": '{"sources":{},"version":3}',
    "folder/": "",
}


def faulty(typed: str, told: str, then: str = HELP) -> Row:
    """Words that are at fault: what is told of them, and what they could be, or where that is told."""
    return rejects(typed, f"site {typed}", Has(told, then))


# Faulty words.
test_words = rows(
    FILES,
    rejects("no word", "site", Has("Usage: site <COMMAND>", "Commands:")),
    faulty("tak --db n.db good.json", "unrecognized subcommand 'tak'"),
    faulty("import good.json", "unrecognized subcommand 'import'"),
    faulty("good.json", "unrecognized subcommand 'good.json'"),
    faulty("--db n.db take good.json", "the command comes first: site take --db n.db good.json"),
    faulty("--db=n.db summary", "the command comes first: site summary --db=n.db"),
    faulty("--wait 3 take --db n.db good.json", "the command comes first: site take --wait 3 --db n.db good.json"),
    faulty("--db n.db", "unexpected argument '--db' found"),
    faulty("-x", "unexpected argument '-x' found"),
    faulty("take good.json", "required arguments were not provided", "--db <DB>"),
    faulty("take --db n.db", "required arguments were not provided", "<FILE>..."),
    faulty("take n.db good.json", "required arguments were not provided", "--db <DB>"),
    faulty("take --db", "a value is required for '--db <DB>'"),
    faulty("take --database n.db good.json", "unexpected argument '--database' found"),
    faulty("take -db n.db good.json", "unexpected argument '-d' found"),
    faulty("take --db n.db --db m.db good.json", "the argument '--db <DB>' cannot be used multiple times"),
    faulty("take --db n.db --force good.json", "unexpected argument '--force' found"),
    faulty("cover", "a file or a database is wanted", "--db <DB>"),
    faulty("cover --lines", "a file or a database is wanted", "--db <DB>"),
    faulty("take --db n.db --line lines.json", "unexpected argument '--line' found", "--lines"),
    faulty("run --db n.db --line lines.json", "unexpected argument '--line' found", "--lines"),
    faulty("check", "a file or a database is wanted", "--db <DB>"),
    faulty("check --number good.json", "unexpected argument '--number' found"),
    faulty("summary north.db", "unexpected argument 'north.db' found"),
    faulty("summary", "required arguments were not provided", "--db <DB>"),
    faulty("follow --db n.db a.json b.json", "unexpected argument 'b.json' found"),
    faulty("delta --db north.db", "required arguments were not provided", "<SUMMARY>"),
    faulty("delta --db north.db --all --from 100 north.summary", "'--from <N>' cannot be used with '--all'"),
    faulty("scrub --db north.db --from -1", "unexpected argument '-1' found"),
    faulty("scrub --db north.db --from ten", "invalid value 'ten' for '--from <N>'", "a number of 1 to 20 digits"),
    faulty("scrub --db north.db --from 18446744073709551616", "invalid value '18446744073709551616'", "below 2^64"),
    faulty("arrivals --db north.db", "required arguments were not provided", "--after <N>"),
    faulty("arrivals --db north.db --after last", "invalid value 'last' for '--after <N>'", "a number of 1 to 20 digits"),
    faulty("relay --db orders.db", "required arguments were not provided", "--after <N>"),
    rejects("run --db n.db, and good.json seventeen times", f"site run --db n.db{' good.json' * 17}", Has("at most 16 files", HELP)),
    faulty("service --db n.db --base ten", "invalid value 'ten' for '--base <N>'", "a number from 0 to"),
    faulty("service --db n.db --source=", "invalid value '' for '--source <S>'", "without a control character"),
    faulty("order --db orders.db place 7", "required arguments were not provided", "--at <TIME>"),
    faulty("order --db orders.db --at now place 7", "invalid value 'now' for '--at <TIME>'", "such as 2024-02-29T10:00:00Z"),
    faulty("order --db orders.db --at 2024-02-29 place 7", "invalid value '2024-02-29'", "such as 2024-02-29T10:00:00Z"),
    faulty(f"order --db orders.db --at {AT} send 7", "invalid value 'send'", "place, ship or cancel"),
    faulty(f"order --db orders.db --at {AT} 7 place", "invalid value '7'", "place, ship or cancel"),
    faulty(f"order --db orders.db --at {AT} place 0", "invalid value '0'", "a number from 1 to"),
    faulty(f"order --db orders.db --at {AT} place A7", "invalid value 'A7'", "a number from 1 to"),
    faulty("number", "required arguments were not provided", "--db <NUMBERS>"),
    faulty("number --db n.db --base ten good.json", "invalid value 'ten' for '--base <N>'", "a number from 0 to"),
    faulty("part good.json", "required arguments were not provided", "--of <N>"),
    faulty("part --of 0 good.json", "invalid value '0' for '--of <N>'", "a number from 1 to 65536"),
    faulty("part --of 4 --part 4 good.json", "invalid value '4' for '--part <I>'", "a number from 0, below that of --of"),
    faulty("combine good.json", "required arguments were not provided", "<FILE>..."),
    faulty("combine good.json count", "invalid value 'good.json' for '<QUESTION>'", "cover, gaps, shown,"),
    faulty("take --db n.db --wait good.json", "required arguments were not provided", "<FILE>..."),
    faulty("take --db n.db --wait 1.5 good.json", "invalid value '1.5' for '--wait <SECONDS>'", "a number from 0 to 86400"),
    faulty("take --db n.db --wait 10s good.json", "invalid value '10s' for '--wait <SECONDS>'", "a number from 0 to 86400"),
    faulty("take --db n.db --wait 100000 good.json", "invalid value '100000'", "a number from 0 to 86400"),
    lacks("faulty words make no file", "n.db m.db north.db orders.db"),
)


def refused(typed: str, told: str, hint: str, out: Wanted = "", wants: tuple[pytest.MarkDecorator, ...] = ()) -> Iterator[Row]:
    """Rows of a refusal, off a terminal and on one."""
    line = f"site: {told}\n"
    yield Row(typed, f"site {typed}", out, line, 1, wants=wants)
    yield Row(f"{typed}, on a terminal", on_terminal(f"site {typed}"), out, Hint(line, hint), 1, wants=(TERMINAL, *wants))


def touch(room: Room) -> None:
    """Lays a summary out otherwise."""
    room.put({"touched.summary": json.dumps(json.loads(room.contents("north.summary")["north.summary"]), indent=1)})


# Files that can't be read, or aren't what the command takes.
test_files = rows(
    {**FILES, "denied.json": GOOD},
    "chmod 0 denied.json",
    "truncate -s 33554433 large.json",
    "gzip -c good.json >packed.json.gz",
    "iconv -f UTF-8 -t UTF-16 good.json >wide.json",
    "site take --db north.db good.json",
    "site summary --db north.db >north.summary",
    touch,
    *refused("cover nothere.json", "nothere.json: cannot read", "there is no file of that name"),
    *refused("take --db n.db nothere.json", "nothere.json: cannot read", "there is no file of that name"),
    *refused("run --db n.db good.json nothere.json", "nothere.json: cannot read", "there is no file of that name"),
    *refused("follow --db n.db nothere.json", "nothere.json: cannot read", "there is no file of that name"),
    *refused("check nothere.json", "nothere.json: cannot read", "there is no file of that name"),
    *refused("delta --db north.db nothere.summary", "nothere.summary: cannot read", "there is no file of that name"),
    *refused("cover folder", "folder: cannot read", "it is a folder"),
    *refused("take --db n.db folder", "folder: cannot read", "it is a folder"),
    *refused("cover denied.json", "denied.json: cannot read", "this user may not read it", wants=(USER,)),
    *refused("cover large.json", "large.json: too large", "at most 33,554,432 bytes"),
    *refused("check large.json", "large.json: too large", "at most 33,554,432 bytes"),
    *refused("delta --db north.db large.json", "large.json: too large", "at most 33,554,432 bytes"),
    *refused("cover empty.json", "empty.json: not JSON", "it is empty"),
    *refused("take --db n.db blank.json", "blank.json: not JSON", "it is empty"),
    *refused("kinds marked.json", "marked.json: not JSON", "a byte order mark"),
    *refused("kinds packed.json.gz", "packed.json.gz: not JSON", "gzip -dc"),
    *refused("kinds wide.json", "wide.json: not JSON", "iconv -f UTF-16"),
    *refused("kinds lines.json", "lines.json: not JSON", BY_LINES),
    *refused("take --db n.db lines.json", "lines.json: not JSON", BY_LINES),
    *refused("kinds --lines pretty.json", "pretty.json line 1: not JSON", "without --lines a file is one event"),
    *refused("take --db n.db --lines mixed.json", "mixed.json line 2: not JSON", GOOD_LINES),
    *refused("take --db n.db --lines lines.json price.json", "price.json line 1: event 1: DataNumber", LINES_CHECK),
    *refused("run --db n.db --lines lines.json mixed.json", "mixed.json line 2: not JSON", GOOD_LINES),
    *refused("run --db n.db --lines --peer price.json lines.json", "price.json line 1: event 1: DataNumber", LINES_CHECK),
    *refused("kinds --lines north.db", "north.db line 1: not JSON", "it is a database: give it as --db"),
    *refused("kinds --lines packed.json.gz", "packed.json.gz line 1: not JSON", "gzip -dc"),
    *refused("kinds --lines three.json", "three.json line 1: not an event or a batch", LINES_CHECK),
    *refused("cover --lines nothere.json", "nothere.json: cannot read", "there is no file of that name"),
    *refused("take --db n.db north.db", "north.db: not JSON", "it is a database: give it as --db"),
    *refused("cover north.db", "north.db: not JSON", "it is a database: give it as --db"),
    *refused("cover cut.json", "cut.json: not JSON", "jq . FILE says"),
    *refused("cover plain.txt", "plain.txt: not JSON", "jq . FILE says"),
    *refused("cover page.html", "page.html: not JSON", "jq . FILE says"),
    *refused("cover three.json", "three.json: not an event or a batch", "an object, or an array of events"),
    *refused("cover text.json", "text.json: not an event or a batch", "an object, or an array of events"),
    *refused("cover north.summary", "north.summary: event 0: SpecVersion", "it is a summary"),
    *refused("take --db n.db north.summary", "north.summary: event 0: SpecVersion", "it is a summary"),
    *refused("cover nosequence.json", "nosequence.json: event 0: NoSequence", CHECK),
    *refused("cover short.json", "short.json: event 0: BadSequence", CHECK),
    *refused("cover counted.json", "counted.json: event 0: BadSequence", CHECK),
    *refused("cover price.json", "price.json: event 1: DataNumber", CHECK),
    *refused("cover untyped.json", "untyped.json: event 0: Kind", CHECK),
    *refused("cover version.json", "version.json: event 0: SpecVersion", CHECK),
    *refused("cover camel.json", "camel.json: event 0: ExtensionName", CHECK),
    *refused("cover good.json empty.json", "empty.json: not JSON", "it is empty"),
    *refused("delta --db north.db good.json", "good.json: Shape", "site summary --db DB prints"),
    *refused("delta --db north.db lines.json", "lines.json: not JSON", "these are events"),
    *refused("delta --db north.db empty.json", "empty.json: not JSON", "it is empty"),
    *refused("delta --db north.db touched.summary", "touched.summary: NotCanonical", "as site summary prints it"),
    *refused("delta --db north.db later.summary", "later.summary: Version", "version 1 and 2"),
    lacks("refused files make no database", "n.db"),
)


# Answers of parts that make none.
test_answers_of_parts = rows(
    FILES,
    "site cover good.json >good.cover",
    "site kinds good.json >good.kinds",
    *refused("combine cover nothere.cover", "nothere.cover: cannot read", "there is no file of that name"),
    *refused("combine --cover folder kinds good.kinds", "folder: cannot read", "it is a folder"),
    *refused("combine cover good.json", "good.json: NotACover", "what site cover prints"),
    *refused("combine shown good.json", "good.json: NotAnAnswer", "what site QUESTION prints"),
    *refused("combine kinds good.kinds", "0 covers beside 1 answers: CoverCount", "--cover FILE, in the same order"),
    *refused("part --of 2 --into nothere/p good.json", "nothere/p0.json: cannot write", "is there such a folder"),
    *refused("combine cover good.cover good.cover", "good.cover: Overlap with good.cover: /orders", "site part --of N FILE says"),
)


def refused_lines(*faults: str) -> str:
    """What `follow` says of lines that are all at fault."""
    return "".join(fault(line=line, fault=it) for line, it in enumerate(faults, 1))


# Lines that follow refuses.
test_lines = rows(
    FILES,
    "site take --db n.db good.json",
    *refused("follow --db n.db pretty.json", "12 lines refused", "jq -c . FILE puts each on its own", refused_lines(*["not JSON"] * 12)),
    *refused(
        "follow --db n.db mixed.json",
        "1 lines refused",
        "not JSON 1: each line that was refused has its fault on standard output",
        acknowledgement(1, 0, 1) + fault(line=2, fault="not JSON"),
    ),
    *refused(
        "follow --db n.db faults.json",
        "4 lines refused",
        "DataNumber 2, not JSON 1, NoSequence 1: each line",
        refused_lines("event 0: DataNumber", "not JSON", "event 0: NoSequence", "event 0: DataNumber"),
    ),
)

# Databases that aren't there, aren't databases, or aren't of the service that is named.
test_databases = rows(
    FILES,
    *(f"site take --db {it}.db good.json" for it in ("north", "linked", "readonly")),
    "site summary --db north.db >north.summary",
    *(f"site order --db {it}.db --at {AT} place 7" for it in ("orders", "shipped")),
    f"site order --db shipped.db --at {AT} ship 7",
    "ln linked.db linked2.db",
    "chmod 400 readonly.db",
    sqlite("others.db", "CREATE TABLE cars (wheels INTEGER)"),
    copy_with("north.db", "spoilt.db", "UPDATE inbox2 SET number = 2"),
    *refused("summary --db typo.db", "typo.db: cannot read", BEGIN),
    *refused("gaps --db typo.db", "typo.db: cannot read", BEGIN),
    *refused("delta --db typo.db --all north.summary", "typo.db: cannot read", BEGIN),
    *refused("arrivals --db typo.db --after 0", "typo.db: cannot read", BEGIN),
    *refused("take --db folder good.json", "folder: Store", "is it a folder"),
    *refused("summary --db folder", "folder: Store", "is it a folder"),
    *refused("take --db no/such/n.db good.json", "no/such/n.db: Store", "is the folder there"),
    *refused("take --db :memory: good.json", ":memory:: Store", "a database is a file"),
    *refused("summary --db file:north.db", "file:north.db: Store", "a database is a file"),
    *refused("summary --db=", ": Store", "a database is a file"),
    *refused("summary --db good.json", "good.json: Store", "it is no database of SQLite"),
    *refused("take --db good.json good.json", "good.json: Store", "it is no database of SQLite"),
    *refused("take --db others.db good.json", "others.db: Store", "tables of others"),
    *refused("summary --db linked.db", "linked.db: Store", "the operating system doesn't open it"),
    *refused("take --db readonly.db good.json", "readonly.db: Store", "may this user write it", wants=(USER,)),
    *refused("summary --db spoilt.db", "spoilt.db: Foreign", "take the events from a copy"),
    *refused("service --db orders.db --base 100", "orders.db: Foreign", '{"base":0,"orders":1,"rows":1,"source":"/orders"}: leave --base out'),
    *refused("service --db orders.db --source /tickets", "orders.db: another source", '"source":"/orders"}: leave --source out'),
    *refused(f"order --db orders.db --source /tickets --at {AT} place 9", "orders.db: another source", '"source":"/orders"}: leave --source out'),
    *refused(f"order --db orders.db --at {AT} place 7", "order 7: OrderExists", "placed once"),
    *refused(f"order --db orders.db --at {AT} ship 8", "order 8: NoOrder", "placed before it is shipped"),
    *refused(f"order --db shipped.db --at {AT} cancel 7", "order 7: WrongState", "shipped or cancelled once"),
    lacks("a name that is mistyped makes no database", "typo.db"),
)


def refused_while_busy(typed: str) -> Iterator[Row]:
    """Rows of a refusal while another program has the database to itself, off a terminal and on one."""
    line, alone = "site: busy.db: Store\n", ("PRAGMA locking_mode = EXCLUSIVE", "BEGIN EXCLUSIVE")
    yield Row(typed, while_held("busy.db", lambda room: room.run(f"site {typed}"), *alone), "", line, 1)
    act = while_held("busy.db", on_terminal(f"site {typed}"), *alone)
    yield Row(f"{typed}, on a terminal", act, "", Hint(line, BUSY), 1, wants=(TERMINAL,))


# A database that another program has open.
test_busy_database = rows(
    FILES,
    "site take --db busy.db good.json",
    *refused_while_busy("summary --db busy.db"),
    *refused_while_busy("gaps --db busy.db"),
    *refused_while_busy("take --db busy.db good.json"),
    *refused_while_busy("follow --db busy.db good.json"),
    *refused_while_busy("run --db busy.db good.json"),
    *refused_while_busy("relay --db busy.db --after 0"),
    *refused_while_busy("summary --db busy.db --wait 1"),
    answers(
        "ten questions at once, each of which waits",
        'for it in {1..10}; do site kinds --db busy.db --wait 30 & all+=($!); done; for it in "${all[@]}"; do wait "$it" || exit; done',
        '["sold",1]\n' * 10,
    ),
)


def told(typed: str, lines_told: str) -> Row:
    """A row of what is made without a word for it, which is told wherever standard error leads."""
    return answers(typed, f"site {typed}", page(), err=lines_told)


def silent(typed: str, out: str, what: str = "") -> Row:
    """A row of what is done, and of which nothing is told."""
    return answers(what or typed, f"site {typed}", out)


# What is made of a name that is mistyped, and what is made as its command says.
test_what_is_made = rows(
    FILES,
    "site take --db north.db good.json",
    "site summary --db north.db >north.summary",
    told("delta --db made1.db north.summary", "site: made1.db: made, it wasn't there\n"),
    told("scrub --db made2.db", "site: made2.db: made, it wasn't there\n"),
    told("relay --db made3.db --after 0", "site: made3.db: made, it wasn't there\nsite: made3.db: a service /orders was made in it\n"),
    told("relay --db north.db --after 0", "site: north.db: a service /orders was made in it\n"),
    silent("relay --db north.db --after 0", page(), "relay --db north.db --after 0, again"),
    silent("scrub --db made1.db", page()),
    silent("take --db made4.db good.json", "read 1 new 1 repeated 0\n"),
    silent("follow --db made5.db good.json", acknowledgement(1, 1, 0)),
    silent("run --db made6.db good.json", 'read 1 refused 0 held 1\n{"sources":{"/orders":[[1,1]]},"version":1}\n'),
    silent("service --db made7.db", '{"base":0,"orders":0,"rows":0,"source":"/orders"}\n'),
    silent(f"order --db made8.db --at {AT} place 1", lines(order_event(1, 1, "placed"))),
    silent("scrub --db north.db --all", page(GOOD)),
)


def checked(typed: str, part: str) -> Row:
    """A row of what `check` finds, which says what to do."""
    return finds(f"check {typed}", f"site check {typed}", Has(part))


# What check says to do.
test_checks = rows(
    FILES,
    sqlite("others.db", "CREATE TABLE cars (wheels INTEGER)"),
    checked("lines.json", "jq -s . makes one"),
    checked("--lines lines.json price.json", '"file":"price.json line 1","index":1,"id":"e2","fault":"DataNumber"'),
    checked("--lines mixed.json", '"file":"mixed.json line 2","fault":"not JSON"'),
    checked("price.json", "write others as texts"),
    checked("--numbers good.json", '"file":"good.json","index":0,"id":"e1","fault":"HasSequence","hint":"number gives an event its sequence'),
    checked("--numbers --lines lines.json mixed.json", '"file":"mixed.json line 2","fault":"not JSON","hint":"a file is one JSON text'),
    checked("--numbers price.json", '"file":"price.json","index":1,"id":"e2","fault":"DataNumber"'),
    answers("check --numbers nosequence.json", "site check --numbers nosequence.json"),
    checked("--numbers three.json", '"fault":"not an event or a batch"'),
    checked("nosequence.json", "an event needs a sequence"),
    checked("short.json", "pad it with zeros on the left"),
    checked("--db folder", "is it a folder"),
    checked("--db typo.db", "there is no file of that name"),
    checked("--db others.db", "tables of others"),
)
