"""Files that are no databases of these commands, or that the name of a database doesn't mean, and what `check` says of each."""
import contextlib
import shlex
import shutil
import sqlite3
from typing import Iterator

from events import AT, E1, E2, E3, E4, NO_FILE, batch, cover, event, fault, lines, numbered_events, page, pages
from old_files import NEW_INBOX, downgrade, copy_with, sqlite
from shell import Room, Row, Said, Step, answers, finds, lacks, refuses, rejects, rows

MANY = numbered_events(250, 3)
FILES = {
    "three.json": batch(E1, E2, E3),
    "first.json": batch(E1),
    "many.json": batch(*MANY),
    "nothing.json": f"{cover(None)}\n",
    "two.lines": lines(E1, batch(E1, E2)),
    "text.db": "no database, but a text that is long enough to be taken for a header of one, and more\n",
    "folder.db/": "",
}
# A table of another program, one of the name of an inbox and another form, a row that breaks a rule, and rows with a gap.
STRANGE: tuple[Step, ...] = (
    sqlite("strange.db", "CREATE TABLE strange (a INTEGER)"),
    sqlite("loose.db", "CREATE TABLE inbox (place INTEGER PRIMARY KEY, body TEXT)"),
    "site take --db s.db three.json",
    copy_with("s.db", "wrong.db", "UPDATE inbox2 SET number = 5 WHERE place = 2"),
    *(f"site order --db o.db --at {AT} {it}" for it in ("place 7", "ship 7", "place 9")),
    copy_with("o.db", "gap.db", "DELETE FROM outbox WHERE number = 2"),
)

# Files that are no databases of these commands: one line, and the file as it was.
test_foreign_files = rows(
    FILES,
    *STRANGE,
    refuses("a text", "site take --db text.db three.json", "text.db: Store", keeps="text.db"),
    refuses("a text as an outbox", "site relay --db text.db --after 0", "text.db: Store", keeps="text.db"),
    refuses("a text for lines", "site follow --db text.db two.lines", "text.db: Store", keeps="text.db"),
    refuses("a folder", "site scrub --db folder.db", "folder.db: Store"),
    refuses("a folder that is not there", "site scrub --db none/s.db", "none/s.db: Store"),
    refuses("tables of another program", "site take --db strange.db three.json", "strange.db: Store", keeps="strange.db"),
    refuses("tables of another program, for a run", "site run --db strange.db three.json", "strange.db: Store", keeps="strange.db"),
    refuses("tables of another program, for lines", "site follow --db strange.db two.lines", "strange.db: Store", keeps="strange.db"),
    refuses("orders beside them", f"site order --db strange.db --at {AT} place 1", "strange.db: Store", keeps="strange.db"),
    refuses("a table of the name and another form", "site scrub --db loose.db", "loose.db: Foreign", keeps="loose.db"),
    refuses("a row that breaks a rule", "site delta --db wrong.db nothing.json", "wrong.db: Foreign", keeps="wrong.db"),
    refuses("a row that breaks a rule, for a batch", "site take --db wrong.db three.json", "wrong.db: Foreign", keeps="wrong.db"),
    refuses("a row that breaks a rule, for a run", "site run --db wrong.db three.json", "wrong.db: Foreign", keeps="wrong.db"),
    refuses("a row that breaks a rule, for lines", "site follow --db wrong.db two.lines", "wrong.db: Foreign", keeps="wrong.db"),
    refuses("an outbox with a gap", "site relay --db gap.db --after 0", "gap.db: Foreign", keeps="gap.db"),
)


def checks(name: str, events: int, sources: int, version: int, service: str = "") -> Row:
    """A row of what `check` says a database is, with its service, where it has one; it is left as it is."""
    return answers(f"what {name} is", f"site check --db {name}", totals(name, events, sources, version) + service, keeps=name)


def totals(name: str, events: int, sources: int, version: int) -> str:
    return f'{{"db":"{name}","events":{events},"sources":{sources},"version":{version}}}\n'


def trouble(name: str, what: str, hint: str, variable: str = "", **more: str) -> Row:
    """A row of what `check` says is the matter with a database; it is left as it is."""
    typed = f"{variable}site check --db {shlex.quote(name)}"
    return finds(more.pop("of", f"what is the matter with '{name}'"), typed, fault(db=name, fault=what, hint=hint), keeps=name, **more)


UNNUMBERED = fault(
    file="unnumbered.json",
    index=0,
    id="b",
    fault="NoSequence",
    attribute="sequence",
    hint="an event needs a sequence of twenty digits, such as 00000000000000000001",
)
NO_NAME = "a database is a file: its name is neither empty nor :memory:, and doesn't begin with file:"
NO_DATABASE = "it is no database of SQLite in UTF-8, or has a schema that site can't read"
SYSTEM = "the operating system doesn't open it, lock it or read it: is it a folder, and may this user write it"
OTHERS = "it has tables of others too, or a part of it can't be read: PRAGMA integrity_check of sqlite3 says if it is damaged"
FOREIGN = "its tables or rows aren't as site leaves them: take the events from a copy, or from another site by delta"
BUSY = "another program has the file open: --wait 30 waits for it, at most 30 seconds"
NAMES = ("", ":memory:", "file:", "file:s.db", "file:s.db?mode=ro")


def damage(room: Room) -> None:
    """Makes a file with a page whose first byte is none of SQLite's, and one beside the journal of a transaction that was
    written in part."""
    data = bytearray(room.contents("many.db")["many.db"])
    data[4096] = 0x77
    with open(room.at("damaged.db"), "wb") as it:
        it.write(data)
    shutil.copy(room.at("many.db"), room.at("begun.db"))
    with contextlib.closing(sqlite3.connect(room.at("begun.db"), isolation_level=None)) as base:
        for statement in ("PRAGMA journal_mode = DELETE", "PRAGMA cache_size = 1", "BEGIN", "UPDATE inbox2 SET id = id || char(120)"):
            base.execute(statement)
        shutil.copy(room.at("begun.db"), room.at("hot.db"))
        shutil.copy(room.at("begun.db-journal"), room.at("hot.db-journal"))
        base.execute("ROLLBACK")


def check_while_busy(room: Room) -> Said:
    """A check of a file that another program writes."""
    with contextlib.closing(sqlite3.connect(room.at("is.db"), isolation_level=None)) as base:
        base.execute("BEGIN EXCLUSIVE")
        return room.run("site check --db is.db")


# What a database is; it is left as it is.
test_what_a_database_is = rows(
    {
        **FILES,
        "other.json": event("b1", 1, source="/other"),
        "four.json": batch(E1, E2, E3, E4),
        "unnumbered.json": event("b", None, source="/"),
    },
    "site take --db is.db three.json",
    checks("is.db", 3, 1, 2),
    "site take --db is.db other.json",
    checks("is.db", 4, 2, 2),
    "site take --db one.db first.json",
    downgrade("one.db", "was.db"),
    checks("was.db", 1, 1, 1),
    "site service --db told.db --source /west --base 100",
    *(f"site order --db told.db --at {AT} {it}" for it in ("place 5", "place 6", "ship 5")),
    checks("told.db", 0, 0, 0, '{"base":100,"orders":2,"rows":3,"source":"/west"}\n'),
    "site take --db f.db four.json",
    "site service --db f.db",
    downgrade("f.db", "both.db"),
    "site scrub --db both.db",
    checks("both.db", 4, 1, 2, '{"base":0,"orders":0,"rows":0,"source":"/orders"}\n'),
    sqlite("bare.db", "VACUUM"),
    checks("bare.db", 0, 0, 0),
    answers("a database, and files without a fault", "site check --db is.db three.json", totals("is.db", 4, 2, 2)),
    finds("a database, and a fault", "site check --db is.db three.json unnumbered.json", totals("is.db", 4, 2, 2) + UNNUMBERED),
    refuses("a file that is not there", "site check --db is.db missing.json", "missing.json: cannot read"),
    rejects("a check of nothing", "site check"),
    Row("a file that another program writes", check_while_busy, fault(db="is.db", fault="Store", hint=BUSY), status=1),
    "ln is.db linked.db",
    trouble("linked.db", "Store", SYSTEM),
)

# What is the matter with it.
test_what_is_the_matter = rows(
    {**FILES, "none.db": "no database", "high.json": event("b1", 1024), "unnumbered.json": event("b", None, source="/")},
    *STRANGE,
    *(trouble(it, "Store", NO_NAME) for it in NAMES),
    trouble("missing.db", "cannot read", NO_FILE, lacks="missing.db"),
    trouble("text.db", "Store", NO_DATABASE),
    trouble("none.db", "Store", NO_DATABASE),
    trouble("folder.db", "Store", SYSTEM),
    trouble("strange.db", "Store", OTHERS),
    "site take --db one.db first.json",
    downgrade("one.db", "beside.db", "CREATE TABLE strange (a INTEGER)"),
    trouble("beside.db", "Store", OTHERS),
    *(trouble(it, "Foreign", FOREIGN) for it in ("loose.db", "wrong.db", "gap.db")),
    downgrade("one.db", "bad.db", NEW_INBOX),
    trouble("bad.db", "Foreign", FOREIGN),
    "site take --db high.db high.json",
    copy_with("high.db", "block.db", "UPDATE inbox2 SET block = 0"),
    trouble("block.db", "Foreign", FOREIGN),
    finds(
        "a database at fault, and a fault",
        "site check --db wrong.db unnumbered.json",
        fault(db="wrong.db", fault="Foreign", hint=FOREIGN) + UNNUMBERED,
    ),
    "site take --db many.db many.json",
    damage,
    trouble("damaged.db", "Store", "a page of it is damaged: PRAGMA integrity_check of sqlite3 says where"),
    trouble("hot.db", "Store", "SQLite left a journal that it alone can play back: open the file once with sqlite3"),
)

# The variable that limits the cache of a database.
CACHE = "SITE_CACHE_MIB isn't a whole number from 1 to 1048576"


def no_cache(mib: str) -> Iterator[Row]:
    """What the variable can't say."""
    variable = f"SITE_CACHE_MIB={shlex.quote(mib)} "
    yield refuses(f"a cache of '{mib}'", f"{variable}site take --db is.db three.json", CACHE, keeps="is.db")
    yield trouble("is.db", "Cache", f"the variable {CACHE}", variable, of=f"a check with a cache of '{mib}'")


test_cache = rows(
    FILES,
    "site take --db is.db three.json",
    "site take --db many.db many.json",
    answers("a cache of 1 MiB", "SITE_CACHE_MIB=1 site scrub --db many.db --all", pages(*MANY)),
    answers("a cache of 1048576 MiB", "SITE_CACHE_MIB=1048576 site scrub --db many.db --all", pages(*MANY)),
    *(row for it in ("0", "1048577", "18446744073709551616", "", "x", "-1", "1.5", "1 ") for row in no_cache(it)),
)


def commands_over(name: str) -> Iterator[Row]:
    """Commands over a name that means no file to SQLite."""
    for words in (
        *("take three.json", "follow two.lines", "follow", "scrub", "scrub --all", "summary", "kinds", "run three.json"),
        *("delta nothing.json", "delta --all nothing.json", "service", "service --source /west --base 5"),
        *(f"order --at {AT} place 7", "relay --after 0", "relay --after 0 --all"),
    ):
        word, _, rest = words.partition(" ")
        yield refuses(f"{words} of '{name}'", f"site {word} --db {shlex.quote(name)} {rest}", f"{name}: Store")


# Names that mean no file to SQLite.
test_names = rows(
    FILES,
    "site take --db s.db three.json",
    'cp -r . "$PWD.before"',
    *(row for it in NAMES for row in commands_over(it)),
    lacks("such names make no file", ":memory: file: file:s.db file:s.db?mode=ro"),
    answers("and change none", 'diff -r . "$PWD.before"'),
    answers("all events are there yet", "site scrub --db s.db", page(E1, E2, E3)),
)
