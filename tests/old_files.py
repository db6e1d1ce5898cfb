"""Database files that tests make or change by another program of SQLite."""
import contextlib
import os
import sqlite3
from typing import Callable

from shell import Room, Said

OLD_INBOX = (
    "CREATE TABLE inbox (place INTEGER PRIMARY KEY, source TEXT NOT NULL, id TEXT NOT NULL, "
    "number INTEGER NOT NULL, body TEXT NOT NULL, UNIQUE (source, id, body)) STRICT"
)
NEW_INBOX = OLD_INBOX.replace("inbox", "inbox2").replace("body TEXT NOT NULL", "body TEXT NOT NULL, block INTEGER NOT NULL")


def sqlite(file: str, *statements: str) -> Callable[[Room], object]:
    """A step by which another program writes to a file."""
    return lambda room: room.sqlite(file, *statements)


def while_held(file: str, act: Callable[[Room], Said], *statements: str) -> Callable[[Room], Said]:
    """What comes of an act while another program has a file open, in which it has said these statements."""

    def acted(room: Room) -> Said:
        with contextlib.closing(sqlite3.connect(room.at(file), isolation_level=None)) as base:
            for it in statements:
                base.execute(it)
            return act(room)

    return acted


def copy_with(old: str, new: str, statement: str) -> Callable[[Room], object]:
    """A step that makes a file of another one by a statement."""

    def make(room: Room) -> None:
        room.put({new: ""})
        with open(room.at(new), "wb") as it:
            it.write(room.contents(old)[old])
        room.sqlite(new, "PRAGMA journal_mode = DELETE", statement)

    return make


def downgrade(old: str, new: str, *statements: str) -> Callable[[Room], object]:
    """A step that makes a file of before of a file of now, with whatever stands beside the inbox: its inbox has no blocks. The
    first command that may write to it makes the table of now in its place."""

    def make(room: Room) -> None:
        with contextlib.suppress(FileNotFoundError):
            os.remove(room.at(new))
        with contextlib.closing(sqlite3.connect(room.at(new))) as base:
            base.execute("ATTACH ? AS now", (room.at(old),))
            base.execute("PRAGMA foreign_keys = OFF")
            for name, sql in base.execute("SELECT name, sql FROM now.sqlite_schema WHERE sql IS NOT NULL ORDER BY rowid").fetchall():
                is_inbox = name == "inbox2"
                base.execute(OLD_INBOX if is_inbox else sql)
                what = "inbox SELECT place, source, id, number, body FROM now.inbox2 ORDER BY place" if is_inbox else f"{name} SELECT * FROM now.{name}"
                base.execute(f"INSERT INTO {what}")
            base.commit()
            for it in statements:
                base.execute(it)
            base.commit()

    return make
