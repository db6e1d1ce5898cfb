#!/usr/bin/env python3
"""Measures `jumbetai.publish()` of contrib/postgresql beside a plain INSERT of as many bytes.

usage: bench/publish.py [--clients N] [--seconds N] [--rounds N] [--prepared] [--unsynced] [--slow-sync MICROSECONDS] [--file FILE]

Both write into a PostgreSQL of its own, a transaction an event, by pgbench, in turn and so many rounds, each into a
table without rows. The row that is printed has the transactions a second of each round, and the ratio of the middles.
The caller gives the event's id in both, as a service does that has one. With --prepared each client prepares its
statement once and then binds values, as most drivers do. With --slow-sync each sync of the log takes so much longer, as on
a disk that is slower (PostgreSQL's commit_delay).
"""

import argparse
import os
import re
import sys
import tempfile

TOP = os.path.dirname(os.path.dirname(os.path.realpath(__file__)))
sys.path.insert(0, f"{TOP}/tools")
from postgres import Postgres  # noqa: E402

ROW = "\\set row random(1, 1000000000)\n"
DATA = '{"sku":"a-:row","count":3,"by":"the counter of the north"}'
# The same event as publish() writes it, from the same values.
EVENT = (
    '{"specversion":"1.0","id":"o-:row","source":"/shop/stock","type":"stock.counted","subject":"a-:row",'
    f'"time":"2026-01-01T00:00:00.000000Z","datacontenttype":"application/json","data":{DATA}}}'
)
PLAIN = "INSERT INTO plain (source, event) VALUES ('/shop/stock', '" + EVENT + "');"
PUBLISHED = f"SELECT jumbetai.publish('/shop/stock', 'stock.counted', '{DATA}', 'a-:row', id => 'o-:row');"
EACH = {"plain": (PLAIN, "plain"), "publish": (PUBLISHED, "jumbetai.waiting")}


def bound(statement: str) -> tuple[str, list[str]]:
    """The statement with its texts as values that are bound, and pgbench's words that give them."""
    texts = re.findall(r"'([^']*)'", statement)
    for at, text in enumerate(texts):
        statement = statement.replace(f"'{text}'", f":text{at}", 1)
    return statement, [word for at, text in enumerate(texts) for word in ("-D", f"text{at}={text.replace(':row', '123456789')}")]


def rate(postgres: Postgres, given: argparse.Namespace, statement: str) -> float:
    """How many transactions of the statement are done a second."""
    words = ["-h", postgres.folder, "-U", "load", "-n", "-c", str(given.clients), "-j", str(min(given.clients, 4))]
    script = ROW + statement
    if given.prepared:
        script, values = bound(statement)
        words += ["-M", "prepared", *values]
    file = f"{postgres.folder}/load.sql"
    with open(file, "w", encoding="utf-8") as it:
        it.write(script)
    said = postgres.run("pgbench", *words, "-T", str(given.seconds), "-f", file, "postgres")
    found = re.search(r"tps = ([\d.]+) \(without", said)
    if not found:
        sys.exit(f"pgbench says nothing of its rate:\n{said}")
    return float(found[1])


def main() -> None:
    words = argparse.ArgumentParser(description=__doc__, formatter_class=argparse.RawDescriptionHelpFormatter)
    words.add_argument("--clients", type=int, default=8)
    words.add_argument("--seconds", type=int, default=5)
    words.add_argument("--rounds", type=int, default=5)
    words.add_argument("--prepared", action="store_true", help="each client prepares its statement once")
    words.add_argument("--unsynced", action="store_true", help="commits don't wait for the disk")
    words.add_argument("--slow-sync", type=int, default=0, metavar="MICROSECONDS", help="how much longer a sync takes, up to 100,000")
    words.add_argument("--file", default=f"{TOP}/contrib/postgresql/outbox.sql", help="where publish() is")
    given = words.parse_args()
    with tempfile.TemporaryDirectory() as folder:
        os.chmod(folder, 0o755)
        postgres = Postgres(folder)
        if not postgres.is_there():
            sys.exit("PostgreSQL isn't installed: apt-get install postgresql")
        postgres.start()
        try:
            with open(given.file, encoding="utf-8") as it:
                postgres.sql(it.read())
            postgres.sql("CREATE TABLE plain (place bigserial PRIMARY KEY, source text NOT NULL, event text NOT NULL)")
            if given.unsynced:
                postgres.sql("ALTER SYSTEM SET synchronous_commit = off")
                postgres.sql("SELECT pg_reload_conf()")
            if given.slow_sync:
                for setting in (f"commit_delay = {given.slow_sync}", "commit_siblings = 0"):
                    postgres.sql(f"ALTER SYSTEM SET {setting}")
                postgres.sql("SELECT pg_reload_conf()")
            found: dict[str, list[float]] = {name: [] for name in EACH}
            for _ in range(given.rounds):
                for name, (statement, table) in EACH.items():
                    postgres.sql(f"TRUNCATE {table}")
                    found[name].append(rate(postgres, given, statement))
            print("| clients | plain | publish | ratio |\n|---|---|---|---|")
            shown = [", ".join(f"{it:,.0f}" for it in found[name]) for name in EACH]
            middles = [sorted(found[name])[given.rounds // 2] for name in EACH]
            print(f"| {given.clients} | {' | '.join(shown)} | {middles[1] / middles[0]:.2f} |")
        finally:
            postgres.stop()


if __name__ == "__main__":
    main()
