#!/usr/bin/env python3
"""Kills a PostgreSQL with an outbox, its writers and its readers at random moments, and looks at what the sites then hold.

    tools/kill_outbox.py [--program FILE] [--site FILE] [--rounds N] [--seed N]    by default 200 rounds

Each round eight writers publish some 500 events, a third of whose transactions are rolled back; now and then one more is
open for several rounds. A service reads them (`[postgres]`), and in each tenth round `psql | site follow` too, as
contrib/postgresql says. Meanwhile one of these is ended: the service by a signal, the database without a word, the
writers, psql or `site`. At the end both sites have to hold each event that was committed, once, and no other, and the
numbers of each source have to be 1, 2, 3 .. without a gap. It wants PostgreSQL, `jumbetaid` with the feature postgres, and
`site`. The last line is 'N passed, M failed'; without PostgreSQL nothing is tried. The service's tests
in the gate do 20 rounds.
"""
import argparse
import contextlib
import json
import os
import random
import signal
import subprocess
import sys
import tempfile
import time
from typing import Any

sys.dont_write_bytecode = True
TOP = os.path.dirname(os.path.dirname(os.path.realpath(__file__)))
sys.path.insert(0, f"{TOP}/tools")
from serving import Tries, database, serving  # noqa: E402

SOURCES, WRITERS, EACH = 10, 8, 95
WRITE = """\\set row random(0, 9)
\\set lives random(0, 2)
BEGIN;
INSERT INTO written SELECT '/stock/' || :row, jumbetai.publish('/stock/' || :row, 'counted', to_json(:row));
\\if :lives
COMMIT;
\\else
ROLLBACK;
\\endif
"""
# The lines of contrib/postgresql/README.md for who has the program alone. Where bash is killed the others go on: they are waited for.
FOLLOW = """set -o pipefail
{psql} -qAtc 'SELECT jumbetai.number(100000)' postgres >/dev/null &&
    {psql} -qAtc 'SELECT event FROM jumbetai.outbox ORDER BY source, number' postgres | {site} follow --wait 60 --db {db} >/dev/null
"""
TROUBLE = ("service", "service", "service ends", "database", "database", "both", "writers", "none")


class Outbox:
    """A database that is written to, a service that reads it, and a site that is fed by hand."""

    def __init__(self, tries: Any, db: Any, site: Any, dice: random.Random) -> None:
        self.tries, self.db, self.site, self.dice = tries, db, site, dice
        self.long: Any = None
        self.did: dict[str, int] = {}
        self.to = ["-h", db.folder, "-U", "load"]
        self.other = f"{tries.folder}/other.db"
        db.sql("CREATE TABLE written (source text, id text)")
        with open(f"{db.folder}/write.sql", "w", encoding="ascii") as out:
            out.write(WRITE)

    def pg(self, *words: str, **how: Any) -> Any:
        return subprocess.Popen([*self.db.user, *words], cwd=self.db.folder, stdout=subprocess.DEVNULL, stderr=subprocess.DEVNULL, **how)

    def kill_database(self) -> None:
        self.db.run("pg_ctl", "-D", "data", "-m", "immediate", "-w", "stop")
        self.db.run("pg_ctl", "-D", "data", "-w", "-l", "log", "-o", f"-k {self.db.folder} -h '' -c max_connections=300", "start")

    def hold(self) -> None:
        """Ends the transaction that was open for long, or begins one."""
        if self.long is not None:
            with contextlib.suppress(OSError, subprocess.TimeoutExpired):
                self.long.communicate(self.dice.choice(["COMMIT;\n", "ROLLBACK;\n", ""]), timeout=10)
            self.long = None
            return
        self.long = self.pg(f"{self.db.bin}/psql", *self.to, "-qAt", "postgres", stdin=subprocess.PIPE, text=True)
        self.long.stdin.write("BEGIN; INSERT INTO written SELECT '/long', jumbetai.publish('/long', 't');\n")
        self.long.stdin.flush()

    def follow(self, is_killed: bool) -> int:
        """Hands the outbox to the other site, as a script does, and answers the status."""
        words = FOLLOW.format(psql=f"{self.db.bin}/psql {' '.join(self.to)}", site=self.tries.other, db=self.other)
        ran = subprocess.Popen(["bash", "-c", words], start_new_session=True, stdout=subprocess.DEVNULL, stderr=subprocess.DEVNULL)
        if is_killed:
            time.sleep(self.dice.random() * 0.4)
            name = self.dice.choice(["psql", "site_cli", "bash"])
            subprocess.run(["pkill", "-KILL", "-s", str(ran.pid), name], check=False)
        return int(ran.wait(120))

    def round(self, at: int) -> None:
        words = ["-n", "-c", str(WRITERS), "-j", "2", "-t", str(EACH), "-f", "write.sql", "postgres"]
        writers = self.pg(f"{self.db.bin}/pgbench", *self.to, *words)
        if self.dice.random() < 0.3:
            self.hold()
        time.sleep(self.dice.random() * 0.5)
        what = self.dice.choice(TROUBLE)
        self.did[what] = self.did.get(what, 0) + 1
        if what in ("service", "both"):
            self.site.stop(signal.SIGKILL)
        if what in ("database", "both"):
            self.kill_database()
        if what == "service ends":
            self.tries.judge("the service ends well", self.site.stop() == 0, self.site.text_of_log()[-500:])
        if what == "writers":
            writers.kill()
        if self.site.ran.poll() is not None:
            self.site.start()
        if at % 10 == 9 and os.path.exists(self.tries.other):
            self.follow(is_killed=True)
        writers.wait(60)

    def wait_for_writers(self) -> None:
        """Waits until none is left at the database: it goes on with what a writer sent before it was killed."""
        end = time.monotonic() + 60
        while int(self.db.sql("SELECT count(*) FROM pg_stat_activity WHERE application_name = 'pgbench'")) and time.monotonic() < end:
            time.sleep(0.05)

    def written(self) -> dict[str, set[str]]:
        """The ids that were committed, by source."""
        found: dict[str, set[str]] = {}
        for line in self.db.sql("SELECT source || ' ' || id FROM written").splitlines():
            source, name = line.split()
            found.setdefault(source, set()).add(name)
        return found

    def judge(self) -> None:
        if self.long is not None:
            self.hold()
        self.wait_for_writers()
        want = self.written()
        cover = {source: [[1, len(names)]] for source, names in want.items()}
        is_there = self.site.waits_for(lambda: self.site.cover() == cover, 60)
        self.tries.judge("numbers without a gap, as many as were committed", is_there, (self.site.cover(), cover))
        has: dict[str, set[str]] = {}
        lines = self.site.get("/shown").body.splitlines()
        for line in map(json.loads, lines):
            has.setdefault(line["source"], set()).add(line["id"])
        self.tries.judge("each event that was committed, and no other", has == want and len(lines) == sum(map(len, want.values())))
        self.tries.judge("no conflict", self.site.get("/conflicts").body == b"")
        if os.path.exists(self.tries.other):
            self.tries.judge("the other site is fed", self.follow(is_killed=False) == 0)
            ran = subprocess.run([self.tries.other, "summary", "--wait", "60", "--db", self.other], capture_output=True, check=False, timeout=60)
            self.tries.judge("both sites hold the same", ran.stdout.strip() == self.site.get("/summary").body.strip(), ran.stderr)
        print(f"{sum(map(len, want.values()))} events of {len(want)} sources were committed; {self.did}", flush=True)


def kill(tries: Any, db: Any, rounds: int, seed: int) -> None:
    """Tries so many rounds."""
    settings = f'[postgres]\nurl = "host={db.folder} user=load dbname=postgres"\nevery_ms = 20\n'
    with serving(tries, settings) as site:
        outbox = Outbox(tries, db, site, random.Random(seed))
        for at in range(rounds):
            outbox.round(at)
        outbox.judge()


def main() -> int:
    words = argparse.ArgumentParser(description=__doc__, formatter_class=argparse.RawDescriptionHelpFormatter)
    words.add_argument("--program", default=f"{TOP}/out/service/jumbetaid")
    words.add_argument("--site", default=f"{TOP}/crates/site_cli/out/site_cli")
    words.add_argument("--rounds", type=int, default=200)
    words.add_argument("--seed", type=int, default=1)
    given = words.parse_args()
    with tempfile.TemporaryDirectory() as folder:
        tries = Tries(folder, os.path.abspath(given.program), os.path.abspath(given.site))
        tries.what = "kills"
        with database() as db:
            try:
                if db is None:
                    tries.skip("an outbox in PostgreSQL", "it isn't there (postgresql-15)")
                else:
                    kill(tries, db, given.rounds, given.seed)
            finally:
                tries.end()
    return tries.tell()


if __name__ == "__main__":
    sys.exit(main())
