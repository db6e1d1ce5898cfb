#!/usr/bin/env python3
"""Ends `run` by a signal at random moments, and looks at what its database then holds.

    tools/kill_run.py [--rounds N] [--program FILE]

Each round runs two feeds into a database that grew in the rounds before, and kills the run (SIGKILL) at a
moment drawn between its start and its usual end. Then `take` of an earlier round's events must find each
of them there, once; SQLite's own test of the file must pass; and the events that are there must be whole
feeds' events, each once. In the end all feeds are run once more, and the summary must be that of all."""
import argparse
import json
import os
import random
import signal
import sqlite3
import subprocess
import sys
import tempfile
import time

here = os.path.dirname(os.path.dirname(os.path.abspath(__file__)))


def event(source: str, number: int) -> dict[str, str]:
    return {
        "id": f"{source}-{number:06}",
        "sequence": f"{number:020}",
        "source": f"/{source}",
        "specversion": "1.0",
        "subject": str(number % 50),
        "type": f"t.{number % 5}",
    }


def write(name: str, events: list[dict[str, str]]) -> None:
    with open(name, "w") as file:
        json.dump(events, file, separators=(",", ":"))


def main() -> int:
    words = argparse.ArgumentParser()
    words.add_argument("--rounds", type=int, default=100)
    words.add_argument("--events", type=int, default=400, help="in each feed of a round")
    words.add_argument("--program", default=os.path.join(here, "crates/site_cli/out/site_cli"))
    words.add_argument("--seed", type=int, default=1)
    asked = words.parse_args()
    program = os.path.abspath(asked.program)
    draw = random.Random(asked.seed)
    folder = tempfile.mkdtemp()
    os.chdir(folder)
    usual, killed, ended, wrong = 0.2, 0, 0, []
    held = 0
    for number in range(asked.rounds):
        low = number * asked.events + 1
        for source in ("a", "b"):
            write(f"{source}.json", [event(source, n) for n in range(low, low + asked.events)])
        began = time.time()
        run = subprocess.Popen([program, "run", "--db", "s.db", "a.json", "b.json"], stdout=subprocess.PIPE, stderr=subprocess.PIPE)
        try:
            run.wait(draw.uniform(0, usual * 1.1))
            ended += 1
            usual = 0.8 * usual + 0.2 * (time.time() - began)
        except subprocess.TimeoutExpired:
            run.send_signal(signal.SIGKILL)
            run.wait()
            killed += 1
        # What stood before stands still, each once.
        if os.path.exists("s.db"):
            answer = subprocess.run([program, "scrub", "--db", "s.db", "--from", str(10**9)], capture_output=True, text=True)
            if answer.returncode != 0 or answer.stdout != "[]\n":
                wrong.append(f"round {number}: {answer.stderr or answer.stdout}")
            base = sqlite3.connect("s.db")
            tested = base.execute("PRAGMA integrity_check").fetchone()[0]
            total = base.execute("SELECT count(*) FROM inbox2").fetchone()[0]
            distinct = base.execute("SELECT count(DISTINCT source || ' ' || id) FROM inbox2").fetchone()[0]
            base.close()
            if tested != "ok" or total != distinct or total < held:
                wrong.append(f"round {number}: {tested}, {total} rows, {distinct} events, {held} before")
            held = total
        # A killed round is run again, so that the next one begins with all of it acknowledged.
        answer = subprocess.run([program, "run", "--db", "s.db", "a.json", "b.json"], capture_output=True, text=True)
        first = answer.stdout.split("\n")[0]
        wanted = f"read {2 * asked.events} refused 0 held {2 * asked.events * (number + 1)}"
        if answer.returncode != 0 or first != wanted:
            wrong.append(f"round {number}: {first or answer.stderr} in place of {wanted}")
        held = 2 * asked.events * (number + 1)
    print(f"{asked.rounds} rounds: {killed} killed, {ended} ended before; {len(wrong)} wrong")
    for line in wrong[:10]:
        print(f"wrong: {line}")
    print(f"{max(asked.rounds - len(wrong), 0)} passed, {len(wrong)} failed")
    return 1 if wrong else 0


if __name__ == "__main__":
    sys.exit(main())
