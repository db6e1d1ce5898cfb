"""Events out of an outbox in PostgreSQL."""
import contextlib
import json
import os
import signal
import subprocess
import time
from typing import Any

import pytest
from kill_outbox import kill
from serving import Tries, serving

pytestmark = [pytest.mark.library, pytest.mark.alone, pytest.mark.slow]


def test_outbox(tries: Tries, postgres: Any) -> None:
    """Events out of PostgreSQL: writers that roll back, wait for one another and are killed; a service that is killed."""
    asked = [str(tries.program), "--config", "/dev/stdin", "--check"]
    ran = subprocess.run(asked, input=f'db = "{tries.folder}/none"\n[postgres]\nurl = "x"\n', capture_output=True, text=True, check=False)
    if "the feature postgres" in ran.stderr:
        pytest.skip("the program is built without it")
    settings = f'[postgres]\nurl = "host={postgres.folder} user=load dbname=postgres"\nevery_ms = 20\n'
    with serving(tries, settings) as site:
        data = '{"b":1,"a":[12345678901234567,"x\\u00e9"]}'
        postgres.sql(f"""SELECT jumbetai.publish('/shop/"é\\', 'sold', '{data}', 'it''s', '2024-02-29 10:00+02', 'own', '{{"region":"eu"}}')""")
        tries.judge("an event comes", site.waits_for(lambda: site.cover()), site.log()[-3:])
        line = json.loads(site.get("/shown").body)
        want: dict[str, Any] = {
            **{"specversion": "1.0", "source": '/shop/"é\\', "type": "sold", "subject": "it's", "id": "own", "region": "eu", "sequence": f"{1:020d}"},
            **{"time": "2024-02-29T08:00:00.000000Z", "datacontenttype": "application/json", "data": {"b": 1, "a": [12345678901234567, "xé"]}},
        }
        tries.judge("each attribute", {name: line.get(name) for name in want} == want, line)
        postgres.sql("SELECT jumbetai.publish('/a', 't', E'{\"x\":\n\"1.5e3 9223372036854775808\"}')")
        tries.judge("such in texts", site.waits_for(lambda: "/a" in site.cover()))
        lines = postgres.sql("SELECT event FROM jumbetai.outbox ORDER BY source, number")
        tries.judge("an event is a line", sorted(json.loads(it)["source"] for it in lines.splitlines()) == ["/a", '/shop/"é\\'], lines)
        if os.path.exists(tries.other):
            words = [tries.other, "follow", "--db", f"{tries.folder}/follow.db"]
            followed = subprocess.run(words, input=f"{lines}\n", capture_output=True, text=True, timeout=8, check=False)
            tries.judge("the program takes them", followed.returncode == 0 and followed.stdout.count('"new":1') == 2, followed)
        postgres.sql("SELECT jumbetai.publish('/script', 't'); SELECT jumbetai.number(1)")
        tries.judge("what another one numbered", site.waits_for(lambda: "/script" in site.cover()))
        # Eight writers, of which each third transaction is rolled back; rows that two change keep their order; a
        # transaction that is open for long beside.
        postgres.sql("CREATE TABLE stock (name text PRIMARY KEY, count int); INSERT INTO stock VALUES ('a', 0), ('b', 0), ('c', 0)")
        with open(f"{postgres.folder}/write.sql", "w", encoding="ascii") as out:
            out.write(
                "\\set row random(0, 2)\n\\set dies random(0, 2)\nBEGIN;\n"
                "UPDATE stock SET count = count + 1 WHERE name = chr(97 + :row) RETURNING count AS c \\gset\n"
                "SELECT jumbetai.publish('/stock/' || :row, 'counted', to_json(:c), "
                "id => :row || '-' || :c || '-' || :client_id || '-' || random()::text);\n"
                "\\if :dies\nCOMMIT;\n\\else\nROLLBACK;\n\\endif\n"
            )
        long = subprocess.Popen(
            [*postgres.user, f"{postgres.bin}/psql", "-h", postgres.folder, "-U", "load", "-qAt", "postgres"],
            cwd=postgres.folder,
            stdin=subprocess.PIPE,
            stdout=subprocess.DEVNULL,
            text=True,
        )
        assert long.stdin
        long.stdin.write("BEGIN; SELECT jumbetai.publish('/long', 't');\n")
        long.stdin.flush()
        words = [
            *postgres.user,
            f"{postgres.bin}/pgbench",
            "-h",
            postgres.folder,
            "-U",
            "load",
            "-n",
            "-c",
            "8",
            "-j",
            "2",
            "-t",
            "30",
            "-f",
            "write.sql",
            "postgres",
        ]
        writers = subprocess.Popen(words, cwd=postgres.folder, stdout=subprocess.PIPE, stderr=subprocess.STDOUT, text=True)
        tries.running += [long, writers]
        for _ in range(2):
            time.sleep(0.3)
            site.stop(signal.SIGKILL)
            site.start()
        said = writers.communicate(timeout=20)[0]
        tries.judge("the writers end", writers.returncode == 0, said)
        tries.judge("what isn't committed doesn't come", "/long" not in site.cover())
        long.communicate("COMMIT;\n", timeout=5)
        counts = [int(it) for it in postgres.sql("SELECT count FROM stock ORDER BY name").split()]
        covers = {f"/stock/{it}": [[1, count]] for it, count in enumerate(counts) if count}
        tries.judge(
            "each committed event, once",
            site.waits_for(lambda: {name: it for name, it in site.cover().items() if "stock" in name} == covers),
            (site.cover(), covers),
        )
        tries.judge("what was committed late too", site.waits_for(lambda: site.cover().get("/long") == [[1, 1]]), site.cover())
        lines = [json.loads(it) for it in site.get("/shown").body.splitlines()]
        order = {name: [it["data"] for it in sorted((it for it in lines if it["source"] == name), key=lambda it: str(it["sequence"]))] for name in covers}
        tries.judge("in the order of the rows that they tell of", all(it == list(range(1, len(it) + 1)) for it in order.values()), order)
        tries.judge("it is told", b'jumbetai_outbox_up{kind="postgresql"} 1' in site.get("/metrics").body and b'from="postgres"' in site.get("/metrics").body)
        # The database goes and comes again; a restored site takes what it lacks again.
        postgres.run("pg_ctl", "-D", "data", "-m", "immediate", "-w", "stop")
        tries.judge("a database that is away is told", site.waits_for(lambda: b'jumbetai_outbox_up{kind="postgresql"} 0' in site.get("/metrics").body))
        postgres.run("pg_ctl", "-D", "data", "-w", "-l", "log", "-o", f"-k {postgres.folder} -h '' -c max_connections=300", "start")
        postgres.sql("SELECT jumbetai.publish('/again', 't')")
        tries.judge("it is read again", site.waits_for(lambda: "/again" in site.cover()), site.log()[-3:])
        whole = site.get("/summary").body
        site.stop()
        os.remove(site.db)
        with contextlib.suppress(FileNotFoundError):
            os.remove(f"{site.db}-wal")
        site.set(f"{settings}trim = true\n")
        site.start()
        tries.judge("a site that lost all has all again", site.waits_for(lambda: site.get("/summary").body == whole), site.cover())
        tries.judge(
            "what all have is let go of",
            site.waits_for(lambda: postgres.sql("SELECT count(*) FROM jumbetai.outbox") == "0"),
            postgres.sql("SELECT count(*) FROM jumbetai.outbox"),
        )
        postgres.sql("SELECT jumbetai.publish('/a', 't')")
        tries.judge("numbers go on behind that", site.waits_for(lambda: site.cover()["/a"] == [[1, 2]]), site.cover())


def test_outbox_that_is_killed(tries: Tries, postgres: Any) -> None:
    """An outbox in PostgreSQL, its writers and its readers, killed at random moments."""
    kill(tries, postgres, 20, 1)
