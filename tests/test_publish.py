"""What `publish()` of the outbox in PostgreSQL writes, and what it refuses."""
import subprocess
from typing import Any

from harness import Counts

# Events as a service gives them, without their ids: some need no escape, some do.
EVENTS = (
    "'/a', 't'",
    "'/a', 't', '{\"n\":[1,-2,999999999999999999,null,true],\"e\":\"é, ü\"}', 's'",
    "'/é', 't.x', '\"\"', 'a b', '0001-01-02 00:00+00'",
    "'/a', 't', NULL, NULL, '9999-12-30 00:00+00'",
    "'/a', 't', ' [ 1 ]\t', NULL, NULL",
    "'/\"a\\', 't\"', '{\"a\\\\b\":\"\\u00e9\\n\"}', '\\'",
    "'/a', 't', E'[\n1,\r\n2]'",
    "'/a', 't', to_json(repeat('x', 261000))",
)
REFUSED = (
    ("a fraction", "'/a', 't', '1.5'"),
    ("a large number", "'/a', 't', '[9223372036854775808]'"),
    ("an exponent", "'/a', 't', '1e3'"),
    ("no source", "'', 't'"),
    ("no type", "'/a', NULL"),
    ("an empty type", "'/a', ''"),
    ("an empty id", "'/a', 't', id => ''"),
    ("an empty subject", "'/a', 't', subject => ''"),
    ("a control character", "'/a', E'\\x07'"),
    ("a line end", "E'/a\\nb', 't'"),
    ("a line end in an id", "'/a', 't', id => E'1\\n'"),
    ("a delete", "'/a', 't', subject => E'\\x7f'"),
    ("a C1 control", "'/a', 't', subject => U&'\\0085'"),
    ("a year 0", "'/a', 't', \"time\" => '0001-01-01 00:00+00 BC'"),
    ("a year 10000", "'/a', 't', \"time\" => '10000-01-01 00:00+00'"),
    ("half a character", "'/a', 't', '\"\\ud800\"'"),
    ("an extension that is an attribute", "'/a', 't', extensions => '{\"sequence\":\"1\"}'"),
    ("a large event", "'/a', 't', to_json(repeat('x', 262000))"),
)


def test_publish(checks: Counts, postgres: Any) -> None:
    """What `publish()` writes of an event, with extensions or without, and what it refuses."""
    for values in EVENTS:
        both = "; ".join(f"SELECT jumbetai.publish({values}, id => 'own'{more})" for more in ("", ", extensions => '{}'"))
        found = "SELECT count(*), count(DISTINCT event), max(event::jsonb ->> 'id') FROM jumbetai.waiting"
        wrote = postgres.sql(f"BEGIN; {both}; {found}; ROLLBACK")
        checks.judge(f"the same bytes: {values[:60]}", wrote.splitlines()[-1] == "2|1|own", wrote)
    ids = postgres.sql("BEGIN; SELECT jumbetai.publish('/a', 't'); SELECT jumbetai.publish('/a', 't', id => NULL); ROLLBACK").splitlines()
    checks.judge("an id of its own", [len(it) for it in ids] == [36, 36] and ids[0] != ids[1], ids)
    for what, values in REFUSED:
        try:
            postgres.sql(f"SELECT jumbetai.publish({values})")
            checks.judge(f"refused: {what}", False)
        except subprocess.CalledProcessError as why:
            checks.judge(f"refused: {what}", "ERROR" in why.stderr, why.stderr)
    checks.judge("nothing is left of what is refused", postgres.sql("SELECT count(*) FROM jumbetai.waiting") == "0")
