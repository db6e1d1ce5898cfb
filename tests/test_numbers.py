"""The command `number`: what it answers, what it refuses, what is there after it was killed, and what real producers send, through
it or a recipe of docs/PRODUCERS.md, into a site.

The events of producers are made anew from their public specifications (CloudEvents' own examples, Azure Event Grid, Knative,
GitHub's webhooks, Debezium, Kafka).
"""
import json
import random
import subprocess
import time
from typing import Any, Optional, Union

import pytest
from events import acknowledgement, batch, event, fault, lines, page
from shell import LONGEST, SOME, Room, Row, Wanted, answers, refuses, rows, text_of


def seen(key: object, number: Union[int, str, None] = None, source: str = "/web", **more: object) -> str:
    """An event, with a number or without."""
    return event(f"e{key}", number, "seen", source, **more)


def numbers(what: str, given: str, out: str, err: Wanted = "", status: int = 0, db: str = "n.db", more: str = "") -> Row:
    """A row of what `number` says of what it is given."""
    return Row(what, f"cat given | site number --db {db} {more}", out, err, status, {"given": given})


def refused_lines(*faults: tuple[int, str]) -> str:
    """What is said of lines at fault, by their places."""
    return "".join(fault(line=line, fault=it) for line, it in faults) + f"site: {len(faults)} lines refused\n"


CHANGED = seen("a", data={"n": 1})

# Each event has its source's next number, a text that comes again the one that it had.
test_first_numbers = rows(
    {},
    numbers("one line", lines(seen("a")), page(seen("a", 1))),
    numbers("the same line in another run", lines(seen("a")), page(seen("a", 1))),
    numbers("another event", lines(seen("b")), page(seen("b", 2))),
    numbers("another source begins at 1", lines(seen("c", source="/till")), page(seen("c", 1, "/till"))),
    numbers(
        "a batch on a line",
        lines(batch(seen("b"), seen("a"), seen("c", source="/till"))),
        page(seen("b", 2), seen("a", 1), seen("c", 1, "/till")),
    ),
    numbers("a repeat within one batch", lines(batch(seen("d"), seen("d"))), page(seen("d", 3), seen("d", 3))),
    numbers("an empty batch", lines(batch()), page()),
    numbers("no lines", "", ""),
    numbers("empty lines", "\n\n", ""),
    numbers("a last line without its LF", seen("a"), page(seen("a", 1))),
    numbers("another spelling of the same event", '{ "type" : "seen" , "specversion":"1.0","source":"/web","id":"ea"}\n', page(seen("a", 1))),
    numbers("another content under one id", lines(CHANGED), page(seen("a", 4, data={"n": 1}))),
    answers("the file is a site's", "site kinds --db n.db", '["seen",4]\n'),
)

A, B = seen("ra", source="/r"), seen("rb", source="/r")
# Of a text with just room for a number, in bytes, and how many of these its data has.
ROOM = 262_110
FITS = 2 * ROOM - len(seen("big", source="/r", data="x" * ROOM))

# A line at fault numbers nothing and stops nobody; it is told on standard error.
test_lines_at_fault = rows(
    {},
    numbers(
        "lines at fault among good ones",
        lines(A, seen("ra", 7, "/r"), "not JSON", "3", event("", None, "seen", "/r"), batch(B, seen("rb", 1, "/r")), "", B),
        page(seen("ra", 1, "/r")) + page(seen("rb", 2, "/r")),
        refused_lines((2, "event 0: HasSequence"), (3, "not JSON"), (4, "not an event or a batch"), (5, "event 0: Id"), (6, "event 1: HasSequence")),
        1,
        "r.db",
    ),
    numbers(
        "a text with just room for a number",
        lines(seen("big", source="/r", data="x" * FITS)),
        page(seen("big", 3, "/r", data="x" * FITS)),
        db="r.db",
    ),
    numbers("one byte more", lines(seen("big", source="/r", data="x" * (FITS + 1))), "", refused_lines((1, "event 0: TooLarge")), 1, "r.db"),
    numbers("a number in data with a fraction", lines(seen("f", source="/r", data={"price": 12.5})), "", refused_lines((1, "event 0: DataNumber")), 1, "r.db"),
    lambda room: room.put({"long": f"[{' ' * 33_554_431}]\n{B}\n"}),
    Row("a line of 33,554,433 bytes", "cat long | site number --db r.db", page(seen("rb", 2, "/r")), refused_lines((1, "too large")), 1),
    answers("what was refused took no number", "site cover --db r.db", '{"sources":{"/r":[[1,3]]},"version":1}\n'),
)

ASIDE, OTHER = "--aside producersequence", refused_lines((1, "event 0: Aside"))

# Values that are escaped, of each kind, and without one; data as JSON and as bytes. A null is none.
KINDS: tuple[dict[str, object], ...] = (
    {"subject": 'a "quoted\\" one, Gr\u00f6\u00dfe', "partitionkey": "\u2028 /"},
    {"expired": True, "hops": -2147483648, "zulu": False},
    {"data": {"": [1, -2, {"a": None, "b": '"\\\u00e9\u001f'}, []], "z": 9223372036854775807}},
    {"data": "a text"},
    {"data": 0},
    {"data": None},
    {"data_base64": "AP8/"},
    {"data_base64": ""},
)
GIVEN = [seen(at, None, "/k", **more) for at, more in enumerate(KINDS)]
GOT = [seen(at, at + 1, "/k", **{name: it for name, it in more.items() if it is not None}) for at, more in enumerate(KINDS)]

# All else of an event is as it was given.
test_every_kind_of_value = rows(
    {},
    *(numbers(f"value {at}", lines(given), page(got), db="k.db") for at, (given, got) in enumerate(zip(GIVEN, GOT))),
    numbers("all of them again", lines(batch(*GIVEN)), page(*GOT), db="k.db"),
)

# A number that a producer set goes by another name, where one is given.
test_numbers_that_are_set_aside = rows(
    {},
    numbers("a number that is set aside", lines(seen("aa", "7", "/a")), page(seen("aa", 1, "/a", producersequence="7")), db="a.db", more=ASIDE),
    numbers("so it is again", lines(seen("aa", "7", "/a")), page(seen("aa", 1, "/a", producersequence="7")), db="a.db", more=ASIDE),
    numbers("a whole number", lines(seen("aa", None, "/a", sequence=9)), page(seen("aa", 2, "/a", producersequence=9)), db="a.db", more=ASIDE),
    numbers("an event that has none", lines(seen("aa", None, "/a")), page(seen("aa", 3, "/a")), db="a.db", more=ASIDE),
    numbers("a name that is taken", lines(seen("aa", "8", "/a", producersequence="7")), "", OTHER, 1, "a.db", ASIDE),
    numbers("a name that no attribute may have", lines(seen("aa", "8", "/a")), "", OTHER, 1, "a.db", "--aside Not-One"),
)

BA, BB, LAST = seen("ba", source="/b"), seen("bb", source="/b"), 9223372036854775807

# Where numbers begin and end, and files that no numberer made.
test_bases = rows(
    {
        "sequenced": lines(seen("s", 5, "/s")),
        "twice": lines(seen("ba", 103, "/b")),
        "no.db": "this is no database, but a text that is long enough to be looked at as one\n" * 20,
    },
    "site follow --db s.db <sequenced",
    numbers("a base", lines(BA, BB), page(seen("ba", 101, "/b")) + page(seen("bb", 102, "/b")), db="b.db", more="--base 100"),
    numbers("the same base again", lines(BB), page(seen("bb", 102, "/b")), db="b.db", more="--base 100"),
    numbers("another base", lines(BA), "", "site: b.db: Foreign\n", 1, "b.db"),
    "cp b.db two.db && site follow --db two.db <twice",
    numbers("a text that has two numbers", lines(BB), "", "site: two.db: Foreign\n", 1, "two.db", "--base 100"),
    numbers("a site's file that no numberer made", lines(BA), "", "site: s.db: Foreign\n", 1, "s.db"),
    numbers("a file that is no database", lines(BA), "", "site: no.db: Store\n", 1, "no.db"),
    numbers("the last number", lines(seen("t", source="/t")), page(seen("t", LAST, "/t")), db="t.db", more=f"--base {LAST - 1}"),
    numbers("no number is left", lines(seen("u", source="/t")), "", SOME, 1, "t.db", f"--base {LAST - 1}"),
    refuses("an input that isn't there", "site number --db new.db none.jsonl", "none.jsonl: cannot read", lacks="new.db"),
)


def test_each_line_is_answered_while_the_stream_is_open(room: Room) -> None:
    with room.start("exec site number --db p.db", stdin=subprocess.PIPE) as ran:
        assert ran.stdin and ran.stdout
        for it in range(5):
            ran.stdin.write(lines(seen(it, source="/p")).encode())
            ran.stdin.flush()
            assert text_of(ran.stdout.readline()) == page(seen(it, it + 1, "/p"))
        ran.stdin.close()
        assert ran.wait(LONGEST) == 0


def test_what_came_lately_has_its_number(room: Room) -> None:
    """In one stream, beside what is new and another text of one id; and in the next stream, where the first was killed."""
    one, other, more = seen("g", source="/g"), seen("g", source="/g", subject="x"), seen("h", source="/g")
    turns = (
        ([one], [1]),
        ([one], [1]),
        ([other, one], [2, 1]),
        ([one, more, other, more], [1, 3, 2, 3]),
        ([more], [3]),
    )
    for given in (turns, turns[1:]):
        with room.start("exec site number --db g.db", stdin=subprocess.PIPE) as ran:
            assert ran.stdin and ran.stdout
            for events, numbers_of_them in given:
                ran.stdin.write(lines(batch(*events) if len(events) > 1 else events[0]).encode())
                ran.stdin.flush()
                answered = numbers_in(text_of(ran.stdout.readline()))
                assert [int(number) for _, number in answered] == numbers_of_them
            ran.kill()
    assert room.run("site cover --db g.db").out == '{"sources":{"/g":[[1,3]]},"version":1}\n'


def memory_of(pid: int) -> int:
    """The most memory that a process has had, in bytes."""
    with open(f"/proc/{pid}/status", encoding="ascii") as it:
        return next(1024 * int(line.split()[1]) for line in it if line.startswith("VmHWM:"))


@pytest.mark.slow
def test_an_opening_counts_each_page_of_rows_in_little_memory(room: Room) -> None:
    """Rows of three pages and of 25 are all counted, and ten times as many take hardly more memory."""
    taken = []
    for count in (2_500, 25_000):
        room.put({"given": lines(*(seen(it, source="/m") for it in range(count)))})
        assert room.run(f"site number --db m{count}.db given >/dev/null").status == 0
        with room.start(f"SITE_CACHE_MIB=1 exec site number --db m{count}.db", stdin=subprocess.PIPE) as ran:
            assert ran.stdin and ran.stdout
            for it, number in ((0, 1), (count - 1, count), (count, count + 1)):
                ran.stdin.write(lines(seen(it, source="/m")).encode())
                ran.stdin.flush()
                assert text_of(ran.stdout.readline()) == page(seen(it, number, "/m"))
            taken.append(memory_of(ran.pid))
            ran.kill()
    assert taken[1] - taken[0] < 8 << 20, f"{taken} bytes"


def followed(new: int) -> str:
    """What `follow` says of 250 lines of an event each, which are all new or all there."""
    return "".join(acknowledgement(it, new, 1 - new) for it in range(1, 251))


PIPED = "cat given | site number --db p2.db | site follow --db site.db"

test_numbers_for_a_site = rows(
    {"given": lines(*(seen(it, source="/q") for it in range(250)))},
    answers("number | follow", PIPED, followed(1)),
    answers("number | follow, again", PIPED, followed(0)),
    answers("no number is missing", "site gaps --db site.db"),
)


def numbers_in(said: str) -> list[tuple[str, str]]:
    """The events of whole lines, each without its number, and with it."""
    found: list[tuple[str, str]] = []
    for line in said.splitlines(True):
        for it in json.loads(line) if line.endswith("\n") else []:
            number = it.pop("sequence")
            found.append((json.dumps(it, sort_keys=True), number))
    return found


def kill_at_random(room: Room, given: list[str], chance: random.Random) -> list[tuple[str, str]]:
    """What a numberer answered that is killed while it is given lines, or a little later."""
    with room.start("exec site number --db k.db", stdin=subprocess.PIPE, stderr=subprocess.DEVNULL) as ran:
        assert ran.stdin and ran.stdout
        try:
            for at in range(0, len(given), 50):
                ran.stdin.write(lines(*given[at : at + 50]).encode())
                ran.stdin.flush()
                if chance.random() < 0.12:
                    break
        except BrokenPipeError:
            pass
        time.sleep(chance.random() * 0.1)
        ran.kill()
        return numbers_in(text_of(ran.stdout.read()))


@pytest.mark.slow
def test_numbers_stay_where_a_numberer_is_killed(room: Room) -> None:
    """Killed at random, it has each number that it answered, and gives it again."""
    chance, answered, changed = random.Random(7), dict[str, str](), []
    events = [seen(it, source=f"/k/{it % 3}") for it in range(3_000)]
    for _ in range(20):
        found = kill_at_random(room, chance.sample(events, 1_000), chance)
        changed += [it for it in found if answered.setdefault(*it) != it[1]]
    assert changed == []
    assert answered
    room.put({"given": lines(*events)})
    said = room.run("site number --db k.db given")
    again = dict(numbers_in(said.out))
    assert (said.status, len(again)) == (0, 3_000)
    assert {key: again.get(key) for key in answered} == answered
    assert room.run("site gaps --db k.db") == (0, "", "")
    assert room.run("site cover --db k.db").out == '{"sources":{"/k/0":[[1,1000]],"/k/1":[[1,1000]],"/k/2":[[1,1000]]},"version":1}\n'


# What producers send, each with what makes lines of CloudEvents of it (an argument of jq, or none where it is lines or an event
# already), and how many events come in.
GITHUB = {
    "ref": "refs/heads/main",
    "before": "6113728f27ae82c7b1a177c8d03f9e96e0adf246",
    "after": "0000000000000000000000000000000000000000",
    "repository": {"id": 186853002, "full_name": "Codertocat/Hello-World", "private": False},
    "pusher": {"name": "Codertocat", "email": "21031067+Codertocat@users.noreply.github.com"},
    "commits": [],
}
PRODUCERS: dict[str, tuple[Any, Optional[str], int]] = {
    "the specification's example with XML in data": (
        {
            "specversion": "1.0",
            "type": "com.example.someevent",
            "source": "/mycontext",
            "subject": None,
            "id": "C234-1234-1234",
            "time": "2018-04-05T17:31:00Z",
            "comexampleextension1": "value",
            "comexampleothervalue": 5,
            "datacontenttype": "application/vnd.apache.thrift.binary",
            "data_base64": "Li4u",
        },
        None,
        1,
    ),
    "the specification's example with JSON in data": (
        {
            "specversion": "1.0",
            "type": "com.example.someevent",
            "source": "/mycontext/subcontext",
            "id": "D234-1234-1234",
            "time": "2018-04-05T17:31:00Z",
            "comexampleextension1": "value",
            "datacontenttype": "application/json",
            "data": {"appinfoA": "abc", "appinfoB": 123, "appinfoC": True},
        },
        None,
        1,
    ),
    "the specification's batch": (
        [
            {
                "specversion": "1.0",
                "type": "com.example.someevent",
                "source": "/mycontext/4",
                "id": "B234-1234-1234",
                "datacontenttype": "application/xml",
                "data": "<much/>",
            },
            {
                "specversion": "1.0",
                "type": "com.example.someotherevent",
                "source": "/mycontext/9",
                "id": "C234-1234-1234",
                "datacontenttype": "application/json",
                "data": {"appinfoC": False},
            },
        ],
        None,
        2,
    ),
    "the specification's GitHub pull request": (
        {
            "specversion": "1.0",
            "type": "com.github.pull_request.opened",
            "source": "https://github.com/cloudevents/spec/pull",
            "subject": "123",
            "id": "A234-1234-1234",
            "time": "2018-04-05T17:31:00Z",
            "datacontenttype": "text/xml",
            "data": '<much wow="xml"/>',
        },
        None,
        1,
    ),
    "Event Grid: a blob was made": (
        [
            {
                "specversion": "1.0",
                "type": "Microsoft.Storage.BlobCreated",
                "source": "/subscriptions/0/resourceGroups/g/providers/Microsoft.Storage/storageAccounts/a",
                "id": "9aeb0fdf-c01e-0131-0922-9eb54906e209",
                "time": "2019-11-18T15:13:39.4589254Z",
                "subject": "blobServices/default/containers/c/blobs/b",
                "data": {
                    "api": "PutBlockList",
                    "contentLength": 30699,
                    "blobType": "BlockBlob",
                    "storageDiagnostics": {"batchId": "ba4fb664-f289-4742-8067-6c859411b066"},
                },
            }
        ],
        None,
        1,
    ),
    "Event Grid: a resource was written": (
        [
            {
                "specversion": "1.0",
                "type": "Microsoft.Resources.ResourceWriteSuccess",
                "source": "/subscriptions/0",
                "id": "4db48cba-50a2-455a-93b4-de41a3b5b7f6",
                "time": "2017-08-16T03:54:38.2696833Z",
                "data": {"authorization": "{}", "claims": "{}", "correlationId": "2", "httpRequest": "", "tenantId": "3"},
            }
        ],
        None,
        1,
    ),
    "Knative: PingSource": (
        {
            "specversion": "1.0",
            "type": "dev.knative.sources.ping",
            "source": "/apis/v1/namespaces/default/pingsources/test-ping-source",
            "id": "d8e761eb-30c7-49a3-a421-cd5895239f2d",
            "time": "2019-12-04T14:24:00.000702251Z",
            "datacontenttype": "application/json",
            "data": {"message": "Hello world!"},
        },
        None,
        1,
    ),
    "Knative: ApiServerSource": (
        {
            "specversion": "1.0",
            "type": "dev.knative.apiserver.resource.update",
            "source": "https://10.96.0.1:443",
            "subject": "/apis/v1/namespaces/apiserversource-example/events/testevents.15dd3050eb1e6f50",
            "id": "e0447eb7-36b5-443b-9d37-faf4fe5c62f0",
            "time": "2020-07-28T19:14:54.719501054Z",
            "datacontenttype": "application/json",
            "kind": "Event",
            "name": "busybox.1625e3d0",
            "namespace": "default",
            "data": {"apiVersion": "v1", "count": 1, "kind": "Event", "metadata": {"uid": "a8e2f6ae"}},
        },
        None,
        1,
    ),
    "a push as GitHub sends it": (
        GITHUB,
        '{specversion: "1.0", id: "72d3162e-cc78-11e3-81ab-4c9367dc0958", source: "/github/\\(.repository.full_name)", type: "push", '
        'subject: .ref, datacontenttype: "application/json", data: .}',
        1,
    ),
    "Debezium in CloudEvents' format": (
        {
            "id": "name:test_server;lsn:29274832;txId:565",
            "source": "/debezium/postgresql/test_server",
            "specversion": "1.0",
            "type": "io.debezium.connector.postgresql.DataChangeEvent",
            "time": "2020-01-13T13:55:39.738Z",
            "datacontenttype": "application/json",
            "iodebeziumop": "r",
            "iodebeziumversion": "2.7.0.Final",
            "iodebeziumconnector": "postgresql",
            "iodebeziumtxid": "565",
            "data": {"before": None, "after": {"pk": 1, "name": "Bob"}},
        },
        None,
        1,
    ),
    "Debezium's own row": (
        {"payload": {"op": "c", "source": {"db": "shop", "table": "orders", "lsn": 24023128}, "after": {"id": 7, "status": "placed"}, "ts_ms": 1559033904863}},
        '(.payload // .) | {specversion: "1.0", id: "\\(.source.lsn)", source: "/debezium/\\(.source.db)/\\(.source.table)", type: .op, data: .after}',
        1,
    ),
    "a sequence as a whole number": (
        {"specversion": "1.0", "id": "s7", "source": "/sensors/1", "type": "measured", "sequence": 7, "data": {"celsius": 21}},
        "del(.sequence)",
        1,
    ),
    "a short sequence": (
        {"specversion": "1.0", "id": "s8", "source": "/sensors/1", "type": "measured", "sequence": "8", "sequencetype": "Integer", "data": {"celsius": 22}},
        "del(.sequence, .sequencetype)",
        1,
    ),
    "a price with a fraction": (
        {"specversion": "1.0", "id": "p1", "source": "/shop", "type": "priced", "data": {"price": 12.5}},
        ".data.price |= (. * 100 | round) | .data |= {cents: .price}",
        1,
    ),
    "what kcat prints of a topic": (
        {"topic": "orders", "partition": 3, "offset": 0, "key": "7", "payload": '{"id":7}'},
        '{specversion: "1.0", id: "\\(.offset)", source: "/kafka/\\(.topic)/\\(.partition)", type: .topic, data: (.payload | fromjson)}',
        1,
    ),
}


def produced(what: str, sent: object, recipe: Optional[str], count: int) -> Row:
    """A row of what a producer sends, which comes in by a recipe where it is no CloudEvent."""
    typed = f"{'jq -c -f recipe' if recipe else 'cat'} sent | site number --db producers.n.db | site follow --db producers.db"
    return answers(what, typed, acknowledgement(1, count, 0), files={"sent": json.dumps(sent), "recipe": recipe or ""})


# Files as producers send them.
test_producers = rows(
    {},
    *(produced(what, *it) for what, it in PRODUCERS.items()),
    answers("none is missing", "site gaps --db producers.db"),
)
