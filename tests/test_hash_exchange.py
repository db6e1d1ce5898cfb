"""A region in parts behind RabbitMQ: its consistent hash exchange gives each queue whole sources, whose readers give to a front."""
import contextlib
import json
import os
import shutil
import signal
import subprocess
import tempfile
import time
from typing import Iterator

import pytest
from serving import Tries, event, serving
from test_service_parts import differences, region, QUICK

pytestmark = [pytest.mark.library, pytest.mark.by_hand]

SERVER, CONTROL = "/usr/lib/rabbitmq/bin/rabbitmq-server", "/usr/lib/rabbitmq/bin/rabbitmqctl"
NODE, OTHERS, NAMES = 25772, 25773, 25774
QUEUES, SOURCES, EVENTS = 4, 40, 600
# A reader acknowledges a message once the front has it on the disk, and gives it again until then.
READER = """#!/bin/sh
it=$(cat)
echo "$it" >>"$SEEN"
until curl -fsS -o /dev/null -H "Content-Type: $TYPE" -d "[$it]" "$FRONT/events" 2>/dev/null; do
    sleep 0.1
done
"""


def definitions() -> str:
    """The exchange, its queues, and each bound by its weight."""
    names = [f"part{it}" for it in range(QUEUES)]
    exchange = {"name": "events", "vhost": "/", "type": "x-consistent-hash", "durable": True, "auto_delete": False, "internal": False, "arguments": {}}
    queue = {"vhost": "/", "durable": True, "auto_delete": False, "arguments": {"x-queue-type": "quorum"}}
    bound = {"source": "events", "vhost": "/", "destination_type": "queue", "routing_key": "1", "arguments": {}}
    return json.dumps({"exchanges": [exchange], "queues": [{"name": it, **queue} for it in names], "bindings": [{"destination": it, **bound} for it in names]})


@contextlib.contextmanager
def broker(folder: str) -> Iterator[list[str]]:
    """A node of its own that runs; its place, as words of amqp-tools have it."""
    mine = {"MNESIA_BASE": "data", "LOG_BASE": "log", "ENABLED_PLUGINS_FILE": "plugins", "CONFIG_FILE": "none", "CONF_ENV_FILE": "env"}
    environment = {**os.environ, **{f"RABBITMQ_{name}": f"{folder}/{it}" for name, it in mine.items()}}
    environment.update({"HOME": folder, "RABBITMQ_NODENAME": "parts@localhost", "ERL_EPMD_PORT": str(NAMES), "RABBITMQ_NODE_IP_ADDRESS": "127.0.0.1"})
    environment.update({"RABBITMQ_NODE_PORT": str(NODE), "RABBITMQ_DIST_PORT": str(OTHERS)})
    with open(f"{folder}/plugins", "w", encoding="ascii") as out:
        out.write("[rabbitmq_consistent_hash_exchange].\n")
    with open(f"{folder}/definitions.json", "w", encoding="ascii") as out:
        out.write(definitions())
    with open(f"{folder}/said", "wb") as said:
        ran = subprocess.Popen([SERVER], env=environment, cwd=folder, stdout=said, stderr=said)
    try:
        until = time.monotonic() + 180
        while "completed with" not in open(f"{folder}/said", encoding="utf-8").read():
            assert time.monotonic() < until and ran.poll() is None, open(f"{folder}/said", encoding="utf-8").read()[-2000:]
            time.sleep(0.2)
        words = [CONTROL, "import_definitions", f"{folder}/definitions.json"]
        told = subprocess.run(words, env=environment, capture_output=True, text=True, timeout=180, check=False)
        assert told.returncode == 0, told.stdout + told.stderr
        yield ["--server", "127.0.0.1", "--port", str(NODE)]
    finally:
        ran.terminate()
        ran.wait(60)
        subprocess.run(["epmd", "-kill"], env=environment, check=False, capture_output=True)


def test_consistent_hash_exchange(tries: Tries) -> None:
    """Each source comes by one queue; a part that is killed meanwhile loses nothing; the front then answers as one site."""
    if not os.path.exists(SERVER) or not shutil.which("amqp-consume"):
        pytest.skip("there is no RabbitMQ (Debian: rabbitmq-server, amqp-tools)")
    folder = tempfile.mkdtemp(dir="/tmp")
    events = [event(number // SOURCES + 1, f"/shop/{number % SOURCES}") for number in range(EVENTS)]
    with broker(folder) as to, region(tries, 4) as (parts, (front,)), serving(tries, QUICK, "whole") as whole:
        for it in events:
            words = ["amqp-publish", *to, "-e", "events", "-r", it["source"], "-p", "-b", json.dumps(it)]
            subprocess.run(words, check=True, timeout=10)
        with open(f"{folder}/reader", "w", encoding="ascii", opener=lambda path, flags: os.open(path, flags, 0o755)) as out:
            out.write(READER)
        readers = []
        for queue in range(QUEUES):
            environment = {**os.environ, "SEEN": f"{folder}/seen{queue}", "FRONT": front.url, "TYPE": "application/cloudevents-batch+json"}
            readers.append(subprocess.Popen(["amqp-consume", *to, "-q", f"part{queue}", "-p", "1", f"{folder}/reader"], env=environment))
        parts[1].stop(signal.SIGKILL)
        time.sleep(2)
        parts[1].start()
        assert whole.give(events).status == 200
        until = time.monotonic() + 120
        while differences(front, whole) and time.monotonic() < until:
            time.sleep(0.5)
        for ran in readers:
            ran.terminate()
            ran.wait(10)
        tries.judge("the front answers as one site", not differences(front, whole), differences(front, whole))
        seen = []
        for queue in range(QUEUES):
            with open(f"{folder}/seen{queue}", encoding="utf-8") as lines:
                seen.append({json.loads(line)["source"] for line in lines})
        tries.judge("each source comes by one queue", sum(map(len, seen)) == SOURCES, [len(it) for it in seen])
        tries.judge("every queue has some", all(seen), [len(it) for it in seen])
    shutil.rmtree(folder)
