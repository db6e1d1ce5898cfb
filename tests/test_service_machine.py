"""What its operator meets: words, settings, disks, metrics, logs."""
import contextlib
import hashlib
import http.client
import json
import os
import re
import shutil
import socket
import subprocess
import time
from concurrent.futures import ThreadPoolExecutor
from pathlib import Path
from typing import Any

import pytest
import service as maker
from debian import UNITS
from harness import Counts
from library import version
from serving import ONE, Tries, event, serving
from shell import TOP

pytestmark = [pytest.mark.library, pytest.mark.alone, pytest.mark.slow]


def test_words(tries: Tries) -> None:
    """The words of its command line, and a database that is in use or damaged."""

    def ran(*words: str) -> Any:
        return subprocess.run([str(tries.program), *words], cwd=tries.folder, capture_output=True, text=True, timeout=8, check=False)

    told = ran("--version")
    tries.judge("--version", (told.returncode, told.stdout) == (0, f"jumbetaid {version()}\n"), told)
    told = ran("--help")
    with open(f"{TOP}/service/jumbetaid.toml", encoding="utf-8") as file:
        names = re.findall(r"^(?:#: )?(\w+) =", file.read(), re.M)
    tries.judge("--help says each setting", told.returncode == 0 and all(it in told.stdout for it in names) and len(names) > 30, told)
    tries.judge("no database", ran().returncode == 1 and "--db" in ran().stderr, ran())
    tries.judge("a word that isn't known", ran("--what").returncode == 2)
    told = ran("--db", "new.db", "--check")
    tries.judge("--check makes nothing", told.returncode == 0 and not os.path.exists(f"{tries.folder}/new.db"), told)
    with open(f"{tries.folder}/bad.db", "w", encoding="ascii") as out:
        out.write("no database of SQLite " * 400)
    told = ran("--db", "bad.db", "--check")
    tries.judge("--check of a damaged database", told.returncode == 1 and "bad.db" in told.stderr, told)
    told = ran("--db", "bad.db", "--listen", "127.0.0.1:0")
    tries.judge("a damaged database isn't served", told.returncode == 1 and "bad.db" in told.stderr, told)
    with serving(tries) as site:
        site.give(event(1))
        told = ran("--db", site.db, "--listen", "127.0.0.1:0")
        tries.judge("a database in use", told.returncode == 1 and site.db in told.stderr, told)
        tries.judge("--check of one in use", "in use" in ran("--db", site.db, "--check").stdout)
        told = ran("--db", "other.db", "--listen", f"127.0.0.1:{site.port}")
        tries.judge("a port in use", told.returncode == 1 and str(site.port) in told.stderr, told)
    told = ran("--db", site.db, "--check")
    tries.judge("--check says how many events", "1 events" in told.stdout, told)


def test_metrics_status_and_logs(tries: Tries) -> None:
    """/metrics, /status, /healthz, /readyz, the page, and logs."""
    with serving(tries) as site:
        site.give([event(1), event(1)])
        site.give([{}, {**event(2), "sequence": "2"}, {}])
        site.give([event(4), event(9, "/b"), event(4, data=1)])
        text = site.get("/metrics").body.decode()
        told = dict(it.rsplit(" ", 1) for it in text.splitlines() if not it.startswith("#"))
        for name, value in {
            'jumbetai_taken_events_total{from="http",result="new"}': 4,
            'jumbetai_taken_events_total{from="http",result="repeated"}': 1,
            'jumbetai_refused_requests_total{reason="events-at-fault"}': 1,
            'jumbetai_events_at_fault_total{fault="BadSequence",from="http"}': 1,
            **{"jumbetai_events": 4, "jumbetai_sources": 2, "jumbetai_gaps": 2, "jumbetai_missing_numbers": 10, "jumbetai_conflicts": 1},
            **{"jumbetai_commits_total": 2, "jumbetai_commit_seconds_count": 3, "jumbetai_queue_bodies": 0, "jumbetai_queue_bytes": 0},
            "jumbetai_taken_bytes_total": sum(len(json.dumps(it)) for it in ([event(1), event(1)], [event(4), event(9, "/b"), event(4, data=1)])),
            **{"jumbetai_database_bytes": os.path.getsize(site.db), "process_open_fds": len(os.listdir(f"/proc/{site.ran.pid}/fd"))},
        }.items():
            tries.judge(name, abs(float(told.get(name, "-1")) - value) <= 4 * (name == "process_open_fds"), (told.get(name), value))
        for name in (
            "jumbetai_commit_seconds_bucket",
            "jumbetai_build_info",
            "process_start_time_seconds",
            "process_cpu_seconds_total",
            "jumbetai_http_connections",
        ):
            tries.judge(name, any(it.startswith(name) for it in told), text)
        faults = sum(float(value) for it, value in told.items() if it.startswith("jumbetai_events_at_fault_total"))
        tries.judge("each event at fault is counted", faults == 3, text)
        if shutil.which("promtool"):
            ran = subprocess.run(["promtool", "check", "metrics"], input=text, capture_output=True, text=True, check=False)
            tries.judge("promtool check metrics", (ran.returncode, ran.stdout + ran.stderr) == (0, ""), ran.stdout + ran.stderr)
        else:
            tries.skip("the names of metrics", "promtool isn't there")
        status = site.get("/status").json
        tries.judge("/status", (status["events"], status["conflicts"], status["ready"], status["peers"]) == (4, 1, True, {}), status)
        recent = status["recent"]
        sums = [sum(it[name] for it in recent["rows"]) for name in ("clients", "peers", "refused")]
        tries.judge("what was done within the last minutes", sums == [4, 0, 1] and recent["rows"][-1]["p99_ms"] > 0 and recent["until"] >= time.time(), recent)
        page = site.get("/")
        policy = page.headers["content-security-policy"]
        tries.judge("the page", b"<!doctype html>" in page.body and "default-src 'none'" in policy and "unsafe" not in policy, page)
        tries.judge("/healthz and /readyz", [site.get(it).status for it in ("/healthz", "/readyz")] == [200, 200])
        site.stop()
        lines = site.text_of_log().splitlines()
        tries.judge("logs are lines of JSON", lines and all({"timestamp", "level", "message"} <= json.loads(it).keys() for it in lines), lines)
        if shutil.which("curl"):
            site.start()
            body = json.dumps(event(3))
            words = ["curl", "-sS", "--json", body, "-H", f"Content-Type: {ONE['Content-Type']}", f"http://127.0.0.1:{site.port}/events"]
            ran = subprocess.run(words, capture_output=True, text=True, timeout=5, check=False)
            tries.judge("curl", ran.stdout == '{"events":1,"new":1,"repeated":0}\n', ran)
        else:
            tries.skip("curl", "it isn't there")


def test_prometheus(tries: Tries) -> None:
    """A real Prometheus with a token that may read, which loads the alerts."""
    if not shutil.which("prometheus"):
        pytest.skip("Prometheus isn't there")
    token = f'[[tokens]]\nname = "watch"\nroles = ["read"]\nsha256 = "{hashlib.sha256(b"watch").hexdigest()}"\n'
    with serving(tries, token) as site, socket.create_server(("127.0.0.1", 0)) as free:
        folder, port = f"{tries.folder}/prometheus", free.getsockname()[1]
        free.close()
        os.mkdir(folder)
        with open(f"{folder}/settings.yml", "w", encoding="utf-8") as out:
            out.write(
                f"global: {{scrape_interval: 200ms, evaluation_interval: 200ms}}\nrule_files: [{TOP}/contrib/prometheus/jumbetai.rules.yml]\n"
                f"scrape_configs:\n- job_name: jumbetai\n  authorization: {{credentials: watch}}\n  static_configs: [{{targets: ['127.0.0.1:{site.port}']}}]\n"
            )
        words = [f"--config.file={folder}/settings.yml", f"--storage.tsdb.path={folder}/data", f"--web.listen-address=127.0.0.1:{port}"]
        with open(f"{folder}/log", "wb") as log:
            ran = subprocess.Popen(["prometheus", *words], stdout=log, stderr=log)
        tries.running.append(ran)

        def asked(path: str) -> Any:
            connection = http.client.HTTPConnection("127.0.0.1", port, timeout=5)
            with contextlib.closing(connection), contextlib.suppress(OSError, ValueError):
                connection.request("GET", f"/api/v1/{path}")
                return json.loads(connection.getresponse().read())["data"]
            return {}

        def value(name: str) -> Any:
            found = asked(f"query?query={name}").get("result") or [{"value": [0, None]}]
            return found[0]["value"][1]

        tries.judge("it is scraped", site.waits_for(lambda: value("up") == "1" and value("jumbetai_events") == "0"), asked("targets"))
        rules = [it for group in asked("rules").get("groups", []) for it in group["rules"]]
        tries.judge(
            "its alerts are loaded",
            len(rules) > 8 and site.waits_for(lambda: all(it["health"] == "ok" for group in asked("rules")["groups"] for it in group["rules"])),
            rules,
        )
        ran.terminate()
        ran.wait(5)


def test_full_disk(tries: Tries) -> None:
    """A disk that is full, and then isn't."""
    if os.geteuid() or not shutil.which("unshare") or not shutil.which("nsenter"):
        pytest.skip("only root may make a small one, by unshare and nsenter")
    site = tries.site("full")
    os.mkdir(f"{site.folder}/disk")
    site.db = f"{site.folder}/disk/site.db"
    site.set("")
    site.prefix = ["unshare", "-m", "sh", "-c", f'mount -t tmpfs -o size=3m none {site.folder}/disk && exec "$@"', "x"]
    try:
        site.start()
    except OSError as why:
        pytest.skip(f"no small one can be made: {str(why)[-200:]}")
    kept = 0
    for part in range(200):
        told = site.give([event(part * 100 + it, "/full", data="y" * 100) for it in range(1, 101)])
        if told.status != 200:
            break
        kept += 100
    tries.judge("a full disk is told", told.problem == "store" and told.status == 503 and "retry-after" in told.headers, told)
    tries.judge("it isn't ready", site.get("/readyz").status == 503 and site.get("/healthz").status == 200)
    tries.judge("nothing of that body is there", site.cover()["/full"] == [[1, kept]], (site.cover(), kept))
    subprocess.run(["nsenter", "-t", str(site.ran.pid), "-m", "mount", "-o", "remount,size=60m", f"{site.folder}/disk"], check=True)
    told = site.give([event(kept + it, "/full", data="y" * 100) for it in range(1, 101)])
    tries.judge("with more room it goes on", told.status == 200 and site.get("/readyz").status == 200, told)
    tries.judge("it ends well", site.stop() == 0)


def test_disk_that_hangs(tries: Tries) -> None:
    """A disk that hangs: who gives events waits, who asks doesn't; once it goes on, so does all that waited."""
    if os.geteuid() or not all(map(shutil.which, ("unshare", "nsenter", "mkfs.ext4", "fsfreeze"))):
        pytest.skip("only root may make one, by mkfs.ext4 and fsfreeze")
    site = tries.site("hung")
    disk, image = f"{site.folder}/disk", f"{site.folder}/image"
    os.mkdir(disk)
    with open(image, "wb") as out:
        out.truncate(64 << 20)
    subprocess.run(["mkfs.ext4", "-q", image], check=True, capture_output=True)
    site.db = f"{disk}/site.db"
    site.set("")
    site.prefix = ["unshare", "-m", "sh", "-c", f'mount -o loop {image} {disk} && exec "$@"', "x"]
    try:
        site.start()
    except OSError as why:
        pytest.skip(f"none can be mounted: {str(why)[-200:]}")

    def freeze(word: str) -> Any:
        return subprocess.run(["nsenter", "-t", str(site.ran.pid), "-m", "fsfreeze", word, disk], capture_output=True, text=True, timeout=8, check=False)

    site.give(event(1))
    ran = freeze("-f")
    if ran.returncode:
        site.stop()
        pytest.skip(f"this one can't be frozen: {ran.stderr[-200:]}")
    with ThreadPoolExecutor(4) as pool:
        waits = [pool.submit(site.give, event(it)) for it in (2, 3, 4)]
        time.sleep(1)
        began = time.monotonic()
        told = [site.get(it).status for it in ("/kinds", "/status", "/metrics", "/healthz", "/readyz")]
        tries.judge(
            "who asks doesn't wait", told == [200] * 5 and time.monotonic() - began < 1 and not any(it.done() for it in waits), (told, time.monotonic() - began)
        )
        tries.judge("nothing that isn't kept is told", site.cover() == {"/a": [[1, 1]]}, site.cover())
        tries.judge("it goes on", freeze("-u").returncode == 0)
        ends = [it.result() for it in waits]
    tries.judge("what waited is kept", {it.status for it in ends} == {200} and site.cover() == {"/a": [[1, 4]]}, ends)
    tries.judge("it ends well", site.stop() == 0)


def test_units(checks: Counts, tmp_path: Path) -> None:
    """The units of systemd: of a site, and of the parts by their numbers, which has no other rights."""
    texts = {}
    for unit in UNITS:
        with open(f"{TOP}/service/{unit}", encoding="utf-8") as file:
            texts[unit] = file.read()
        (tmp_path / unit).write_text(texts[unit].replace("/usr/local/bin/jumbetaid", "/bin/true"), encoding="utf-8")
    lines = [{it for it in text.splitlines() if it and not it.startswith("#")} for text in texts.values()]
    own = {
        "Description=Part %i of a region of CloudEvents",
        "ExecStart=/usr/local/bin/jumbetaid --config /etc/jumbetai/part-%i.toml",
        "StateDirectory=jumbetai/part-%i",
    }
    checks.judge("they differ in name, settings and state alone", lines[1] - lines[0] == own and len(lines[0] - lines[1]) == len(own), lines)
    if not shutil.which("systemd-analyze"):
        checks.skip("the units by systemd-analyze", "it isn't there")
        return
    for unit in UNITS:
        ran = subprocess.run(["systemd-analyze", "verify", "--man=no", str(tmp_path / unit)], capture_output=True, text=True, check=False)
        checks.judge(f"systemd-analyze verify {unit}", ran.returncode == 0 and "jumbetaid" not in ran.stdout + ran.stderr, ran)


def test_settings_of_parts(tries: Tries) -> None:
    """The lines in the head of the parts' unit make settings of sixteen parts that can be used."""
    with open(f"{TOP}/service/{UNITS[1]}", encoding="utf-8") as file:
        script = "".join(line[2:] for line in file if line.startswith(("# for", "#     ")))
    with open(f"{tries.folder}/tokens.toml", "w", encoding="utf-8") as out:
        out.write(f'[[tokens]]\nname = "front"\nroles = ["write", "read", "peer"]\nsha256 = "{"0" * 64}"\n')
    script = script.replace("/etc/jumbetai/", "").replace("/var/lib/jumbetai/", "")
    subprocess.run(["bash", "-c", script], cwd=tries.folder, check=True)
    for at in (0, 5, 15):
        with open(f"{tries.folder}/part-{at}.toml", encoding="utf-8") as file:
            text = file.read()
        tries.judge(f"part {at}", text.startswith(f'part = "{at}/64"\n') and f":{8100 + at}" in text, text)
        words = [str(tries.program), "--config", f"part-{at}.toml", "--check"]
        ran = subprocess.run(words, cwd=tries.folder, capture_output=True, text=True, check=False)
        tries.judge(f"part {at}: its settings can be used", ran.returncode == 0 and "can be used" in ran.stdout, ran)


def test_in_rust(request: pytest.FixtureRequest, pytestconfig: pytest.Config) -> None:
    """The service's own tests."""
    if not maker.has_crates() or not shutil.which("cargo"):
        pytest.skip("the crates that the service stands on aren't there: tools/service.py --install")
    if pytestconfig.getoption("--service") and not pytestconfig.getoption("--library"):
        pytest.skip("the service is given, and no library")
    words = ["test", "--release", "--features", maker.FEATURES]
    ran = maker.cargo(words, request.getfixturevalue("library"), f"{TOP}/out/service/cargo", capture_output=True, text=True)
    passed = re.search(r"test result: ok\. (\d+) passed; 0 failed", ran.stdout)
    assert passed and int(passed[1]) > 20, ran.stdout + ran.stderr
