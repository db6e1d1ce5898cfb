"""The Debian package in a fresh root, as root and by hand: it takes minutes and wants Debian's archive.

    tools/run_tests.py --by-hand tests/test_package.py [--root FOLDER]

Two packages are made that differ in their revision. Their bytes are the same when they are made again; lintian finds no error;
systemd-analyze takes the units. In a root of debootstrap the first is installed; its program, its service, its library and its settings
are used there, docs/SERVICE.md is typed in, and the page shows both regions; then it is upgraded with changed settings and events in
its database, removed, installed again, and purged. --root keeps the fresh root's files for later runs.
"""
import contextlib
import os
import resource
import secrets
import shutil
import subprocess
import tempfile
import time
import urllib.request
from typing import Any, Iterator, Optional

import debian
import pytest
from harness import Counts
from kept import file_sum
from pages import blocks, of_console, typed
from version import version

pytestmark = [pytest.mark.by_hand, pytest.mark.library, pytest.mark.alone, pytest.mark.slow]
SETTINGS = "etc/jumbetai/jumbetaid.toml"
# The most bytes of a file that anything here may write.
MOST = 1 << 30
EVENT = '{"specversion":"1.0","id":"%d","source":"/till","type":"sold","sequence":"%020d"}'


def run_well(checks: Counts, what: str, words: list[str], **how: Any) -> str:
    """What a command says that has to end well."""
    ran = subprocess.run(words, stdin=subprocess.DEVNULL, stdout=subprocess.PIPE, stderr=subprocess.STDOUT, text=True, check=False, **how)
    checks.judge(what, ran.returncode == 0, f"{ran.returncode}: {ran.stdout}")
    return str(ran.stdout)


class Root:
    """A fresh root, in which commands are run."""

    def __init__(self, checks: Counts, folder: str) -> None:
        self.checks, self.folder = checks, folder

    def does(self, what: str, *words: str, **how: Any) -> str:
        """What a command says that has to end well."""
        environment = {"PATH": "/usr/sbin:/usr/bin:/sbin:/bin", "HOME": "/root", "DEBIAN_FRONTEND": "noninteractive"}
        return run_well(self.checks, what, ["chroot", self.folder, *words], env=environment, **how)

    def has(self, path: str) -> bool:
        return os.path.lexists(f"{self.folder}/{path}")

    def read(self, path: str) -> str:
        with open(f"{self.folder}/{path}", encoding="utf-8") as file:
            return file.read()


@contextlib.contextmanager
def running(root: Root, settings: str = SETTINGS) -> Iterator["subprocess.Popen[bytes]"]:
    """The package's service in the root, as its own user, until the block ends."""
    words = ["chroot", "--userspec=jumbetai:jumbetai", root.folder, "/usr/bin/jumbetaid", "--config", f"/{settings}"]
    with tempfile.TemporaryFile() as log:
        ran = subprocess.Popen(words, stdin=subprocess.DEVNULL, stdout=log, stderr=log)
        try:
            end = time.monotonic() + 20
            while answer("/readyz") != "ready\n" and time.monotonic() < end and ran.poll() is None:
                time.sleep(0.1)
            yield ran
        finally:
            ran.terminate()
            status = ran.wait(15)
            log.seek(0)
            root.checks.judge("the service ends well", status == 0, log.read().decode()[-1000:])


def answer(path: str, body: Optional[str] = None, port: int = 8087) -> str:
    kind = {"Content-Type": "application/cloudevents+json"} if body else {}
    asked = urllib.request.Request(
        f"http://127.0.0.1:{port}{path}", body.encode() if body is not None else None, kind, method="POST" if body is not None else "GET"
    )
    try:
        with urllib.request.urlopen(asked, timeout=10) as told:
            return str(told.read().decode())
    except OSError as why:
        return f"no answer: {why}"


def make_packages(checks: Counts, program: str, service: str, library: str, folder: str) -> tuple[str, str]:
    """Both packages, and what Debian's tools say of them."""
    first, second, again = (debian.make(program, service, library, f"{folder}/{to}", it) for to, it in (("one", 1), ("one", 2), ("two", 1)))
    sums = [file_sum(it) for it in (first, second, again)]
    checks.judge("the same bytes again", sums[0] == sums[2] != sums[1], sums)
    if shutil.which("lintian"):
        said = run_well(checks, "lintian", ["lintian", "--fail-on", "error", "--allow-root", "--tag-display-limit", "0", first])
        print("".join(f"lintian: {it}\n" for it in said.splitlines() if it.startswith(("E:", "W:"))), end="")
    else:
        checks.skip("the packages by lintian", "it isn't there")
    return first, second


def look_at_page(checks: Counts, root: Root) -> None:
    """What docs/SERVICE.md tells a newcomer to type, in an empty folder of the root; then the page of both."""
    began, mark, commands = time.monotonic(), f"mark-{secrets.token_hex(8)}", []
    for _, words, lines in blocks("docs/SERVICE.md"):
        if words[:1] == ["console"]:
            commands += of_console(words, lines, 1, 1)
    os.makedirs(f"{root.folder}/root/new", exist_ok=True)
    with open(f"{root.folder}/root/new/typed", "w", encoding="utf-8") as out:
        out.write("".join(typed(commands, mark)))
    said = root.does("docs/SERVICE.md is typed in", "bash", "-c", "cd /root/new && bash typed").split(f"{mark}\n")
    for (command, want), got in zip(commands, said):
        checks.judge(command, got == want, f"{got!r}, not {want!r}")
    print(f"docs/SERVICE.md: {len(commands)} commands in {time.monotonic() - began:.1f} s")
    # The same two regions again, which have their databases now; each page is asked for what it shows.
    names = {"north": 8087, "south": 8088}
    ran = [
        subprocess.Popen(
            [
                "chroot",
                root.folder,
                "sh",
                "-c",
                f"cd /root/new && exec jumbetaid --name {name} --db {name}.db --listen 127.0.0.1:{port} --peer {other}=http://127.0.0.1:{names[other]}",
            ],
            stdin=subprocess.DEVNULL,
            stdout=subprocess.DEVNULL,
            stderr=subprocess.DEVNULL,
        )
        for (name, port), other in zip(names.items(), ("south", "north"))
    ]
    try:
        end = time.monotonic() + 20
        while not all('"equal":true' in answer("/status", port=port) for port in names.values()) and time.monotonic() < end:
            time.sleep(0.1)
        for (name, port), other in zip(names.items(), ("south", "north")):
            told = answer("/status", port=port)
            checks.judge(f"{name} shows {other}", f'"{other}":{{' in told and '"equal":true' in told and "<!doctype html>" in answer("/", port=port), told)
            if shutil.which("chromium"):
                words = ["chromium", "--headless=new", "--no-sandbox", "--disable-gpu", "--virtual-time-budget=4000", "--dump-dom", f"http://127.0.0.1:{port}/"]
                page = subprocess.run(words, capture_output=True, text=True, timeout=60, check=False).stdout
                checks.judge(f"the page of {name} in a browser", "1 of 1 had the same events" in page and f"<span>{other}</span>" in page, page[-800:])
    finally:
        for it in ran:
            it.terminate()
        for it in ran:
            it.wait(15)


def live(checks: Counts, root: Root, first: str, second: str) -> None:
    """The package's life in a root: installed, used, upgraded, removed, purged."""
    for it in (first, second):
        shutil.copy(it, f"{root.folder}/root/")
    first, second = (f"/root/{os.path.basename(it)}" for it in (first, second))
    root.does("dpkg installs it", "dpkg", "-i", first)
    root.does("dpkg -V finds each file", "dpkg", "-V", "jumbetai")
    checks.judge("its user", "jumbetai" in root.read("etc/passwd") and root.does("its folder", "stat", "-c", "%U %a", "/var/lib/jumbetai") == "jumbetai 750\n")
    checks.judge("site runs", "Usage:" in root.does("site --help", "sh", "-c", "site --help || [ $? = 2 ]"))
    checks.judge("jumbetaid runs", root.does("jumbetaid --version", "jumbetaid", "--version") == f"jumbetaid {version()}\n")
    root.does("its settings can be used", "jumbetaid", "--config", f"/{SETTINGS}", "--check")
    checks.judge("the loader knows the library", "libjumbetai.so.0" in root.does("ldconfig", "sh", "-c", "ldconfig -p | grep jumbetai"))
    if shutil.which("systemd-analyze"):
        # The units as they are, but for a program that this machine has.
        with tempfile.TemporaryDirectory() as at:
            for unit in debian.UNITS:
                with open(f"{at}/{unit}", "w", encoding="utf-8") as out:
                    out.write(root.read(f"lib/systemd/system/{unit}").replace("/usr/bin/jumbetaid", "/bin/true"))
                said = run_well(checks, f"systemd-analyze verify {unit}", ["systemd-analyze", "verify", "--man=no", f"{at}/{unit}"])
                checks.judge(f"it says nothing of {unit}", "jumbetaid" not in said, said)
                said = run_well(checks, f"systemd-analyze security {unit}", ["systemd-analyze", "security", "--offline=true", f"{at}/{unit}"])
                print(f"systemd-analyze security: {said.strip().splitlines()[-1]}")
    look_at_page(checks, root)
    with running(root):
        checks.judge("an event is taken", '"new":1' in answer("/events", EVENT % (1, 1)), answer("/status"))
        checks.judge("a backup of it is made", "/var/lib/jumbetai/backups/" in answer("/backup", ""))
    text = root.read(SETTINGS).replace('name = "site" ', 'name = "north"')
    with open(f"{root.folder}/{SETTINGS}", "w", encoding="utf-8") as out:
        out.write(text)
    root.does("dpkg upgrades it", "dpkg", "-i", second)
    checks.judge("settings that were changed stay", 'name = "north"' in root.read(SETTINGS) and not root.has(f"{SETTINGS}.dpkg-new"))
    checks.judge("the other revision is there", root.does("dpkg-query", "dpkg-query", "-W", "-f", "${Version}", "jumbetai").endswith("-2"))
    with running(root):
        checks.judge("the event is there", '"name":"north"' in answer("/status") and '"events":1' in answer("/status"), answer("/status"))
        checks.judge("and one more", '"new":1' in answer("/events", EVENT % (2, 2)))
    root.does("dpkg removes it", "dpkg", "-r", "jumbetai")
    units = [f"lib/systemd/system/{it}" for it in debian.UNITS]
    gone = [it for it in ("usr/bin/site", "usr/bin/jumbetaid", *units, "usr/include/jumbetai.h") if root.has(it)]
    checks.judge("its programs are gone", not gone, gone)
    checks.judge("settings and events stay", root.has(SETTINGS) and root.has("var/lib/jumbetai/site.db"))
    root.does("dpkg installs it again", "dpkg", "-i", first)
    with running(root):
        checks.judge("both events are there", '"events":2' in answer("/status"), answer("/status"))
    said = root.does("dpkg purges it", "dpkg", "-P", "jumbetai")
    checks.judge(
        "settings are gone, events stay, and that is told", not root.has("etc/jumbetai") and root.has("var/lib/jumbetai/site.db") and "is left" in said, said
    )
    left = root.does("nothing else is left", "sh", "-c", "find /etc /usr /lib /var -name '*jumbetai*' ! -path '/var/lib/jumbetai*' ! -path '*/dpkg/*'")
    checks.judge("nothing else of it is left", not left.strip(), left)
    for it in (first, second):
        os.remove(f"{root.folder}{it}")
    shutil.rmtree(f"{root.folder}/var/lib/jumbetai")


def test_package(program: str, service: str, library: str, pytestconfig: pytest.Config, checks: Counts) -> None:
    if os.geteuid() or not shutil.which("debootstrap"):
        pytest.skip("it wants root and debootstrap")
    with tempfile.TemporaryDirectory() as folder, contextlib.ExitStack() as end:
        end.callback(resource.setrlimit, resource.RLIMIT_FSIZE, resource.getrlimit(resource.RLIMIT_FSIZE))
        resource.setrlimit(resource.RLIMIT_FSIZE, (MOST, resource.getrlimit(resource.RLIMIT_FSIZE)[1]))
        first, second = make_packages(checks, program, service, library, folder)
        at = os.path.abspath(str(pytestconfig.getoption("--root") or f"{folder}/root"))
        if not os.path.exists(f"{at}/usr/bin/dpkg"):
            run_well(checks, "debootstrap", ["debootstrap", "--variant=minbase", "--include=adduser,curl", "bookworm", at])
        # `cp -a` copies device files as such; to read /dev/full or /dev/zero would never end.
        subprocess.run(["cp", "-a", at, f"{folder}/fresh"], check=True)
        live(checks, Root(checks, f"{folder}/fresh"), first, second)
