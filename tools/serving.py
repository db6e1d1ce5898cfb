"""The service jumbetaid, as its clients, its peers and its operator meet it: over loopback alone."""
import contextlib
import hashlib
import http.client
import json
import os
import re
import shutil
import signal
import socket
import ssl
import subprocess
import sys
import tempfile
import threading
import time
from typing import Any, Callable, Iterable, Iterator, Optional

sys.dont_write_bytecode = True
TOP = os.path.dirname(os.path.dirname(os.path.realpath(__file__)))
sys.path.insert(0, f"{TOP}/tools")
from harness import Counts  # noqa: E402
from postgres import Postgres  # noqa: E402

ONE = {"Content-Type": "application/cloudevents+json"}
MANY = {"Content-Type": "application/cloudevents-batch+json"}
QUESTIONS = ("cover", "gaps", "shown", "latest", "kinds", "days", "conflicts")
# The head of a request whose body is given by hand.
HEAD = b"POST /events HTTP/1.1\r\nHost: localhost\r\nContent-Type: application/cloudevents+json\r\n"


def event(number: int, source: str = "/a", **more: Any) -> dict[str, Any]:
    return {"specversion": "1.0", "id": str(number), "source": source, "type": "t", "sequence": f"{number:020d}", **more}


def part_of(source: str, count: int) -> int:
    """The first eight bytes of the SHA-256 of the source, the greatest byte first, modulo the count."""
    return int.from_bytes(hashlib.sha256(source.encode()).digest()[:8], "big") % count


class Told:
    """An answer: its status, its headers by their names in lower case, and its body."""

    def __init__(self, status: int, headers: Iterable[tuple[str, str]], body: bytes) -> None:
        self.status, self.body = status, body
        self.headers = {name.lower(): value for name, value in headers}

    @property
    def json(self) -> Any:
        return json.loads(self.body)

    @property
    def problem(self) -> Optional[str]:
        """The name of a problem, and its status; none where the answer is no problem."""
        if self.headers.get("content-type") != "application/problem+json":
            return None
        return str(self.json["type"]).rpartition(":")[2] if self.json["status"] == self.status else None

    def __repr__(self) -> str:
        return f"{self.status} {self.headers} {self.body[:300]!r}"


class Authority:
    """An authority in a folder with a certificate of localhost that it signed, and a token: what services over TLS want."""

    TOKEN = "a token"

    def __init__(self, folder: str) -> None:
        self.folder = folder
        os.makedirs(folder)
        curve = ("-newkey", "ec", "-pkeyopt", "ec_paramgen_curve:P-256", "-nodes")
        self.run("req", "-x509", *curve, "-keyout", "ca.key", "-out", "ca.pem", "-subj", "/CN=test", "-days", "2")
        self.run("req", *curve, "-keyout", "key.pem", "-out", "csr", "-subj", "/CN=localhost")
        for name, text in (("ext", "subjectAltName=DNS:localhost\nbasicConstraints=CA:FALSE\n"), ("token", f"{self.TOKEN}\n")):
            with open(f"{folder}/{name}", "w", encoding="ascii") as out:
                out.write(text)
        signed = ("-CA", "ca.pem", "-CAkey", "ca.key", "-CAcreateserial", "-extfile", "ext", "-days", "2")
        self.run("x509", "-req", "-in", "csr", *signed, "-out", "cert.pem")
        self.context = ssl.create_default_context(cafile=f"{folder}/ca.pem")

    def run(self, *words: str) -> None:
        subprocess.run(["openssl", *words], check=True, capture_output=True, cwd=self.folder, timeout=20)

    @property
    def settings(self) -> str:
        """The tables of a service with the certificate, which answers whoever has the token."""
        tls = f'[tls]\ncertificate = "{self.folder}/cert.pem"\nkey = "{self.folder}/key.pem"\n'
        return f'{tls}[[tokens]]\nname = "all"\nroles = ["write", "read", "peer"]\nfile = "{self.folder}/token"\n'

    @staticmethod
    def lack(program: str) -> str:
        """What a program lacks to be tried over TLS, if anything."""
        asked = [program, "--db", "x", "--peer", "a=https://b", "--check"]
        if "the feature tls" in subprocess.run(asked, capture_output=True, text=True, check=False).stderr:
            return "the program is built without it"
        return "" if shutil.which("openssl") else "openssl isn't there"


class Site:
    """A running service, with its folder for the database, the settings and the log."""

    def __init__(self, tries: "Tries", name: str, settings: str = "", title: Optional[str] = None, is_front: bool = False) -> None:
        self.tries, self.name, self.title, self.is_front = tries, name, title or name, is_front
        self.prefix: list[str] = []
        self.authority: Optional[Authority] = None
        self.folder = f"{tries.folder}/{name}"
        os.makedirs(self.folder)
        self.port, self.db = 0, f"{self.folder}/site.db"
        self.ran: Any = None
        self.set(settings)

    def set(self, settings: str) -> None:
        """Writes the settings; those of a table stand behind the others. A front has no database."""
        db = "" if self.is_front else f'db = "{self.db}"\n'
        with open(f"{self.folder}/settings.toml", "w", encoding="utf-8") as out:
            out.write(f'name = {json.dumps(self.title)}\n{db}listen = "127.0.0.1:0"\n{settings}')

    def start(self, seconds: float = 8) -> "Site":
        """Starts it, where it was before if it was, and waits until it is ready."""
        begin = os.path.getsize(f"{self.folder}/log") if os.path.exists(f"{self.folder}/log") else 0
        with open(f"{self.folder}/log", "ab") as log:
            words = [*self.prefix, str(self.tries.program), "--config", f"{self.folder}/settings.toml"]
            words += [f"--listen=127.0.0.1:{self.port}"] * bool(self.port)
            self.ran = subprocess.Popen(words, stdin=subprocess.DEVNULL, stdout=log, stderr=log)
        self.tries.running.append(self.ran)
        end = time.monotonic() + seconds
        while time.monotonic() < end and self.ran.poll() is None:
            for line in self.log(begin):
                if line.get("message") == "ready":
                    self.port = int(line["listen"].rpartition(":")[2])
                    return self
            time.sleep(0.01)
        raise OSError(f"{self.name} isn't ready: {self.text_of_log()[-1000:]}")

    def text_of_log(self) -> str:
        with open(f"{self.folder}/log", encoding="utf-8") as log:
            return log.read()

    def log(self, begin: int = 0) -> list[dict[str, Any]]:
        """The lines of the log that are whole."""
        with open(f"{self.folder}/log", "rb") as log:
            log.seek(begin)
            lines = log.read().split(b"\n")[:-1]
        return [json.loads(it) for it in lines if it.startswith(b"{")]

    def stop(self, how: int = signal.SIGTERM, seconds: float = 12) -> int:
        """Ends it, and answers its status."""
        self.ran.send_signal(how)
        return int(self.ran.wait(seconds))

    def ask(self, method: str, path: str, body: Any = None, headers: Optional[dict[str, str]] = None, seconds: float = 20) -> Told:
        connection = http.client.HTTPConnection("127.0.0.1", self.port, timeout=seconds)
        if self.authority:
            connection = http.client.HTTPSConnection("localhost", self.port, timeout=seconds, context=self.authority.context)
            headers = {"Authorization": f"Bearer {self.authority.TOKEN}", **(headers or {})}
        with contextlib.closing(connection):
            connection.request(method, path, body, headers or {})
            answer = connection.getresponse()
            return Told(answer.status, answer.getheaders(), answer.read())

    def get(self, path: str, **headers: str) -> Told:
        return self.ask("GET", path, headers={name.replace("_", "-"): value for name, value in headers.items()})

    def give(self, what: Any, headers: Optional[dict[str, str]] = None) -> Told:
        """Gives an event, or a list of them."""
        body = what if isinstance(what, (str, bytes)) else json.dumps(what)
        return self.ask("POST", "/events", body, headers or (MANY if isinstance(what, list) else ONE))

    def raw(self, *parts: bytes, seconds: float = 8) -> tuple[bytes, Optional[float]]:
        """What comes back of bytes, until the connection is closed or the time is over, and how long that took."""
        began, said = time.monotonic(), b""
        with socket.create_connection(("127.0.0.1", self.port), timeout=seconds) as it:
            with contextlib.suppress(ConnectionError):
                for part in parts:
                    it.sendall(part)
            try:
                while data := it.recv(65536):
                    said += data
            except ConnectionError:
                pass
            except TimeoutError:
                return said, None
        return said, time.monotonic() - began

    @property
    def url(self) -> str:
        return f"https://localhost:{self.port}" if self.authority else f"http://127.0.0.1:{self.port}"

    def cover(self) -> Any:
        return self.get("/cover").json["sources"]

    def measured(self, name: str) -> float:
        """A figure of /metrics, by its name with its labels."""
        line = re.search(rf"^{re.escape(name)} (\S+)$", self.get("/metrics").body.decode(), re.M)
        return float(line[1]) if line else float("nan")

    def waits_for(self, ready: Callable[[], object], seconds: float = 8) -> bool:
        """Whether something is so within the time."""
        end = time.monotonic() + seconds
        while not ready():
            if time.monotonic() > end:
                return False
            time.sleep(0.02)
        return True


class Producer(threading.Thread):
    """Gives new events of some sources to a service, batch by batch, and notes what it was answered."""

    def __init__(self, site: Site, sources: list[str]) -> None:
        super().__init__(daemon=True)
        self.site, self.sources, self.over = site, sources, threading.Event()
        self.told: list[tuple[float, list[dict[str, Any]], Told]] = []

    def run(self) -> None:
        while not self.over.wait(0.01):
            batch = [event(len(self.told) + 1, it) for it in self.sources]
            began = time.monotonic()
            self.told.append((began, batch, self.site.give(batch)))

    def since(self, time_: float) -> int:
        """How many batches were given behind a time."""
        return sum(it[0] > time_ for it in self.told)

    def batches(self, is_kept: bool) -> list[list[dict[str, Any]]]:
        """Those that were acknowledged, or those that weren't."""
        return [it[1] for it in self.told if (it[2].status == 200) == is_kept]


class Tries(Counts):
    def __init__(self, folder: str, program: Optional[str], site: str = "") -> None:
        super().__init__()
        self.folder, self.program, self.other = folder, program, site
        self.running: list[Any] = []

    def site(self, name: str, settings: str = "", title: Optional[str] = None, is_front: bool = False) -> Site:
        return Site(self, f"{self.what}-{name}", settings, title, is_front)

    def end(self) -> None:
        for it in self.running:
            if it.poll() is None:
                it.kill()
            it.wait()


@contextlib.contextmanager
def serving(
    tries: Tries,
    settings: str = "",
    name: str = "site",
    prefix: Iterable[str] = (),
    title: Optional[str] = None,
    is_front: bool = False,
    authority: Optional[Authority] = None,
) -> Iterator[Site]:
    """A service that runs, over TLS where there is an authority, and ends well behind the block unless it was ended there."""
    site = tries.site(f"{name}{len(tries.running)}", settings + (authority.settings if authority else ""), title, is_front)
    site.prefix, site.authority = list(prefix), authority
    yield site.start()
    if site.ran.poll() is None:
        status = site.stop()
        tries.judge(f"{name} ends well", status == 0, site.text_of_log()[-800:])
    panics = [it for it in site.text_of_log().splitlines() if "panicked" in it]
    tries.judge(f"{name} never panics", not panics, panics)


@contextlib.contextmanager
def database() -> Iterator[Any]:
    """A PostgreSQL of its own with an outbox; none where there is no PostgreSQL."""
    folder = tempfile.mkdtemp(dir="/tmp")
    server = Postgres(folder)
    if not server.is_there():
        shutil.rmtree(folder)
        yield None
        return
    try:
        server.start()
        server.sql("SELECT 1", "-f", f"{TOP}/contrib/postgresql/outbox.sql")
        yield server
    finally:
        with contextlib.suppress(subprocess.SubprocessError):
            server.stop()
        shutil.rmtree(folder)
