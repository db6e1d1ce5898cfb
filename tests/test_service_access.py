"""Who may what: tokens, sources, webhooks and TLS."""
import hashlib
import json
import os
import subprocess
from typing import Any, Optional

import pytest
from serving import MANY, ONE, Authority, Told, Tries, event, serving

pytestmark = [pytest.mark.library, pytest.mark.alone, pytest.mark.slow]


def test_tokens(tries: Tries) -> None:
    """Who may what."""
    roles = ("write", "read", "peer", "backup")
    rows = "".join(f'[[tokens]]\nname = "{it}"\nroles = ["{it}"]\nsha256 = "{hashlib.sha256(f"tok-{it}".encode()).hexdigest()}"\n' for it in roles)
    file = f"{tries.folder}/token"
    with open(file, "w", encoding="utf-8") as out:
        out.write("of a file\n")
    with serving(tries, f'{rows}[[tokens]]\nname = "f"\nroles = ["read", "write"]\nfile = "{file}"\n') as site:
        for method, path, may in (
            ("POST", "/events", {"write"}),
            ("POST", "/check", {"read"}),
            ("GET", "/cover", {"read", "peer"}),
            ("GET", "/summary", {"read", "peer"}),
            ("GET", "/shown", {"read"}),
            ("GET", "/get", {"read"}),
            ("GET", "/arrivals", {"read"}),
            ("POST", "/delta", {"peer"}),
            ("POST", "/backup", {"backup"}),
            ("GET", "/metrics", {"read"}),
            ("GET", "/status", {"read"}),
        ):
            told = site.ask(method, path)
            tries.judge(f"{path} without a token", told.problem == "token" and told.status == 401 and told.headers["www-authenticate"] == "Bearer", told)
            tries.judge(f"{path} by an unknown one", site.ask(method, path, headers={"Authorization": "Bearer tok"}).status == 401)
            for it in roles:
                told = site.ask(method, path, "[]" if method == "POST" else None, {"Authorization": f"Bearer tok-{it}", **MANY})
                tries.judge(f"{path} by {it}", (told.status == 403) == (it not in may) and told.status != 401, told)
        tries.judge("a token of a file", site.ask("GET", "/kinds", headers={"Authorization": "bearer of a file"}).status == 200)
        for path in ("/healthz", "/readyz", "/"):
            tries.judge(f"{path} is free", site.get(path).status == 200)
        tries.judge("so is the handshake", site.ask("OPTIONS", "/events").status == 200)
    with serving(tries) as site:
        for host, status in (("x.example.com", 403), (f"localhost:{site.port}", 200), ("10.1.2.3", 200)):
            told = site.ask("GET", "/kinds", headers={"Host": host})
            tries.judge(f"without tokens, by the name {host}", told.status == status, told)
        for origin, status in (
            ("http://evil.example.com", 403),
            ("null", 403),
            ("http://127.0.0.1:1", 403),
            (f"http://127.0.0.1:{site.port}", 200),
            (f"http://localhost:{site.port}", 403),
        ):
            names = {"Host": f"127.0.0.1:{site.port}", "Origin": origin}
            both = [site.ask("GET", "/kinds", headers=names), site.ask("POST", "/events", "[]", {**MANY, **names})]
            tries.judge(f"without tokens, by a page of {origin}", [it.status for it in both] == [status] * 2, both)
    ran = subprocess.run(
        [str(tries.program), "--db", "x.db", "--listen", "0.0.0.0:0"], cwd=tries.folder, capture_output=True, text=True, timeout=5, check=False
    )
    tries.judge("beyond loopback without tokens", ran.returncode == 1 and "tokens" in ran.stderr and not os.path.exists(f"{tries.folder}/x.db"), ran)


def test_sources_of_tokens(tries: Tries) -> None:
    """Tokens that may write events of some sources alone, and what whoever may write can do."""

    def row(name: str, sources: str) -> str:
        return f'[[tokens]]\nname = "{name}"\nroles = ["write", "read"]\n{sources}sha256 = "{hashlib.sha256(name.encode()).hexdigest()}"\n'

    with serving(tries, row("tills", 'sources = ["/till/*", "/office"]\n') + row("all", "")) as site:

        def give(what: Any, token: str = "tills", headers: Optional[dict[str, str]] = None) -> Told:
            body = what if isinstance(what, (str, bytes)) else json.dumps(what)
            return site.ask("POST", "/events", body, {**(headers or (MANY if isinstance(what, list) else ONE)), "Authorization": f"Bearer {token}"})

        def shown() -> bytes:
            return site.ask("GET", "/shown", headers={"Authorization": "Bearer all"}).body

        tries.judge("events of its sources", give([event(1, "/till/1"), event(1, "/till/2/x"), event(1, "/office")]).json["new"] == 3)
        before = shown()
        binary = {"ce-specversion": "1.0", "ce-id": "9", "ce-type": "t", "ce-sequence": f"{9:020d}", "Content-Type": "text/plain"}
        last = {**event(9, "/till/1")}
        del last["source"]
        for what, told in (
            ("another source", give(event(9, "/bank"))),
            ("one of many", give([event(it, "/till/1") for it in range(2, 100)] + [event(1, "/tills")])),
            ("the beginning alone", give(event(9, "/till"))),
            ("more than a whole source", give(event(9, "/office/2"))),
            ("escaped", give('{"specversion":"1.0","id":"9","source":"\\u002fbank","type":"t","sequence":"%020d"}' % 9)),
            ("in binary mode", give(b"x", headers={**binary, "ce-source": "%2Fbank"})),
            ("with text before and behind", give(f"\n [ {json.dumps(event(9, '/bank'))} ] \n", headers=MANY)),
        ):
            tries.judge(f"refused: {what}", (told.status, told.problem) == (403, "source") and told.json["source"], told)
        # Which of two members counts is for the library to say: it is asked, and whatever it says holds.
        for first, second in (("/till/1", "/bank"), ("/bank", "/till/1")):
            told = give(json.dumps({**last, "source": first})[:-1] + f',"source":"{second}"' + "}")
            tries.judge("a source that is there twice", told.status in (400, 403) or b"/bank" not in shown(), told)
        tries.judge("nothing of them is taken", shown() == before or b"/bank" not in shown(), shown())
        tries.judge("events at fault are told as such", give({}).problem == "events-at-fault")
        tries.judge(
            "an escaped source of its own", give('{"specversion":"1.0","id":"e","source":"\\u002ftill/1","type":"t","sequence":"%020d"}' % 7).status == 200
        )
        # Of two events with one source and id the lesser text is shown, so whoever may write that source decides.
        give(event(5, "/bank", data="m"), "all")
        tries.judge("a token without sources may write any", give(event(5, "/bank", data="a"), "all").status == 200 and b'"data":"a"' in shown())
        told = give(event(5, "/bank", data="A"))
        tries.judge("one with sources changes nothing of another's", told.problem == "source" and b'"data":"A"' not in shown(), told)
        both = site.ask("GET", "/conflicts", headers={"Authorization": "Bearer all"}).body
        tries.judge("what was shown before is told", both.count(b"\n") == 1 and b'"m"' in both, both)
        text = site.ask("GET", "/metrics", headers={"Authorization": "Bearer all"}).body
        tries.judge("refusals are counted", b'jumbetai_refused_requests_total{reason="source"} ' in text, text)
    for what, sources, why in (("a star within", '["/a*/b"]', "star"), ("no name", '[""]', "star"), ("no array", '"/a"', "sources")):
        file = f"{tries.folder}/sources.toml"
        with open(file, "w", encoding="utf-8") as out:
            out.write(f'db = "{tries.folder}/none.db"\n{row("x", f"sources = {sources}" + chr(10))}')
        ran = subprocess.run([str(tries.program), "--config", file, "--check"], capture_output=True, text=True, timeout=5, check=False)
        tries.judge(f"settings: {what}", ran.returncode == 1 and why in ran.stderr, ran)


def test_webhooks(tries: Tries) -> None:
    """The handshake of webhooks."""
    with serving(tries, 'webhook_origins = ["events.example.com"]\nwebhook_rate = 600\n') as site:
        for asked, rate in (("120", "120"), ("9999", "600"), (None, "600")):
            headers = {"WebHook-Request-Origin": "events.example.com", **({"WebHook-Request-Rate": asked} if asked else {})}
            told = site.ask("OPTIONS", "/events", headers=headers)
            allowed = (told.headers.get("webhook-allowed-origin"), told.headers.get("webhook-allowed-rate"))
            tries.judge(f"a rate of {asked}", told.status == 200 and allowed == ("events.example.com", rate) and "POST" in told.headers["allow"], told)
        told = site.ask("OPTIONS", "/events", headers={"WebHook-Request-Origin": "else.example.com"})
        tries.judge("another origin", told.status == 403 and "webhook-allowed-origin" not in told.headers, told)


def test_tls(tries: Tries) -> None:
    """Two sites over TLS, by an authority of their own and a token."""
    if why := Authority.lack(str(tries.program)):
        pytest.skip(why)
    authority = Authority(f"{tries.folder}/{tries.what}-authority")
    sync = f'[sync]\nevery_ms = 50\nca = "{authority.folder}/ca.pem"\n'
    with serving(tries, sync, "first", authority=authority) as first:
        peers = f'[[peers]]\nname = "first"\nurl = "{first.url}"\ntoken_file = "{authority.folder}/token"\n'
        with serving(tries, sync + peers, "second", authority=authority) as second:
            tries.judge("an event over TLS", first.give(event(1)).status == 200)
            tries.judge("a peer over TLS", second.waits_for(second.cover), second.get("/status"))
            tries.judge("its events", second.cover() == {"/a": [[1, 1]]})
            said, _ = first.raw(b"GET / HTTP/1.1\r\nHost: localhost\r\n\r\n")
            tries.judge("plain HTTP at a port of TLS", b"200" not in said, said)
