"""The service's page in a browser: each test serves a site and looks at what the page shows, as it stands in the document.

With --pictures the pictures of docs/ are made too.
"""
import hashlib
import json
import random
import shutil
import signal
import tempfile
import time
from typing import Any, Iterator, Optional

import pytest
from browser import Browser, shown
from serving import Tries, event, serving

pytestmark = [pytest.mark.library, pytest.mark.alone, pytest.mark.slow]
LARGEST = 2**63 - 1
MARKUP = '<img src=x onerror="window.pwned=1"><script>window.pwned=1</script><b>&amp;"\'${1}'


@pytest.fixture(scope="module")
def every_page() -> Iterator[Browser]:
    """A browser for all tests here."""
    if not shutil.which("chromium"):
        pytest.skip("chromium isn't there")
    with tempfile.TemporaryDirectory() as folder:
        browser = Browser(folder)
        yield browser
        browser.end()


@pytest.fixture
def browser(every_page: Browser) -> Iterator[Browser]:
    """The browser, which says nothing of the pages before."""
    yield every_page
    every_page.events.clear()


@pytest.fixture
def pictures(pytestconfig: pytest.Config) -> Optional[str]:
    """The folder for pictures, where they are asked for."""
    found = pytestconfig.getoption("--pictures")
    return None if found is None else str(found)


def test_empty(tries: Tries, browser: Browser) -> None:
    """A site without events and without peers."""
    with serving(tries, name="empty") as site, shown(tries, browser, site) as page:
        said = page.text()
        for it in ("No event has come", "None are set", "No event has a time", "None: no source", "● ready", "0 events"):
            tries.judge(it, it in said, said)
        tries.judge("no rows", page.cells("sources") == page.cells("peers") == page.cells("kinds") == [])


def business(count: int) -> list[dict[str, Any]]:
    """Events of a business with so many sources, with gaps, days and conflicts."""
    dice, kinds = random.Random(count), ("order.placed", "order.shipped", "payment.received", "stock.counted", "order.cancelled")
    all_of = []
    for place in range(count):
        source, numbers = f"/eu-north/shop/{place:02d}", range(1, dice.randint(20, 60))
        gap = dice.sample(list(numbers), 5) if place % 4 == 1 else []
        for number in numbers:
            if number in gap and number != numbers[-1]:
                continue
            kind = f"com.example.{dice.choices(kinds, (9, 7, 6, 3, 1))[0]}"
            time_of = f"2026-{10 + number % 2}-{dice.randint(1, 28):02d}T{dice.randint(6, 20):02d}:{dice.randint(0, 59):02d}:00Z"
            all_of.append(event(number, source, type=kind, subject=f"order/{dice.randint(1000, 9999)}", time=time_of, data={"cents": dice.randint(100, 90000)}))
    for it in all_of[3:5]:
        all_of.append({**it, "data": {"cents": it["data"]["cents"] + 1, "note": "typed again"}})
    return all_of


def texts_of(conflict: Any) -> list[str]:
    """The canonical texts of a conflict's events."""
    return [json.dumps(it, ensure_ascii=False, separators=(",", ":"), sort_keys=True) for it in conflict["events"]]


def test_business(tries: Tries, browser: Browser, pictures: Optional[str]) -> None:
    """Twenty sources, a peer that is up and one that is down: each figure is what the answers say."""
    with serving(tries, "[sync]\nevery_ms = 50\n", name="us-east") as south:
        all_of = business(20)
        south.give(all_of[:400])
        peers = f'[[peers]]\nname = "us-east"\nurl = "http://127.0.0.1:{south.port}"\n[[peers]]\nname = "ap-west"\nurl = "http://127.0.0.1:1"\n'
        with serving(tries, f"[sync]\nevery_ms = 50\n{peers}", name="north", title="eu-north") as site:
            for at in range(0, len(all_of), 25):
                site.give(all_of[at : at + 25])
            site.give([{}])
            site.waits_for(lambda: site.get("/status").json["peers"]["us-east"].get("last_success"))
            with shown(tries, browser, site) as page:
                rows = {it[0]: it for it in page.cells("peers")}
                tries.judge("a peer that is up", "up" in rows["us-east"][1] and rows["us-east"][4].replace(",", "") != "?", rows)
                down = rows["ap-west"]
                tries.judge(
                    "a peer that is down",
                    "down" in down[1] and down[2:5] == ["not known", "?", "?"] and down[5:7] == ["never", "never"] and "error" in down[8],
                    rows,
                )
                cover = site.cover()
                rows = {it[0]: it[2:] for it in page.cells("sources")}
                for source, has in cover.items():
                    here = sum(last - first + 1 for first, last in has)
                    tries.judge(f"the figures of {source}", rows.get(source) == [str(here), str(has[-1][1] - here), str(has[-1][1])], rows.get(source))
                first = page.cells("sources")[0]
                tries.judge("what lacks most stands first", first[3] == max((it[1] for it in rows.values()), key=int), first)
                kinds = sorted((json.loads(it) for it in site.get("/kinds").body.splitlines()), key=lambda it: -int(it[1]))
                tries.judge(
                    "types", [[it[0], it[2].replace(",", "")] for it in page.cells("kinds")] == [[it[0], str(it[1])] for it in kinds], page.cells("kinds")
                )
                days = {json.loads(it)[1] for it in site.get("/days").body.splitlines()}
                told = page.ask("[...document.querySelectorAll('#days title')].map(it => it.textContent.split(':')[0])")
                tries.judge("days", told == sorted(days), (told, sorted(days)))
                conflicts = [json.loads(it) for it in site.get("/conflicts").body.splitlines()]
                told = page.ask(
                    """[...document.querySelectorAll('#conflicts article')].map(it => [...it.querySelectorAll('figure')].map(it =>
                        [it.querySelector('figcaption').textContent, [...it.querySelector('pre').childNodes].map(it => it.textContent.trim())]))"""
                )
                tries.judge("conflicts", len(told) == len(conflicts) == 2, told)
                for texts, it in zip(told, conflicts):
                    tries.judge(
                        "the least text is the shown one", ["✓" in it[0] for it in texts] == [True, False] and texts_of(it) == sorted(texts_of(it)), texts
                    )
                    whole = ["{" + ",".join(line.removeprefix("≠ ") for line in lines) + "}" for _, lines in texts]
                    tries.judge("both texts stand there", whole == texts_of(it), whole)
                    marked = [[line[:8] for line in lines if line.startswith("≠")] for _, lines in texts]
                    tries.judge("what differs is marked", marked == [['≠ "data"']] * 2, marked)
                said = page.text("#recentsum")
                # What the peer brought of it is counted there.
                clients, others = (int(it.replace(",", "")) for it in (said.split()[0], said.split("clients, ")[1].split()[0]))
                tries.judge("the last minutes", clients + others == int(site.get("/status").json["events"]) and "1 body refused" in said, said)
                bars = page.ask("document.querySelectorAll('#recent svg rect.one').length")
                tries.judge("bars of the last minutes", bars >= 1 and page.ask("document.querySelectorAll('#recent path[d*=h6]').length") == 2, bars)
                if pictures:
                    page.size(1200)
                    page.picture(f"{pictures}/page.webp", 4000)
                    page.size(400)
                    page.call("Emulation.setEmulatedMedia", features=[{"name": "prefers-color-scheme", "value": "dark"}])
                    page.picture(f"{pictures}/page-narrow.webp", 1300)
                south.ran.send_signal(signal.SIGTERM)
                tries.judge(
                    "a peer that goes is told",
                    page.sees("[...document.querySelectorAll('#peers tbody tr')].every(it => it.cells[1].textContent.includes('down'))"),
                    page.cells("peers"),
                )
                site.stop()
                tries.judge(
                    "a site that goes is told",
                    page.sees("document.body.dataset.state === 'lost' && document.getElementById('when').textContent.includes('not reached')"),
                    page.text("header"),
                )
                tries.judge("what was seen stays", len(page.cells("sources")) == 20)
                site.start()
                tries.judge("and it comes back", page.sees("document.body.dataset.state === 'shown'"), page.text("header"))


def test_many(tries: Tries, browser: Browser) -> None:
    """2,000 sources: a part of them at a time, and each can be found."""
    with serving(tries, name="many") as site:
        site.give([event(number, f"/source/{it:04d}") for it in range(2000) for number in ((1, 3) if it % 500 == 7 else (1, 2))])
        began = time.monotonic()
        with shown(tries, browser, site) as page:
            tries.judge("within three seconds", time.monotonic() - began < 3, time.monotonic() - began)
            rows = page.cells("sources")
            tries.judge(
                "those that lack numbers first",
                [it[0] for it in rows[:5]] == ["/source/0007", "/source/0507", "/source/1007", "/source/1507", "/source/0000"],
                rows[:5],
            )
            tries.judge("thirty, and a button for more", len(rows) == 30 and page.text("#moresources") == "Show 100 more of 1,970", page.text("#moresources"))
            tries.judge("the sum", "2,000 sources; 4 lack numbers, and stand first" in page.text("#sourcesum"), page.text("#sourcesum"))
            page.ask("document.getElementById('moresources').focus()")
            page.key("Enter", text="\r")
            tries.judge("more of them", page.waits("document.querySelectorAll('#sources tbody tr').length === 130"))
            page.ask("document.getElementById('find').focus()")
            page.call("Input.insertText", text="/1999")
            tries.judge("one is found", [it[0] for it in page.cells("sources")] == ["/source/1999"], page.cells("sources"))
            site.give(event(9, "/source/1999"))
            tries.judge("what is new comes by itself", page.waits("document.querySelector('#sources td.n').textContent === '3'"), page.cells("sources"))


def test_large(tries: Tries, browser: Browser) -> None:
    """Numbers up to 2^63-1, to the last digit."""
    with serving(tries, name="large") as site:
        site.give([event(LARGEST, "/last"), event(1, "/both"), event(LARGEST, "/both"), event(9007199254740993, "/odd")])
        site.give([event(2, "/data", data={"n": LARGEST}), event(2, "/data", data={"n": LARGEST - 1})])
        with shown(tries, browser, site) as page:
            rows = {it[0]: it[2:] for it in page.cells("sources")}
            want = {
                "/last": ["1", f"{LARGEST - 1:,}", f"{LARGEST:,}"],
                "/both": ["2", f"{LARGEST - 2:,}", f"{LARGEST:,}"],
                "/odd": ["1", "9,007,199,254,740,992", "9,007,199,254,740,993"],
                "/data": ["1", "1", "2"],
            }
            tries.judge("each digit", rows == want, rows)
            said = page.text("#conflicts")
            tries.judge("numbers within data", str(LARGEST) in said and str(LARGEST - 1) in said, said)
            bars = page.ask(
                """[...document.querySelectorAll('#sources tr')].slice(1).map(it =>
                    [it.cells[0].textContent, [...it.querySelectorAll('path')].map(it => it.getAttribute('class') + it.getAttribute('d'))])"""
            )
            both = dict(bars)["/both"]
            tries.judge("an event at either end is seen", both == ["lacksM1 0h398v14h-398z", "partM0 0h1v14h-1zM399 0h1v14h-1z"], both)
            # A bar against a plain count of each column's numbers.
            dice = random.Random(5)
            columns: list[Any] = []
            for _ in range(300):
                top, at, has = dice.choice((1, 2, 7, 399, 400, 401, 1000, 4321)), 1, []
                while at <= top:
                    last = min(top, at + dice.choice((0, 1, 5, 300)))
                    has.append([at, last])
                    at = last + dice.choice((2, 3, 9, 500))
                top = has[-1][1]
                wide = min(top, 400)
                here = [0] * wide
                room = [0] * wide
                for number in range(1, top + 1):
                    room[(number - 1) * wide // top] += 1
                    here[(number - 1) * wide // top] += any(first <= number <= last for first, last in has)
                columns.append((has, top, ["lacks" if not it else "has" if it == of else "part" for it, of in zip(here, room)]))
            code = """(all => all.map(([has, top]) => { const bar = barOf(has.map(it => it.map(BigInt)), BigInt(top)), told = [];
                for (const path of bar.querySelectorAll('path'))
                    for (const [, from, length] of path.getAttribute('d').matchAll(/M(\\d+) 0h(\\d+)/g))
                        for (let at = 0; at < length; at++) told[Number(from) + at] = path.getAttribute('class');
                return told; }))"""
            told = page.ask(f"{code}({json.dumps([it[:2] for it in columns])})")
            wrong = [(it[:2], said, it[2]) for it, said in zip(columns, told) if said != it[2]] if isinstance(told, list) else [told]
            tries.judge("bars are what their numbers are", not wrong, wrong[:1])


def test_long(tries: Tries, browser: Browser) -> None:
    """Names of a thousand characters, and a text of 200 KB."""
    with serving(tries, name="long") as site:
        for letter in "ab":
            site.give(
                [
                    event(it, f"/{letter * 999}", id=f"{it}{letter * 900}", type=f"t{letter * 999}", subject=letter * 1000, time="2026-11-01T10:00:00Z")
                    for it in (1, 3)
                ]
            )
        told = site.give([event(5, f"/{'c' * 999}", type=f"t{it}" * 300, data={"x": it * 200_000}) for it in "de"])
        tries.judge("long events are taken", told.status == 200, told)
        with shown(tries, browser, site) as page:
            rows = page.cells("sources")
            tries.judge("a part of each name", len(rows) == 3 and all("(700 more characters)" in it[0] for it in rows), [it[0][-40:] for it in rows])
            tries.judge("the whole of it on its place", len(page.ask("document.querySelector('#sources td').title")) == 1000)
            tries.judge("rows stay low", page.ask("Math.max(...[...document.querySelectorAll('#sources tr, #kinds tr')].map(it => it.offsetHeight))") < 80)
            tries.judge(
                "texts are cut and scroll",
                page.ask("[...document.querySelectorAll('#conflicts pre')].every(it => it.offsetHeight < 400 && it.textContent.length < 6000)"),
                page.text("#conflicts")[:300],
            )


def test_markup(tries: Tries, browser: Browser) -> None:
    """Markup in every text that may have it: it is shown as it stands, and nothing of it is done."""
    name = json.dumps(MARKUP)
    settings = f'[[peers]]\nname = {name}\nurl = "http://127.0.0.1:1"\n'
    with serving(tries, settings, name="markup", title=MARKUP) as site:
        source = (
            "/%3Cimg%3E<img src=x onerror=window.pwned=1>"
            if site.give(event(1, "/<img src=x onerror=window.pwned=1>")).status == 200
            else "/%3Cimg%20src=x%20onerror=window.pwned=1%3E"
        )
        for data in (1, 2):
            told = site.give(event(3, source, id=MARKUP, type=MARKUP, subject=MARKUP, time="2026-11-01T10:00:00Z", data={MARKUP: [MARKUP, data]}))
            tries.judge("it is taken", told.status == 200, told)
        with shown(tries, browser, site) as page:
            tries.judge("its peer is down", page.sees("document.querySelector('#peers .bad') !== null"), page.cells("peers"))
            tries.judge("the site's name", page.text("h1") == MARKUP and page.ask("document.title").startswith(MARKUP), page.text("h1"))
            tries.judge("a peer's name", page.cells("peers")[0][0] == MARKUP, page.cells("peers"))
            tries.judge("a type", page.cells("kinds")[0][0] == MARKUP or page.cells("kinds")[1][0] == MARKUP, page.cells("kinds"))
            tries.judge("a source", source in [it[0] for it in page.cells("sources")], page.cells("sources"))
            tries.judge(
                "an id, and texts",
                page.ask("document.querySelector('#conflicts h3').textContent").count(MARKUP) == 1
                and page.ask("document.querySelector('#conflicts pre').textContent").count(json.dumps(MARKUP)) >= 4,
                page.text("#conflicts"),
            )
            tries.judge(
                "nothing of it is an element", page.ask("document.querySelectorAll('img, iframe, article script, td script, td b, pre b, a').length") == 0
            )
            tries.judge("nothing of it was done", page.ask("window.pwned") is None)
            # What a fault of the page would have to get past.
            for what, code in (
                ("markup by a script", "document.body.innerHTML = '<p>'"),
                ("a function of a text", "new Function('1')"),
                ("a page within", "document.body.append(Object.assign(document.createElement('iframe'), { srcdoc: '<p>' }))"),
            ):
                tries.judge(f"refused: {what}", str(page.ask(code)).startswith("threw"), page.ask(code))
            for what, code in (
                (
                    "a script in the page",
                    """(() => { const it = document.createElement('script'); try { it.textContent = 'window.pwned = 2'; } catch { }
                    document.body.append(it); return window.pwned; })()""",
                ),
                (
                    "a handler",
                    """(() => { const it = document.createElement('b'); try { it.setAttribute('onclick', 'window.pwned = 3'); } catch { }
                    document.body.append(it); it.click(); return window.pwned; })()""",
                ),
                ("a request elsewhere", "fetch('http://127.0.0.1:1/').catch(() => undefined)"),
            ):
                tries.judge(f"refused: {what}", page.ask(code) is None, page.ask(code))
            faults = page.faults()
            is_told = all(any(word in it for word in ("Policy", "Trusted", "policy", "Refused")) for it in faults)
            tries.judge("the policy told of each", len(faults) >= 3 and is_told, faults)
            browser.events.clear()


def test_tokens(tries: Tries, browser: Browser) -> None:
    """A site with tokens: the page asks for one by the keyboard alone, and keeps it for its tab."""
    tokens = "".join(f'[[tokens]]\nname = "{it}"\nroles = ["{it}"]\nsha256 = "{hashlib.sha256(it.encode()).hexdigest()}"\n' for it in ("read", "write"))
    with serving(tries, tokens, name="tokens") as site:
        site.ask("POST", "/events", json.dumps(event(1)), {"Content-Type": "application/cloudevents+json", "Authorization": "Bearer write"})
        page = browser.page(f"http://127.0.0.1:{site.port}/", 400, 800)
        tries.judge("it asks for a token", page.waits("document.body.dataset.state === 'token' && document.activeElement.id === 'token'"), page.text())
        tries.judge("it shows nothing meanwhile", page.ask("document.getElementById('main').hidden") is True)
        for word, why in (("nothing", "The token isn't known"), ("write", "The token has another role"), ("read", None)):
            page.call("Input.insertText", text=word)
            page.key("Enter", text="\r")
            if why:
                tries.judge(f"the token {word}", page.waits(f"document.getElementById('loginwhy').textContent === {json.dumps(why)}"), page.text())
            else:
                tries.judge("a token that may read", page.is_shown() and page.cells("sources")[0][0] == "/a", page.text())
        tries.judge("the token isn't shown", page.ask("document.getElementById('token').value") == "" and "read" not in page.ask("location.href"))
        page.call("Page.reload")
        tries.judge("it is known when the page comes again", page.is_shown())
        # Each thing that can be used is reached by the key Tab, and it is seen where one is.
        reached, seen = [], []
        for _ in range(4):
            page.key("Tab")
            reached.append(page.ask("document.activeElement.id"))
            seen.append(page.ask("getComputedStyle(document.activeElement).outlineStyle"))
        tries.judge("the keyboard", reached[:2] == ["forget", "find"] and seen[:2] == ["solid", "solid"], (reached, seen))
        page.ask("document.getElementById('forget').click()")
        tries.judge("it can be forgotten", page.waits("document.body && document.body.dataset.state === 'token'"), page.text())
        tries.judge("it is gone", page.ask("sessionStorage.length") == 0)
        page.close()
