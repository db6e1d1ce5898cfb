"""Pages in a browser that has no window: Chromium, by its protocol for developers over a pipe."""
import base64
import contextlib
import fcntl
import json
import os
import select
import signal
import subprocess
import time
from typing import Any, Iterator, Optional

from serving import Site, Tries

FLAGS = (
    *("--headless=new", "--no-sandbox", "--disable-gpu", "--disable-dev-shm-usage", "--hide-scrollbars", "--no-first-run"),
    *("--disable-extensions", "--disable-background-networking", "--disable-component-update", "--force-color-profile=srgb"),
    *("--disable-sync", "--remote-debugging-pipe"),
)


class Browser:
    """A browser, and what it says of its pages."""

    def __init__(self, folder: str) -> None:
        ends = [fcntl.fcntl(it, fcntl.F_DUPFD_CLOEXEC, 20) for it in (*os.pipe(), *os.pipe())]
        theirs, self.to, self.said, ours = ends

        def at_three_and_four() -> None:
            os.dup2(theirs, 3)
            os.dup2(ours, 4)

        words = ["chromium", *FLAGS, f"--user-data-dir={folder}/browser", "about:blank"]
        environment = {**os.environ, "HOME": folder}
        with open(f"{folder}/browser.log", "wb") as log:
            self.ran = subprocess.Popen(
                words, preexec_fn=at_three_and_four, pass_fds=(3, 4), stdin=subprocess.DEVNULL, stdout=log, stderr=log, env=environment, start_new_session=True
            )
        os.close(theirs)
        os.close(ours)
        self.number, self.rest = 0, b""
        self.events: list[dict[str, Any]] = []

    def message(self, end: float) -> Any:
        while b"\0" not in self.rest:
            if not select.select([self.said], [], [], max(0.0, end - time.monotonic()))[0]:
                raise TimeoutError("the browser says nothing")
            data = os.read(self.said, 1 << 20)
            if not data:
                raise OSError("the browser has ended")
            self.rest += data
        text, _, self.rest = self.rest.partition(b"\0")
        return json.loads(text)

    def call(self, method: str, session: Optional[str] = None, seconds: float = 15, **given: Any) -> Any:
        self.number += 1
        asked = {"id": self.number, "method": method, "params": given, **({"sessionId": session} if session else {})}
        os.write(self.to, json.dumps(asked).encode() + b"\0")
        end = time.monotonic() + seconds
        while True:
            told = self.message(end)
            if told.get("id") == self.number:
                if "error" in told:
                    raise OSError(f"{method}: {told['error']}")
                return told["result"]
            if "method" in told:
                self.events.append(told)

    def page(self, url: str, width: int = 1280, height: int = 900, scheme: str = "light") -> "Page":
        return Page(self, url, width, height, scheme)

    def end(self) -> None:
        with contextlib.suppress(OSError, TimeoutError):
            self.call("Browser.close", seconds=3)
        with contextlib.suppress(subprocess.TimeoutExpired):
            self.ran.wait(3)
        with contextlib.suppress(ProcessLookupError):
            os.killpg(self.ran.pid, signal.SIGKILL)
        self.ran.wait()


class Page:
    """A page of a browser, at an address."""

    def __init__(self, browser: Browser, url: str, width: int, height: int, scheme: str) -> None:
        self.browser, self.url = browser, url
        self.context = browser.call("Target.createBrowserContext")["browserContextId"]
        target = browser.call("Target.createTarget", url="about:blank", browserContextId=self.context)["targetId"]
        self.session = browser.call("Target.attachToTarget", targetId=target, flatten=True)["sessionId"]
        for it in ("Page", "Runtime", "Log", "Network"):
            self.call(f"{it}.enable")
        self.size(width, height)
        self.call("Emulation.setEmulatedMedia", features=[{"name": "prefers-color-scheme", "value": scheme}])
        self.call("Page.navigate", url=url)

    def call(self, method: str, **given: Any) -> Any:
        return self.browser.call(method, self.session, **given)

    def size(self, width: int, height: int = 900) -> None:
        self.call("Emulation.setDeviceMetricsOverride", width=width, height=height, deviceScaleFactor=1, mobile=False)

    def ask(self, code: str) -> Any:
        """The value of an expression in the page, or what it throws."""
        told = self.call("Runtime.evaluate", expression=code, returnByValue=True, awaitPromise=True, allowUnsafeEvalBlockedByCSP=False)
        if "exceptionDetails" in told:
            return f"threw {told['exceptionDetails'].get('exception', {}).get('description', '')}"
        return told["result"].get("value")

    def waits(self, code: str, seconds: float = 8) -> bool:
        end = time.monotonic() + seconds
        while not (is_so := self.ask(code)) or str(is_so).startswith("threw"):
            if time.monotonic() > end:
                return False
            time.sleep(0.05)
        return True

    def sees(self, code: str, seconds: float = 8) -> bool:
        """Whether something comes to be so, where the page asks again and again."""
        return self.waits(f"look().then(() => {code})", seconds)

    def is_shown(self) -> bool:
        return self.waits("document.body && document.body.dataset.state === 'shown'")

    def text(self, where: str = "body") -> Any:
        """What a reader sees of an element."""
        return self.ask(f"document.querySelector({json.dumps(where)}).innerText")

    def cells(self, table: str) -> Any:
        """The texts of a table's cells, a list a row."""
        return self.ask(f"[...document.querySelectorAll('#{table} tbody tr')].map(row => [...row.cells].map(it => it.textContent))")

    def key(self, key: str, code: Optional[str] = None, text: Optional[str] = None) -> None:
        for kind in ("keyDown", "keyUp"):
            more = {"text": text} if text and kind == "keyDown" else {}
            self.call("Input.dispatchKeyEvent", type=kind, key=key, code=code or key, windowsVirtualKeyCode={"Tab": 9, "Enter": 13}.get(key, 0), **more)

    def overflow(self) -> Any:
        """By how many pixels the page is wider than its window, and which elements are."""
        return self.ask(
            """(() => { const room = innerWidth, needed = document.documentElement.scrollWidth;
            const wide = [...document.querySelectorAll('body *')].filter(it => it.getBoundingClientRect().right > room + 1 && !it.closest('thead'));
            return needed > room || wide.length ? [needed, ...wide.map(it => it.tagName + '#' + it.id).slice(0, 5)] : []; })()"""
        )

    def picture(self, file: str, most: int) -> None:
        """Keeps what the page looks like in a file, so many pixels of its height at most."""
        height = min(most, self.ask("document.documentElement.scrollHeight"))
        clip = {"x": 0, "y": 0, "width": self.ask("innerWidth"), "height": height, "scale": 1}
        told = self.call("Page.captureScreenshot", format="webp", quality=80, captureBeyondViewport=True, clip=clip)
        with open(file, "wb") as out:
            out.write(base64.b64decode(told["data"]))

    def faults(self) -> list[str]:
        """What the page threw, was refused by its policy, or asked elsewhere."""
        told = []
        for it in self.browser.events:
            if it.get("sessionId") == self.session:
                given = it["params"]
                if it["method"] == "Runtime.exceptionThrown":
                    told.append(given["exceptionDetails"].get("exception", given)["description"])
                elif it["method"] == "Log.entryAdded" and given["entry"]["level"] == "error" and given["entry"]["source"] != "network":
                    told.append(given["entry"]["text"])
                elif it["method"] == "Network.requestWillBeSent" and not given["request"]["url"].startswith(self.url):
                    told.append(given["request"]["url"])
        return told

    def close(self) -> None:
        self.browser.call("Target.disposeBrowserContext", browserContextId=self.context)


@contextlib.contextmanager
def shown(tries: Tries, browser: Browser, site: Site, width: int = 1280, scheme: str = "light") -> Iterator[Page]:
    """The page of a site, which has to come up, to keep its policy and to need no more width than there is."""
    page = browser.page(f"http://127.0.0.1:{site.port}/", width, scheme=scheme)
    tries.judge("the page comes up", page.is_shown(), page.text())
    yield page
    for it in (width, 400):
        page.size(it)
        tries.judge(f"it fits {it} pixels", page.overflow() == [], page.overflow())
    tries.judge("no fault", page.faults() == [], page.faults())
    page.close()
