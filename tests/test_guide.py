"""The pages that people paste from: each is typed into a bash of its own, in an empty folder, and prints what stands there.

One bash runs all of a page, so `set -o pipefail`, `cd`, functions and `$?` hold as they do for who types it. Sizes are divided by
--of. What is run of a page, and what is given, is told by tools/pages.py.
"""
import os
import re
import secrets
import signal
import subprocess
from typing import Any, Callable, Optional

import pytest
from pages import PAGES, room, script, typed
from shell import LONGEST, text_of

# What a command printed; none where it didn't come to its end.
Printed = list[Optional[str]]
SERVICES = ("docs/SERVICE.md", "docs/SCALING.md")
OF_SERVICE = (pytest.mark.library, pytest.mark.alone)


def play(page: str, program: str, service: Optional[str], of: int) -> Printed:
    """What each command of a page prints."""
    commands, mark = script(page, of)[0], f"mark-{secrets.token_hex(8)}"
    with room(program, service=service) as (folder, environment):
        with open(os.path.join(folder, f".{mark}"), "w", encoding="utf-8") as file:
            file.write("".join(typed(commands, mark)))
        streams: dict[str, Any] = {"stdin": subprocess.DEVNULL, "stdout": subprocess.PIPE, "stderr": subprocess.STDOUT}
        with subprocess.Popen(["bash", f".{mark}"], cwd=folder, env=environment, start_new_session=True, **streams) as ran:
            try:
                said = ran.communicate(timeout=LONGEST * max(1, 100 // of))[0]
            except subprocess.TimeoutExpired:
                os.killpg(ran.pid, signal.SIGKILL)
                said = ran.communicate()[0]
    parts = [re.sub(rf"\.{mark}: line \d+: ", "bash: ", it) for it in text_of(said).split(f"{mark}\n")]
    return [*parts[:-1], *[None] * (len(commands) + 1 - len(parts))]


@pytest.fixture(scope="session")
def printed(pytestconfig: pytest.Config, program: str) -> Callable[[str, Optional[str]], Printed]:
    """What the commands of a page print, which is played once."""
    found: dict[str, Printed] = {}

    def of_page(page: str, service: Optional[str]) -> Printed:
        if page not in found:
            found[page] = play(page, program, service, int(pytestconfig.getoption("--of")))
        return found[page]

    return of_page


def pytest_generate_tests(metafunc: pytest.Metafunc) -> None:
    """A test of each command, and one that is skipped of what a page wants and that isn't there."""
    if "command" not in metafunc.fixturenames:
        return
    each: list[object] = []
    for page in PAGES:
        commands, lacking = script(page, int(metafunc.config.getoption("--of")))
        marks = OF_SERVICE if page in SERVICES else ()
        for at, (command, more) in enumerate(commands):
            name = command.splitlines()[0] if command else f"the file {more[0]}"
            each.append(pytest.param(page, at, id=f"{page}: {name}", marks=marks))
        if lacking:
            why = f"{', '.join(sorted(lacking))} isn't there"
            each.append(pytest.param(page, 0, id=f"{page}: what wants others", marks=[*marks, pytest.mark.skip(reason=why)]))
    metafunc.parametrize(("page", "command"), each)


def test_command(
    page: str, command: int, printed: Callable[[str, Optional[str]], Printed], pytestconfig: pytest.Config, request: pytest.FixtureRequest
) -> None:
    said = printed(page, request.getfixturevalue("service") if page in SERVICES else None)[command]
    line, wanted = script(page, int(pytestconfig.getoption("--of")))[0][command]
    assert said == (wanted if line else "")


@pytest.mark.parametrize("page", PAGES)
def test_page_has_commands(page: str) -> None:
    assert script(page, 100)[0]
