"""Each group of the driver's rows, played alone, and once more with each of its allocations refused: tests/driver_rows.py says how."""
import contextlib
from concurrent.futures import ThreadPoolExecutor
from typing import Callable, Iterator

import pytest
from driver_rows import Driver, Group, groups_in, name_of
from harness import Counts
from refuse_allocations import Refuser
from shell import TOP

DRIVER = "rows"


def pytest_generate_tests(metafunc: pytest.Metafunc) -> None:
    """A test of each group."""
    if "group" in metafunc.fixturenames:
        every = groups_in(f"{TOP}/crates/{DRIVER}")
        metafunc.parametrize("group", [pytest.param(at, id=name_of(own)) for at, (own, _) in enumerate(every)])


# A group by its place, once it was played, and how many allocations were refused to it.
Plays = Callable[[int], tuple[Group, int]]


@pytest.fixture(scope="module")
def plays(request: pytest.FixtureRequest, jobs: int) -> Iterator[Plays]:
    """Plays the groups that are asked for side by side."""
    items = [it for it in request.session.items if isinstance(it, pytest.Function) and it.function is test_group]
    asked = [int(str(it.callspec.params["group"])) for it in items]
    with contextlib.ExitStack() as end:
        refuser, pool = end.enter_context(Refuser()), ThreadPoolExecutor(jobs)
        end.callback(lambda: pool.shutdown(cancel_futures=True))
        driver = Driver(f"{TOP}/crates/{DRIVER}/out/{DRIVER}", f"{TOP}/crates/{DRIVER}", refuser)
        begun = {group: pool.submit(driver.play, group) for group in asked}
        yield lambda group: (driver.groups[group], begun[group].result())


@pytest.mark.slow
def test_group(group: int, plays: Plays, checks: Counts) -> None:
    played, refused = plays(group)
    print(f"{refused} allocations, {played.again} calls played again, {played.ended} ends")
    checks.add(1 + refused, played.wrong)
