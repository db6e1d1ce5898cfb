"""What is tried (the program, the library, the service), folders to try it in, what is tried by hand alone, and the last line, which
the gate reads."""
import contextlib
import io
import os
import shutil
import tempfile
from typing import TYPE_CHECKING, Any, Iterator

import pytest
from harness import Counts
from shell import TOP, Room, Stage

if TYPE_CHECKING:
    from library_users import Bench
    from serving import Tries

# How many checks the tests made that count them, what these left out, and what was told of what is kept.
CHECKS, SKIPPED, KEPT = pytest.StashKey[int](), pytest.StashKey[list[str]](), pytest.StashKey[list[str]]()


def pytest_addoption(parser: pytest.Parser) -> None:
    parser.addoption("--program", default=f"{TOP}/crates/site_cli/out/site_cli", help="the built program")
    parser.addoption("--library", metavar="FOLDER", help="the library in C, where it isn't to be made")
    parser.addoption("--service", metavar="FILE", help="the built service, where it isn't to be built")
    parser.addoption("--anew", action="store_true", help="build the library, though it is kept")
    parser.addoption("--by-hand", action="store_true", help="the tests that no gate runs too")
    parser.addoption("--jobs", type=int, default=len(os.sched_getaffinity(0)), help="how many runs with a refused allocation there are at once")
    parser.addoption("--of", type=int, default=100, help="what the sizes on pages are divided by")
    parser.addoption("--events", type=int, default=120_000, help="how many events the bindings take")
    parser.addoption("--orders", type=int, default=300, help="how many orders the bindings place")
    parser.addoption("--root", metavar="FOLDER", help="the fresh root of the Debian package, kept for later runs")
    parser.addoption("--pictures", metavar="FOLDER", help="make the pictures of the service's page")


def pytest_configure(config: pytest.Config) -> None:
    config.stash[CHECKS] = 0
    config.stash[SKIPPED] = list[str]()
    config.stash[KEPT] = list[str]()


def pytest_collection_modifyitems(config: pytest.Config, items: list[pytest.Item]) -> None:
    """Leaves out what is tried by hand, where it isn't asked for."""
    if not config.getoption("--by-hand"):
        left = [it for it in items if it.get_closest_marker("by_hand")]
        if left:
            config.hook.pytest_deselected(items=left)
            items[:] = [it for it in items if it not in left]


@pytest.fixture(scope="session")
def program(pytestconfig: pytest.Config) -> str:
    found = os.path.realpath(str(pytestconfig.getoption("--program")))
    assert os.access(found, os.X_OK), f"no program at {found}"
    return found


@pytest.fixture(scope="session")
def library(pytestconfig: pytest.Config) -> str:
    """The folder of the library in C."""
    import library as maker

    given, folder = pytestconfig.getoption("--library"), f"{TOP}/out/tests/library"
    if given:
        return os.path.abspath(str(given))
    if not maker.compiler():
        pytest.skip("no C compiler is here")
    with contextlib.redirect_stdout(io.StringIO()) as said:
        maker.make(folder, maker.proved_part(bool(pytestconfig.getoption("--anew"))))
    pytestconfig.stash[KEPT] = said.getvalue().splitlines()
    return folder


@pytest.fixture(scope="session")
def bench(pytestconfig: pytest.Config, library: str) -> Iterator["Bench"]:
    """The library as its users have it, and what is compiled over it."""
    from library_users import Bench

    with tempfile.TemporaryDirectory(prefix="bindings-") as folder:
        yield Bench(folder, library, os.path.abspath(str(pytestconfig.getoption("--program"))))


@pytest.fixture(scope="session")
def batch(pytestconfig: pytest.Config, bench: "Bench") -> str:
    """A file of many events."""
    return bench.batch("batch.json", int(pytestconfig.getoption("--events")))


@pytest.fixture(scope="session")
def order_count(pytestconfig: pytest.Config) -> int:
    return int(pytestconfig.getoption("--orders"))


@pytest.fixture(scope="session")
def may_be_full(bench: "Bench") -> Iterator[dict[str, str]]:
    """What tells tests of the library where a disk is that gets full; nothing where none can be made."""
    from library_users import small_disk

    with small_disk(bench.at("full")) as folder:
        yield {"JUMBETAI_FULL": folder} if folder else {}


@pytest.fixture(scope="session")
def service(pytestconfig: pytest.Config, request: pytest.FixtureRequest) -> str:
    """The service, with all that can be built into it."""
    import service as maker

    given = pytestconfig.getoption("--service")
    if given:
        return os.path.realpath(str(given))
    if not maker.has_crates() or not shutil.which("cargo"):
        pytest.skip("the crates that the service stands on aren't there: tools/service.py --install")
    return maker.make(f"{TOP}/out/service", request.getfixturevalue("library"), maker.FEATURES)


@pytest.fixture
def tries(pytestconfig: pytest.Config, request: pytest.FixtureRequest, service: str) -> Iterator["Tries"]:
    """What a test counts that starts services, which end with it; their folders."""
    from serving import Tries

    with tempfile.TemporaryDirectory() as folder, contextlib.ExitStack() as end:
        tries = Tries(folder, service, os.path.realpath(str(pytestconfig.getoption("--program"))))
        tries.what = request.node.name.removeprefix("test_")
        end.callback(tries.end)
        yield tries


@pytest.fixture
def postgres() -> Iterator[Any]:
    """A PostgreSQL of its own with an outbox."""
    from serving import database

    with database() as found:
        if found is None:
            pytest.skip("PostgreSQL isn't there (postgresql-15)")
        yield found


@pytest.fixture(scope="session")
def jobs(pytestconfig: pytest.Config) -> int:
    return int(pytestconfig.getoption("--jobs"))


@pytest.fixture(scope="session")
def stage(program: str) -> Iterator[Stage]:
    with tempfile.TemporaryDirectory(prefix="site-rows-") as folder:
        yield Stage(folder, program)


@pytest.fixture
def room(stage: Stage) -> Room:
    """An empty folder, in which lines are typed."""
    return stage.room()


@pytest.fixture
def checks() -> Counts:
    """What a test counts that looks at many things: it goes on behind what is wrong, and fails in the end."""
    return Counts()


def counts_of(item: pytest.Item) -> list[Counts]:
    return [it for it in getattr(item, "funcargs", {}).values() if isinstance(it, Counts)]


@pytest.hookimpl(trylast=True)  # type: ignore[misc]
def pytest_runtest_call(item: pytest.Item) -> None:
    """Fails a test of which a check was wrong, once it has come to its end."""
    wrong = [line for it in counts_of(item) for line in it.wrong]
    if wrong:
        pytest.fail("\n".join(wrong), pytrace=False)


def pytest_runtest_teardown(item: pytest.Item) -> None:
    stash = item.config.stash
    for it in counts_of(item):
        stash[CHECKS] += it.all
        stash[SKIPPED] += it.skipped


def pytest_unconfigure(config: pytest.Config) -> None:
    """Prints what tests left out, how much they checked, a line for each test that is wrong, and at last 'N passed, M failed'."""
    reporter = config.pluginmanager.get_plugin("terminalreporter")
    if reporter and not config.getoption("--collect-only"):
        print(*(f"{it}\n" for it in (*config.stash[KEPT], *config.stash[SKIPPED])), sep="", end="")
        print(f"{config.stash[CHECKS]} checks within tests")
        wrong = [it for kind in ("failed", "error") for it in reporter.stats.get(kind, ())]
        print(*(f"wrong: {it.nodeid}\n" for it in wrong), sep="", end="")
        print(f"{len(reporter.stats.get('passed', ()))} passed, {len(wrong)} failed")
