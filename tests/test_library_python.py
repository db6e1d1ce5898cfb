"""The package for Python: its tests over a batch of 120,000 events, callers that are killed, and its wheel, which has no network."""
import contextlib
import re
import shutil

import pytest
from library_users import Bench
from shell import TOP
from version import version

pytestmark = [pytest.mark.library, pytest.mark.slow]


def test_tests_and_the_example_of_its_page(bench: Bench, batch: str, may_be_full: dict[str, str]) -> None:
    words = ["python3", "-m", "unittest", "-v", "test_jumbetai"]
    more = {"JUMBETAI_LIB": bench.at("shared/libjumbetai.so"), "JUMBETAI_BATCH": batch, **may_be_full}
    status, out = bench.run(words, more, f"{TOP}/bindings/python")
    passed = len(re.findall(rb"\.\.\. ok$", out, re.M))
    assert status == 0 and passed >= 40, out.decode(errors="replace")[-3000:]


def test_callers_that_are_killed(bench: Bench) -> None:
    """Eight callers whose process is killed: nothing that was answered is missing, and nothing is there twice."""
    words = [f"{TOP}/tools/kill_library.py", "--rounds", "20", "--library", "shared/libjumbetai.so"]
    bench.run_well(words, re.compile(rb"^20 passed, 0 failed$", re.M))


# The wheel in a fresh environment of Python that has nothing else.
ALONE = {"PATH": "/usr/bin:/bin", "PIP_NO_INDEX": "1", "PYTHONPATH": "", "JUMBETAI_LIB": ""}
CODE = "import jumbetai; assert jumbetai.Site().take('[]') == (0, 0); print(jumbetai.__file__, jumbetai.version())"


def make_wheel(bench: Bench, folder: str) -> str:
    return bench.run_well([f"{TOP}/tools/library.py", "--from", "library", "--wheel", folder]).decode().strip()


@pytest.fixture(scope="module")
def wheel(bench: Bench) -> str:
    return make_wheel(bench, "wheel")


def test_wheel_has_the_same_bytes_again(bench: Bench, wheel: str) -> None:
    with contextlib.ExitStack() as files:
        both = [files.enter_context(open(bench.at(it), "rb")).read() for it in (wheel, make_wheel(bench, "wheel-again"))]
    assert both[0] == both[1]


@pytest.fixture(scope="module")
def fresh(bench: Bench) -> str:
    """The folder of the environment's programs."""
    status, out = bench.run(["python3", "-m", "venv", "fresh"])
    if status:
        pytest.skip(f"no environment can be made: {out.decode(errors='replace')[-200:]}")
    return "fresh/bin"


@pytest.mark.parametrize("what", ["the wheel", "the package's folder"])
def test_pip_installs(what: str, bench: Bench, wheel: str, fresh: str) -> None:
    # A copy, in which pip may write.
    shutil.copytree(f"{TOP}/bindings/python", bench.at("package"), ignore=shutil.ignore_patterns("__pycache__"), dirs_exist_ok=True)
    given, more = (wheel, ALONE) if what == "the wheel" else ("package", {**ALONE, "JUMBETAI_LIB": bench.at("shared/libjumbetai.so")})
    bench.run_well(["env", *(f"{name}={it}" for name, it in more.items()), f"{fresh}/pip", "install", "-q", "--force-reinstall", f"./{given}"])
    out = bench.run_well([f"{fresh}/python", "-I", "-c", CODE], more=ALONE).decode()
    assert out.startswith(bench.at("fresh/")) and out.endswith(f" {version()}\n")
