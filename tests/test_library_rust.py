"""The crate for Rust: its tests over a batch of 120,000 events, 30.6 MB, and its examples, whose files the program reads.

With --events the batch has N events, with --orders the example places N orders.
"""
import contextlib
import os
import re
from typing import Iterator

import pytest
from library_users import Bench
from measure import held_lines
from shell import TOP

pytestmark = [pytest.mark.library, pytest.mark.slow]
MANIFEST = ["--offline", "--quiet", "--manifest-path", f"{TOP}/bindings/rust/Cargo.toml", "--workspace"]


def cargo(bench: Bench, more: dict[str, str], *words: str) -> tuple[int, bytes]:
    """The status of cargo over the crate with more in its environment, and what it said."""
    bench.wants("cargo")
    word, *rest = words
    return bench.run(["cargo", word, *MANIFEST, *rest], {**more, "CARGO_TARGET_DIR": bench.at("cargo")}, f"{TOP}/bindings/rust")


@pytest.fixture(scope="module")
def tested(bench: Bench, batch: str, order_count: int, may_be_full: dict[str, str]) -> Iterator[tuple[int, bytes]]:
    """What is said of the tests and of the examples of its page; it leaves the examples built."""
    yield cargo(bench, {"JUMBETAI_BATCH": batch, "JUMBETAI_ORDERS": str(order_count), **may_be_full}, "test")
    with contextlib.suppress(FileNotFoundError):
        os.remove(f"{TOP}/bindings/rust/Cargo.lock")


def test_tests_and_the_examples_of_its_page(tested: tuple[int, bytes]) -> None:
    status, out = tested
    passed = [int(it) for it in re.findall(rb"test result: ok\. (\d+) passed; 0 failed", out)]
    assert status == 0 and sum(passed) >= 37 and b"warning:" not in out, out.decode(errors="replace")[-3000:]


def test_rustdoc(bench: Bench, tested: tuple[int, bytes]) -> None:
    bench.wants("rustdoc")
    status, out = cargo(bench, {"RUSTDOCFLAGS": "-D warnings"}, "doc", "--no-deps")
    assert status == 0, out.decode(errors="replace")[-3000:]


@pytest.fixture(scope="module")
def held(bench: Bench, tested: tuple[int, bytes]) -> str:
    """The database into which the example takes 2,380 events."""
    with open(bench.at("lines"), "w", encoding="ascii") as lines:
        lines.write(held_lines("/a"))
    with open(bench.at("none.summary"), "w", encoding="ascii") as summary:
        summary.write('{"sources":{},"version":1}\n')
    said = re.compile(rb"(?:[a-z0-9, ]+: \d+ us\n){13}\Z")
    bench.run_well(["cargo/debug/examples/hold", "hold.db", "lines", "none.summary"], said)
    return "hold.db"


def test_example_that_takes_events(bench: Bench, held: str) -> None:
    assert bench.run_well([bench.program, "kinds", "--db", held]) == b'["t",2380]\n'


@pytest.fixture(scope="module")
def placed(bench: Bench, tested: tuple[int, bytes], order_count: int) -> tuple[str, str]:
    """The database in which the example places and ships so many orders, and that of the site to which it hands their rows."""
    said = re.compile(rb"(?:[a-z ]+: \d+ us\n){6}\Z")
    print(bench.run_well(["cargo/debug/examples/orders", "placed.db", "handed.db", str(order_count)], said).decode())
    return "placed.db", "handed.db"


def test_service_that_the_example_leaves(bench: Bench, placed: tuple[str, str], order_count: int) -> None:
    line = f'{{"base":0,"orders":{order_count},"rows":{2 * order_count},"source":"/shop"}}\n'
    assert bench.run_well([bench.program, "service", "--db", placed[0]]).decode() == line


def test_site_that_the_example_leaves(bench: Bench, placed: tuple[str, str], order_count: int) -> None:
    assert bench.run_well([bench.program, "kinds", "--db", placed[1]]).decode() == f'["order.placed",{order_count}]\n["order.shipped",{order_count}]\n'
