"""libjumbetai.a as programs in C have it: under valgrind and sanitizers too, beside the program, and installed below a prefix.

The answers about examples/orders.json have to be those that were worked out by hand, and those about 2,000 events the program's, byte
for byte.
"""
import os

import library
import pytest
import version
from library_users import ALONE, DONE, PROGRAMS, QUESTIONS, STRICT, Bench, is_apart, name_of, sources, worked_answers
from shell import TOP

pytestmark = [pytest.mark.library, pytest.mark.slow]
VALGRIND = ["valgrind", "-q", "--error-exitcode=9", "--leak-check=full"]
SANITIZE = ["-fsanitize=address,undefined", "-fno-sanitize-recover=all", "-fno-omit-frame-pointer"]
# Where else the version stands.
MANIFESTS = ("bindings/rust/jumbetai-sys/Cargo.toml", "bindings/python/pyproject.toml", "service/Cargo.toml")
TESTS = [it for it in PROGRAMS if not is_apart(it)]


@pytest.mark.parametrize("where", [*version.told(), *MANIFESTS])
def test_version(where: str) -> None:
    told = version.told_in(where, rf'^version = "{version.NUMBER}"$') if where in MANIFESTS else version.told()[where]
    assert told == version.version()


# Each file in C by the compiler's own analysis, and the tests of some of them alone.


@pytest.mark.parametrize("source", [*(f"bindings/c/{it}" for it in library.PARTS), *ALONE, *PROGRAMS])
def test_analysis_of_gcc(source: str, bench: Bench) -> None:
    bench.wants("gcc")
    bench.run_well(["gcc", *STRICT, "-fanalyzer", "-c", "-Ilibrary", f"{TOP}/{source}", "-o", "analyzed.o"])


@pytest.mark.parametrize("source", ALONE)
def test_alone(source: str, bench: Bench) -> None:
    bench.run_well([bench.compile(source)], DONE)


@pytest.mark.parametrize("source", ALONE)
def test_alone_under_valgrind(source: str, bench: Bench) -> None:
    bench.wants("valgrind")
    bench.run_well([*VALGRIND, bench.compile(source)], DONE)


# The programs in C, each linked as a user links it.


@pytest.mark.parametrize("source", TESTS)
def test_program(source: str, bench: Bench) -> None:
    bench.run_well([bench.compile(source)], DONE)


@pytest.mark.parametrize("source", [it for it in PROGRAMS if is_apart(it)])
def test_program_is_compiled(source: str, bench: Bench) -> None:
    bench.compile(source)


# Every request of an outbox over a file in turn would take minutes there.
@pytest.mark.parametrize("source", [it for it in TESTS if "want_outbox" not in it])
def test_program_under_valgrind(source: str, bench: Bench) -> None:
    bench.wants("valgrind")
    bench.run_well([*VALGRIND, bench.compile(source)])


def test_delta_under_valgrind(bench: Bench) -> None:
    bench.wants("valgrind")
    bench.run_well([*VALGRIND, ask(bench), "delta", small_batch(bench)])


def test_header_in_cpp(bench: Bench) -> None:
    bench.wants("c++")
    bench.run_well(["c++", "-x", "c++", "-Wall", "-Wextra", "-Werror", "-fsyntax-only", "library/jumbetai.h"])


# The same with sanitizers, where clang has a runtime for them. try_want gives the library its memory itself.
SANITIZED: dict[str, tuple[list[str], list[str]]] = {
    **{it: (sources(more), []) for it, more in ALONE.items()},
    **{it: (sources(library.PARTS), ["-Llibrary", "-ljumbetai"]) for it in TESTS if it.startswith("bindings/c/test_")},
    "bindings/c/try_want.c": (sources(it for it in library.PARTS if it != "heap.c"), ["-Llibrary", "-ljumbetai"]),
}


@pytest.fixture(scope="module")
def sanitizers(bench: Bench) -> None:
    bench.wants("clang")
    with open(bench.at("nothing.c"), "w", encoding="ascii") as out:
        out.write("int main(void) { return 0; }\n")
    if bench.run(["clang", *SANITIZE, "nothing.c", "-o", "nothing-sanitized"])[0] or bench.run(["./nothing-sanitized"])[0]:
        pytest.skip("clang has no runtime for sanitizers here")


@pytest.mark.parametrize("source", SANITIZED)
def test_with_sanitizers(source: str, bench: Bench, sanitizers: None) -> None:
    name, (more, last) = f"{name_of(source)}-sanitized", SANITIZED[source]
    bench.run_well(["clang", *STRICT, *SANITIZE, "-Ilibrary", f"{TOP}/{source}", *more, *last, "-o", name])
    bench.run_well([f"./{name}"], DONE)


# What the example answers.


def ask(bench: Bench) -> str:
    return bench.compile("examples/c/ask.c")


def small_batch(bench: Bench) -> str:
    return bench.batch("small.json", 2000)


@pytest.mark.parametrize("question", QUESTIONS)
def test_answer_that_was_worked_out(question: str, bench: Bench) -> None:
    assert bench.run_well([ask(bench), question, f"{TOP}/examples/orders.json"]).decode() == worked_answers()[question]


@pytest.mark.parametrize("question", QUESTIONS)
def test_answer_of_the_program(question: str, bench: Bench) -> None:
    want, got = (bench.run([it, question, small_batch(bench)]) for it in (bench.program, ask(bench)))
    assert got == want and got[0] == 0


@pytest.fixture(scope="module")
def small_site(bench: Bench) -> str:
    """A database with the events, beside a file of none and its summary."""
    bench.run_well([bench.program, "take", "--db", "small.db", small_batch(bench)])
    with open(bench.at("none.json"), "w", encoding="ascii") as none:
        none.write("[]")
    with open(bench.at("nothing"), "wb") as nothing:
        nothing.write(bench.run([ask(bench), "summary", "none.json"])[1])
    return "small.db"


@pytest.mark.parametrize(("word", "typed"), [("summary", "summary"), ("page", "scrub --all"), ("delta", "delta --all nothing")])
def test_exchange_of_the_program(word: str, typed: str, bench: Bench, small_site: str) -> None:
    command, *more = typed.split()
    want, got = bench.run([bench.program, command, "--db", small_site, *more]), bench.run([ask(bench), word, small_batch(bench)])
    assert got == want and got[0] == 0


# The library below a prefix, as a package has it.


def install(bench: Bench, prefix: str, root: str = "") -> bytes:
    return bench.run_well([f"{TOP}/tools/library.py", "--from", "library", "--install", prefix], more={"DESTDIR": root})


@pytest.fixture(scope="module")
def prefix(bench: Bench) -> str:
    install(bench, bench.at("prefix"))
    return bench.at("prefix")


def test_library_that_is_packed(bench: Bench) -> None:
    install(bench, "/opt/jumbetai", bench.at("packed"))
    with open(bench.at("packed/opt/jumbetai/lib/pkgconfig/jumbetai.pc"), encoding="utf-8") as file:
        assert "prefix=/opt/jumbetai\n" in file.read()


def test_what_is_installed(prefix: str) -> None:
    files = sorted(os.path.relpath(f"{at}/{it}", prefix) for at, _, those in os.walk(prefix) for it in those)
    names = ("libjumbetai.a", "libjumbetai.so", library.soname(), f"libjumbetai.so.{version.version()}", "pkgconfig/jumbetai.pc")
    assert files == sorted(["include/jumbetai.h", *(f"lib/{it}" for it in names)])


def test_shared_object_exports_the_functions_of_the_header(bench: Bench, prefix: str) -> None:
    out = bench.run_well(["nm", "-D", "--defined-only", f"{prefix}/lib/libjumbetai.so"]).decode()
    assert sorted(it.split()[2].partition("@")[0] for it in out.splitlines() if " T " in it) == sorted(library.functions())


def test_soname(bench: Bench, prefix: str) -> None:
    assert f"soname: [{library.soname()}]" in bench.run(["readelf", "-d", f"{prefix}/lib/libjumbetai.so"])[1].decode()


def flags(prefix: str) -> list[str]:
    return [f"-I{prefix}/include", f"-L{prefix}/lib", "-ljumbetai"]


def test_flags_of_pkg_config(bench: Bench, prefix: str) -> None:
    bench.wants("pkg-config")
    out = bench.run_well(["pkg-config", "--cflags", "--libs", "jumbetai"], more={"PKG_CONFIG_PATH": f"{prefix}/lib/pkgconfig"})
    assert out.decode().split() == flags(prefix)


@pytest.mark.parametrize("how", ["shared", "static"])
def test_example_over_the_installed_library(how: str, bench: Bench, prefix: str) -> None:
    given = flags(prefix) if how == "shared" else ["-Wl,-Bstatic", *flags(prefix), "-Wl,-Bdynamic"]
    bench.run_well([library.compiler(), f"{TOP}/examples/c/ask.c", *given, "-o", f"ask-{how}"])
    words = [f"./ask-{how}", "kinds", f"{TOP}/examples/orders.json"]
    out = bench.run_well(words, more={"LD_LIBRARY_PATH": f"{prefix}/lib" if how == "shared" else ""})
    assert out.decode() == worked_answers()["kinds"]


# The example that writes orders and hands their rows on, beside the program where it is there.
DONE_TO_ORDERS = ("place 7 10", "place 8 11", "ship 7 12", "cancel 8 13", "ship 8 14", "place 0 15", "place 9 25")
PLACED = 4
PAST = {"place": "placed", "ship": "shipped", "cancel": "cancelled"}
ROW = '{{"id":"{0:020d}","sequence":"{0:020d}","source":"/orders","specversion":"1.0","subject":"{1}","time":"{2}","type":"order.{3}"}}\n'


# What the example said of each line, and what the program did.
Orders = dict[str, tuple[tuple[int, bytes], tuple[int, bytes]]]


@pytest.fixture(scope="module")
def orders(bench: Bench) -> Orders:
    found, own = Orders(), bench.compile("examples/c/orders.c")
    for line in DONE_TO_ORDERS:
        action, order, hour = line.split()
        time = f"2024-02-29T{hour}:00:00Z"
        said = bench.run([own, action, order, time, "orders.db"])
        other = bench.run([bench.own_program, "order", "--db", "theirs.db", "--at", time, action, order]) if bench.own_program else said
        found[line] = said, other
    return found


@pytest.mark.parametrize("line", DONE_TO_ORDERS)
def test_order(line: str, orders: Orders) -> None:
    action, order, hour = line.split()
    (status, out), number = orders[line][0], DONE_TO_ORDERS.index(line) + 1
    if number <= PLACED:
        assert (status, out.decode()) == (0, ROW.format(number, order, f"2024-02-29T{hour}:00:00Z", PAST[action]))
    else:
        assert status == 1 and out.startswith(b"orders: ")


@pytest.mark.parametrize("line", DONE_TO_ORDERS)
def test_order_beside_the_program(line: str, orders: Orders, bench: Bench) -> None:
    assert bench.program
    (status, out), other = orders[line]
    assert status == (other[0] > 0) and (status > 0 or out == other[1])


@pytest.fixture(scope="module")
def handed(bench: Bench, orders: Orders) -> list[tuple[int, bytes]]:
    """What is said where rows are handed on to a site, behind three marks."""
    return [bench.run(["./orders", "relay", str(mark), "orders.db", "took.db"]) for mark in (0, 4, 1)]


def test_rows_that_are_handed_on(handed: list[tuple[int, bytes]]) -> None:
    assert handed == [(0, b"4\n")] * 3


def test_rows_of_the_program(bench: Bench, orders: Orders) -> None:
    said = [bench.run([bench.program, "relay", "--after", "0", "--db", it]) for it in ("orders.db", "theirs.db")]
    assert said[0] == said[1] and said[0][0] == 0


def test_service_of_the_program(bench: Bench, orders: Orders) -> None:
    said = [bench.run([bench.program, "service", "--db", it]) for it in ("orders.db", "theirs.db")]
    assert said == [(0, b'{"base":0,"orders":2,"rows":4,"source":"/orders"}\n')] * 2


def test_site_has_each_row(bench: Bench, handed: list[tuple[int, bytes]]) -> None:
    with open(bench.at("rows.json"), "wb") as rows:
        rows.write(bench.run([bench.program, "relay", "--after", "0", "--db", "orders.db"])[1])
    kinds = [bench.run([bench.program, "cover", *it]) for it in (["--db", "took.db"], ["rows.json"])]
    assert kinds[0] == kinds[1] and kinds[0][0] == 0


def test_full_disk(bench: Bench, may_be_full: dict[str, str]) -> None:
    """Bodies of several callers on a disk that is full in the middle of their transaction; both bindings' own tests do so too."""
    if not may_be_full:
        pytest.skip("no file system can be mounted here")
    bench.run_well([bench.compile("bindings/c/test_full.c")], DONE, may_be_full)
