"""The archive of a release, made twice and tried as somebody who has nothing else.

Both archives have to be the same bytes, and so both Debian packages, where the crates of the service and dpkg-deb are; each file in
them has the sum that is told; the program runs through the guide's first part in a root folder where nothing but the C library is,
where the machine lets one be made, and without an environment; the example in C is linked with what was unpacked, and the wheel
installed.
"""
import glob
import os
import re
import shlex
import shutil
import subprocess
import tempfile
from typing import Any, Iterator, NamedTuple, Optional

import library as maker
import pytest
from archive_pages import LINK, STRAY
from harness import Counts
from pages import steps
from shell import TOP
from version import version

pytestmark = [pytest.mark.library, pytest.mark.slow]
PART = "Orders, and the events that tell of them"
FILES = (
    "bin/site",
    "library/libjumbetai.a",
    "library/jumbetai.h",
    "bindings/rust/Cargo.toml",
    "bindings/rust/jumbetai-sys/Cargo.toml",
    "bindings/python/jumbetai/__init__.py",
    "bindings/python/jumbetai/libjumbetai.so",
    "examples/python/hand_on.py",
    "examples/rust/hold.rs",
    "complete/site.1",
    "complete/site.bash",
    "README.md",
    "SECURITY.md",
    "CHANGELOG.md",
    "docs/page.webp",
    "contrib/debian/README.md",
    "contrib/Containerfile",
    "docs/GUIDE.md",
    "docs/OPERATIONS.md",
    "docs/PRODUCERS.md",
    "docs/FORMATS.md",
    "docs/GUARANTEES.md",
    "docs/SERVICE.md",
    "docs/SCALING.md",
    "service/Cargo.toml",
    "service/src/main.rs",
    "service/jumbetaid@.service",
    "contrib/prometheus/jumbetai.rules.yml",
    "ABOUT",
)
PACKAGED = (
    "usr/bin/site",
    "usr/bin/jumbetaid",
    f"usr/lib/x86_64-linux-gnu/libjumbetai.so.{version()}",
    "usr/lib/x86_64-linux-gnu/libjumbetai.so.0",
    "usr/lib/x86_64-linux-gnu/libjumbetai.so",
    "usr/lib/x86_64-linux-gnu/libjumbetai.a",
    "usr/lib/x86_64-linux-gnu/pkgconfig/jumbetai.pc",
    "usr/include/jumbetai.h",
    "usr/lib/python3/dist-packages/jumbetai/__init__.py",
    "etc/jumbetai/jumbetaid.toml",
    "lib/systemd/system/jumbetaid.service",
    "lib/systemd/system/jumbetaid@.service",
    "usr/share/man/man8/jumbetaid.8.gz",
    "usr/share/bash-completion/completions/site",
    "usr/share/doc/jumbetai/copyright",
    "usr/share/doc/jumbetai/docs/SERVICE.md",
    "DEBIAN/conffiles",
    "DEBIAN/postinst",
)
NAME = f"jumbetai-{version()}-x86_64-linux"
# The first one on the path, which has what makes environments.
PYTHON = shutil.which("python3") or "python3"
AT = "2024-02-29T10:00:00Z"


def run_well(words: list[str], **how: Any) -> str:
    """What a command says that has to end with status 0."""
    ran = subprocess.run(words, stdin=subprocess.DEVNULL, stdout=subprocess.PIPE, stderr=subprocess.STDOUT, check=False, **how)
    said = str(ran.stdout.decode(errors="replace"))
    assert ran.returncode == 0, f"{words}: status {ran.returncode}: {said[-3000:]}"
    return said


class Made(NamedTuple):
    """Where both archives are made and one is unpacked, of this program, and of this service where there is one."""

    folder: str
    program: str
    service: Optional[str]

    @property
    def unpacked(self) -> str:
        return f"{self.folder}/{NAME}"

    def bytes_of(self, name: str) -> list[bytes]:
        """What both files of a name hold."""
        found = []
        for file in sorted(glob.glob(f"{self.folder}/*/{name}")):
            with open(file, "rb") as it:
                found.append(it.read())
        return found


@pytest.fixture(scope="module")
def made(request: pytest.FixtureRequest, program: str, library: str) -> Iterator[Made]:
    try:
        service = request.getfixturevalue("service") if shutil.which("dpkg-deb") else None
    except pytest.skip.Exception:
        service = None
    with tempfile.TemporaryDirectory(prefix="release-") as folder:
        for it in ("first", "second"):
            more = ["--service", service] if service else []
            words = [f"{TOP}/tools/release.sh", "--any", program, library, *more, f"{folder}/{it}"]
            run_well(words, umask=0o027 if it == "second" else 0o022)
        run_well(["tar", "-xJf", f"{folder}/first/{NAME}.tar.xz"], cwd=folder)
        yield Made(folder, program, service)


# The archive.


def test_both_archives_are_the_same_bytes(made: Made) -> None:
    both = made.bytes_of(f"{NAME}.tar.xz")
    assert len(both) == 2 and both[0] == both[1]


def test_sum_of_the_archive(made: Made) -> None:
    run_well(["sha256sum", "-c", "--quiet", f"{NAME}.tar.xz.sha256"], cwd=f"{made.folder}/first")


def test_sums_of_all_files(made: Made) -> None:
    run_well(["sha256sum", "-c", "--quiet", "SHA256SUMS"], cwd=made.unpacked)


@pytest.mark.parametrize("file", FILES)
def test_file(file: str, made: Made) -> None:
    assert os.path.isfile(f"{made.unpacked}/{file}")


def test_pages(made: Made, checks: Counts) -> None:
    """Each link leads to what is in the archive, and no page speaks of what is in the repository alone."""
    for at, _, files in os.walk(made.unpacked):
        for it in sorted(files):
            if not it.endswith(".md"):
                continue
            with open(f"{at}/{it}", encoding="utf-8") as file:
                text = file.read()
            to = [found[1].partition("#")[0] for found in LINK.findall(text) if not re.match("[a-z]+:", found[1])]
            checks.judge(f"links of {it}", all(os.path.exists(f"{at}/{link}") for link in to), to)
            checks.judge(f"words of {it}", not STRAY.search(text), STRAY.findall(text))
    assert checks.all


def wheels(made: Made) -> list[str]:
    return glob.glob(f"{made.unpacked}/library/jumbetai-{version()}-py3-none-*.whl")


def test_one_wheel(made: Made) -> None:
    assert len(wheels(made)) == 1


def test_wheel_in_a_fresh_environment(made: Made) -> None:
    """Without a network."""
    ran = subprocess.run([PYTHON, "-m", "venv", f"{made.folder}/fresh"], capture_output=True, text=True, check=False)
    if ran.returncode:
        pytest.skip(f"no environment can be made: {ran.stdout[-200:]}")
    alone = {"PATH": "/usr/bin:/bin", "PIP_NO_INDEX": "1"}
    run_well([f"{made.folder}/fresh/bin/pip", "install", "-q", *wheels(made)], env=alone)
    run_well([f"{made.folder}/fresh/bin/python", "-I", "-c", "import jumbetai; jumbetai.Site()"], cwd=made.folder, env=alone)


def test_package_for_python_beside_its_library(made: Made) -> None:
    run_well([PYTHON, "-c", "import jumbetai; jumbetai.Site()"], cwd=f"{made.unpacked}/bindings/python", env={"PATH": "/usr/bin:/bin"})


# The first part of the guide, whose commands are the program's alone.


def empty_root(folder: str, program: str) -> Optional[list[str]]:
    """Puts the program into a root folder with what it is linked with and nothing else; the words that run it there, or
    none where the machine lets no root folder be changed."""
    said = subprocess.run(["ldd", program], capture_output=True, text=True).stdout
    for file in re.findall(r"(/\S+)", said):
        os.makedirs(f"{folder}{os.path.dirname(file)}", exist_ok=True)
        shutil.copy(file, f"{folder}{file}")
    os.makedirs(f"{folder}/bin")
    shutil.copy(program, f"{folder}/bin/site")
    for words in (["chroot", folder], ["unshare", "-r", "chroot", folder]):
        if shutil.which(words[0]) and subprocess.run([*words, "/bin/site", "--help"], capture_output=True).returncode == 2:
            return words
    return None


@pytest.fixture(scope="module")
def printed(made: Made) -> list[str]:
    """What each command prints in a root folder with nothing else, or beside what is here where the machine lets none be made."""
    words = empty_root(f"{made.folder}/root", f"{made.unpacked}/bin/site")
    if words is None:
        os.makedirs(f"{made.folder}/beside")
    found = []
    for command, _ in steps("docs/GUIDE.md", PART)[0]:
        assert command is not None
        given = shlex.split(command)
        run = [*words, "/bin/site", *given[1:]] if words else [f"{made.unpacked}/bin/site", *given[1:]]
        how: dict[str, Any] = {"env": {"PATH": "/usr/sbin:/usr/bin:/sbin:/bin"}} if words else {"env": {}, "cwd": f"{made.folder}/beside"}
        # Without an environment: by its whole path, since there is none to look it up in.
        run[0] = shutil.which(run[0]) or run[0]
        streams: dict[str, Any] = {"stdin": subprocess.DEVNULL, "stdout": subprocess.PIPE, "stderr": subprocess.STDOUT}
        found.append(str(subprocess.run(run, text=True, check=False, **streams, **how).stdout))
    return found


@pytest.mark.parametrize("at", [pytest.param(at, id=str(command)) for at, (command, _) in enumerate(steps("docs/GUIDE.md", PART)[0])])
def test_command_of_the_guide(at: int, printed: list[str]) -> None:
    assert printed[at] == steps("docs/GUIDE.md", PART)[0][at][1]


def test_root_folder_with_nothing_else(made: Made, printed: list[str]) -> None:
    if os.path.exists(f"{made.folder}/beside"):
        pytest.skip("the machine lets no root folder be made: the guide was run beside what is here")


# The examples in C.


def compile_example(made: Made, name: str) -> str:
    run_well([maker.compiler(), f"examples/c/{name}.c", "-Ilibrary", "-Llibrary", "-ljumbetai", "-o", name], cwd=made.unpacked)
    return f"./{name}"


def both_say(made: Made, *each: list[str]) -> list[bytes]:
    return [subprocess.run(it, cwd=made.unpacked, capture_output=True, check=False).stdout for it in each]


def test_example_answers_as_the_program(made: Made) -> None:
    said = both_say(made, *([it, "kinds", "examples/batch.json"] for it in (compile_example(made, "ask"), "bin/site")))
    assert said[0] == said[1] != b""


def test_example_of_orders_says_what_the_program_says(made: Made) -> None:
    own = compile_example(made, "orders")
    said = both_say(made, [own, "place", "7", AT, "ours.db"], ["bin/site", "order", "--db", "theirs.db", "--at", AT, "place", "7"])
    assert said[0] == said[1] != b""


# The Debian package. tests/test_package.py installs it, by hand.
DEB = f"jumbetai_{version()}-1_amd64.deb"


@pytest.fixture(scope="module")
def package(made: Made) -> str:
    """What one package has."""
    if not made.service:
        pytest.skip("dpkg-deb or the crates of the service aren't there")
    run_well(["dpkg-deb", "-R", sorted(glob.glob(f"{made.folder}/*/{DEB}"))[0], f"{made.folder}/package"])
    return f"{made.folder}/package"


def test_both_packages_are_the_same_bytes(made: Made, package: str) -> None:
    both = made.bytes_of(DEB)
    assert len(both) == 2 and both[0] == both[1]


def test_sums_of_the_files_of_the_package(package: str) -> None:
    run_well(["md5sum", "-c", "--quiet", "DEBIAN/md5sums"], cwd=package)


@pytest.mark.parametrize("file", PACKAGED)
def test_file_of_the_package(file: str, package: str) -> None:
    assert os.path.lexists(f"{package}/{file}")


@pytest.mark.parametrize("name", ["site", "jumbetaid"])
def test_program_of_the_package_runs(name: str, made: Made, package: str) -> None:
    each = (f"{package}/usr/bin/{name}", str(made.program if name == "site" else made.service))
    said = [subprocess.run([it, "--version"], capture_output=True, cwd=made.folder, check=False).stdout for it in each]
    assert said[0] == said[1] != b""


def test_program_of_the_package_is_the_one_that_was_seen(made: Made, package: str) -> None:
    with open(f"{package}/usr/bin/site", "rb") as one, open(made.program, "rb") as other:
        assert one.read() == other.read()


def test_service_of_the_package_has_no_path_of_this_machine(package: str) -> None:
    with open(f"{package}/usr/bin/jumbetaid", "rb") as file:
        assert re.findall(rb"/(?:work|home|root)/[\w./-]+", file.read()) == []


def test_module_of_the_package_for_python(made: Made, package: str) -> None:
    alone = {
        "PATH": "/usr/bin:/bin",
        "PYTHONPATH": f"{package}/usr/lib/python3/dist-packages",
        "LD_LIBRARY_PATH": f"{package}/usr/lib/x86_64-linux-gnu",
    }
    run_well([PYTHON, "-c", "import jumbetai; jumbetai.Site()"], cwd=made.folder, env=alone)


@pytest.mark.skipif(not shutil.which("lintian"), reason="lintian isn't there")
def test_lintian(made: Made, package: str) -> None:
    run_well(["lintian", "--fail-on", "error", "--allow-root", sorted(glob.glob(f"{made.folder}/*/{DEB}"))[0]])


@pytest.mark.skipif(not shutil.which("man"), reason="man isn't there")
@pytest.mark.parametrize("page", ["man1/site.1.gz", "man8/jumbetaid.8.gz"])
def test_manual_page(page: str, package: str) -> None:
    words = ["man", "--warnings", "-E", "UTF-8", "-l", "-Tutf8", "-Z", f"{package}/usr/share/man/{page}"]
    ran = subprocess.run(words, capture_output=True, text=True, env={"PATH": "/usr/bin:/bin", "LC_ALL": "C.UTF-8"}, check=False)
    assert (ran.returncode, ran.stderr) == (0, "") and len(ran.stdout) > 2000
