#!/usr/bin/env python3
"""Makes the Debian package of what is built: the program, the service, the library, and the module for Python.

    tools/debian.py --program FILE --service FILE --library FOLDER [--revision N] [FOLDER]     by default into out/release
    tools/debian.py --manual FILE                       the manual page of a built service, to standard output

The library's folder is one of tools/library.py. Made twice of one commit, program, service and library the package has
the same bytes. It wants dpkg-deb, strip and a C compiler. contrib/debian says what stands where.
"""
import argparse
import email.utils
import gzip
import hashlib
import os
import re
import shutil
import subprocess
import sys
import tempfile
from typing import Iterable, Union

sys.dont_write_bytecode = True
TOP = os.path.dirname(os.path.dirname(os.path.realpath(__file__)))
sys.path.insert(0, f"{TOP}/tools")
import library  # noqa: E402
from archive_pages import of_archive  # noqa: E402
from version import version  # noqa: E402

LIBRARIES = "usr/lib/x86_64-linux-gnu"
MODULE = "usr/lib/python3/dist-packages"
DOCUMENTS = "usr/share/doc/jumbetai"
PAGES = (
    *("README.md", "SECURITY.md", "docs/GUIDE.md", "docs/OPERATIONS.md", "docs/PRODUCERS.md", "docs/FORMATS.md"),
    *("docs/GUARANTEES.md", "docs/PERFORMANCE.md", "docs/GLOSSARY.md", "docs/SERVICE.md", "docs/SCALING.md", "contrib/prometheus/README.md"),
)
EXAMPLES = (
    *("service/jumbetaid.toml", "contrib/prometheus/jumbetai.rules.yml", "contrib/prometheus/dashboard.json"),
    *("examples/batch.json", "examples/orders.json"),
)
# A site or a front, and the parts of a region by their numbers.
UNITS = ("jumbetaid.service", "jumbetaid@.service")
CONTROL = """Package: jumbetai
Version: {version}
Section: net
Priority: optional
Architecture: amd64
Maintainer: {maintainer}
Installed-Size: {size}
Depends: libc6 (>= {libc}), libgcc-s1, adduser
Suggests: python3, prometheus
Description: regions that keep the same CloudEvents
 Each region of a business has a site: a database file that takes the same
 services' events over any route, with repeats and in any order. All sites end
 with one view.
 .
 This package has the program site, the service jumbetaid, which takes events
 over HTTP and comes to one view with its peers, and the library for C, Rust
 and Python.
"""
CHANGES = """jumbetai ({version}) unstable; urgency=medium

  * What changed stands in changelog.gz.

 -- {maintainer}  {date}
"""
MANUAL = r""".TH JUMBETAID 8 "" "Jumbetai {version}" "Jumbetai"
.SH NAME
jumbetaid \- a site of CloudEvents as a service
.SH SYNOPSIS
.B jumbetaid
[\fIOPTIONS\fR]
.SH DESCRIPTION
{about}.
A browser at the address that it listens at shows how it does.
.SH OPTIONS
{options}
.SH SIGNALS
.TP
SIGTERM, SIGINT
What is begun is ended, what was answered is in the database, and the service ends.
.TP
SIGHUP
Tokens, peers and webhooks are read again from the file of settings.
.SH EXIT STATUS
.TP
0
It was ended by a signal, or
.B \-\-check
found nothing wrong.
.TP
1
It can't begin: standard error says why.
.TP
2
The words of the command line aren't known.
.TP
70
It can't go on: the log says why. What was answered is in the database.
.SH FILES
.TP
.I /etc/jumbetai/jumbetaid.toml
The settings of the package's service.
.TP
.I /var/lib/jumbetai
Its database and backups.
.TP
.I /etc/jumbetai/part\-N.toml, /var/lib/jumbetai/part\-N
The same of part N of a region, which the service
.B jumbetaid@N
runs.
.SH SETTINGS
.nf
{settings}
.fi
.SH SEE ALSO
.BR site (1)
"""


def roff(text: str) -> str:
    """Text as it stands in a manual page."""
    text = text.replace("\\", "\\e").replace("-", "\\-")
    return re.sub(r"^([.'])", r"\\&\1", text, flags=re.M)


def manual(service: str) -> str:
    """The manual page of a built service, of its own help."""
    said = subprocess.run([service, "--help"], capture_output=True, text=True, check=True).stdout
    about, _, rest = said.partition("\n\nUsage:")
    options, _, settings = rest.partition("Options:\n")[2].partition("\n\n# ")
    rows = re.findall(r"^ +((?:-\w, )?--\w.*)\n +(\S.*)$", options, re.M)
    if len(rows) < 6 or not settings:
        sys.exit("debian: the service's help isn't understood")
    told = "\n".join(f".TP\n.B {roff(words)}\n{roff(what)}" for words, what in rows)
    return MANUAL.format(version=version(), about=roff(about), options=told, settings=roff(f"# {settings.rstrip()}"))


def settings() -> str:
    """The settings of the package's service: the example's, with the database and the backups where the package has them."""
    with open(f"{TOP}/service/jumbetaid.toml", encoding="utf-8") as file:
        text = file.read()
    for name, path in (("db", "/var/lib/jumbetai/site.db"), ("backups", "/var/lib/jumbetai/backups")):
        text, count = re.subn(rf'^#: {name} = "[^"]*"', f'{name} = "{path}"', text, flags=re.M)
        if count != 1:
            sys.exit(f"debian: the example of settings has {count} lines with {name}")
    return text


def least_libc(files: Iterable[str]) -> str:
    """The least version of the C library by which all of these can be loaded."""
    found: set[tuple[int, ...]] = {(2, 34)}
    for file in files:
        said = subprocess.run(["objdump", "-T", file], capture_output=True, text=True, check=True).stdout
        found |= {tuple(map(int, it.split("."))) for it in re.findall(r"\(GLIBC_([\d.]+)\)", said)}
    return ".".join(map(str, max(found)))


class Room:
    """The tree of files of a package."""

    def __init__(self, folder: str) -> None:
        self.folder = folder

    def put(self, path: str, content: Union[str, bytes], mode: int = 0o644) -> None:
        """A file of these bytes or this text."""
        self.make_folder_of(path)
        with open(f"{self.folder}/{path}", "wb") as out:
            out.write(content.encode() if isinstance(content, str) else content)
        os.chmod(f"{self.folder}/{path}", mode)

    def copy(self, source: str, path: str, mode: int = 0o644) -> None:
        with open(source, "rb") as file:
            self.put(path, file.read(), mode)

    def make_folder_of(self, path: str) -> None:
        os.makedirs(os.path.dirname(f"{self.folder}/{path}"), exist_ok=True)

    def strip(self, path: str, *words: str) -> None:
        subprocess.run(["strip", "--remove-section=.comment", "--remove-section=.note", *words, f"{self.folder}/{path}"], check=True)

    def files(self) -> list[str]:
        """The paths of all files but those of control, sorted."""
        found = []
        for at, _, names in os.walk(self.folder):
            found += [os.path.relpath(f"{at}/{it}", self.folder) for it in names]
        return sorted(it for it in found if not it.startswith("DEBIAN/"))

    def settle(self, time: int) -> None:
        """Lets nothing of the machine or the hour be seen."""
        for at, folders, names in os.walk(self.folder, topdown=False):
            for it in (*names, *folders):
                path = f"{at}/{it}"
                if not os.path.islink(path) and os.path.isdir(path):
                    os.chmod(path, 0o755)
                os.utime(path, (time, time), follow_symlinks=False)
        os.chmod(self.folder, 0o755)
        os.utime(self.folder, (time, time))


def packed(text: str) -> bytes:
    return gzip.compress(text.encode(), 9, mtime=0)


def text_of(path: str) -> str:
    with open(f"{TOP}/{path}", encoding="utf-8") as file:
        return file.read()


def fill(room: Room, program: str, service: str, folder: str, changes: str) -> None:
    """Puts all files of the package in their places."""
    room.copy(program, "usr/bin/site", 0o755)
    room.copy(service, "usr/bin/jumbetaid", 0o755)
    room.strip("usr/bin/jumbetaid", "--strip-all")
    archive = f"{folder}/libjumbetai.a"
    room.copy(archive, f"{LIBRARIES}/libjumbetai.a")
    library.link_beside(archive, f"{room.folder}/{LIBRARIES}")
    shared = f"{LIBRARIES}/libjumbetai.so.{version()}"
    os.chmod(f"{room.folder}/{shared}", 0o644)
    room.strip(shared, "--strip-unneeded")
    room.copy(f"{folder}/jumbetai.h", "usr/include/jumbetai.h")
    described = library.PC.format(prefix="/usr", version=version()).replace("libdir=${prefix}/lib", "libdir=${prefix}/lib/x86_64-linux-gnu")
    room.put(f"{LIBRARIES}/pkgconfig/jumbetai.pc", described)
    for it in ("__init__.py", "_c.py", "py.typed"):
        room.copy(f"{TOP}/bindings/python/jumbetai/{it}", f"{MODULE}/jumbetai/{it}")
    room.put(f"{MODULE}/jumbetai-{version()}.dist-info/METADATA", f"Metadata-Version: 2.1\nName: jumbetai\nVersion: {version()}\n")
    with tempfile.TemporaryDirectory() as words:
        subprocess.run([f"{TOP}/tools/completions.py", "--program", program, "--all", words], check=True, stdout=subprocess.DEVNULL)
        for source, path in (
            ("site.bash", "usr/share/bash-completion/completions/site"),
            ("_site", "usr/share/zsh/vendor-completions/_site"),
            ("site.fish", "usr/share/fish/vendor_completions.d/site.fish"),
        ):
            room.copy(f"{words}/{source}", path)
        with open(f"{words}/site.1", encoding="utf-8") as manual_page:
            room.put("usr/share/man/man1/site.1.gz", packed(manual_page.read()))
    room.put("usr/share/man/man8/jumbetaid.8.gz", packed(manual(service)))
    for unit in UNITS:
        room.put(f"lib/systemd/system/{unit}", text_of(f"service/{unit}").replace("/usr/local/bin/jumbetaid", "/usr/bin/jumbetaid"))
    room.put("etc/jumbetai/jumbetaid.toml", settings())
    for page in PAGES:
        room.put(f"{DOCUMENTS}/{page}", text_of(page))
    for page in ("docs/page.webp", "docs/page-narrow.webp"):
        room.copy(f"{TOP}/{page}", f"{DOCUMENTS}/{page}")
    for file in EXAMPLES:
        room.copy(f"{TOP}/{file}", f"{DOCUMENTS}/examples/{os.path.basename(file)}")
    for page in PAGES:
        with open(f"{room.folder}/{DOCUMENTS}/{page}", encoding="utf-8") as put:
            text = put.read()
        room.put(f"{DOCUMENTS}/{page}", of_archive(text, f"{room.folder}/{DOCUMENTS}", page))
    room.put(f"{DOCUMENTS}/copyright", text_of("contrib/debian/copyright"))
    room.put(f"{DOCUMENTS}/changelog.gz", packed(text_of("CHANGELOG.md")))
    room.put(f"{DOCUMENTS}/changelog.Debian.gz", packed(changes))
    room.put("usr/share/lintian/overrides/jumbetai", text_of("contrib/debian/lintian-overrides"))


def control(room: Room, whole: str, maintainer: str) -> None:
    """Puts the files of control beside those of the package."""
    files = room.files()
    size = sum(os.lstat(f"{room.folder}/{it}").st_size + 1023 >> 10 for it in files)
    libc = least_libc(f"{room.folder}/{it}" for it in ("usr/bin/site", "usr/bin/jumbetaid", f"{LIBRARIES}/libjumbetai.so.{version()}"))
    sums = []
    for it in files:
        if not os.path.islink(f"{room.folder}/{it}"):
            with open(f"{room.folder}/{it}", "rb") as file:
                sums.append(f"{hashlib.md5(file.read()).hexdigest()}  {it}\n")
    room.put("DEBIAN/control", CONTROL.format(version=whole, maintainer=maintainer, size=size, libc=libc))
    room.put("DEBIAN/md5sums", "".join(sums))
    room.put("DEBIAN/conffiles", "/etc/jumbetai/jumbetaid.toml\n")
    room.put("DEBIAN/triggers", "activate-noawait ldconfig\n")
    room.put("DEBIAN/shlibs", f"libjumbetai {library.soname().rpartition('.')[2]} jumbetai (>= {version()})\n")
    for it in ("postinst", "prerm", "postrm"):
        room.put(f"DEBIAN/{it}", text_of(f"contrib/debian/{it}"), 0o755)


def make(program: str, service: str, folder: str, to: str, revision: int = 1) -> str:
    """Makes the package in a folder, and answers its file."""
    for tool in ("dpkg-deb", "strip", "objdump", "git"):
        if not shutil.which(tool):
            sys.exit(f"debian: {tool} isn't here")
    asked = ["git", "-C", TOP, "log", "-1", "--format=%ct\t%an <%ae>"]
    time, _, maintainer = subprocess.run(asked, capture_output=True, text=True, check=True).stdout.strip().partition("\t")
    whole = f"{version()}-{revision}"
    changes = CHANGES.format(version=whole, maintainer=maintainer, date=email.utils.formatdate(int(time)))
    os.makedirs(to, exist_ok=True)
    file = os.path.abspath(f"{to}/jumbetai_{whole}_amd64.deb")
    with tempfile.TemporaryDirectory() as at:
        room = Room(f"{at}/jumbetai")
        os.mkdir(room.folder)
        fill(room, os.path.abspath(program), os.path.abspath(service), folder, changes)
        control(room, whole, maintainer)
        room.settle(int(time))
        words = ["dpkg-deb", "--root-owner-group", "--threads-max=1", "-Zxz", "-z9", "--build", room.folder, f"{at}/made.deb"]
        subprocess.run(words, check=True, stdout=subprocess.DEVNULL, env={**os.environ, "SOURCE_DATE_EPOCH": time})
        shutil.move(f"{at}/made.deb", file)
    os.chmod(file, 0o644)
    return file


def main() -> None:
    words = argparse.ArgumentParser(description=__doc__, formatter_class=argparse.RawDescriptionHelpFormatter)
    words.add_argument("--program", default=f"{TOP}/crates/site_cli/out/site_cli")
    words.add_argument("--service", default=f"{TOP}/out/service/jumbetaid")
    words.add_argument("--library", default=f"{TOP}/out/library", metavar="FOLDER")
    words.add_argument("--revision", type=int, default=1, metavar="N")
    words.add_argument("--manual", metavar="FILE")
    words.add_argument("folder", nargs="?", default=f"{TOP}/out/release", metavar="FOLDER")
    given = words.parse_args()
    if given.manual:
        print(manual(os.path.abspath(given.manual)), end="")
    else:
        print(make(given.program, given.service, given.library, given.folder, given.revision))


if __name__ == "__main__":
    main()
