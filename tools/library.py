#!/usr/bin/env python3
"""Makes libjumbetai.a, the library for programs in C and what calls C, with its header, in a folder.

    tools/library.py [--shared] [FOLDER]       by default out/library; with --shared libjumbetai.so beside it
    tools/library.py --install PREFIX          both, the header and jumbetai.pc below PREFIX, as $DESTDIR has it
    tools/library.py --wheel FOLDER            the wheel for Python, which brings the library
    tools/library.py --object FILE             the shared object alone
    tools/library.py --from FOLDER ..          any of these of the libjumbetai.a that lies in that folder

The proved part is crates/site_c, which is proved and built where it isn't as its sources are (tools/build.py). What was
built is kept on this machine (tools/kept.py) by the checksums of all that it rests on, and taken where nothing changed:
`rt ci` proves a static library and builds none. The C of bindings/c is compiled by $CC, `cc`, `gcc` or `clang`, and all
of it goes into one archive, with nothing of the machine or the hour in it. The shared object is made of that archive;
it exports the functions of jumbetai.h and no others, and its soname has the first number of the version.
"""
import argparse
import os
import re
import shutil
import subprocess
import sys
import tempfile

sys.dont_write_bytecode = True
TOP = os.path.dirname(os.path.dirname(os.path.realpath(__file__)))
sys.path.insert(0, f"{TOP}/tools")
import build  # noqa: E402
from kept import Damaged, Kept, file_sum, sum_of  # noqa: E402

CRATE = "site_c"
# How many archives are kept.
MOST = 4
PARTS = ("site.c", "outbox.c", "numbers.c", "parts.c", "files.c", "heap.c", "errno.c")
COMPILE = ["-std=c11", "-Wall", "-Wextra", "-Wconversion", "-O2", "-fPIC", "-fvisibility=hidden", "-ffunction-sections", "-c"]
HEADER = f"{TOP}/bindings/c/jumbetai.h"
PC = """prefix={prefix}
includedir=${{prefix}}/include
libdir=${{prefix}}/lib

Name: Jumbetai
Description: Sites of CloudEvents that end with one view, and outboxes of orders
Version: {version}
Cflags: -I${{includedir}}
Libs: -L${{libdir}} -ljumbetai
"""


def compiler() -> str:
    """The C compiler, or an empty text where there is none."""
    return next((it for it in (os.environ.get("CC"), "cc", "gcc", "clang") if it and shutil.which(it)), "")


def compiled(source: str, to: str, *more: str) -> str:
    subprocess.run([compiler(), *COMPILE, *more, "-o", to, os.path.basename(source)], cwd=os.path.dirname(source), check=True)
    return to


def proved_part(is_anew: bool = False) -> str:
    """The archive of the proved crate, as its sources are: what is here, what was kept, or one that is built now."""
    archive = f"{TOP}/crates/{CRATE}/out/lib{CRATE}.a"
    made, kept_before = build.Made(build.crates_listed()), Kept("libraries")
    file = build.made_of(CRATE)
    if is_anew and os.path.exists(archive):
        os.remove(archive)
    if made.is_made(CRATE, file):
        return archive
    os.makedirs(os.path.dirname(archive), exist_ok=True)
    key = sum_of(made.sums.of(CRATE), file_sum(build.__file__))
    try:
        if not is_anew and kept_before.result(key, archive) is not None:
            made.note(CRATE, file, made.sums.of(CRATE))
            print("library: 1 kept, 0 built anew", flush=True)
            return archive
    except Damaged as why:
        sys.exit(f"library: what was kept of it was damaged, and is removed: {why}")
    subprocess.run([f"{TOP}/tools/build.py", CRATE], check=True)
    now = build.Made(build.crates_listed())
    if now.is_made(CRATE, file) and now.sums.of(CRATE) == made.sums.of(CRATE):
        kept_before.keep(key, "built", archive)
        kept_before.shrink(MOST)
    print("library: 0 kept, 1 built anew", flush=True)
    return archive


def make(folder: str, proved: str) -> str:
    """Makes the library in a folder, of the archive of the proved part."""
    os.makedirs(folder, exist_ok=True)
    archive = os.path.abspath(f"{folder}/libjumbetai.a")
    with tempfile.TemporaryDirectory() as room:
        subprocess.run(["ar", "x", os.path.abspath(proved)], cwd=room, check=True)
        for part in PARTS:
            compiled(f"{TOP}/bindings/c/{part}", f"{room}/jumbetai_{part.removesuffix('.c')}.o")
        subprocess.run(["ar", "rcsD", "new.a", *sorted(os.listdir(room))], cwd=room, check=True)
        shutil.move(f"{room}/new.a", archive)
    shutil.copyfile(HEADER, f"{folder}/jumbetai.h")
    return archive


def header() -> str:
    with open(HEADER, encoding="utf-8") as file:
        return file.read()


def version() -> str:
    return str(re.findall(r'^#define JUMBETAI_VERSION "(.+)"$', header(), re.M)[0])


def functions() -> list[str]:
    """The functions of the header, in its order."""
    return re.findall(r"^[a-z].*?\b(jumbetai_\w+)\(", header(), re.M)


def soname() -> str:
    return f"libjumbetai.so.{version().partition('.')[0]}"


def link(archive: str, to: str) -> str:
    """Makes the shared object of the archive."""
    archive, to = os.path.abspath(archive), os.path.abspath(to)
    with tempfile.TemporaryDirectory() as room:
        with open(f"{room}/map", "w", encoding="ascii") as out:
            out.write(f"JUMBETAI_0 {{\n    global: {'; '.join(functions())};\n    local: *;\n}};\n")
        flags = [f"-Wl,-soname,{soname()}", "-Wl,--version-script=map", "-Wl,-z,defs,-z,relro,-z,now"]
        whole = ["-Wl,--whole-archive", archive, "-Wl,--no-whole-archive"]
        subprocess.run([compiler(), "-shared", "-o", to, *flags, *whole], cwd=room, check=True)
    return to


def link_beside(archive: str, folder: str) -> str:
    """Makes the shared object in a folder under the name of its whole version, with the two links that lead to it."""
    name = f"libjumbetai.so.{version()}"
    link(archive, f"{folder}/{name}")
    for it in (soname(), "libjumbetai.so"):
        if os.path.lexists(f"{folder}/{it}"):
            os.remove(f"{folder}/{it}")
        os.symlink(name, f"{folder}/{it}")
    return f"{folder}/{name}"


def install(archive: str, prefix: str, root: str = "") -> str:
    """Puts the library, its header and jumbetai.pc below a prefix, which lies below a root while it is packed."""
    prefix = os.path.abspath(prefix)
    for it in ("include", "lib/pkgconfig"):
        os.makedirs(f"{root}{prefix}/{it}", exist_ok=True)
    for file, to in ((HEADER, "include/jumbetai.h"), (archive, "lib/libjumbetai.a")):
        shutil.copyfile(file, f"{root}{prefix}/{to}")
        os.chmod(f"{root}{prefix}/{to}", 0o644)
    link_beside(archive, f"{root}{prefix}/lib")
    with open(f"{root}{prefix}/lib/pkgconfig/jumbetai.pc", "w", encoding="utf-8") as out:
        out.write(PC.format(prefix=prefix, version=version()))
    return f"{root}{prefix}"


def wheel(archive: str, folder: str) -> str:
    """Makes the wheel for Python, which has the shared object, in a folder."""
    sys.path.insert(0, f"{TOP}/bindings/python")
    import build_wheel

    os.makedirs(folder, exist_ok=True)
    with tempfile.TemporaryDirectory() as room:
        return f"{folder}/{build_wheel.made(folder, link(archive, f'{room}/libjumbetai.so'))}"


def main() -> int:
    words = argparse.ArgumentParser(description=__doc__, formatter_class=argparse.RawDescriptionHelpFormatter)
    words.add_argument("--from", dest="source", metavar="FOLDER")
    other = words.add_mutually_exclusive_group()
    other.add_argument("--shared", action="store_true")
    other.add_argument("--install", metavar="PREFIX")
    other.add_argument("--wheel", metavar="FOLDER")
    other.add_argument("--object", metavar="FILE")
    words.add_argument("folder", nargs="?", default=f"{TOP}/out/library")
    given = words.parse_args()
    if not compiler():
        print("library: no C compiler is here", file=sys.stderr)
        return 1
    archive = f"{given.source}/libjumbetai.a" if given.source else make(given.folder, proved_part())
    if given.install:
        print(install(archive, given.install, os.environ.get("DESTDIR", "")))
    elif given.wheel:
        print(wheel(archive, given.wheel))
    elif given.object:
        print(link(archive, given.object))
    else:
        print(archive)
        if given.shared:
            print(link_beside(archive, os.path.dirname(archive)))
    return 0


if __name__ == "__main__":
    sys.exit(main())
