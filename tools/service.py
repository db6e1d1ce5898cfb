#!/usr/bin/env python3
"""Builds jumbetaid, the service, over libjumbetai.a.

    tools/service.py [--library FOLDER] [--features LIST] [FOLDER]     by default into out/service
    tools/service.py --install                                        Debian's packages of the crates that it stands on

The library is that of the folder, or is made (tools/library.py). The crates are Debian's, offline, where they are there
(/usr/share/cargo/registry); else those of the public registry, in versions that service/Cargo.toml admits.
"""
import argparse
import os
import shutil
import subprocess
import sys
from typing import Any

sys.dont_write_bytecode = True
TOP = os.path.dirname(os.path.dirname(os.path.realpath(__file__)))
sys.path.insert(0, f"{TOP}/tools")
REGISTRY = "/usr/share/cargo/registry"
# The crates that service/Cargo.toml names, as Debian names them.
CRATES = (
    *("base64", "clap", "clap-derive", "fastrand", "hyper", "hyper-rustls", "percent-encoding", "prometheus"),
    *("rustls-pemfile", "sd-notify", "serde", "serde-derive", "serde-json", "sha2", "socket2", "subtle", "tokio"),
    *("tokio-postgres", "tokio-rustls", "toml", "tracing", "tracing-subscriber"),
)
# What can be built into it.
FEATURES = "tls,postgres"
OFFLINE = [
    "--offline",
    *("--config", 'source.crates-io.replace-with="debian"'),
    *("--config", f'source.debian.directory="{REGISTRY}"'),
]


def install() -> None:
    """Installs Debian's packages of the crates, as root."""
    packages = [f"librust-{it}-dev" for it in CRATES]
    subprocess.run(["apt-get", "update"], check=True)
    subprocess.run(["apt-get", "install", "-y", "--no-install-recommends", *packages], check=True)


def has_crates() -> bool:
    """Whether Debian's registry has each of the crates."""
    there = {it.rpartition("-")[0].replace("_", "-") for it in os.listdir(REGISTRY)} if os.path.isdir(REGISTRY) else set()
    return there >= set(CRATES)


def cargo(words: list[str], library: str, target: str, **how: Any) -> subprocess.CompletedProcess[Any]:
    """Runs cargo over service/, with the library of a folder and a folder for what it makes."""
    lock = f"{TOP}/service/Cargo.lock"
    if os.path.exists(lock):
        os.remove(lock)
    # A program has no path of the machine that builds it.
    flags = f"{os.environ.get('RUSTFLAGS', '')} --remap-path-prefix={TOP}=. --remap-path-prefix={os.path.expanduser('~')}=~".strip()
    environment = {**os.environ, "RUSTFLAGS": flags, "JUMBETAI_LIB_DIR": os.path.abspath(library), "CARGO_TARGET_DIR": os.path.abspath(target)}
    command, *rest = words
    told = ["cargo", command, *(OFFLINE if has_crates() and command != "fmt" else []), *rest]
    ran = subprocess.run(told, cwd=f"{TOP}/service", env=environment, check=False, **how)
    if os.path.exists(lock):
        os.remove(lock)
    return ran


def make(folder: str, library: str, features: str = "") -> str:
    """Builds the program into a folder, and answers where it is."""
    os.makedirs(folder, exist_ok=True)
    target = f"{folder}/cargo"
    if cargo(["build", "--release", "--features", features], library, target).returncode:
        sys.exit("service: cargo failed")
    shutil.copy(f"{target}/release/jumbetaid", f"{folder}/jumbetaid")
    return f"{folder}/jumbetaid"


def main() -> None:
    words = argparse.ArgumentParser(description=__doc__, formatter_class=argparse.RawDescriptionHelpFormatter)
    words.add_argument("--install", action="store_true")
    words.add_argument("--library")
    words.add_argument("--features", default="")
    words.add_argument("folder", nargs="?", default=f"{TOP}/out/service", metavar="FOLDER")
    given = words.parse_args()
    if given.install:
        install()
        return
    if given.library is None:
        import library

        given.library = f"{given.folder}/library"
        library.make(given.library, library.proved_part())
    print(make(given.folder, given.library, given.features))


if __name__ == "__main__":
    main()
