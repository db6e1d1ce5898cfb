"""What tools/completions.py makes of the program's help: just what help names, and no word of which nothing is known."""
import os
import re
import shutil
import subprocess
from typing import Iterator

import pytest
from shell import TOP, Room, Said, Stage, text_of

OVER_DATABASES = "cover gaps shown latest kinds days conflicts check take follow summary delta scrub arrivals run service order relay number".split()
COMMANDS = [*OVER_DATABASES, "part", "combine"]
KINDS = {"bash": "site.bash", "zsh": "_site", "fish": "site.fish", "man": "site.1"}
# Asks bash's completion what it makes of the words that it is given.
ASK = """. shells/site.bash
cd shells || exit 1
COMP_WORDS=(site "$@")
COMP_CWORD=$#
_site
[ ${#COMPREPLY[@]} = 0 ] || printf '%s\\n' "${COMPREPLY[@]}"
"""


def parts(text: str) -> Iterator[tuple[str, list[str]]]:
    """Each line of a help below its part's title, as words."""
    part = ""
    for line in text.splitlines():
        if re.fullmatch(r"[A-Z][a-z]*:", line):
            part = line[:-1]
        else:
            yield part, line.split()


def options(words: list[str]) -> Iterator[str]:
    """The options with which a line begins."""
    for it in words:
        if not it.startswith("-"):
            return
        yield it.removesuffix(",")


def helps(room: Room) -> dict[str, str]:
    """The help of the program, and that of each command, by their words."""
    return {it: room.run(f"site {'' if it == 'site' else it} --help").out for it in ["site", *COMMANDS]}


@pytest.fixture(scope="module")
def shells(stage: Stage, program: str) -> tuple[Room, Said]:
    """A folder with completions and a man page, and what was said of their making."""
    room = stage.room()
    room.put({"ask": ASK})
    return room, make(room, program, "--all", "shells")


@pytest.fixture(scope="module")
def names(shells: tuple[Room, Said]) -> list[str]:
    """All that help names: commands, and options each behind its command or the program."""
    found = [f"{word} {it}" for word, text in helps(shells[0]).items() for part, words in parts(text) if part == "Options" for it in options(words)]
    return sorted(found + [words[0] for part, words in parts(helps(shells[0])["site"]) if part == "Commands" and words])


def make(room: Room, program: str, *words: str, edit: str = "") -> Said:
    """What the script says over a program, and, where that is ./edited, over what the edit makes of the help."""
    environment = {**room.environment, "SITE": program, "EDIT": edit}
    call = [f"{TOP}/tools/completions.py", "--program", "./edited" if edit else program, *words]
    ran = subprocess.run(call, cwd=room.folder, env=environment, capture_output=True, check=False)
    return Said(ran.returncode, text_of(ran.stdout), text_of(ran.stderr))


def text_for(room: Room, kind: str) -> str:
    with open(room.at(f"shells/{KINDS[kind]}"), encoding="utf-8") as it:
        return it.read()


def completions(room: Room, words: str) -> list[str]:
    """What bash completes of words."""
    said = room.run(f"bash ask {words}")
    assert (said.status, said.err) == (0, "")
    return sorted(said.out.splitlines())


def of_bash(room: Room) -> Iterator[str]:
    for word in completions(room, "''"):
        yield f"site {word}" if word.startswith("-") else word
        if not word.startswith("-"):
            yield from (f"{word} {it}" for it in completions(room, f"{word} -"))


def of_zsh(room: Room) -> Iterator[str]:
    word = "site"
    for line in text_for(room, "zsh").splitlines():
        case, spec = re.fullmatch(r"    ([a-z]*)\)", line), re.match(r" *'([^':\[]*)[:\[]", line)
        if case:
            word = case[1]
        elif spec and spec[1].startswith("-"):
            yield f"{word} {spec[1]}"
        elif spec and word == "site" and re.fullmatch(r"[a-z]+", spec[1]):
            yield spec[1]


def of_fish(room: Room) -> Iterator[str]:
    for line in text_for(room, "fish").splitlines():
        words = line.replace("'", "").split()
        if "__fish_use_subcommand" in words[4:5]:
            word, rest = "site", words[5:]
        elif "__fish_seen_subcommand_from" in words[4:5]:
            word, rest = words[5], words[6:]
        else:
            continue
        if word == "site" and rest[0] == "-a":
            yield rest[1]
        if rest[0] == "-l":
            yield f"{word} --{rest[1]}"
            if rest[2] == "-s":
                yield f"{word} -{rest[3]}"


def of_man(room: Room) -> Iterator[str]:
    word = "site"
    for line in text_for(room, "man").replace("\\-", "-").splitlines():
        if line.startswith(".SS "):
            word = line.split()[1]
            yield word
        elif line.startswith(".B -"):
            yield from (f"{word} {it}" for it in options(line.split()[1:]))


NAMED = {"bash": of_bash, "zsh": of_zsh, "fish": of_fish, "man": of_man}
# How each is read by what it is made for.
READERS = {"bash": "bash -n", "zsh": "zsh -n", "fish": "fish -n", "man": "groff -man -Tutf8 -ww -z"}


def test_commands_of_help(room: Room) -> None:
    status, out, err = room.run("site --help")
    assert (status, err) == (2, "")
    assert [words[0] for part, words in parts(out) if part == "Commands" and words] == [*COMMANDS, "help"]


def test_variable_of_the_cache(room: Room) -> None:
    """Each command over a database says which variable limits its cache."""
    assert [it for it, text in helps(room).items() if re.search(r"--db <[A-Z]*>.*SITE_CACHE_MIB", text)] == OVER_DATABASES


def test_options_of_delta(names: list[str]) -> None:
    wanted = ["delta", "delta --all", "delta --db", "delta --from", "delta --help", "delta --wait", "delta -h"]
    assert [it for it in names if it.startswith("delta")] == wanted


def test_completions_and_a_man_page(shells: tuple[Room, Said]) -> None:
    assert shells[1] == Said(0)


def test_their_files(shells: tuple[Room, Said]) -> None:
    assert sorted(os.listdir(shells[0].at("shells"))) == sorted(KINDS.values())


@pytest.mark.parametrize("kind", KINDS)
def test_each_by_itself(kind: str, shells: tuple[Room, Said], program: str) -> None:
    assert make(shells[0], program, kind) == Said(0, text_for(shells[0], kind))


@pytest.mark.parametrize("kind", KINDS)
def test_what_each_names(kind: str, shells: tuple[Room, Said], names: list[str]) -> None:
    assert sorted(NAMED[kind](shells[0])) == names


@pytest.mark.parametrize("kind", KINDS)
def test_what_reads_each(kind: str, shells: tuple[Room, Said]) -> None:
    tool = READERS[kind].split()[0]
    if not shutil.which(tool):
        pytest.skip(f"{tool} isn't here, so {KINDS[kind]} isn't given to it")
    assert shells[0].run(f"{READERS[kind]} shells/{KINDS[kind]}") == Said(0)


def test_exit_statuses_of_the_man_page(shells: tuple[Room, Said]) -> None:
    with open(f"{TOP}/docs/FORMATS.md", encoding="utf-8") as it:
        table = re.findall(r"^\| ([0-9]) \| (.*?) \|", it.read().partition("\n## Exit statuses")[2].partition("\n## ")[0], re.M)
    told = re.sub(r"\\f[BR]", "`", text_for(shells[0], "man").replace("\\-", "-")).partition("\n.SH EXIT STATUS\n")[2].partition("\n.SH ")[0]
    assert table and re.findall(r"^\.B ([0-9])\n(.*)$", told, re.M) == table


@pytest.mark.parametrize(
    ("words", "wanted"),
    [
        ("ta", "take"),
        ("-", "--help --version -V -h"),
        ("take --l", "--lines"),
        ("check -", "--db --help --lines --numbers --wait -h"),
        ("run --l", "--lines"),
        ("help d", "days delta"),
        ("order ''", "--at --db --help --source --wait -h cancel place ship"),
        ("order --db x ca", "cancel"),
        ("combine --cover si", "site.1 site.bash site.fish"),
        ("combine ki", "kinds"),
        ("part --of ''", ""),
        ("take --db si", "site.1 site.bash site.fish"),
        ("delta si", "site.1 site.bash site.fish"),
        ("scrub --from ''", ""),
    ],
)
def test_what_bash_completes(words: str, wanted: str, shells: tuple[Room, Said]) -> None:
    assert " ".join(completions(shells[0], words)) == wanted


@pytest.mark.parametrize(
    ("edit", "why"),
    [
        ("s/<TIME>/<WHEN>/", "is the value WHEN a file?"),
        ("/--at/d", "no help has the value TIME"),
        ("$aodd", "a line of help isn't understood: odd"),
        ("d", "the help lists no commands"),
    ],
)
def test_help_that_is_not_understood(edit: str, why: str, room: Room, program: str) -> None:
    """Nothing is made of a help that a program printed otherwise."""
    room.put({"edited": '#!/bin/sh\n"$SITE" "$@" | sed "$EDIT"\n'})
    os.chmod(room.at("edited"), 0o755)
    assert make(room, program, "--all", "none", edit=edit) == Said(1, "", f"completions: {why}\n")
    assert not os.path.exists(room.at("none"))
