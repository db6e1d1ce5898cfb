#!/usr/bin/env python3
"""Writes what shells complete of the program `site`, and its man page, from the help that the program itself prints.

    tools/completions.py [--program FILE] bash|zsh|fish|man        to standard output
    tools/completions.py [--program FILE] --all FOLDER              site.bash, _site, site.fish and site.1

The help is made of the table of commands, so that none of these can name what the program doesn't take. What statuses
mean is the table of docs/FORMATS.md. A line of help that isn't understood, and a value of which it isn't known here
whether it is a file, is a refusal: status 1, and nothing is written.
"""
import argparse
import os
import re
import subprocess
import sys
from typing import Iterator, Optional

TOP = os.path.dirname(os.path.dirname(os.path.realpath(__file__)))
OPTION = re.compile(r"^\s+(?:-(\w), |)--([\w-]+)(?: <(\w+)>)?(?:\s\s+(\S.*))?$")
ARGUMENT = re.compile(r"^\s+[<\[](\w+)[>\]](\.\.\.)?(?:\s\s+(\S.*))?$")
COMMAND = re.compile(r"^\s+(\w+)\s\s+(\S.*)$")
# What ends the help of an argument whose words it lists.
CHOICE = re.compile(r": ((?:\w+, )*\w+ or \w+)$")
# A row of the table of exit statuses.
STATUS = re.compile(r"^\| (\d) \| (.*?) \|", re.M)
# The values that are files or begin the names of some, and those that aren't.
FILES = {"DB", "FILE", "NUMBERS", "PREFIX", "SUMMARY"}
NO_FILES = {"ACTION", "I", "NAME", "N", "ORDER", "QUESTION", "S", "SECONDS", "TIME"}


# Its short word or none, its long one, its value or none, and what it is for.
Option = tuple[Optional[str], str, Optional[str], str]


class Unknown(Exception):
    """Something that nothing is known of here."""


class Help:
    """A help text: its first paragraph, its usage, and the rows of its parts."""

    def __init__(self, text: str) -> None:
        lines = text.splitlines()
        self.about = " ".join(it.strip() for it in lines[: next((at for at, it in enumerate(lines) if it.startswith("Usage:")), 1)] if it.strip())
        self.usage = next((it.removeprefix("Usage:").strip() for it in lines if it.startswith("Usage:")), "")
        self.options: list[Option] = []
        self.arguments: list[tuple[str, bool, str]] = []
        self.commands: list[tuple[str, str]] = []
        part = ""
        for line in lines:
            if re.match(r"^\w[\w ]*:$", line):
                part = line[:-1]
            elif part == "Options" and (found := OPTION.match(line)):
                self.options.append((found[1], found[2], found[3], found[4] or ""))
            elif part == "Arguments" and (found := ARGUMENT.match(line)):
                self.arguments.append((found[1], bool(found[2]), found[3] or ""))
            elif part == "Commands" and (found := COMMAND.match(line)):
                self.commands.append((found[1], found[2]))
            elif part and line:
                raise Unknown(f"a line of help isn't understood: {line.strip()}")


def read(program: str) -> tuple[Help, dict[str, Help]]:
    """The help of the program, and that of each command by its word, in the order in which help lists them."""

    def asked(*words: str) -> Help:
        return Help(subprocess.run([program, *words, "--help"], capture_output=True, text=True).stdout)

    whole = asked()
    commands = {word: asked(word) for word, _ in whole.commands if word != "help"}
    if not commands:
        raise Unknown("the help lists no commands")
    values = {it[2] for its in commands.values() for it in its.options if it[2]}
    values |= {name for its in commands.values() for name, _, _ in its.arguments}
    for name in sorted(values - FILES - NO_FILES):
        raise Unknown(f"is the value {name} a file?")
    for name in sorted((FILES | NO_FILES) - values):
        raise Unknown(f"no help has the value {name}")
    return whole, commands


def statuses() -> list[tuple[str, str]]:
    """Each exit status with what it means."""
    with open(f"{TOP}/docs/FORMATS.md", encoding="utf-8") as it:
        found = STATUS.findall(it.read().partition("\n## Exit statuses")[2].partition("\n## ")[0])
    if not found:
        raise Unknown("docs/FORMATS.md has no table of exit statuses")
    return found


def dashed(option: Option) -> list[str]:
    short, long, _, _ = option
    return [f"-{short}"] * bool(short) + [f"--{long}"]


def words_of(name: str, about: str) -> tuple[list[str], bool]:
    """What an argument or an option's value may be, where its help lists the words, and whether it is a file."""
    found = CHOICE.search(about)
    return re.split(", | or ", found[1]) if found else [], name in FILES


def bash(whole: Help, commands: dict[str, Help]) -> Iterator[str]:
    yield "# Completes the words of `site` in bash: source it, or put it where bash-completion looks."
    yield "_site() {"
    yield "    local word=${COMP_WORDS[COMP_CWORD]} before=${COMP_WORDS[COMP_CWORD-1]} words= files="
    yield '    if [ "$COMP_CWORD" = 1 ]; then'
    every = [it for it, _ in whole.commands] + [it for option in whole.options for it in dashed(option)]
    yield f"        words='{' '.join(every)}'"
    yield "    else"
    yield '        case "${COMP_WORDS[1]} $before" in'
    for word, its in commands.items():
        for option in its.options:
            if option[2]:
                given, is_file = words_of(option[2], option[3])
                yield f"        '{word} --{option[1]}') words='{' '.join(given)}' files={'yes' if is_file else 'no'} ;;"
    yield "        *)"
    yield '            case "${COMP_WORDS[1]}" in'
    for word, its in commands.items():
        given = [it for option in its.options for it in dashed(option)]
        given += [it for name, _, about in its.arguments for it in words_of(name, about)[0]]
        files = any(words_of(name, about)[1] for name, _, about in its.arguments)
        yield f"            {word}) words='{' '.join(given)}' files={'yes' if files else 'no'} ;;"
    yield f"            help) words='{' '.join(commands)}' ;;"
    yield "            esac"
    yield "            ;;"
    yield "        esac"
    yield "    fi"
    yield '    COMPREPLY=($(compgen -W "$words" -- "$word"))'
    yield '    [ "$files" != yes ] || COMPREPLY+=($(compgen -f -- "$word"))'
    yield "}"
    yield "complete -o filenames -F _site site"


def escaped(text: str) -> str:
    return text.replace("'", "'\\''").replace("[", "\\[").replace("]", "\\]").replace(":", "\\:")


def zsh(whole: Help, commands: dict[str, Help]) -> Iterator[str]:
    yield "#compdef site"
    yield "# Completes the words of `site` in zsh: put it as _site into a folder of $fpath."
    yield "_site() {"
    yield "    if ((CURRENT == 2)); then"
    yield "        local -a commands=("
    for word, about in whole.commands:
        yield f"            '{word}:{escaped(about)}'"
    yield "        )"
    yield "        local -a options=("
    for option in whole.options:
        for name in dashed(option):
            yield f"            '{name}:{escaped(option[3])}'"
    yield "        )"
    yield "        _describe command commands"
    yield "        _describe -o option options"
    yield "        return"
    yield "    fi"
    yield "    local command=$words[2]"
    yield "    shift words"
    yield "    ((CURRENT--))"
    yield '    case "$command" in'
    for word, its in commands.items():
        yield f"    {word})"
        yield "        _arguments \\"
        for option in its.options:
            value = ""
            if option[2]:
                given, is_file = words_of(option[2], option[3])
                value = f":{option[2]}:" + ("_files" if is_file else f"({' '.join(given)})" if given else "")
            for name in dashed(option):
                yield f"            '{name}[{escaped(option[3])}]{value}' \\"
        for name, is_list, about in its.arguments:
            given, is_file = words_of(name, about)
            action = f"({' '.join(given)})" if given else "_files" if is_file else ""
            yield f"            '{'*' if is_list else ''}:{name}:{action}' \\"
        yield "            && return"
        yield "        ;;"
    yield "    help)"
    yield f"        _arguments ':COMMAND:({' '.join(commands)})'"
    yield "        ;;"
    yield "    esac"
    yield "}"
    yield '_site "$@"'


def fish(whole: Help, commands: dict[str, Help]) -> Iterator[str]:
    yield "# Completes the words of `site` in fish: put it into ~/.config/fish/completions."
    yield "complete -c site -f"

    def quoted(text: str) -> str:
        return "'" + text.replace("\\", "\\\\").replace("'", "\\'") + "'"

    def named(option: Option) -> str:
        return f"-l {option[1]}" + (f" -s {option[0]}" if option[0] else "")

    for word, about in whole.commands:
        yield f"complete -c site -n __fish_use_subcommand -a {word} -d {quoted(about)}"
    for option in whole.options:
        yield f"complete -c site -n __fish_use_subcommand {named(option)} -d {quoted(option[3])}"
    yield f"complete -c site -n '__fish_seen_subcommand_from help' -a '{' '.join(commands)}'"
    for word, its in commands.items():
        on = f"complete -c site -n '__fish_seen_subcommand_from {word}'"
        for option in its.options:
            line = f"{on} {named(option)}"
            if option[2]:
                line += " -r -F" if words_of(option[2], option[3])[1] else " -x"
            yield f"{line} -d {quoted(option[3])}"
        for name, _, about in its.arguments:
            given, is_file = words_of(name, about)
            if given:
                yield f"{on} -a '{' '.join(given)}' -d {quoted(about)}"
            elif is_file:
                yield f"{on} -F"


def roff(text: str) -> str:
    return text.replace("\\", "\\e").replace("-", "\\-")


def rows(options: list[Option]) -> Iterator[str]:
    """The rows of a man page on these options."""
    for option in options:
        yield ".TP"
        yield f".B {roff(', '.join(dashed(option)))} {roff(option[2] or '')}".rstrip()
        yield roff(option[3])


def man(whole: Help, commands: dict[str, Help]) -> Iterator[str]:
    yield ".TH SITE 1"
    yield ".SH NAME"
    yield "site \\- an inbox for CloudEvents that several regions keep alike"
    yield ".SH SYNOPSIS"
    for its in commands.values():
        yield f".B {roff(its.usage)}"
        yield ".br"
    yield ".SH DESCRIPTION"
    yield roff(whole.about)
    yield ".SH OPTIONS"
    yield from rows(whole.options)
    yield ".SH COMMANDS"
    for word, about in whole.commands:
        yield f".SS {word}"
        yield roff(about)
        if word not in commands:
            continue
        its = commands[word]
        for name, _, meant in its.arguments:
            yield ".TP"
            yield f".I {roff(name)}"
            yield roff(meant)
        yield from rows(its.options)
    yield ".SH EXIT STATUS"
    for status, meant in statuses():
        yield ".TP"
        yield f".B {status}"
        yield re.sub("`(.*?)`", r"\\fB\1\\fR", roff(meant))
    yield ".SH SEE ALSO"
    yield "GUIDE.md and FORMATS.md, which come with the program."


KINDS = {"bash": (bash, "site.bash"), "zsh": (zsh, "_site"), "fish": (fish, "site.fish"), "man": (man, "site.1")}


def main() -> int:
    words = argparse.ArgumentParser(description=__doc__, formatter_class=argparse.RawDescriptionHelpFormatter)
    words.add_argument("--program", default=f"{TOP}/crates/site_cli/out/site_cli")
    words.add_argument("--all", metavar="FOLDER")
    words.add_argument("kind", nargs="?", choices=KINDS)
    given = words.parse_args()
    if bool(given.all) == bool(given.kind):
        words.error("one of bash, zsh, fish and man, or --all FOLDER")
    try:
        whole, commands = read(os.path.abspath(given.program))
        kinds = [given.kind] if given.kind else list(KINDS)
        made = {kind: "\n".join(KINDS[kind][0](whole, commands)) + "\n" for kind in kinds}
    except Unknown as why:
        print(f"completions: {why}", file=sys.stderr)
        return 1
    if given.kind:
        sys.stdout.write(made[given.kind])
        return 0
    os.makedirs(given.all, exist_ok=True)
    for kind, text in made.items():
        with open(f"{given.all}/{KINDS[kind][1]}", "w", encoding="utf-8") as it:
            it.write(text)
    return 0


if __name__ == "__main__":
    sys.exit(main())
