#!/usr/bin/env python3
"""Makes the pages of a release's archive of those of the repository, in place.

    tools/archive_pages.py FOLDER

What stands between the lines `<!-- repository -->` and `<!-- archive -->` is of the repository alone, and goes; the
lines go too. A link to what isn't in the folder becomes its text. `out/library` is `library` there. Status 1 where a
page still speaks of `./site`, `./gate` or `out/`.
"""
import os
import re
import sys

ALONE = re.compile(r"^<!-- repository -->\n.*?^<!-- archive -->\n", re.M | re.S)
LINK = re.compile(r"\[([^][]*)\]\(([^()\s]+)\)")
STRAY = re.compile(r"\./site\b|\./gate\b|(?<!\w)out/")


def of_archive(text: str, folder: str, page: str) -> str:
    """The text of a page as it stands in the archive."""

    def link(found: re.Match[str]) -> str:
        to = found[2].partition("#")[0]
        where = os.path.join(folder, os.path.dirname(page), to)
        return found[0] if not to or re.match(r"[a-z]+:", to) or os.path.exists(where) else found[1]

    text = ALONE.sub("", text)
    return LINK.sub(link, text).replace("out/library", "library")


def main() -> int:
    if len(sys.argv) != 2:
        sys.exit(__doc__)
    folder, wrong = sys.argv[1], 0
    for at, _, files in os.walk(folder):
        for it in sorted(files):
            page = os.path.relpath(os.path.join(at, it), folder)
            if not page.endswith(".md"):
                continue
            with open(f"{folder}/{page}", encoding="utf-8") as file:
                text = of_archive(file.read(), folder, page)
            with open(f"{folder}/{page}", "w", encoding="utf-8") as file:
                file.write(text)
            for found in STRAY.findall(text):
                print(f"{page}: {found} isn't in an archive", file=sys.stderr)
                wrong = 1
    return wrong


if __name__ == "__main__":
    sys.exit(main())
