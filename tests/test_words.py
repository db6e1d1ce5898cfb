"""Words, and what is said of them: answers, refusals, faulty words and help, each with its status."""
import os

import pytest
from events import AT, E1, E2, E3, QUESTIONS, batch, cover, event
from shell import TOP, As, Has, Room, Row, answers, lacks, refuses, rejects, rows, tells
from version import version

EVENT = event("a1", 1, "t.a")
LINE = f"{cover(1)}\n"
FILES = {
    "f.json": EVENT,
    "-x.json": EVENT,
    "empty.json": "[]",
    "bad.json": "3",
    "none.json": event("a", None, source="/"),
    "void.json": "",
    "folder/": "",
}

# Status 0.
test_answers = rows(
    FILES,
    answers("an answer", "site cover f.json", LINE),
    answers("shown", "site shown f.json", f"{EVENT}\n"),
    answers("no event is shown", "site shown empty.json"),
    answers("words after --", "site cover -- f.json", LINE),
    answers("a name with a dash in front", "site cover -- -x.json", LINE),
    answers("no event has no gap", "site gaps empty.json"),
    answers("an event that stands again is no conflict", "site conflicts f.json f.json"),
)

# Status 1: one line, and nothing on standard output.
test_refusals = rows(
    FILES,
    refuses("a file that is not there", "site cover f.json missing.json", "missing.json: cannot read"),
    refuses("all files are read before one is judged", "site cover bad.json missing.json", "missing.json: cannot read"),
    refuses("the first file at fault is named", "site cover f.json bad.json void.json", "bad.json: not an event or a batch"),
    refuses("an empty file", "site cover void.json", "void.json: not JSON"),
    refuses("an event without a number", "site cover none.json", "none.json: event 0: NoSequence"),
    refuses("a folder", "site cover folder", "folder: cannot read"),
    refuses("a folder before other files", "site cover folder f.json bad.json", "folder: cannot read"),
    refuses("a folder between other files", "site cover f.json folder bad.json", "folder: cannot read"),
    refuses("a folder behind other files", "site cover f.json bad.json folder", "folder: cannot read"),
    refuses("an input without end", "site cover /dev/zero", "/dev/zero: too large"),
    refuses("a name with a line feed", r"site cover $'a\nb'", r"a\nb: cannot read"),
    refuses("a name with an escape", r"site cover $'a\e[31mb'", r"a\u001b[31mb: cannot read"),
    refuses("other control characters, and a backslash", r"site cover $'a\x7f\xc2\x85\t\\b'", r"a\u007f\u0085\t\b: cannot read"),
    refuses("letters and quotes stay as they are", "site cover 'größe \"x\"'", 'größe "x": cannot read'),
    refuses("the empty name", "site cover ''", ": cannot read"),
)

# Status 2.
test_faulty_words = rows(
    FILES,
    rejects("no word", "site"),
    rejects("an unknown word", "site covers f.json"),
    rejects("a missing file", "site cover"),
    rejects("an unknown option", "site cover --from 3 f.json"),
    rejects("an empty word", "site '' f.json"),
    rejects("a word that is no text", r"site cover $'\xff'", "site: the arguments aren't text\n"),
    rejects("more than one file", "site follow --db stream.db f.json f.json", lacks="stream.db"),
    rejects("lines without a database", "site follow f.json"),
    rejects("all rows behind no number", "site relay --db rows.db --all", lacks="rows.db"),
    rejects("all rows and a word more", "site relay --db rows.db --after 0 --all rows", lacks="rows.db"),
    rejects("a check of no file", "site check"),
    rejects("lines of a command that takes none", "site summary --db x --lines", Has("unexpected argument '--lines'"), lacks="x"),
    rejects("a missing file is named", "site cover", Has("<FILE>...")),
    rejects("a missing file of another command is named", "site shown", Has("<FILE>...")),
    rejects("a command is named where no word is given", "site", Has("cover")),
    rejects("an unknown word is named", "site covers f", Has("covers")),
    rejects("an unknown option is named", "site cover --from f", Has("--from")),
)

# Of commands over databases: no file is made.
test_faulty_words_of_databases = rows(
    {"three.json": batch(E1, E2, E3), "held.json": '{"sources":{"/orders":[[2,2]]},"version":1}'},
    *(
        rejects(it, f"site {it}")
        for it in (
            "take three.json",
            "take --db w.db",
            "delta --db w.db",
            "delta --db w.db --from x held.json",
            "delta --db w.db --from +1 held.json",
            "scrub --db w.db --from 18446744073709551616",
            "scrub --db w.db --from 000000000000000000001",
            "scrub --db w.db --all --from 1",
            "scrub --db w.db --all 1",
            "delta --db w.db --from 0 --all held.json",
            "summary",
            "summary --db w.db three.json",
            "cover",
            "cover --all three.json",
            "relay --db w.db",
            "relay --db w.db --after -1",
            "order --db w.db place 7",
            "order --db w.db --at 2024-02-30T10:00:00Z place 7",
            "order --db w.db --at 2024-02-29T10:00:00Z send 7",
            "order --db w.db --at 2024-02-29T10:00:00Z place 0",
            "order --db w.db --at 2024-02-29T10:00:00Z place 9223372036854775808",
            "order --db w.db --at 2024-02-29T10:00:00Z place seven",
        )
    ),
    rejects("an empty source", f"site order --db w.db --source '' --at {AT} place 7"),
    rejects("a source with a control character", rf"site order --db w.db --source $'a\tb' --at {AT} place 7"),
    rejects("a source of 1,025 bytes", f"site order --db w.db --source {'0' * 1025} --at {AT} place 7"),
    lacks("faulty words make no file", "w.db"),
)

BARE = event("b", None, "t", "/web")


def alike(typed: str, plain: str) -> Row:
    """Words that come to the same as others, whose options stand in front."""
    return answers(typed, f"site {typed}", As(f"site {plain}"))


def unlike(typed: str) -> Row:
    """Words at fault, which make no file."""
    return rejects(typed, f"site {typed}", lacks="x.db x0.json")


# Options before and behind names, names that look like options, numbers with zeros in front.
test_orders_of_words = rows(
    {"f": E1, "g": batch(E2, E3), "-g": E3, "bare": f"{BARE}\n", "far": batch(event("a", 2, source="/far"), event("b", 5, source="/far")), "p/": "", "q/": ""},
    "site take --db d g",
    answers("a file, standard input, and a name with a dash", "site shown f - -- -g <g", f"{E1}\n{E2}\n{E3}\n"),
    alike("gaps f --db d", "gaps --db d f"),
    alike("cover f --lines", "cover --lines f"),
    answers("take f --db behind", "site take f --db behind.db", "read 1 new 1 repeated 0\n"),
    answers("lines of two files", "site take --db behind.db --lines f g", "read 3 new 2 repeated 1\n"),
    answers("a run with its database behind", "site run f g --db run.db", f"read 3 refused 0 held 3\n{cover(3)}\n"),
    alike("scrub --from 0001 --db d", "scrub --db d --from 1"),
    alike("scrub --all --db d", "scrub --db d --all"),
    alike("arrivals --after 1 --db d", "arrivals --db d --after 01"),
    answers("the second of two that came", "site arrivals --after 1 --db d", f"{batch(E3)}\n"),
    alike("arrivals --all --db d --after 0", "arrivals --db d --after 0 --all"),
    answers("a stream with its database behind", "site follow f --db d", '{"line":1,"new":1,"repeated":0}\n'),
    answers("a service, its source first", "site service --source /o --db s.db --base 100", '{"base":100,"orders":0,"rows":0,"source":"/o"}\n'),
    alike("service --db s.db", "service --base 100 --db s.db --source /o"),
    answers("numbers, each option in front", "site number --aside seq --base 7 --db n.db bare", f'[{event("b", 8, "t", "/web")}]\n'),
    answers("numbers of standard input", "site number --db n.db --base 7 <bare", f'[{event("b", 8, "t", "/web")}]\n'),
    answers("a check of lines of standard input", "site check --lines - <f"),
    answers("a check behind its file", "site check bare --numbers"),
    alike("part f --of 65536 g", "part --of 65536 f g"),
    answers("part 0 of one, lines of standard input", "site part --lines --part 0 --of 1 - <f", f"{batch(E1)}\n"),
    answers("parts of two files into a folder", "site part --of 1 --into p/ f g", '["p/0.json",3]\n'),
    answers("an empty prefix by =", "cd q; site part --lines --into= --of 1 - <../f", '["0.json",1]\n'),
    "site cover f >c; site cover far >cg; site gaps f >none; site gaps far >gaps; site latest f >kinds",
    alike("combine cover c cg", "cover f far"),
    alike("combine --cover c gaps none gaps --cover cg", "gaps f far"),
    alike("combine --cover=c latest kinds", "latest f"),
    answers("a second to wait", "site follow --wait 1 --db d f", '{"line":1,"new":0,"repeated":1}\n'),
    answers("a day to wait, with zeros in front", "site follow --wait 00086400 --db d f", '{"line":1,"new":0,"repeated":1}\n'),
    *map(
        unlike,
        (
            "kinds",
            "kinds --lines",
            "summary --db x.db --lines",
            "scrub --db x.db --all --from 0",
            "arrivals --db x.db --all",
            "follow --db x.db f g",
            "service --db x.db --base 9223372036854775808",
            "service --db x.db --source ''",
            "number --db x.db --base -1",
            "take --db x.db f --numbers",
            "part --of 4 --part 1 --into x f",
            "part --of 0 --into x f",
            "part --of 4 --part 4 f",
            "part --of 65537 f",
            "part --part 0 f",
            "combine count f",
            "combine kinds",
            "follow --wait 86401 --db x.db f",
            "follow --wait -1 --db x.db f",
            "follow --wait 1.5 --db x.db f",
        ),
    ),
)

# Help is what was asked for, and yet no answer.
test_help = rows(
    {},
    tells("help", "site --help"),
    tells("the version", "site --version", f"site {version()}\n"),
    tells("help of a command", "site cover --help"),
    tells("its usage", "site cover --help | grep '^Usage: site cover '"),
    tells("help by its word", "site help cover"),
    tells("the usage is the same by both", "site help cover | grep '^Usage: '", As("site cover --help | grep '^Usage: '", 2)),
    tells("help of follow", "site follow --help"),
    tells("the usage of a command", "site cover --help", Has("Usage: site cover [OPTIONS] [FILE]...")),
    tells("the usage of a command by its word", "site help cover", Has("Usage: site cover [OPTIONS] [FILE]...")),
    tells("what a file is", "site shown --help", Has("Files of CloudEvents")),
    tells("a command", "site --help", Has("cover")),
    tells("the version stands there", "site --version", Has(f"site {version()}")),
    *(tells(f"help names {it}", f"site --help | grep '^ *{it}  *[A-Z]'") for it in QUESTIONS),
)


@pytest.mark.parametrize("name", ["site", "link", "link-of-a-link"])
def test_script_that_builds(name: str, room: Room, program: str) -> None:
    """The script ./site, where it has built this program already, by its own name and by links to it."""
    if program != f"{TOP}/crates/site_cli/out/site_cli" or not os.path.exists(f"{program}.built"):
        pytest.skip("./site has not built this program")
    room.put({"f.json": EVENT})
    os.symlink(f"{TOP}/site", room.at("link"))
    os.symlink("link", room.at("link-of-a-link"))
    script = f"{TOP}/site" if name == "site" else f"./{name}"
    assert room.run(f"'{script}' cover f.json") == (0, LINE, "")
