"""Rows of the driver, which are played group by group, and each group once more with each of its allocations refused.

The driver is a program that plays calls of the libraries: crates/rows/stdin has them, a line `> CALL` each, on values that have names,
and crates/rows/stdout has each with its answer. Groups stand apart by an empty line. One with the call of a theme, and the first, names
what all groups below it use, up to the next theme. A group that is played alone, behind that one, has to answer as it stands in stdout.

Where an allocation is refused, what is written may differ in one line alone: behind the call that it was refused to stands `(again)`,
since the driver then plays the call once more, or what of it is left, and the answer is as ever. Where the refused call left something
behind, `(again)` tells it. Lines `~ ..` below a call say all that it may leave: then it may be nothing else, one of them has to come
up, and one that begins with `~ once ` just once. Or the program ends with status 1 at a line of its input that wanted memory. Behind a
line that begins with `# No allocation is refused` the groups of the theme are played whole alone.
"""
import threading
from typing import Optional

from refuse_allocations import Refuser

UNREFUSED = "# No allocation is refused"
AGAIN, LEFT, ONCE = "(again)", "~ ", "~ once "
THEMES = ("> sets\n", "> sites\n", "> tables\n")


def groups_of(text: str) -> list[str]:
    """The groups of a text of rows, each with the empty line behind it."""
    found, lines = [], []
    for line in text.splitlines(True):
        lines.append(line)
        if line == "\n":
            found.append("".join(lines))
            lines = []
    return [*found, "".join(lines)] if lines else found


def name_of(group: str) -> str:
    """The words above a group."""
    comments = [it for it in group.splitlines() if it.startswith("#")]
    return (comments[0] if comments else group).removeprefix("# ")[:100]


class Group:
    """A group, which is played behind that of its theme unless it is that one."""

    def __init__(self, program: str, theme: str, own: str, wanted: str, refuser: Refuser) -> None:
        self.program, self.given, self.wanted, self.refuser = program, theme + own, wanted, refuser
        self.lines, self.again, self.ended = wanted.splitlines(), 0, 0
        self.wrong: list[str] = []
        self.may = self.left_lines()
        self.met: dict[tuple[int, str], int] = {}

    def left_lines(self) -> dict[int, list[str]]:
        """By the place of each call what it may leave behind."""
        may: dict[int, list[str]] = {}
        call = -1
        for at, line in enumerate(self.lines):
            if line.startswith("> "):
                call = at
            elif line.startswith(LEFT):
                may.setdefault(call, []).append(line)
        return may

    def ran(self, at: int) -> tuple[int, str, bool]:
        ran, was_met = self.refuser.ran([self.program], at, input=self.given.encode())
        return ran.returncode, ran.stdout.decode(errors="replace"), was_met

    def judge(self, status: int, said: str) -> Optional[str]:
        """What is wrong with a run to which an allocation was refused, if anything."""
        if status == 1 and self.wanted.startswith(said) and said[-1:] in ("", "\n"):
            self.ended += 1
            return None
        lines = said.splitlines()
        places = [at for at, line in enumerate(lines) if line.startswith(AGAIN)]
        if status or len(places) > 1:
            return f"status {status}, {len(places)} calls played again"
        if places:
            line = lines.pop(places[0])
            self.again += 1
        if lines != self.lines:
            at = next((at for at, (one, other) in enumerate(zip(lines, self.lines)) if one != other), min(len(lines), len(self.lines)))
            return f"{lines[at - 1:at + 1]}, and not {self.lines[at - 1:at + 1]}"
        return self.left_behind(places[0] - 1, line) if places and line != AGAIN else None

    def left_behind(self, call: int, line: str) -> Optional[str]:
        left = line.removeprefix(f"{AGAIN} ")
        if call not in self.may:
            return None
        for it in self.may[call]:
            if left == it.removeprefix(ONCE).removeprefix(LEFT):
                self.met[call, it] = self.met.get((call, it), 0) + 1
                return None
        return f"{self.lines[call]} left behind: {left}"

    def play(self, start: Optional[int]) -> int:
        """Plays the group whole, and with each allocation from that number on refused; answers how many were."""
        status, said, was_met = self.ran(0)
        if (status, said) != (0, self.wanted):
            lines, wanted = said.splitlines(), self.lines
            at = next((at for at, (one, other) in enumerate(zip(lines, wanted)) if one != other), min(len(lines), len(wanted)))
            self.wrong.append(f"status {status}, {lines[max(at - 1, 0):at + 1]}, and not {wanted[max(at - 1, 0):at + 1]}")
            return 0
        if start is None:
            return 0
        at = start
        while True:
            status, said, was_met = self.ran(at)
            if not was_met:
                break
            why = self.judge(status, said)
            if why:
                self.wrong.append(f"allocation {at}: {why}")
            at += 1
        for call, lines in self.may.items():
            times = {it: self.met.get((call, it), 0) for it in lines}
            if not any(times.values()):
                self.wrong.append(f"{self.lines[call]}: nothing of what it may leave behind came up")
            self.wrong += [f"{self.lines[call]}: it left behind {count} times: {it}" for it, count in times.items() if it.startswith(ONCE) and count != 1]
        return at - start


def groups_in(folder: str) -> list[tuple[str, str]]:
    """The groups of rows of a folder, each with its answers."""
    with open(f"{folder}/stdin", encoding="utf-8") as rows, open(f"{folder}/stdout", encoding="utf-8") as answers:
        asked, wanted = groups_of(rows.read()), groups_of(answers.read())
    if len(asked) != len(wanted):
        raise ValueError(f"{folder}: {len(asked)} groups of rows, and {len(wanted)} of answers")
    return [*zip(asked, wanted)]


class Driver:
    """The groups of a driver."""

    def __init__(self, program: str, folder: str, refuser: Refuser) -> None:
        every = groups_in(folder)
        # The place of the theme of each group, and whether its allocations are refused.
        self.themes: list[int] = []
        self.are_refused: list[bool] = []
        self.groups = []
        for at, (own, wanted) in enumerate(every):
            is_first = at == 0 or any(it in own for it in THEMES)
            self.themes.append(at if is_first else self.themes[-1])
            self.are_refused.append(UNREFUSED not in own and (is_first or self.are_refused[-1]))
            rows, answer = ("", "") if is_first else every[self.themes[at]]
            self.groups.append(Group(program, rows, own, answer + wanted, refuser))
        self.lock = threading.Lock()
        self.allocations: dict[int, int] = {}

    def allocations_of(self, theme: int) -> int:
        """How many allocations the group that begins a theme makes, each of which is refused once."""
        with self.lock:
            if theme not in self.allocations:
                self.allocations[theme] = self.groups[theme].play(1)
            return self.allocations[theme]

    def play(self, at: int) -> int:
        """Plays a group, and answers how many allocations were refused to it."""
        theme = self.themes[at]
        if at == theme:
            return self.allocations_of(at)
        return self.groups[at].play(self.allocations_of(theme) + 1 if self.are_refused[at] else None)
