"""The events and texts that tests share."""
import json
from typing import Optional, Union


def event(name: str, number: Union[int, str, None], kind: str = "t", source: str = "/orders", **more: object) -> str:
    """The canonical text of an event. A number stands as twenty digits, a text as it is, and without either there is no sequence."""
    members: dict[str, object] = {"id": name, "source": source, "specversion": "1.0", "type": kind, **more}
    if number is not None:
        members["sequence"] = f"{number:020d}" if isinstance(number, int) else number
    return json.dumps(members, separators=(",", ":"), sort_keys=True, ensure_ascii=False)


def batch(*events: str) -> str:
    return f"[{','.join(events)}]"


def page(*events: str) -> str:
    """The line by which a command hands events on."""
    return f"{batch(*events)}\n"


def pages(*events: str) -> str:
    """A line for each hundred events."""
    return "".join(page(*events[at : at + 100]) for at in range(0, len(events), 100))


def lines(*texts: str) -> str:
    return "".join(f"{it}\n" for it in texts)


def cover(last: Optional[int]) -> str:
    """The answer to `cover`, and the oldest form of a summary, of the numbers of /orders from 1 to the last, or of no event."""
    return f'{{"sources":{{"/orders":[[1,{last}]]}},"version":1}}' if last else '{"sources":{},"version":1}'


def numbered_events(count: int, digits: int = 0) -> list[str]:
    """That many events of the source /, whose ids are their numbers."""
    return [event(f"{it:0{digits}d}", it, source="/") for it in range(1, count + 1)]


def fault(**members: object) -> str:
    """The line of `check` with these members, in their order."""
    return json.dumps(members, separators=(",", ":")) + "\n"


AT = "2024-02-29T10:00:00Z"


def order_event(number: int, order: int, what: str, source: str = "/orders") -> str:
    """The event of the row of a service by which an order was placed, shipped or cancelled at that time."""
    return event(f"{number:020d}", number, f"order.{what}", source, subject=str(order), time=AT)


def acknowledgement(line: int, new: int, repeated: int) -> str:
    """What `follow` says of a line."""
    return f'{{"line":{line},"new":{new},"repeated":{repeated}}}\n'


E1, E2 = event("a1", 1, "t.a", subject="x"), event("a2", 2, "t.b", subject="x")
E3, E4 = event("a3", 3, "t.a", subject="y"), event("a4", 4, "t.a", subject="y")
QUESTIONS = ("cover", "gaps", "shown", "latest", "kinds", "days", "conflicts")
NO_FILE = "there is no file of that name, or none that this user may look at"
