"""Services and their orders: what `order` answers, what `relay` hands on, and what `service` tells."""
from typing import Iterator

from events import AT, E1, E2, E3, batch, lines, order_event, page
from shell import As, Row, answers, asks, lacks, refuses, rejects, rows


def order(what: str, words: str, out: str, file: str = "o.db") -> Row:
    """A row of an order that is placed, shipped or cancelled."""
    return answers(what, f"site order --db {file} --at {AT} {words}", lines(out))


def no_order(what: str, words: str, why: str) -> Row:
    """A row of an order that is refused."""
    return refuses(what, f"site order --db o.db --at {AT} {words}", why)


ROWS = [order_event(1, 7, "placed"), order_event(2, 7, "shipped"), order_event(3, 9, "placed"), order_event(4, 9, "cancelled")]

# Orders and their events.
test_orders = rows(
    {"three.json": batch(E1, E2, E3)},
    order("an order", "place 7", ROWS[0]),
    order("it is shipped", "ship 7", ROWS[1]),
    no_order("it is shipped once", "ship 7", "order 7: WrongState"),
    no_order("it is placed once", "place 7", "order 7: OrderExists"),
    no_order("an order that is not there", "cancel 8", "order 8: NoOrder"),
    order("no number was lost", "place 9", ROWS[2]),
    order("it is cancelled", "cancel 9", ROWS[3]),
    order("the first order of an outbox", "place 9", order_event(1, 9, "placed"), "nine.db"),
    order("and its cancelling", "cancel 9", order_event(2, 9, "cancelled"), "nine.db"),
    answers("all rows", "site relay --db o.db --after 0", page(*ROWS)),
    answers("rows after a number", "site relay --db o.db --after 3", page(ROWS[3])),
    answers("no row is left", "site relay --db o.db --after 4", page()),
    answers("a number beyond all", "site relay --db o.db --after 18446744073709551615", page()),
    answers("all rows after a number, a page a line", "site relay --db o.db --after 1 --all", page(*ROWS[1:])),
    answers("where no row is left, no line", "site relay --all --db o.db --after 4"),
    answers("behind a number beyond all, no line", "site relay --db o.db --after 18446744073709551615 --all"),
    refuses("rows of a database that is not there", "site relay --db unmade.db --after 0 --all", "unmade.db: cannot read"),
    lacks("none is made for them", "unmade.db"),
    asks("the orders as SQLite has them", "o.db", "SELECT number, state FROM orders ORDER BY number", lines("7|2", "9|3")),
    answers("an inbox in the same file", "site take --db o.db three.json", "read 3 new 3 repeated 0\n"),
    order("beside the orders", "place 10", order_event(5, 10, "placed")),
)

# The source of a service, which stays as its first command says.
test_sources = rows(
    {"three.json": batch(E1, E2, E3)},
    answers("a source", f"site order --db other.db --source /south --at {AT} place 1", lines(order_event(1, 1, "placed", "/south"))),
    refuses(
        "another source than the service has",
        f"site order --db other.db --source /north --at {AT} place 2",
        "other.db: another source",
        keeps="other.db",
    ),
    refuses("a source that begins like it", f"site order --db other.db --source /south/ --at {AT} ship 1", "other.db: another source", keeps="other.db"),
    answers("the source that it has", f"site order --db other.db --source /south --at {AT} ship 1", lines(order_event(2, 1, "shipped", "/south"))),
    order("no source named", "place 2", order_event(3, 2, "placed", "/south"), "other.db"),
    answers(
        "a relay before the first order",
        "site relay --db early.db --after 0",
        page(),
        err="site: early.db: made, it wasn't there\nsite: early.db: a service /orders was made in it\n",
    ),
    refuses(
        "the service that it made has the usual source",
        f"site order --db early.db --source /north --at {AT} place 1",
        "early.db: another source",
        keeps="early.db",
    ),
    answers("which may be named", f"site order --db early.db --source /orders --at {AT} place 1", lines(order_event(1, 1, "placed"))),
    "site take --db f.db three.json",
    answers("rows of a database without a service", "site relay --db f.db --after 0 --all", keeps="f.db"),
)


def service(base: int, orders: int, count: int, source: str) -> str:
    """What a service tells of itself."""
    return f'{{"base":{base},"orders":{orders},"rows":{count},"source":"{source}"}}\n'


# Services.
test_services = rows(
    {"three.json": batch(E1, E2, E3), "none.db": "no database"},
    answers("a service that is made", "site service --db told.db --source /west --base 100", service(100, 0, 0, "/west")),
    answers("and told", "site service --db told.db", service(100, 0, 0, "/west"), keeps="told.db"),
    refuses("the usual source, where it is named", "site service --db told.db --source /orders", "told.db: another source", keeps="told.db"),
    refuses("another base", "site service --db told.db --base 0", "told.db: Foreign", keeps="told.db"),
    refuses("another source before another base", "site service --db told.db --source /east --base 0", "told.db: another source", keeps="told.db"),
    rejects("a base that no row may follow", "site service --db told.db --source /west --base 9223372036854775808", keeps="told.db"),
    order("the row behind the base", "place 5", order_event(101, 5, "placed", "/west"), "told.db"),
    f"site order --db told.db --at {AT} place 6",
    f"site order --db told.db --at {AT} ship 5",
    answers("two orders and three rows", "site service --db told.db --source /west --base 100", service(100, 2, 3, "/west"), keeps="told.db"),
    answers("the usual source and base", "site service --db usual.db", service(0, 0, 0, "/orders")),
    "site take --db f.db three.json",
    answers("beside an inbox", "site service --db f.db", service(0, 0, 0, "/orders")),
    refuses("a file that is no database", "site service --db none.db", "none.db: Store", keeps="none.db"),
)

PLACED = [order_event(it, it, "placed") for it in range(1, 202)]


def hundred_orders(what: str, first: int) -> Row:
    """A row of a hundred orders that are placed one behind the other."""
    typed = f"for it in $(seq {first} {first + 99}); do site order --db pages.db --at {AT} place $it || exit; done"
    return answers(what, typed, lines(*PLACED[first - 1 : first + 99]), is_slow=True)


def pages_behind(what: str, after: int, each: list[list[str]]) -> Iterator[Row]:
    """All pages behind a number, each a line, and then by a loop that asks for one page behind the other."""
    yield answers(what, f"site relay --db pages.db --after {after} --all", "".join(page(*it) for it in each), keeps="pages.db")
    numbers = " ".join(str(after + 100 * it) for it in range(len(each)))
    one_by_one = As(f"for after in {numbers}; do site relay --db pages.db --after $after || exit; done")
    yield answers(f"{what}, as page by page", f"site relay --db pages.db --after {after} --all", one_by_one)


# Two pages of rows and then one row more.
test_pages_of_rows = rows(
    {},
    hundred_orders("every order of the first page is placed", 1),
    hundred_orders("and of the second page", 101),
    *pages_behind("two pages of rows", 0, [PLACED[:100], PLACED[100:200]]),
    f"site order --db pages.db --at {AT} place 201",
    *pages_behind("pages of rows behind a number", 50, [PLACED[50:150], PLACED[150:]]),
)
