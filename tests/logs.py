"""The log that SQLite writes beside a database."""


def commits(log: str) -> int:
    """How many transactions it has: pages whose header says how many the database has then."""
    with open(log, "rb") as it:
        size, count = int.from_bytes(it.read(32)[8:12], "big"), 0
        while size and len(header := it.read(24)) == 24:
            count += int.from_bytes(header[4:8], "big") > 0
            it.seek(size, 1)
    return count
