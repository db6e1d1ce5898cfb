"""What scripts that try something have in common: what they count, and their last line."""


class Counts:
    """Counts what was tried, and tells at once what was wrong."""

    # What is tried now, for what is told.
    what = ""

    def __init__(self) -> None:
        self.right = self.all = 0
        self.wrong: list[str] = []
        self.skipped: list[str] = []

    def judge(self, what: str, is_right: object, why: object = "") -> bool:
        """Whether something is right; says what it is, and why it isn't, where it isn't."""
        self.right, self.all = self.right + bool(is_right), self.all + 1
        if not is_right:
            self.wrong.append(f"wrong: {self.what and f'{self.what}: '}{what}: {str(why)[-2000:]}")
            print(self.wrong[-1], flush=True)
        return bool(is_right)

    def add(self, count: int, wrong: list[str]) -> None:
        """Counts so many things, of which these are wrong."""
        self.right, self.all = self.right + count - len(wrong), self.all + count
        self.wrong += [f"wrong: {it}" for it in wrong]

    def skip(self, what: str, why: str) -> None:
        """Says that something isn't tried, since what it wants isn't there."""
        self.skipped.append(f"skipped: {what}, since {why}")
        print(self.skipped[-1], flush=True)

    def tell(self) -> int:
        """Prints the last line, 'N passed, M failed', and answers the status."""
        print(f"{self.right} passed, {self.all - self.right} failed")
        return 0 if self.right == self.all else 1
