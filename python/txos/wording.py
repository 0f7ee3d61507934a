"""Words that reports have in common."""


def counted(count: int, noun: str, plural: str = "s") -> str:
    """A number of things, such as `1 step`, `2 processes` and `2 units of 8 bytes`."""
    first, _, rest = noun.partition(" ")
    return f"{count:,} {first}{'' if count == 1 else plural}{' ' if rest else ''}{rest}"
