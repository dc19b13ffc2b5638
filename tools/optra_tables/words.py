"""Minutes, money and counts as people read them, in all that the tools print and draw."""


def clock(minute):
    """A minute of the two days as a clock time: 6:02, and 6:02+1 on the second day."""
    return f"{minute % 1440 // 60}:{minute % 60:02}" + ("+1" if minute >= 1440 else "")


def money(cents):
    """Cents as a sum with two decimals: 1471580 is 14,715.80."""
    return f"{'-' if cents < 0 else ''}{abs(cents) // 100:,}.{abs(cents) % 100:02}"


def count(number, one, many=None):
    """A number of things: 1 bid, 2 bids."""
    return f"{number:,} {one if number == 1 else many or one + 's'}"
