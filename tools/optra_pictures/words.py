"""What pictures and pages say in words; minutes, money and counts as all tools write them."""
from optra_tables.words import clock, count, money  # noqa: F401


def off(minutes):
    """Minutes off an ideal, with their sign; 0 is on time."""
    return f"{minutes:+d}" if minutes else "0"


def share_above(revenue, bound):
    """How much more than the revenue the bound is, in per cent; an empty text where the revenue is nothing."""
    if revenue <= 0:
        return ""
    tenths = (bound - revenue) * 1000 / revenue
    if tenths >= 0.5:
        return f"{tenths / 10:.1f} %"
    return "less than 0.1 %" if bound > revenue else "0 %"


def listed(names, most=8):
    """Some names in one line, and how many more there are."""
    names = list(names)
    more = len(names) - most
    return ", ".join(names) if more <= 1 else f"{', '.join(names[:most])} and {more} more"


def wrapped(parts, width):
    """Parts of a sentence in lines of at most so many characters; a part that is longer is broken between words."""
    lines = []
    for part in parts:
        for word in part.split(" "):
            if lines and len(lines[-1]) + 1 + len(word) <= width:
                lines[-1] += " " + word
            else:
                lines.append(word)
    return lines
