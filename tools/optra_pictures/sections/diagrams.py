"""A picture for each line of some that together have every section of the network."""
from .. import heading, lines
from ..chart import Chart, span_of
from ..page import Section, name, paragraph, scrolling, tag
from ..svg import escaped
from ..words import clock

# A picture of more minutes than these is cut into some of so many.
LONGEST, PANEL = 360, 240


def panels_of(span):
    """The minutes of each picture of a line."""
    first, last = span
    if last - first <= LONGEST:
        return [span]
    starts = range(first // 60 * 60, last, PANEL)
    return [(start, start + PANEL) for start in starts]


def diagrams(report):
    case, parts, idle = report.case, [], []
    for number, line in enumerate(lines.cover(case.map, case.plan), start=1):
        span = span_of(case, line)
        if span is None:
            idle.append(line)
            continue
        parts.append(tag("h3", f"{name(line[0])} to {name(line[-1])}"))
        for place, hours in enumerate(panels_of(span), start=1):
            chart = Chart(case, line, f"{line[0]} to {line[-1]}", hours, f"line-{number}-{place}")
            if chart.drawn:
                parts.append(figure(chart))
    if idle:
        parts.append(paragraph("Nothing runs, or would run, on these lines: ",
                               "; ".join(f"{name(line[0])} to {name(line[-1])}" for line in idle), "."))
    told = paragraph("Stations stand down the side, with a stroke for each track between them, and clock times across. A pointer on a "
                     "line or a cross tells what it is. Each section of the network is in one picture, so a train may go on in another "
                     "one. What the pictures show stands in the tables too.")
    return Section("lines", "Lines", told + "\n".join(parts)) if parts else None


def figure(chart):
    """A picture, and how many trains are in it."""
    frame = chart.frame
    told = [f"{clock(frame.first)} to {clock(frame.last)}.", heading.counts_of(chart), *heading.turns_of(chart)]
    label = f"Diagram from {frame.line[0]} to {frame.line[-1]}, {clock(frame.first)} to {clock(frame.last)}"
    return tag("figure", scrolling(chart.svg(with_heading=False), label), tag("figcaption", *(escaped(line) + " " for line in told)))
