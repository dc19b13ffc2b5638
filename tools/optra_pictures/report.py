"""A report: one page for a plan."""
from collections import namedtuple

from . import page
from .sections import SECTIONS
from .svg import escaped
from .words import count

# The check is None where no certificate was looked at; the sources are what the page was made of, each with its name. The improved plan, its
# check, the evidence and the plan that it is of are None where none were given.
Report = namedtuple("Report", "title case check sources improved improved_check evidence evidence_of", defaults=(None,) * 4)


def html_of(report):
    """The whole page."""
    plan = report.case.plan
    told = f"{count(len(plan.bids), 'bid')}, {count(len(plan.trains), 'train')}, {count(len(report.case.net.stations), 'station')}"
    lead = page.paragraph(escaped(told + (f", round {plan.round} of an auction" if plan.round else "")))
    sections = [section for section in (make(report) for make in SECTIONS) if section]
    sources = "; ".join(f"{escaped(what)} {page.tag('code', escaped(name))}" for what, name in report.sources)
    foot = page.paragraph(f"Made by tools/report from {sources}. Minutes are clock times, with +1 behind those of the second day. "
                          "Sums are in units of 100 cents.")
    return page.page(report.title, lead, sections, foot)
