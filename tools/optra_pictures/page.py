"""Pieces of an HTML page that stands in one file and can be read on a screen, on paper, by keyboard and by a screen reader."""
from collections import namedtuple

from .svg import escaped

# A part of the page: its name in links, its heading, and what stands under it.
Section = namedtuple("Section", "anchor heading body")

# A table of at most so many rows stays on one sheet of paper.
SHORT = 12

STYLE = """
:root { color-scheme: light; }
* { box-sizing: border-box; }
body { margin: 0 auto; max-width: 1440px; padding: 0 24px 48px; background: #fff; color: #1a1a1a;
  font: 15px/1.5 Helvetica, Arial, sans-serif; }
h1 { font-size: 28px; line-height: 1.2; margin: 24px 0 4px; }
h2 { font-size: 21px; margin: 40px 0 8px; border-bottom: 2px solid #1a1a1a; padding-bottom: 4px; }
h3 { font-size: 17px; margin: 28px 0 6px; }
p, ul { max-width: 78ch; margin: 8px 0; }
a { color: #00558a; }
:focus-visible { outline: 3px solid #b34700; outline-offset: 2px; }
.skip { position: absolute; left: -9999px; }
.skip:focus { left: 24px; top: 8px; background: #fff; padding: 6px 10px; z-index: 1; }
nav ul { list-style: none; padding: 0; display: flex; flex-wrap: wrap; gap: 4px 20px; max-width: none; }
.verdict { border-left: 8px solid #00734f; background: #eef7f3; padding: 12px 18px; margin: 16px 0; font-size: 17px; max-width: none; }
.verdict.gap { border-color: #b34700; background: #fdf3ec; }
.verdict.wrong { border-color: #9c1f1f; background: #fbeeee; }
.verdict p { margin: 4px 0; max-width: none; }
.facts { display: flex; flex-wrap: wrap; gap: 8px 36px; margin: 16px 0; padding: 0; }
.facts div { min-width: 130px; }
.facts dt { color: #555; font-size: 13px; }
.facts dd { margin: 0; font-size: 20px; font-weight: bold; }
.scroll { overflow-x: auto; margin: 8px 0; }
table { border-collapse: collapse; font-size: 14px; }
caption { text-align: left; color: #555; padding-bottom: 4px; }
th, td { border-bottom: 1px solid #ccc; padding: 4px 14px 4px 0; text-align: left; vertical-align: top; }
thead th { border-bottom: 2px solid #1a1a1a; vertical-align: bottom; }
tbody th { font-weight: bold; white-space: nowrap; }
td.number, th.number, td.time, th.time { text-align: right; font-variant-numeric: tabular-nums; white-space: nowrap; }
.off { color: #555; }
td.why { min-width: 26em; max-width: 60em; }
td.why ul { margin: 2px 0; padding-left: 1.2em; }
figure { margin: 8px 0 24px; }
figcaption { max-width: 100ch; }
figure svg { display: block; min-width: 900px; max-width: 100%; height: auto; }
figure svg.wide { max-width: none; }
code { font: 13px/1.4 Menlo, Consolas, "DejaVu Sans Mono", monospace; overflow-wrap: anywhere; }
.timetable { columns: 23em; column-gap: 28px; }
.timetable table { break-inside: avoid; width: 100%; margin: 0 0 18px; font-size: 13px; }
.timetable caption { color: #1a1a1a; }
.timetable th, .timetable td { padding: 1px 10px 1px 0; }
.timetable tbody th { font-weight: normal; white-space: normal; }
footer { margin-top: 40px; border-top: 1px solid #ccc; color: #555; font-size: 13px; }
@media (max-width: 700px) {
  body { padding: 0 12px 32px; }
  h1 { font-size: 23px; }
  td.why { min-width: 17em; }
}
@media print {
  @page { size: A4 landscape; margin: 12mm; }
  body { max-width: none; padding: 0; font-size: 10pt; }
  nav, .skip { display: none; }
  h2, h3 { break-after: avoid; }
  tr, figure, .verdict, .short { break-inside: avoid; }
  #lines, #timetable { break-before: page; }
  thead { display: table-header-group; }
  .scroll { overflow: visible; }
  table { font-size: 9pt; }
  th, td { padding: 2px 8px 2px 0; }
  td.why { min-width: 0; }
  figure svg, figure svg.wide { min-width: 0; width: 100%; max-width: 100%; max-height: 132mm; }
  a { color: inherit; text-decoration: none; }
  .verdict { print-color-adjust: exact; -webkit-print-color-adjust: exact; }
}
"""


def tag(name, *inner, **attributes):
    """An element; what it holds is HTML already."""
    told = "".join(f' {key.rstrip("_").replace("_", "-")}="{escaped(value)}"' for key, value in attributes.items() if value is not None)
    return f"<{name}{told}>{''.join(inner)}</{name}>"


def name(text):
    """A name from the tables: its letters don't turn those around it, whichever way they are written."""
    return tag("bdi", escaped(text))


def paragraph(*inner, **attributes):
    return tag("p", *inner, **attributes)


def bullets(items):
    return tag("ul", *(tag("li", item) for item in items))


# A column: its heading, and the class of its cells (number, time, why or None).
Column = namedtuple("Column", "heading kind")


def table(caption, columns, rows):
    """A table that scrolls by itself where the window is narrow; the first cell of a row is its heading."""
    head = tag("tr", *(tag("th", escaped(column.heading), scope="col", class_=column.kind if column.kind in ("number", "time") else None)
                       for column in columns))
    body = [tag("tr", tag("th", row[0], scope="row"), *(tag("td", cell, class_=column.kind) for cell, column in zip(row[1:], columns[1:])))
            for row in rows]
    made = tag("table", tag("caption", escaped(caption)), tag("thead", head), tag("tbody", "\n".join(body)))
    return scrolling(made, caption, "scroll short" if len(rows) <= SHORT else "scroll")


def scrolling(inner, label, kind="scroll"):
    """What may be wider than the window, so that the keyboard can move it too."""
    return tag("div", inner, class_=kind, role="region", aria_label=label, tabindex=0)


def facts(pairs):
    return tag("dl", *(tag("div", tag("dt", escaped(what)), tag("dd", escaped(value))) for what, value in pairs), class_="facts")


def page(title, lead, sections, foot):
    """The whole page."""
    links = tag("nav", tag("ul", *(tag("li", tag("a", escaped(section.heading), href=f"#{section.anchor}")) for section in sections)),
                aria_label="Sections")
    parts = [tag("section", tag("h2", escaped(section.heading), id=f"{section.anchor}-heading"), "\n", section.body, id=section.anchor,
                 aria_labelledby=f"{section.anchor}-heading") for section in sections]
    head = tag("head", '<meta charset="utf-8">', '<meta name="viewport" content="width=device-width, initial-scale=1">',
               tag("title", escaped(title)), f"<style>{STYLE}</style>")
    body = tag("body", tag("a", "To the report", href="#report", class_="skip"),
               tag("header", tag("h1", escaped(title)), lead, links), "\n",
               tag("main", "\n".join(parts), id="report", tabindex=-1), "\n", tag("footer", foot))
    return f'<!doctype html>\n<html lang="en">\n{head}\n{body}\n</html>\n'
