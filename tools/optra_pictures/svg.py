"""Elements of an SVG file."""
import html
import re

# What no XML may hold, whatever a name has.
UNFIT = re.compile("[\x00-\x08\x0b\x0c\x0e-\x1f\ud800-\udfff\ufffe\uffff]")


def escaped(text):
    return html.escape(UNFIT.sub("\ufffd", str(text)))


def attributes_of(attributes):
    """Attributes by their names: a line stands for a minus, but for one at the end, which keeps a word of Python's apart."""
    return "".join(f' {name.rstrip("_").replace("_", "-")}="{escaped(value)}"' for name, value in attributes.items())


def element(name, *inner, **attributes):
    """An element with the elements that it holds."""
    told = attributes_of(attributes)
    return f"<{name}{told}>{''.join(inner)}</{name}>" if inner else f"<{name}{told}/>"


def group(*inner, title=None, **attributes):
    """Elements with one tooltip."""
    told = [element("title", escaped(title))] if title else []
    return element("g", *told, *inner, **attributes)


def text(x, y, body, **attributes):
    return element("text", escaped(body), x=f"{x:.1f}", y=f"{y:.1f}", **attributes)


def segment(x1, y1, x2, y2, **attributes):
    return element("line", x1=f"{x1:.1f}", y1=f"{y1:.1f}", x2=f"{x2:.1f}", y2=f"{y2:.1f}", **attributes)


def polyline(points, **attributes):
    return element("polyline", points=" ".join(f"{x:.1f},{y:.1f}" for x, y in points), fill="none", **attributes)


def polygon(points, **attributes):
    return element("polygon", points=" ".join(f"{x:.1f},{y:.1f}" for x, y in points), **attributes)


def rectangle(x, y, width, height, **attributes):
    return element("rect", x=f"{x:.1f}", y=f"{y:.1f}", width=f"{width:.1f}", height=f"{height:.1f}", **attributes)


def width_of(body, size):
    """About how wide a text stands."""
    return size * sum(1.0 if ord(letter) > 0x2e80 else 0.57 for letter in body)
