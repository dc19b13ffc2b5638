"""The cases of crates/optra_cases, by the form that stands at the top of its data/plans.sheet: `runs()` gives each run's case, words
and files, as they stand when it begins. Of what a run puts nothing is known here."""
import os
import re

DATA = os.path.join(os.path.dirname(os.path.dirname(os.path.realpath(__file__))), "crates", "optra_cases", "data")
ESCAPES = {b"n": b"\n", b"r": b"\r", b"t": b"\t", b"\\": b"\\"}


def escaped(text):
    return re.sub(rb"\\(x[0-9a-f]{2}|.)", lambda found: ESCAPES.get(found[1]) or bytes.fromhex(found[1][1:].decode()), text)


def content(kind, values, body, held):
    """What a head has a file hold that held something before."""
    lines = [line.encode() for line in body]
    plain = b"".join(line + b"\n" for line in lines)
    if kind == "file":
        return plain
    if kind == "bytes":
        return b"".join(map(escaped, lines))
    if kind == "rows":
        return held[:held.find(b"\n") + 1] + plain
    if kind == "more":
        return held + plain
    if kind == "many":
        return held + b"".join(b"%d%s\n" % (number, values[1].encode()) for number in range(int(values[0])))
    if kind == "repeat":
        return held + plain * int(values[0])
    raise ValueError(kind)


def sections(path):
    """The heads of a sheet, each with the lines below it, without the empty ones at their end."""
    found = []
    with open(path, encoding="utf-8", newline="") as file:
        for line in file.read().split("\n"):
            if line.startswith(("== ", "-- ")):
                found.append((line, []))
            elif found:
                found[-1][1].append(line)
    for head, body in found:
        while body and not body[-1]:
            body.pop()
        yield head, body


def runs(names):
    """The runs of these sheets: (name of the case, words, files)."""
    cases, files, name = {}, {}, None
    for sheet in names:
        for head, body in sections(os.path.join(DATA, sheet)):
            words = head.split()[1:]
            if head.startswith("== "):
                name, files = words[0].rstrip(":"), {}
                cases[name] = files
            elif words[0] == "like":
                files.update(cases[words[1]])
            elif words[0] in ("run", "never"):
                yield name, words[1:] or body, dict(files)
            elif words[0] == "absent":
                files.pop(words[1], None)
            elif words[0] not in ("shelf", "out", "err"):
                files[words[1]] = content(words[0], words[2:], body, files.get(words[1], b""))
