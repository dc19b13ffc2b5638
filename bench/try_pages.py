#!/usr/bin/env python3
"""Tries the commands of the pages that people read, as they are printed there.

    python3 bench/try_pages.py PROGRAM [PAGE ..]

Takes the indented commands of README.md, docs/guides, docs/tools and the examples (or of the pages that are given), and runs them page by
page, in their order and in one shell for each page, in a copy of the repository with PROGRAM at crates/optra/out/optra. In the place of /tmp
stands a folder of its own. Commands that need the kit aren't run, nor forms with words in capitals; both are counted. Each command that ends
with another status than 0, or than the one that MEANT gives it, is told, and each whose output isn't what the page shows under it. The status is
1 where there is one.
"""
import argparse
import glob
import os
import re
import shutil
import subprocess
import sys
import tempfile

TOP = os.path.realpath(os.path.join(os.path.dirname(__file__), ".."))
PAGES = ["README.md", "docs/guides/*.md", "docs/tools/*.md", "examples/*/README.md"]
COMMAND = re.compile(r"\(cd |export |(?:python3|optra|tables|lint|report|diagram|awk|sed|head|rt) |\.ci/run|"
                     r"(?:tools|bench|crates|examples)/[^\s:]+(?: |$)")
NEEDS_KIT = re.compile(r"\brt |\.ci/run|bench/unproved\.sh")
FORM = re.compile(r"\b(?:FOLDER|DIR|FILE|PROGRAM|FROM|PLAN)\b")
DONE = "command ended: "
# The commands that are meant to end with another status: by a part of their text, a plan with a gap, a certificate that was changed, a timetable
# with faults, and payments of which one is open.
MEANT = {"--steps 20 --budget 5": 1, "wrong.cert.csv)": 4, "--times /tmp/handed-in.csv": 1, "optra pay ": 1}


def indented_blocks(text):
    """The indented blocks of a page, each a list of lines without what they are indented by; None for each heading between them."""
    blocks, is_open = [], False
    for line in text.split("\n"):
        is_code = re.match(r" {4,}\S", line) is not None
        if is_code and not is_open:
            blocks.append([])
        if is_code:
            blocks[-1].append(line)
        elif line.startswith("#"):
            blocks.append(None)
        is_open = is_code
    return [block and dedented(block) for block in blocks]


def dedented(block):
    least = min(len(line) - len(line.lstrip()) for line in block)
    return [line[least:] for line in block]


def commands_of(text):
    """The commands of a page, each with the lines that are shown under it."""
    found, shows = [], False
    for block in indented_blocks(text):
        if block is None or COMMAND.match(block[0]):
            shows = block is not None
            found += [[command, []] for command in re.sub(r"\\?\n\s+", " ", "\n".join(block or [])).split("\n") if command]
        elif shows:
            found[-1][1], shows = block, False
    return found


def run_page(commands, copy, scratch):
    """The status and the output of each command, run one after the other in one shell."""
    lines = [f"{command.replace('/tmp/', scratch + '/')}\nprintf '\\n{DONE}%s\\n' $?" for command, _ in commands]
    ran = subprocess.run(["bash", "-c", "\n".join(lines)], cwd=copy, stdout=subprocess.PIPE, stderr=subprocess.STDOUT, text=True,
                         env={**os.environ, "PYTHONDONTWRITEBYTECODE": "1"})
    parts = re.split(rf"\n{DONE}(\d+)\n", ran.stdout)
    return list(zip(map(int, parts[1::2]), parts[0::2]))


def is_shown(shown, output):
    """Whether the lines of a page stand in an output, one after the other; one that ends with dots is the beginning of a line."""
    lines = output.split("\n")
    return any(all(map(is_line, shown, lines[at:])) for at in range(len(lines) - len(shown) + 1))


def is_line(told, line):
    return line.startswith(told[:-3]) if told.endswith("...") else line.rstrip() == told.rstrip()


def faults_of(page, commands, copy, scratch):
    """What isn't as the page says, in lines."""
    for (command, shown), (status, output) in zip(commands, run_page(commands, copy, scratch)):
        meant = next((status for part, status in MEANT.items() if part in command), 0)
        shown = [line.replace("/tmp/", scratch + "/") for line in shown]
        if status != meant:
            yield f"{page}: status {status}, not {meant}: {command}\n    {output.strip()[-300:]}"
        elif not is_shown(shown, output):
            yield f"{page}: shows another output: {command}\n    {output.strip()[:300]}"


def copied(program, folder):
    """A copy of the repository with the program where its build stands."""
    copy = os.path.join(folder, "optra")
    shutil.copytree(TOP, copy, ignore=shutil.ignore_patterns(".git", "out"))
    os.makedirs(f"{copy}/crates/optra/out")
    shutil.copy(program, f"{copy}/crates/optra/out/optra")
    return copy


def main():
    words = argparse.ArgumentParser(description=__doc__, formatter_class=argparse.RawDescriptionHelpFormatter)
    words.add_argument("program")
    words.add_argument("pages", nargs="*", metavar="PAGE")
    given = words.parse_args()
    pages = given.pages or [os.path.relpath(path, TOP) for pattern in PAGES for path in sorted(glob.glob(f"{TOP}/{pattern}"))]
    tried = left = forms = 0
    faults = []
    with tempfile.TemporaryDirectory(prefix="optra-pages-") as folder:
        copy = copied(given.program, folder)
        for page in pages:
            with open(f"{TOP}/{page}", encoding="utf-8") as file:
                found = commands_of(file.read())
            commands = [entry for entry in found if not NEEDS_KIT.search(entry[0]) and not FORM.search(entry[0])]
            scratch = tempfile.mkdtemp(dir=folder)
            faults += faults_of(page, commands, copy, scratch)
            kit = sum(NEEDS_KIT.search(command) is not None for command, _ in found)
            tried, left, forms = tried + len(commands), left + kit, forms + len(found) - len(commands) - kit
    print("\n".join(faults + [f"{tried} commands of {len(pages)} pages tried, {len(faults)} faults; not tried: {left} that need the kit, "
                              f"{forms} forms"]))
    return 1 if faults else 0


if __name__ == "__main__":
    sys.exit(main())
