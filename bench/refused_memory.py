#!/usr/bin/env python3
"""Refuses each allocation of a built optra in turn: python3 bench/refused_memory.py PROGRAM [RUN ..]

Of each run below (or of those that are named) it counts the allocations, by a library that stands in front of the C library's (made
by `cc`), and then runs the program once for each, with that one refused. The run has to answer as it does with ample memory, or 8: then
with nothing on the output, nothing put, and `no memory` on the error line. At the first other answer it says which allocation was
refused and ends with status 1. Run by hand.
"""
import os
import shutil
import subprocess
import sys
import tempfile

import hostile
import reader
import sheets

# Each call that takes memory counts, from 1; the one whose number is REFUSED gets none. How many there were is written at the end.
LIBRARY = r"""
#include <errno.h>
#include <fcntl.h>
#include <stdio.h>
#include <stdlib.h>
#include <unistd.h>

extern void *__libc_malloc(size_t), *__libc_calloc(size_t, size_t), *__libc_realloc(void *, size_t), *__libc_memalign(size_t, size_t);

static unsigned long calls, refused;

__attribute__((constructor)) static void begin(void) {
    const char *number = getenv("REFUSED");
    refused = number ? strtoul(number, 0, 10) : 0;
    calls = 0;
}

__attribute__((destructor)) static void end(void) {
    const char *name = getenv("COUNTED");
    char text[32];
    int file = name ? open(name, O_WRONLY | O_CREAT | O_TRUNC, 0600) : -1;
    if (file >= 0 && write(file, text, snprintf(text, sizeof text, "%lu", calls)) < 0)
        _exit(99);
}

static int is_refused(void) {
    if (++calls != refused)
        return 0;
    errno = ENOMEM;
    return 1;
}

void *malloc(size_t size) { return is_refused() ? 0 : __libc_malloc(size); }
void *calloc(size_t count, size_t size) { return is_refused() ? 0 : __libc_calloc(count, size); }
void *realloc(void *at, size_t size) { return is_refused() ? 0 : __libc_realloc(at, size); }
void *memalign(size_t align, size_t size) { return is_refused() ? 0 : __libc_memalign(align, size); }
void *aligned_alloc(size_t align, size_t size) { return memalign(align, size); }
int posix_memalign(void **at, size_t align, size_t size) { return (*at = memalign(align, size)) ? 0 : ENOMEM; }
"""

TABLES = hostile.WORDS


def runs():
    """The runs: name, words, files."""
    worked = {name: files for name, _, files in sheets.runs(hostile.SHEETS)}
    return [("plan-with-certificate", ["plan", *TABLES, "--budget", "5", "--cert", "put.csv"], worked["pairs"]),
            ("check", ["check", *TABLES, "--cert", "c.csv"], worked["checked"]),
            ("demo", ["demo", "7", "1"], {})] + [(name, hostile.AUCTION, files) for name, files in hostile.auctions().items()]


def held(folder):
    """All files below the folder, by name."""
    return {os.path.relpath(os.path.join(place, name), folder): reader.read(os.path.join(place, name))
            for place, _, names in os.walk(folder) for name in names}


def answer(program, library, words, files, refused):
    """The status, the output, the error line, what was put, and how many allocations there were."""
    with tempfile.TemporaryDirectory(prefix="optra-refused-") as top:
        folder, counted = f"{top}/run", f"{top}/counted"
        hostile.lay(folder, files)
        before = held(folder)
        told = subprocess.run([program, *words], cwd=folder, capture_output=True,
                              env={"LD_PRELOAD": library, "REFUSED": str(refused), "COUNTED": counted})
        put = {name: text for name, text in held(folder).items() if before.get(name) != text}
        count = int(reader.read(counted)) if os.path.exists(counted) else 0
        return (told.returncode, told.stdout, told.stderr, put), count


def main(program, names):
    program = os.path.realpath(program)
    made = tempfile.mkdtemp(prefix="optra-refusing-")
    library = f"{made}/refusing.so"
    subprocess.run(["cc", "-shared", "-fPIC", "-O2", "-fno-builtin", "-x", "c", "-", "-o", library], input=LIBRARY.encode(), check=True)
    for name, words, files in runs():
        if names and name not in names:
            continue
        ample, count = answer(program, library, words, files, 0)
        refusals = 0
        for number in range(1, count + 1):
            got, _ = answer(program, library, words, files, number)
            refusals += got == (8, b"", b"no memory\n", {})
            if got not in (ample, (8, b"", b"no memory\n", {})):
                print(f"{name}: with allocation {number} of {count} refused: {got}")
                return 1
        print(f"{name}: status {ample[0]}, {count} allocations, {refusals} of them refused give 8, the others the run's own answer",
              flush=True)
    shutil.rmtree(made)
    return 0


if __name__ == "__main__":
    if len(sys.argv) < 2:
        sys.exit(__doc__)
    sys.exit(main(sys.argv[1], sys.argv[2:]))
