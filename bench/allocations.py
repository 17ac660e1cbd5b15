#!/usr/bin/env python3
"""Counts how often the program asks for memory for a line, by a library that is loaded before others: text by itself and in batches, and JSON.

Each configuration runs twice, on twice as many lines the second time, so that what a run takes by itself falls out. Beside what the system's
library is asked for stands what is given back. It needs `cc` and Python 3.11, and a program that was built.
"""

import os
import subprocess
import sys
import tempfile
from pathlib import Path

from copy_json import events_file
from program import TOP, VECTOR, configuration_file, lines_file

COUNTING = b"""
#define _GNU_SOURCE
#include <dlfcn.h>
#include <stddef.h>
#include <stdio.h>
#include <stdlib.h>
#include <unistd.h>

static unsigned long asked, given_back;
static void *(*next_malloc)(size_t), *(*next_realloc)(void *, size_t), *(*next_aligned)(size_t, size_t);
static void (*next_free)(void *);

__attribute__((constructor)) static void begin(void)
{
    next_malloc = dlsym(RTLD_NEXT, "malloc");
    next_realloc = dlsym(RTLD_NEXT, "realloc");
    next_aligned = dlsym(RTLD_NEXT, "aligned_alloc");
    next_free = dlsym(RTLD_NEXT, "free");
}

void *malloc(size_t size) { asked++; return next_malloc(size); }
void *realloc(void *old, size_t size) { asked++; return next_realloc(old, size); }
void *aligned_alloc(size_t bound, size_t size) { asked++; return next_aligned(bound, size); }
void free(void *old) { if (old) given_back++; next_free(old); }

__attribute__((destructor)) static void end(void)
{
    FILE *out = fopen(getenv("COUNTS"), "w");
    fprintf(out, "%lu %lu\\n", asked, given_back);
    fclose(out);
}
"""
COUNT = 20_000


def counts(folder, configuration, path):
    """How often a run asked for memory, and gave some back."""
    said = folder / "counts"
    variables = {**os.environ, "LD_PRELOAD": str(folder / "counting.so"), "COUNTS": str(said)}
    with path.open("rb") as given:
        subprocess.run([VECTOR, "--config", str(configuration)], stdin=given, stdout=subprocess.DEVNULL, env=variables, check=True)
    return [int(it) for it in said.read_text().split()]


def main():
    with tempfile.TemporaryDirectory() as name:
        folder = Path(name)
        (folder / "counting.c").write_bytes(COUNTING)
        subprocess.run(["cc", "-O2", "-shared", "-fPIC", "-o", "counting.so", "counting.c"], cwd=folder, check=True)
        rows = {
            "text": (TOP / "examples/first.toml", lines_file),
            "text in batches of 1,000": (TOP / "examples/batched.toml", lines_file),
            "JSON": (configuration_file(folder, "json"), events_file),
        }
        for row, (configuration, file_of) in rows.items():
            once, twice = (counts(folder, configuration, file_of(count)) for count in (COUNT, 2 * COUNT))
            asked, back = ((more - less) / COUNT for less, more in zip(once, twice))
            print(f"{row:25} asks {asked:6.2f} times for memory a line, and gives {back:6.2f} back")


if __name__ == "__main__":
    sys.exit(main())
