#!/usr/bin/env python3
"""Measures what a copy of a line costs where many consoles read one source, beside `mawk`, which prints each line as often.

For 1, 16, 64 and 255 consoles it runs the program on as many lines of 100 bytes as give 510,000 copies, with all consoles on
standard output, which is a pipe that is read to its end. A run in which nobody reads the source says what a line costs before it is
copied. They run in turn, eleven times each; the median of the processor time counts, since a processor that others use too is
faster at some times than at others. A first argument is another number of copies. It needs
Python 3.11, `mawk` and GNU `time`.
"""

import subprocess
import sys
from statistics import median

from events import load, measure
from program import TOP, VECTOR, lines_file

CONSOLES = [1, 16, 64, 255]
COPIES = 510_000
ROUNDS = 11
SOURCE = '[sources.in]\ntype = "stdin"\n'
SINK = '[sinks.s{}]\ntype = "console"\ninputs = ["in"]\nencoding.codec = "text"\n'
# a sink is asked for: this one reads a source that makes nothing
NOBODY = '[sources.nothing]\ntype = "demo_logs"\nformat = "shuffle"\nlines = ["x"]\ncount = 0\n[sinks.none]\ntype = "blackhole"\ninputs = ["nothing"]\n'


def configuration(count):
    """The path of a configuration with so many consoles, of none with nobody who reads the source."""
    path = TOP / "bench/out" / f"consoles-{count}.toml"
    path.write_text(SOURCE + ("".join(SINK.format(k) for k in range(count)) or NOBODY))
    return path


def main():
    copies = int(sys.argv[1]) if len(sys.argv) > 1 else COPIES
    counts = [0, *CONSOLES]
    files = {count: lines_file(copies // max(count, 1)) for count in counts}
    paths = {count: configuration(count) for count in counts}
    # (the script builds the program, which is then measured by itself)
    subprocess.run([str(TOP / "vector"), "validate", str(paths[1])], stdout=subprocess.DEVNULL, check=True)
    print(f"{copies} copies of lines of 100 bytes, the median of {ROUNDS} runs; before: {load()}")
    took = {name: {count: [] for count in counts} for name in ["vector", "mawk"]}
    for _ in range(ROUNDS):
        for count in counts:
            programs = {"vector": [VECTOR, "--config", str(paths[count])], "mawk": ["mawk", f"{{for (k = 0; k < {count}; k++) print}}"]}
            for name, words in programs.items():
                took[name][count].append(measure(words, files[count])[1])
    lines = {count: files[count].stat().st_size // 100 for count in counts}
    line = median(took["vector"][0]) * 1e6 / lines[0]
    whole = {name: {count: median(runs[count]) * 1e6 / (lines[count] * count) for count in CONSOLES} for name, runs in took.items()}
    alone = {count: whole["vector"][count] - line / count for count in CONSOLES}
    print(f"a line that nobody reads: {line:6.2f} us of a processor")
    for count in CONSOLES:
        print(f"{count:4} consoles: {whole['vector'][count]:6.2f} us of a processor a copy, {alone[count]:6.2f} us without its line; mawk {whole['mawk'][count]:6.2f} us")
    for words, work in [("with its line", whole["vector"]), ("without its line", alone)]:
        print(f"{words}, the dearest copy costs {max(work.values()) / min(work.values()):.2f} times the cheapest")
    print(f"after: {load()}")


if __name__ == "__main__":
    main()
