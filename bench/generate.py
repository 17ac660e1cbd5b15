#!/usr/bin/env python3
"""Measures generated lines: a million of them to a black hole and to a console, with the memory they take, beside `mawk`.

A `demo_logs` source makes 1,000,000 lines of 100 bytes; another number can be given as the first word. They go to a `blackhole`, and
to a console that writes to a pipe. `yes | head -n 1000000 | mawk 1` writes as many lines of the same length to a pipe. They run in
turn, three times each; the least time and the greatest memory count. It needs Python 3.11, `mawk` and GNU `time`.
"""

import subprocess
import sys

from events import load, measure
from program import TOP, VECTOR

LINES = 1_000_000
ROUNDS = 3
LINE = "x" * 99
SOURCE = '[sources.in]\ntype = "demo_logs"\nformat = "shuffle"\nlines = ["{}"]\ncount = {}\ninterval = 0\n'
SINKS = {
    "blackhole": '\n[sinks.out]\ntype = "blackhole"\ninputs = ["in"]\n',
    "console": '\n[sinks.out]\ntype = "console"\ninputs = ["in"]\nencoding.codec = "text"\n',
}


def configuration(kind, count):
    """The path of a configuration with so many lines and a sink of that type."""
    path = TOP / "bench/out" / f"generated-{kind}-{count}.toml"
    path.parent.mkdir(exist_ok=True)
    path.write_text(SOURCE.format(LINE, count) + SINKS[kind])
    return path


def main():
    count = int(sys.argv[1]) if len(sys.argv) > 1 else LINES
    counts = [count // 100, count]
    paths = {(kind, n): configuration(kind, n) for kind in SINKS for n in counts}
    nothing = TOP / "bench/out/nothing"
    nothing.write_bytes(b"")
    # (the script builds the program, which is then measured by itself)
    subprocess.run([str(TOP / "vector"), "validate", str(paths["console", count])], stdout=subprocess.DEVNULL, check=True)
    programs = {f"{kind}, {n} lines": [VECTOR, "--config", str(path)] for (kind, n), path in paths.items()}
    programs["mawk"] = ["sh", "-c", f"yes {LINE} | head -n {count} | mawk 1"]
    print(f"{count} lines of 100 bytes, the best of {ROUNDS} runs; before: {load()}")
    seen = {name: [] for name in programs}
    for _ in range(ROUNDS):
        for name, words in programs.items():
            seen[name].append(measure(words, nothing))
    for name, runs in seen.items():
        wall, work, memory = min(run[0] for run in runs), min(run[1] for run in runs), max(run[2] for run in runs)
        lines = count if name == "mawk" else int(name.split()[1])
        print(f"{name:28} {wall:7.3f} s {work:7.2f} s of a processor {lines / max(work, 0.01):12.0f} events a second of it {memory:7} KB")
    print(f"after: {load()}")


if __name__ == "__main__":
    main()
