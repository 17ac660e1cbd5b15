#!/usr/bin/env python3
"""Measures how long the program takes to copy lines, by themselves and in batches of 1,000, beside `jq -cR .` and `mawk 1`.

Each program reads the same file of 200,000 lines of 100 bytes and writes to a pipe that is read to its end. They run in
turn, five times each; the least times count, and the greatest memory. A first argument is another number of lines.
"""

import os
import subprocess
import sys
import tempfile
import time

from program import TOP, VECTOR, lines_file

ROUNDS = 5
PROGRAMS = {
    "vector": [VECTOR, "--config", str(TOP / "examples/first.toml")],
    "batched": [VECTOR, "--config", str(TOP / "examples/batched.toml")],
    "jq -cR .": ["jq", "-cR", "."],
    "mawk 1": ["mawk", "1"],
}
OURS = ["vector", "batched"]


def measure(words, path):
    """The seconds that one run took, those of a processor, the KB of memory that it had at most, and the bytes that it wrote.

    The memory is what `time` says: a child of this process would be given the memory of Python itself.
    """
    with path.open("rb") as given, tempfile.NamedTemporaryFile("r") as said:
        begun = time.monotonic()
        ran = subprocess.Popen(["/usr/bin/time", "-f", "%U %S %M", "-o", said.name, *words], stdin=given, stdout=subprocess.PIPE)
        written = 0
        while piece := os.read(ran.stdout.fileno(), 1 << 20):
            written += len(piece)
        status = ran.wait()
        took = time.monotonic() - begun
        *busy, most = said.read().split()[-3:]
    if status != 0:
        sys.exit(f"{words[0]} ended with status {status}")
    return took, sum(map(float, busy)), int(most), written


def main():
    count = int(sys.argv[1]) if len(sys.argv) > 1 else 200_000
    path = lines_file(count)
    # (the script builds the program, which is then measured by itself)
    subprocess.run([str(TOP / "vector"), *PROGRAMS["vector"][1:]], stdin=subprocess.DEVNULL, check=True)
    seen = {name: [] for name in PROGRAMS}
    for _ in range(ROUNDS):
        for name, words in PROGRAMS.items():
            seen[name].append(measure(words, path))
    took = {name: min(it[0] for it in runs) for name, runs in seen.items()}
    busy = {name: min(it[1] for it in runs) for name, runs in seen.items()}
    most = {name: max(it[2] for it in runs) for name, runs in seen.items()}
    print(f"{count} lines of 100 bytes, the best of {ROUNDS} runs")
    for name in PROGRAMS:
        print(f"{name:10} {took[name]:8.3f} s {busy[name]:8.2f} s of a processor {most[name]:9} KB {seen[name][0][3]:12} bytes written")
    for ours in OURS:
        for name in [it for it in PROGRAMS if it not in OURS]:
            print(f"{ours} takes {took[ours] / took[name]:.2f} times the time of {name}, {busy[ours] / busy[name]:.2f} times its time of a processor")
    print(f"memory of vector by line: {1024 * most['vector'] / count:.0f} bytes")


if __name__ == "__main__":
    main()
