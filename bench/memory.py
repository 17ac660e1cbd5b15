#!/usr/bin/env python3
"""Measures the greatest memory of the program on ever longer inputs, and on one that says nothing.

It runs with 10,000, 1,000,000 and 10,000,000 lines of 100 bytes, as text and as JSON, made while they are read, so that no file
is kept. What it writes is read and counted. Then its input is a pipe that doesn't block and into which nothing is written for
ten seconds; after that a line is, and the pipe is closed. It prints the greatest memory of each run, by how much they differ, and how
long the silent one kept a processor.

A first argument is the greatest number of lines. It needs Python 3, GNU `time` and the program as `./vector` builds it.
"""

import os
import subprocess
import sys
import tempfile
import threading
import time

from program import CODECS, VECTOR, configuration_file

BLOCK = 1000
SILENCE = 10


def line(kind):
    """A line of 100 bytes with its line feed."""
    if kind == "text":
        return b"x" * 99 + b"\n"
    head, tail = b'{"message":"', b'","source_type":"stdin"}\n'
    return head + b"x" * (100 - len(head) - len(tail)) + tail


def feed(pipe, kind, count):
    block = line(kind) * BLOCK
    for _ in range(count // BLOCK):
        pipe.write(block)
    pipe.close()


def greatest(path, feeder, expected, blocking=True):
    """Runs the program of a configuration under `time`, and gives the greatest memory that it had, in kilobytes, and the seconds of a processor."""
    told = path.with_suffix(".told")
    words = ["/usr/bin/time", "--format", "%M %U %S", "--output", str(told), VECTOR, "--config", str(path)]
    source, into = os.pipe()
    os.set_blocking(source, blocking)
    process = subprocess.Popen(words, stdin=source, stdout=subprocess.PIPE)
    os.close(source)
    writer = threading.Thread(target=feeder, args=(os.fdopen(into, "wb"),))
    writer.start()
    read = 0
    while chunk := process.stdout.read(1 << 20):
        read += len(chunk)
    writer.join()
    if process.wait() or read != expected:
        sys.exit(f"status {process.returncode}, {read} bytes in the place of {expected}")
    memory, *busy = told.read_text().split()
    return int(memory), sum(map(float, busy))


def silent(pipe):
    time.sleep(SILENCE)
    pipe.write(line("text"))
    pipe.close()


def main():
    most = int(sys.argv[1]) if len(sys.argv) > 1 else 10_000_000
    found = []
    with tempfile.TemporaryDirectory() as folder:
        for kind in CODECS:
            path = configuration_file(folder, kind)
            for count in (10_000, 1_000_000, most):
                used, _ = greatest(path, lambda pipe: feed(pipe, kind, count), 100 * count)
                print(f"{kind:6} {count:10} lines {used:8} KB", flush=True)
                found.append(used)
        used, busy = greatest(configuration_file(folder, "text"), silent, 100, blocking=False)
        print(f"text   nothing for {SILENCE} seconds {used:6} KB, {busy:.2f} s of a processor")
        found.append(used)
    print(f"the greatest differs from the least by {max(found) - min(found)} KB")


main()
