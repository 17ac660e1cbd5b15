#!/usr/bin/env python3
"""Measures how fast lines are cut, and events read from JSON and written as JSON, beside `wc -l`, `jq -c .` and Python's `json`.

All read the same file of log events, one a line, of 50 million bytes and a rest, and write to a pipe that is read to its
end. They run in turn, five times each; the least wall time, the least processor time and the greatest memory count. A
first argument is another number of bytes.
"""

import json
import os
import random
import subprocess
import sys
import tempfile
import time
from pathlib import Path

TOP = Path(__file__).resolve().parent.parent
CRATE = TOP / "crates/vx_bench"
PROGRAM = str(CRATE / "out/vx_bench")
ROUNDS = 5
SIZE = 50_000_000
PYTHON = """
import json, sys
for line in sys.stdin.buffer:
    print(json.dumps(json.loads(line), separators=(",", ":"), sort_keys=True, ensure_ascii=False))
"""
PROGRAMS = {
    "vx_bench lines": [PROGRAM, "lines"],
    "wc -l": ["wc", "-l"],
    "vx_bench read": [PROGRAM, "read"],
    "vx_bench copy": [PROGRAM, "copy"],
    "jq -c .": ["jq", "-c", "."],
    "python3 json": [sys.executable, "-X", "utf8", "-c", PYTHON],
}
WORDS = "user session opened closed cache miss for key timeout while reading from upstream retry scheduled disk".split()
LEVELS = ["debug", "info", "info", "info", "warn", "error"]


def event(number, chance):
    """One log event, as services write them: names in no order, texts, numbers, a list and an object."""
    message = " ".join(chance.choices(WORDS, k=chance.randrange(4, 16)))
    if chance.random() < 0.1:
        message += f' "{chance.choice(WORDS)}"\n\tat café/{number}'
    day, hour = chance.randrange(1, 29), chance.randrange(24)
    return {
        "timestamp": f"2026-11-{day:02}T{hour:02}:{number % 60:02}:{chance.randrange(60):02}.{number % 1000:03}Z",
        "level": chance.choice(LEVELS),
        "host": f"web-{chance.randrange(40):02}.example.org",
        "service": chance.choice(["api", "search", "billing", "mail"]),
        "message": message,
        "status": chance.choice([200, 200, 204, 301, 404, 500]),
        "duration_ms": round(chance.random() * 250, 3),
        "request": {
            "method": chance.choice(["GET", "GET", "POST", "PUT"]),
            "path": f"/v1/items/{chance.randrange(100000)}",
            "bytes": chance.randrange(1 << 20),
            "secure": chance.random() < 0.9,
        },
        "tags": chance.sample(["eu", "us", "canary", "batch", "beta"], k=chance.randrange(4)),
        "user": None if chance.random() < 0.3 else chance.randrange(10000),
    }


def spelled(value):
    """A value as JSON without blanks, in UTF-8."""
    return json.dumps(value, separators=(",", ":"), ensure_ascii=False).encode()


def events_file(size):
    """The path of a file of log events, one a line, of so many bytes and a rest."""
    folder = TOP / "bench" / "out"
    folder.mkdir(parents=True, exist_ok=True)
    path = folder / f"events-{size}.json"
    if path.exists() and path.stat().st_size >= size:
        return path
    chance = random.Random(7)
    with path.open("wb") as out:
        written = number = 0
        while written < size:
            written += out.write(spelled(event(number, chance)) + b"\n")
            number += 1
    return path


def text_file(lines):
    """The path of a file of one event, which has the events of that file in a list."""
    path = lines.with_name(f"text-{lines.name}")
    if not path.exists():
        events = b",".join(lines.read_bytes().splitlines())
        path.write_bytes(b'{"events":[' + events + b"]}")
    return path


def measure(words, path):
    """The wall seconds and the processor seconds that one run took, and the KB of memory that it had at most.

    The last two are what `time` says: a child of this process would be given the memory of Python itself.
    """
    with path.open("rb") as given, tempfile.NamedTemporaryFile("r") as said:
        begun = time.monotonic()
        timed = ["/usr/bin/time", "-f", "%U %S %M", "-o", said.name, *words]
        ran = subprocess.Popen(timed, stdin=given, stdout=subprocess.PIPE)
        while os.read(ran.stdout.fileno(), 1 << 20):
            pass
        status = ran.wait()
        took = time.monotonic() - begun
        user, system, most = said.read().split()[-3:]
    if status != 0:
        sys.exit(f"{words[0]} ended with status {status}")
    return took, float(user) + float(system), int(most)


def build():
    """Builds the measured program, by running it once on nothing."""
    subprocess.run(["rt", "run", "--", "lines"], cwd=CRATE, stdin=subprocess.DEVNULL, stdout=subprocess.DEVNULL, check=True)


def load():
    """How many tasks ran or waited on this machine in the last minute."""
    return f"load average {os.getloadavg()[0]:.1f} on {os.cpu_count()} processors"


def main():
    size = int(sys.argv[1]) if len(sys.argv) > 1 else SIZE
    build()
    path = events_file(size)
    text = text_file(path)
    print(f"{path.stat().st_size} bytes, the best of {ROUNDS} runs; before: {load()}")
    seen = {name: [] for name in PROGRAMS}
    for _ in range(ROUNDS):
        for name, words in PROGRAMS.items():
            seen[name].append(measure(words, path))
    wall, work, most = ({name: best(it[k] for it in runs) for name, runs in seen.items()} for k, best in enumerate([min, min, max]))
    for name in PROGRAMS:
        rate = path.stat().st_size / wall[name] / 1e6
        print(f"{name:15} {wall[name]:8.3f} s, {work[name]:6.2f} s of a processor, {rate:7.0f} MB/s {most[name]:8} KB")
    print(f"lines takes {wall['vx_bench lines'] / wall['wc -l']:.1f} times the time of wc -l")
    cut, read, copy = (wall[f"vx_bench {task}"] for task in ["lines", "read", "copy"])
    for name, took in {"read": read - cut, "write": copy - read, "both": copy}.items():
        beside = ", ".join(f"{wall[other] / took:.1f} times as fast as {other}" for other in ["jq -c .", "python3 json"])
        print(f"{name:5} {took:8.3f} s, {path.stat().st_size / took / 1e6:.0f} MB/s: {beside}")
    took, _, peak = measure([PROGRAM, "text"], text)
    print(f"one text of {text.stat().st_size} bytes: {took:.3f} s, {peak} KB; after: {load()}")


if __name__ == "__main__":
    main()
