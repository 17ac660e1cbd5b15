#!/usr/bin/env python3
"""Measures how long the whole program takes to read and write log events as JSON, beside `jq -c .`, and where its time goes.

The program runs a source of type `stdin` with the codec `json` and a sink of type `console` with the codec `json`, so its
configuration has to take `json` in both places: where it is refused, the script says so. All programs read the same file of
200,000 log events, one a line of 300 bytes with its line feed, and write to a pipe that is read to its end. First each of
those that copy runs once, and has to write the file again, byte for byte. Then they run in turn, five times each; the least
wall time, the least processor time and the greatest memory count.

The tasks `lines`, `read` and `copy` of crates/vx_bench do one thing more each with the same file. So by the processor's time
`lines` is the framing, with the reading of input, `read` less `lines` the reading of JSON, `copy` less `read` the writing of
JSON, with that of output, and the whole program less `copy` the engine: a table tells these parts, to about
a hundredth of a second.

A first argument is another number of lines. A second one, `text`, takes the codecs `bytes` and `text` in the place of `json`,
so that the program writes the value of `message`, which is the line: it then reads no JSON, and the parts are the framing and
the rest. It needs `rt`, Python 3.11, `jq` and GNU `time`.
"""

import hashlib
import random
import shutil
import subprocess
import sys

from events import LEVELS, PROGRAM, ROUNDS, WORDS, build, load, measure, spelled
from program import CODECS, TOP, VECTOR, configuration_file

FOLDER = TOP / "bench/out"
LINES = 200_000
LENGTH = 300
TASKS = {f"vx_bench {task}": [PROGRAM, task] for task in ["lines", "read", "copy"]}


def event(number, chance):
    """One log event, as services write them, with its names in the order of their bytes.

    It has the field that the program adds, with the value that it adds, so that it's written again as it was read.
    """
    user = {"id": chance.randrange(10000), "role": chance.choice(["admin", "guest", "owner"])}
    day, hour = chance.randrange(1, 29), chance.randrange(24)
    return {
        "duration_ms": round(chance.randrange(250) + chance.randrange(1, 1000) / 1000, 3),
        "host": f"web-{chance.randrange(40):02}.example.org",
        "level": chance.choice(LEVELS),
        "message": "",
        "request": {
            "bytes": chance.randrange(1 << 20),
            "method": chance.choice(["GET", "GET", "POST", "PUT"]),
            "path": f"/v1/items/{chance.randrange(100000)}",
            "secure": chance.random() < 0.9,
        },
        "source_type": "stdin",
        "status": chance.choice([200, 200, 204, 301, 404, 500]),
        "timestamp": f"2026-11-{day:02}T{hour:02}:{number % 60:02}:{chance.randrange(60):02}.{number % 1000:03}Z",
        "user": None if chance.random() < 0.3 else user,
    }


def line(number, chance):
    """The line of one event, whose message fills it up to its length. One in five has escapes and a letter beyond ASCII."""
    fields = event(number, chance)
    if chance.random() < 0.2:
        fields["message"] = 'at "café"\n\t'
    room = LENGTH - 1 - len(spelled(fields))
    fields["message"] += " ".join(chance.choices(WORDS, k=room))[:room]
    return spelled(fields) + b"\n"


def events_file(count):
    """The path of a file of so many log events, one a line."""
    FOLDER.mkdir(parents=True, exist_ok=True)
    path = FOLDER / f"json-{count}.json"
    if not path.exists() or path.stat().st_size != LENGTH * count:
        chance = random.Random(7)
        with path.open("wb") as out:
            out.writelines(line(number, chance) for number in range(count))
    return path


def taken_configuration(name):
    """The path of the configuration with these codecs, which the program takes."""
    path = configuration_file(FOLDER, name)
    # (the script builds the program, which is then measured by itself)
    judged = subprocess.run([str(TOP / "vector"), "validate", str(path)], capture_output=True, text=True)
    if judged.returncode != 0:
        sys.exit(f"the program doesn't take the codecs {' and '.join(CODECS[name])}:\n{judged.stderr}")
    return path


def need_tools():
    """Ends the script where a program is missing that it runs."""
    missing = [name for name in ["rt", "jq", "time"] if shutil.which(name) is None]
    if missing:
        sys.exit(f"not installed: {', '.join(missing)} (on Debian: apt-get install jq time)")


def sum_of(file):
    """The checksum of what a file has."""
    return hashlib.file_digest(file, "sha256").hexdigest()


def check_copies(programs, path):
    """Ends the script where a program doesn't write the file again."""
    with path.open("rb") as given:
        want = sum_of(given)
    for name, words in programs.items():
        with path.open("rb") as given:
            ran = subprocess.Popen(words, stdin=given, stdout=subprocess.PIPE)
            written = sum_of(ran.stdout)
        if ran.wait() != 0:
            sys.exit(f"{name} ended with status {ran.returncode}")
        if written != want:
            sys.exit(f"{name} writes other bytes than it reads")


def parts_of(work, codec):
    """The seconds of a processor that each part of the program took, by differences of runs."""
    cut, read, copy = (work[name] for name in TASKS)
    if codec == "text":
        return {"framing": cut, "the rest": work["vector"] - cut}
    return {"framing": cut, "reading": read - cut, "writing": copy - read, "engine": work["vector"] - copy}


def tell(seen, path, count, codec):
    """Prints what was measured, as tables."""
    wall, work, most = ({name: best(it[k] for it in runs) for name, runs in seen.items()} for k, best in enumerate([min, min, max]))
    print(f"{'program':15} {'wall':>9} {'processor':>11} {'rate':>11} {'memory':>11} {'a line':>9}")
    for name in seen:
        rate = path.stat().st_size / wall[name] / 1e6
        memory = f"{most[name]:8} KB {1024 * most[name] / count:7.0f} B"
        print(f"{name:15} {wall[name]:7.3f} s {work[name]:9.2f} s {rate:6.0f} MB/s {memory}")
    by_wall, by_work = (took["vector"] / took["jq -c ."] for took in [wall, work])
    print(f"vector takes {by_wall:.2f} times the time of jq -c ., and {by_work:.2f} times its time of a processor")
    print(f"\n{'part':18} {'processor':>11} {'a line':>10} {'share':>7}")
    for part, took in {**parts_of(work, codec), "whole": work["vector"]}.items():
        print(f"{part:18} {took:9.2f} s {1e6 * took / count:7.2f} us {100 * took / work['vector']:5.0f} %")


def main():
    count = int(sys.argv[1]) if len(sys.argv) > 1 else LINES
    codec = sys.argv[2] if len(sys.argv) > 2 else "json"
    if codec not in CODECS:
        sys.exit("the second argument is json or text")
    need_tools()
    path = events_file(count)
    copying = {"vector": [VECTOR, "--config", str(taken_configuration(codec))], "jq -c .": ["jq", "-c", "."]}
    programs = copying | TASKS
    build()
    check_copies(copying | {"vx_bench copy": TASKS["vx_bench copy"]}, path)
    print(f"{count} lines of {LENGTH} bytes, the codec {codec}, the best of {ROUNDS} runs; before: {load()}")
    seen = {name: [] for name in programs}
    for _ in range(ROUNDS):
        for name, words in programs.items():
            seen[name].append(measure(words, path))
    tell(seen, path, count, codec)
    print(f"\nafter: {load()}")


if __name__ == "__main__":
    main()
