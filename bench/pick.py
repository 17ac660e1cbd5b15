#!/usr/bin/env python3
"""Measures how long the program takes to pick log events by conditions, beside `jq -c 'select(..)'`.

The program reads JSON, passes the events that a filter with two comparisons accepts, and puts these out by a route with three
conditions, whose ports one console reads that writes JSON. `jq` selects the same events by the same conditions. Both read the
same file of 200,000 log events, one a line of 300 bytes with its line feed, and write to a pipe that is read to its end.
First each runs once, and both have to write the same lines, in whatever order. Then they run in turn, five times each; the
least wall time and the least processor time count.

A first argument is another number of lines. It needs `rt`, Python 3.11, `jq` and GNU `time`.
"""

import subprocess
import sys

from copy_json import events_file, need_tools
from events import ROUNDS, load, measure
from program import TOP, VECTOR

CONFIGURATION = r"""
[sources.in]
type = "stdin"
decoding.codec = "json"

[transforms.worth]
type = "filter"
inputs = ["in"]
condition = '.level != "debug" && .status >= 204'

[transforms.by_kind]
type = "route"
inputs = ["worth"]
reroute_unmatched = false
route.failed = '.status >= 500'
route.posted = '.status < 500 && .request.method == "POST"'
route.unknown = '.status < 500 && .request.method != "POST" && .user == null'

[sinks.out]
type = "console"
inputs = ["by_kind.*"]
encoding.codec = "json"
"""
WORTH = '.level != "debug" and .status >= 204'
FAILED = ".status >= 500"
POSTED = '.status < 500 and .request.method == "POST"'
UNKNOWN = '.status < 500 and .request.method != "POST" and .user == null'
SELECT = f"select(({WORTH}) and (({FAILED}) or ({POSTED}) or ({UNKNOWN})))"


def lines_of(words, path):
    """The lines that a program writes, sorted."""
    with path.open("rb") as given:
        ran = subprocess.run(words, stdin=given, stdout=subprocess.PIPE, check=True)
    return sorted(ran.stdout.splitlines())


def main():
    count = int(sys.argv[1]) if len(sys.argv) > 1 else 200_000
    need_tools()
    path = events_file(count)
    at = path.parent / "select.toml"
    at.write_text(CONFIGURATION)
    # (the script builds the program, which is then measured by itself)
    subprocess.run([str(TOP / "vector"), "validate", str(at)], stdout=subprocess.DEVNULL, check=True)
    programs = {"vector": [VECTOR, "--config", str(at)], "jq -c select": ["jq", "-c", SELECT]}
    written, wanted = (lines_of(words, path) for words in programs.values())
    if written != wanted:
        sys.exit(f"vector writes {len(written)} lines, and jq {len(wanted)}, and not the same")
    print(f"{count} lines of 300 bytes, of which {len(written)} are picked, the best of {ROUNDS} runs; before: {load()}")
    seen = {name: [] for name in programs}
    for _ in range(ROUNDS):
        for name, words in programs.items():
            seen[name].append(measure(words, path))
    wall, work, most = ({name: best(it[k] for it in runs) for name, runs in seen.items()} for k, best in enumerate([min, min, max]))
    for name in programs:
        print(f"{name:13} {wall[name]:7.3f} s {work[name]:7.2f} s of a processor {most[name]:8} KB")
    by_wall, by_work = (took["jq -c select"] / took["vector"] for took in [wall, work])
    print(f"vector is {by_wall:.1f} times as fast as jq -c select, {by_work:.1f} times by the processor's time; after: {load()}")


if __name__ == "__main__":
    main()
