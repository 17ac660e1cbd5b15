#!/usr/bin/env python3
"""Measures what a `dedupe` of 5,000 keys and a `reduce` of 1,000 groups cost, one behind the other, beside `mawk` that does the same.

Each line is a JSON object of 39 bytes with its line feed: a key of 10,000, a group of 1,000, a step from 0 to 9 and a number. The
dedupe leaves out what repeats one of the latest 5,000 keys, about every second line. The reduce adds up the numbers of a group, and
puts it out behind each event that has the step 9, and at the end of the input. So there are 1,000 groups at most at a time,
however many lines come.

Both programs read the same file and write to a pipe that is read to its end. First each runs once, and both have to write the same
bytes. Then they run in turn, five times each, with a tenth of the lines and with all; the least wall time, the least processor time and
the greatest memory count.

A first argument is another number of lines, which is 1,000,000 without it. It needs Python 3.11, `mawk`, GNU `time` and the program as
`./vector` builds it.
"""

import random
import subprocess
import sys

from events import ROUNDS, load, measure
from program import TOP, VECTOR

FOLDER = TOP / "bench/out"
KEYS, GROUPS, STEPS = 10_000, 1_000, 10
LINE = '{"g":"g%03d","i":%d,"k":"k%04d","n":%03d}\n'
LENGTH = len(LINE % (0, 0, 0, 100))
CONFIGURATION = """
[sources.in]
type = "stdin"
decoding.codec = "json"

[transforms.unlike]
type = "dedupe"
inputs = ["in"]
fields.match = ["k"]
cache.num_events = 5000

[transforms.sums]
type = "reduce"
inputs = ["unlike"]
group_by = ["g"]
expire_after_ms = 3600000
ends_when = ".i == 9"
merge_strategies.i = "retain"

[sinks.out]
type = "console"
inputs = ["sums"]
encoding.codec = "json"
batch.max_events = 1000
"""
# The keys stand in a ring, the latest before its head, and the groups in the order of their first events.
AWK = r"""
function leave(k) { after[before[k]] = after[k]; before[after[k]] = before[k] }
function enter(k) { before[k] = before[""]; after[k] = ""; after[before[""]] = k; before[""] = k }
function put(g) {
    printf "{\"g\":\"%s\",\"i\":%d,\"k\":\"%s\",\"n\":%d,\"source_type\":\"stdin\"}\n", g, step[g], key[g], sum[g]
    delete begun[at[g]]; delete at[g]; delete step[g]; delete key[g]; delete sum[g]
}
BEGIN { FS = "[\":,{}]+"; before[""] = ""; after[""] = "" }
{
    g = $3; k = $7
    if (k in after) { leave(k); enter(k); next }
    enter(k)
    if (++kept > 5000) { old = after[""]; leave(old); delete after[old]; delete before[old]; kept-- }
    if (!(g in at)) { at[g] = ++groups; begun[groups] = g; key[g] = k }
    step[g] = $5; sum[g] += $9
    if ($5 == 9) put(g)
}
END { for (j = 1; j <= groups; j++) if (j in begun) put(begun[j]) }
"""


def lines_file(count):
    """The path of a file of so many lines."""
    FOLDER.mkdir(parents=True, exist_ok=True)
    path = FOLDER / f"merging-{count}.json"
    if path.exists() and path.stat().st_size == count * LENGTH:
        return path
    chance = random.Random(7)
    with path.open("w") as out:
        for number in range(count):
            group, step = number % GROUPS, number // GROUPS % STEPS
            out.write(LINE % (group, step, chance.randrange(KEYS), chance.randrange(100, 1000)))
    return path


def written(words, path):
    """All that a program writes of that file."""
    with path.open("rb") as given:
        return subprocess.run(words, stdin=given, stdout=subprocess.PIPE, check=True).stdout


def main():
    most = int(sys.argv[1]) if len(sys.argv) > 1 else 1_000_000
    FOLDER.mkdir(parents=True, exist_ok=True)
    at = FOLDER / "merging.toml"
    at.write_text(CONFIGURATION)
    programs = {"vector": [VECTOR, "--config", str(at)], "mawk": ["mawk", AWK]}
    print(f"lines of {LENGTH} bytes, the best of {ROUNDS} runs; before: {load()}")
    least = {}
    for count in (most // 10, most):
        path = lines_file(count)
        ours, theirs = (written(words, path) for words in programs.values())
        if ours != theirs:
            sys.exit(f"of {count} lines vector writes {len(ours)} bytes, and mawk {len(theirs)}, and not the same")
        seen = {name: [] for name in programs}
        for _ in range(ROUNDS):
            for name, words in programs.items():
                seen[name].append(measure(words, path))
        print(f"{count} lines, that become {len(ours.splitlines())}")
        for name, runs in seen.items():
            wall, work, memory = (best(it[k] for it in runs) for k, best in enumerate([min, min, max]))
            print(f"{name:8} {wall:7.3f} s {work:7.2f} s of a processor {work / count * 1e6:6.2f} us a line {memory:8} KB")
            least[name, count] = work, memory
    grown = least["vector", most][1] - least["vector", most // 10][1]
    times = least["vector", most][0] / least["mawk", most][0]
    print(f"vector takes {times:.1f} times the processor's time of mawk, and {grown} KB more for ten times the lines; after: {load()}")


if __name__ == "__main__":
    main()
