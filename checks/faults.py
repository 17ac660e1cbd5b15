#!/usr/bin/env python3
"""Has single reads and writes of the built program fail or take a part, by a library that is loaded before others, and compares what it writes and counts.

It prints a line for each check, and ends with 'N passed, M failed'. The status is 1 where one failed.
"""

import os
import subprocess
import sys
import tempfile
import time
from pathlib import Path

from running import BUILT, PATIENCE, check, counted, go_through, library_of, tally, written

# A library by which a variable says how many bytes each read of standard input, or each write to standard error, takes at the most: numbers
# parted by commas, one for each call, and -1 where it fails. Behind the last of them calls are as they were.
CALLS = b"""
#define _GNU_SOURCE
#include <errno.h>
#include <stdlib.h>
#include <sys/syscall.h>
#include <unistd.h>

struct calls { const char *name, *rest; };

static struct calls reads = {"READS", 0}, writes = {"WRITES", 0};

static int fails(struct calls *calls, size_t *size)
{
    char *end;
    long most;
    if (!calls->rest)
        calls->rest = getenv(calls->name) ? getenv(calls->name) : "";
    if (!*calls->rest)
        return 0;
    most = strtol(calls->rest, &end, 10);
    calls->rest = *end ? end + 1 : end;
    if (most < 0)
        errno = EIO;
    else if (*size > (size_t)most)
        *size = most;
    return most < 0;
}

ssize_t read(int descriptor, void *into, size_t size)
{
    return descriptor == 0 && fails(&reads, &size) ? -1 : syscall(SYS_read, descriptor, into, size);
}

ssize_t write(int descriptor, const void *bytes, size_t size)
{
    return descriptor == 2 && fails(&writes, &size) ? -1 : syscall(SYS_write, descriptor, bytes, size);
}
"""

SOURCE = '[sources.in]\ntype = "stdin"\n'
SINK = '[sinks.out]\ntype = "console"\ntarget = "stderr"\ninputs = ["in"]\nencoding.codec = "text"\n'
ONCE = SINK + "request.retry_attempts = 0\n"


class Calls:
    """Runs between streams whose calls take parts or fail."""

    def __init__(self, folder):
        self.library = library_of(CALLS, folder)
        self.config = Path(folder) / "other.toml"

    def run(self, text, given, reads=(), writes=()):
        """The status, the output, the errors and the seconds of a run with its counts, whose first reads and writes are as the numbers say."""
        self.config.write_text(text)
        lists = {b"READS": reads, b"WRITES": writes}
        variables = {name: b",".join(b"%d" % it for it in numbers) for name, numbers in lists.items()}
        words = [BUILT, "--config", str(self.config), "--stats"]
        begun_at = time.monotonic()
        environment = {**os.environb, b"LD_PRELOAD": self.library, **variables}
        ran = subprocess.run(words, input=given, capture_output=True, timeout=PATIENCE, env=environment)
        return ran.returncode, ran.stdout, ran.stderr, time.monotonic() - begun_at


# Lines with characters of several bytes, one that is no event, an empty one, and one without a line feed; and the event of each other.
STREAM = '{"a":"\\u00e9\\n\\ud83d\\ude00","b":[1,-0.5e2]}\n{"é😀":"→"}\nx\n\n{"z":{}}'.encode()
STREAM_EVENTS = [{"a": "é\n😀", "b": [1, "-0.5e2"]}, {"é😀": "→"}, {"z": {}}]


def cut_streams(calls):
    """The same events come of a stream, wherever a read ends."""
    text = SOURCE + 'decoding.codec = "json"\n' + SINK.replace('"text"', '"json"')
    out = b"".join(written({"source_type": "stdin", **event}) for event in STREAM_EVENTS).replace(b'"-0.5e2"', b"-0.5e2")
    wanted = {b"read": len(STREAM), b"lines": 5, b"overlong": 0, b"undecodable": 1, b"events": 3, b"errored": 0, b"rejected": 0, b"confirmed": len(STREAM)}
    wrong = []
    for reads in [*([k] for k in range(1, len(STREAM))), *([k] * len(STREAM) for k in (1, 2, 3, 5, 7))]:
        status, shown, err, _ = calls.run(text, STREAM, reads=reads)
        seen = {name: counted(shown.splitlines()[0], name) for name in wanted} if status == 0 else {}
        if (status, err, seen) != (0, out, wanted):
            wrong.append((reads[:3], status, shown, err))
    check("a stream, wherever reads end", not wrong, wrong[:3])
    _, shown, _, _ = calls.run(text, STREAM, reads=[1] * len(STREAM))
    check("reads end where they are to", counted(shown, b"batches") == 3, shown)


def lost_sources(calls):
    """An input that fails at once, and behind one line and behind two: the lines before are written, and counted."""
    acknowledged = "acknowledgements = true\n" + SOURCE + ONCE
    for name, text, reads in [("at once", SOURCE + SINK, []), ("behind a line", SOURCE + SINK, [2]), ("behind two lines", SOURCE + SINK, [4]), ("acknowledged, behind a line", acknowledged, [2])]:
        bytes_read = sum(reads)
        lines, batches = bytes_read // 2, len(reads)
        out = b"a\nb\nc\n"[:bytes_read]
        shown = tally("source", "in", read=bytes_read, lines=lines, events=lines, batches=batches, delivered=batches, confirmed=bytes_read)
        shown += tally("sink", "out", taken=lines, attempts=lines, delivered=lines, bytes=bytes_read)
        seen = calls.run(text, b"a\nb\nc\n", reads=[*reads, -1])
        wanted = 69, shown, out + b"vector: source in failed after %d bytes\n" % bytes_read
        check(f"an input that fails {name}", seen[:3] == wanted, seen)


def cut_writes(calls):
    """Writes that take parts, and that fail behind one."""
    source = tally("source", "in", read=3, lines=1, events=1, batches=1, delivered=1, confirmed=3)
    seen = calls.run(SOURCE + ONCE, b"ab\n", writes=[1, 1])
    check("a line that is taken byte by byte", seen[:3] == (0, source + tally("sink", "out", taken=1, attempts=1, delivered=1, bytes=3), b"ab\n"), seen)
    lost = tally("source", "in", read=3, lines=1, events=1, batches=1, errored=1)
    seen = calls.run("acknowledgements = true\n" + SOURCE + ONCE, b"ab\n", writes=[1, -1])
    check("a line of which a byte was taken", seen[:3] == (0, lost + tally("sink", "out", taken=1, attempts=1, errored=1, bytes=1), b"a"), seen)
    lost = tally("source", "in", read=6, lines=3, events=3, batches=1, errored=1, confirmed=6)
    seen = calls.run(SOURCE + ONCE + "batch.max_events = 2\n", b"a\nb\nc\n", writes=[3, -1])
    check("two lines at once, of which a part was taken", seen[:3] == (0, lost + tally("sink", "out", taken=3, attempts=2, delivered=1, errored=2, bytes=5), b"a\nbc\n"), seen)


def failed_batches(calls):
    """Three lines that come one by one, the second of which can't be written: no batch behind it is confirmed, unless none waits."""
    for name, front, confirmed in [("wait", "acknowledgements = true\n", 2), ("don't wait", "", 6)]:
        seen = calls.run(front + SOURCE + ONCE, b"a\nb\nc\n", reads=[2, 2, 2], writes=[2, -1])
        source = tally("source", "in", read=6, lines=3, events=3, batches=3, delivered=2, errored=1, confirmed=confirmed)
        wanted = 0, source + tally("sink", "out", taken=3, attempts=3, delivered=2, errored=1, bytes=4), b"a\nc\n"
        check(f"a failed batch of three that {name}", seen[:3] == wanted, seen)


def attempts(calls):
    """Attempts that are made again until the last that may be: which succeeds, or fails too."""
    text = SOURCE + SINK + "request = { retry_attempts = 4, retry_max_duration_secs = 1 }\n"
    for name, failures, told, ends in [("succeeds", 4, "delivered", {"delivered": 1, "bytes": 2}), ("fails", 5, "errored", {"errored": 1})]:
        status, shown, err, took = calls.run(text, b"a\n", writes=failures * [-1])
        wanted = tally("source", "in", read=2, lines=1, events=1, batches=1, confirmed=2, **{told: 1}) + tally("sink", "out", taken=1, attempts=5, **ends)
        held = (status, shown, err) == (0, wanted, b"a\n"[: ends.get("bytes", 0)]) and took >= 4
        check(f"the last of five attempts {name}", held, (status, shown, err, took))


def go_through_calls():
    """All of that, with one library."""
    with tempfile.TemporaryDirectory() as folder:
        calls = Calls(folder)
        for part in [cut_streams, lost_sources, cut_writes, failed_batches, attempts]:
            part(calls)


if __name__ == "__main__":
    sys.exit(go_through([go_through_calls]))
