#!/usr/bin/env python3
"""Runs the built program on real pipes, and compares what it writes with what Python works out by itself.

It prints a line for each check, and ends with 'N passed, M failed'. The status is 1 where one failed.
"""

import json
import os
import random
import select
import signal
import subprocess
import sys
import tempfile
import time
from pathlib import Path

from running import BUILT, FIRST, PATIENCE, PROGRAM, TOP, check, counted, ended, go_through, library_of, outcome_of, run, tally, written

TWO = str(TOP / "examples" / "two_consoles.toml")
JSON = str(TOP / "examples" / "json_lines.toml")
ACKNOWLEDGED = str(TOP / "examples" / "acknowledged.toml")
LEVELS = str(TOP / "examples" / "levels.toml")
LONGEST = 102_400

# A library whose program gets a signal every millisecond, and handles it so that the call which this cuts short fails.
ALARMS = b"""
#include <signal.h>
#include <sys/time.h>

static void ring(int number) { (void)number; }

__attribute__((constructor)) static void start(void)
{
    struct sigaction action = {.sa_handler = ring};
    struct itimerval often = {{0, 1000}, {0, 1000}};
    sigaction(SIGALRM, &action, 0);
    setitimer(ITIMER_REAL, &often, 0);
}
"""

# A library whose program's writes take seven bytes at the most; the first that is cut makes a file at a path.
PARTS = b"""
#define _GNU_SOURCE
#include <fcntl.h>
#include <stdlib.h>
#include <sys/syscall.h>
#include <unistd.h>

static void tell(void)
{
    const char *path = getenv("SHORT_WRITE");
    int made = path ? open(path, O_WRONLY | O_CREAT, 0600) : -1;
    if (made >= 0)
        close(made);
}

ssize_t write(int descriptor, const void *bytes, size_t size)
{
    static int told = 0;
    if (size > 7) {
        if (!told)
            tell();
        told = 1;
        size = 7;
    }
    return syscall(SYS_write, descriptor, bytes, size);
}
"""

# A library whose program finds no memory the nth time it asks, n being said by a variable; then it makes a file at a path.
WANTS = b"""
#define _GNU_SOURCE
#include <dlfcn.h>
#include <errno.h>
#include <fcntl.h>
#include <stdlib.h>

extern void *__libc_malloc(size_t size);
extern void *__libc_calloc(size_t count, size_t size);
extern void *__libc_realloc(void *old, size_t size);
extern void *__libc_memalign(size_t alignment, size_t size);

static long left = -1;

__attribute__((constructor)) static void start(void)
{
    const char *wanted = getenv("FAILING_ALLOCATION");
    left = wanted ? atol(wanted) : -1;
}

static int fails(void)
{
    if (left < 0 || --left != 0)
        return 0;
    left = -1;
    open(getenv("FAILED_ALLOCATION"), O_CREAT | O_WRONLY, 0600);
    errno = ENOMEM;
    return 1;
}

void *malloc(size_t size) { return fails() ? 0 : __libc_malloc(size); }
void *calloc(size_t count, size_t size) { return fails() ? 0 : __libc_calloc(count, size); }
void *realloc(void *old, size_t size) { return fails() ? 0 : __libc_realloc(old, size); }
void *aligned_alloc(size_t alignment, size_t size) { return fails() ? 0 : __libc_memalign(alignment, size); }
int posix_memalign(void **made, size_t alignment, size_t size)
{
    return (*made = fails() ? 0 : __libc_memalign(alignment, size)) ? 0 : ENOMEM;
}
"""


def without_retries(folder, path):
    """The path of a configuration like another, whose consoles make no failed attempt again."""
    at = Path(folder) / "without_retries.toml"
    at.write_text(Path(path).read_text().replace('type = "console"\n', 'type = "console"\nrequest.retry_attempts = 0\n'))
    return str(at)


def lines_of(given):
    """The lines that have to come out: each ill-formed part replaced, and lines that are too long left out."""
    lines = given.split(b"\n")
    if lines[-1] == b"":
        lines.pop()
    kept = [line for line in lines if len(line) <= LONGEST]
    return b"".join(line.decode("utf-8", "replace").encode() + b"\n" for line in kept)


def copies(name, given, wanted=None):
    """Checks what one input comes out as."""
    wanted = lines_of(given) if wanted is None else wanted
    status, out, err = run(given)
    held = (status, out, err) == (0, wanted, b"")
    check(name, held, (status, len(out), len(wanted), err[:200]))


def inputs():
    """Whole inputs, to their end."""
    copies("two lines", b"a\nb\n", b"a\nb\n")
    copies("no input", b"", b"")
    copies("no line feed at the end", b"a\nb", b"a\nb\n")
    copies("only a line feed", b"\n", b"\n")
    copies("empty lines", b"\n\na\n\n\nb\n\n", b"\n\na\n\n\nb\n\n")
    copies("carriage returns stay", b"a\r\nb\r\n", b"a\r\nb\r\n")
    longest = b"x" * LONGEST
    copies("a line as long as it may be", b"a\n" + longest + b"\nb\n", b"a\n" + longest + b"\nb\n")
    copies("a line that is too long", b"a\n" + longest + b"y\nb\n", b"a\nb\n")
    copies("a last line that is too long", b"a\n" + longest + b"y", b"a\n")
    copies("far too long a line", b"z" * 3_000_000 + b"\nb\n", b"b\n")


def bytes_of_all_kinds():
    """Ill-formed text: what has to be replaced, and what only looks so."""
    copies("a lone continuation", b"a\x80b\n", "a\ufffdb\n".encode())
    copies("a sequence cut short", b"\xe2\x82\n", "\ufffd\n".encode())
    copies("a surrogate", b"\xed\xa0\x80\n", "\ufffd\ufffd\ufffd\n".encode())
    copies("beyond the last character", b"\xf4\x90\x80\x80\n", "\ufffd\ufffd\ufffd\ufffd\n".encode())
    copies("well-formed text", "ä€😀\u0000\n".encode(), "ä€😀\u0000\n".encode())
    chance = random.Random(20_240_607)
    copies("every byte", bytes(range(256)) * 8)
    copies("random bytes", chance.randbytes(400_000))
    begins = [b"\xc3", b"\xe2", b"\xe2\x82", b"\xf0\x9f", b"\xf0\x9f\x98", b"\xed", b"\xf4", b"\xc0", b"a", b"\x80", b"\n"]
    copies("beginnings of sequences", b"".join(chance.choice(begins) for _ in range(100_000)))


def many_lines():
    """A million lines of 100 bytes, which come out exactly."""
    line = b"0123456789" * 9 + b"%09d\n"
    given = b"".join(line % k for k in range(1_000_000))
    copies("a million lines of 100 bytes", given, given)


def comes_at_once(name, words):
    """Checks that each line comes out before the next goes in."""
    with subprocess.Popen([PROGRAM, *words], stdin=subprocess.PIPE, stdout=subprocess.PIPE) as ran:
        came = []
        for line in [b"one\n", b"two\n", b"three\n"]:
            ran.stdin.write(line)
            ran.stdin.flush()
            ready, _, _ = select.select([ran.stdout], [], [], PATIENCE)
            came.append(os.read(ran.stdout.fileno(), 4096) if ready else b"nothing")
            if not ready:
                break
        ran.stdin.close()
        rest = ran.stdout.read()
        status = ran.wait(PATIENCE)
    check(name, (came, rest, status) == ([b"one\n", b"two\n", b"three\n"], b"", 0), (came, rest, status))


def lines_as_they_come():
    """A line isn't held back until there are more, by no transform either."""
    comes_at_once("a line comes out before the next goes in", ["--config", FIRST])
    with tempfile.TemporaryDirectory() as folder:
        at = Path(folder) / "layers.toml"
        at.write_text(layers(4))
        comes_at_once("a line comes through four transforms before the next goes in", ["--config", str(at)])
        at.write_text(ONE_STAGE.format("", 1, "block"))
        comes_at_once("a line comes through a buffer of one before the next goes in", ["--config", str(at)])


def a_reader_that_leaves():
    """The run ends by itself, with a status and by no signal, where nobody reads its output any more and no attempt is made again."""
    with tempfile.TemporaryDirectory() as folder:
        words = [PROGRAM, "--config", without_retries(folder, FIRST)]
        leaves_early(subprocess.Popen(words, stdin=subprocess.PIPE, stdout=subprocess.PIPE, stderr=subprocess.PIPE))


def leaves_early(ran):
    """Checks a run of whose output the first line alone is read."""
    head = subprocess.Popen(["head", "-n", "1"], stdin=ran.stdout, stdout=subprocess.PIPE)
    ran.stdout.close()
    try:
        ran.stdin.write(b"0123456789\n" * 200_000)
        ran.stdin.close()
    except BrokenPipeError:
        pass
    first = head.communicate(timeout=PATIENCE)[0]
    try:
        status = ran.wait(PATIENCE)
    except subprocess.TimeoutExpired:
        ran.kill()
        status = "it did not end"
    err = ran.stderr.read()
    check("a reader that leaves", (first, status, err) == (b"0123456789\n", 0, b""), (first, status, err[:200]))


def ends_that_fail():
    """A device without room, an input that can't be read, and a run that was killed."""
    with open("/dev/full", "wb") as full, tempfile.TemporaryDirectory() as folder:
        words = [PROGRAM, "--config", without_retries(folder, FIRST)]
        ran = subprocess.run(words, input=b"a\n" * 1000, stdout=full, stderr=subprocess.PIPE, timeout=PATIENCE)
    check("a full device", (ran.returncode, ran.stderr) == (0, b""), (ran.returncode, ran.stderr[:200]))
    folder = os.open("/", os.O_RDONLY)
    ran = subprocess.run([PROGRAM, "--config", FIRST], stdin=folder, capture_output=True, timeout=PATIENCE)
    os.close(folder)
    seen = (ran.returncode, ran.stdout, ran.stderr)
    check("an input that can't be read", seen == (69, b"", b"vector: source in failed after 0 bytes\n"), seen)
    with tempfile.TemporaryDirectory() as folder:
        ran = subprocess.Popen([PROGRAM, "--config", FIRST], stdin=subprocess.PIPE, stdout=subprocess.PIPE, cwd=folder)
        ran.stdin.write(b"a\n")
        ran.stdin.flush()
        first = os.read(ran.stdout.fileno(), 4096)
        ran.kill()
        ran.wait(PATIENCE)
        ran.stdin.close()
        ran.stdout.close()
        left = os.listdir(folder)
        seen = (first, left, run(b"b\n", cwd=folder))
        check("a run after one that was killed", seen == (b"a\n", [], (0, b"b\n", b"")), seen)


def untold():
    """A fault keeps its status where it can't be printed: the input can't be read, the file isn't there, the words are no command, the configuration is refused."""
    with tempfile.TemporaryDirectory() as folder, open("/dev/full", "wb") as full:
        (Path(folder) / "empty.toml").write_bytes(b"")
        for name, words, status in [("a lost input", ["--config", FIRST], 69), ("a missing file", ["--config", "none.toml"], 74), ("other words", [], 64), ("a refusal", ["validate", "empty.toml"], 78)]:
            given = os.open(folder, os.O_RDONLY)
            ran = subprocess.run([PROGRAM, *words], stdin=given, stdout=subprocess.PIPE, stderr=full, cwd=folder, timeout=PATIENCE)
            os.close(given)
            check(f"{name} that can't be told", (ran.returncode, ran.stdout) == (status, b""), (ran.returncode, ran.stdout))


def begun(given, words, blocking, program=None, variables=None):
    """A run that has just begun on that input; its output and errors are pipes that block, or don't."""
    environment = {**os.environb, **(variables or {})}
    with tempfile.TemporaryFile() as source:
        source.write(given)
        source.seek(0)
        return subprocess.Popen(
            [program or PROGRAM, *words],
            stdin=source,
            stdout=subprocess.PIPE,
            stderr=subprocess.PIPE,
            env=environment,
            preexec_fn=lambda: [os.set_blocking(end, blocking) for end in (1, 2)],
        )


def read_late(ran, seconds):
    """The status, the output and the errors of a run of which nothing is read for some seconds."""
    time.sleep(seconds)
    return ended(ran)


def comes_late(name, given, words, seconds, wanted):
    """Checks what a run writes to pipes that don't block, and that nobody reads for some seconds."""
    seen = read_late(begun(given, words, False), seconds)
    check(name, seen == wanted, (seen[0], len(seen[1]), len(seen[2])))


def late_readers():
    """Nothing is lost, and nothing comes twice, where a pipe takes no more for now."""
    lines = b"".join(b"%d\n" % i for i in range(200_000))
    comes_late("an output that would block", lines, ["--config", FIRST], 6, (0, lines, b""))
    comes_late("two outputs that would block", lines, ["--config", TWO], 1, (0, lines, lines))
    comes_late("acknowledged, two outputs that would block", lines, ["--config", ACKNOWLEDGED], 1, (0, lines, lines))
    with tempfile.TemporaryDirectory() as folder:
        ran = begun(lines, ["--config", without_retries(folder, FIRST)], False)
        time.sleep(1)
        ran.stdout.close()
        seen = read_late(ran, 0)
    check("a reader that leaves an output that would block", seen == (0, b"", b""), (seen[0], seen[2][:200]))


def catches(ran, number):
    """Whether a run has a handler for that signal."""
    told = Path(f"/proc/{ran.pid}/status").read_text().splitlines()
    caught = next(int(line.split()[1], 16) for line in told if line.startswith("SigCgt:"))
    return caught >> (number - 1) & 1 == 1


def comes_through_signals(name, given, words, wanted, blocking, library):
    """Checks what a run writes, to pipes that nobody reads for two seconds, while signals cut its calls short."""
    ran = begun(given, words, blocking, BUILT, {b"LD_PRELOAD": library})
    time.sleep(2)
    rings = catches(ran, signal.SIGALRM)
    seen = read_late(ran, 0)
    check(name, rings and seen == wanted, (rings, seen[0], len(seen[1]), len(seen[2])))


def signals():
    """Nothing is lost, and nothing comes twice, where signals interrupt writes and waits."""
    lines = b"".join(b"%d\n" % i for i in range(200_000))
    with tempfile.TemporaryDirectory() as folder:
        library = library_of(ALARMS, folder)
        comes_through_signals("writes that signals interrupt", lines, ["--config", FIRST], (0, lines, b""), True, library)
        comes_through_signals("waits that signals interrupt", lines, ["--config", TWO], (0, lines, lines), False, library)


def comes_by_parts(name, words, wanted, library, mark):
    """Checks what a run writes whose writes each take a few bytes alone."""
    variables = {b"LD_PRELOAD": library, b"SHORT_WRITE": os.fsencode(mark)}
    seen = read_late(begun(wanted[0], words, True, BUILT, variables), 0)
    cut = mark.exists()
    check(name, cut and seen == (0, *wanted), (cut, seen[0], len(seen[1]), len(seen[2])))
    mark.unlink(missing_ok=True)


def short_writes():
    """Nothing is lost, and nothing comes twice, where a write takes a part of what it is handed."""
    lines = b"".join(b"%d and more\n" % i for i in range(2_000))
    with tempfile.TemporaryDirectory() as folder:
        library = library_of(PARTS, folder)
        mark = Path(folder) / "cut"
        comes_by_parts("writes that take seven bytes", ["--config", FIRST], (lines, b""), library, mark)
        comes_by_parts("writes that take seven bytes, to two outputs", ["--config", TWO], (lines, lines), library, mark)


def first_of(out, wanted):
    """Whether what came out is the first lines of what had to, each of them whole."""
    return wanted.startswith(out) and (out == b"" or out.endswith(b"\n"))


def wants_memory(name, given, words, wanted, library, folder):
    """Checks what runs write, and how they end, in each of which one more request for memory is met before one fails."""
    mark, wrong, asked = Path(folder) / "failed", [], 0
    while True:
        asked += 1
        variables = {b"LD_PRELOAD": library, b"FAILING_ALLOCATION": b"%d" % asked, b"FAILED_ALLOCATION": os.fsencode(mark)}
        status, out, err = read_late(begun(given, words, True, BUILT, variables), 0)
        own = (status, out, err) == (0, *wanted)
        short = status == 71 and first_of(out, wanted[0]) and first_of(err, wanted[1])
        if not own and not short:
            wrong.append((asked, status, out[-80:], err[-80:]))
        if not mark.exists():
            break
        mark.unlink()
    check(f"{name}, of {asked - 1} requests each failing once", own and asked > 20 and not wrong, (asked, wrong[:3]))


def wanting_memory():
    """Where no memory is found the run ends with status 71, or as it would have, and writes whole lines alone."""
    lines = b"".join(b"%d\n" % i for i in range(100))
    events = b"".join(b'{"message":"%d","source_type":"stdin"}\n' % i for i in range(100))
    with tempfile.TemporaryDirectory() as folder:
        library = library_of(WANTS, folder)
        wants_memory("lines", lines, ["--config", FIRST], (lines, b""), library, folder)
        wants_memory("events as JSON", events, ["--config", JSON], (events, lines), library, folder)
        wants_memory("acknowledged lines to two outputs", lines, ["--config", ACKNOWLEDGED], (lines, lines), library, folder)


def full_pipe():
    """Both ends of a pipe that takes no more and doesn't block, and how many bytes it holds."""
    output, into = os.pipe()
    os.set_blocking(into, False)
    held = 0
    while select.select([], [into], [], 0)[1]:
        held += os.write(into, b"." * 4096)
    return output, into, held


def prints_late(name, words, stream, wanted):
    """Checks what a run prints to a full pipe that is read a second later, and that it waited."""
    output, into, held = full_pipe()
    ran = subprocess.Popen([PROGRAM, *words], stdin=subprocess.DEVNULL, **{stream: into})
    os.close(into)
    time.sleep(1)
    waits = ran.poll() is None
    with open(output, "rb") as pipe:
        pipe.read(held)
        try:
            status = ran.wait(PATIENCE)
        except subprocess.TimeoutExpired:
            ran.kill()
            status = "it did not end"
        seen = (status, pipe.read())
    check(name, waits and seen == wanted, (waits, *seen))


def late_texts():
    """What the program prints comes whole, once it can be written."""
    prints_late("a judgement that would block", ["validate", TWO], "stdout", (0, b"valid: 1 sources, 0 transforms, 2 sinks\n"))
    prints_late("a fault that would block", ["validate", "/none.toml"], "stderr", (74, b"vector: cannot read /none.toml\n"))


def consoles():
    """Several sinks that read one source, and variables of the environment."""
    seen = run(b"a\nb\n", ["--config", TWO])
    check("two consoles", seen == (0, b"a\nb\n", b"a\nb\n"), seen)
    seen = run(b"a\nb\n", ["--config", TWO], variables={b"SECOND": b"stdout"})
    check("two consoles on one output", (seen[0], sorted(seen[1].split()), seen[2]) == (0, [b"a", b"a", b"b", b"b"], b""), seen)
    seen = run(b"a\n", ["--config", TWO], variables={b"SECOND": b"nowhere"})
    check("a variable with a wrong value", seen == (78, b"", b"vector: configuration refused: bad value at sinks.second.target\n"), seen)
    seen = run(b"a\n", ["--config", TWO], variables={b"OTHER": b"\xff", b"SECOND": b"stderr"})
    check("a variable that is no UTF-8", seen == (0, b"a\n", b"a\n"), seen)
    seen = run(b"a\n", ["--config", TWO], variables={b"SECOND": b"\xff"})
    check("the asked variable is no UTF-8", seen == (0, b"a\n", b"a\n"), seen)
    seen = run(b"a\n", ["--config", TWO], variables={b"LONG": b"x" * 100_000, b"SECOND": b"stdout"})
    check("a long variable", seen == (0, b"a\na\n", b""), seen)
    with tempfile.TemporaryDirectory() as folder:
        sinks = "".join(f'[sinks.s{i}]\ntype = "console"\ninputs = ["in"]\nencoding.codec = "text"\n' for i in range(255))
        (Path(folder) / "many.toml").write_text('[sources.in]\ntype = "stdin"\n' + sinks)
        seen = run(b"a\nb\n", ["--config", "many.toml"], cwd=folder)
        check("255 consoles", (seen[0], sorted(seen[1].split()), seen[2]) == (0, [b"a"] * 255 + [b"b"] * 255, b""), seen[0])


def acknowledged():
    """Batches that wait until they are delivered: what is written is as without that, and the run ends."""
    seen = run(b"a\nb\n", ["--config", ACKNOWLEDGED])
    check("acknowledged", seen == (0, b"a\nb\n", b"a\nb\n"), seen)
    lines = b"".join(b"%d\n" % i for i in range(100_000))
    seen = run(lines, ["--config", ACKNOWLEDGED])
    check("acknowledged, many lines", seen == (0, lines, lines), seen[0])
    with open("/dev/full", "wb") as full, tempfile.TemporaryDirectory() as folder:
        words = [PROGRAM, "--config", without_retries(folder, ACKNOWLEDGED)]
        ran = subprocess.run(words, input=b"a\nb\n", stdout=full, stderr=subprocess.PIPE, timeout=PATIENCE)
    check("acknowledged, the first console full", (ran.returncode, ran.stderr) == (0, b"a\nb\n"), (ran.returncode, ran.stderr))


# What is said of acknowledgements, for the whole and by the sink, and whether the batches of its source wait.
WAITING = [
    ("", "", False),
    ("acknowledgements = true\n", "", True),
    ("acknowledgements = true\n", "acknowledgements = false\n", False),
    ("", "acknowledgements = true\n", True),
    ("acknowledgements.enabled = true\n", "acknowledgements.enabled = false\n", False),
    ("[acknowledgements]\nenabled = false\n", "[sinks.out.acknowledgements]\nenabled = true\n", True),
    ("[acknowledgements]\nenabled = true\n", "[sinks.out.acknowledgements]\n", True),
    ("[acknowledgements]\n", "acknowledgements = { enabled = true }\n", True),
]


def to_full(text):
    """The status and the counts of a run on a line, whose standard error is a device without room."""
    with tempfile.TemporaryDirectory() as folder, open("/dev/full", "wb") as full:
        at = Path(folder) / "other.toml"
        at.write_text(text)
        ran = subprocess.run([PROGRAM, "--config", str(at), "--stats"], input=b"a\n", stdout=subprocess.PIPE, stderr=full, timeout=PATIENCE)
    return ran.returncode, ran.stdout


def waiting():
    """A batch that couldn't be written is confirmed where it needn't wait: what a sink says counts, and what is said globally where it says nothing."""
    front, sink = '[sources.in]\ntype = "stdin"\n', '[sinks.{}]\ntype = "console"\ntarget = "{}"\ninputs = ["in"]\nencoding.codec = "text"\nrequest.retry_attempts = 0\n'
    source = {"read": 2, "lines": 1, "events": 1, "batches": 1, "errored": 1}
    lost = tally("sink", "out", taken=1, attempts=1, errored=1)
    for whole, own, waits in WAITING:
        wanted = 0, tally("source", "in", **source, confirmed=0 if waits else 2) + lost
        seen = to_full(whole + front + sink.format("out", "stderr") + own)
        check(f"whether batches wait by {whole!r} and {own!r}", seen == wanted, seen)
    one = front + sink.format("kept", "stdout") + "acknowledgements = true\n" + sink.format("out", "stderr")
    kept = tally("sink", "kept", taken=1, attempts=1, delivered=1, bytes=2)
    seen = to_full(one)
    check("a batch that waits for a sink that doesn't acknowledge", seen == (0, b"a\n" + tally("source", "in", **source) + kept + lost), seen)


def random_value(chance, depth):
    """A value of JSON without fractions."""
    kind = chance.randrange(7 if depth < 4 else 4)
    if kind == 0:
        return chance.choice([None, True, False])
    if kind == 1:
        return chance.randrange(-(2**63) + 1, 2**63)
    if kind < 4:
        return "".join(chance.choice(["a", "\n", "\t", '"', "\\", "/", "\x01", "\x7f", "ä", "€", "😀", " "]) for _ in range(chance.randrange(12)))
    if kind < 6:
        return {random_name(chance): random_value(chance, depth + 1) for _ in range(chance.randrange(4))}
    return [random_value(chance, depth + 1) for _ in range(chance.randrange(4))]


def random_name(chance):
    """A name of a field."""
    return "".join(chance.choice("abcxyz_ä€") for _ in range(chance.randrange(1, 5)))


def json_lines():
    """Lines that are events as JSON, and lines that are none."""
    given = b'{"message":"started","level":"info","port":8080}\nSegmentation fault\n{"level":"error","message":"disk full","at":{"free":0.5,"disk":"sda1"}}\n'
    out = b'{"level":"info","message":"started","port":8080,"source_type":"stdin"}\n{"at":{"disk":"sda1","free":0.5},"level":"error","message":"disk full","source_type":"stdin"}\n'
    seen = run(given, ["--config", JSON])
    check("JSON in, JSON and text out", seen == (0, out, b"started\ndisk full\n"), seen)
    chance = random.Random(20_261_128)
    events = [{random_name(chance): random_value(chance, 0) for _ in range(chance.randrange(6))} for _ in range(20_000)]
    given = b"".join(json.dumps(event, ensure_ascii=chance.random() < 0.5).encode() + b"\n" for event in events)
    seen = run(given, ["--config", JSON])
    wanted = b"".join(written({"source_type": "stdin", **event}) for event in events)
    check("20,000 events of all kinds", seen[:2] == (0, wanted), (seen[0], len(seen[1]), len(wanted)))
    text = b'[sources.in]\ntype = "stdin"\nmax_length = %d\ndecoding.codec = "%s"\n[sinks.out]\ntype = "console"\ninputs = ["in"]\nencoding.codec = "%s"\n'
    with tempfile.TemporaryDirectory() as folder:
        at = Path(folder) / "other.toml"
        at.write_bytes(text % (3, b"bytes", b"json"))
        seen = run(b"abc\nabcd\nd", ["--config", "other.toml"], cwd=folder)
        check("lines of three bytes", seen == (0, b"".join(written({"message": it, "source_type": "stdin"}) for it in ["abc", "d"]), b""), seen)
        at.write_bytes(text % (16_777_216, b"json", b"json"))
        line = written({"a": "b" * (16_777_216 - len(written({"a": "", "source_type": "stdin"})) + 1), "source_type": "stdin"})
        seen = run(b"{}\n" + line + line.replace(b"b", b"bb", 1), ["--config", "other.toml"], cwd=folder)
        check("a line of 16 MiB, and one of a byte more", seen == (0, written({"source_type": "stdin"}) + line, b""), (seen[0], len(seen[1]), seen[2]))
        at.write_bytes(text % (102_400, b"json", b"text"))
        given = b'{"message":1.50}\n{"message":[1,"a"]}\n{}\n\n[1]\n{"message":"last"}'
        seen = run(given, ["--config", "other.toml"], cwd=folder)
        check("messages of all kinds", seen == (0, b'1.50\n[1,"a"]\n\nlast\n', b""), seen)


def layers(count):
    """A configuration of so many transforms one behind the other: the kth leaves out the line k. Each second one is a route."""
    kinds = ["type = \"filter\"\ncondition = '.message != \"{}\"'", "type = \"route\"\nroute.on = '.message != \"{}\"'"]
    outputs = ["in", *[f"t{k}.on" if k % 2 else f"t{k}" for k in range(count)]]
    parts = [f"[transforms.t{k}]\ninputs = [\"{outputs[k]}\"]\n{kinds[k % 2].format(k)}\n" for k in range(count)]
    return f'[sources.in]\ntype = "stdin"\n{"".join(parts)}[sinks.out]\ntype = "console"\ninputs = ["{outputs[-1]}"]\nencoding.codec = "text"\n'


def filters(count):
    """A configuration of so many filters that read one source, the kth of which passes the line k, and one console that reads them."""
    parts = "".join(f"[transforms.t{k}]\ninputs = [\"in\"]\ntype = \"filter\"\ncondition = '.message == \"{k}\"'\n" for k in range(count))
    return f'[sources.in]\ntype = "stdin"\n{parts}[sinks.out]\ntype = "console"\ninputs = ["t*"]\nencoding.codec = "text"\n'


def transforms():
    """Filters and routes: which lines come out, and where."""
    events = [{"level": "debug", "message": "tick"}, {"level": "info", "message": "started"}, {"level": "error", "message": "disk full"}, {"message": "gone", "status": 502}]
    seen = run(b"".join(written(event) for event in events), ["--config", LEVELS])
    check("errors to one output, the rest to the other", seen == (0, written({**events[1], "source_type": "stdin"}), b"disk full\ngone\n"), seen)
    with tempfile.TemporaryDirectory() as folder:
        at = Path(folder) / "many.toml"
        lines = [b"%d\n" % k for k in range(2_000)]
        at.write_text(layers(20))
        seen = run(b"".join(lines), ["--config", "many.toml"], cwd=folder)
        check("20 transforms in a row", seen == (0, b"".join(lines[20:]), b""), (seen[0], len(seen[1]), seen[2]))
        at.write_text(filters(254))
        seen = run(b"".join(lines), ["--config", "many.toml"], cwd=folder)
        check("254 filters of one source", (seen[0], sorted(seen[1].splitlines()), seen[2]) == (0, sorted(b"%d" % k for k in range(254)), b""), (seen[0], len(seen[1]), seen[2]))


OVERFLOW = """
[[sinks.out.buffer]]
max_events = {}
when_full = "{}"
"""
ONE_STAGE = """\
[sources.in]
type = "stdin"

[sinks.out]
type = "console"
inputs = ["in"]
encoding.codec = "text"
{}
[[sinks.out.buffer]]
max_events = {}
when_full = "{}"
"""
BUFFERED = ONE_STAGE + OVERFLOW


def buffers():
    """Buffers that drop what comes, and one that overflows."""
    lines = [b"%d\n" % k for k in range(1_000)]
    with tempfile.TemporaryDirectory() as folder:
        at = Path(folder) / "other.toml"
        at.write_text(ONE_STAGE.format("target = \"stderr\"", 1, "drop_newest"))
        status, out, err = run(b"".join(lines), ["--config", "other.toml", "--stats"], cwd=folder)
        source, sink = out.splitlines()
        dropped = counted(sink, b"taken") + counted(sink, b"newest")
        held = (status, err[:2], dropped, len(err.splitlines()), counted(source, b"delivered")) == (0, b"0\n", 1_000, counted(sink, b"taken"), counted(source, b"batches"))
        check("a buffer that drops what comes", held, (status, out, err[:200]))
        at.write_text(BUFFERED.format("target = \"stderr\"", 10, "overflow", 20, "drop_newest"))
        status, out, err = run(b"".join(lines), ["--config", "other.toml", "--stats"], cwd=folder)
        sink = out.splitlines()[1]
        held = (status, err.splitlines()[:30], counted(sink, b"taken") + counted(sink, b"newest")) == (0, [b"%d" % k for k in range(30)], 1_000)
        check("a buffer that overflows, and then drops what comes", held, (status, out, err[:200]))
        at.write_text(BUFFERED.format("", 10, "overflow", 20, "block"))
        status, out, err = run(b"".join(lines), ["--config", "other.toml"], cwd=folder)
        check("a buffer that overflows, and then blocks", (status, sorted(out.splitlines(), key=int), err) == (0, [line.strip() for line in lines], b""), (status, out[:200], err))


def blocks_and_drops():
    """Two outputs with room for one line each, the first of which blocks, and the second drops what comes."""
    sinks = [ONE_STAGE.format(f'target = "{target}"', 1, when) for target, when in [("stdout", "block"), ("stderr", "drop_newest")]]
    text = sinks[0] + "\n" + sinks[1].split("\n\n", 1)[1].replace("sinks.out", "sinks.drops")
    lines = b"".join(b"%d\n" % k for k in range(1_000))
    status, out, err = outcome_of(text, lines, "--stats")
    source, drops, blocks = out.splitlines()[-3:]
    taken, newest = counted(drops, b"taken"), counted(drops, b"newest")
    held = status == 0 and out.startswith(lines) and (taken + newest, newest > 0, len(err.splitlines())) == (1_000, True, taken)
    held = held and (counted(blocks, b"delivered"), counted(source, b"errored")) == (1_000, 0)
    check("one output that blocks, and one that drops", held, (status, source, drops, blocks, err[:100]))


BATCHED = """\
[sources.in]
type = "stdin"

[sinks.out]
type = "console"
target = "stderr"
inputs = ["in"]
encoding.codec = "text"
batch = {{ max_events = {}, timeout_secs = {} }}
request.retry_attempts = 0
"""


def attempts_in_time(folder, pause):
    """How often a console that collects two lines writes, where the second comes so many seconds behind the first."""
    ran = subprocess.Popen([PROGRAM, "--config", "other.toml", "--stats"], cwd=folder, stdin=subprocess.PIPE, stdout=subprocess.PIPE, stderr=subprocess.PIPE)
    ran.stdin.write(b"a\n")
    ran.stdin.flush()
    time.sleep(pause)
    out, err = ran.communicate(b"b\n", PATIENCE)
    return (ran.returncode, err, counted(out.splitlines()[1], b"attempts"))


def batches():
    """Sinks that collect some lines before they write."""
    lines = b"".join(b"%d\n" % k for k in range(10_001))
    with tempfile.TemporaryDirectory() as folder:
        at = Path(folder) / "other.toml"
        for most, attempts in [(1, 10_001), (4, 2_501), (1_000, 11), (10_000, 2)]:
            at.write_text(BATCHED.format(most, 86_400))
            status, out, err = run(lines, ["--config", "other.toml", "--stats"], cwd=folder)
            wanted = b"sink out taken=10001 newest=0 attempts=%d delivered=10001 errored=0 rejected=0 bytes=%d" % (attempts, len(lines))
            check(f"batches of {most}", (status, out.splitlines()[1], err == lines) == (0, wanted, True), (status, out))
        at.write_text(BATCHED.format(3, 86_400))
        with open("/dev/full", "wb") as full:
            ran = subprocess.run([PROGRAM, "--config", str(at), "--stats"], input=b"a\n" * 10, stdout=subprocess.PIPE, stderr=full, timeout=PATIENCE)
        lost = b"sink out taken=10 newest=0 attempts=4 delivered=0 errored=10 rejected=0 bytes=0"
        check("batches to a full device", (ran.returncode, ran.stdout.splitlines()[1:]) == (0, [lost]), (ran.returncode, ran.stdout))
        at.write_text(BATCHED.format(2, 1))
        seen = attempts_in_time(folder, 0), attempts_in_time(folder, 1.5)
        check("a batch that is closed by its age", seen == ((0, b"a\nb\n", 1), (0, b"a\nb\n", 2)), seen)


def reader_that_comes_back(folder):
    """What two readers of one pipe got, the second of which came two seconds behind the first, and how the run ended between them."""
    pipe = Path(folder) / "pipe"
    os.mkfifo(pipe)
    first = os.open(pipe, os.O_RDONLY | os.O_NONBLOCK)
    into = os.open(pipe, os.O_WRONLY)
    ran = subprocess.Popen([PROGRAM, "--config", FIRST, "--stats"], stdin=subprocess.PIPE, stdout=into, stderr=subprocess.PIPE)
    os.close(into)
    ran.stdin.write(b"a\n")
    ran.stdin.flush()
    select.select([first], [], [], PATIENCE)
    seen = [os.read(first, 4096)]
    os.close(first)
    ran.stdin.write(b"b\nc\n")
    ran.stdin.close()
    time.sleep(2)
    with open(pipe, "rb") as second:
        seen.append(second.read())
    return ran.wait(PATIENCE), seen


def retries():
    """Outputs that fail for some time: what couldn't be written is written again, later and later."""
    with tempfile.TemporaryDirectory() as folder:
        status, seen = reader_that_comes_back(folder)
        lines = seen[1].splitlines()
        counted_so = counted(lines[-1], b"delivered"), counted(lines[-1], b"errored"), counted(lines[-1], b"attempts") > 3
        check("a reader that comes back", (status, seen[0], lines[:2], counted_so) == (0, b"a\n", [b"b", b"c"], (3, 0, True)), (status, seen))
        at = Path(folder) / "other.toml"
        at.write_text(Path(FIRST).read_text() + "request = { retry_attempts = 3, retry_max_duration_secs = 1 }\ntarget = \"stderr\"\n")
        begun_at = time.monotonic()
        with open("/dev/full", "wb") as full:
            ran = subprocess.run([PROGRAM, "--config", str(at), "--stats"], input=b"a\n", stdout=subprocess.PIPE, stderr=full, timeout=PATIENCE)
        took = time.monotonic() - begun_at
        lost = b"sink out taken=1 newest=0 attempts=4 delivered=0 errored=1 rejected=0 bytes=0"
        check("three attempts more, a second apart", (ran.returncode, ran.stdout.splitlines()[1:], 3 <= took < 10) == (0, [lost], True), (ran.returncode, ran.stdout, took))


def counts():
    """Counts behind a run: of what was lost where an output fails, and where they can't be printed themselves."""
    lines = b"a\n" * 1_000
    with tempfile.TemporaryDirectory() as folder:
        at = Path(folder) / "other.toml"
        at.write_text(ONE_STAGE.format("target = \"stderr\"\nrequest.retry_attempts = 0", 500, "block"))
        words = [PROGRAM, "--config", str(at), "--stats"]
        lost = b"sink out taken=1000 newest=0 attempts=1000 delivered=0 errored=1000 rejected=0 bytes=0"
        with open("/dev/full", "wb") as full:
            ran = subprocess.run(words, input=lines, stdout=subprocess.PIPE, stderr=full, timeout=PATIENCE)
        check("counts of what a full device lost", (ran.returncode, ran.stdout.splitlines()[1:]) == (0, [lost]), (ran.returncode, ran.stdout))
        status, out, _ = run(lines, words[1:], closed="2>&-")
        check("counts of what a closed output lost", (status, out.splitlines()[1:]) == (0, [lost]), (status, out))
        ends = os.pipe()
        os.close(ends[0])
        ran = subprocess.run(words, input=lines, stdout=subprocess.PIPE, stderr=ends[1], timeout=PATIENCE)
        check("counts of what a broken output lost", (ran.returncode, ran.stdout.splitlines()[1:]) == (0, [lost]), (ran.returncode, ran.stdout))
        ran = subprocess.run(words, input=lines, stdout=ends[1], stderr=subprocess.PIPE, timeout=PATIENCE)
        os.close(ends[1])
        check("counts to a broken output", (ran.returncode, ran.stderr) == (74, lines), (ran.returncode, ran.stderr[:200]))
        with open("/dev/full", "wb") as full:
            ran = subprocess.run(words, input=lines, stdout=full, stderr=subprocess.PIPE, timeout=PATIENCE)
        check("counts to a full device", (ran.returncode, ran.stderr) == (74, lines), (ran.returncode, ran.stderr[:200]))
        status, _, err = run(lines, words[1:], closed=">&-")
        check("counts to a closed output", (status, err) == (74, lines), (status, err[:200]))


# The multiplier of the generator, and the increment by which its seed is made of a number.
MULTIPLIER, SEEDING = 6364136223846793005, 11634580027462260723


def permuted(state):
    """The 32-bit word that a state of the generator gives: shifted, and rotated by its five highest bits."""
    shifted, turns = ((state >> 18) ^ state) >> 27 & 0xFFFFFFFF, state >> 59
    return (shifted >> turns | shifted << (-turns & 31)) & 0xFFFFFFFF


def words_of(seed):
    """The words of the generator PCG XSH RR 64/32, whose state and stream are four words that are made of the seed."""
    made = []
    for _ in range(4):
        seed = (seed * MULTIPLIER + SEEDING) % 2**64
        made.append(permuted(seed))
    step = (made[2] | made[3] << 32) | 1
    state = ((made[0] | made[1] << 32) + step) % 2**64
    while True:
        state = (state * MULTIPLIER + step) % 2**64
        yield permuted(state)


GENERATED = """
[sources.in]
type = "demo_logs"
format = "shuffle"
lines = ["a", "b\\tc", "{text}"]
count = {count}
seed = {seed}
interval = 0
sequence = true

[sinks.hole]
type = "blackhole"
inputs = ["in"]

[sinks.out]
type = "console"
target = "stderr"
inputs = ["in"]
encoding.codec = "text"
"""


def generated():
    """Lines that a source makes, beside the same generator in Python, and a black hole that takes them too."""
    texts = ["a", "b\tc", "x" * 2_000]
    with tempfile.TemporaryDirectory() as folder:
        at = Path(folder) / "other.toml"
        for seed, count in [(0, 0), (7, 1), (7, 1_000), (2**63 - 1, 129)]:
            at.write_text(GENERATED.format(text=texts[2], count=count, seed=seed))
            words = words_of(seed)
            wanted = "".join(f"{k} {texts[next(words) % 3]}\n" for k in range(count)).encode()
            status, out, err = run(b"", ["--config", "other.toml", "--stats"], cwd=folder)
            source, hole, console = out.splitlines()
            batches = -(-count // 64)
            counted_so = (
                b"source in read=%d lines=%d overlong=0 undecodable=0 events=%d unread=0 batches=%d delivered=%d errored=0 rejected=0 confirmed=0" % (len(wanted), count, count, batches, batches),
                b"sink hole taken=%d newest=0 attempts=%d delivered=%d errored=0 rejected=0 bytes=0" % (count, count, count),
            )
            check(f"{count} generated lines of the seed {seed}", (status, err, (source, hole)) == (0, wanted, counted_so), (status, err[:100], source, hole, console))
        at.write_text(GENERATED.format(text=texts[2], count=10**12, seed=1))
        ran = subprocess.Popen([PROGRAM, "--config", str(at)], stdin=subprocess.DEVNULL, stdout=subprocess.DEVNULL, stderr=subprocess.PIPE)
        first = ran.stderr.readline()
        ran.kill()
        ran.stderr.close()
        ran.wait()
        words = words_of(1)
        check("the first of very many generated lines", first == f"0 {texts[next(words) % 3]}\n".encode(), first[:100])


def made_as_json():
    """Lines that a source makes, as events, to an output that acknowledges."""
    words, texts = words_of(7), ["a", "b\tc", "d"]
    events = [{"message": f"{k} {texts[next(words) % 3]}", "source_type": "demo_logs"} for k in range(4)]
    text = GENERATED.format(text="d", count=4, seed=7).replace('codec = "text"', 'codec = "json"\nacknowledgements = true')
    seen = outcome_of(text, b"")
    check("generated lines as events", seen == (0, b"", b"".join(map(written, events))), seen)


def made_in_time():
    """Lines that a source makes a second after one another, where nothing is said of that."""
    with tempfile.TemporaryDirectory() as folder:
        at = Path(folder) / "other.toml"
        at.write_text(GENERATED.format(text="a", count=3, seed=1).replace("interval = 0\n", ""))
        ran = subprocess.Popen([PROGRAM, "--config", str(at)], stdin=subprocess.DEVNULL, stderr=subprocess.PIPE)
        came = [(ran.stderr.readline()[:2], time.monotonic()) for _ in range(3)]
        ran.stderr.close()
        status = ran.wait(PATIENCE)
    gaps = [later - earlier for (_, earlier), (_, later) in zip(came, came[1:])]
    check("generated lines a second apart", (status, [line for line, _ in came], all(0.9 < gap < 5 for gap in gaps)) == (0, [b"0 ", b"1 ", b"2 "], True), (status, came))


def judgements():
    """The command that judges a configuration, and runs nothing."""
    seen = run(b"a\n", ["validate", TWO])
    check("a judged configuration", seen == (0, b"valid: 1 sources, 0 transforms, 2 sinks\n", b""), seen)
    seen = run(b"a\n", ["validate", TWO], variables={b"SECOND": b"nowhere"})
    check("a judged configuration that is refused", seen == (78, b"", b"vector: configuration refused: bad value at sinks.second.target\n"), seen)
    several = Path(TWO).read_text() + "".join(GENERATED.replace("sources.in", f"sources.{name}").split("[sinks.hole]")[0].format(text="a", count=1, seed=1) for name in ["made", "more"])
    several += '[sinks.third]\ntype = "blackhole"\ninputs = ["t"]\n[transforms.t]\ntype = "filter"\ninputs = ["lines"]\ncondition = "exists(.a)"\n'
    with tempfile.TemporaryDirectory() as folder:
        (Path(folder) / "several.toml").write_text(several)
        seen = run(b"a\n", ["validate", "several.toml"], cwd=folder)
    check("a judged configuration of several kinds", seen == (0, b"valid: 3 sources, 1 transforms, 3 sinks\n", b""), seen)
    seen = run(b"a\n", ["validate", "/none.toml"])
    check("a judged configuration that isn't there", seen == (74, b"", b"vector: cannot read /none.toml\n"), seen)
    with open("/dev/full", "wb") as full:
        ran = subprocess.run([PROGRAM, "validate", TWO], stdin=subprocess.DEVNULL, stdout=full, stderr=subprocess.PIPE, timeout=PATIENCE)
    check("a judgement that can't be printed", (ran.returncode, ran.stderr) == (74, b""), (ran.returncode, ran.stderr[:200]))
    status, _, err = run(b"", ["validate", TWO], closed=">&-")
    check("a judgement onto a closed output", (status, err) == (74, b""), (status, err[:200]))


if __name__ == "__main__":
    sys.exit(go_through([consoles, acknowledged, waiting, judgements, json_lines, transforms, buffers, blocks_and_drops, batches, retries, counts, generated, made_as_json, made_in_time, inputs, bytes_of_all_kinds, lines_as_they_come, a_reader_that_leaves, late_readers, signals, short_writes, wanting_memory, late_texts, ends_that_fail, untold, many_lines]))
