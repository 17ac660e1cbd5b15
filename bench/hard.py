#!/usr/bin/env python3
"""Measures how the processor time grows with the size of what is hard to read: of lines, of configurations, and of open batches.

Each table has one kind of input, in sizes that double. It tells the processor's time, of user and system, less that of a run with
nothing to read, the best of three runs; how many times that of the size before it is; and whether the last two doublings together
take at most 1.25 times as much longer as n log n does. Where a run takes more than two seconds, no greater sizes are tried.

- The JSON lines go from standard input to a console, read and written as JSON. A run has as many of one size as come to 1,638,400
  bytes, of numbers ten times that, and the table tells the time of one. Their limit is raised, so that the sizes go on past the
  default `max_length`.
- The text lines go the same way as text. Their number doubles.
- The configurations are judged by `validate`. That with many sources is refused in the end, since there may be 256 components.
- Each open batch is a line that came alone, by a socket whose messages are read one by one. Their sink acknowledges, and stands for
  one that doesn't answer by failing: nobody reads its pipe, so its first attempt fails, and it waits before the next one. Only once
  all lines were read, with none delivered, a reader comes.

Where a table grows faster than that, its last three sizes are run once more under valgrind, which counts instructions: what doesn't
fit the processor's caches any more takes longer by the same steps, and other work on the machine takes time but counts nothing.

Behind the tables it says which kinds grow faster, by time and by instructions, and whether a line within the default `max_length`
takes more than 50 ms. It needs Python 3.11, valgrind, and the program as `./vector` builds it, and takes two to three minutes.
"""

import fcntl
import functools
import itertools
import math
import os
import random
import re
import socket
import struct
import subprocess
import sys
import tempfile
import termios
import time
from pathlib import Path

from events import load
from program import TOP, VECTOR

ROUNDS = 3
ALLOWANCE = 1.25
COUNTING = ["valgrind", "--tool=cachegrind", "--cache-sim=no", "--cachegrind-out-file=/dev/null"]
TOO_LONG = 2
LONGEST = 102_400
LINE_LIMIT = 0.05
WHOLE = 1_638_400
BYTES = [25_600 << k for k in range(6)]
DIGITS = [12_500 << k for k in range(7)]
LEVELS = 32
READING = """\
[sources.in]
type = "stdin"
max_length = 16777216
decoding.codec = "{}"

[sinks.out]
type = "console"
target = "stderr"
inputs = ["in"]
encoding.codec = "{}"
"""
JUDGED = """\
[sources.in]
type = "demo_logs"
format = "shuffle"
lines = ["x"]

[sinks.out]
type = "blackhole"
inputs = ["in"]
"""
VALID = b"valid: 1 sources, 0 transforms, 1 sinks\n"
WAITING = """\
[sources.in]
type = "stdin"

[sinks.out]
type = "console"
target = "stderr"
inputs = ["in"]
encoding.codec = "text"
acknowledgements = true
buffer.max_events = 100000
"""


def counted(told, component, name):
    """A count that `--stats` tells of a component; None where it tells none."""
    for words in map(str.split, told.decode().splitlines()):
        if words[1:2] == [component]:
            return int(dict(pair.split("=") for pair in words[2:])[name])
    return None


def ended(ran):
    """The processor's seconds of a run that ends by itself, its status, and what it wrote to the pipe of its standard output."""
    told = ran.stdout.read()
    ran.stdout.close()
    _, status, used = os.wait4(ran.pid, 0)
    ran.returncode = os.waitstatus_to_exitcode(status)
    return used.ru_utime + used.ru_stime, ran.returncode, told


def need(held, seen):
    """Ends the script where a run went otherwise than it has to."""
    if not held:
        sys.exit(f"the program did something else than was measured: {seen}")


class Lines:
    """Lines of one kind, that go from standard input to a console. Size 0 has none."""

    def __init__(self, name, codecs, sizes, line, number, share):
        """A name, the codecs, the sizes, the line of a size, how many there are of a size, and whether the time of one is told."""
        self.name, self.codecs, self.sizes, self.line, self.number, self.share = name, codecs, sizes, line, number, share

    def seconds(self, size, folder, before=()):
        """The processor's seconds of a run, with these words before its own."""
        configuration, given = folder / "lines.toml", folder / f"{size}.txt"
        configuration.write_text(READING.format(*self.codecs))
        number = self.number(size) if size else 0
        if not given.exists():
            given.write_bytes((self.line(size) + b"\n") * number if number else b"")
        with given.open("rb") as lines:
            words = [*before, VECTOR, "--config", str(configuration), "--stats"]
            took, status, told = ended(subprocess.Popen(words, stdin=lines, stdout=subprocess.PIPE, stderr=subprocess.DEVNULL))
        need((status, counted(told, "in", "events"), counted(told, "out", "delivered")) == (0, number, number), (self.name, size, status, told))
        return took

    def parts(self, size):
        """By how much the seconds of a run are divided."""
        return self.number(size) if self.share else 1

    def line_seconds(self, size, took):
        """The seconds of one line, where it is within the default limit."""
        return took / self.number(size) if len(self.line(size)) <= LONGEST else 0


class Configurations:
    """Configurations of one kind, that are judged. Size 0 is a small one."""

    def __init__(self, name, sizes, text, wanted):
        """A name, the sizes, the text of a size, and what its judgement has to begin with."""
        self.name, self.sizes, self.text, self.wanted = name, sizes, text, wanted

    def seconds(self, size, folder, before=()):
        """The processor's seconds of a judgement, with these words before its own."""
        configuration = folder / f"{size}.toml"
        configuration.write_text(JUDGED + self.text(size) if size else JUDGED)
        words = [*before, VECTOR, "validate", str(configuration)]
        took, status, told = ended(subprocess.Popen(words, stdin=subprocess.DEVNULL, stdout=subprocess.PIPE, stderr=subprocess.STDOUT))
        need(told.startswith(self.wanted if size else VALID), (self.name, size, status, told))
        return took

    def parts(self, size):
        return 1

    def line_seconds(self, size, took):
        return 0


class Batches:
    """Batches that are open at a time, each of one line."""

    name, sizes = "open batches, by their number", [250 << k for k in range(5)]

    def seconds(self, size, folder):
        """The processor's seconds of a run."""
        configuration, pipe = folder / "waiting.toml", folder / "pipe"
        configuration.write_text(WAITING)
        pipe.unlink(missing_ok=True)
        os.mkfifo(pipe)
        ours, theirs = socket.socketpair(socket.AF_UNIX, socket.SOCK_SEQPACKET)
        ran = begun_unread([VECTOR, "--config", str(configuration), "--stats"], theirs, pipe)
        for number in range(size):
            ours.send(b"%099d\n" % number)
        while unread(ours):
            time.sleep(0.001)
        ours.close()
        written = read_late(pipe)
        took, status, told = ended(ran)
        counts = [counted(told, *which) for which in [("in", "batches"), ("in", "delivered"), ("out", "delivered")]]
        need((status, counts, written) == (0, [size] * 3, 100 * size), (self.name, size, status, told, written))
        return took

    def parts(self, size):
        return 1

    def line_seconds(self, size, took):
        return 0


def begun_unread(words, given, pipe):
    """A run on this input whose standard error is a pipe that nobody reads any more."""
    reader = os.open(pipe, os.O_RDONLY | os.O_NONBLOCK)
    into = os.open(pipe, os.O_WRONLY)
    os.close(reader)
    ran = subprocess.Popen(words, stdin=given, stdout=subprocess.PIPE, stderr=into)
    os.close(into)
    given.close()
    return ran


def read_late(pipe):
    """How many bytes come out of a pipe until nobody writes to it any more."""
    reader = os.open(pipe, os.O_RDONLY | os.O_NONBLOCK)
    os.set_blocking(reader, True)
    with open(reader, "rb") as late:
        return len(late.read())


def unread(ours):
    """How much memory the messages have that were sent through a socket and not read yet."""
    return struct.unpack("i", fcntl.ioctl(ours, termios.TIOCOUTQ, b"\0" * 4))[0]


def filled(front, pieces, back, size):
    """A line of so many bytes: a front, as many of the pieces as there is room for, with commas between them, blanks, and a back."""
    room, taken = size - len(front) - len(back), []
    for piece in pieces:
        room -= len(piece) + 1
        if room < 0:
            break
        taken.append(piece)
    line = front + b",".join(taken)
    return line + b" " * (size - len(line) - len(back)) + back


def named(order):
    """The line of a size that is an object whose names stand in an order."""
    def line(size):
        numbers = list(range(size // 12))
        order(numbers)
        return filled(b"{", (b'"%06d":0' % number for number in numbers), b"}", size)
    return line


def escaped(size):
    """A line that is an object with a text of escapes."""
    escapes = itertools.cycle([rb"\n", rb"\"", rb"\u00e9", rb"\ud83d\ude00", rb"\\"])
    text = b"".join(itertools.islice(escapes, size // 2))[: size - 8]
    whole = text[: text.rindex(rb"\n")]
    return b'{"a":"' + whole + b'"' + b" " * (size - len(whole) - 8) + b"}"


def number(size):
    """A line that is an object with a number of so many digits."""
    return b'{"a":' + b"1234567890" * (size // 10) + b"1" * (size % 10) + b"}"


def nested(size):
    """A line that is an object with a list, whose items are nested as deep as they may be."""
    depth = LEVELS - 2
    return filled(b'{"a":[', itertools.repeat(b"[" * depth + b"]" * depth), b"]}", size)


def variables(size):
    """A comment with so many variables that don't end."""
    return "# " + "${X:-" * size + "\n"


def sources(size):
    """So many sources."""
    return "".join(f'\n[sources.s{number}]\ntype = "demo_logs"\nformat = "shuffle"\nlines = ["x"]\n' for number in range(size))


def json_lines(name, sizes, line, whole=WHOLE):
    """JSON lines of a kind, by a size of each, of which a run has so many bytes."""
    line = functools.cache(line)
    return Lines(name, ("json", "json"), sizes, line, lambda size: max(1, whole // len(line(size))), True)


def text_lines(name, length, least):
    """Lines of a length, of which there are more and more."""
    return Lines(f"{name}, by their number", ("bytes", "text"), [least << k for k in range(6)], lambda size: b"x" * length, lambda size: size, False)


KINDS = [
    json_lines("an object whose names rise, by its bytes", BYTES, named(list)),
    json_lines("an object whose names fall, by its bytes", BYTES, named(list.reverse)),
    json_lines("an object whose names have no order, by its bytes", BYTES, named(random.Random(7).shuffle)),
    json_lines("a text of escapes, by the bytes of its line", BYTES, escaped),
    json_lines("a number, by its digits", DIGITS, number, 10 * WHOLE),
    json_lines(f"{LEVELS} levels, by the bytes of their line", BYTES, nested),
    text_lines("lines of 1 byte", 1, 10_000),
    text_lines("lines of 10000 bytes", 10_000, 100),
    text_lines(f"lines of {LONGEST} bytes", LONGEST, 10),
    Configurations("a configuration with ${X:-, by how often", [10_000 << k for k in range(6)], variables, VALID),
    Configurations("a configuration with many sources, by their number", [625 << k for k in range(5)], sources, b"vector: configuration refused: too many at sources: "),
    Batches(),
]
# (what they wait for differs under valgrind)
UNCOUNTED = KINDS[-1:]


def least(kind, size, folder, rounds):
    """The least processor's seconds of some runs, of which none is made behind one that takes too long."""
    took = math.inf
    for _ in range(rounds):
        took = min(took, kind.seconds(size, folder))
        if took > TOO_LONG:
            break
    return took


def measured(kind, folder):
    """The processor's seconds by size, as far as they were tried, less those of a start."""
    start, took = least(kind, 0, folder, 2 * ROUNDS), {}
    for size in kind.sizes:
        took[size] = max(least(kind, size, folder, ROUNDS) - start, 0)
        if took[size] > TOO_LONG:
            break
    return took


def instructions(kind, size, folder):
    """How many instructions a run takes."""
    told = folder / "counted.txt"
    kind.seconds(size, folder, [*COUNTING, f"--log-file={told}"])
    return int(re.search(r"I +refs: +([0-9,]+)", told.read_text())[1].replace(",", ""))


def counted_by_size(kind, sizes, folder):
    """The instructions of these sizes, less those of a start, for one of the parts of a run."""
    start = instructions(kind, 0, folder)
    return {size: (instructions(kind, size, folder) - start) / kind.parts(size) for size in sizes}


def grows(took):
    """How many times as much the greatest size takes as that two before, and how many times by n log n."""
    least, _, most = list(took)[-3:]
    return took[most] / max(took[least], 1e-6), most * math.log(most) / (least * math.log(least))


def is_within(took):
    """Prints how the last two doublings grow, and says whether that is at most like n log n."""
    seen, by_rule = grows(took)
    held = seen <= ALLOWANCE * by_rule
    print(f"{seen:.2f} times as many, n log n {by_rule:.2f} times: {'at most like n log n' if held else 'FASTER than n log n'}", flush=True)
    return held


def tell_counts(counts):
    """Prints the instructions of some sizes, and says whether they grow at most like n log n."""
    print("under valgrind, in millions of instructions: " + ", ".join(f"{size}: {count / 1e6:.2f}" for size, count in counts.items()))
    print("two doublings take ", end="")
    return is_within(counts)


def tell(kind, took):
    """Prints the table of a kind, and says whether its time grows at most like n log n."""
    sizes = list(took)
    times = {size: 1e3 * took[size] for size in sizes}
    print(f"\n{kind.name}")
    print("size      " + "".join(f"{size:11}" for size in sizes))
    print("processor " + "".join(f"{times[size]:8.2f} ms" for size in sizes))
    print("times     " + " " * 11 + "".join(f"{times[size] / max(times[before], 1e-3):11.2f}" for before, size in itertools.pairwise(sizes)))
    if len(sizes) < 3:
        print("it takes too long for more")
        return False
    seen, by_rule = grows(took)
    held = len(sizes) == len(kind.sizes) and seen <= ALLOWANCE * by_rule
    print(f"two doublings take {seen:.2f} times as long, n log n {by_rule:.2f} times: {'at most like n log n' if held else 'FASTER than n log n'}", flush=True)
    return held


def tell_line(longest):
    """Prints how long one line takes at most that is within the default limit."""
    print(f"a line of at most {LONGEST} bytes takes {1e3 * longest:.2f} ms at most, {'within' if longest <= LINE_LIMIT else 'MORE than'} {1e3 * LINE_LIMIT:.0f} ms", flush=True)


def main():
    # (the script builds the program, which is then measured by itself)
    subprocess.run([str(TOP / "vector"), "--config", str(TOP / "examples/first.toml")], stdin=subprocess.DEVNULL, check=True)
    begun_at = time.monotonic()
    print(f"the best of {ROUNDS} runs, without the start; before: {load()}", flush=True)
    faster, more, lines = [], [], []
    for kind in KINDS:
        with tempfile.TemporaryDirectory() as folder:
            whole = measured(kind, Path(folder))
            if not tell(kind, {size: took / kind.parts(size) for size, took in whole.items()}):
                faster.append(kind.name)
                if len(whole) < len(kind.sizes) or kind in UNCOUNTED or not tell_counts(counted_by_size(kind, kind.sizes[-3:], Path(folder))):
                    more.append(kind.name)
        lines.append(max(kind.line_seconds(size, took) for size, took in whole.items()))
        if lines[-1] > 0:
            tell_line(lines[-1])
    print(f"\nfaster than n log n by time: {'; '.join(faster) or 'none'}")
    print(f"and by instructions, or not counted: {'; '.join(more) or 'none'}")
    tell_line(max(lines))
    print(f"{time.monotonic() - begun_at:.0f} seconds in all; after: {load()}")


if __name__ == "__main__":
    main()
