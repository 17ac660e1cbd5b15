#!/usr/bin/env python3
"""Runs the built program between real files, kills it, fills its disk, and compares what it writes with what it was given.

It prints a line for each check, and ends with 'N passed, M failed'. The status is 1 where one failed.
"""

import json
import os
import random
import signal
import stat
import subprocess
import sys
import tempfile
import threading
import time
from pathlib import Path
from typing import NamedTuple

from running import BUILT, PATIENCE, TOP, check, ended, go_through, run, tally, written

TAIL = str(TOP / "examples" / "tail.toml")
KILLS = 200
SEED = 20_261_130
ROOM = 65_536

COPY = """\
data_dir = {marks}
acknowledgements = true

[sources.app]
type = "file"
include = [{given}]

[sinks.out]
type = "file"
path = {out}
inputs = ["*"]
encoding.codec = "text"
{more}
"""

# A source that reads standard input, and consoles beside the file that is written, all of which take its lines.
CONSOLES = """
[sources.{name}]
type = "stdin"

[sinks.shown]
type = "console"
inputs = ["{name}"]
encoding.codec = "text"
request.retry_attempts = 0

[sinks.told]
type = "console"
target = "stderr"
inputs = ["{name}"]
encoding.codec = "text"
request.retry_attempts = 0
"""

# Standard streams that aren't there, beside how a run on one line ends, and which lines of standard input come out. A source that is named
# `ahead` is read before the file is opened that the source `app` reads, so the first that is opened then is the file that is written. One
# that is named `behind` is read once that file is open.
CLOSED = [
    ("<&-", "behind", (69, b"", b"vector: source behind failed after 0 bytes\n"), b""),
    (">&-", "ahead", (0, b"", b"in\n"), b"in\n"),
    ("2>&-", "ahead", (0, b"in\n", b""), b"in\n"),
    (">&- 2>&-", "ahead", (0, b"", b""), b"in\n"),
    ("<&- >&- 2>&-", "behind", (69, b"", b""), b""),
]

FAILED = b"vector: source app failed after 0 bytes\n"
UNCONFIRMED = b"vector: source app could not be confirmed\n"


def bytes_of(path):
    """What a file has; nothing where there is none."""
    return path.read_bytes() if path.exists() else b""


class Copy:
    """A pipeline from a file to a file, with its checkpoint, each in a folder of its own where that is wanted."""

    def __init__(self, folder, marks=None, out=None, more=""):
        self.folder = Path(folder)
        self.given = self.folder / "app.log"
        self.out = Path(out or folder) / "out.log"
        self.mark = Path(marks or folder) / "app.checkpoint.json"
        self.config = self.folder / "copy.toml"
        paths = {"marks": self.mark.parent, "given": self.given, "out": self.out}
        self.config.write_text(COPY.format(more=more, **{name: json.dumps(str(path)) for name, path in paths.items()}))

    def begin(self, *words):
        """A run that has just begun."""
        words = [BUILT, "--config", str(self.config), *words]
        return subprocess.Popen(words, stdin=subprocess.DEVNULL, stdout=subprocess.PIPE, stderr=subprocess.PIPE)

    def end(self, *words):
        """The status, the output and the errors of a run that ends by itself."""
        return ended(self.begin(*words))

    def document(self, offset):
        """The document of an offset, as the program has to write it."""
        return b'{"offset":%d,"path":%s,"version":1}\n' % (offset, json.dumps(str(self.given)).encode())

    def offset(self):
        """The offset that the checkpoint keeps: 0 where there is none, and what is wrong with it where it isn't ours."""
        if not self.mark.exists():
            return 0
        found = self.mark.read_bytes()
        try:
            offset = json.loads(found)["offset"]
        except (ValueError, KeyError, TypeError):
            return found
        return offset if found == self.document(offset) else found

    def written(self):
        """What stands in the output."""
        return bytes_of(self.out)

    def length(self):
        """How many bytes stand in the output."""
        return self.out.stat().st_size if self.out.exists() else 0


def killed(ran):
    """Kills a run, and says whether it was still there."""
    ran.kill()
    ran.communicate(timeout=PATIENCE)
    return ran.returncode == -signal.SIGKILL


def comes(wanted, seconds=20):
    """Whether something comes to be so within some seconds."""
    end = time.monotonic() + seconds
    while time.monotonic() < end:
        if wanted():
            return True
        time.sleep(0.005)
    return wanted()


def numbered(count, first=0, width=60):
    """Lines that begin with their numbers."""
    return b"".join(b"%09d %s\n" % (k, b"x" * (k * 7 % width)) for k in range(first, first + count))


class Growing(threading.Thread):
    """Adds lines to a file until it is told to end, often in the middle of one."""

    def __init__(self, path, chance):
        super().__init__(daemon=True)
        self.path, self.chance, self.over = path, chance, threading.Event()

    def run(self):
        count = 0
        with open(self.path, "ab", buffering=0) as file:
            while not self.over.is_set():
                piece = numbered(self.chance.randrange(1, 9), count)
                count += piece.count(b"\n")
                cut = self.chance.randrange(len(piece))
                file.write(piece[:cut])
                time.sleep(0.002)
                file.write(piece[cut:])


class Run(NamedTuple):
    """A run that was killed: the offset at which it began, what it wrote, and each offset that its checkpoint kept, with how much it had written by then."""

    begin: int
    wrote: bytes
    marks: list
    alive: bool


def watched(copy, before, moment):
    """The offsets that a checkpoint keeps until a moment has passed, each with how much was written by then."""
    end, marks = time.monotonic() + moment, []
    while time.monotonic() < end:
        mark = copy.offset()
        marks.append((mark, copy.length() - before))
        time.sleep(0.002)
    return marks


def run_and_kill(copy, moment):
    """A run that is killed when a moment has passed."""
    begin, before = copy.offset(), copy.length()
    ran = copy.begin()
    marks = watched(copy, before, moment)
    alive = killed(ran)
    wrote = copy.written()[before:]
    return Run(begin, wrote, [*marks, (copy.offset(), len(wrote))], alive)


def wrong_marks(run, given):
    """What is wrong of the offsets that the checkpoint of a run kept, as long as it ran."""
    last = run.begin
    for mark, written in run.marks:
        if not isinstance(mark, int):
            return "a checkpoint that isn't ours", mark
        if mark < last:
            return "a checkpoint that goes back", last, mark
        if mark > run.begin + written:
            return "a checkpoint ahead of what was written", run.begin, written, mark
        if mark and given[mark - 1 : mark] != b"\n":
            return "a checkpoint inside a line", mark
        last = mark
    return None


def wrong_of(run, reached, given):
    """What is wrong of a run, before which what was given had come out so far."""
    if not run.alive:
        return ("it ended by itself",)
    if given[run.begin : run.begin + len(run.wrote)] != run.wrote:
        return "it wrote what doesn't stand behind its checkpoint", run.begin, run.wrote[:80]
    if run.begin > reached:
        return "it left something out", reached, run.begin
    return wrong_marks(run, given)


def judged(runs, given):
    """How far what was given came out by some runs, and what is wrong of the first that has something wrong."""
    reached = 0
    for k, run in enumerate(runs):
        wrong = wrong_of(run, reached, given)
        if wrong:
            return reached, (k, *wrong)
        reached = max(reached, run.begin + len(run.wrote))
    return reached, None


def first_confirm(folder):
    """How long a run takes to its first confirm, of as many lines as one read brings."""
    copy = Copy(folder)
    copy.given.write_bytes(numbered(2_000))
    begun_at = time.monotonic()
    ran = copy.begin()
    comes(lambda: copy.offset() > 0, PATIENCE)
    took = time.monotonic() - begun_at
    killed(ran)
    return took


def left_out(given, written):
    """The lines that aren't among what was written, not even behind one that a kill had cut."""
    missing = set(given.splitlines()) - set(written.splitlines())
    return [line for line in sorted(missing) if line + b"\n" not in written]


def restarts():
    """Runs that are killed at random moments while their file grows, and one to the end: each line is there, in order within each run."""
    print(f"the moments of the kills have the seed {SEED}", flush=True)
    chance = random.Random(SEED)
    with tempfile.TemporaryDirectory() as folder:
        longest = 2 * first_confirm(folder) + 0.2
    with tempfile.TemporaryDirectory() as folder:
        copy = Copy(folder)
        copy.given.write_bytes(b"")
        growing = Growing(copy.given, random.Random(SEED))
        growing.start()
        runs = [run_and_kill(copy, chance.uniform(0, longest)) for _ in range(KILLS)]
        growing.over.set()
        growing.join()
        given = copy.given.read_bytes()
        reached, wrong = judged(runs, given)
        moved = len({run.marks[-1][0] for run in runs})
        check(f"{KILLS} runs that were killed", wrong is None and moved > KILLS // 10, (wrong, moved))
        begin, before = copy.offset(), copy.length()
        seen = copy.end("--once")
        rest = copy.written()[before:]
        held = (seen, begin <= reached, rest == given[begin:], copy.offset()) == ((0, b"", b""), True, True, len(given))
        check("the run to the end behind them", held, (seen, begin, reached, len(rest), len(given), copy.offset()))
        missing = left_out(given, copy.written())
        check("each line is there", not missing, missing[:3])
        left = sorted(set(os.listdir(folder)) - {"app.checkpoint.json.new"})
        check("nothing else is left behind kills", left == ["app.checkpoint.json", "app.log", "copy.toml", "out.log"], left)


def refused(name, documents):
    """Checks that documents that aren't accepted are faults, and stay as they are. The runs go on side by side, since each tries for some seconds."""
    with tempfile.TemporaryDirectory() as folder:
        copies = []
        for k, document in enumerate(documents):
            at = Path(folder) / f"{k:03}"
            at.mkdir()
            copy = Copy(at)
            copy.given.write_bytes(numbered(10))
            copy.mark.write_bytes(document(copy) if callable(document) else document)
            copies.append((copy, copy.mark.read_bytes(), copy.begin()))
        wrong = []
        for k, (copy, document, ran) in enumerate(copies):
            seen = ended(ran), copy.mark.read_bytes() == document, copy.written()
            if seen != ((69, b"", FAILED), True, b""):
                wrong.append((k, document[:60], seen))
        check(name, not wrong, wrong[:3])


def documents():
    """Checkpoints that were cut, that aren't ours, and that are none."""
    with tempfile.TemporaryDirectory() as folder:
        (Path(folder) / "000").mkdir()
        length = len(Copy(Path(folder) / "000").document(72))
    refused("a checkpoint that is cut at each byte", [lambda copy, k=k: copy.document(72)[:k] for k in range(length - 1)])
    others = [
        b"{}\n",
        b"null\n",
        b"[]\n",
        b"\xff\xfe",
        bytes(4_096),
        b"version: 1\n",
        lambda copy: copy.document(72).replace(b'"version":1', b'"version":2'),
        lambda copy: copy.document(72).replace(b'"version":1', b'"version":"1"'),
        lambda copy: copy.document(72).replace(b"72", b"-1"),
        lambda copy: copy.document(72).replace(b"72", b"72.5"),
        lambda copy: copy.document(72).replace(b"72", b"%d" % 2**63),
        lambda copy: copy.document(72).replace(b'"offset"', b'"position"'),
        lambda copy: copy.document(72).replace(b"{", b'{"more":0,', 1),
        lambda copy: copy.document(72) * 2,
    ]
    refused("checkpoints that aren't ours", others)
    accepted_documents()


def accepted_documents():
    """Checkpoints that are accepted, and where a run begins by them."""
    lines = numbered(10)
    cases = [
        ("a checkpoint without its line feed", lambda copy: copy.document(20)[:-1], lines[20:]),
        ("a checkpoint of another path", lambda copy: copy.document(20).replace(b"app.log", b"other.log"), lines),
        ("a checkpoint behind the end", lambda copy: copy.document(len(lines) + 1), lines),
        ("a checkpoint at the end", lambda copy: copy.document(len(lines)), b""),
    ]
    for name, document, wanted in cases:
        with tempfile.TemporaryDirectory() as folder:
            copy = Copy(folder)
            copy.given.write_bytes(lines)
            copy.mark.write_bytes(document(copy))
            seen = copy.end("--once"), copy.written(), copy.offset()
            check(name, seen == ((0, b"", b""), wanted, len(lines)), seen)


def folders():
    """Folders where files have to be, and a file that isn't there."""
    for name in ["given", "mark"]:
        with tempfile.TemporaryDirectory() as folder:
            copy = Copy(folder)
            copy.given.write_bytes(numbered(10))
            at = getattr(copy, name)
            at.unlink(missing_ok=True)
            at.mkdir()
            seen = copy.end("--once"), at.is_dir(), copy.written()
            check(f"a folder in the place of {name}", seen == ((69, b"", FAILED), True, b""), seen)
    with tempfile.TemporaryDirectory() as folder:
        copy, begun_at = Copy(folder), time.monotonic()
        seen = copy.end("--once"), copy.mark.exists()
        took = time.monotonic() - begun_at
        check("a file to be read once that isn't there, by five tries a second apart", seen == ((69, b"", FAILED), False) and 4 <= took < 20, (seen, took))
        ran = copy.begin("--once")
        time.sleep(2.5)
        copy.given.write_bytes(numbered(10))
        held = ended(ran), copy.written() == numbered(10), copy.offset() == len(numbered(10))
        check("a file to be read once that comes in time", held == ((0, b"", b""), True, True), held)
    with tempfile.TemporaryDirectory() as folder:
        copy = Copy(folder)
        ran = copy.begin()
        time.sleep(0.5)
        copy.given.write_bytes(numbered(10))
        held = comes(lambda: copy.offset() == len(numbered(10))), copy.written() == numbered(10), killed(ran)
        check("a file that comes later", held == (True, True, True), (held, copy.offset()))


def late_files():
    """Files that come after the run began, where a checkpoint is there already."""
    lines = numbered(10)
    for name, mark, wanted in [
        ("a file that comes later than its checkpoint", 11, lines[11:]),
        ("a shorter file that comes later than its checkpoint", len(lines) + 1, lines),
    ]:
        with tempfile.TemporaryDirectory() as folder:
            copy = Copy(folder)
            copy.mark.write_bytes(copy.document(mark))
            ran = copy.begin()
            time.sleep(0.5)
            kept = copy.offset()
            beside = copy.folder / "app.log.part"
            beside.write_bytes(lines)
            beside.rename(copy.given)
            comes(lambda: copy.offset() == len(lines) and copy.written() == wanted)
            seen = kept, copy.written(), copy.offset(), killed(ran)
            check(name, seen == (mark, wanted, len(lines), True), seen)


def followed():
    """The example that keeps the errors of a file, run again once the file has grown."""
    with tempfile.TemporaryDirectory() as folder:
        given, kept, words = Path(folder) / "app.log", Path(folder) / "errors.json", ["--config", TAIL, "--once"]
        first = b'{"file":"app.log","free":0.5,"level":"error","message":"disk full","source_type":"file"}\n'
        second = b'{"file":"app.log","message":"bad gateway","source_type":"file","status":502}\n'
        given.write_bytes(b'{"message":"started","level":"info"}\nSegmentation fault\n{"level":"error","message":"disk full","free":0.5}\n')
        seen = run(b"", words, cwd=folder), bytes_of(kept)
        check("the errors of a file", seen == ((0, b"", b""), first), seen)
        with open(given, "ab") as file:
            file.write(b'{"message":"bad gateway","status":502}\n')
        seen = run(b"", words, cwd=folder), bytes_of(kept)
        check("the errors that came since", seen == ((0, b"", b""), first + second), seen)


def closed_streams():
    """Standard streams that are closed at the beginning: no file that is opened comes in their place, to be written or to be read."""
    lines = numbered(10)
    for streams, name, wanted, came in CLOSED:
        with tempfile.TemporaryDirectory() as folder:
            copy = Copy(folder, more=CONSOLES.format(name=name))
            copy.given.write_bytes(lines)
            seen = run(b"in\n", ["--config", str(copy.config), "--once"], closed=streams), copy.written(), bytes_of(copy.given), bytes_of(copy.mark)
            check(f"without the streams {streams}", seen == (wanted, came + lines, lines, copy.document(len(lines))), seen)


# Two files, of which one is read, in lines of at most two bytes, and written as events.
SHORT_LINES = """\
data_dir = "."

[sources.in]
type = "file"
include = ["a.log"]
max_line_bytes = 2
read_from = "beginning"

[sources.beside]
type = "file"
include = ["b.log"]

[sinks.out]
type = "file"
path = "all.txt"
compression = "none"
inputs = ["in"]
encoding.codec = "json"
"""


def lines_of_files():
    """The lines of a file, as events with its path, beside a file that nobody reads."""
    with tempfile.TemporaryDirectory() as folder:
        at = Path(folder)
        (at / "copy.toml").write_text(SHORT_LINES)
        (at / "a.log").write_bytes(b"ab\nabc\n\n")
        (at / "b.log").write_bytes(b"never read\n")
        seen = run(b"", ["--config", "copy.toml", "--once", "--stats"], cwd=folder)
        wanted = b"".join(written({"file": "a.log", "message": it, "source_type": "file"}) for it in ["ab", ""])
        read = tally("source", "in", read=8, lines=2, overlong=1, events=2, batches=1, delivered=1, confirmed=8)
        beside = tally("source", "beside", read=11, lines=1, events=1, unread=1, batches=1, delivered=1, confirmed=11)
        held = (seen[0], seen[2], bytes_of(at / "all.txt")) == (0, b"", wanted), seen[1].startswith(beside + read)
        check("the lines of a file beside one that nobody reads", held == (True, True), (held, seen, bytes_of(at / "all.txt")))


def rights():
    """The rights of new files."""
    with tempfile.TemporaryDirectory() as folder:
        copy = Copy(folder)
        copy.given.write_bytes(numbered(10))
        before = os.umask(0o022)
        seen = copy.end("--once")
        os.umask(before)
        modes = [oct(stat.S_IMODE(path.stat().st_mode)) for path in (copy.out, copy.mark)]
        check("the rights of new files", (seen, modes) == ((0, b"", b""), ["0o644", "0o644"]), (seen, modes))


def turned(name, turn, wanted):
    """Checks what comes out where a file is changed while a run reads it, and what the checkpoint says at last."""
    with tempfile.TemporaryDirectory() as folder:
        copy = Copy(folder)
        copy.given.write_bytes(b"one\ntwo\n")
        ran = copy.begin()
        began = comes(lambda: copy.offset() == 8)
        last = turn(copy)
        held = began, comes(lambda: copy.written() == wanted), comes(lambda: copy.offset() == last), killed(ran)
        check(name, held == (True, True, True, True), (held, copy.written(), copy.offset()))


def renamed(copy):
    """Another file takes the place of a file, to whose end something more is written meanwhile."""
    old = open(copy.given, "ab", buffering=0)
    copy.given.rename(copy.folder / "app.log.1")
    copy.given.write_bytes(b"")
    time.sleep(0.2)
    old.write(b"three\nfo")
    time.sleep(0.2)
    old.close()
    copy.given.write_bytes(b"five\n")
    return 5


def cut(copy):
    """A file is cut to its front, and goes on there."""
    with open(copy.given, "ab", buffering=0) as file:
        file.write(b"thr")
        time.sleep(1)
        file.truncate(0)
        time.sleep(1)
        file.write(b"3\n")
    return 2


def removed(copy):
    """A file is removed, and comes again later."""
    copy.given.unlink()
    time.sleep(0.2)
    copy.given.write_bytes(b"1\n")
    return 2


def turns():
    """Files that are replaced, cut and removed while a run reads them."""
    turned("a file that another one replaces", renamed, b"one\ntwo\nthree\nfo\nfive\n")
    turned("a file that is cut", cut, b"one\ntwo\nthr\n3\n")
    turned("a file that is removed and comes again", removed, b"one\ntwo\n1\n")


class Disk:
    """A disk with little room, or none where this script may not mount one."""

    def __init__(self, folder):
        self.at = Path(folder) / "disk"
        self.at.mkdir()
        words = ["mount", "-t", "tmpfs", "-o", f"size={ROOM}", "none", str(self.at)]
        self.mounted = subprocess.run(words, capture_output=True).returncode == 0

    def fill(self):
        """Takes all of its room."""
        with open(self.at / "filler", "ab", buffering=0) as file:
            for size in [4_096, 1]:
                try:
                    while True:
                        file.write(b"x" * size)
                except OSError:
                    pass

    def free(self):
        """Gives its room back."""
        (self.at / "filler").unlink()

    def end(self):
        """Takes it away."""
        if self.mounted:
            subprocess.run(["umount", str(self.at)], check=True)


def runs_full(name, places, wanted):
    """Checks a run whose checkpoint, output or both stand on a full disk, and the run behind it, once there is room."""
    with tempfile.TemporaryDirectory() as folder:
        disk = Disk(folder)
        if not disk.mounted:
            print(f"skipped {name}: this script may mount no disk", flush=True)
            return
        try:
            copy = Copy(folder, more="request.retry_attempts = 0", **{place: disk.at for place in places})
            copy.given.write_bytes(numbered(10))
            copy.mark.write_bytes(copy.document(10))
            disk.fill()
            seen = copy.end("--once"), copy.written(), copy.offset(), sorted(os.listdir(copy.mark.parent))
            disk.free()
            again = copy.end("--once"), copy.written(), copy.offset()
        finally:
            disk.end()
        lines = numbered(10)[10:]
        first = wanted["status"], b"", wanted["err"]
        left = "app.checkpoint.json.new" in seen[3]
        check(name, (seen[:3], left) == ((first, wanted["wrote"], 10), False), seen)
        check(f"{name}, and then there is room", again == ((0, b"", b""), wanted["wrote"] + lines, len(numbered(10))), again)


def full_disks():
    """A disk without room for the checkpoint, for the output, and for both."""
    lines = numbered(10)[10:]
    runs_full("a full disk for the checkpoint", ["marks"], {"status": 74, "err": UNCONFIRMED, "wrote": lines})
    runs_full("a full disk for the output", ["out"], {"status": 0, "err": b"", "wrote": b""})
    runs_full("a full disk for both", ["marks", "out"], {"status": 0, "err": b"", "wrote": b""})


def whole_files():
    """A large file that is there from the beginning, with a long line, and one without a line feed at its end."""
    with tempfile.TemporaryDirectory() as folder:
        copy = Copy(folder)
        lines = numbered(20_000) + b"y" * 100_000 + b"\n"
        copy.given.write_bytes(lines)
        seen = copy.end("--once"), copy.written() == lines, copy.offset() == len(lines)
        check("a large file", seen == ((0, b"", b""), True, True), (seen, copy.offset(), len(lines)))
        with open(copy.given, "ab") as file:
            file.write(b"open")
        seen = copy.end("--once"), copy.written() == lines + b"open\n"
        check("a last line that is open", seen == ((0, b"", b""), True), seen)


if __name__ == "__main__":
    sys.exit(go_through([whole_files, followed, lines_of_files, documents, folders, closed_streams, late_files, rights, turns, full_disks, restarts]))
