#!/usr/bin/env python3
"""Measures how lines are copied from a file to a file, beside syslog-ng, rsyslog and `mawk 1`.

Each program copies the same file of 1,000,000 lines of 100 bytes into a new file, in turn, three times each, and the copy has to be
the same, byte for byte. The least processor time counts, of user and system, of the whole group of a program's processes, and the
greatest memory. The program runs in three ways, each in batches of 1,000: from a file to a file with acknowledgements and without
them (`--once`), and from standard input to standard output (`examples/batched.toml`). Then it copies 10,000 lines in each way, which
says whether its memory grows with the lines.

syslog-ng and rsyslog go on by themselves: once the copy has all bytes their time and memory are read, and they are ended. They begin
with what they need to start, as the others do. Both write in batches of 1,000 too.

A first argument is another number of lines. It needs Python 3.11, `mawk`, GNU `time`, and Debian's packages syslog-ng-core and rsyslog.
Either of these two refuses to be installed beside the other, so rsyslog may also be unpacked, in `bench/out/rsyslog`:

    cd bench/out && apt-get download rsyslog && dpkg -x rsyslog_*.deb rsyslog && apt-get install libestr0 libfastjson4
"""

import filecmp
import os
import shutil
import signal
import subprocess
import sys
import tempfile
import time
from pathlib import Path

from events import load
from program import TOP, VECTOR, lines_file

ROUNDS = 3
FEW = 10_000
PATIENCE = 300
FLAT = 1_024
TICKS = os.sysconf("SC_CLK_TCK")
UNPACKED = TOP / "bench/out/rsyslog"
VECTOR_FILES = """\
data_dir = "{folder}"
acknowledgements = {acknowledged}

[sources.in]
type = "file"
include = ["{source}"]

[sinks.out]
type = "file"
path = "{sink}"
inputs = ["in"]
encoding.codec = "text"
batch.max_events = 1000
"""
SYSLOG_NG = """\
@version: {version}
options {{ stats-freq(0); log-fifo-size(20000); }};
source s {{ file("{source}" follow-freq(0.1) flags(no-parse) log-fetch-limit(1000) log-iw-size(10000)); }};
destination d {{ file("{sink}" template("$MSG\\n") flush-lines(1000)); }};
log {{ source(s); destination(d); flags(flow-control); }};
"""
RSYSLOG = """\
global(workDirectory="{folder}")
main_queue(queue.type="LinkedList" queue.size="20000" queue.dequeueBatchSize="1000" queue.workerThreads="1")
module(load="imfile")
template(name="line" type="string" string="%msg%\\n")
input(type="imfile" file="{source}" tag="lines")
action(type="omfile" file="{sink}" template="line" ioBufferSize="128k")
"""


def installed(name):
    """The path of a program."""
    path = shutil.which(name, path=os.environ["PATH"] + ":/usr/sbin:/sbin")
    if path is None:
        sys.exit(f"not installed: {name}")
    return path


def rsyslog_words():
    """How rsyslog is called, where it is installed or unpacked, with the folder of its modules."""
    unpacked = UNPACKED / "usr/sbin/rsyslogd"
    if not unpacked.exists():
        return [installed("rsyslogd")]
    return [str(unpacked), "-M", str(next(UNPACKED.glob("usr/lib/*/rsyslog")))]


def version_of(words):
    """The first line that a program says of its version."""
    told = subprocess.run(words, capture_output=True, text=True, check=True).stdout.splitlines()[0]
    return " ".join(told.split("(aka")[0].split())


def timed(words, given=None, taken=None):
    """The processor's seconds and the KB of memory of a program that ends by itself, and of the programs that it ran."""
    with tempfile.NamedTemporaryFile("r") as said:
        subprocess.run(["/usr/bin/time", "-f", "%U %S %M", "-o", said.name, *words], stdin=given, stdout=taken, check=True)
        user, system, most = said.read().split()[-3:]
    return float(user) + float(system), int(most)


def streamed(words, source, sink):
    """As `timed`, of a program that copies its standard input."""
    with source.open("rb") as given, sink.open("wb") as taken:
        return timed(words, given, taken)


def vector_files(folder, source, sink, acknowledged):
    """As `timed`, of the program from a file to a file."""
    configuration = folder / "vector.toml"
    configuration.write_text(VECTOR_FILES.format(folder=folder, source=source, sink=sink, acknowledged=str(acknowledged).lower()))
    return timed([VECTOR, "--config", str(configuration), "--once"], subprocess.DEVNULL)


def group_of(leader):
    """The processes of a group, each by the fields of its state behind its name."""
    found = {}
    for folder in Path("/proc").glob("[0-9]*"):
        try:
            fields = (folder / "stat").read_text().rpartition(")")[2].split()
        except OSError:
            continue
        if int(fields[2]) == leader:
            found[folder] = fields
    return found


def memory_of(folder):
    """The greatest KB of memory that a running process had."""
    told = dict(line.split(":", 1) for line in (folder / "status").read_text().splitlines())
    return int(told["VmHWM"].split()[0])


def used_by(leader):
    """The processor's seconds of a running group, with its processes that ended, and the KB of memory that they had at most."""
    group = group_of(leader)
    ticks = sum(int(fields[k]) for fields in group.values() for k in range(11, 15))
    return ticks / TICKS, sum(memory_of(folder) for folder in group)


def until_copied(words, source, sink):
    """As `timed`, of a program that goes on by itself, up to the moment at which it has copied the file."""
    ran = subprocess.Popen(words, stdin=subprocess.DEVNULL, stdout=subprocess.DEVNULL, stderr=subprocess.PIPE, start_new_session=True)
    end = time.monotonic() + PATIENCE
    while not sink.exists() or sink.stat().st_size < source.stat().st_size:
        if ran.poll() is not None or time.monotonic() > end:
            ran.kill()
            sys.exit(f"{words[0]} did not copy the file: {ran.stderr.read().decode()}")
        time.sleep(0.01)
    used = used_by(ran.pid)
    ran.send_signal(signal.SIGTERM)
    ran.communicate()
    return used


def syslog_ng(folder, source, sink):
    """As `until_copied`, of syslog-ng."""
    told = subprocess.run([installed("syslog-ng"), "--version"], capture_output=True, text=True, check=True).stdout
    version = ".".join(told.split("(", 1)[1].split(")")[0].split(".")[:2])
    configuration = folder / "syslog-ng.conf"
    configuration.write_text(SYSLOG_NG.format(version=version, source=source, sink=sink))
    names = [f"--{name}={folder / name}" for name in ("persist-file", "pidfile", "control")]
    return until_copied([installed("syslog-ng"), "--foreground", "--no-caps", f"--cfgfile={configuration}", *names], source, sink)


def rsyslog(folder, source, sink):
    """As `until_copied`, of rsyslog."""
    configuration = folder / "rsyslog.conf"
    configuration.write_text(RSYSLOG.format(folder=folder, source=source, sink=sink))
    return until_copied([*rsyslog_words(), "-n", "-f", str(configuration), "-i", str(folder / "rsyslog.pid")], source, sink)


OURS = {
    "vector": lambda folder, source, sink: vector_files(folder, source, sink, False),
    "vector, acknowledged": lambda folder, source, sink: vector_files(folder, source, sink, True),
    "vector, streams": lambda _, source, sink: streamed([VECTOR, "--config", str(TOP / "examples/batched.toml")], source, sink),
}
OTHERS = {
    "syslog-ng": syslog_ng,
    "rsyslog": rsyslog,
    "mawk 1": lambda _, source, sink: streamed(["mawk", "1"], source, sink),
}


def copied(name, copy, source):
    """The processor's seconds and the KB of memory that one copy took, from nothing."""
    with tempfile.TemporaryDirectory() as folder:
        sink = Path(folder) / "sink"
        used = copy(Path(folder), source, sink)
        if not filecmp.cmp(source, sink, shallow=False):
            sys.exit(f"{name} wrote other bytes than it read")
    return used


def tell(took, most, few):
    """Prints the ratios, and whether the program's memory grows."""
    for ours in OURS:
        for other in ["syslog-ng", "rsyslog"]:
            print(f"{other} takes {took[other] / took[ours]:.2f} times the processor time of {ours}, and {most[other] / most[ours]:.1f} times its memory")
        print(f"{ours} takes {took[ours] / took['mawk 1']:.2f} times the processor time of mawk 1")
    print(f"acknowledgements take {took['vector, acknowledged'] / took['vector']:.2f} times the processor time of none")
    for ours in OURS:
        more = most[ours] - few[ours]
        print(f"{ours}: {few[ours]} KB with {FEW} lines, {most[ours]} KB with all: {'flat' if more <= FLAT else f'it grows by {more} KB'}")


def main():
    count = int(sys.argv[1]) if len(sys.argv) > 1 else 1_000_000
    source, short = lines_file(count), lines_file(FEW)
    # (the script builds the program, which is then measured by itself)
    subprocess.run([str(TOP / "vector"), "--config", str(TOP / "examples/first.toml")], stdin=subprocess.DEVNULL, check=True)
    print(f"{version_of([installed('syslog-ng'), '--version'])}; {version_of([*rsyslog_words()[:1], '-v'])}")
    print(f"{count} lines of 100 bytes from a file to a file, the best of {ROUNDS} runs; before: {load()}", flush=True)
    seen = {name: [] for name in OURS | OTHERS}
    for _ in range(ROUNDS):
        for name, copy in (OURS | OTHERS).items():
            seen[name].append(copied(name, copy, source))
    took = {name: max(min(run[0] for run in runs), 1 / TICKS) for name, runs in seen.items()}
    most = {name: max(run[1] for run in runs) for name, runs in seen.items()}
    for name in seen:
        print(f"{name:22}{took[name]:8.2f} s of a processor {1e6 * took[name] / count:6.2f} us a line {most[name]:8} KB")
    few = {name: max(copied(name, copy, short)[1] for _ in range(ROUNDS)) for name, copy in OURS.items()}
    tell(took, most, few)
    print(f"after: {load()}")


if __name__ == "__main__":
    main()
