"""Runs the built program, notes what is checked of it, and says how much held."""

import json
import os
import subprocess
import sys
import tempfile
from pathlib import Path

TOP = Path(__file__).resolve().parent.parent
PROGRAM = str(TOP / "vector")
BUILT = str(TOP / "crates" / "vector" / "out" / "vector")
FIRST = str(TOP / "examples" / "first.toml")
USAGE = b"vector: usage: vector --config FILE [options]\nvector: usage: vector validate FILE\n"
PATIENCE = 120

results = []


def check(name, held, seen):
    """Notes and prints whether a check held."""
    results.append(held)
    print(f"ok      {name}" if held else f"FAILED  {name}: {seen}", flush=True)


def ended(ran):
    """The status, the output and the errors of a run that ends by itself."""
    try:
        out, err = ran.communicate(timeout=PATIENCE)
    except subprocess.TimeoutExpired:
        ran.kill()
        return ("it did not end", *ran.communicate())
    return ran.returncode, out, err


def without(streams, words):
    """The words of a run of the built program that begins without some standard streams, each as the shell says it: `<&-`, `>&-` or `2>&-`."""
    return ["sh", "-c", f'exec "$@" {streams}', "sh", BUILT, *words]


def run(given, words=("--config", FIRST), cwd=None, variables=None, closed=None):
    """The status, the output and the errors of one run on that input, with these variables beside those of this process, and without some standard streams.

    With variables the built program is called without its script: a shell drops those whose names it doesn't take.
    """
    environment = {**os.environb, **(variables or {})}
    called = without(closed, words) if closed else [BUILT if variables else PROGRAM, *words]
    try:
        ran = subprocess.run(called, input=given, capture_output=True, timeout=PATIENCE, cwd=cwd, env=environment)
    except subprocess.TimeoutExpired:
        return "it did not end", b"", b""
    return ran.returncode, ran.stdout, ran.stderr


def built():
    """Has the program built where it has to be, however long that takes, and says whether it stands."""
    ran = subprocess.run([PROGRAM], stdin=subprocess.DEVNULL, capture_output=True)
    if ran.returncode != 64:
        sys.stdout.buffer.write(ran.stderr)
    return ran.returncode == 64


def library_of(source, folder):
    """The path of a library in C that is loaded before others, built in a folder."""
    (Path(folder) / "library.c").write_bytes(source)
    subprocess.run(["cc", "-shared", "-fPIC", "-o", "library.so", "library.c"], cwd=folder, check=True)
    return os.fsencode(folder) + b"/library.so"


def outcome_of(text, given, *words, variables=None):
    """The status, the output and the errors of a run of a configuration on that input."""
    with tempfile.TemporaryDirectory() as folder:
        (Path(folder) / "other.toml").write_text(text)
        return run(given, ["--config", "other.toml", *words], cwd=folder, variables=variables)


def written(fields):
    """The line of an event: its fields by the bytes of their names, without blanks."""
    return json.dumps(fields, sort_keys=True, ensure_ascii=False, separators=(",", ":")).encode() + b"\n"


def counted(line, name):
    """A count of a line of counts."""
    return int(dict(pair.split(b"=") for pair in line.split() if b"=" in pair)[name])


# What each kind of component counts, in the order in which it is printed.
COUNTS = {
    "source": ["read", "lines", "overlong", "undecodable", "events", "unread", "batches", "delivered", "errored", "rejected", "confirmed"],
    "transform": ["taken", "sent", "dropped", "unread"],
    "sink": ["taken", "newest", "attempts", "delivered", "errored", "rejected", "bytes"],
}


def tally(kind, name, **counted):
    """The line of what a component counted: 0 where nothing is said."""
    return " ".join([kind, name, *(f"{it}={counted.get(it, 0)}" for it in COUNTS[kind])]).encode() + b"\n"


def go_through(parts):
    """Calls some functions that check something, says how many checks held, and returns the status."""
    if not built():
        print("0 passed, 1 failed")
        return 1
    for part in parts:
        part()
    failed = results.count(False)
    print(f"{results.count(True)} passed, {failed} failed")
    return 1 if failed else 0
