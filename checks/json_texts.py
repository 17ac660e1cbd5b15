#!/usr/bin/env python3
"""Has `vx_bench` read JSON texts that are made at random, as they are and broken at each place, and compares what it writes with Python.

A text that is an event is written in its one spelling, as Python's own reader has it. Of any other the fault is told with its place, which is
that of a reader written here, byte by byte by RFC 8259: where Python's reader takes a text, this one finds no fault, and the other way round.

It prints a line for each check, and ends with 'N passed, M failed'. The status is 1 where one failed.
"""

import json
import random
import subprocess
import sys

from events import Spelled, spelled
from running import PATIENCE, TOP, check, results

READER = str(TOP / "crates" / "vx_bench" / "out" / "vx_bench")
EVENTS = 4000
BROKEN = 10
LEVELS = 32
BLANKS = b" \t\n\r"
DIGITS = b"0123456789"
HEX = b"0123456789abcdefABCDEF"
PLAIN = {"\b": "\\b", "\f": "\\f", "\n": "\\n", "\r": "\\r", "\t": "\\t", '"': '\\"', "\\": "\\\\"}
LETTERS = "ab zé\u20ac\U0001f600/\x7f" + "".join(PLAIN) + "\0\x1f"
NUMBERS = ["0", "-0", "7", "-12", "1.0", "0.25", "-0.5e-3", "1e2", "1E+9", "9223372036854775807", "9223372036854775808", "-9223372036854775808", "12345678901234567890123"]


class Stopped(Exception):
    """Where a text stops being one."""


class Reader:
    """Reads a text byte by byte, and stops at the first byte by which it begins no JSON text, or at the first that opens a level too many."""

    def __init__(self, text):
        self.text, self.at, self.levels = text, 0, 0

    def stop(self):
        raise Stopped(f"NotJson {{ at: {self.at} }}")

    def next(self):
        return self.text[self.at : self.at + 1]

    def one_of(self, those):
        """Takes a byte that has to be one of those."""
        found = self.next()
        if not found or found not in those:
            self.stop()
        self.at += 1
        return found

    def blanks(self):
        while self.next() and self.next() in BLANKS:
            self.at += 1

    def word(self, word):
        for k in range(len(word)):
            self.one_of(word[k : k + 1])

    def digits(self):
        self.one_of(DIGITS)
        while self.next() and self.next() in DIGITS:
            self.at += 1

    def number(self):
        if self.next() == b"-":
            self.at += 1
        if self.one_of(DIGITS) != b"0":
            while self.next() and self.next() in DIGITS:
                self.at += 1
        if self.next() == b".":
            self.at += 1
            self.digits()
        if self.next() and self.next() in b"eE":
            self.at += 1
            if self.next() and self.next() in b"+-":
                self.at += 1
            self.digits()

    def hexadecimal(self, first=HEX, second=HEX):
        return b"".join(self.one_of(those) for those in (first, second, HEX, HEX))

    def escape(self):
        if self.one_of(b'"\\/bfnrtu') != b"u":
            return
        first = self.one_of(HEX)
        second = self.one_of(b"0123456789abAB" if first in b"dD" else HEX)
        self.one_of(HEX)
        self.one_of(HEX)
        if first in b"dD" and second in b"89abAB":
            self.word(b"\\u")
            self.hexadecimal(b"dD", b"cdefCDEF")

    def character(self):
        """Takes a character of more than one byte."""
        first = self.next()[0]
        least, most = {0xE0: (0xA0, 0xBF), 0xED: (0x80, 0x9F), 0xF0: (0x90, 0xBF), 0xF4: (0x80, 0x8F)}.get(first, (0x80, 0xBF))
        more = 1 if 0xC2 <= first <= 0xDF else 2 if 0xE0 <= first <= 0xEF else 3 if 0xF0 <= first <= 0xF4 else 0
        if not more:
            self.stop()
        self.at += 1
        self.one_of(bytes(range(least, most + 1)))
        for _ in range(more - 1):
            self.one_of(bytes(range(0x80, 0xC0)))

    def string(self):
        self.one_of(b'"')
        while self.next() != b'"':
            if not self.next() or self.next()[0] < 0x20:
                self.stop()
            if self.next() == b"\\":
                self.at += 1
                self.escape()
            elif self.next()[0] < 0x80:
                self.at += 1
            else:
                self.character()
        self.at += 1

    def member(self):
        self.string()
        self.blanks()
        self.one_of(b":")
        self.value()

    def parts(self, closing, part):
        """Takes what stands between brackets or braces."""
        self.levels += 1
        if self.levels > LEVELS:
            raise Stopped(f"Deep {{ at: {self.at} }}")
        self.at += 1
        self.blanks()
        if self.next() == closing:
            self.at += 1
        else:
            part()
            while self.one_of(b"," + closing) == b",":
                self.blanks()
                part()
        self.levels -= 1

    def value(self):
        """Takes a value with the blanks around it."""
        self.blanks()
        found = self.next()
        words = {b"t": b"true", b"f": b"false", b"n": b"null"}
        if found == b"{":
            self.parts(b"}", self.braced)
        elif found == b"[":
            self.parts(b"]", self.value)
        elif found == b'"':
            self.string()
        elif found in words:
            self.word(words[found])
        elif found and found in DIGITS + b"-":
            self.number()
        else:
            self.stop()
        self.blanks()

    def braced(self):
        self.member()


def fault_of(text):
    """The fault of a text, or none where it is an event."""
    reader = Reader(text)
    try:
        reader.value()
        if reader.next():
            reader.stop()
    except Stopped as stopped:
        return str(stopped)
    return None if text.strip(BLANKS).startswith(b"{") else "NotObject"


def refuse(word):
    raise ValueError(word)


def encoded(members):
    """The fields of an object. Python's reader takes single surrogates, which can't be encoded."""
    for member in members:
        spelled(member).encode()
    return dict(members)


def value_of(text):
    """What Python's reader makes of a text, in its one spelling, or none where that is no JSON."""
    try:
        value = json.loads(text.decode(), parse_int=Spelled, parse_float=Spelled, parse_constant=refuse, object_pairs_hook=encoded)
        return spelled(value).encode()
    except ValueError:
        return None


def blank(chance):
    return "".join(chance.choices(" \t\r\n", k=chance.choice([0, 0, 0, 1, 3])))


def letter(chance):
    """A character of a string as it may be spelled."""
    it = chance.choice(LETTERS)
    units = it.encode("utf-16-be")
    escaped = "".join(f"\\u{units[k:k + 2].hex()}" for k in range(0, len(units), 2))
    how = chance.randrange(4)
    if how == 0:
        return escaped.upper().replace("\\U", "\\u")
    if it == "/" and how == 1:
        return "\\/"
    return PLAIN.get(it) or (escaped if it < " " else it)


def string(chance):
    return '"' + "".join(letter(chance) for _ in range(chance.randrange(6))) + '"'


def made(chance, levels):
    """The text of a value."""
    kind = chance.randrange(7 if levels else 5)
    if kind < 2:
        return chance.choice([*NUMBERS, str(chance.randrange(-(10**6), 10**6))])
    if kind < 4:
        return string(chance)
    if kind == 4:
        return chance.choice(["true", "false", "null"])
    if kind == 5:
        return "[" + ",".join(blank(chance) + made(chance, levels - 1) + blank(chance) for _ in range(chance.randrange(4))) + blank(chance) + "]"
    return made_object(chance, levels - 1)


def made_object(chance, levels):
    """The text of an object, some of whose names come twice."""
    names = [string(chance) for _ in range(chance.randrange(5))]
    names += chance.sample(names, chance.randrange(len(names) + 1))
    members = (blank(chance) + name + blank(chance) + ":" + blank(chance) + made(chance, levels) + blank(chance) for name in names)
    return "{" + (",".join(members) or blank(chance)) + "}"


def event(chance):
    return (blank(chance) + made_object(chance, chance.randrange(1, 6)) + blank(chance)).encode()


def asked(task, given):
    """The status, the output and the errors of a task."""
    ran = subprocess.run([READER, task], input=given, capture_output=True, timeout=PATIENCE)
    return ran.returncode, ran.stdout, ran.stderr


def whole_ones():
    """Texts of events are written in their one spelling."""
    chance = random.Random(11)
    texts = [event(chance).replace(b"\n", b" ") for _ in range(EVENTS)]
    wanted = [value_of(text) for text in texts]
    check("Python takes each text", None not in wanted, texts[wanted.index(None)] if None in wanted else b"")
    status, out, err = asked("copy", b"".join(text + b"\n" for text in texts))
    seen = out.splitlines()
    wrong = next((pair for pair in zip(texts, wanted, seen) if pair[1] != pair[2]), None)
    check(f"{EVENTS} events in their one spelling", (status, len(seen), wrong, err) == (0, EVENTS, None, b""), (status, len(seen), wrong, err))


def breaks(text, chance):
    """A text, its beginnings, and the text with a byte changed, left out or doubled at each place."""
    for k in range(len(text)):
        yield text[:k]
        yield text[:k] + text[k + 1 :]
        yield text[:k] + text[k : k + 1] + text[k:]
        yield text[:k] + bytes([chance.choice([chance.randrange(256), *b'{}[],:"\\ 0-.eEudtn'])]) + text[k + 1 :]


def agree(fault, value):
    """Whether Python's reader takes a text as this one does, which alone counts levels."""
    return str(fault).startswith("Deep") or (fault in (None, "NotObject")) == (value is not None)


def told(fault):
    """The status and the errors by which a fault is told, if there is one."""
    return (65, f"vx_bench: the input is no event: {fault}\n".encode()) if fault else (0, b"")


def broken_ones():
    """Texts that are broken, each with its fault."""
    chance = random.Random(12)
    texts = [event(chance) for _ in range(BROKEN)]
    texts += [b'{"a":' + levels * b"[" + b"1" + levels * b"]" + b"}" for levels in (LEVELS - 1, LEVELS)]
    for text in texts:
        wrong = None
        for broken in {text, *breaks(text, chance)}:
            fault, value = fault_of(broken), value_of(broken)
            status, _, err = asked("text", broken)
            if not agree(fault, value) or (status, err) != told(fault):
                wrong = (broken, fault, value, status, err)
        check(f"{text[:40]!r} broken at each of {len(text)} places", wrong is None, wrong)


def main():
    for part in (whole_ones, broken_ones):
        part()
    failed = results.count(False)
    print(f"{results.count(True)} passed, {failed} failed")
    return 1 if failed else 0


if __name__ == "__main__":
    sys.exit(main())
