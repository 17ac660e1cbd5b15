#!/usr/bin/env python3
"""Has the built program read events, judge them and replace variables, and compares what it writes and counts with what is known otherwise.

It prints a line for each check, and ends with 'N passed, M failed'. The status is 1 where one failed.
"""

import json
import random
import re
import sys
from collections import OrderedDict

from running import FIRST, TOP, check, counted, go_through, outcome_of, run, tally, written

LINES = '[sources.in]\ntype = "stdin"\n'
OBJECTS = LINES + 'decoding.codec = "json"\n'
MESSAGES = '[sinks.out]\ntype = "console"\ninputs = ["in"]\nencoding.codec = "text"\n'
EVENTS = MESSAGES.replace('"text"', '"json"')
THINNED = str(TOP / "examples" / "thinned.toml")
REDUCED = str(TOP / "examples" / "reduced.toml")
NUMBERED = str(TOP / "examples" / "numbered.toml")
TRACES = TOP / "examples" / "traces.log"
FILTERED = EVENTS.replace('["in"]', '["f"]')
HOSTED = EVENTS.replace('["in"]', '["numbering"]') + '[transforms.numbering]\ntype = "host"\ninputs = ["in"]\n'


def reading(source, **counted):
    """The counts of a source that read some bytes at once, all of which made one batch that was delivered."""
    return tally("source", "in", read=len(source), confirmed=len(source), batches=1, delivered=1, **counted)


def writing(out, count, name="out"):
    """The counts of a sink that wrote so many events one after the other."""
    return tally("sink", name, taken=count, attempts=count, delivered=count, bytes=len(out))


class Spelled(str):
    """A number as it is spelled."""


def spelled(value):
    """The text of a value: names by their bytes, no blanks, and numbers as they were spelled."""
    if isinstance(value, Spelled):
        return str(value)
    if isinstance(value, dict):
        return "{" + ",".join(f"{spelled(name)}:{spelled(value[name])}" for name in sorted(value, key=str.encode)) + "}"
    if isinstance(value, (list, tuple)):
        return "[" + ",".join(map(spelled, value)) + "]"
    return json.dumps(value, ensure_ascii=False)


def line_of(text):
    """The line of the event of a text, as Python reads it."""
    return spelled({"source_type": "stdin", **json.loads(text, parse_int=Spelled, parse_float=Spelled)}).encode() + b"\n"


# Texts of events: blanks, escapes, names that come twice, numbers, and characters of each length.
TEXTS = [
    r'{"n":0.25,"b":1,"a":null}',
    ' { "a" : [ true , false , { } , [ ] ] , "" : "" }\r\t',
    r'{"a":1,"b":2,"a":3}',
    r'{"c":1,"a":2,"b":3,"a":4}',
    r'{"a":1,"\u0061":2}',
    r'{"a":{"b":1,"b":2},"a":{"c":3}}',
    r'{"b":0,"a":1,"b":2,"a":3,"c":4,"b":5}',
    r'{"f":1,"e":2,"d":3,"c":4,"b":5,"a":6}',
    r'{"a":" / ","b":[[],[{}],{"c":[]}],"c":null}',
    r'{"a":[-0,1.0,1e2,1E+2,9223372036854775807,-9223372036854775808,9223372036854775808]}',
    r'{"a":[-1,0,9007199254740993,-9223372036854775808,18446744073709551616]}',
    r'{"a":"\u0041\ud83d\ude00\/\b\f\n\r\t\u001f"}',
    r'{"a":"\"\\\/\b\f\n\r\t"}',
    r'{"a":"\u0000\u001F\u007f\u00e9\u20AC\uD7ff\uE000\uffff"}',
    r'{"a":"\uD800\uDC00\uDBFF\uDFFF\ud83d\uDe00"}',
    r'{"a":"\u0022\u005c\u002F"}',
    r'{"é":1,"z":2,"Z":3,"":4,"\uffff":5,"\ud800\udc00":6}',
    '{"a":"\u0080\u07ff\u0800\ud7ff\ue000\uffff\U00010000\U0010ffff"}',
    '{"a":' + 31 * "[" + 31 * "]" + "}",
    r'{"source_type":"file"}',
    r'{"source_type":null,"a":1}',
]

# Lines that give no event: no JSON, no object, or more than 32 levels.
NO_EVENTS = ["x", "[1]", "1", '"x"', "null", '{"a":1', '{"a":1}}', '{"a":01}', '{"a":NaN}', r'{"a":"\ud800"}', "\ufeff{}", '{"a":' + 32 * "[" + 32 * "]" + "}"]


def objects():
    """Events with all kinds of values, each in its one spelling, and lines that are no events."""
    for text in TEXTS:
        seen = outcome_of(OBJECTS + EVENTS, text.encode() + b"\n")
        check(f"the event of {text}", seen == (0, line_of(text), b""), seen)
    events = [text for text in TEXTS for _ in NO_EVENTS]
    given = "".join(f"{event}\n{other}\n" for event, other in zip(events, NO_EVENTS * len(TEXTS))).encode()
    out = b"".join(map(line_of, events))
    status, shown, err = outcome_of(OBJECTS + EVENTS, given, "--stats")
    source = shown.splitlines()[-2]
    held = (status, shown[: len(out)], err) == (0, out, b""), [counted(source, it) for it in (b"lines", b"undecodable", b"events")]
    check("lines that are no events, between events", held == (True, [2 * len(events), len(events), len(events)]), (status, source, held))


# Messages of each kind, and what is written of each.
KINDS = [("1", "1"), ('[1, "a"]', '[1,"a"]'), (None, ""), ('{"b":null,"a":true}', '{"a":true,"b":null}'), ("null", "null"), ('"x"', "x"), ('"a\\nb"', "a\nb")]


def messages():
    """A text is written as it stands, another value as JSON, and no message as an empty line."""
    given = "".join("{}\n" if it is None else f'{{"message":{it}}}\n' for it, _ in KINDS).encode()
    out = "".join(f"{shown}\n" for _, shown in KINDS).encode()
    wanted = out + reading(given, lines=len(KINDS), events=len(KINDS)) + writing(out, len(KINDS))
    seen = outcome_of(OBJECTS + MESSAGES, given, "--stats")
    check("messages of each kind", seen == (0, wanted, b""), seen)


def lengths():
    """Lines that are too long, empty lines and lines that are no events, as they are counted."""
    seen = outcome_of(LINES + "max_length = 3\n" + MESSAGES, b"abc\nabcd\nd\n", "--stats")
    wanted = b"abc\nd\n" + reading(b"abc\nabcd\nd\n", lines=2, overlong=1, events=2) + writing(b"abc\nd\n", 2)
    check("a line that is too long is counted", seen == (0, wanted, b""), seen)
    given, out = b'{"a":1}\n\nx\n', b'{"a":1,"source_type":"stdin"}\n'
    seen = outcome_of(OBJECTS + EVENTS, given, "--stats")
    wanted = out + reading(given, lines=3, undecodable=1, events=1) + writing(out, 1)
    check("an empty line isn't counted as undecodable", seen == (0, wanted, b""), seen)


def passed(condition, events, source=OBJECTS):
    """Which of some lines a filter passes, no two of which are the same: `1` for each that it does, else `0`; or what was wrong."""
    text = f'{source}[transforms.f]\ntype = "filter"\ninputs = ["in"]\ncondition = {json.dumps(condition)}\n{FILTERED}'
    runs = [outcome_of(it, b"".join(events)) for it in (source + EVENTS, text)]
    whole, kept = (out.splitlines() for _, out, _ in runs)
    held = [run[0] for run in runs] == [0, 0] and len(whole) == len(events) and kept == [line for line in whole if line in kept]
    return "".join("1" if line in kept else "0" for line in whole) if held else runs


# Patterns, each of which is tried on each of the texts by Python too.
PATTERNS = [
    "^d.*l$", r"\d+", r"^\w+ \w+$", "[^a-z ]", "(error|warn)ing", "colou?r", "a{2,3}b", "^a{2,3}b$", r"\bfull\b", "(?i)DISK", "x*", "^$",
    r"\.log$", "(ab)+c", "[0-9]{3}-[0-9]{4}", "a+?b", r"\s\S", "^(a|b)*c",
]
SUBJECTS = ["disk full", "a fool is full of diskettes", "warning 12", "555-1234 x.log", "aaab ababc", "colour", ""]

# Conditions on three bits.
STRENGTH = [".a||.b&&!.c", "(.a||.b)&&!.c", "!(.a||.b)&&.c", ".a&&.b||.c", "!.a||.b&&.c", "!!.a&&!(.b&&.c)", ".c||.a&&.b||.b&&.c"]

# Values of each kind, none first, and on which of them each condition holds.
VALUES = [{}, {"v": None}, {"v": True}, {"v": 3}, {"v": 3.5}, {"v": "3"}, {"v": []}, {"v": {"a": 3}}]
OPERATORS = [
    (".v == null", "11000000"), (".v != null", "00111111"), (".v == true", "00100000"), (".v != true", "11011111"), (".v == false", "00000000"),
    (".v == 3", "00010000"), (".v != 3", "11101111"), ('.v == "3"', "00000100"), ('.v != "3"', "11111011"),
    (".v < 4", "00010000"), (".v < 3", "00000000"), (".v <= 3", "00010000"), (".v > 2", "00010000"), (".v > 3", "00000000"), (".v >= 3", "00010000"),
    ("exists(.v)", "01111111"), ('contains(.v, "3")', "00000100"), ("match(.v, r'3')", "00000100"),
]

# The same condition without blanks, and with blanks wherever they may stand.
BLANKS = [
    '.m!="b"&&(exists(.m)||.n>=-1)&&!match(.m,r\'c\')&&contains!(.m,"a")',
    '.m\t!=\n"b"\r&& ( exists\n(\t.m ) || .n >=\t-1\n)\r\n&&\t! match ( .m , r\'c\' ) && contains ! ( .m , "a" )',
]


def bits_of(number):
    """The three bits of a number below 8."""
    return {"a": number >= 4, "b": number % 4 >= 2, "c": number % 2 == 1}


def says(condition, bits):
    """Whether a condition on bits holds, by Python."""
    return eval(condition.replace("!", " not ").replace("&&", " and ").replace("||", " or ").replace(".", ""), {}, bits)


def conditions():
    """Filters by patterns, by operators and by conditions that are put together."""
    for pattern in PATTERNS:
        wanted = "".join("1" if re.search(pattern, text) else "0" for text in SUBJECTS)
        seen = passed(f"match(.message, r'{pattern}')", [f"{text}\n".encode() for text in SUBJECTS], LINES)
        check(f"the pattern {pattern}", seen == wanted, (seen, wanted))
    for condition in STRENGTH:
        wanted = "".join("1" if says(condition, bits_of(k)) else "0" for k in range(8))
        seen = passed(re.sub(r"(\.[abc])", r"\1==true", condition), [written(bits_of(k)) for k in range(8)])
        check(f"the condition {condition}", seen == wanted, (seen, wanted))
    for condition, wanted in OPERATORS:
        seen = passed(condition, [written(event) for event in VALUES])
        check(f"the condition {condition}", seen == wanted, (seen, wanted))
    for condition in BLANKS:
        seen = passed(condition, [written({"m": "xay"}), written({"m": "b"})])
        check(f"the condition {condition!r}", seen == "10", seen)
    seen = passed(r'."a b"."c\"d" == "\"\\\n\r\té"', [written({"a b": {'c"d': '"\\\n\r\té'}}), written({"a b": {'c"d': '"\\\n\r\t'}})])
    check("a condition with names and a text in quotes", seen == "10", seen)


# Names with their values.
VARIABLES = {b"A": b"1", b"AB": b"long", b"my.host_1": b"h", b"E": b"", b"D": b"$A $$ ${A}"}

# Texts, and what becomes of each, or the variable that is missing, and where.
REPLACED = [
    ("", ""), ("end $", "end $"), ("${", "${"), ("${A", "${A"), ("${A:-x", "${A:-x"), ("${}", "${}"), ("${:-x}", "${:-x}"), ("${A-x}", "${A-x}"),
    ("${A:x}", "${A:x}"), ("${-$A", "${-1"), ("$my.host_1!${my.host_1}", "h!h"), ("$AB$A-$A.", ("A.", 6)), ("${A}B$AB", "1Blong"),
    ("[$E][${E}][${E:-d}][${E:-}][${Z:-}]", "[][][d][][]"), ("${Z:-a$A{b}c}", "a$A{bc}"), ("$D", "$A $$ ${A}"), ("$$A $$$A", "$A $1"),
    ("# $A é$A→", "# 1 é1→"), ("é$N $M", ("N", 2)), ("a=$A ${B:-c} $$ $-", "a=1 c $ $-"), ("$9", ("9", 0)), ("x ${N}", ("N", 2)),
]


def variables():
    """Texts with variables, each of which is the one line that a source makes."""
    front = '[sources.in]\ntype = "demo_logs"\nformat = "shuffle"\ncount = 1\ninterval = 0\nlines = [\'\'\''
    for text, becomes in REPLACED:
        seen = outcome_of(f"{front}{text}''']\n{MESSAGES}", b"", variables=VARIABLES)
        if isinstance(becomes, str):
            wanted = 0, f"{becomes}\n".encode(), b""
        else:
            wanted = 78, b"", f"vector: configuration refused: missing variable {becomes[0]} at {len(front) + becomes[1]}\n".encode()
        check(f"variables in {text!r}", seen == wanted, seen)


# A filter, and behind it a route of which one port is read.
PARTED = """\
[transforms.f]
type = "filter"
inputs = ["in"]
condition = '.message != "k"'

[transforms.r]
type = "route"
inputs = ["f"]
route.a = 'contains(.message, "x")'

[sinks.out]
type = "console"
inputs = ["r.a"]
encoding.codec = "text"
"""

# A route that nobody reads and that drops what doesn't match, beside a console.
UNREAD = """\
[transforms.r]
type = "route"
inputs = ["in"]
reroute_unmatched = false
route.a = { type = "vrl", source = 'contains(.message, "x")' }
""" + MESSAGES

# A pattern for the port of a route, of which the other port isn't read.
HALF_READ = """\
[transforms.r]
type = "route"
inputs = ["in"]
route.a = "match(.message, r'^x.$')"
""" + MESSAGES.replace('"in"', '"r.a"')

# What is counted of transforms: the configuration, the lines, what comes out, and the counts of the transforms.
TRANSFORMED = [
    ("a filter and a route", PARTED, b"xy\nk\nz\n", b"xy\n", tally("transform", "f", taken=3, sent=2, dropped=1) + tally("transform", "r", taken=2, sent=2, unread=1)),
    ("a port that nobody reads", HALF_READ, b"xy\nz\n", b"xy\n", tally("transform", "r", taken=2, sent=2, unread=1)),
    ("a route that nobody reads", UNREAD, b"xy\nz\n", b"xy\nz\n", tally("transform", "r", taken=2, sent=1, dropped=1, unread=1)),
]


def transforms():
    """What transforms count."""
    for name, text, given, out, transformed in TRANSFORMED:
        lines = given.count(b"\n")
        wanted = out + reading(given, lines=lines, events=lines) + transformed + writing(out, out.count(b"\n"))
        seen = outcome_of(LINES + text, given, "--stats")
        check(f"counts of {name}", seen == (0, wanted, b""), seen)


def passed_by(events, most, rate):
    """The events that a dedupe of so many messages and a sample at that rate pass, where errors aren't counted."""
    kept, count, out = OrderedDict(), 0, []
    for event in events:
        known = event["message"] in kept
        kept[event["message"]] = None
        kept.move_to_end(event["message"])
        if len(kept) > most:
            kept.popitem(last=False)
        is_error = event["level"] == "error"
        if known:
            continue
        if is_error or count % rate == 0:
            out.append(event)
        count += not is_error
    return out


def thinned():
    """Events of which repeats are dropped, and of the others all but each error and one of ten."""
    chosen = random.Random(7)
    events = [{"level": chosen.choice(["error", "info", "info"]), "message": f"m{chosen.randrange(1500)}", "n": n, "source_type": "stdin"} for n in range(5000)]
    wanted = b"".join(map(written, passed_by(events, 1000, 10)))
    seen = run(b"".join(map(written, events)), ["--config", THINNED])
    check("events that are thinned", seen == (0, wanted, b""), (seen[0], len(seen[1]), len(wanted), seen[2]))


# A reduce by two paths, each way to merge with a field of its name, and how groups begin and end.
MERGING = FILTERED + '[transforms.f]\ntype = "reduce"\ninputs = ["in"]\ngroup_by = ["id", ".at.zone"]\nexpire_after_ms = 3600000\nmerge_strategies.id = "array"\n'
WAYS = {
    "discard": lambda held, new: held,
    "retain": lambda held, new: held if new is None else new,
    "sum": lambda held, new: max(LEAST, min(GREATEST, held + new)) if are(int, held, new) else held,
    "max": lambda held, new: max(held, new) if are(int, held, new) else held,
    "min": lambda held, new: min(held, new) if are(int, held, new) else held,
    "concat": lambda held, new: held + " " + new if are(str, held, new) else held,
    "concat_newline": lambda held, new: held + "\n" + new if are(str, held, new) else held,
    "concat_raw": lambda held, new: held + new if are(str, held, new) else held,
    "array": lambda held, new: [*held, new],
}
LEAST, GREATEST = -(2**63), 2**63 - 1
MIXED = [None, True, 0, 1, -7, GREATEST, LEAST, "", "a", "b c", [1], {"x": "y"}]
CUTS = {"without conditions": "", "that events begin": "starts_when = '.mark == true'\n", "that events end": "ends_when = '.mark == true'\n"}


def are(kind, *values):
    """Whether values are all of a kind, where a truth is no number."""
    return all(type(value) is kind for value in values)


def key_of(event):
    """What tells the group of an event: the texts of two values, of which each may be missing."""
    at = event["at"] if are(dict, event.get("at")) else {}
    return tuple(json.dumps(some[name]) if name in some else None for some, name in [(event, "id"), (at, "zone")])


def merged_by(events, begins, ends):
    """The events that a reduce puts out, whose groups marked events begin or end."""
    groups, out = {}, []
    for event in events:
        key, is_marked = key_of(event), event.get("mark") is True
        if begins and is_marked and key in groups:
            out.append(groups.pop(key))
        group = groups.setdefault(key, {})
        for name, value in event.items():
            if name not in group:
                group[name] = [value] if name == "array" else value
            elif name not in ("id", "at"):
                group[name] = WAYS.get(name, WAYS["sum"])(group[name], value)
        if ends and is_marked:
            out.append(groups.pop(key))
    return [*out, *groups.values()]


def random_parts(chance):
    """An event of some group, with some of the fields that are merged."""
    event = {name: chance.choice(MIXED) for name in [*WAYS, "other"] if chance.random() < 0.5}
    ids = [{}, {"id": None}, {"id": 1}, {"id": "1"}, {"id": [1, {"a": 2}]}]
    zones = [{}, {"at": None}, {"at": "zone"}, {"at": {}}, {"at": {"zone": None}}, {"at": {"zone": 1, "n": chance.randrange(9)}}]
    marks = [{"mark": True}, {"mark": 1}, *[{}] * 8]
    return {**event, **chance.choice(ids), **chance.choice(zones), **chance.choice(marks), "source_type": "stdin"}


def merged():
    """Events that are merged into groups in each way, and the lines of stack traces."""
    chance = random.Random(7)
    events = [random_parts(chance) for _ in range(3000)]
    given = b"".join(map(written, events))
    for name, cut in CUTS.items():
        wanted = merged_by(events, "starts" in cut, "ends" in cut)
        transformed = tally("transform", "f", taken=len(events), sent=len(wanted))
        out = b"".join(map(written, wanted))
        counts = reading(given, lines=len(events), events=len(events)) + transformed + writing(out, len(wanted))
        text = MERGING + "".join(f'merge_strategies.{it} = "{it}"\n' for it in WAYS) + cut
        status, seen, errors = outcome_of(OBJECTS + text, given, "--stats")
        seen = re.sub(rb"batches=\d+ delivered=\d+", b"batches=1 delivered=1", seen)
        check(f"groups {name}", (status, seen, errors) == (0, out + counts, b""), (status, len(seen), len(out + counts), errors))
    traces = re.split(r"\n(?![ \t])", TRACES.read_text().removesuffix("\n"))
    wanted = b"".join(written({"message": it, "source_type": "stdin"}) for it in traces)
    seen = run(TRACES.read_bytes(), ["--config", REDUCED])
    check("lines of stack traces", seen == (0, wanted, b""), seen)


def numbered():
    """Events that a host numbers, whatever stood there, and in their order."""
    lines = [f"line {n}" for n in range(5000)]
    wanted = b"".join(written({"message": line, "number": n, "source_type": "stdin"}) for n, line in enumerate(lines))
    seen = run("".join(line + "\n" for line in lines).encode(), ["--config", NUMBERED])
    check("lines that a host numbers", seen == (0, wanted, b""), (seen[0], len(seen[1]), len(wanted), seen[2]))
    events = [{"number": held, "z": [n], "source_type": "stdin"} for n, held in enumerate([None, "a", 7, {"number": 1}, [], 2.5])]
    wanted = b"".join(written(event | {"number": n}) for n, event in enumerate(events))
    given = b"".join(map(written, events))
    seen = outcome_of(OBJECTS + HOSTED, given)
    check("objects that a host numbers", seen == (0, wanted, b""), seen)


def components():
    """The counts of components stand by the bytes of their names, whatever the order of the configuration, and so do those of no lines."""
    sinks = '[sinks.b]\ntype = "console"\ntarget = "stderr"\ninputs = ["i*", "in"]\nencoding.codec = "text"\n[sinks.B]\ntype = "blackhole"\ninputs = ["in"]\n'
    seen = outcome_of(sinks + LINES, b"a\n", "--stats")
    hole = tally("sink", "B", taken=1, attempts=1, delivered=1)
    check("counts by the names of components", seen == (0, reading(b"a\n", lines=1, events=1) + hole + writing(b"a\n", 1, "b"), b"a\n"), seen)
    seen = run(b"", ["--config", FIRST, "--stats"])
    check("counts of no lines", seen == (0, tally("source", "in") + tally("sink", "out"), b""), seen)


if __name__ == "__main__":
    sys.exit(go_through([objects, messages, lengths, conditions, variables, transforms, thinned, merged, numbered, components]))
