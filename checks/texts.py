#!/usr/bin/env python3
"""Has the built program read words and configurations, and looks at what it says of each.

It prints a line for each check, and ends with 'N passed, M failed'. The status is 1 where one failed.
"""

import shutil
import subprocess
import sys
import tempfile
from pathlib import Path

from running import FIRST, PROGRAM, USAGE, check, go_through, run

SOURCE = '[sources.in]\ntype = "stdin"\n'
SINK = '[sinks.out]\ntype = "console"\ninputs = ["in"]\nencoding.codec = "text"\n'
BEFORE_OPTIONS = SOURCE + '[sinks.out]\ntype = "console"\ninputs = ["in"]\n'
BEFORE_INPUTS = SOURCE + '[sinks.out]\ntype = "console"\nencoding.codec = "text"\n'
BEFORE_FILTER = SOURCE + SINK + '[transforms.t]\ntype = "filter"\ninputs = ["in"]\n'
BEFORE_ROUTE = SOURCE + SINK + '[transforms.t]\ntype = "route"\ninputs = ["in"]\n'
BEFORE_SAMPLE = BEFORE_FILTER.replace('"filter"', '"sample"')
BEFORE_DEDUPE = BEFORE_FILTER.replace('"filter"', '"dedupe"')
BEFORE_REDUCE = BEFORE_FILTER.replace('"filter"', '"reduce"')
BEFORE_HOST = SOURCE + SINK + '[transforms.numbering]\ntype = "host"\n'
BEFORE_ROUTED = BEFORE_ROUTE.replace(SINK, "") + "route.a = 'exists(.a)'\n" + BEFORE_INPUTS.replace(SOURCE, "")

# what one line of two bytes comes to
COUNTS = b"""\
source in read=2 lines=1 overlong=0 undecodable=0 events=1 unread=0 batches=1 delivered=1 errored=0 rejected=0 confirmed=2
sink out taken=1 newest=0 attempts=1 delivered=1 errored=0 rejected=0 bytes=2
"""

# In each table a text stands beside why it isn't accepted, or None where it is.

# faults of the whole, or of the kind of a table
WHOLE = [
    ("", "no sources"),
    (SOURCE, "no sinks"),
    (SINK, "no sources"),
    ("a", "not a TOML document"),
    ("[sources.in\n", "not a TOML document"),
    ("a = 1\na = 2\n", "not a TOML document"),
    ('[sources.in]\ntype = "$NOPE"\n', "missing variable NOPE at 21"),
    ("a = 1\n", "unknown option a"),
    ("a.b = 1\n", "unknown option a"),
    ("acknowledgements = true\n", "no sources"),
    ("[acknowledgements]\n", "no sources"),
    ("acknowledgements.enabled = false\n", "no sources"),
    ("acknowledgements = 1\n", "bad value at acknowledgements"),
    ('acknowledgements = "true"\n', "bad value at acknowledgements"),
    ("[[acknowledgements]]\n", "bad value at acknowledgements"),
    ("acknowledgements.on = true\n", "unknown option acknowledgements.on"),
    ("acknowledgements.enabled = 1\n", "bad value at acknowledgements.enabled"),
    ("acknowledgements.enabled.x = true\n", "bad value at acknowledgements.enabled"),
    ("acknowledgements = true\nacknowledgements.enabled = true\n", "not a TOML document"),
    ("acknowledgements.x = 1\nacknowledgements.enabled = 1\n", "unknown option acknowledgements.x"),
    ("acknowledgement = true\n", "unknown option acknowledgement"),
    ("data_dir = 1\n", "bad value at data_dir"),
    ("data_dir = 1.5\n", "bad value at data_dir"),
    ("data_dir = 1979-05-27\n", "bad value at data_dir"),
    ('data_dir.a = "b"\n', "bad value at data_dir"),
    ("sources = 1\n", "bad value at sources"),
    ("[[transforms]]\n", "bad value at transforms"),
    ("sinks = [1]\n", "bad value at sinks"),
    ("sources.k = 1\n", "bad value at sources.k"),
    ("transforms.k = []\n", "bad value at transforms.k"),
    ('[[sources.in]]\ntype = "stdin"\n', "bad value at sources.in"),
]

# faults of a component between the source and the sink
COMPONENTS = [
    ('[sources.k]\ntype = "kafka"\n', "unknown kind at sources.k.type"),
    ('[sources.k]\ntype = "console"\n', "unknown kind at sources.k.type"),
    ('[transforms.k]\ntype = "console"\nx = 1\n', "unknown kind at transforms.k.type"),
    ('[sinks.k]\ntype = "kafka"\n', "unknown kind at sinks.k.type"),
    ("[sources.k]\n", "missing option sources.k.type"),
    ("[sources.k]\nx = 1\n", "missing option sources.k.type"),
    ("[sources.k]\ntype = 1\nx = 1\n", "bad value at sources.k.type"),
    ("[sources.k]\ntype = 1.5\n", "bad value at sources.k.type"),
    ("[sources.in.x]\n", "unknown option sources.in.x"),
    ("[sources]\nk = 1\n", "bad value at sources.k"),
    ('[sources.zz]\ntype = "stdin"\n', "bad value at sources.zz.type"),
    ('[sources.a]\ntype = "stdin"\n', "bad value at sources.in.type"),
    ('[sources."a b"]\ntype = "stdin"\n', "bad value at sources.a b"),
    ('[sources.""]\ntype = "stdin"\n', "bad value at sources."),
    ('[sinks.in]\ntype = "console"\nencoding.codec = "text"\n', "bad value at sinks.in"),
    ('[transforms.out]\ntype = "filter"\n', "missing option transforms.out.condition"),
    ("[sources.in]\n", "not a TOML document"),
    ("inputs = []\n", "unknown option sources.in.inputs"),
    ("min_length = 3\n", "unknown option sources.in.min_length"),
]

# options of a file that is read, and of one to which the source goes
FILE_SOURCE = SINK.replace('"in"', '"f"') + '[sources.f]\ntype = "file"\n'
FILE_SINK = SOURCE + '[sinks.f]\ntype = "file"\ninputs = ["in"]\nencoding.codec = "text"\n'
FILES = [
    (FILE_SOURCE, "missing option sources.f.include"),
    (FILE_SOURCE + "include = []", "bad value at sources.f.include"),
    (FILE_SOURCE + 'include = "a"', "bad value at sources.f.include"),
    (FILE_SOURCE + 'include = ["a", "b"]', "bad value at sources.f.include"),
    (FILE_SOURCE + "include = [1]", "bad value at sources.f.include"),
    (FILE_SOURCE + 'include = ["*.log"]', "bad value at sources.f.include"),
    (FILE_SOURCE + 'include = ["a?"]', "bad value at sources.f.include"),
    (FILE_SOURCE + 'include = ["a[0]"]', "bad value at sources.f.include"),
    (FILE_SOURCE + 'include = ["a"]\nread_from = "end"', "bad value at sources.f.read_from"),
    (FILE_SOURCE + 'include = ["a"]\nmax_line_bytes = 0', "bad value at sources.f.max_line_bytes"),
    (FILE_SOURCE + 'include = ["a"]\nmax_line_bytes = 16777217', "bad value at sources.f.max_line_bytes"),
    (FILE_SOURCE + 'include = ["a"]\ndecoding.codec = "text"', "bad value at sources.f.decoding.codec"),
    (FILE_SOURCE + 'include = ["a"]\nmax_length = 1', "unknown option sources.f.max_length"),
    (FILE_SINK, "missing option sinks.f.path"),
    (FILE_SINK + "path = 1", "bad value at sinks.f.path"),
    (FILE_SINK + 'path = "a"\ncompression = "gzip"', "bad value at sinks.f.compression"),
    (FILE_SINK + 'path = "{{ host }}"', "bad value at sinks.f.path"),
    (FILE_SINK + 'path = "a"\ntarget = "stdout"', "unknown option sinks.f.target"),
]

# options of the sink
SINK_OPTIONS = [
    ("", "missing option sinks.out.encoding.codec"),
    ('encoding = "text"', "unknown option sinks.out.encoding"),
    ("[sinks.out.encoding]", "missing option sinks.out.encoding.codec"),
    ('encoding.codec = "bytes"', "bad value at sinks.out.encoding.codec"),
    ("encoding.codec = 1.0", "bad value at sinks.out.encoding.codec"),
    ("encoding.codec = 07:32:00", "bad value at sinks.out.encoding.codec"),
    ("encoding.codec.x = 1", "bad value at sinks.out.encoding.codec"),
    ('encoding = { codec = "text", x = 1 }', "unknown option sinks.out.encoding.x"),
    ('"encoding.codec" = "text"', "unknown option sinks.out.encoding.codec"),
    ('encoding.codec = "text"\ntarget = "file"', "bad value at sinks.out.target"),
    ('encoding.codec = "text"\ntarget = true', "bad value at sinks.out.target"),
    ('encoding.codec = "text"\ntarget = inf', "bad value at sinks.out.target"),
    ('encoding.codec = "text"', None),
    ('encoding.codec = "json"', None),
    ('encoding.codec = "text"\nacknowledgements = true', None),
    ('encoding.codec = "text"\nacknowledgements = "yes"', "bad value at sinks.out.acknowledgements"),
    ('encoding.codec = "text"\nacknowledgements = []', "bad value at sinks.out.acknowledgements"),
    ('encoding.codec = "text"\nacknowledgements.on = true', "unknown option sinks.out.acknowledgements.on"),
    ('encoding.codec = "text"\nacknowledgements.enabled = 1', "bad value at sinks.out.acknowledgements.enabled"),
    ('encoding.codec = "text"\nacknowledgements = { enabled = true, x = 1 }', "unknown option sinks.out.acknowledgements.x"),
    ('encoding.codec = "text"\n[sinks.out.acknowledgements]', None),
    ('encoding.codec = "text"\n[sinks.out.acknowledgements]\nenabled = true', None),
]

# the buffer of the sink
STAGE = 'encoding.codec = "text"\n[[sinks.out.buffer]]\n'
OVERFLOWING = STAGE + 'when_full = "overflow"\n'
BUFFERS = [
    ('encoding.codec = "text"\nbuffer.max_events = 1', None),
    ('encoding.codec = "text"\nbuffer = {}', None),
    ('encoding.codec = "text"\nbuffer = { type = "memory", max_events = 1000000, when_full = "drop_newest" }', None),
    ('encoding.codec = "text"\nbuffer = 1', "bad value at sinks.out.buffer"),
    ('encoding.codec = "text"\nbuffer = []', "bad value at sinks.out.buffer"),
    ('encoding.codec = "text"\nbuffer = [1]', "bad value at sinks.out.buffer"),
    ('encoding.codec = "text"\nbuffer.x = 1', "unknown option sinks.out.buffer.x"),
    ('encoding.codec = "text"\nbuffer.type = "disk"', "bad value at sinks.out.buffer.type"),
    ('encoding.codec = "text"\nbuffer.max_events = 0', "bad value at sinks.out.buffer.max_events"),
    ('encoding.codec = "text"\nbuffer.max_events = 1000001', "bad value at sinks.out.buffer.max_events"),
    ('encoding.codec = "text"\nbuffer.max_events = 1.0', "bad value at sinks.out.buffer.max_events"),
    ('encoding.codec = "text"\nbuffer.when_full = "drop"', "bad value at sinks.out.buffer.when_full"),
    ('encoding.codec = "text"\nbuffer.when_full = "overflow"', "bad value at sinks.out.buffer.when_full"),
    (STAGE, None),
    (OVERFLOWING + "[[sinks.out.buffer]]\n", None),
    (STAGE + "[[sinks.out.buffer]]\n", "bad value at sinks.out.buffer.when_full"),
    (OVERFLOWING + OVERFLOWING.split("\n", 1)[1], "bad value at sinks.out.buffer.when_full"),
    (STAGE + 'when_full = "drop_newest"\n[[sinks.out.buffer]]\n', "bad value at sinks.out.buffer.when_full"),
    ('encoding.codec = "text"\n' + 7 * OVERFLOWING.split("\n", 1)[1] + "[[sinks.out.buffer]]\n", None),
    ('encoding.codec = "text"\n' + 8 * OVERFLOWING.split("\n", 1)[1] + "[[sinks.out.buffer]]\n", "too many at sinks.out.buffer: 9, limit 8"),
    (OVERFLOWING + "max_events = 600000\n[[sinks.out.buffer]]\nmax_events = 600000\n", "too many at sinks: 1200000, limit 1000000"),
    (OVERFLOWING + "max_events = 400000\n[[sinks.out.buffer]]\nmax_events = 600000\n", None),
]

# how the sink collects
BATCHES = [
    ('encoding.codec = "text"\nbatch.max_events = 2', None),
    ('encoding.codec = "text"\nbatch = {}', None),
    ('encoding.codec = "text"\nbatch = { max_events = 10000, timeout_secs = 86400 }', None),
    ('encoding.codec = "text"\nbatch = 1', "unknown option sinks.out.batch"),
    ('encoding.codec = "text"\nbatch.max_bytes = 1', "unknown option sinks.out.batch.max_bytes"),
    ('encoding.codec = "text"\nbatch.max_events = 0', "bad value at sinks.out.batch.max_events"),
    ('encoding.codec = "text"\nbatch.max_events = 10001', "bad value at sinks.out.batch.max_events"),
    ('encoding.codec = "text"\nbatch.max_events = 4294967297', "bad value at sinks.out.batch.max_events"),
    ('encoding.codec = "text"\nbatch.max_events = "1"', "bad value at sinks.out.batch.max_events"),
    ('encoding.codec = "text"\nbatch.timeout_secs = 0', "bad value at sinks.out.batch.timeout_secs"),
    ('encoding.codec = "text"\nbatch.timeout_secs = 86401', "bad value at sinks.out.batch.timeout_secs"),
    ('encoding.codec = "text"\nbatch.timeout_secs = 1.0', "bad value at sinks.out.batch.timeout_secs"),
    ('encoding.codec = "text"\nbatch = { max_events = 0, timeout_secs = 0 }', "bad value at sinks.out.batch.max_events"),
]

# how the sink tries again
RETRIES = [
    ('encoding.codec = "text"\nrequest.retry_attempts = 0', None),
    ('encoding.codec = "text"\nrequest = {}', None),
    ('encoding.codec = "text"\nrequest = { retry_attempts = 9223372036854775807, retry_initial_backoff_secs = 86400, retry_max_duration_secs = 1 }', None),
    ('encoding.codec = "text"\nrequest = 1', "unknown option sinks.out.request"),
    ('encoding.codec = "text"\nrequest.timeout_secs = 1', "unknown option sinks.out.request.timeout_secs"),
    ('encoding.codec = "text"\nrequest.retry_attempts = -1', "bad value at sinks.out.request.retry_attempts"),
    ('encoding.codec = "text"\nrequest.retry_attempts = "1"', "bad value at sinks.out.request.retry_attempts"),
    ('encoding.codec = "text"\nrequest.retry_initial_backoff_secs = 0', "bad value at sinks.out.request.retry_initial_backoff_secs"),
    ('encoding.codec = "text"\nrequest.retry_initial_backoff_secs = 86401', "bad value at sinks.out.request.retry_initial_backoff_secs"),
    ('encoding.codec = "text"\nrequest.retry_max_duration_secs = 0', "bad value at sinks.out.request.retry_max_duration_secs"),
    ('encoding.codec = "text"\nrequest.retry_max_duration_secs = 86401', "bad value at sinks.out.request.retry_max_duration_secs"),
]

# options of the source
SOURCE_OPTIONS = [
    ("max_length = 0", "bad value at sources.in.max_length"),
    ("max_length = 16777217", "bad value at sources.in.max_length"),
    ("max_length = -1", "bad value at sources.in.max_length"),
    ("max_length = 4294967297", "bad value at sources.in.max_length"),
    ("max_length = 1.0", "bad value at sources.in.max_length"),
    ('max_length = "1"', "bad value at sources.in.max_length"),
    ("max_length = 1", None),
    ("max_length = 16777216", None),
    ('decoding.codec = "text"', "bad value at sources.in.decoding.codec"),
    ('decoding.codec = ["json"]', "bad value at sources.in.decoding.codec"),
    ('decoding = { codec = "json", x = 1 }', "unknown option sources.in.decoding.x"),
    ('decoding = "json"', "unknown option sources.in.decoding"),
    ("[sources.in.decoding]", None),
    ('decoding.codec = "bytes"', None),
    ("acknowledgements = true", "unknown option sources.in.acknowledgements"),
    ("acknowledgements.enabled = true", "unknown option sources.in.acknowledgements"),
]

# options of a source that makes its lines
NO_COUNT = 'format = "shuffle"\nlines = ["a", ""]\n'
MADE = NO_COUNT + "count = 0\n"
DEMO_OPTIONS = [
    ("", "missing option sources.in.format"),
    ('format = "shuffle"', "missing option sources.in.lines"),
    ('lines = ["a"]', "missing option sources.in.format"),
    (MADE, None),
    (MADE.replace("shuffle", "json"), "bad value at sources.in.format"),
    (MADE.replace('["a", ""]', "[]"), "bad value at sources.in.lines"),
    (MADE.replace('["a", ""]', '"a"'), "bad value at sources.in.lines"),
    (MADE.replace('["a", ""]', '["a", 1]'), "bad value at sources.in.lines"),
    (MADE.replace('["a", ""]', '["a", "b\\nc"]'), "bad value at sources.in.lines"),
    (MADE.replace('["a", ""]', '["a\\r"]'), None),
    (MADE + "sequence = true", None),
    (MADE + "sequence = 1", "bad value at sources.in.sequence"),
    (NO_COUNT + "count = 0", None),
    (NO_COUNT + "count = -1", "bad value at sources.in.count"),
    (NO_COUNT + "count = 1.0", "bad value at sources.in.count"),
    (MADE + "interval = 0", None),
    (MADE + "interval = 86400", None),
    (MADE + "interval = 86401", "bad value at sources.in.interval"),
    (MADE + "interval = 0.5", "bad value at sources.in.interval"),
    (MADE + "seed = 9223372036854775807", None),
    (MADE + "seed = -1", "bad value at sources.in.seed"),
    (MADE + "max_length = 1", "unknown option sources.in.max_length"),
    (MADE + 'inputs = ["in"]', "unknown option sources.in.inputs"),
    (MADE + '[sources.more]\ntype = "demo_logs"\n' + MADE, None),
]

# options of a sink that writes nothing
BLACKHOLE_OPTIONS = [
    ("", None),
    ("print_interval_secs = 9007199254740992", None),
    ("print_interval_secs = 9007199254740993", "bad value at sinks.out.print_interval_secs"),
    ("print_interval_secs = -1", "bad value at sinks.out.print_interval_secs"),
    ('target = "stdout"', "unknown option sinks.out.target"),
    ('encoding.codec = "text"', "unknown option sinks.out.encoding"),
    ("acknowledgements = true\nbuffer.max_events = 1\nbatch.max_events = 10000", None),
    ("batch.timeout_secs = 86401", "bad value at sinks.out.batch.timeout_secs"),
    ("request.retry_attempts = 0", None),
    ("request.retry_attempts = -1", "bad value at sinks.out.request.retry_attempts"),
    ('buffer.when_full = "overflow"', "bad value at sinks.out.buffer.when_full"),
]

# options of a filter
FILTER_OPTIONS = [
    ("", "missing option transforms.t.condition"),
    ("condition = 1", "bad value at transforms.t.condition"),
    ('condition = ""', "bad value at transforms.t.condition"),
    ("condition = '.a =='", "bad value at transforms.t.condition"),
    ("condition = 'exists(.a)'", None),
    ("condition = { type = \"vrl\", source = 'exists(.a)' }", None),
    ("condition = { type = \"js\", source = 'exists(.a)' }", "bad value at transforms.t.condition"),
    ('condition = { type = "vrl" }', "bad value at transforms.t.condition"),
    ("condition = { source = 'exists(.a)' }", "bad value at transforms.t.condition"),
    ("condition = \"match(.a, r'^d.*l$')\"", None),
    ("condition = \"match(.a, r'(')\"", "bad value at transforms.t.condition"),
    ("condition = '" + 32 * "!" + "exists(.a)'", None),
    ("condition = '" + 33 * "!" + "exists(.a)'", "bad value at transforms.t.condition"),
    ("condition = 'exists(.a)'\nx = 1", "unknown option transforms.t.x"),
    ("condition = 'a'\nroute.a = 'exists(.a)'", "unknown option transforms.t.route"),
]

# options of a route
ROUTE_OPTIONS = [
    ("", "missing option transforms.t.route"),
    ("[transforms.t.route]", "missing option transforms.t.route"),
    ("route = 1", "bad value at transforms.t.route"),
    ("route.a = 'exists(.a)'", None),
    ("route.a = 1", "bad value at transforms.t.route.a"),
    ("route.a = 'exists(.a)'\nroute.b = 'a'", "bad value at transforms.t.route.b"),
    ("route._unmatched = 'exists(.a)'", "bad value at transforms.t.route._unmatched"),
    ("route.\"a b\" = 'exists(.a)'", "bad value at transforms.t.route.a b"),
    ("route.a = 'exists(.a)'\nreroute_unmatched = false", None),
    ("route.a = 'exists(.a)'\nreroute_unmatched = 1", "bad value at transforms.t.reroute_unmatched"),
    ("".join(f"route.k{k} = 'exists(.a)'\n" for k in range(64)), None),
    ("".join(f"route.k{k} = 'exists(.a)'\n" for k in range(65)), "too many at transforms.t.route: 65, limit 64"),
    ("route.a = 'a'\nx = 1\n[transforms.u]\ntype = \"filter\"", "unknown option transforms.t.x"),
]

# options of a sample
SAMPLE_OPTIONS = [
    ("", "missing option transforms.t.rate"),
    ("rate = 1", None),
    ("rate = 9223372036854775807", None),
    ("rate = 0", "bad value at transforms.t.rate"),
    ("rate = -1", "bad value at transforms.t.rate"),
    ("rate = 2.0", "bad value at transforms.t.rate"),
    ("rate = 2\nexclude = 'exists(.a)'", None),
    ("rate = 2\nexclude = 'exists(.a'", "bad value at transforms.t.exclude"),
    ("rate = 2\nexclude = 1", "bad value at transforms.t.exclude"),
    ("rate = 2\ncondition = 'exists(.a)'", "unknown option transforms.t.condition"),
]

# options of a dedupe
DEDUPE_OPTIONS = [
    ("", None),
    ("fields.match = ['message', '.a.b', '\"x y\".c']", None),
    ("fields.match = []", "bad value at transforms.t.fields.match"),
    ("fields.match = 'message'", "bad value at transforms.t.fields.match"),
    ("fields.match = ['a..b']", "bad value at transforms.t.fields.match"),
    ("fields.match = ['']", "bad value at transforms.t.fields.match"),
    ("fields.match = ['a', 1]", "bad value at transforms.t.fields.match"),
    ("fields.match = ['" + 30 * "a." + "a']", None),
    ("fields.match = ['" + 31 * "a." + "a']", "bad value at transforms.t.fields.match"),
    ("fields.ignore = []", None),
    ("fields.ignore = ['a..b', '']", None),
    ("fields.ignore = ['a', 1]", "bad value at transforms.t.fields.ignore"),
    ("fields.ignore = ['a']\nfields.match = ['b']", "bad value at transforms.t.fields.match"),
    ("fields.ignore = 1\nfields.match = ['b']", "bad value at transforms.t.fields.ignore"),
    ("fields = 1", "unknown option transforms.t.fields"),
    ("fields.x = 1", "unknown option transforms.t.fields.x"),
    ("cache.num_events = 1", None),
    ("cache.num_events = 1000000", None),
    ("cache.num_events = 0", "bad value at transforms.t.cache.num_events"),
    ("cache.num_events = 1000001", "bad value at transforms.t.cache.num_events"),
]

# options of a reduce
REDUCE_OPTIONS = [
    ("", None),
    ("group_by = []", None),
    ("group_by = ['host', '.a.b', '\"x y\".c']", None),
    ("group_by = 'host'", "bad value at transforms.t.group_by"),
    ("group_by = ['a..b']", "bad value at transforms.t.group_by"),
    ("group_by = ['a', 1]", "bad value at transforms.t.group_by"),
    ("group_by = ['" + 30 * "a." + "a']", None),
    ("group_by = ['" + 31 * "a." + "a']", "bad value at transforms.t.group_by"),
    ("starts_when = 'exists(.a)'", None),
    ("starts_when = 'exists(.a'", "bad value at transforms.t.starts_when"),
    ("starts_when = 1", "bad value at transforms.t.starts_when"),
    ("ends_when = { type = 'vrl', source = 'exists(.a)' }", None),
    ("ends_when = \"match(.a, r'(')\"", "bad value at transforms.t.ends_when"),
    ("starts_when = 'exists(.a)'\nends_when = 'exists(.b)'", "bad value at transforms.t.starts_when"),
    ("starts_when = 'exists(.a)'\nends_when = 1", "bad value at transforms.t.ends_when"),
    ("expire_after_ms = 1", None),
    ("expire_after_ms = 9007199254740992", None),
    ("expire_after_ms = 0", "bad value at transforms.t.expire_after_ms"),
    ("expire_after_ms = 9007199254740993", "bad value at transforms.t.expire_after_ms"),
    ("expire_after_ms = 1.0", "bad value at transforms.t.expire_after_ms"),
    ("flush_period_ms = 1", None),
    ("flush_period_ms = 9007199254740992", None),
    ("flush_period_ms = -1", "bad value at transforms.t.flush_period_ms"),
    ("flush_period_ms = 9007199254740993", "bad value at transforms.t.flush_period_ms"),
    ("[transforms.t.merge_strategies]", None),
    ("".join(f"merge_strategies.k{k} = 'sum'\n" for k in range(100)), None),
    ("merge_strategies.'a.b c' = 'concat_newline'\nmerge_strategies.'' = 'array'", None),
    ("merge_strategies.a = 'append'", "bad value at transforms.t.merge_strategies.a"),
    ("merge_strategies.a = 1", "bad value at transforms.t.merge_strategies.a"),
    ("merge_strategies.a.b = 'sum'", "bad value at transforms.t.merge_strategies.a"),
    ("merge_strategies = 'sum'", "bad value at transforms.t.merge_strategies"),
    ("max_events = 1", "unknown option transforms.t.max_events"),
]

# options of a host that the program has
HOST_OPTIONS = [
    ('inputs = ["in"]', None),
    ("", "no inputs of component numbering"),
    ('inputs = ["in"]\nnumber = 1', "unknown option transforms.numbering.number"),
    ('inputs = ["in"]\ncondition = "true"', "unknown option transforms.numbering.condition"),
]

# inputs of the sink, where a route has the ports a and _unmatched
ROUTE_INPUTS = [
    ('inputs = ["t.a"]', None),
    ('inputs = ["t._unmatched", "in"]', None),
    ('inputs = ["t*"]', None),
    ('inputs = ["t"]', "unknown input t of component out"),
    ('inputs = ["t.b"]', "unknown input t.b of component out"),
]

# inputs of the sink
INPUTS = [
    ("", "no inputs of component out"),
    ("inputs = []", "no inputs of component out"),
    ('inputs = "in"', "bad value at sinks.out.inputs"),
    ('inputs = ["in", 1]', "bad value at sinks.out.inputs"),
    ('inputs = ["in", 1979-05-27]', "bad value at sinks.out.inputs"),
    ('inputs = ["out"]', "unknown input out of component out"),
    ('inputs = ["in", "in"]', None),
    ('inputs = ["i*"]', None),
]

# graphs with one fault, or with others that come behind it; the kind of each component, its name and what it reads
GRAPHS = [
    ([("transform", "t", [])], "no sources"),
    ([("source", "s", None), ("transform", "t", [])], "no sinks"),
    ([("source", "s", None), ("sink", "z", ["no"]), ("sink", "k", []), ("transform", "j", [])], "no inputs of component j"),
    ([("source", "s", None), ("transform", "x", ["x"]), ("sink", "z", ["none"]), ("sink", "k", ["s", "q*", "r*"])], "unknown input q* of component k"),
    ([("source", "s", None), ("transform", "t", ["t*"]), ("sink", "z", ["s"])], "unknown input t* of component t"),
    ([("source", "s", None), ("transform", "t", ["t", "s"]), ("sink", "z", ["*"])], "cycle t"),
    ([("source", "s", None), ("transform", "x", ["y"]), ("transform", "y", ["x"]), ("sink", "z", ["x"])], "cycle x, y"),
    ([("source", "s", None), ("transform", "q", ["n"]), ("transform", "p", ["q"]), ("transform", "n", ["p", "s"]), ("sink", "z", ["q"])], "cycle n, q, p"),
    ([("source", "s", None), ("transform", "t", ["s"]), ("sink", "z", ["t", "*"])], None),
]

# texts with two faults, and that which is told: by kind, by table and name, by path
TWO_FAULTS = [
    ('x = [\ny = "$NOPE"\n', "missing variable NOPE at 11"),
    ('x = [\n[sources.k]\ntype = "kafka"\n', "not a TOML document"),
    ('a = 1\n[sinks.k]\ntype = "kafka"\n', "unknown kind at sinks.k.type"),
    ('[sources.k]\n[sinks.z]\ntype = "console"\nx = 1\n', "unknown option sinks.z.x"),
    ("data_dir = 1\n[sinks.z]\n", "missing option sinks.z.type"),
    ("[sinks.z]\ntype = 1\n", "bad value at sinks.z.type"),
    ('a = 1\n[sources.k]\ntype = "stdin"\nA = 1\n', "unknown option a"),
    ("[sinks.a]\n[sources.b]\n", "missing option sources.b.type"),
    ("[sinks.b]\ntype = 1\n[transforms.c]\ntype = 1\n", "bad value at transforms.c.type"),
    ("[sinks.b]\n[sinks.B]\n[sinks.a]\n", "missing option sinks.B.type"),
    ("[sinks.ab]\n[sinks.a-b]\n[sinks.a]\n", "missing option sinks.a.type"),
    ("b = 1\na = 1\nB = 1\n", "unknown option B"),
    ('[sinks.k]\ntype = "console"\nencoding.x = 1\nencoding-x = 1\n', "unknown option sinks.k.encoding-x"),
    ('[sinks."a b"]\ntype = 1\n', "bad value at sinks.a b"),
]

# a source and a sink in other forms of TOML
FORMS = [
    ('sources.in.type = "stdin"\nsinks.out.type = \'console\'\nsinks.out.inputs = ["in"]\nsinks.out.encoding.codec = "text"\n', None),
    ('sources = { in = { type = "stdin" } }\nsinks = { out = { type = "console", inputs = ["in"], encoding = { codec = "text" } } }\n', None),
    ('# a comment\r\n[sources.in] # another\r\ntype = "stdin"\r\n\r\n[sinks.out]\r\ntype = "console"\r\ninputs = [ # and one\r\n  "in",\r\n]\r\nencoding.codec = "text"\r\n', None),
    ('[sources.in]\ntype = """\nstdin"""\n[sinks.out.encoding]\ncodec = "te\\u0078t"\n[sinks.out]\ninputs = ["in"]\ntype = "console"\n', None),
]

# a source with a name of 64 bytes, and one with a name of 65
NAMES = [
    ('[sources.abcdefghijklmnopqrstuvwxyzABCDEFGHIJKLMNOPQRSTUVWXYZ0123456789_-]\ntype = "stdin"\n', "no sinks"),
    ('[sources.abcdefghijklmnopqrstuvwxyzABCDEFGHIJKLMNOPQRSTUVWXYZ0123456789_-x]\ntype = "stdin"\n', "bad value at sources.abcdefghijklmnopqrstuvwxyzABCDEFGHIJKLMNOPQRSTUVWXYZ0123456789_-x"),
]

# names of options, as TOML writes them, and how each is printed
HIDDEN = [
    ('"a\\u001b[31mb"', "a\\u{1b}[31mb"),
    ('"a\\rb"', "a\\u{d}b"),
    ('"a\\nvector: forged"', "a\\u{a}vector: forged"),
    ('"a\\u0000b"', "a\\u{0}b"),
    ('"\\t\\u001f \\u007e\\u007f\\u0080\\u009f"', "\\u{9}\\u{1f} ~\\u{7f}\\u{80}\\u{9f}"),
    ('"a\\u202eb"', "a\\u{202e}b"),
    ('"a\u202eb"', "a\\u{202e}b"),
    ('"\\u061c\\u200e\\u200f\\u202a\\u202e\\u2066\\u2069"', "\\u{61c}\\u{200e}\\u{200f}\\u{202a}\\u{202e}\\u{2066}\\u{2069}"),
    ('"\\u2028\\u2029"', "\\u{2028}\\u{2029}"),
    ('"\\u00a0\\u061b\\u061d\\u200d\\u2010\\u2027\\u202f\\u2065\\u206a"', "\u00a0\u061b\u061d\u200d\u2010\u2027\u202f\u2065\u206a"),
    ('"a\\\\u{1b}"', "a\\u{1b}"),
    ('"\\u00e9 \\u4e16 \\U0001f600"', "\u00e9 \u4e16 \U0001f600"),
]

# names of options by their parts, and what is printed of them: 256 bytes are whole, and no character or code is parted
LONG = [
    ("a" * 256, "a" * 256),
    ("a" * 257, "a" * 256 + ".."),
    ("a" * 254 + "\\u00e9", "a" * 254 + "\u00e9"),
    ("a" * 255 + "\\u00e9", "a" * 255 + ".."),
    ("a" * 250 + "\\u001b", "a" * 250 + "\\u{1b}"),
    ("a" * 251 + "\\u001b", "a" * 251 + ".."),
    ("\\n" * 52, "\\u{a}" * 51 + ".."),
    ("a" * 10_000_000, "a" * 256 + ".."),
    ("\\n" * 5_000_000, "\\u{a}" * 51 + ".."),
]

# words that run the file of that name
RUNNING = [
    (["-c", "f"], "f"),
    (["-cf"], "f"),
    (["-c=f"], "f"),
    (["-c==f"], "=f"),
    (["-c-f"], "-f"),
    (["--config", "f"], "f"),
    (["--config=f"], "f"),
    (["--config==f"], "=f"),
    (["--config=--config"], "--config"),
    (["--config", "-"], "-"),
    (["--config", "validate"], "validate"),
    (["-c", "f", "--"], "f"),
    (["-c", "f", "--once"], "f"),
    (["--once", "--config=f"], "f"),
]

# words that run the file `f` and ask for the counts
COUNTING = [["-c", "f", "--stats"], ["--stats", "-cf"], ["--stats", "--config", "f"], ["--config=f", "--stats"]]

# words that judge the file of that name
JUDGING = [
    (["validate", "f"], "f"),
    (["validate", "-"], "-"),
    (["validate", "validate"], "validate"),
    (["validate", "--", "f"], "f"),
    (["validate", "--", "--config"], "--config"),
    (["validate", "--", "--"], "--"),
    (["validate", "f", "--"], "f"),
]

# words that name a file without a name
NAMELESS = [["--config", ""], ["--config="], ["-c", ""], ["-c="], ["validate", ""]]

# words that are no command
NO_COMMAND = [
    [], [""], ["--"], ["f"], ["-c"], ["--config"], ["-x"], ["-C", "f"], ["-h"], ["-V"], ["--help"], ["--version"], ["help"],
    ["-c", "f", "-c", "f"], ["--config", "f", "--config", "g"], ["-cf", "--config=g"], ["-c", "f", "more"],
    ["--config", "f", "more"], ["--config", "f", "validate"], ["-c", "f", "validate", "g"], ["-c", "f", "--", "g"], ["-c", "f", "--help"], ["--", "-c", "f"], ["-c", "-f"],
    ["--confg", "f"], ["--konfig", "f"], ["--conf", "f"], ["--config", "--config"], ["--config", "--", "f"], [b"--config", b"\xff"],
    ["--stats"], ["--stats", "--stats", "-c", "f"], ["--stats=true", "-c", "f"], ["--once"], ["--once", "--once", "-c", "f"], ["--once=true", "-c", "f"], ["validate", "f", "--once"], ["--config", "--stats", "f"], ["-c", "f", "--stat"], ["validate", "f", "--stats"],
    ["validate"], ["validate", "--"], ["validate", "f", "g"], ["validate", "--config", "f"], ["validate", "--config=f"],
    ["validate", "--help"], ["validate", "-f"], ["Validate", "f"],
]


def words():
    """Words with their files, and words that are no command."""
    for table, wanted in [(RUNNING, b"x\n"), (JUDGING, b"valid: 1 sources, 0 transforms, 1 sinks\n")]:
        for some, name in table:
            with tempfile.TemporaryDirectory() as folder:
                (Path(folder) / name).write_text(SOURCE + SINK)
                seen = run(b"x\n", some, cwd=folder)
            check(f"words {some}", seen == (0, wanted, b""), seen)
    with tempfile.TemporaryDirectory() as folder:
        for name in ["f", "g", "-f", "--config"]:
            (Path(folder) / name).write_text(SOURCE + SINK)
        for some in COUNTING:
            seen = run(b"x\n", some, cwd=folder)
            check(f"words {some}", seen == (0, b"x\n" + COUNTS, b""), seen)
        for some in NAMELESS:
            seen = run(b"x\n", some, cwd=folder)
            check(f"words {some}", seen == (74, b"", b"vector: cannot read \n"), seen)
        for some in NO_COMMAND:
            seen = run(b"x\n", some, cwd=folder)
            check(f"words {some}", seen == (64, b"", USAGE), seen)


def graph(rows):
    """The configuration of a graph, whose sources are standard input, whose transforms are filters, and whose sinks are black holes."""
    parts = {"source": 'type = "stdin"\n', "transform": "type = \"filter\"\ncondition = 'exists(.a)'\n", "sink": 'type = "blackhole"\n'}
    return "".join(f"[{kind}s.{name}]\n{parts[kind]}" + (f"inputs = {inputs}\n" if inputs is not None else "") for kind, name, inputs in rows)


def files():
    """Files that aren't there, and one beside the caller."""
    with tempfile.TemporaryDirectory() as folder:
        seen = run(b"a\n", ["--config", "none.toml"], cwd=folder)
        check("no such file", seen == (74, b"", b"vector: cannot read none.toml\n"), seen)
        seen = run(b"a\n", ["--config", folder])
        check("a folder as a file", seen == (74, b"", b"vector: cannot read %s\n" % folder.encode()), seen)
        (Path(folder) / "first.toml").write_bytes(Path(FIRST).read_bytes())
        seen = run(b"a\nb\n", ["--config", "first.toml"], cwd=folder)
        check("a file beside the caller", seen == (0, b"a\nb\n", b""), seen)


def judged(folder, text, why, variables=None):
    """Checks that a configuration isn't accepted, and why, or that it is, both where it is judged and where it is run."""
    (Path(folder) / "other.toml").write_bytes(text if isinstance(text, bytes) else text.encode())
    refused = (78, b"", f"vector: configuration refused: {why}\n".encode())
    seen = run(b"", ["validate", "other.toml"], cwd=folder, variables=variables)
    held = seen == refused if why else (seen[0], seen[1][:7], seen[2]) == (0, b"valid: ", b"")
    check(f"judged {text[:300]!r}: {why}", held, seen)
    seen = run(b"", ["--config", "other.toml"], cwd=folder, variables=variables)
    check(f"run {text[:300]!r}: {why}", seen == (refused if why else (0, b"", b"")), seen)


def configurations():
    """Configurations, each with why it isn't accepted, or accepted."""
    tables = [
        ("", WHOLE, ""), (SOURCE, COMPONENTS, "\n" + SINK), (BEFORE_OPTIONS, SINK_OPTIONS, "\n"), (BEFORE_OPTIONS, BUFFERS, "\n"), (BEFORE_OPTIONS, BATCHES, "\n"), (BEFORE_OPTIONS, RETRIES, "\n"), (SOURCE, SOURCE_OPTIONS, "\n" + SINK),
        (SOURCE.replace("stdin", "demo_logs"), DEMO_OPTIONS, "\n" + SINK), (BEFORE_OPTIONS.replace("console", "blackhole"), BLACKHOLE_OPTIONS, "\n"),
        (BEFORE_FILTER, FILTER_OPTIONS, "\n"), (BEFORE_ROUTE, ROUTE_OPTIONS, "\n"), (BEFORE_SAMPLE, SAMPLE_OPTIONS, "\n"), (BEFORE_DEDUPE, DEDUPE_OPTIONS, "\n"), (BEFORE_REDUCE, REDUCE_OPTIONS, "\n"), (BEFORE_HOST, HOST_OPTIONS, "\n"), (BEFORE_ROUTED, ROUTE_INPUTS, "\n"),
        (BEFORE_INPUTS, INPUTS, "\n"), ("", FILES, "\n"), ("", TWO_FAULTS, ""), ("", FORMS, ""), ("", NAMES, ""),
        ("", [(graph(rows), why) for rows, why in GRAPHS], ""),
    ]
    with tempfile.TemporaryDirectory() as folder:
        for front, table, back in tables:
            for text, why in table:
                judged(folder, front + text + back, why)
        judged(folder, b'a = "\xff"\n', "not a TOML document")
        judged(folder, (SOURCE + SINK).encode() + b"# \xff\n", "not a TOML document")
        asking = SOURCE + SINK.replace("console", "${VECTOR_KIND:-console}").replace('"text"', '"$VECTOR_CODEC"')
        judged(folder, asking, "bad value at sinks.out.encoding.codec", {b"VECTOR_CODEC": b"bytes"})
        judged(folder, asking, None, {b"VECTOR_CODEC": b"json"})


def hosts():
    """Hosts that the program doesn't have: their configuration is accepted, and a run ends, named the least of their names."""
    with tempfile.TemporaryDirectory() as folder:
        for names, least in [(["t"], "t"), (["numbering", "numbers"], "numbers"), (["number", "b", "a_", "a"], "a"), (["n" * 64, "numbering"], "n" * 64)]:
            text = SOURCE + SINK + "".join(f'[transforms.{name}]\ntype = "host"\ninputs = ["in"]\n' for name in names)
            (Path(folder) / "other.toml").write_text(text)
            seen = run(b"", ["validate", "other.toml"], cwd=folder)
            check(f"hosts are judged: {names}"[:300], seen == (0, b"valid: 1 sources, %d transforms, 1 sinks\n" % len(names), b""), seen)
            seen = run(b"", ["--config", "other.toml"], cwd=folder)
            check(f"hosts aren't there: {names}"[:300], seen == (78, b"", f"vector: no host transform {least}\n".encode()), seen)


def faults_of_one_line():
    """Names, paths and inputs that would end a line, hide a part of it or make it long: each fault is one line of at most 1,000 bytes."""
    with tempfile.TemporaryDirectory() as folder:
        for key, shown in HIDDEN + [(f'"{key}"', shown) for key, shown in LONG]:
            judged(folder, f"{key} = 1\n", f"unknown option {shown}")
        judged(folder, SOURCE + '[sources."a\\nvector: forged"]\ntype = "stdin"\n' + SINK, "bad value at sources.a\\u{a}vector: forged")
        judged(folder, BEFORE_INPUTS + 'inputs = ["in\\nvector: forged"]\n', "unknown input in\\u{a}vector: forged of component out")
        judged(folder, BEFORE_INPUTS + f'inputs = ["{"a" * 10_000_000}"]\n', f"unknown input {'a' * 256}.. of component out")
        judged(folder, "a = $" + "A" * 10_000_000 + "\n", f"missing variable {'A' * 256}.. at 4")
        for value, shown in [("a=b=", "a=b="), ("\u202e", "\\u{202e}"), ("\\n", "\\u{a}"), ("a" * 100_000, "a" * 256 + "..")]:
            judged(folder, '"$VECTOR_NAME" = 1\n', f"unknown option {shown}", {b"VECTOR_NAME": value.encode()})
        for name, shown in [("a\nvector: forged", "a\\u{a}vector: forged"), ("\x1b[31m", "\\u{1b}[31m"), ("a" * 100_000, "a" * 256 + "..")]:
            for words in [["--config", name], ["validate", name]]:
                seen = run(b"", words, cwd=folder)
                check(f"no file {name[:300]!r}", seen == (74, b"", f"vector: cannot read {shown}\n".encode()), seen)


def forms_of_one_option():
    """A table of one option in each form that it may have: lines are read as JSON by each."""
    for options in ['decoding.codec = "json"', 'decoding = { codec = "json" }', '[sources.in.decoding]\ncodec = "json"']:
        with tempfile.TemporaryDirectory() as folder:
            (Path(folder) / "other.toml").write_text(SOURCE + options + "\n" + SINK)
            seen = run(b'{"message":"m"}\nn\n', ["--config", "other.toml"], cwd=folder)
        check(f"as {options!r}", seen == (0, b"m\n", b""), seen)


def as_many_as_may_be():
    """As many components and inputs as may be, and one more."""
    with tempfile.TemporaryDirectory() as folder:
        for count, why in [(255, None), (256, "too many at sources: 257, limit 256")]:
            judged(folder, SOURCE + "".join(SINK.replace("out", f"k{i}") for i in range(count)), why)
        for count, why in [(256, None), (257, "too many at sinks.out.inputs: 257, limit 256")]:
            judged(folder, SOURCE + SINK.replace('["in"]', "[" + '"in", ' * count + "]"), why)


# Programs in the place of `rt`: one that builds, and one that doesn't.
BUILDS = "#!/bin/sh\nprintf '#!/bin/sh\\necho \"$@\"\\nexit 64\\n' >out/vector\nchmod +x out/vector\necho noise\n"
FAILS = "#!/bin/sh\necho why\nexit 1\n"


def called(folder, *words):
    """The status, the output and the errors of the script in a folder, with `rt` in its folder bin alone."""
    ran = subprocess.run([f"{folder}/vector", *words], stdin=subprocess.DEVNULL, capture_output=True, env={"PATH": f"{folder}/bin:/usr/bin:/bin"})
    return ran.returncode, ran.stdout.decode(), ran.stderr.decode().replace(folder, "..")


def script():
    """The script that builds the program where it isn't built: what it says of that, once, and where it can't."""
    building = "vector: building, more than an hour, once\n"
    with tempfile.TemporaryDirectory() as folder:
        top = Path(folder)
        for name in ["bin", "crates/vector/src"]:
            (top / name).mkdir(parents=True)
        shutil.copy(PROGRAM, folder)
        (top / "crates.txt").touch()
        seen = called(folder, "a")
        check("a script without rt", seen == (127, "", "vector: it has to be built, and there is no rt on the path\n"), seen)
        (top / "bin/rt").touch(0o755)
        (top / "crates/vector/out").touch()
        seen = called(folder, "a")
        check("a script that can't write", seen == (126, "", "vector: cannot write in ../crates/vector/out\n"), seen)
        (top / "crates/vector/out").unlink()
        for text, wanted in [(FAILS, (1, "", f"{building}why\nvector: it could not be built\n")), (BUILDS, (64, "a b\n", building)), (FAILS, (64, "a b\n", ""))]:
            (top / "bin/rt").write_text(text)
            seen = called(folder, "a", "b")
            check(f"a script that builds: {wanted}", seen == wanted, seen)


if __name__ == "__main__":
    sys.exit(go_through([words, files, script, configurations, hosts, faults_of_one_line, forms_of_one_option, as_many_as_may_be]))
