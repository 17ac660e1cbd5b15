"""The built program, configurations of one source and one console, and lines to be read."""

from pathlib import Path

TOP = Path(__file__).resolve().parent.parent
VECTOR = str(TOP / "crates/vector/out/vector")
CODECS = {"json": ("json", "json"), "text": ("bytes", "text")}
CONFIGURATION = """\
[sources.in]
type = "stdin"
decoding.codec = "{}"

[sinks.out]
type = "console"
inputs = ["in"]
encoding.codec = "{}"
"""


def configuration_file(folder, name):
    """The path of a configuration of the codecs with this name, which is written into the folder."""
    path = Path(folder) / f"{name}.toml"
    path.write_text(CONFIGURATION.format(*CODECS[name]))
    return path


def lines_file(count):
    """The path of a file of so many lines, each of 100 bytes with its line feed."""
    folder = TOP / "bench" / "out"
    folder.mkdir(parents=True, exist_ok=True)
    path = folder / f"{count}.txt"
    if not path.exists() or path.stat().st_size != 100 * count:
        with path.open("wb") as out:
            out.writelines(b"%099d\n" % k for k in range(count))
    return path
