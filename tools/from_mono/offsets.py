"""The names of fields by their offsets: an OFFSETS file, and how Mono is asked to write one."""
import shutil
import subprocess
import tempfile
from pathlib import Path
from typing import NamedTuple

from heap_script import BadDump

SOURCE = Path(__file__).resolve().parent / "FieldOffsets.cs"


class Known(NamedTuple):
    """What an OFFSETS file says of a class: its fields by offset, each with a kind and a name, its static fields, and
    of an array the bytes of an element, 0 where elements are references, -1 where nothing is said."""

    fields: dict
    statics: dict
    element: int


UNKNOWN = Known({}, {}, -1)


def read_offsets(path):
    """An OFFSETS file: `class NAME`, and below it `field OFFSET KIND NAME`, `static OFFSET KIND NAME` and
    `element SIZE`."""
    known, here = {}, ""
    try:
        lines = Path(path).read_text(encoding="utf-8").splitlines()
    except UnicodeDecodeError as fault:
        raise BadDump(f"{path}: this is no text") from fault
    for number, line in enumerate(lines, 1):
        word, _, rest = line.partition(" ")
        try:
            if word == "class":
                here = rest
                known[here] = Known({}, {}, -1)
            elif word in ("field", "static"):
                offset, kind, name = rest.split(" ")
                of = known[here].fields if word == "field" else known[here].statics
                of[int(offset)] = kind, name
            elif word == "element":
                known[here] = known[here]._replace(element=int(rest))
            elif line:
                raise ValueError(line)
        except (ValueError, KeyError) as fault:
            raise BadDump(f"{path}, line {number}: no line of an OFFSETS file") from fault
    return known


def class_lines(dump):
    """What FieldOffsets reads: the images that the program loaded, and the classes whose fields are to be named."""
    for path, version in dump.images.values():
        yield f"image {path} {version}"
    held = {dump.vtables[vtable] for vtable in dump.shot.vtables}
    static = {dump.vtables[one.key] for one in dump.regions.all() if one.source == "Static" and one.key in dump.vtables}
    for name in sorted({dump.classes[of][0] for of in held | static if of in dump.classes}):
        yield f"class {name}"


def ask_mono(dump):
    """An OFFSETS file's text, as FieldOffsets writes it on this machine, and what it told on standard error."""
    compiler, runtime = shutil.which("mcs"), shutil.which("mono")
    if not compiler or not runtime:
        raise BadDump("the names of fields need `mono` and `mcs` on this machine, with the program's own files")
    asked = "".join(line + "\n" for line in class_lines(dump))
    with tempfile.TemporaryDirectory() as folder:
        program = str(Path(folder) / "FieldOffsets.exe")
        run([compiler, f"-out:{program}", str(SOURCE)], "")
        ran = run([runtime, program], asked)
    return ran.stdout, ran.stderr


def run(command, lines):
    ran = subprocess.run(command, input=lines, capture_output=True, text=True, encoding="utf-8", check=False)
    if ran.returncode:
        told = (ran.stderr or ran.stdout).strip().splitlines()
        raise BadDump(f"{Path(command[0]).name} ended with status {ran.returncode}" + f": {told[-1]}" * bool(told))
    return ran
