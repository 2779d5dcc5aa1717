"""What stands beside a script of a dump, or its image: names of fields, names of classes that share a type, and the
sizes that the dumped program's runtime gave its objects. For `ask`, `retained`, `report` and `hunt`.

A `.fields` file has a line for each class: its name, and a name for each slot, or `-` where it stands for no field. A
`?` behind a name says that the script doesn't have the number that stood there. A `.names` file has lines of two kinds:

    name TYPE NUMBER NAME     the objects of this type whose first number is this one have the class of this name
    size NAME BASE ELEMENT    in the dumped program an object of this class had so many bytes, and so many more for each
                              element, rounded up to a multiple of 8
"""
from dataclasses import dataclass, field
from pathlib import Path

UNKNOWN = "?"
# The name of a slot that stands for no field.
UNUSED = "-"
MOST_SIZE = 1 << 31


class BadNames(Exception):
    """A line of such a file is none."""


@dataclass
class Names:
    """The names of fields by class, the names of classes by type and number, and the sizes by class."""

    fields: dict = field(default_factory=dict)
    shared: dict = field(default_factory=dict)
    sizes: dict = field(default_factory=dict)

    def slot(self, of, slot):
        """The name of a slot of a class, without a mark, or nothing. Those of arrays of structs go on with each
        element."""
        return self._raw(of, slot).removesuffix(UNKNOWN)

    def is_unknown(self, of, slot):
        """Whether the script lacks the number that stood in a slot."""
        return self._raw(of, slot).endswith(UNKNOWN)

    def _raw(self, of, slot):
        names = self.fields.get(of, ())
        return names[slot] if slot < len(names) else ""


def beside(path):
    """The names that stand beside a file, with these endings in place of its own."""
    if path == "-":
        return Names()
    return read_names(*(one if (one := Path(path).with_suffix(ending)).is_file() else None
                        for ending in (".fields", ".names")))


def of_fields(path):
    """The names of a `.fields` file, and of the `.names` file beside it."""
    names = Path(path).with_suffix(".names")
    return read_names(path, names if names.is_file() else None)


def read_names(fields, names):
    """What two files tell, of which each may be missing."""
    found = Names()
    for line in text_of(fields).splitlines():
        of, *slots = line.split(" ")
        found.fields[of] = slots
    for number, line in enumerate(text_of(names).splitlines(), 1):
        words = line.split(" ")
        try:
            take_line(found, words)
        except ValueError as fault:
            raise BadNames(f"{names}: line {number} is none of a `.names` file") from fault
    return found


def text_of(path):
    if path is None:
        return ""
    try:
        return Path(path).read_text(encoding="utf-8")
    except UnicodeDecodeError as fault:
        raise BadNames(f"{path}: this is no text") from fault


def take_line(found, words):
    kind, *rest = words
    if kind == "name":
        of, number, name = rest
        found.shared.setdefault(of, {})[int(number)] = name
    elif kind == "size":
        name, *both = rest
        base, element = map(int, both)
        if not 0 <= base < MOST_SIZE or not 0 <= element < MOST_SIZE:
            raise ValueError(rest)
        found.sizes[name] = base, element
    else:
        raise ValueError(kind)
