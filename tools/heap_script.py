"""What the converters share that turn the dump of a program into a script: `from-hprof` and `from-mono`.

Types with their forms and names, the room that a heap needs, the lines in which all objects stand in one array, the
index, while they are made, and the files beside a script.

A script has at most 1,000 types. All objects with static fields have one, all tables of threads have one, and where a
dump has more classes, those with most objects have types of their own. The others share types, one for each number of
references and numbers that an object has. Where objects share a type, their first slot is a number that tells the
class, and the `.names` file has the names by these numbers. So no class loses its name.
"""
import hashlib
import re
import sys
from itertools import count, islice
from pathlib import Path
from typing import NamedTuple

# A heap has at most so many bytes in all segments, and a script so many, and so many types.
LIMIT, MOST_BYTES = 1_073_741_824, 268_435_456
MOST_TYPES, MOST_SLOTS, MOST_NAME = 1000, 256, 128
TYPES_FOR_SHAPES, TYPES_FOR_ROOTS = 150, 60
STEPS = (1, 2, 4, 8, 16, 32)
SEGMENT, PAGE, LARGE, CONTEXT, LEAST_FREE = 67_108_864, 4096, 85_000, 8192, 24
WORDS = f"run --limit {LIMIT} --segment {SEGMENT} --b0 {LIMIT} --b1 {LIMIT} --b2 {LIMIT} --bl {LIMIT}"
# The locals of a script.
INDEX, ROOTS, FIRST, SECOND = range(4)
AT_ONCE, LINE_FEED = 50_000, b"\n"
ENDINGS = (".words", ".fields", ".names")
# What the lines have at least that make an object, that take one which has references, and that set one of these.
MAKE = len("t1 new l2 \nt1 set l0  l2\n")
HOLDER = len("t1 get l2 l0 \n")
LINK = len("t1 get l3 l0 0\nt1 set l2 0 l3\n")


class BadDump(Exception):
    """The file is no dump, or a part of it is missing or damaged."""


class TooMuch(Exception):
    """What a dump has is more than a heap or a script can have."""


class TooLong(TooMuch):
    """The script is too long, and may be shorter."""


# ---- types and their names

class Form(NamedTuple):
    """What stands behind the name in a `type` line."""

    shape: str
    pattern: str = ""

    def size(self, length):
        """The bytes of an object of this form."""
        if self.shape == "class":
            return max(24, 16 + 8 * len(self.pattern.replace("-", "")))
        if self.shape == "structs":
            return 24 + 8 * len(self.pattern) * length
        return 24 + (8 * length if self.shape == "refs" else (length + 7) // 8 * 8)


REFERENCES = Form("refs")
# An array of references behind each of which there is room for a number. The first one tells a class.
NUMBERED = Form("structs", "nr")
# The slots of references in it.
ODD = range(1, 1 << 32, 2)
# Rows of references, each behind room for a number. The first one tells whose static fields, or which thread's table.
ROW = 7
ROWS = Form("structs", "n" + "r" * ROW)
# The names of the slot that tells the class, and of one that stands for no field.
CLASS, UNUSED = "class", "-"


def slot_in_rows(at):
    """The slot of a reference, by its number, in an array of rows."""
    return at // ROW * (1 + ROW) + 1 + at % ROW


def rows_for(references):
    """How many rows an array has for so many references."""
    return max(1, -(-references // ROW))


def names_in_rows(names):
    """The names of the slots of an array of rows, by those of its references."""
    heads = [CLASS, *[UNUSED] * (rows_for(len(names)) - 1)]
    return [name for at, head in enumerate(heads) for name in (head, *names[at * ROW:(at + 1) * ROW])]


class Names:
    """Gives each thing a name of its own that a script can have. `spell` makes such a name of a text, as short as it
    can be made where it would be too long."""

    def __init__(self, spell):
        self.taken, self.spell = {"Free"}, spell

    def take(self, text):
        name = self.spell(text)
        if len(name) > MOST_NAME:
            name = name[:MOST_NAME - 9] + "_" + hashlib.sha256(text.encode()).hexdigest()[:8]
        free, number = name, 1
        while free in self.taken:
            number += 1
            free = f"{name[:MOST_NAME - 8]}.{number}"
        self.taken.add(free)
        return free


def spelled(text):
    """A text with `_` in place of each letter that the name of a type can't have."""
    name = re.sub(r"[^A-Za-z0-9_.\[\]<>+,]", "_", text)
    return name if re.match(r"[A-Za-z_]", name) else "_" + name


class Types:
    """The types of a script: their forms by their names in the order of their definition, the names of their slots, and
    the classes that share a type, each with its type and its name, by their numbers from 1 on."""

    def __init__(self, spell):
        self.names, self.types, self.fields, self.shared, self.merged = Names(spell), {}, {}, [], 0
        self.index_type = self.define("Index", REFERENCES)
        self.statics_type = self.define("statics", ROWS)

    def define(self, name, form, fields=()):
        free = self.names.take(name)
        self.types[free] = form
        if fields:
            self.fields[free] = fields
        return free

    def share(self, of, name, fields=()):
        """Lets a class share a type with others. Answers its number there, and its name."""
        free = self.names.take(name)
        self.shared.append((of, free))
        if fields:
            self.fields[free] = fields
        return len(self.shared), free

    def share_statics(self, of, fields):
        """The number that tells the static fields of a class, by the names of the references among them, and the name
        of what holds them."""
        return self.share(self.statics_type, "static." + of, names_in_rows(fields))

    def define_root_tables(self, tables, of_threads):
        """For each table of roots its type, and the number that tells it where it shares this: those of threads, whose
        names begin so, share one, and so do others where there are too many."""
        few = set([table for table in tables if not table.startswith(of_threads)][:TYPES_FOR_ROOTS])
        found, shared = {}, {}
        for table in tables:
            if table in few:
                found[table] = self.define("Roots." + table, REFERENCES), None
                continue
            name = "Roots.threads" if table.startswith(of_threads) else "Roots.more"
            of = shared[name] = shared.get(name) or self.define(name, ROWS)
            found[table] = of, self.share(of, "Roots." + table)[0]
        return found

    def room_for_classes(self, classes):
        """How many of so many classes have a type of their own."""
        room = MOST_TYPES - len(self.types)
        if classes > room:
            room -= TYPES_FOR_SHAPES
        self.merged = max(classes - room, 0)
        return room

    def define_shapes(self, counts):
        """A type for all classes that have as many references and numbers, or up to a step more, so that there aren't
        too many. `counts` has these by class, and nothing for one whose objects are arrays. Answers the shape and the
        type of each."""
        for step in STEPS:
            shapes = {of: rounded(both, step) for of, both in counts.items() if both}
            if len(set(shapes.values())) < TYPES_FOR_SHAPES:
                break
        types = {}
        for of in counts:
            shape = shapes.get(of)
            if shape not in types:
                form = Form("class", "n" + "r" * shape[0] + "n" * shape[1]) if shape else NUMBERED
                types[shape] = self.define("shared.{}.{}".format(*shape) if shape else "shared[]", form)
        return {of: (shapes.get(of), types[shapes.get(of)]) for of in counts}

    def field_lines(self):
        """A line for each type whose slots have names: its name, and theirs."""
        for name, fields in self.fields.items():
            yield " ".join([name, *(re.sub(r"\s", "_", field) for field in fields)])

    def name_lines(self):
        """A line for each class that shares a type, and one for each class with the bytes of its objects in the dumped
        program: `own_sizes` answers for a name so many, and so many more for each element."""
        for number, (of, name) in enumerate(self.shared, 1):
            yield f"name {of} {number} {name}"
        for name, (base, element) in self.own_sizes().items():
            yield f"size {name} {base} {element}"

    def own_sizes(self):
        return {}


def has_room_for_shape(fields):
    """Whether an object of so many fields can be of a type that several classes share."""
    return fields <= MOST_SLOTS - 1 - 2 * STEPS[-1]


def rounded(counts, step):
    """Counts, rounded up to a multiple of a step."""
    return tuple(-(-one // step) * step for one in counts)


# ---- what a heap must have

class Room:
    """The bytes of all objects, and the segments that they need at most. Budgets are so large that no line collects
    but one that needs a new segment: it collects twice before it takes one."""

    def __init__(self, sizes):
        small, self.bytes, self.large_segments = Small(), 0, [SEGMENT - PAGE]
        self.reserved = SEGMENT
        for size in sizes:
            self.bytes += size
            if size < LARGE:
                small.place(size)
            else:
                self._place_large(size)
        self.small_segments = small.segments()
        self.reserved += SEGMENT * self.small_segments
        self.collections = 2 * (self.small_segments - 1 + len(self.large_segments) - 1)

    def _place_large(self, size):
        """An object stands in the first segment in which it fits, and else in a new one."""
        for number, rest in enumerate(self.large_segments):
            if fits(size, rest):
                self.large_segments[number] -= size
                return
        reserved = max(SEGMENT, PAGE + (size + PAGE - 1) // PAGE * PAGE)
        self.reserved += reserved
        self.large_segments.append(reserved - PAGE - size)

    def check(self):
        """Raises TooMuch where no heap can have these objects."""
        if self.reserved > LIMIT:
            needed = f"its objects have {self.bytes:,} bytes and need segments of {self.reserved:,}"
            raise TooMuch(f"{needed}, and a heap has at most {LIMIT:,}")


class Small:
    """Where small objects stand: behind one another in contexts of a segment. That what is left of contexts is used
    again is left out of account, so they need at most so much."""

    def __init__(self):
        self.bytes = self.extent = self.rest = 0

    def place(self, size):
        self.bytes += size
        if not fits(size, self.rest):
            taken = CONTEXT if fits(size, CONTEXT) else size
            self.extent += taken
            self.rest = taken
        self.rest -= size

    def segments(self):
        """A segment that is full was compacted before, so it lacks room for one object at most."""
        if self.extent <= SEGMENT - PAGE:
            return 1
        return -(-self.bytes // (SEGMENT - PAGE - LARGE - LEAST_FREE))


def fits(size, rest):
    return size == rest or size + LEAST_FREE <= rest


def digits_below(end):
    """How many digits all numbers below an end have."""
    return end + sum(max(end - 10 ** power, 0) for power in range(1, 20))


# ---- lines

def type_lines(types):
    for name, form in types.items():
        yield f"type {name} {form.shape} {form.pattern}".rstrip() + "\n"


def made(kind, length=None):
    """The line that makes an object, without its end."""
    return f"t1 new l{FIRST} {kind}" if length is None else f"t1 new l{FIRST} {kind} {length}"


def taken(number):
    """The line that takes an object of the index."""
    return f"t1 get l{FIRST} l{INDEX} {number}\n"


def numbered(number):
    """The line that tells the class, or the table, of an object whose type it shares with others."""
    return "" if number is None else f"t1 put l{FIRST} 0 {number}\n"


def set_slots(edges):
    """Sets slots of the object in the first local, where a slot and the number of what it names are there."""
    return "".join([
        f"t1 get l{SECOND} l{INDEX} {number}\nt1 set l{FIRST} {slot} l{SECOND}\n"
        for slot, number in edges
        if number is not None and slot is not None
    ])


def fill_table(numbers, class_number):
    """Sets the slots of a table of roots, by the numbers of what it names."""
    return set_slots(zip(count() if class_number is None else map(slot_in_rows, count()), numbers))


def table_length(numbers, class_number):
    """How long a table is: in rows, where its first number tells what it is."""
    return len(numbers) if class_number is None else rows_for(len(numbers))


def end_lines():
    """Nothing is held any more by the locals of the script, and a full collection, which slides large objects, too."""
    for local in (INDEX, FIRST, SECOND):
        yield f"t1 null l{local}\n"
    yield "t1 compact-large once\nt1 collect 2 compacting\n"


# ---- files

def collect(pieces, objects):
    """A script in some large pieces, where all together they aren't too long."""
    texts, size = [], 0
    while text := "".join(islice(pieces, AT_ONCE)).encode("ascii"):
        texts.append(text)
        size += len(text)
        if size > MOST_BYTES:
            raise TooLong(f"its {objects:,} objects need a longer script than {MOST_BYTES:,} bytes")
    return texts


def check_files(script, *inputs):
    """No file that is written may be one that is read, or another one of those that are written."""
    if script is None:
        return
    if Path(script).suffix in ENDINGS:
        raise BadDump(f"a script can't have the ending {Path(script).suffix}: such a file stands beside it")
    for path in (Path(script), *map(Path(script).with_suffix, ENDINGS)):
        for read in inputs:
            if path.exists() and path.samefile(read):
                raise BadDump(f"{path} would be written over {'the dump' if read == inputs[0] else 'what is read'}")


def write(path, texts, types):
    """Writes the script, and what stands beside it; without a path the script alone. What was there stays until all of
    a file is written."""
    if path is None:
        sys.stdout.buffer.writelines(texts)
        sys.stdout.buffer.flush()
        return
    write_file(Path(path), texts)
    write_file(Path(path).with_suffix(".words"), [f"{WORDS}\n".encode()])
    for ending, lines in ((".fields", types.field_lines()), (".names", types.name_lines())):
        write_file(Path(path).with_suffix(ending), ["".join(line + "\n" for line in lines).encode("utf-8")])


def write_file(path, texts):
    if path.exists() and not path.is_file():
        with open(path, "wb") as file:
            file.writelines(texts)
        return
    part = path.with_name(path.name + ".part")
    try:
        with open(part, "wb") as file:
            file.writelines(texts)
        part.replace(path)
    except BaseException as fault:
        part.unlink(missing_ok=True)
        if isinstance(fault, OSError):
            raise OSError(fault.errno, fault.strerror, str(path)) from fault
        raise


def report(lines, room, texts, path):
    """What was written, for people: a first line and further ones of the tool's own, and how to run the script."""
    first, *more = lines
    collects = f"up to {room.collections} collections" if room.collections else "no collection"
    size = f"{sum(text.count(LINE_FEED) for text in texts):,} lines, {sum(map(len, texts)):,} bytes"
    end = [f"{collects} while it is made, with these options:", f"clrheap {WORDS} < {path or 'SCRIPT'}"]
    print("\n".join([first, size, *more, *end]), file=sys.stderr)


def merged_lines(types):
    """What a report tells of classes that share types."""
    if not types.merged:
        return []
    return [f"{types.merged:,} classes share types, and have their names in the file `.names`"]
