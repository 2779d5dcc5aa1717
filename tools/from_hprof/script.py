"""The lines of a script that makes the objects of a dump and lets them name each other.

All objects stand in one array, the index, while they are made. Then tables take what the roots name, one table holds
these, and nothing else is held any more. Lines come in pieces, each of whole lines.
"""
from itertools import count

from heap_script import FIRST, INDEX, ROOTS, end_lines, fill_table, made, numbered, set_slots, table_length, taken
from heap_script import type_lines
from hprof import NUMBERS, Kind

MASK = (1 << 64) - 1
LETTERS = ("byte", "char")
# So many bytes of each text are kept at most, and lines of so many bytes for all texts.
MOST_LETTERS = (64, 32, 16, 8)
MOST_FOR_TEXTS = 60_000_000
PUT = len("t1 put l2 10 100\n")


def script(layout, weak="null"):
    """All pieces."""
    yield from type_lines(layout.types)
    yield from make_objects(layout)
    yield from set_references(layout)
    if weak == "handle":
        yield from make_weak_handles(layout)
    yield from hold_roots(layout)
    yield from end_lines()


def make_objects(layout):
    dump = layout.dump
    yield f"t1 new l{INDEX} {layout.index_type} {len(dump.identities)}\n"
    makes = [make(layout, number) for number in range(len(dump.sorts))]
    puts = putters(layout)
    for number, (sort, length) in enumerate(zip(dump.sort_of, dump.lengths)):
        line, has_length = makes[sort]
        if has_length:
            line = f"{line} {layout.length_in_script(sort, length)}"
        if puts[sort]:
            yield f"{line}\n{puts[sort](number)}t1 set l{INDEX} {number} l{FIRST}\n"
        else:
            yield f"{line}\nt1 set l{INDEX} {number} l{FIRST}\n"


def make(layout, sort):
    """The line that makes an object of a sort, and whether the object's own length is to stand behind it."""
    length = layout.fixed_length(sort)
    return made(layout.type_of[sort], None if length == -1 else length), length == -1


def putters(layout):
    """For each sort, a function that answers the lines which put the numbers of an object, or nothing."""
    texts = Texts(layout)
    layout.letters = texts.most
    return [putter(layout, sort, texts) for sort in range(len(layout.dump.sorts))]


def putter(layout, sort, texts):
    kind, of = layout.dump.sorts[sort]
    if texts.most and kind is Kind.NUMBERS and NUMBERS[of][0] in LETTERS:
        return texts.lines(NUMBERS[of][0])
    kept = layout.kept[sort]
    first = numbered(layout.number_of[sort])
    if not kept:
        return (lambda one: first) if first else None
    read, slots = layout.dump.number_reader(of, kept).unpack_from, list(kept.values())
    data, ats = layout.dump.data, layout.dump.ats

    def lines(one):
        return first + "".join([
            f"t1 put l{FIRST} {slot} {value & MASK}\n" for slot, value in zip(slots, read(data, ats[one])) if value
        ])

    return lines


class Texts:
    """The arrays that hold the letters of Java's strings, and how many bytes of each the script keeps at most: fewer
    where there are many."""

    def __init__(self, layout):
        dump = self.dump = layout.dump
        self.most, self.of_string = 0, bytearray(len(dump.identities))
        if layout.values < layout.TEXTS:
            return
        strings = {number for number, (kind, of) in enumerate(dump.sorts)
                   if kind is Kind.INSTANCE and dump.classes[of].name == "java/lang/String"}
        for number, sort in enumerate(dump.sort_of) if strings else ():
            if sort in strings:
                held = dump.references(number)
                if held and held[0] in dump.index:
                    self.of_string[dump.index[held[0]]] = 1
        lengths = [length for length, is_text in zip(dump.lengths, self.of_string) if is_text]
        for most in MOST_LETTERS:
            if sum(min(length, most) for length in lengths) * PUT <= MOST_FOR_TEXTS:
                self.most = most
                break

    def lines(self, element):
        """A function that answers the lines for an array of bytes or of chars, whose lower bytes come first here."""
        dump, of_string, most = self.dump, self.of_string, self.most
        starts = [f"t1 put l{FIRST} {at} " for at in range(most)]
        swaps = element == "char"

        def lines(one):
            if not of_string[one]:
                return ""
            at = dump.ats[one]
            raw = dump.data[at:at + min(dump.lengths[one], most)]
            if swaps:
                raw = b"".join(raw[low:low + 2][::-1] for low in range(0, len(raw), 2))
            return "".join([f"{start}{letter}\n" for start, letter in zip(starts, raw) if letter])

        return lines


def set_references(layout):
    dump = layout.dump
    named, references = dump.index.get, dump.references
    slots_of = [slots_to_set(layout, sort) for sort in range(len(dump.sorts))]
    for number, sort in enumerate(dump.sort_of):
        slots = slots_of[sort]
        held = list(map(named, references(number)))
        lines = set_slots(zip(count() if slots is None else slots, held))
        if lines:
            yield taken(number) + lines


def slots_to_set(layout, sort):
    """The slots of a sort's references, with nothing in place of that of the weak one."""
    slots, weak = layout.slots_of[sort], layout.weak[sort]
    if weak is None:
        return slots
    length = layout.fixed_length(sort)
    return [None if at == weak else slot for at, slot in enumerate(slots or range(length or 0))]


def make_weak_handles(layout):
    dump = layout.dump
    for one, sort in enumerate(dump.sort_of):
        if layout.weak[sort] is not None:
            number = dump.index.get(dump.references(one)[layout.weak[sort]])
            if number is not None:
                yield taken(number) + f"t1 handle weak l{FIRST}\n"


def hold_roots(layout):
    tables = layout.root_tables
    yield f"t1 new l{ROOTS} {layout.roots_type} {len(tables)}\n"
    for slot, (table, identities) in enumerate(tables.items()):
        of, number = layout.root_types[table]
        held = [layout.dump.index[identity] for identity in identities]
        yield f"{made(of, table_length(held, number))}\n{numbered(number)}t1 set l{ROOTS} {slot} l{FIRST}\n"
        yield fill_table(held, number)
