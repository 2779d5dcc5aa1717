"""Looks at a dump while it is read: one that is far too large for a heap, or for a script, is told soon.

What is counted is less than what the dump needs, as long as its references name its own objects. A dump that isn't
refused so is measured when all of it is read.
"""
from collections import Counter

from heap_script import HOLDER, LIMIT, LINK, MAKE, MOST_BYTES, MOST_NAME, TooMuch, digits_below
from hprof import NUMBERS, Kind
from layout import WEAK, readable

# Objects have no fewer bytes in a heap than in their dump, but for classes, and for numbers of what shares a type.
MOST_DUMPED = LIMIT + LIMIT // 8
# Where there are more sorts of objects, types may have to be shared, and so have a short name.
FEW_SORTS = 800
SHORT_NAME = "static"
LOOK_EVERY = 100_000
# Of instances one in so many is looked at, and stands for all of them. They have few references each.
ONE_IN = 8


class Limits:
    """Looks at a dump while it is read. `links` are the least bytes of the lines that set references, of as many
    objects as were looked at."""

    def __init__(self):
        self.counts, self.counted = Counter(), 0
        self.links = self.looked_at = 0

    def look(self, dump):
        """Raises TooMuch where what was read doesn't fit. References are counted where the script is long without."""
        if dump.heap_bytes > MOST_DUMPED:
            raise TooMuch(f"its objects have {dump.heap_bytes:,} bytes, and a heap has at most {LIMIT:,}")
        if len(dump.sort_of) < self.counted + LOOK_EVERY:
            return
        self.counts.update(dump.sort_of[self.counted:])
        self.counted = len(dump.sort_of)
        makes = self.least_makes(dump)
        if makes > MOST_BYTES // 4:
            self.look_at_references(dump)
        if makes + self.links > MOST_BYTES:
            raise TooMuch(f"its first {self.counted:,} objects alone need a longer script than {MOST_BYTES:,} bytes")

    def least_makes(self, dump):
        """How long the lines are at least that make the objects."""
        short = sum(sort.kind is not Kind.CLASS for sort in dump.sorts) > FEW_SORTS
        names = sum(count * least_name(dump, dump.sorts[sort], short) for sort, count in self.counts.items())
        return self.counted * MAKE + names + digits_below(self.counted)

    def look_at_references(self, dump):
        """Adds the lines of the objects that were not looked at yet."""
        known = [has_known_references(dump, sort) for sort in dump.sorts]
        are_instances = [has and sort.kind is Kind.INSTANCE for has, sort in zip(known, dump.sorts)]
        are_others = [has and sort.kind is not Kind.INSTANCE for has, sort in zip(known, dump.sorts)]
        every, sort_of = range(self.looked_at, self.counted), dump.sort_of
        self.links += self.least_links(dump, [number for number in every if are_others[sort_of[number]]])
        some = [number for number in every[::ONE_IN] if are_instances[sort_of[number]]]
        self.links += ONE_IN * self.least_links(dump, some)
        self.looked_at = self.counted

    def least_links(self, dump, numbers):
        """How long the lines are at least that set the references of these objects."""
        size, holder = 0, HOLDER + len(str(self.looked_at))
        for number in numbers:
            named = dump.references(number)
            count = len(named) - named.count(0)
            size += holder + count * LINK if count else 0
        return size


def least_name(dump, sort, short):
    """How long the name of a sort's type is at least."""
    if sort.kind is Kind.NUMBERS:
        return len(NUMBERS[sort.of][0] + "[]")
    name = len(readable(dump.classes[sort.of].name)) if sort.of in dump.classes else 1
    return min(name, len(SHORT_NAME)) if short or name > MOST_NAME or sort.kind is Kind.CLASS else name


def has_known_references(dump, sort):
    """Whether objects of the sort have references that are all set, and the classes that say where were read."""
    if sort.kind is Kind.NUMBERS or dump.descends(sort.of, WEAK):
        return False
    above = dump.chain(sort.of)
    return bool(above) and not dump.classes[above[-1]].superclass
