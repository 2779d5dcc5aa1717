"""The objects and roots of one heap shot, and what is told while it is read: one that is far too large for a heap, or
for a script, is told soon.

What is counted is less than what the shot needs. One that isn't refused so is measured when all of it is read.
"""
from array import array
from bisect import bisect_right
from collections import Counter
from typing import NamedTuple

from heap_script import LIMIT, LINK, MAKE, MOST_BYTES, BadDump, TooMuch, digits_below

LOOK_EVERY = 100_000
# What a root's region was registered for: `MonoGCRootSource` of Mono's `metadata/profiler-events.h`.
SOURCES = (
    "External", "Stack", "FinalizerQueue", "Static", "ThreadStatic", "ContextStatic", "GCHandle", "Jit", "Threading",
    "AppDomain", "Reflection", "Marshal", "ThreadPool", "Debugger", "Handle", "Ephemeron", "Toggleref",
)


class Region(NamedTuple):
    """Where roots stand: from an address on, so many bytes, registered at a time. `key` is a vtable or a thread."""

    start: int
    size: int
    source: str
    key: int
    name: str
    begun: int


class Shot:
    """The objects of a heap shot in their order, in arrays: addresses, vtables, sizes, and from `first` on each one's
    references, offsets beside targets. `roots` are pairs of a slot's address and an object."""

    def __init__(self, begun):
        self.begun, self.ended = begun, 0
        self.addresses, self.vtables, self.sizes = array("Q"), array("Q"), array("Q")
        self.first, self.offsets, self.targets = array("Q"), array("I"), array("Q")
        self.roots, self.bytes, self.index = [], 0, {}
        self.counts, self.counted = Counter(), 0

    def add(self, address, vtable, size):
        self.addresses.append(address)
        self.vtables.append(vtable)
        self.sizes.append(size)
        self.first.append(len(self.targets))
        self.bytes += size

    def close(self, time):
        self.ended = time
        self.first.append(len(self.targets))
        self.index = dict(zip(self.addresses, range(len(self.addresses))))

    def check(self):
        """An object that is named and isn't there can't be made."""
        if len(self.index) != len(self.addresses):
            raise BadDump("the shot has an object twice")
        missing = set(self.targets).difference(self.index)
        if missing:
            raise BadDump(f"the shot names {len(missing):,} objects that it doesn't have")

    def references(self, number):
        """The offsets of an object's references, and what they name."""
        low, high = self.first[number], self.first[number + 1]
        return self.offsets[low:high], self.targets[low:high]

    # ---- limits

    def look(self, least_name):
        """Raises TooMuch where what was read doesn't fit. `least_name` answers how long the name of the type of a
        vtable's class is at least."""
        if self.bytes > LIMIT + LIMIT // 8:
            raise TooMuch(f"its objects have {self.bytes:,} bytes and more, and a heap has at most {LIMIT:,}")
        count = len(self.addresses)
        least = self.least_lines()
        if least < MOST_BYTES // 4 or count < self.counted + LOOK_EVERY and least < MOST_BYTES:
            return
        if least + self.least_names(least_name) > MOST_BYTES:
            raise TooMuch(f"its first {count:,} objects alone need a longer script than {MOST_BYTES:,} bytes")

    def least_lines(self):
        """How long the lines are at least that make the objects and set their references, without names."""
        count = len(self.addresses)
        return count * MAKE + digits_below(count) + len(self.targets) * LINK

    def least_names(self, least_name):
        self.counts.update(self.vtables[self.counted:])
        self.counted = len(self.vtables)
        return sum(many * least_name(vtable) for vtable, many in self.counts.items())


class Regions:
    """The regions of roots that were registered, and which of them were there when a shot was taken."""

    def __init__(self):
        self.events = []

    def register(self, time, region):
        self.events.append((time, 0, len(self.events), region.start, region))

    def unregister(self, time, start):
        self.events.append((time, 1, len(self.events), start, None))

    def all(self):
        return [region for *_, region in self.events if region]

    def finder(self, shot):
        """A function that answers in which region, as they were at the shot, a slot stands, or nothing. Threads write
        their events apart from each other, so these are put in the order of their times first."""
        standing = {}
        for time, _, _, start, region in sorted(self.events, key=lambda event: event[:3]):
            if region and time <= shot.ended:
                standing[start] = region
            elif not region and time < shot.begun:
                standing.pop(start, None)
        starts = sorted(standing)

        def find(slot):
            at = bisect_right(starts, slot) - 1
            one = standing[starts[at]] if at >= 0 else None
            return one if one and slot < one.start + one.size else None

        return find
