"""Reads the answers of `eeheap -gc`, `dumpheap` and `gchandles`, or of `clrheap inspect`: for `heap-picture`."""
import re
import sys
from array import array
from bisect import bisect_left, bisect_right, insort
from collections import Counter
from dataclasses import dataclass, field

FIRST_PLACE = 0x1000

PLACE = r"[0-9a-f]{16}"
ITEM = rf"({PLACE}) ({PLACE}) (\d+) (\S+)"
FORMS = {
    "segment": rf"segment ({PLACE}) (small|ephemeral|large|pinned) end ({PLACE}) reserved (\d+)"
    rf"(?: gen1 ({PLACE}) gen0 ({PLACE}))?",
    "context": rf"context t(\d+) ({PLACE}) ({PLACE})",
    "reserved": r"reserved (\d+) limit (\d+)",
    "total": r"total (\d+) bytes (\d+) free (\d+)",
    "handle": rf"h(\d+) (strong|pinned|weak|weaklong|dependent) ({PLACE}|null)(?: ({PLACE}|null))?",
    "handles": r"handles (\d+)",
    "passed over": rf"(?:entry|ready) {PLACE} \S+|entries \d+ ready \d+|clean",
}


class BadInput(Exception):
    """No picture can be made of the input."""


@dataclass
class Segment:
    base: int
    kind: str
    end: int
    reserved: int
    start1: int
    start0: int

    @property
    def first(self):
        return self.base + FIRST_PLACE

    @property
    def borders(self):
        """Where a generation begins inside the segment."""
        return (self.start1, self.start0) if self.kind == "ephemeral" else ()

    def generation(self, place):
        if self.kind != "ephemeral" or place < self.start1:
            return 2
        return 1 if place < self.start0 else 0


@dataclass
class Span:
    """A range of a segment: an object, a free item, the rest of a context, or what the listing leaves out."""

    start: int
    end: int
    kind: str
    name: str
    generation: int = 2
    pinned: bool = False

    @property
    def size(self):
        return self.end - self.start

    def label(self):
        pin = ", pinned" if self.pinned else ""
        return f"{self.start:016x} {self.name}, {self.size:,} bytes, generation {self.generation}{pin}"


class Spans:
    """The spans of a segment by rising place, in arrays. `keys` says what each is: numbers of the heap's `names`."""

    def __init__(self):
        self.starts, self.ends, self.keys = array("Q"), array("Q"), array("I")

    def append(self, start, end, key):
        self.starts.append(start)
        self.ends.append(end)
        self.keys.append(key)

    def __len__(self):
        return len(self.starts)


FREE, CONTEXT, UNLISTED = range(3)
KINDS = ("free", "context", "unlisted", "object")


@dataclass
class Heap:
    """The segments, and their spans by their bases. The name of a key stands in `names`: the first are fixed, and each
    type has one of the others."""

    segments: list
    limit: int
    spans: dict = field(default_factory=dict)
    names: list = field(default_factory=lambda: ["Free", "context", "not listed"])
    pins: set = field(default_factory=set)
    threads: dict = field(default_factory=dict)

    def span(self, segment, number):
        """One span of a segment, with all that is known of it."""
        spans = self.spans[segment.base]
        start, key = spans.starts[number], spans.keys[number]
        kind, name = KINDS[min(key, 3)], self.names[key]
        if key == CONTEXT:
            name = f"context of t{self.threads[start]}"
        pinned = key > UNLISTED and start in self.pins
        return Span(start, spans.ends[number], kind, name, segment.generation(start), pinned)

    def sums(self):
        """How many spans there are, and how many bytes they have, by key and generation."""
        counts, sizes = Counter(), Counter()
        for segment in self.segments:
            spans = self.spans[segment.base]
            borders = sorted({0, *(bisect_left(spans.starts, at) for at in segment.borders), len(spans)})
            for low, high in zip(borders, borders[1:]):
                generation = segment.generation(spans.starts[low])
                keys, found = spans.keys[low:high], [0] * len(self.names)
                for key, start, end in zip(keys, spans.starts[low:high], spans.ends[low:high]):
                    found[key] += end - start
                for key, count in Counter(keys).items():
                    counts[key, generation] += count
                    sizes[key, generation] += found[key]
        return counts, sizes


class Lines:
    """The lines at the end of a text that belong to the three answers: items in arrays, all others with their words and
    numbers by their forms. `stop` is the line before them, with its number."""

    def __init__(self, text):
        self.starts, self.sizes, self.names, self.at = array("Q"), array("Q"), [], array("I")
        self.others, self.stop = {form: [] for form in FORMS}, None
        lines = text.split("\n")
        if lines and lines[-1] == "":
            lines.pop()
        # `ask` ends each answer with an empty line.
        match = re.compile(ITEM).fullmatch
        forms = [(form, re.compile(words).fullmatch) for form, words in FORMS.items()]
        for number in range(len(lines), 0, -1):
            item = match(lines[number - 1])
            if not lines[number - 1]:
                continue
            if item:
                self._take(item, number)
            elif not self._take_other(lines[number - 1], number, forms):
                self.stop = (number, lines[number - 1])
                break
        for one in (self.starts, self.sizes, self.names, self.at, *self.others.values()):
            one.reverse()

    def _take(self, item, number):
        self.starts.append(int(item[1], 16))
        self.sizes.append(int(item[3]))
        self.names.append(sys.intern(item[4]))
        self.at.append(number)

    def _take_other(self, line, number, forms):
        for form, match in forms:
            words = match(line)
            if words:
                self.others[form].append((number, words.groups()))
                return True
        return False

    def last(self, forms, end):
        """The lines of some forms that belong to the last answer which ends so, and that end's words, or nothing. With
        a total go the items, as a range of their numbers."""
        ends = self.others[end]
        last, before = ends[-1][0] if ends else 0, ends[-2][0] if len(ends) > 1 else 0
        late = [number for form in forms for number, _ in self.others[form] if number > last]
        if end == "total":
            late.extend(self.at[bisect_right(self.at, last):][:1])
        if late:
            raise BadInput(f"line {min(late)}: this answer has no last line `{end} ..`")
        if not ends:
            return None
        answer = {form: [row for row in self.others[form] if before < row[0] < last] for form in forms}
        return answer | {end: ends[-1], "items": range(bisect_right(self.at, before), bisect_left(self.at, last))}


def read_heap(text):
    """The heap that the answers at the end of the text show."""
    lines = Lines(text)
    answers = {
        "eeheap -gc": lines.last(("segment", "context"), "reserved"),
        "dumpheap": lines.last((), "total"),
    }
    for command, answer in answers.items():
        if answer is None:
            behind = f" after line {lines.stop[0]}, `{lines.stop[1][:60]}`" if lines.stop else ""
            raise BadInput(f"no answer of `{command}`{behind}")
    handles = lines.last(("handle",), "handles") or {"handle": []}
    heap = read_segments(answers["eeheap -gc"])
    heap.pins = {int(place, 16) for _, (_, kind, place, _) in handles["handle"] if kind == "pinned" and place != "null"}
    rows = read_items(heap, lines, answers["dumpheap"])
    place_spans(heap, rows, read_contexts(heap, answers["eeheap -gc"]))
    return heap


def read_segments(answer):
    segments = []
    for number, (base, kind, end, reserved, start1, start0) in answer["segment"]:
        if (kind == "ephemeral") != (start0 is not None):
            raise BadInput(f"line {number}: the ephemeral segment, and no other, has `gen1` and `gen0`")
        starts = (int(start or "0", 16) for start in (start1, start0))
        segment = Segment(int(base, 16), kind, int(end, 16), int(reserved), *starts)
        if not segment.first <= segment.end <= segment.base + segment.reserved:
            raise BadInput(f"line {number}: the end of the segment is outside it")
        segments.append(segment)
    segments.sort(key=lambda segment: segment.base)
    return Heap(segments, int(answer["reserved"][1][1]))


def read_items(heap, lines, answer):
    """Rows of the items: a start, an end, a key and the number of a line. The sums must be those of the total."""
    known = {"Free": FREE}
    low, high = answer["items"].start, answer["items"].stop
    for name in dict.fromkeys(lines.names[low:high]):
        if name not in known:
            known[name] = len(heap.names)
            heap.names.append(name)
    keys = array("I", map(known.__getitem__, lines.names[low:high]))
    starts, sizes = lines.starts[low:high], lines.sizes[low:high]
    free = sum(size for size, key in zip(sizes, keys) if key == FREE)
    sums = (len(keys) - keys.count(FREE), sum(sizes) - free, free)
    number, words = answer["total"]
    if sums != tuple(map(int, words)):
        listed = f"{sums[0]} objects of {sums[1]} bytes and {sums[2]} free bytes"
        raise BadInput(f"line {number}: the listing has {listed}, and its total says otherwise")
    return zip(starts, map(int.__add__, starts, sizes), keys, lines.at[low:high])


def read_contexts(heap, answer):
    """Rows of the rests of contexts, as those of items."""
    rows = []
    for number, (thread, start, end) in answer["context"]:
        heap.threads[int(start, 16)] = int(thread)
        insort(rows, (int(start, 16), int(end, 16), CONTEXT, number))
    return rows


def merged(rows, few):
    """The rows, with the few others between them where they belong."""
    waiting = 0
    for row in rows:
        while waiting < len(few) and few[waiting][0] < row[0]:
            yield few[waiting]
            waiting += 1
        yield row
    yield from few[waiting:]


def place_spans(heap, rows, contexts):
    """Gives each span to its segment, and fills what no span covers."""
    heap.spans = {segment.base: Spans() for segment in heap.segments}
    segments, before = iter(heap.segments), 0
    segment, following = None, next(segments, None)
    for start, end, key, number in merged(rows, contexts):
        while following and following.first <= start:
            finish(heap, segment, before)
            segment, following, before = following, next(segments, None), following.first
            spans = heap.spans[segment.base]
        if segment is None or end > segment.end:
            raise BadInput(f"line {number}: {start:016x} to {end:016x} is in no segment")
        if start < before or start >= end:
            raise BadInput(f"line {number}: {start:016x} lies in the item before it, or is empty")
        if before < start:
            spans.append(before, start, UNLISTED)
        spans.append(start, end, key)
        before = end
    while following:
        finish(heap, segment, before)
        segment, following, before = following, next(segments, None), following.first
    finish(heap, segment, before)


def finish(heap, segment, before):
    """Fills the end of a segment, from this place on."""
    if segment and before < segment.end:
        heap.spans[segment.base].append(before, segment.end, UNLISTED)
