"""Reads the image of a heap, of version 1 or 2, as `clrheap image` writes it: for the tools beside this file.

An object is a number here: its rank by address among all objects that aren't free. What is known of objects stands in
arrays by these numbers.
"""
import sys
from array import array
from bisect import bisect_right
from dataclasses import dataclass, field

FIRST_PLACE = 0x1000
FREE_WORD = 0x7FF0_0000_0000
SHAPES = ("class", "refs", "bytes", "structs")
KINDS = ("small", "ephemeral", "large", "pinned")
HANDLES = ("strong", "pinned", "weak", "weaklong", "dependent")
LOCALS, THREADS = 64, 16


class BadImage(Exception):
    """The bytes are no image, or a part of it is missing."""


@dataclass
class Type:
    """A type. An object of it has `base` bytes, and an array so many for each element, too."""

    name: str
    shape: str
    finaliser: bool = False
    pattern: str = ""
    base: int = 24
    element: int = 0

    def __post_init__(self):
        slots = 8 * len(self.pattern)
        if self.shape == "class":
            self.base = max(24, 16 + slots)
        else:
            self.element = {"refs": 8, "structs": slots}.get(self.shape, 1)

    def size(self, length):
        return self.base + (self.element * length + 7) // 8 * 8

    def slots(self, length):
        """How many slots, or bytes, an object has."""
        return {"class": len(self.pattern), "structs": len(self.pattern) * length}.get(self.shape, length)

    def is_reference(self, slot):
        if self.shape in ("refs", "bytes"):
            return self.shape == "refs"
        return self.pattern[slot % len(self.pattern)] == "r"


@dataclass
class Segment:
    """A segment. `words` are those from the header of the first item on, and stand at this offset of the image."""

    base: int
    reserved: int
    kind: str
    end: int
    start1: int
    start0: int
    offset: int
    words: array

    @property
    def first(self):
        return self.base + FIRST_PLACE

    def word_at(self, address):
        return self.words[(address - self.first + 8) >> 3]


@dataclass
class Handle:
    number: int
    kind: str
    target: int
    second: int


@dataclass
class Image:
    limit: int
    types: list
    segments: list
    locals: array
    handles: list = field(default_factory=list)
    entries: array = field(default_factory=lambda: array("Q"))
    ready: array = field(default_factory=lambda: array("Q"))

    def __post_init__(self):
        self.firsts = [segment.first for segment in self.segments]

    def segment_of(self, address):
        """The segment in which an address, or the header before one, lies, or nothing."""
        at = bisect_right(self.firsts, address + 8) - 1
        return self.segments[at] if at >= 0 and address < self.segments[at].end - 8 else None

    def roots(self):
        """What the locals, strong and pinned handles and the f-reachable queue name: pairs of a name and an address."""
        for at, address in enumerate(self.locals):
            if address:
                yield local_name(at), address
        for handle in self.handles:
            if handle.kind in ("strong", "pinned") and handle.target:
                yield f"h{handle.number}", handle.target
        for at, address in enumerate(self.ready):
            yield f"ready {at}", address


class Reader:
    """Takes fields from the front of the bytes of an image."""

    def __init__(self, data):
        self.data, self.at = memoryview(data), 0

    def bytes(self, count):
        if count > len(self.data) - self.at:
            raise BadImage(f"what stands at {self.at} is cut off")
        self.at += count
        return self.data[self.at - count:self.at]

    def number(self, most=2**64 - 1):
        value = int.from_bytes(self.bytes(8), "little")
        if value > most:
            raise BadImage(f"the number at {self.at - 8} is too large")
        return value

    def words(self, count):
        words = array("Q")
        words.frombytes(self.bytes(8 * count))
        if sys.byteorder == "big":
            words.byteswap()
        return words


def local_name(at):
    """How lines call a local, by its number among those of all threads."""
    return f"t{at // LOCALS + 1} l{at % LOCALS}"


def read_image(path):
    """The image that a file, or with `-` standard input, holds."""
    if path == "-":
        return parse(sys.stdin.buffer.read())
    with open(path, "rb") as file:
        return parse(file.read())


def parse(data):
    reader = Reader(data)
    magic = bytes(reader.bytes(min(8, len(data))))
    if magic not in (b"CLRHEAP1", b"CLRHEAP2"):
        raise BadImage("this is no image of a heap")
    limit = reader.number()
    if magic == b"CLRHEAP2":
        reader.bytes(16)
    types = [Type("Free", "free"), *(read_type(reader) for _ in range(reader.number(1000)))]
    segments = [read_segment(reader) for _ in range(reader.number(4096))]
    image = Image(limit, types, segments, reader.words(LOCALS * THREADS))
    if magic == b"CLRHEAP2":
        read_tables(reader, image)
    if reader.at != len(data):
        raise BadImage(f"nothing should stand at {reader.at}")
    return image


def read_type(reader):
    name = bytes(reader.bytes(reader.number(128))).decode("ascii", "replace")
    shape, finaliser = SHAPES[reader.number(3)], bool(reader.number(1))
    pattern = bytes(reader.bytes(reader.number(256))).decode("ascii", "replace")
    return Type(name, shape, finaliser, pattern)


def read_segment(reader):
    base, reserved, kind, end = reader.number(), reader.number(), KINDS[reader.number(3)], reader.number()
    start1, start0, offset = reader.number(), reader.number(), reader.at
    if end % 8 or not base + FIRST_PLACE <= end <= base + reserved:
        raise BadImage(f"the end at {offset - 24} is outside its segment")
    return Segment(base, reserved, kind, end, start1, start0, offset, reader.words((end - base - FIRST_PLACE) // 8))


def read_tables(reader, image):
    """Handles and queues, behind the holder and five words for each thread."""
    reader.bytes(8 + 40 * THREADS)
    for _ in range(reader.number(65536)):
        image.handles.append(Handle(reader.number(), HANDLES[reader.number(4)], reader.number(), reader.number()))
    image.entries = reader.words(reader.number())
    image.ready = reader.words(reader.number())


def walk(image, segment, first=0):
    """For each item of a segment, from a word's number on: the numbers of its header's word and type, and its size."""
    words, count = segment.words, len(segment.words)
    bases = [one.base for one in image.types]
    elements = [one.element for one in image.types]
    at = first
    while at < count:
        number, rest = divmod(words[at + 1] - FREE_WORD, 64) if at + 2 < count else (-1, 0)
        if rest or not 0 <= number < len(bases):
            raise BadImage(f"no item stands at {segment.offset + 8 * at}")
        size = bases[number]
        if elements[number]:
            size += (elements[number] * words[at + 2] + 7) & ~7
        if at + (size >> 3) > count:
            raise BadImage(f"the item at {segment.offset + 8 * at} passes the end of its segment")
        yield at, number, size
        at += size >> 3
