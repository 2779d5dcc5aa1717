"""Writes small dumps of Mono's log profiler, event by event: for the tests of from-mono."""
import struct

POINTERS, OBJECTS, THREAD = 0x5600_0000_0000, 0x7F00_0000_0000 >> 3, 0x7F11_0000_0000
IMAGE, STATICS, STACK, HANDLES, PINNED = (POINTERS + at for at in (0x100, 0x1000, 0x200000, 0x3000, 0x4000))
TEXT, LETTERS, NODE, NODES, ROWS, TABLE, BYTES, ENTRIES = range(8)
NAMES = ("System.String", "System.Char[]", "Map.Node", "Map.Node[]", "Map.Row[]", "Map.Node[,]", "System.Byte[]",
         "Map.Entry<System.String,Map.Node>[]")
HEAD, TAIL, LOST, NAME, ALL, GRID, BLOB, PAIRS, LONG = (0x7F00_0000_1000 + 0x1000 * at for at in range(9))

OFFSETS = """\
class Map.Node
field 16 r Next
field 24 r Name
field 32 n Count
field 36 n Flags
static 0 n Made
static 8 r First
class Map.Node[]
element 0
class Map.Entry<System.String,Map.Node>[]
element 24
field 0 n Hash
field 8 r Key
field 16 r Value
class Map.Row[]
element 12
field 0 n X
"""


def unsigned(value):
    out = b""
    while value > 127:
        out += bytes([value & 127 | 128])
        value >>= 7
    return out + bytes([value])


def signed(value):
    out = b""
    while not -64 <= value < 64:
        out += bytes([value & 127 | 128])
        value >>= 7
    return out + bytes([value & 127])


class DumpWriter:
    """Writes a dump, event by event. `buffer` ends a buffer."""

    def __init__(self, version=17):
        texts = b"".join(struct.pack("<i", len(text)) + text for text in (b"log\0", b"x86-64\0", b"linux\0"))
        head = struct.pack("<I4BQQiiiH", 0x4D505A01, 3, 0, version, 8, 1, 2, 20, 0, 77, 0)
        self.data, self.events, self.time, self.count = head + texts, [], 0, 0

    def buffer(self):
        body = b"".join(self.events)
        head = struct.pack("<IiQqqqq", 0x4D504C01, len(body), self.time, POINTERS, OBJECTS, THREAD, 0)
        self.data += head + body
        self.time += 5 * self.count
        self.events, self.count = [], 0

    def event(self, tag, *parts):
        self.events += [bytes([tag]), unsigned(5), *parts]
        self.count += 1

    def pointer(self, value):
        return signed(value - POINTERS)

    def object(self, value):
        return signed((value >> 3) - OBJECTS)

    def image(self, path):
        self.event(0x22, b"\2", self.pointer(IMAGE), path + b"\0", b"AF847767-F2CE-46BD-B1F7-7722FBC64210\0")

    def define(self, number, name, image=IMAGE):
        of, vtable = POINTERS + 0x50000 + number * 16, vtable_of(number)
        self.event(0x22, b"\1", self.pointer(of), self.pointer(image), name.encode() + b"\0")
        self.event(0x22, b"\7", self.pointer(vtable), self.pointer(POINTERS), self.pointer(of))

    def thing(self, address, of, size, *references):
        """An object: its references are pairs of an offset and what stands there."""
        before, named = 0, b""
        for offset, held in references:
            named += unsigned(offset - before) + self.object(held)
            before = offset
        parts = self.object(address), self.pointer(vtable_of(of)), unsigned(size), b"\1", unsigned(len(references))
        self.event(OBJECT, *parts, named)

    def region(self, start, size, source, key=0, name="Static Fields"):
        key = self.pointer(key) if key else signed(-POINTERS)
        self.event(0x46, self.pointer(start), unsigned(size), bytes([source]), key, name.encode() + b"\0")

    def unregister(self, start):
        self.event(0x56, self.pointer(start))

    def roots(self, *pairs):
        named = b"".join(self.pointer(slot) + self.object(held) for slot, held in pairs)
        self.event(0x36, unsigned(len(pairs)), named)

    def begin(self):
        self.event(0x06)

    def end(self):
        self.event(0x16)

    def file(self):
        self.buffer()
        return self.data


OBJECT = 0x26


def vtable_of(number):
    return POINTERS + 0x900000 + number * 16


def write_others(dump):
    """An event of each kind that tells nothing of the heap."""
    pointer, thing, one = dump.pointer(POINTERS + 8), dump.object(HEAD), unsigned(300)
    calls = unsigned(2) + signed(-70) + signed(9)
    for tag, *parts in (
        (0x00, pointer, thing, one), (0x10, pointer, thing, one, calls), (0x11, b"\0\1"), (0x21, one),
        (0x31, unsigned(2), thing, thing), (0x41, unsigned(2), one, thing), (0x51, unsigned(2), one),
        (0x61, unsigned(2), one, thing, calls), (0x71, unsigned(2), one, calls), (0x81,), (0x91,), (0xA1, thing),
        (0xB1, thing), (0x22, b"\3", pointer, pointer, b"corlib\0"), (0x22, b"\4", pointer),
        (0x02, b"\4", pointer, b"domain\0"), (0x22, b"\5", pointer), (0x22, b"\6", pointer, pointer),
        (0x13, signed(4)), (0x23, signed(4)), (0x33, signed(4)), (0x43, signed(4), pointer, one, b"Main\0"),
        (0x04, thing), (0x84, thing, calls), (0x14, b"\2", one, signed(7), thing), (0x05, b"\1", thing),
        (0x85, b"\1", thing, calls), (0x07, pointer, unsigned(1), pointer, calls), (0x17, pointer, one, b"malloc\0"),
        (0x27, pointer, one, one, b"libc\0"),
        (0x37, unsigned(2), unsigned(0x100), b"a\0", one * 4, unsigned(0x8000), b"own\0", b"b\0", one * 4),
        (0x47, b"\1\0", signed(-5), b"\2\4", one, b"\3\5", bytes(8), b"\4\6\0", b"x\0", b"\5\6\1", b"\0"),
        (0x18, b"\0", pointer, one), (0x18, b"\5", pointer, one, b"helper\0"), (0x0A, b"\1"), (0x1A, b"guid\0"),
    ):
        dump.event(tag, *parts)


def write_start(dump):
    dump.image(b"/srv/Map.exe")
    for number, name in enumerate(NAMES):
        dump.define(number, name)
    dump.event(0x02, b"\5", dump.pointer(THREAD), b"patrol one\0")
    dump.region(STATICS, 24, 3, vtable_of(NODE))
    dump.region(STACK, 0x1000, 1, THREAD, "Thread Stack")
    dump.region(HANDLES, 256, 6, 0, "GC Handle Bucket (SGen, Normal)")
    dump.region(PINNED, 256, 6, 0, "GC Handle Bucket (SGen, Pinned)")


def write_shot(dump):
    """A head and a tail name each other, arrays of all kinds stand beside, and an object that no root reaches."""
    dump.begin()
    dump.roots((STATICS + 8, HEAD), (STACK + 40, ALL), (STACK + 40, GRID), (HANDLES, BLOB), (PINNED + 8, BLOB))
    dump.thing(HEAD, NODE, 40, (16, TAIL), (24, NAME))
    dump.thing(TAIL, NODE, 40, (16, HEAD))
    dump.thing(LOST, NODE, 40)
    dump.thing(NAME, TEXT, 32)
    dump.buffer()
    dump.thing(ALL, NODES, 32 + 8 * 300, *((32 + 8 * at, HEAD) for at in range(128)))
    dump.thing(ALL, NODES, 0, (32 + 8 * 299, TAIL))
    dump.thing(GRID, TABLE, 32 + 8 * 6 + 16, (32 + 8 * 5, TAIL))
    dump.thing(BLOB, BYTES, 32 + 104)
    dump.thing(PAIRS, ENTRIES, 32 + 3 * 24, (40, NAME), (48, HEAD), (72, HEAD))
    dump.end()


def tiny_dump():
    dump = DumpWriter()
    write_others(dump)
    write_start(dump)
    write_shot(dump)
    return dump.file()
