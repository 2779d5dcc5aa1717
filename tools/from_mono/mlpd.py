"""Reads a dump of Mono's log profiler: one heap shot of it, and what tells its words."""
import struct
import zlib

from events import SKIPPED, Reader, signed, unsigned
from heap_script import MOST_NAME, BadDump
from shot import SOURCES, Region, Regions, Shot

FILE_MAGIC, BUFFER_MAGIC = 0x4D505A01, 0x4D504C01
FORMATS = (16, 17)
WORD = 8
OBJECT_EVENT = 0x26
ADDRESSES = (1 << 64) - 1
# Where there are more classes, types may have to be shared, and so have a short name.
FEW_CLASSES = 800
SHORT_NAME = "shared[]"
NO_SHOT = "it has no whole heap shot: --help tells how one is taken"


class Dump:
    """One shot of a dump, and what tells its words: classes by address, vtables, images, threads by name, regions of
    roots. The shot is the last whole one, or that of the number which is `wanted`."""

    def __init__(self, path, wanted=None):
        self.data, self.wanted = read_file(path), wanted
        self.classes, self.vtables, self.images, self.threads = {}, {}, {}, {}
        self.regions = Regions()
        self.shot, self.current, self.shots = None, None, 0
        try:
            self._read()
        except (struct.error, IndexError, ValueError, OverflowError) as fault:
            raise BadDump("the dump is cut off, or damaged") from fault
        self.data = b""
        if self.shot is None:
            raise BadDump(f"it has no shot {wanted}: its shots are 0 to {self.shots - 1}" if self.shots else NO_SHOT)
        self.shot.check()
        for vtable in set(self.shot.vtables):
            if self.vtables.get(vtable) not in self.classes:
                raise BadDump(f"the class of the vtable {vtable:x} of an object is missing")

    def class_of(self, vtable):
        """The class of a vtable: its name and its image."""
        return self.classes[self.vtables[vtable]]

    def is_vtable(self, key):
        return self.vtables.get(key) in self.classes

    def _least_name(self, vtable):
        """How long the name of a class's type is at least. Where there are many classes, some may share one."""
        name = len(self.classes.get(self.vtables.get(vtable), ("",))[0]) or 1
        return min(name, len(SHORT_NAME)) if name > MOST_NAME or len(self.classes) > FEW_CLASSES else name

    # ---- buffers

    def _read(self):
        data, at = self.data, self._read_head()
        while at < len(data):
            whole = len(data) - at >= 48
            if whole:
                magic, length, time, pointers, objects = struct.unpack_from("<IIQqq16x", data, at)
                at += 48
                if magic != BUFFER_MAGIC:
                    raise BadDump(f"no buffer stands at {at - 48}")
            if not whole or at + length > len(data):
                # A program that goes on writes its last buffer still.
                if self.shot is None:
                    raise BadDump("the dump is cut off")
                return
            self._read_buffer(at, at + length, time, pointers, objects)
            at += length
            if self.current and self.wanted in (None, self.shots):
                self.current.look(self._least_name)

    def _read_head(self):
        """Checks the head of the file, and answers where the buffers begin."""
        data = self.data
        if len(data) < 32 or struct.unpack_from("<I", data)[0] != FILE_MAGIC:
            raise BadDump("this is no dump of Mono's log profiler")
        if data[4] != 3 or data[6] not in FORMATS or data[7] != WORD:
            raise BadDump(f"it is of version {data[4]}.{data[5]}, format {data[6]}, words of {data[7]} bytes; "
                          "read are version 3, formats 16 and 17, words of 8")
        at = 8 + 16 + 4 + 4 + 4 + 2
        for _ in range(3):
            at += 4 + struct.unpack_from("<I", data, at)[0]
        return at

    def _read_buffer(self, at, end, time, pointers, objects):
        """Reads the events of a buffer. Most are objects of a shot."""
        data, other, of_object = self.data, self._read_event, self._read_object
        while at < end:
            tag = data[at]
            delta, at = unsigned(data, at + 1)
            time += delta
            if tag == OBJECT_EVENT:
                at = of_object(at, pointers, objects)
            else:
                reader = Reader(data, at, pointers, objects)
                other(tag, time, reader)
                at = reader.at
        if at != end:
            raise BadDump(f"the buffer that ends at {end} is damaged")

    def _read_object(self, at, pointers, objects):
        """An object of a shot, or more references of the one before, which have no size."""
        data, shot = self.data, self.current
        address, at = signed(data, at)
        vtable, at = signed(data, at)
        size, at = unsigned(data, at)
        count, at = unsigned(data, at + 1)
        if shot is None:
            raise BadDump(f"an object outside a heap shot stands at {at}")
        address = (address + objects) << 3
        if size:
            shot.add(address, (vtable + pointers) & ADDRESSES, size)
        elif not shot.addresses or shot.addresses[-1] != address:
            raise BadDump(f"references without their object stand at {at}")
        return self._read_references(at, count, objects) if count else at

    def _read_references(self, at, count, objects):
        """So many references of an object. Offsets are each told as a distance from the one before."""
        data, offset = self.data, 0
        offset_of, target_of = self.current.offsets.append, self.current.targets.append
        for _ in range(count):
            byte = data[at]
            at += 1
            if byte > 127:
                byte, at = unsigned(data, at - 1)
            offset += byte
            value, at = signed(data, at)
            offset_of(offset)
            target_of((value + objects) << 3)
        return at

    # ---- events

    def _read_event(self, tag, time, read):
        kind, extra = tag & 15, tag & 0xF0
        if kind == 2:
            self._read_metadata(extra, read)
        elif kind == 6:
            self._read_heap(extra, time, read)
        elif kind in SKIPPED:
            SKIPPED[kind](extra, read)
        else:
            raise BadDump(f"an event of an unknown kind, {tag:#x}, stands at {read.at}")

    def _read_metadata(self, extra, read):
        kind = read.byte()
        if kind == 1:
            pointer, image = read.pointer(), read.pointer()
            self.classes[pointer] = read.text(), image
        elif kind == 2:
            pointer, path = read.pointer(), read.text()
            self.images[pointer] = path, read.text() if extra == 0x20 else ""
        elif kind == 3:
            read.pointer(), read.pointer(), read.text()
        elif kind == 4:
            read.pointer()
            if extra == 0:
                read.text()
        elif kind == 5:
            thread = read.pointer()
            if extra == 0:
                self.threads[thread] = read.text()
        elif kind == 6:
            read.pointer(), read.pointer()
        elif kind == 7:
            pointer, _, of = read.pointer(), read.pointer(), read.pointer()
            self.vtables[pointer] = of
        else:
            raise BadDump(f"metadata of an unknown kind, {kind}, stands at {read.at}")

    def _read_heap(self, extra, time, read):
        if extra == 0x00:
            self.current = Shot(time)
        elif extra == 0x10:
            self._end_shot(time)
        elif extra == 0x30:
            for _ in range(read.unsigned()):
                slot, named = read.pointer(), read.object()
                if self.current:
                    self.current.roots.append((slot, named))
        elif extra == 0x40:
            start, size, source = read.pointer(), read.unsigned(), read.byte()
            of = SOURCES[source] if source < len(SOURCES) else "Other"
            self.regions.register(time, Region(start, size, of, read.pointer(), read.text(), time))
        elif extra == 0x50:
            self.regions.unregister(time, read.pointer())
        else:
            raise BadDump(f"a heap event of an unknown kind, {extra:#x}, stands at {read.at}")

    def _end_shot(self, time):
        """A shot is whole. Of several the last one is kept, or that which is wanted."""
        if self.current:
            number, self.shots = self.shots, self.shots + 1
            if self.wanted in (None, number):
                self.shot = self.current
                self.shot.close(time)
        self.current = None


def read_file(path):
    """The bytes of a dump. One that was written with `zip` is compressed."""
    with open(path, "rb") as file:
        data = file.read()
    if data[:2] != b"\x1f\x8b":
        return data
    try:
        return zlib.decompressobj(31).decompress(data)
    except zlib.error as fault:
        raise BadDump("the dump is cut off, or damaged") from fault
