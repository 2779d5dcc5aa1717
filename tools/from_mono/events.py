"""How events of Mono's log profiler are read, and how long those are that tell nothing of the heap."""
from heap_script import BadDump

# No number has more bits.
MOST_BITS = 70


def unsigned(data, at):
    """A number of 7 bits a byte, lowest first, and where it ends."""
    byte = data[at]
    at += 1
    value, shift = byte & 127, 7
    while byte > 127:
        byte = data[at]
        at += 1
        value |= (byte & 127) << shift
        shift += 7
        if shift > MOST_BITS:
            raise ValueError("a number that is too long")
    return value, at


def signed(data, at):
    """A number that may be below zero: of its last byte bit 6 says so."""
    byte = data[at]
    at += 1
    value, shift = byte & 127, 7
    while byte > 127:
        byte = data[at]
        at += 1
        value |= (byte & 127) << shift
        shift += 7
        if shift > MOST_BITS:
            raise ValueError("a number that is too long")
    return value - (1 << shift) if byte & 64 else value, at


class Reader:
    """Reads an event from an offset on. Pointers and objects are told as differences to a base of the buffer."""

    def __init__(self, data, at, pointers, objects):
        self.data, self.at, self.pointers, self.objects = data, at, pointers, objects

    def byte(self):
        self.at += 1
        return self.data[self.at - 1]

    def unsigned(self):
        value, self.at = unsigned(self.data, self.at)
        return value

    def signed(self):
        value, self.at = signed(self.data, self.at)
        return value

    def pointer(self):
        return (self.signed() + self.pointers) & (1 << 64) - 1

    def object(self):
        return (self.signed() + self.objects) << 3

    def text(self):
        end = self.data.index(b"\0", self.at)
        text = self.data[self.at:end].decode("utf-8", "replace")
        self.at = end + 1
        return text

    def backtrace(self, read):
        for _ in range(self.unsigned()):
            read()


# ---- events that tell nothing of the heap

def skip_allocation(extra, read):
    read.pointer(), read.object(), read.unsigned()
    if extra == 0x10:
        read.backtrace(read.signed)


def skip_gc(extra, read):
    if extra == 0x10:
        read.byte(), read.byte()
    elif extra == 0x20:
        read.unsigned()
    elif extra == 0x30:
        read.backtrace(read.object)
    elif extra in (0x40, 0x50, 0x60, 0x70):
        read.unsigned(), read.unsigned()
        if extra in (0x40, 0x60):
            read.object()
        if extra in (0x60, 0x70):
            read.backtrace(read.signed)
    elif extra in (0xA0, 0xB0):
        read.object()


def skip_method(extra, read):
    read.signed()
    if extra == 0x40:
        read.pointer(), read.unsigned(), read.text()


def skip_exception(extra, read):
    if extra == 0x10:
        read.byte(), read.unsigned(), read.signed(), read.object()
        return
    read.object()
    if extra == 0x80:
        read.backtrace(read.signed)


def skip_monitor(extra, read):
    read.byte(), read.object()
    if extra == 0x80:
        read.backtrace(read.signed)


def skip_sample(extra, read):
    if extra == 0x00:
        read.pointer(), read.backtrace(read.pointer), read.backtrace(read.signed)
    elif extra == 0x10:
        read.pointer(), read.unsigned(), read.text()
    elif extra == 0x20:
        read.pointer(), read.unsigned(), read.unsigned(), read.text()
    elif extra == 0x30:
        read.backtrace(lambda: skip_counter(read))
    elif extra == 0x40:
        while read.unsigned():
            skip_value(read.unsigned(), read)
    else:
        raise BadDump(f"a sample of an unknown kind, {extra:#x}, stands at {read.at}")


def skip_counter(read):
    if read.unsigned() == 0x8000:
        read.text()
    read.text(), read.unsigned(), read.unsigned(), read.unsigned(), read.unsigned()


def skip_value(kind, read):
    if kind == 6:
        if read.byte() != 1:
            read.text()
    elif kind == 5:
        read.at += 8
    elif kind in (1, 4):
        read.unsigned()
    else:
        read.signed()


def skip_runtime(_, read):
    kind = read.byte()
    read.pointer(), read.unsigned()
    if kind == 5:
        read.text()


def skip_meta(extra, read):
    if extra == 0x00:
        read.byte()
    else:
        read.text()


SKIPPED = {
    0: skip_allocation, 1: skip_gc, 3: skip_method, 4: skip_exception, 5: skip_monitor, 7: skip_sample,
    8: skip_runtime, 10: skip_meta,
}
