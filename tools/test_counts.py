"""Tests that no count in an image makes a reader of it take memory: run this file. CLRHEAP names the program."""
import resource
import subprocess
import sys
import tempfile
import unittest
from pathlib import Path

sys.dont_write_bytecode = True
sys.path.insert(0, str(Path(__file__).resolve().parent))

import image_writer as writer  # noqa: E402

# The most resident memory that a run may have, in units of 1,024 bytes. A run begins with as much as this process has.
MOST = 32 << 10
MANY = 1 << 60


def small(**more):
    return writer.image([("Node", 0, 0, "rn")], [], **more)


def claims():
    """Bytes that tell of far more than they have, by what they claim, each with the offset of its first fault."""
    front = b"CLRHEAP2" + writer.numbers(1 << 30, 85_000, 0)
    segment = writer.numbers(writer.BASE, 1 << 30, 1)
    empty = small()
    queues = len(empty) - 16
    return {
        "everything": (b"CLRHEAP2" + writer.numbers(*[MANY] * 12), 8),
        "types": (front + writer.numbers(MANY, MANY), 32),
        "a thousand types": (front + writer.numbers(1000), 40),
        "a name": (front + writer.numbers(1, MANY), 40),
        "a pattern": (front + writer.numbers(1, 1) + b"N" + writer.numbers(0, 0, MANY), 65),
        "segments": (front + writer.numbers(0, MANY), 40),
        "4,096 segments": (front + writer.numbers(0, 4096), 48),
        "a segment of 1 GiB": (front + writer.numbers(0, 2) + segment + writer.numbers(writer.BASE + (1 << 30)), 80),
        "handles": (empty[:queues - 8] + writer.numbers(MANY), queues - 8),
        "65,536 handles": (empty[:queues - 8] + writer.numbers(65_536), queues),
        "entries": (empty[:queues] + writer.numbers(MANY), queues + 8),
        "what waits": (empty[:queues + 8] + writer.numbers(MANY), queues + 16),
    }


def reserving():
    """An image whose two segments, without items, reserve 1 GiB."""
    data = b"CLRHEAP2" + writer.numbers(1 << 30, 85_000, 0, 0, 2)
    for kind, base, reserved in ((1, writer.BASE, 1 << 26), (2, writer.BASE + (1 << 26), (1 << 30) - (1 << 26))):
        first = base + 0x1000
        data += writer.numbers(base, reserved, kind, first, *([first] * 2 if kind == 1 else [0, 0]))
    return data + bytes(8192 + 84 * 8)


@unittest.skipUnless(writer.program_with_images(), "CLRHEAP names no program that knows images")
class Counts(unittest.TestCase):
    def check(self, data, status, text=None):
        """What the commands answer, and that they take no memory for it."""
        program = writer.program_with_images()
        with tempfile.NamedTemporaryFile() as image:
            image.write(data)
            image.flush()
            for words, read in ((["inspect"], data), (["migrate"], data), (["open", image.name], b"")):
                with self.subTest(command=words[0]):
                    ran = subprocess.run([program, *words], input=read, capture_output=True, check=False)
                    self.assertEqual(ran.returncode, status)
                    self.assertIn(ran.stdout, [text] if text else [ran.stdout])
                    self.assertLess(resource.getrusage(resource.RUSAGE_CHILDREN).ru_maxrss, MOST)

    def test_claims_take_no_memory(self):
        for claim, (data, fault) in claims().items():
            with self.subTest(claim=claim):
                self.check(data, 7, b"bad image at %d\n" % fault)

    def test_reserved_bytes_take_no_memory(self):
        self.check(reserving(), 0)


if __name__ == "__main__":
    unittest.main()
