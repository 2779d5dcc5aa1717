"""Tests of `open` on images that no script leaves: run this file. CLRHEAP names the program.

What scripts behind saved images are answered, the stored ones tell.
"""
import subprocess
import sys
import tempfile
import unittest
from pathlib import Path

sys.dont_write_bytecode = True
sys.path.insert(0, str(Path(__file__).resolve().parent))

import image_writer as writer  # noqa: E402

SMALL, EPHEMERAL, LARGE = 0, 1, 2
SEGMENT, GREATEST, HIGHEST = 1 << 24, 67_108_864, 1 << 60
FIRST, SECOND, THIRD = writer.BASE, writer.BASE + (1 << 28), writer.BASE + (1 << 29)
USUAL = [(FIRST, SEGMENT, EPHEMERAL), (SECOND, SEGMENT, LARGE)]


def bare(segments=USUAL, limit=1 << 30, large=85_000):
    """An image without types whose segments, each a base, bytes reserved and a kind, are empty."""
    data = b"CLRHEAP2" + writer.numbers(limit, large, 0, 0, len(segments))
    for base, reserved, kind in segments:
        first = base + 0x1000
        data += writer.numbers(base, reserved, kind, first, *([first] * 2 if kind == EPHEMERAL else [0, 0]))
    return data + bytes(8192 + 84 * 8)


@unittest.skipUnless(writer.program_with_images(), "CLRHEAP names no program that knows images")
class Opening(unittest.TestCase):
    def setUp(self):
        folder = tempfile.TemporaryDirectory()
        self.addCleanup(folder.cleanup)
        self.image = Path(folder.name, "image")

    def opened(self, data, script="verifyheap\n"):
        """The status, what is written, and how many bytes of the script were read."""
        self.image.write_bytes(data)
        return self.ran(script, str(self.image))

    def ran(self, script, *words):
        with tempfile.TemporaryFile() as lines:
            lines.write(script.encode())
            lines.seek(0)
            ran = subprocess.run([writer.program_with_images(), "open", *words], stdin=lines, capture_output=True,
                                 text=True, check=False)
            self.assertEqual(ran.stderr, "")
            # The program reads by the same position.
            return ran.returncode, ran.stdout, lines.tell()

    def test_both_versions(self):
        words, script = [0, writer.table_word(1), 0, 7], "gcroot 0000000010001000\nt1 new l1 Node\ngchandles\n"
        told = "root t1 l0\n0000000010001000 Node\n0000000010001020\nhandles 0\n"
        for version in (1, 2):
            with self.subTest(version=version):
                data = writer.image([("Node", 0, 0, "rn")], words, [writer.FIRST], version=version)
                self.assertEqual(self.opened(data, script), (0, told, len(script)))

    def test_images_that_no_run_leaves(self):
        """Each bound, and one step beyond it."""
        short = [(FIRST, SEGMENT, EPHEMERAL), (SECOND, 1 << 18, LARGE)]
        for offset, fit, unfit in (
            (8, bare(short, limit=2 * SEGMENT), bare(short, limit=2 * SEGMENT - 1)),
            (16, bare(large=SEGMENT - 4096), bare(large=SEGMENT - 4095)),
            (96, bare([USUAL[0], (HIGHEST, SEGMENT, LARGE)]), bare([USUAL[0], (HIGHEST + 4096, SEGMENT, LARGE)])),
            (56, bare([(FIRST, GREATEST, EPHEMERAL), USUAL[1]]),
             bare([(FIRST, GREATEST + 4096, EPHEMERAL), USUAL[1]])),
            (56, bare([(FIRST, GREATEST, SMALL), (SECOND, SEGMENT, EPHEMERAL), (THIRD, SEGMENT, LARGE)]),
             bare([(FIRST, GREATEST + 4096, SMALL), (SECOND, SEGMENT, EPHEMERAL), (THIRD, SEGMENT, LARGE)])),
            (8, bare([USUAL[0], (SECOND, 1 << 29, LARGE)]),
             bare([(FIRST, 1 << 29, EPHEMERAL), (THIRD, SEGMENT, LARGE)], limit=(1 << 29) + SEGMENT, large=67_104_768)),
        ):
            with self.subTest(offset=offset):
                self.assertEqual(self.opened(fit), (0, "clean\n", 11))
                self.assertEqual(self.opened(unfit), (7, f"unfit image at {offset}\n", 0))

    def test_bytes_that_are_no_image(self):
        data = bare()
        for offset, bad in (
            (0, b""), (0, b"type Node class rn\n"), (8, data[:12]), (len(data) - 8, data[:-1]),
            (48, bare([(FIRST + 8, SEGMENT, EPHEMERAL), USUAL[1]])), (144, data[:144] + b"\1" + data[145:]),
            (len(data), data + b"\n"),
        ):
            with self.subTest(offset=offset):
                self.assertEqual(self.opened(bad), (7, f"bad image at {offset}\n", 0))

    def test_a_file_that_cannot_be_read(self):
        folder = str(self.image.parent)
        for path in (folder, f"{folder}/none", "", "-"):
            with self.subTest(path=path):
                self.assertEqual(self.ran("verifyheap\n", "--", path), (3, "", 0))

    def test_segments_are_as_long_as_the_ephemeral_one(self):
        data = bare([(FIRST, 1 << 18, EPHEMERAL), (SECOND, SEGMENT, LARGE)])
        script = "type byte[] bytes\n" + "t1 new l0 byte[] 80000\nt1 handle strong l0\n" * 4 + "eeheap -gc\n"
        status, told, _ = self.opened(data, script)
        reserved = [line.split(" reserved ")[1].split(" ")[0] for line in told.splitlines() if "segment " in line]
        self.assertEqual((status, reserved), (0, ["262144", "16777216", "262144"]), told)

    def test_a_line_is_answered_before_the_next_one_is_sent(self):
        self.image.write_bytes(bare())
        run = subprocess.Popen([writer.program_with_images(), "open", self.image], stdin=subprocess.PIPE,
                               stdout=subprocess.PIPE)
        for line, reply in ((b"verifyheap\n", b"clean\n"), (b"gchandles\n", b"handles 0\n")):
            run.stdin.write(line)
            run.stdin.flush()
            self.assertEqual(run.stdout.readline(), reply)
        self.assertEqual((run.communicate()[0], run.returncode), (b"", 0))


if __name__ == "__main__":
    unittest.main()
