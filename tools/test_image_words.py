"""Tests of `image-words`: run this file. Where CLRHEAP names a program that knows images, its replies are compared,
too."""
import json
import sys
import tempfile
import unittest
from pathlib import Path

sys.dont_write_bytecode = True
sys.path.insert(0, str(Path(__file__).resolve().parent))

import image_writer as writer  # noqa: E402
from heap_image import BadImage, parse, walk  # noqa: E402

NODE, FILE, BYTES, ENTRY = range(1, 5)
TYPES = [("Node", 0, 0, "rn"), ("File", 0, 1, "-"[:0]), ("byte[]", 2, 0, ""), ("Entry[]", 3, 0, "nr")]
AT_NODE, AT_FILE, AT_BYTES, AT_ENTRY, AT_FREE = (writer.FIRST + address for address in (0, 32, 56, 96, 136))
WORDS = [
    0, writer.table_word(NODE), AT_BYTES, 77,
    0x4000_0000, writer.table_word(FILE), 0,
    0, writer.table_word(BYTES), 11, 0, 0xFF_0000,
    0, writer.table_word(ENTRY), 1, 5, AT_NODE,
    0, writer.table_word(0), 8, 0,
]
TOLD = [
    "header of 0000000010001000 Node", "method table of Node", "slot 0 ref byte[]", "slot 1 num 77",
    "header of 0000000010001020 File suppressed", "method table of File", "padding",
    "header of 0000000010001038 byte[]", "method table of byte[]", "length 11", "bytes 0 to 7",
    "bytes 8 to 10, padding",
    "header of 0000000010001060 Entry[]", "method table of Entry[]", "length 1", "slot 0 num 5", "slot 1 ref Node",
    "header of 0000000010001088 Free", "method table of Free", "free 32 bytes", "free",
]


def small(**more):
    return writer.image(TYPES, WORDS, **more)


class WithImage(unittest.TestCase):
    def run_on(self, data, *words):
        with tempfile.TemporaryDirectory() as folder:
            path = Path(folder) / "image"
            path.write_bytes(data)
            return writer.run_tool("image-words", path, *words)


class Lines(WithImage):
    def test_each_word(self):
        lines = self.run_on(small()).stdout.splitlines()
        heads = [f"{writer.FIRST - 8 + 8 * at:016x} {word:016x} " for at, word in enumerate(WORDS)]
        self.assertEqual(lines[1:-1], [head + told for head, told in zip(heads, TOLD)])
        head = "segment 0000000010000000 ephemeral end 00000000100010a8 reserved 16777216 gen1 "
        self.assertTrue(lines[0].startswith(head))
        self.assertEqual(lines[-1], "segment 0000000011000000 large end 0000000011001000 reserved 16777216")

    def test_both_versions_have_the_same_words(self):
        self.assertEqual(self.run_on(small(version=1)).stdout, self.run_on(small()).stdout)

    def test_one_object_by_any_of_its_addresses(self):
        for address in (AT_BYTES - 8, AT_BYTES, AT_BYTES + 4, AT_BYTES + 24):
            with self.subTest(address=address):
                lines = self.run_on(small(), "--object", f"{address:016x}").stdout.splitlines()
                self.assertEqual([line[34:] for line in lines[1:]], TOLD[7:12])

    def test_one_segment(self):
        self.assertEqual(len(self.run_on(small(), "--segment", "1").stdout.splitlines()), 1)

    def test_what_stands_outside(self):
        more = {"local_places": [0, AT_NODE], "handles": [(0, 1, AT_BYTES, 0), (7, 4, AT_NODE, AT_ENTRY), (8, 2, 0, 0)]}
        data = small(**more, ready=[AT_FILE])
        self.assertEqual(self.run_on(data, "--roots").stdout.splitlines(), [
            "t1 l1 0000000010001000 Node", "h0 pinned 0000000010001038 byte[]",
            "h7 dependent 0000000010001000 Node 0000000010001060 Entry[]", "h8 weak null",
            "ready 0 0000000010001020 File",
        ])
        rows = [json.loads(line) for line in self.run_on(data, "--roots", "--json").stdout.splitlines()]
        self.assertEqual(rows[2], {
            "root": "h7", "kind": "dependent", "target": "0000000010001000", "target_type": "Node",
            "second": "0000000010001060", "second_type": "Entry[]",
        })
        self.assertEqual((rows[3]["target"], rows[3]["target_type"]), (None, None))

    def test_for_programs(self):
        rows = [json.loads(line) for line in self.run_on(small(), "--json").stdout.splitlines()]
        self.assertEqual([row["segment"] for row in rows if "segment" in row], [0, 1])
        self.assertEqual([int(row["value"], 16) for row in rows if "value" in row], WORDS)
        target = next(row for row in rows if row.get("target"))
        self.assertEqual((target["object"], target["slot"], target["target_type"]), (f"{AT_NODE:016x}", 0, "byte[]"))


class Faults(WithImage):
    def test_an_address_outside(self):
        for words in (("--object", "1"), ("--segment", "2")):
            ran = self.run_on(small(), *words)
            self.assertEqual((ran.returncode, ran.stderr.count("\n")), (1, 1))

    def test_each_cut(self):
        whole = small()
        for size in (*range(400), *range(400, len(whole), 97)):
            with self.assertRaises(BadImage):
                parse(whole[:size])

    def test_a_byte_too_many(self):
        with self.assertRaises(BadImage):
            parse(small() + b"\0")

    def test_words_that_are_no_item(self):
        for at, word in ((1, 0), (1, writer.table_word(9)), (1, writer.table_word(1) + 8), (9, 1 << 40)):
            words = WORDS[:at] + [word] + WORDS[at + 1:]
            bad = parse(writer.image(TYPES, words))
            with self.subTest(at=at), self.assertRaises(BadImage):
                list(walk(bad, bad.segments[0]))


class Program(WithImage):
    @unittest.skipUnless(writer.program_with_images(), "CLRHEAP names no program that writes images")
    def test_the_listing_of_the_program(self):
        """The objects and free items are those of `dumpheap`, and what `dumpobj` shows of one is what its words say."""
        script = ["type Node class rn", "type byte[] bytes", "t1 new l0 Node", "t1 new l1 byte[] 90000"]
        script += ["t1 new l2 byte[] 3", "t1 set l0 0 l1", "t1 put l0 1 9", "t1 null l2", "t1 collect 2 sweeping"]
        program = writer.program_with_images()
        shown = writer.replies(program, [*script, "dumpheap"], "run")[len(script):-1]
        lines = self.run_on(writer.replies(program, script, "image")).stdout.splitlines()
        told = [line[34:].split()[2:4] for line in lines if line[34:].startswith("header of")]
        self.assertEqual(told, [[line.split()[0], line.split()[3]] for line in shown])
        self.assertIn("slot 0 ref byte[]", [line[34:] for line in lines])


if __name__ == "__main__":
    unittest.main()
