"""Tests of `fuzz-images`: run this file. Where CLRHEAP names a program that knows images, it is fuzzed, too."""
import os
import re
import sys
import tempfile
import unittest
from pathlib import Path

sys.dont_write_bytecode = True
sys.path.insert(0, str(Path(__file__).resolve().parent))

import image_writer as writer  # noqa: E402

# Each script has the same image, and the fault of each image is its end. Some stand-ins do something else before.
STAND_IN = """#!/bin/sh
folder=$(dirname "$0")
if [ "$1" = image ]; then exec cat "$folder/image"; fi
size=$(wc -c)
{otherwise}
echo "bad image at $size"
exit 7
"""
SHORT = 'if [ "$size" -lt 9000 ]; then size=0; fi'
NO_MEMORY = 'if [ "$size" -gt 0 ]; then exit 5; fi'
FIRST_FAULT = 'if [ "$1" = migrate ]; then size=0; fi'
# The program itself, but for the last byte of what `inspect` reads.
WRAPPED = """#!/bin/sh
if [ "$1" = inspect ]; then head -c -1 | "{program}" inspect; else exec "{program}" "$@"; fi
"""


class Fuzzing(unittest.TestCase):
    def setUp(self):
        folder = tempfile.TemporaryDirectory()
        self.addCleanup(folder.cleanup)
        self.folder = Path(folder.name)
        (self.folder / "image").write_bytes(writer.image([("Node", 0, 0, "rn")], [0, writer.table_word(1), 0, 77]))

    def program(self, name, text):
        path = self.folder / name
        path.write_text(text, encoding="ascii")
        path.chmod(0o755)
        return path

    def stand_in(self, name, otherwise=""):
        return self.program(name, STAND_IN.format(otherwise=otherwise))

    def check_told(self, ran, count, what):
        """The first difference is told, and its image is kept. Gives what was kept."""
        lines = ran.stdout.splitlines()
        self.assertEqual((ran.returncode, len(lines), ran.stderr), (1, 2, ""))
        self.assertRegex(lines[0], what)
        self.assertRegex(lines[1], rf"^{count} damaged images of \d+, \d+ of them images still: [1-9]\d* differences$")
        kept = Path(re.search(r"; kept as (.*)$", lines[0])[1])
        data = kept.read_bytes()
        kept.unlink()
        return data

    def test_programs_that_answer_alike(self):
        ran = writer.run_tool("fuzz-images", "--program", self.stand_in("one"), self.stand_in("other"), 8)
        self.assertEqual((ran.returncode, ran.stderr), (0, ""))
        self.assertRegex(ran.stdout, r"^8 damaged images of \d, 0 of them images still: 0 differences\n$")

    def test_a_program_that_is_wrong_where_an_image_is_cut(self):
        ran = writer.run_tool("fuzz-images", "--program", self.stand_in("one"), self.stand_in("other", SHORT), 20)
        what = r"^image \d+, .*, it ends after \d+ bytes: inspect: status 7 with b'bad image at [1-9]"
        data = self.check_told(ran, 20, what)
        self.assertIn(f"it ends after {len(data)} bytes", ran.stdout)

    def test_programs_that_are_wrong_alike(self):
        wrong = ((NO_MEMORY, "inspect: both status 5 with b''"), (FIRST_FAULT, "inspect: .*, migrate: "))
        for otherwise, what in wrong:
            with self.subTest(what=what):
                programs = [self.stand_in(name, otherwise) for name in ("one", "other")]
                self.check_told(writer.run_tool("fuzz-images", "--program", *programs, 4), 4, what)

    def test_a_program_that_is_not_there(self):
        ran = writer.run_tool("fuzz-images", "--program", self.folder / "none", self.folder / "none", 1)
        self.assertEqual((ran.returncode, ran.stdout, len(ran.stderr.splitlines())), (1, "", 1))

    @unittest.skipUnless(writer.program_with_images(), "CLRHEAP names no program that writes images")
    def test_the_program(self):
        program = os.path.abspath(writer.program_with_images())
        ran = writer.run_tool("fuzz-images", "--program", program, program, 30)
        self.assertIn(": 0 differences\n", ran.stdout)
        wrapped = self.program("wrapped", WRAPPED.format(program=program))
        self.check_told(writer.run_tool("fuzz-images", "--program", program, wrapped, 60), 60, "inspect: status ")


if __name__ == "__main__":
    unittest.main()
