"""Tests of command lines, with the program that CLRHEAP names: run this file.

Tested is which words say a command, and that options say what they should, in each spelling. What the commands do, the
stored scripts tell.
"""
import os
import struct
import subprocess
import sys
import tempfile
import unittest

sys.dont_write_bytecode = True

PROGRAM = os.environ.get("CLRHEAP")
USAGE = 2
OPTIONS = "--limit 532480 --large=90000 --segment 266240 --b0=3 --b1 4 --b2=5 --bl 6 --compact=7"
# Each line's words stand between single spaces; an empty word is a word, too.
SILENT = [
    "", " run", "run ", "run run", "RUN", "ru", "IMAGE", "images", "inspects", "help", "--help", "-h", "--version",
    "-V", "-- run", "--b0 5 run", "run help", "run --help", "run -h", "run --version", "run -V", "run 5", "run -- 5",
    "run -- --", "run -- --b0 5", "run --b0", "run --b0=", "run --b0 ", "run --b0 --", "run --b0 -- 5",
    "run --b0 --b1 5", "run --b0 5 --b0 5", "run --b0=5 --b0 6", "run --b0=5 --b0=5", "run --b0 +5", "run --b0 05",
    "run --b0 -5", "run --b0 5x", "run --b0 18446744073709551616", "run --b 5", "run -b0 5", "run --large",
    "run --large=", "run --large 85000 --large 85000", "run --large 84999", "run --large 16773121",
    "run --large 258049 --segment 262144", "run --segment 262144 --large 262144",
    "run --segment 67108864 --large 67104769", "run --large 18446744073709551615", "run --b0 1073741825",
    "run --b1 1073741825", "run --b2 1073741825", "run --bl 1073741825", "run --compact 101", "run --limit 33554431",
    "run --limit 1073741825", "run --limit 524288", "run --segment 258048", "run --segment 262143",
    "run --segment 262145", "run --segment 67112960", "run --segment 262144 --limit 524287",
    "run --limit 524287 --segment 262144", "soak", "soak 1", "soak -- 1", "soak 1 2 3", "soak 1 2 -- 3",
    "soak 1 -- 2 --", "soak 1 0", "soak 1 1000001", "soak 4294967296 1", "soak 01 2", "soak +1 2", "soak x 2",
    "soak 1 2 --compact 101", "soak 1 2 --large 84999", "soak 1 2 --b0 1 --b0 1", "soak --b0 1 2", "image 5",
    "image run", "image -- 5", "image -- --b0 5", "image --b0", "image --b0=", "image --b0 --", "image --b0 05",
    "image --b0 5 --b0 5", "image --large 84999", "image --name 5", "image --help", "-- image", "inspect 5",
    "inspect x", "inspect inspect", "inspect migrate", "inspect -- --", "inspect -- 5", "inspect --b0 5",
    "inspect --b0=5", "inspect --help", "inspect -h", "inspect ", "-- inspect", "migrate 5",
    "migrate --limit 1073741824", "migrate --b0=5", "migrate -- x", "migrate --version", "migrate -V",
    "migrate inspect", "--b0 5 migrate", "open", "open --", "open --b0 5", "open --b0=5 --", "open a b", "open -- a b",
    "open a -- b", "open a ", "open --limit 33554432 a", "open --limit=33554432 a", "open --segment 262144 a",
    "open --large 85000 a", "open --b0 5 --b0 5 a", "open --b0=05 a", "open --b0 1073741825 a", "open --compact 101 a",
    "open a --b0", "open --b0 a", "open -x", "open --help", "open -h", "open --version", "open -- a --b0 5",
    "-- open a", "--b0 5 open a", "OPEN a", "opens a",
]
SAID = [
    "run", "run --", "run --b0 0", "run --b0=0 --", "run --b0=1073741824", "run --b1 0", "run --b1 1073741824",
    "run --b2 0", "run --b2 1073741824", "run --bl 0", "run --bl 1073741824", "run --compact 0", "run --compact 100",
    "run --limit 33554432", "run --limit=1073741824", "run --segment 262144", "run --segment 67108864",
    "run --segment 262144 --limit 524288", "run --limit 524288 --segment=262144", "run --large 85000",
    "run --large=100000", "run --large 16773120", "run --large 258048 --segment 262144",
    "run --segment 67108864 --large 67104768",
    "run --large 90000 --compact 7 --bl=6 --b2 5 --b1=4 --b0 3 --segment=266240 --limit 532480", "image", "image --",
    "image --b0 0", "image --b0=7 --",
    "image --large 90000 --compact 7 --bl=6 --b2 5 --b1=4 --b0 3 --segment=266240 --limit 532480", "inspect",
    "inspect --", "migrate", "migrate --", "soak 1 2", "soak 0 1", "soak -- 1 2", "soak 1 -- 2", "soak 1 2 --",
    "soak --b0 5 1 2", "soak 1 --b0=5 2", "soak 1 2 --b0 5", "soak --b0 5 1 -- 2", "soak --large 258048 1 2",
    "open a", "open ", "open -", "open run", "open -- a", "open a --", "open -- --b0", "open -- --",
    "open --b0 5 -- --b0", "open --b0 0 a", "open a --b0=1073741824", "open --compact=100 --bl 6 a --b2=5 --b1 4",
]


@unittest.skipUnless(PROGRAM, "CLRHEAP names no program")
class CommandLines(unittest.TestCase):
    def ran(self, words):
        return subprocess.run([PROGRAM, *words], stdin=subprocess.DEVNULL, capture_output=True, check=False)

    def test_no_words_say_nothing(self):
        self.assertEqual(self.ran([]).returncode, USAGE)

    def test_what_says_nothing(self):
        for line in SILENT:
            with self.subTest(line=line):
                ran = self.ran(line.split(" "))
                self.assertEqual((ran.returncode, ran.stdout), (USAGE, b""))

    def test_what_says_a_command(self):
        for line in SAID:
            with self.subTest(line=line):
                self.assertNotEqual(self.ran(line.split(" ")).returncode, USAGE)

    def test_options_of_an_image(self):
        for options, limit, large, reserved in [("", 268435456, 85000, 16777216), (OPTIONS, 532480, 90000, 266240)]:
            with self.subTest(options=options):
                image = self.ran(["image", *options.split()]).stdout
                words = struct.unpack("<7Q", image[8:64])
                self.assertEqual((words[0], words[1], words[6]), (limit, large, reserved))

    def test_options_of_an_opened_image(self):
        """Limit, segments and the size of large objects are the image's, and budgets those that are said."""
        script = "type A bytes\nt1 new l0 A 80000\nt1 new l1 A 80000\neeheap -gc\n"
        script += "t1 null l0\nt1 null l1\nt1 collect 1\n"
        with tempfile.NamedTemporaryFile() as image:
            image.write(self.ran(["image", *OPTIONS.split()]).stdout)
            image.flush()
            told = []
            for options in ("", "--b0=0", "--b0 0 --compact=100"):
                words = [PROGRAM, "open", *options.split(), image.name]
                ran = subprocess.run(words, input=script, capture_output=True, text=True, check=True)
                told.append(ran.stdout)
        self.assertIn(" reserved 266240 gen1", told[0])
        self.assertIn(" limit 532480\n", told[0])
        self.assertEqual(len(set(told)), 3)

    def test_options_of_a_script(self):
        told = [self.ran(f"soak 7 20000 {option}".split()).stdout
                for option in ["", "--b0 3000", "--compact 0", "--compact 100", "--segment 262144"]]
        self.assertEqual(len(set(told)), len(told))
        self.assertEqual(self.ran("soak --b0=3000 7 -- 20000".split()).stdout, told[1])
        self.assertEqual(self.ran("soak 7 --compact=100 20000".split()).stdout, told[3])


if __name__ == "__main__":
    unittest.main()
