"""Tests of what a person at a terminal is told, with the program that CLRHEAP names: run this file.

Where standard error is a terminal, one line there says why a command didn't answer; where it is none, nothing is
written there.
"""
import os
import pty
import subprocess
import sys
import unittest

sys.dont_write_bytecode = True

PROGRAM = os.environ.get("CLRHEAP")
USAGE, READ_FAULT, BAD_IMAGE = 2, 3, 7


def run(words, script=b""):
    """The status of a command, and what it writes to a terminal that is its standard error."""
    ours, its = pty.openpty()
    ended = subprocess.run([PROGRAM, *words], input=script, stdout=subprocess.PIPE, stderr=its, check=False)
    os.close(its)
    try:
        told = os.read(ours, 65536)
    except OSError:
        told = b""
    os.close(ours)
    return ended.returncode, told.decode().replace("\r\n", "\n")


class Terminals(unittest.TestCase):
    def test_usage_names_the_words_that_are_wrong(self):
        for words, wrong in [
            (["run", "--limit", "12"], "--limit 12 isn't lawful"),
            (["run", "--segment=300000"], "--segment=300000 isn't lawful"),
            (["run", "script"], "script isn't lawful"),
            (["open", "--limit", "268435456", "heap.image"], "--limit 268435456 isn't lawful"),
            (["soak", "1"], "the words say no command"),
            ([], "the words say no command"),
        ]:
            with self.subTest(words):
                status, told = run(words)
                self.assertEqual(status, USAGE)
                self.assertIn(wrong, told)
                self.assertIn("commands are run, ", told)
                self.assertEqual(told.count("\n"), 1)

    def test_a_file_that_is_not_there(self):
        status, told = run(["open", "no/such.image"])
        self.assertEqual(status, READ_FAULT)
        self.assertIn("no/such.image", told)

    def test_no_image(self):
        status, told = run(["inspect"], b"no image")
        self.assertEqual(status, BAD_IMAGE)
        self.assertIn("no image", told)

    def test_a_script_of_which_no_line_is_one(self):
        status, told = run(["run"], b"eeheap -gc\r\nverifyheap\r\n")
        self.assertEqual(status, 0)
        self.assertIn("each line was refused as syntax", told)

    def test_an_answer_tells_nothing_more(self):
        for script in [b"", b"verifyheap\n", b"verifyheap\nhello\n", b"hello\nverifyheap\n"]:
            with self.subTest(script):
                self.assertEqual(run(["run"], script), (0, ""))

    def test_nothing_is_written_where_it_is_no_terminal(self):
        for words, script in [(["run", "--limit", "12"], b""), (["inspect"], b"no image"), (["run"], b"hello\n")]:
            with self.subTest(words):
                ended = subprocess.run([PROGRAM, *words], input=script, capture_output=True, check=False)
                self.assertEqual(ended.stderr, b"")


if __name__ == "__main__":
    if PROGRAM is None:
        sys.exit("CLRHEAP has to name the program")
    unittest.main()
