"""Runs the first command of README.md, which builds the program without proofs and shows a session: run this file.

It stands apart from the tests of tools/, as it takes 100 seconds of a processor. Without the kit the build is passed
over, and what is told then is looked at alone.
"""
import os
import re
import shutil
import subprocess
import sys
import tempfile
import unittest
from pathlib import Path

sys.dont_write_bytecode = True
TOP = Path(__file__).resolve().parent.parent
PAGE = (TOP / "README.md").read_text(encoding="utf-8")
COMMAND = re.search(r"^    (python3 bench/unproved.py .*)$", PAGE, re.MULTILINE)[1]


class First(unittest.TestCase):
    """It is run in a folder that has all that stands at the top of the repository, but a program that was built."""

    def run_first(self, path):
        with tempfile.TemporaryDirectory() as name:
            for part in TOP.iterdir():
                if part.name not in ("tools", "unproved"):
                    (Path(name) / part.name).symlink_to(part)
            shutil.copytree(TOP / "tools", Path(name) / "tools")
            env = {**os.environ, "PATH": path, "PYTHONDONTWRITEBYTECODE": "1"}
            env.pop("CLRHEAP", None)
            words = ["bash", "-c", COMMAND]
            return subprocess.run(words, cwd=name, env=env, capture_output=True, text=True, check=False)

    @unittest.skipUnless(shutil.which("rt"), "the kit isn't on the path")
    def test_it_builds_the_program_and_shows_a_session(self):
        script = re.search(r"tools/transcript (examples/\w+)\.script$", COMMAND)[1]
        ran = self.run_first(os.environ["PATH"])
        self.assertEqual(ran.returncode, 0, ran.stderr)
        self.assertEqual(ran.stdout, (TOP / f"{script}.session").read_text(encoding="utf-8"))

    def test_without_the_kit_it_says_so(self):
        with tempfile.TemporaryDirectory() as bare:
            for name in ("bash", "python3"):
                (Path(bare) / name).symlink_to(shutil.which(name))
            ran = self.run_first(bare)
        self.assertEqual(ran.returncode, 1)
        self.assertRegex(ran.stderr, r"\Aunproved: the kit isn't here: .*\n\Z")


if __name__ == "__main__":
    unittest.main()
