"""Tests of what all tools have in common: run this file. Each prints its page, has one line and an even status for what
is wrong, never writes over what it reads, and finds the program in one order."""
import os
import shutil
import subprocess
import sys
import tempfile
import unittest
from pathlib import Path

sys.dont_write_bytecode = True
TOOLS = Path(__file__).resolve().parent
TOP = TOOLS.parent
sys.path.insert(0, str(TOOLS))

import image_writer as writer  # noqa: E402

# The words with which each tool reads a file, `FILE` in the place of its name.
READS = {
    "ask": ["FILE"], "from-hprof": ["FILE"], "from-mono": ["FILE"], "heap-picture": ["FILE"], "hunt": ["FILE"],
    "image-words": ["FILE"], "refuse-memory": ["FILE"], "report": ["FILE"], "retained": ["FILE"],
    "transcript": ["FILE"], "../examples/debugger.py": ["FILE"],
}
OPEN_IMAGES = ("ask", "../examples/debugger.py")
RUN_PROGRAMS = ("ask", "refuse-memory", "transcript", "../examples/debugger.py")
OTHERS = {"fuzz-images": ["FILE", "1"], "over-holes": ["no_such_crate", "FILE"]}
FAULT, USAGE = 1, 2


class Tools(unittest.TestCase):
    def setUp(self):
        folder = tempfile.TemporaryDirectory()
        self.addCleanup(folder.cleanup)
        self.folder = Path(folder.name)
        self.env = {**os.environ, "CLRHEAP": "/bin/false", "PYTHONDONTWRITEBYTECODE": "1"}

    def run_tool(self, name, *words, **more):
        """Runs a tool by its path, as people do."""
        return subprocess.run([str(TOOLS / name), *map(str, words)], cwd=self.folder, env=self.env, text=True,
                              capture_output=True, check=False, stdin=subprocess.DEVNULL, **more)

    def check_fault(self, ran, status):
        """One line, and no other output. The line that says which program it is may stand before."""
        lines = [line for line in ran.stderr.splitlines() if "the program is" not in line]
        self.assertEqual((ran.returncode, ran.stdout, len(lines)), (status, "", 1), ran.stderr)
        self.assertNotIn("Traceback", ran.stderr)

    def test_each_has_a_page(self):
        for name in {**READS, **OTHERS}:
            with self.subTest(tool=name):
                ran = self.run_tool(name, "--help")
                self.assertEqual((ran.returncode, ran.stderr), (0, ""))
                self.assertIn("usage: ", ran.stdout)
                self.assertIn(f"    {Path(name).name} ", ran.stdout)

    def test_wrong_words(self):
        for name in {**READS, **OTHERS}:
            with self.subTest(tool=name):
                self.check_fault(self.run_tool(name, "--no-such-option"), USAGE)
                if name != "heap-picture":
                    self.check_fault(self.run_tool(name), USAGE)

    def test_a_file_that_is_missing_or_none(self):
        (self.folder / "folder").mkdir()
        for name, words in READS.items():
            for path in ("none", "folder"):
                with self.subTest(tool=name, path=path):
                    ran = self.run_tool(name, *(word.replace("FILE", path) for word in words))
                    self.check_fault(ran, FAULT)
                    self.assertIn(f": {path}: ", ran.stderr)
        for name in OPEN_IMAGES:
            for path in ("none", "folder"):
                with self.subTest(tool=name, image=path):
                    ran = self.run_tool(name, "--image", path)
                    self.check_fault(ran, FAULT)
                    self.assertIn(f": {path}: ", ran.stderr)

    def test_an_image_that_is_taken_for_a_script(self):
        (self.folder / "a.image").write_bytes(writer.image([], []))
        for name in OPEN_IMAGES:
            with self.subTest(tool=name):
                ran = self.run_tool(name, "a.image")
                self.check_fault(ran, USAGE)
                self.assertIn("a.image is an image: --image stands before it", ran.stderr)
                self.check_fault(self.run_tool(name, "--image", "-"), USAGE)

    def test_a_program_that_is_missing(self):
        (self.folder / "a.script").write_text("verifyheap\n", encoding="ascii")
        for name in RUN_PROGRAMS:
            with self.subTest(tool=name):
                self.check_fault(self.run_tool(name, "--program", "./none", "a.script"), FAULT)
        self.check_fault(self.run_tool("fuzz-images", "--program", "./none", "./none", "1"), FAULT)

    def test_an_output_that_is_full(self):
        image = self.folder / "a.image"
        image.write_bytes(writer.image([("Node", 0, 0, "rn")], [0, writer.table_word(1), 0, 7], [writer.FIRST]))
        for name in ("retained", "report", "image-words"):
            with self.subTest(tool=name), open("/dev/full", "w", encoding="ascii") as full:
                ran = subprocess.run([TOOLS / name, image], stdout=full, stderr=subprocess.PIPE, env=self.env,
                                     text=True, check=False)
                self.assertEqual((ran.returncode, ran.stderr), (1, f"{name}: the output: No space left on device\n"))

    def test_an_output_whose_reader_goes_away(self):
        words = [0, writer.table_word(1), 60_000, *[0] * 7500]
        (self.folder / "a.image").write_bytes(writer.image([("byte[]", 2, 0, "")], words, [writer.FIRST]))
        command = f"{TOOLS}/image-words a.image | head -n 1; exit ${{PIPESTATUS[0]}}"
        ran = subprocess.run(["bash", "-c", command], cwd=self.folder, env=self.env, capture_output=True, text=True,
                             check=False)
        self.assertEqual((ran.returncode, ran.stdout.count("\n"), ran.stderr), (141, 1, ""))

    def test_a_heap_of_which_nothing_was_made(self):
        """An image of a script whose every line was refused has no type: that is told, and so it is where no root is
        left."""
        (self.folder / "empty.image").write_bytes(writer.image([], []))
        (self.folder / "lost.image").write_bytes(writer.image([("A", 0, 0, "n")], [0, writer.table_word(1), 0]))
        for name in ("retained", "report", "hunt"):
            with self.subTest(tool=name):
                ran = self.run_tool(name, "empty.image")
                self.assertEqual(ran.returncode, 0)
                self.assertIn("each line of its script was refused", ran.stderr)
                self.assertIn("no root reaches an object", self.run_tool(name, "lost.image").stderr)

    def test_a_line_of_progress_stands_on_terminals_alone(self):
        (self.folder / "slow.py").write_text(
            f"import sys, time\nsys.path.insert(0, {str(TOOLS)!r})\nimport progress\nprogress.SECONDS = 0.05\n"
            "with progress.step('tool', 'reads'):\n    time.sleep(0.3)\n", encoding="utf-8")
        slow = f"{sys.executable} slow.py"
        ran = subprocess.run(["bash", "-c", slow], cwd=self.folder, capture_output=True, text=True, check=False)
        self.assertEqual((ran.returncode, ran.stdout, ran.stderr), (0, "", ""))
        if shutil.which("script"):
            ran = subprocess.run(["script", "-qec", slow, "/dev/null"], cwd=self.folder, capture_output=True, text=True,
                                 check=False, stdin=subprocess.DEVNULL)
            self.assertIn("tool: reads .. 0 s", ran.stdout)


class Programs(unittest.TestCase):
    """A folder like the repository, with stand-ins for the programs, of which each tells its name."""

    def setUp(self):
        folder = tempfile.TemporaryDirectory()
        self.addCleanup(folder.cleanup)
        self.top = Path(folder.name).resolve()
        shutil.copytree(TOOLS, self.top / "tools", ignore=shutil.ignore_patterns("from_*", "__pycache__"))
        self.env = {name: value for name, value in os.environ.items() if name != "CLRHEAP"}

    def found(self, *, name="", env=None):
        words = ["--program", name] if name else []
        code = ("import sys; sys.path.insert(0, 'tools'); import program, endings; "
                f"endings.end('tool', lambda: print(program.find_program('tool', *{words[1:]!r})))")
        return subprocess.run([sys.executable, "-B", "-c", code], cwd=self.top, env={**self.env, **(env or {})},
                              capture_output=True, text=True, check=False)

    def test_the_order(self):
        ran = self.found()
        self.assertEqual((ran.returncode, ran.stdout), (1, ""))
        self.assertIn("bench/unproved.py", ran.stderr)
        proved = self.top / "crates/clrheap/out/clrheap"
        proved.parent.mkdir(parents=True)
        proved.touch()
        ran = self.found()
        self.assertEqual((ran.stdout, ran.stderr), (
            f"{proved}\n", "tool: the program is crates/clrheap/out/clrheap, proved\n"))
        (self.top / "unproved").touch()
        ran = self.found()
        self.assertEqual((ran.stdout, ran.stderr), (
            f"{self.top}/unproved\n", "tool: the program is ./unproved, built without its proofs\n"))
        ran = self.found(env={"CLRHEAP": "/other"})
        self.assertEqual((ran.stdout, ran.stderr), ("/other\n", "tool: the program is /other, as CLRHEAP says\n"))
        ran = self.found(name="./named", env={"CLRHEAP": "/other"})
        self.assertEqual((ran.stdout, ran.stderr), ("./named\n", ""))
        self.assertEqual(self.found(name="unproved").stdout, "./unproved\n")


if __name__ == "__main__":
    unittest.main()
