"""Runs what the pages show with the program that CLRHEAP names, and compares what it answers: run this file.

Compared are scripts with replies (`> ` stands before a line), sessions of a shell (`$ ` stands before a command), and
the bytes and words of IMAGES.md. Other commands of a page are run: those of a hunt for a leak on a tiny dump of Java
and a stored one of Mono, as they need neither then. The first command of README.md builds the program: that one is run
by bench/test_unproved.py.
"""
import os
import re
import shutil
import subprocess
import sys
import tempfile
import unittest
from pathlib import Path

sys.dont_write_bytecode = True
TOP = Path(__file__).resolve().parent.parent
sys.path.insert(0, str(TOP / "tools/from_hprof"))

from test_from_hprof import tiny_dump  # noqa: E402

PROGRAM = os.environ.get("CLRHEAP")
PATHS = (
    "README.md", "docs/LINES.md", "docs/HEAP.md", "docs/TOOLS.md", "docs/LEAKS.md", "docs/IMAGES.md",
    "tools/from_hprof/README.md", "tools/from_mono/README.md",
)
PAGES = {path: (TOP / path).read_text(encoding="utf-8") for path in PATHS}
# How commands of the pages begin that need no Java, and what forms of commands have, or those that need Mono.
RUN = ("clrheap ", "crates/", "tools/", "python3 tools/", "sed ", "echo ", "printf ")
FORM = re.compile(r"\b[A-Z]{4,}\b|\[|--limit|/dev/tcp|--field-names")


def blocks(page):
    """The blocks of code of a page, fenced or indented, as lists of lines."""
    fenced = re.findall(r"^```\w*\n(.*?)^```$", PAGES[page], re.DOTALL | re.MULTILINE)
    outside = re.sub(r"^```\w*\n.*?^```$", "", PAGES[page], flags=re.DOTALL | re.MULTILINE)
    indented = re.findall(r"(?:^    .*\n)+", outside, re.MULTILINE)
    return [block.splitlines() for block in fenced] + [[line[4:] for line in block.splitlines()] for block in indented]


def asked(block, mark):
    """The lines of a block that stand behind a mark, each with the lines that answer it."""
    pairs = []
    for line in block:
        if line.startswith(mark) or line == mark.rstrip():
            pairs.append((line[len(mark):], []))
        else:
            pairs[-1][1].append(line)
    return pairs


def sessions(mark):
    """The blocks of all pages that begin with a mark, each as a page and pairs of a line and its answer."""
    marked = [(page, block) for page in PAGES for block in blocks(page) if block[0].startswith(mark)]
    return [(page, asked(block, mark)) for page, block in marked]


def replies(script):
    text = "".join(line + "\n" for line in script)
    ran = subprocess.run([PROGRAM, "run"], input=text, capture_output=True, text=True, check=True)
    return ran.stdout.splitlines()


class Embedding(unittest.TestCase):
    def test_the_program_is_that_of_the_crate(self):
        page = (TOP / "docs/EMBEDDING.md").read_text(encoding="utf-8")
        crate = TOP / "crates/clr_embed"
        lines = (crate / "src/main.rt").read_text(encoding="utf-8").splitlines()
        shown = re.search(r"^```rust\n(.*?)^```$", page, re.DOTALL | re.MULTILINE)[1].splitlines()
        self.assertGreater(len(shown), 30)
        self.assertEqual([line for line in shown if line not in lines], [])
        told = re.findall(r"^    (kept .*)$", page, re.MULTILINE)
        self.assertEqual(told, (crate / "stdout").read_text(encoding="utf-8").splitlines())


class Scripts(unittest.TestCase):
    def test_each_heading_of_a_line_has_an_example(self):
        page = PAGES["docs/LINES.md"]
        headings = re.findall(r"^### `", page, re.MULTILINE)
        self.assertEqual(len(re.findall(r"^```\n> ", page, re.MULTILINE)), len(headings))

    @unittest.skipUnless(PROGRAM, "CLRHEAP names no program")
    def test_replies_are_those_of_the_program(self):
        found = [(page, pairs) for page, pairs in sessions("> ") if page != "README.md"]
        self.assertGreater(len(found), 30)
        for page, pairs in found:
            with self.subTest(page=page, script=pairs[-1][0]):
                self.assertEqual(replies(line for line, _ in pairs), [line for _, answer in pairs for line in answer])

    def test_the_session_of_the_first_page_is_a_part_of_one(self):
        shown = [block for block in blocks("README.md") if block[0].startswith("> ")]
        name = re.search(r"tools/transcript (examples/\w+)\.script$", PAGES["README.md"], re.MULTILINE)[1]
        whole = (TOP / f"{name}.session").read_text(encoding="utf-8")
        self.assertEqual(len(shown), 1)
        self.assertIn("".join(f"\n{line}" for line in shown[0]) + "\n", whole)


@unittest.skipUnless(PROGRAM, "CLRHEAP names no program")
class Commands(unittest.TestCase):
    """Each test has a folder like the top of the repository, in which `clrheap` is that program."""

    def setUp(self):
        folder = tempfile.TemporaryDirectory()
        self.addCleanup(folder.cleanup)
        self.folder = Path(folder.name)
        for name in ("tools", "examples"):
            (self.folder / name).symlink_to(TOP / name)
        for name in ("docs", "bin", "crates/clrheap/out"):
            (self.folder / name).mkdir(parents=True)
        for name in ("bin", "crates/clrheap/out"):
            (self.folder / name / "clrheap").symlink_to(Path(PROGRAM).resolve())

    def run_line(self, command):
        path = f"{self.folder / 'bin'}{os.pathsep}{os.environ['PATH']}"
        env = {**os.environ, "PATH": path, "PYTHONDONTWRITEBYTECODE": "1"}
        ran = subprocess.run(
            ["bash", "-c", command], cwd=self.folder, env=env, stdin=subprocess.DEVNULL,
            capture_output=True, text=True, check=False,
        )
        return ran.returncode, ran.stdout + ran.stderr

    def test_sessions_of_a_shell(self):
        found = sessions("$ ")
        self.assertGreater(len(found), 2)
        for page, pairs in found:
            for command, answer in pairs:
                with self.subTest(page=page, command=command):
                    self.assertEqual(self.run_line(command)[1].splitlines(), answer)

    def test_other_commands(self):
        """Those of a page run in their order."""
        for name in ("leak", "app"):
            (self.folder / f"{name}.hprof").write_bytes(tiny_dump())
        for ending in (".mlpd", ".offsets"):
            shutil.copy(TOP / f"tools/from_mono/samples/shop{ending}", self.folder)
        lines = [(page, line) for page in PAGES for block in blocks(page) for line in block if line.startswith(RUN)]
        commands = [(page, line) for page, line in lines if not FORM.search(line)]
        self.assertGreater(len(commands), 8)
        for page, command in commands:
            with self.subTest(page=page, command=command):
                status, text = self.run_line(command)
                self.assertEqual(status, 0, text)
        for drawn in (self.folder / "docs").iterdir():
            self.assertEqual(drawn.read_bytes(), (TOP / "docs" / drawn.name).read_bytes(), drawn.name)

    def test_an_image_by_hand(self):
        page = PAGES["docs/IMAGES.md"]
        first = next(pairs for path, pairs in sessions("$ ") if path == "docs/IMAGES.md")
        self.run_line(first[0][0])
        image = (self.folder / "n.image").read_bytes()
        self.assertIn(f"The image above has {len(image):,} bytes.", page)
        rows = re.findall(r"^\| (\d+) \| (`[0-9a-f .`,]+`) \|", page, re.MULTILINE)
        self.assertGreater(len(rows), 15)
        for offset, cells in rows:
            told = b"".join(padded(cell) for cell in re.findall(r"`([^`]+)`", cells))
            self.assertEqual(image[int(offset):int(offset) + len(told)], told, offset)
        for offset, word in ((146, 0x1000_1008), (len(image), 0)):
            (self.folder / "bad.image").write_bytes(image[:offset] + word.to_bytes(8, "little") + image[offset + 8:])
            self.assertEqual(self.run_line("clrheap inspect < bad.image")[1], f"bad image at {offset}\n")
            self.assertIn(f"`bad image at {offset}`", page)


class Reasons(unittest.TestCase):
    """A page with a command that the gate can't run says why."""

    NEEDS = {"jcmd ": "Java", "javac ": "Java", "java ": "Java", "mono ": "Mono", "echo heapshot ": "Mono"}

    def test_commands_that_need_what_the_gate_may_not_have(self):
        pages = set()
        for page in PAGES:
            for line in (line for block in blocks(page) for line in block):
                need = next((self.NEEDS[command] for command in self.NEEDS if line.startswith(command)), None)
                if need:
                    pages.add(page)
                    words = " ".join(PAGES[page].split())
                    self.assertRegex(words, rf"The gate[^.]*\b{need}\b|{need}, where that is there", (page, line))
        self.assertIn("docs/LEAKS.md", pages)


def padded(cell):
    """Bytes as a table has them. Two points stand for zeros up to the eighth."""
    known = bytes.fromhex(cell.replace("..", ""))
    return known.ljust(8, b"\0") if ".." in cell else known


if __name__ == "__main__":
    unittest.main()
