"""Tests of `report` and `hunt`: run this file. Where a browser is there, the page tests itself in it, too."""
import os
import re
import shutil
import subprocess
import sys
import tempfile
import unittest
from concurrent.futures import ThreadPoolExecutor
from html.parser import HTMLParser
from pathlib import Path

sys.dont_write_bytecode = True
TOOLS = Path(__file__).resolve().parent
sys.path[:0] = [str(TOOLS), str(TOOLS / "from_hprof")]

import image_writer as writer  # noqa: E402
from heap_findings import Findings  # noqa: E402
from heap_graph import Heap  # noqa: E402
from heap_image import parse  # noqa: E402
from heap_names import Names  # noqa: E402
from report_page import Page  # noqa: E402
from test_from_hprof import tiny_dump  # noqa: E402
from test_retained import NAMES, address, shop  # noqa: E402

BROWSER = shutil.which("chromium") or shutil.which("chromium-browser") or shutil.which("google-chrome")
SCHEMES = {"dark": 0, "light": 1}
HOSTILE = "</script><script>alert(1)</script><img src=x onerror=alert(2)>\"'&<b>"
VOID = {"meta", "link", "br", "wbr", "hr", "img", "input"}


class Reader(HTMLParser):
    """Reads a page: the elements with their attributes, and whether each that begins is ended."""

    def __init__(self, text):
        super().__init__()
        self.elements, self.open, self.wrong = [], [], []
        self.feed(text)
        self.close()

    def handle_starttag(self, tag, attributes):
        self.elements.append((tag, dict(attributes)))
        if tag not in VOID:
            self.open.append(tag)

    def handle_startendtag(self, tag, attributes):
        self.elements.append((tag, dict(attributes)))

    def handle_endtag(self, tag):
        if not self.open or self.open.pop() != tag:
            self.wrong.append(tag)


def page(data, names=None, older=None, title="shop.image", least=0.0005, own=False):
    def findings(one):
        return Findings(Heap(parse(one), names or Names(), own))

    return Page(findings(data), findings(older) if older else None, title, least).text()


def hostile_image():
    """Types and fields whose names would be markup."""
    types = [(HOSTILE, 0, 0, "rr"), ("Roots.thread." + HOSTILE, 1, 0, ""), ("static." + HOSTILE, 1, 0, "")]
    words, table = [], writer.table_word
    words += [0, table(2), 2, writer.FIRST + 40, writer.FIRST + 72, 0, table(1), 0, 0]
    words += [0, table(3), 1, writer.FIRST + 104, 0, table(1), writer.FIRST + 136, 0, 0, table(1), 0, 0]
    names = Names({HOSTILE: [HOSTILE, "\u202eevil\u0000"], "static." + HOSTILE: [HOSTILE]})
    return writer.image(types, words, [writer.FIRST]), names


def list_image(length):
    words = []
    for one in range(1, length + 1):
        words += [0, writer.table_word(1), address(one) if one < length else 0, 0]
    return writer.image([("Node", 0, 0, "rn")], words, [address(0)])


class Pages(unittest.TestCase):
    def check(self, text):
        """What is so of each page: it is well formed, needs nothing else, and has no script but its own."""
        read = Reader(text)
        self.assertEqual((read.open, read.wrong), ([], []))
        scripts = [one for tag, one in read.elements if tag == "script"]
        self.assertEqual(scripts, [{"type": "application/json", "id": "data"}, {}])
        for tag, attributes in read.elements:
            self.assertNotIn(tag, ("img", "iframe", "object", "embed", "link", "base", "form"))
            self.assertFalse([name for name in attributes if name.startswith("on")])
            self.assertFalse([one for name, one in attributes.items() if name in ("src", "href") and one[:1] != "#"])
        self.assertFalse(re.search(r"https?://|url\((?!#)", text.replace("http://www.w3.org/2000/svg", "")))
        ids = [one["id"] for _, one in read.elements if "id" in one]
        self.assertEqual(len(ids), len(set(ids)))
        return read

    def has(self, text, *all_words):
        """A page is long, so it isn't shown where it lacks some words."""
        for words in all_words:
            self.assertTrue(words in text, words)

    def test_what_is_told(self):
        text = page(shop(200, 150)[0], NAMES)
        self.check(text)
        self.has(text, "Leak suspects", "Dominator tree", "Histogram", "GC roots", "Segments", "86.6 %", "thread main")
        self.assertFalse("Types by change" in text)

    def test_what_has_grown(self):
        text = page(shop(200, 150)[0], NAMES, shop(20)[0])
        self.check(text)
        self.has(text, "Types by change", "+28,800 bytes since the older image")

    def test_sizes_of_the_dumped_program(self):
        self.has(page(shop(9)[0], NAMES, own=True), "dumped program’s runtime")

    def test_names_that_would_be_markup(self):
        data, names = hostile_image()
        text = page(data, names, title=HOSTILE)
        self.check(text)
        for word in ("<img", "<script>alert", "<b>\"", "\u202e", "\0"):
            self.assertFalse(word in text, word)
        self.check(page(data, names, older=shop(3)[0]))

    def test_heaps_that_are_small(self):
        self.check(page(writer.image([], [])))
        self.check(page(writer.image([("A", 0, 0, "r")], [0, writer.table_word(1), 0])))
        self.check(page(writer.image([("A", 0, 0, "r")], [0, writer.table_word(1), writer.FIRST], [writer.FIRST])))
        handles = [(number, number, writer.FIRST, 0) for number in range(5)]
        words = [0, writer.table_word(1), 0]
        text = page(writer.image([("A", 0, 1, "r")], words, handles=handles, ready=[writer.FIRST]))
        self.check(text)
        self.has(text, "dependent handles")

    def test_a_list_that_is_long(self):
        """Its page stays small, and what is cut is told."""
        text = page(list_image(30_000))
        self.check(text)
        self.assertLess(len(text), 250_000)
        self.has(text, "Shown are 200 of 30,000 objects")


class Commands(unittest.TestCase):
    def setUp(self):
        folder = tempfile.TemporaryDirectory()
        self.addCleanup(folder.cleanup)
        self.folder = Path(folder.name)

    def write(self, name, data):
        path = self.folder / name
        path.write_bytes(data)
        return path

    def run_tool(self, name, *words, **more):
        command = [sys.executable, "-B", str(TOOLS / name), *map(str, words)]
        return subprocess.run(command, capture_output=True, text=True, check=False, cwd=self.folder, **more)

    def test_report(self):
        image, older = self.write("now.image", shop(20)[0]), self.write("then.image", shop(5)[0])
        self.write("now.fields", b"Bus count? sessions\n")
        ran = self.run_tool("report", image, "--against", older)
        self.assertEqual((ran.returncode, ran.stderr), (0, ""))
        self.assertIn(".sessions", ran.stdout)
        other = self.write("other.fields", b"Bus count? others\n")
        self.assertIn(".others", self.run_tool("report", image, "--fields", other).stdout)

    def test_what_is_wrong(self):
        image = self.write("now.image", shop(5)[0])
        for words in ([self.folder / "none"], [self.write("bad", b"bad")], [image, "--against", self.folder],
                      [image, "--fields", self.folder / "none"], [image, "--fields", image]):
            ran = self.run_tool("report", *words)
            self.assertEqual((ran.returncode, ran.stdout, ran.stderr.count("\n")), (1, "", 1), ran.stderr)
        self.assertEqual(self.run_tool("report", image, "--least", "200").returncode, 2)
        with open("/dev/full", "w", encoding="ascii") as full:
            ran = subprocess.run([sys.executable, "-B", str(TOOLS / "report"), str(image)], stdout=full,
                                 stderr=subprocess.PIPE, text=True, check=False)
        self.assertEqual((ran.returncode, ran.stderr), (1, "report: the output: No space left on device\n"))

    @unittest.skipUnless(writer.program_with_images(), "CLRHEAP names no program that writes images")
    def test_a_hunt(self):
        program = Path(writer.program_with_images()).resolve()
        dump = self.write("app.hprof", tiny_dump())
        ran = self.run_tool("hunt", dump, "--program", program)
        self.assertEqual(ran.returncode, 0, ran.stderr)
        self.assertIn("page: app.html\n", ran.stdout)
        self.assertEqual(sorted(path.suffix for path in self.folder.iterdir()), [
            ".fields", ".hprof", ".html", ".image", ".names", ".script", ".words",
        ])
        self.assertIn("shop.<wbr>Node+<wbr>Of", (self.folder / "app.html").read_text(encoding="utf-8"))
        self.assertEqual(dump.read_bytes(), tiny_dump())
        again = self.run_tool("hunt", self.folder / "app.image", "--into", self.folder / "more", "--against",
                              self.folder / "app.image", env={**os.environ, "CLRHEAP": ""})
        self.assertEqual(again.returncode, 0, again.stderr)
        self.assertTrue((self.folder / "more/app.html").exists())
        for told in (ran, again):
            ask = next(line for line in told.stdout.splitlines() if line.startswith("questions: "))
            asked = subprocess.run(["bash", "-c", f"echo dumpheap -stat | {ask.removeprefix('questions: ')}"],
                                   cwd=self.folder, capture_output=True, text=True, check=False,
                                   env={**os.environ, "CLRHEAP": str(program)})
            self.assertIn("shop.Node+Of", asked.stdout)

    @unittest.skipUnless(writer.program_with_images(), "CLRHEAP names no program that writes images")
    def test_a_hunt_that_begins_with_a_script(self):
        env = {**os.environ, "CLRHEAP": str(Path(writer.program_with_images()).resolve())}
        script = self.write("a.script", b"type Node class rn\nt1 new l0 Node\n")
        ran = self.run_tool("hunt", script, env=env)
        self.assertEqual(ran.returncode, 0, ran.stderr)
        self.assertIn("Node", (self.folder / "a.html").read_text(encoding="utf-8"))
        for name, text in (("b.script", b"type Node class rn\r\n"), ("c.txt", b"This is no script.\n")):
            ran = self.run_tool("hunt", self.write(name, text), env=env)
            self.assertEqual((ran.returncode, ran.stdout), (1, ""))
            self.assertIn("no line of it was done, so it is no script\n", ran.stderr)
            self.assertFalse((self.folder / name).with_suffix(".html").exists())

    def test_a_hunt_that_finds_nothing(self):
        env = {**os.environ, "CLRHEAP": "/none/clrheap"}
        dump = self.write("app.hprof", tiny_dump())
        files = {"a.txt": b"text", "a.gz": b"\x1f\x8b text", "cut.hprof": tiny_dump()[:90]}
        ran = self.run_tool("hunt", dump, "--against", dump, env=env)
        self.assertEqual((ran.returncode, ran.stderr.count("\n")), (1, 1))
        for path in (self.folder / "none", dump, *(self.write(name, data) for name, data in files.items())):
            ran = self.run_tool("hunt", path, env=env)
            self.assertEqual((ran.returncode, ran.stdout), (1, ""))
            self.assertNotIn("Traceback", ran.stderr)
            self.assertTrue(ran.stderr.splitlines()[-1].startswith("hunt: "), ran.stderr)


@unittest.skipUnless(BROWSER, "there is no browser")
class InABrowser(unittest.TestCase):
    """Each page tests itself: its sums, the keys and clicks of a reader, that nothing sticks out, and that all words
    stand out from what is behind them."""

    def told(self, path, width, scheme):
        """What the page tells of itself, in a window of some width, where the reader likes it light or dark."""
        with tempfile.TemporaryDirectory() as profile:
            command = [BROWSER, "--headless", "--no-sandbox", "--disable-gpu", f"--user-data-dir={profile}",
                       f"--window-size={width},900", f"--blink-settings=preferredColorScheme={SCHEMES[scheme]}",
                       "--dump-dom", f"{path.as_uri()}#selftest"]
            ran = subprocess.run(command, capture_output=True, text=True, check=False, timeout=120)
        found = re.search(r"selftest (?:passed \d+ (?:light|dark)|failed: [^<]*)", ran.stdout.rpartition("-result")[2])
        return found[0] if found else ran.stdout[-300:] + ran.stderr[-300:]

    def test_the_page_tests_itself(self):
        data, names = hostile_image()
        pages = [page(shop(200, 150)[0], NAMES, shop(20)[0]), page(data, names), page(list_image(3000)),
                 page(writer.image([], []))]
        views = [(0, 1280, "light"), (0, 500, "dark"), (1, 500, "light"), (1, 1280, "dark"), (2, 500, "dark"),
                 (3, 1280, "light")]
        with tempfile.TemporaryDirectory() as folder, ThreadPoolExecutor(4) as several:
            paths = [Path(folder) / f"{number}.html" for number in range(len(pages))]
            for path, text in zip(paths, pages):
                path.write_text(text, encoding="utf-8")
            found = list(several.map(lambda view: self.told(paths[view[0]], *view[1:]), views))
        for view, told in zip(views, found):
            with self.subTest(view=view):
                self.assertRegex(told, rf"^selftest passed \d+ {view[2]}$")


def setUpModule():
    if not BROWSER:
        print("test_report: there is no Chromium here, so the page isn't tested in a browser", file=sys.stderr)


if __name__ == "__main__":
    unittest.main()
