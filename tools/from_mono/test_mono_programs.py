"""Tests of from-mono on Mono itself, where that is there: programs of `programs` run, and what is read of their shots
is what Mono's own report tells. Then the answers on the page about leaks are those of the stored dumps."""
import gzip
import os
import re
import shutil
import subprocess
import sys
import tempfile
import unittest
from collections import Counter
from pathlib import Path

sys.dont_write_bytecode = True
FOLDER = Path(__file__).resolve().parent
TOOLS = FOLDER.parent
sys.path[:0] = [str(FOLDER), str(TOOLS)]

from layout import Layout  # noqa: E402
from mlpd import Dump  # noqa: E402
from offsets import read_offsets  # noqa: E402

PAGE = TOOLS.parent / "docs" / "LEAKS.md"
NEEDED = ("mono", "mcs", "mprof-report")


def run_in(folder, *words, **more):
    return subprocess.run(words, cwd=folder, capture_output=True, text=True, check=True, **more).stdout


@unittest.skipUnless(all(map(shutil.which, NEEDED)), f"no Mono: one of {', '.join(NEEDED)} isn't there")
class OnMono(unittest.TestCase):
    """Shops run, and others, and each is compared with Mono's report, whose rows are bytes, a count and a class."""

    def shot(self, folder, name, words):
        run_in(folder, "mcs", f"-out:{name}.exe", str(FOLDER / "programs" / f"{name}.cs"))
        run_in(folder, "mono", "--profile=log:heapshot-on-shutdown,output=x.mlpd", f"{name}.exe", words)
        (Path(folder) / "x.offsets").write_text(
            run_in(folder, sys.executable, "-B", str(TOOLS / "from-mono"), "--field-names", "x.mlpd"), encoding="utf-8",
        )
        return Layout(Dump(str(Path(folder) / "x.mlpd")), read_offsets(Path(folder) / "x.offsets"))

    def test_programs(self):
        with tempfile.TemporaryDirectory() as folder:
            for name, words in (("Shop", "100"), ("Graph", "200"), ("Texts", "30")):
                with self.subTest(program=name):
                    layout = self.shot(folder, name, words)
                    told = run_in(folder, "mprof-report", "--reports=heapshot", "--verbose", "x.mlpd")
                    rows = re.findall(r"^\s+(\d+)\s+(\d+)\s+\d+ (\S.*)$", told, re.MULTILINE)
                    counts, sizes = Counter(), Counter()
                    for number, size in zip(layout.sort_of, layout.shot.sizes):
                        counts[layout.sorts[number].name] += 1
                        sizes[layout.sorts[number].name] += size
                    self.assertEqual(counts, {of: int(count) for _, count, of in rows})
                    self.assertEqual(sizes, {of: int(size) for size, _, of in rows})
                    self.assertEqual((layout.unnamed, layout.roots.lost), (0, 0))
                    if name == "Shop":
                        self.assertEqual(layout.fields["static.Shop.Cache"], ["class", "pages"])
                    if name == "Graph":
                        self.assertEqual(layout.fields["Map.Road"][:2], ["From", "To"])


@unittest.skipUnless("CLRHEAP" in os.environ, "CLRHEAP names no program")
class Hunts(unittest.TestCase):
    """`hunt` goes all the way from a dump of Mono to the page."""

    def setUp(self):
        folder = tempfile.TemporaryDirectory()
        self.addCleanup(folder.cleanup)
        self.folder = Path(folder.name)

    def hunt(self, *words, **more):
        command = [sys.executable, "-B", str(TOOLS / "hunt"), *words]
        return subprocess.run(command, cwd=self.folder, capture_output=True, text=True, check=False, **more)

    def copy(self, *names):
        for name in names:
            shutil.copy(FOLDER / "samples" / name, self.folder)

    def test_both_leaks_are_named(self):
        self.copy("shop.mlpd", "shop.offsets")
        ran = self.hunt("shop.mlpd")
        self.assertEqual(ran.returncode, 0, ran.stderr)
        first, second = re.findall(r"^suspect \d+: .*\n(?:    .*\n)+", ran.stdout, re.MULTILINE)[:2]
        self.assertRegex(first, r"Shop\.PriceBus OnPriced\n")
        self.assertRegex(second, r"static\.Shop\.Cache pages\n")
        self.assertIn("\ntotal 5019 bytes 2395400\n", ran.stdout)
        self.assertIn("stack of the thread", (self.folder / "shop.html").read_text(encoding="utf-8"))

    def test_without_names_of_fields(self):
        self.copy("shop.mlpd")
        ran = self.hunt("shop.mlpd", env={**os.environ, "PATH": str(self.folder)})
        self.assertEqual(ran.returncode, 0, ran.stderr)
        self.assertIn("fields are called by their offsets", ran.stderr)
        self.assertIn("Shop.PriceBus +16\n", ran.stdout)

    @unittest.skipUnless(all(map(shutil.which, NEEDED)), "no Mono")
    def test_mono_is_asked_for_names(self):
        """The program of the stored dump isn't there, but Mono's own files are, if of another version: their fields
        have names then."""
        self.copy("shop.mlpd")
        ran = self.hunt("shop.mlpd", "--into", "more")
        self.assertEqual(ran.returncode, 0, ran.stderr)
        self.assertIn("class System.", (self.folder / "more/shop.offsets").read_text(encoding="utf-8"))

    def test_nothing_that_is_read_is_written_over(self):
        dump = gzip.decompress((FOLDER / "samples" / "shop.mlpd").read_bytes())
        (self.folder / "shop.mlpd").write_bytes(dump)
        for ending in (".image", ".html", ".script", ".names"):
            path = (self.folder / "shop.mlpd").rename(self.folder / f"shop{ending}")
            ran = self.hunt(path.name)
            self.assertEqual((ran.returncode, ran.stderr.count("\n")), (1, 1), ran.stderr)
            self.assertIn("would be written over", ran.stderr)
            self.assertEqual(path.read_bytes(), dump)
            path.rename(self.folder / "shop.mlpd")
        (self.folder / "shop.image").write_bytes(b"CLRHEAP an older one")
        ran = self.hunt("shop.mlpd", "--against", "shop.image")
        self.assertEqual((ran.returncode, ran.stderr.count("\n")), (1, 1), ran.stderr)
        self.assertIn("would be written over", ran.stderr)
        self.assertEqual((self.folder / "shop.image").read_bytes(), b"CLRHEAP an older one")


@unittest.skipUnless("CLRHEAP" in os.environ, "CLRHEAP names no program")
class Page(unittest.TestCase):
    """The answers on the page are those of the stored dumps."""

    ASKED = {
        "shop": ("sorted 10", "dumpheap -type Shop.Session", "dumpobj 00000000101e0c18", "gcroot 00000000101e0c18",
                 "retained 00000000101e0c18"),
        "fixed": (),
    }
    WORDS = {"shop": (), "fixed": ("--against", "shop.image")}

    def answers(self, sample, folder):
        for ending in (".mlpd", ".offsets"):
            shutil.copy(FOLDER / "samples" / f"{sample}{ending}", folder)
        hunt = subprocess.run(
            [sys.executable, "-B", str(TOOLS / "hunt"), f"{sample}.mlpd", *self.WORDS[sample]], cwd=folder,
            capture_output=True, text=True, check=True,
        )
        told = re.sub("^hunt: +", "", hunt.stderr, flags=re.MULTILINE)
        asked = "".join(line + "\n" for line in self.ASKED[sample])
        words = [sys.executable, "-B", str(TOOLS / "ask"), f"{sample}.script"]
        return hunt.stdout + told + run_in(folder, *words, input=asked)

    def test_answers(self):
        with tempfile.TemporaryDirectory() as folder:
            lines = set("".join(self.answers(sample, folder) for sample in self.ASKED).splitlines())
        text = PAGE.read_text(encoding="utf-8")
        text = text[text.index("## A leak in a .NET program"):text.index("## A leak in a Java program")]
        text = re.sub(r"^```.*?^```$", "", text, flags=re.MULTILINE | re.DOTALL)
        shown = re.findall(r"^    (.*)$", text, re.MULTILINE)
        first = shown.index(next(line for line in shown if line.startswith("4,971")))
        self.assertGreater(len(shown) - first, 40)
        self.assertEqual([line for line in shown[first:] if line not in lines], [])


if __name__ == "__main__":
    unittest.main()
