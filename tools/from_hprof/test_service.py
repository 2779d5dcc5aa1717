"""A hunt in the dump of a service of 1,500 classes with two leaks: run this file. It needs the program of CLRHEAP.

The dump is written here, as Java writes it: a list of listeners and a static map retain each request, and each of the
other classes has some objects in a static list of its own.
"""
import os
import subprocess
import sys
import tempfile
import unittest
from pathlib import Path

sys.dont_write_bytecode = True
FOLDER = Path(__file__).resolve().parent
HUNT = FOLDER.parent / "hunt"
sys.path[:0] = [str(FOLDER), str(FOLDER.parent)]

from test_from_hprof import INT, OBJECT, DumpWriter  # noqa: E402

PROGRAM = os.environ.get("CLRHEAP")
CLASSES, REQUESTS, PARTS = 1500, 600, 4


class Service:
    """A dump that grows by objects, each with a new identifier."""

    def __init__(self):
        self.dump, self.last, self.classes = DumpWriter(8), 1 << 20, {}

    def new(self):
        self.last += 8
        return self.last

    def define(self, name, fields=(), statics=(), above="java/lang/Object"):
        self.classes[name] = self.new()
        self.dump.define(self.classes[name], name, self.classes.get(above, 0), statics=statics, fields=fields)
        return self.classes[name]

    def make(self, name, codes, *values):
        one = self.new()
        self.dump.instance(one, self.classes[name], codes, *values)
        return one

    def array(self, name, held):
        one = self.new()
        self.dump.references(one, self.classes[name], *held)
        return one

    def bytes(self, count):
        one = self.new()
        self.dump.bytes(one, bytes(count))
        return one

    def text(self, letters):
        value = self.new()
        self.dump.bytes(value, letters.encode())
        return self.make("java/lang/String", "W", value)

    def define_java(self):
        self.define("java/lang/Object")
        self.define("java/lang/String", [("value", OBJECT)])
        self.define("java/lang/Thread", [("name", OBJECT)])
        self.define("java/util/ArrayList", [("size", INT), ("elementData", OBJECT)])
        self.define("java/util/HashMap", [("size", INT), ("table", OBJECT)])
        self.define("java/util/HashMap$Node", [("key", OBJECT), ("value", OBJECT)])
        for name in ("java/lang/Object", "java/util/HashMap$Node"):
            self.define(f"[L{name};")

    def list(self, held):
        return self.make("java/util/ArrayList", "IW", len(held), self.array("[Ljava/lang/Object;", held))

    def serve(self):
        """The requests, with what retains them: the map, and the prices that have a list of listeners."""
        self.define("shop/Request", [("customer", OBJECT), ("body", OBJECT)])
        self.define("shop/Request$$Lambda/0x00007f00", [("arg$1", OBJECT)])
        self.define("shop/Answer", [("body", OBJECT)])
        self.define("shop/Prices", [("listeners", OBJECT)])
        listeners, nodes = [], []
        for number in range(REQUESTS):
            request = self.make("shop/Request", "WW", self.text(f"customer {number}"), self.bytes(700))
            listeners.append(self.make("shop/Request$$Lambda/0x00007f00", "W", request))
            answer = self.make("shop/Answer", "W", self.bytes(500))
            nodes.append(self.make("java/util/HashMap$Node", "WW", self.text(f"request {number}"), answer))
        table = self.array("[Ljava/util/HashMap$Node;", nodes)
        answers = self.make("java/util/HashMap", "IW", len(nodes), table)
        return answers, self.make("shop/Prices", "W", self.list(listeners))

    def file(self):
        self.define_java()
        answers, prices = self.serve()
        classes = [self.define("shop/Service", statics=[("ANSWERS", answers)])]
        for number in range(CLASSES):
            name = f"shop/part{number % 40}/Part{number}"
            fields = [(f"f{at}", OBJECT) for at in range(number % 5)] + [("name", OBJECT), ("count", INT)]
            self.classes[name], empty = self.new(), [0] * (number % 5)
            parts = [self.make(name, "W" * len(empty) + "WI", *empty, self.text(f"{number}"), at)
                     for at in range(PARTS)]
            self.dump.define(self.classes[name], name, self.classes["java/lang/Object"], fields=fields,
                             statics=[("KNOWN", self.list(parts))])
            classes.append(self.classes[name])
        self.define("shop/Loader", [("classes", OBJECT)])
        loader = self.make("shop/Loader", "W", self.list(classes))
        thread = self.make("java/lang/Thread", "W", self.text("main"))
        self.dump.root(0x08, "WII", thread, 1, 0)
        self.dump.root(0x03, "WII", prices, 1, 0)
        self.dump.root(0x01, "WW", loader, 0)
        return self.dump.file()


@unittest.skipUnless(PROGRAM, "CLRHEAP names no program")
class Hunt(unittest.TestCase):
    def test_both_leaks_are_named_first(self):
        with tempfile.TemporaryDirectory() as folder:
            path = Path(folder, "service.hprof")
            path.write_bytes(Service().file())
            ran = subprocess.run([str(HUNT), str(path), "--into", folder], text=True, capture_output=True, check=False)
            self.assertEqual(ran.returncode, 0, ran.stderr)
            page = Path(folder, "service.html").read_text(encoding="utf-8").replace("<wbr>", "")
            asked = subprocess.run([str(HUNT.with_name("ask")), str(Path(folder, "service.script"))], text=True,
                                   input="dumpheap -stat -type shop\n", capture_output=True, check=False)
        suspects = ran.stdout.split("suspect ")[1:]
        chains = [[line.strip().split(" ", 1)[1] for line in one.splitlines()[1:] if line[:5] == "    0"]
                  for one in suspects]
        self.assertEqual(chains, [
            ["Roots.thread.main [1]", "shop.Prices listeners", "java.util.ArrayList elementData", "java.lang.Object[]"],
            ["static.shop.Service ANSWERS", "java.util.HashMap table", "java.util.HashMap+Node[]"],
        ])
        self.assertIn(f"holds {REQUESTS} shop.Request++Lambda.0x00007f00", suspects[0])
        self.assertIn(f"{REQUESTS} shop.Answer", suspects[1])
        self.assertTrue("shop.Prices.listeners" in page and "class shop.Service.ANSWERS" in page)
        self.assertIn("classes share types", ran.stderr)
        self.assertIn("shop.Request\n", asked.stdout)


if __name__ == "__main__":
    unittest.main()
