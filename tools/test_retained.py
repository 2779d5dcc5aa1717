"""Tests of `retained`: run this file. Where CLRHEAP names a program that knows images, its totals are compared, too."""
import random
import subprocess
import sys
import tempfile
import unittest
from array import array
from pathlib import Path

sys.dont_write_bytecode = True
sys.path.insert(0, str(Path(__file__).resolve().parent))

import heap_names  # noqa: E402
import image_writer as writer  # noqa: E402
from heap_graph import Graph, Heap, dominators, retained_by_kind, sums_below  # noqa: E402
from heap_image import parse  # noqa: E402
from heap_lines import Answers  # noqa: E402


def reached(edges, roots, without=()):
    """What the roots reach where some objects are not there: the definition, on its own."""
    seen, waiting = set(), [root for root in roots if root not in without]
    while waiting:
        one = waiting.pop()
        if one not in seen:
            seen.add(one)
            waiting.extend(held for held in edges[one] if held not in without)
    return seen


def graph_of(edges, roots):
    starts, targets = array("I", [0]), array("I")
    for held in edges:
        targets.extend(held)
        starts.append(len(targets))
    return Graph(starts, targets, roots)


def random_graphs(count):
    """Graphs of a few objects, from sparse to dense, with some kinds, and sizes that tell all sets of objects apart."""
    draw = random.Random(7)
    for _ in range(count):
        objects = draw.randrange(1, 11)
        density = draw.choice((0.5, 1, 1.5, 3))
        edges = [[] for _ in range(objects)]
        for _ in range(int(density * objects)):
            edges[draw.randrange(objects)].append(draw.randrange(objects))
        roots = [draw.randrange(objects) for _ in range(draw.randrange(4))]
        yield edges, roots, [draw.randrange(1, 5) for _ in range(objects)]


class AgainstTheDefinition(unittest.TestCase):
    def test_what_an_object_retains(self):
        for edges, roots, _ in random_graphs(3000):
            graph = graph_of(edges, roots)
            sums = sums_below(dominators(graph), [0] + [1 << one for one in graph.order[1:]])
            all_reached = reached(edges, roots)
            self.assertEqual(set(graph.order[1:]), all_reached)
            for vertex in range(1, len(graph.order)):
                one = graph.order[vertex]
                freed = all_reached - reached(edges, roots, {one})
                self.assertEqual(sums[vertex], sum(1 << held for held in freed), (edges, roots, one))

    def test_what_a_kind_retains(self):
        for edges, roots, kinds in random_graphs(3000):
            graph = graph_of(edges, roots)
            sizes = [0] + [1 << one for one in graph.order[1:]]
            by_vertex = [0] + [kinds[one] for one in graph.order[1:]]
            sums, counts = retained_by_kind(graph, by_vertex, sizes)
            all_reached = reached(edges, roots)
            for kind in {kinds[one] for one in all_reached}:
                freed = all_reached - reached(edges, roots, {one for one, of in enumerate(kinds) if of == kind})
                self.assertEqual(sums[kind], sum(1 << held for held in freed), (edges, roots, kinds, kind))
                self.assertEqual(counts[kind], len(freed))

    def test_which_objects_reach_one(self):
        for edges, roots, _ in random_graphs(500):
            graph = graph_of(edges, roots)
            for vertex in range(1, len(graph.order)):
                seen = graph.reaching(vertex)
                expected = {one for one in graph.order[1:] if graph.order[vertex] in reached(edges, [one])}
                self.assertEqual({graph.order[one] for one in seen if one}, expected)

    def test_long_chains_take_no_stack_and_little_time(self):
        """A list of which each element names the same value, twice as hard for simpler algorithms: the last one fans
        out."""
        length = 20_000
        edges = [[one + 1, length] for one in range(length - 1)] + [[length, *range(length + 1, 2 * length)]]
        edges += [[] for _ in range(length)]
        edges[0] += range(length + 1, 2 * length)
        sums = sums_below(dominators(graph_of(edges, [0])), [0] + [1] * (2 * length))
        self.assertEqual((sums[1], sums[2]), (2 * length, length - 1))


NODE, REFS = 1, 2
TYPES = [("Node", 0, 0, "rn"), ("Table", 1, 0, "")]


def nodes(*held, free_after=0):
    """The words of nodes that name such addresses. A free item may stand behind some."""
    words = []
    for at, address in enumerate(held, 1):
        words += [0, writer.table_word(NODE), address, 0]
        if at == free_after:
            words += [0, writer.table_word(0), 0]
    return words


def address(number):
    return writer.FIRST + 32 * number


class Images(unittest.TestCase):
    def answers(self, *words, **more):
        return Answers(Heap(parse(writer.image(TYPES, *words, **more))))

    def test_free_items_have_no_numbers(self):
        answers = self.answers(nodes(address(1) + 24, 0, free_after=1), [address(0)])
        self.assertEqual(answers.total(), "total 2 bytes 64")

    def test_which_handles_are_roots(self):
        for kind, live in enumerate((1, 1, 0, 0, 0)):
            answers = self.answers(nodes(0), handles=[(5, kind, address(0), 0)])
            self.assertEqual(answers.total(), f"total {live} bytes {32 * live}")

    def test_the_ready_queue_is_a_root_and_a_dependent_handle_an_edge(self):
        answers = self.answers(nodes(0, 0), handles=[(0, 4, address(0), address(1))], ready=[address(0)])
        lines = list(answers.of_object(address(1), 20))
        self.assertIn("1 of 1 roots reach it", lines)
        self.assertIn(f"root ready 0 {address(0):016x} Node", lines)
        self.assertEqual([line.split() for line in lines[2:4]], [
            ["64", "2", "32", f"{address(0):016x}", "Node"],
            ["32", "1", "32", f"{address(1):016x}", "Node"],
        ])

    def test_all_roots_that_reach_an_object(self):
        words, handles = nodes(address(2), address(2), 0), [(3, 1, address(2), 0)]
        answers = self.answers(words, [address(0), 0, address(1)], handles=handles)
        lines = list(answers.of_object(address(2), 20))
        self.assertEqual([line.split()[:3] for line in lines if line.startswith("root")], [
            ["root", "t1", "l0"], ["root", "t1", "l2"], ["root", "h3", f"{address(2):016x}"],
        ])

    def test_the_tables_of_java_roots(self):
        """Two tables stand for roots. One names the node, and one another that names it."""
        at = [writer.FIRST + 8 * word for word in (0, 5, 9, 13, 16)]
        tables = [(name, 1, 0, "") for name in ("Roots", "Roots.thread.main", "Roots.JniGlobal")]
        types = [("Node", 0, 0, "r"), *tables]
        words = [0, writer.table_word(2), 2, at[1], at[2], 0, writer.table_word(3), 1, at[3]]
        words += [0, writer.table_word(4), 1, at[4], 0, writer.table_word(1), at[4], 0, writer.table_word(1), 0]
        answers = Answers(Heap(parse(writer.image(types, words, [0, at[0]]))))
        lines = list(answers.of_object(at[4], 20))
        first = lines.index("1 of 1 roots reach it")
        self.assertEqual(lines[first + 1:first + 5], [
            f"root t1 l1 {at[0]:016x} Roots",
            "2 roots and static fields of the dumped program reach it",
            f"Roots.thread.main {at[3]:016x} Node",
            f"Roots.JniGlobal {at[4]:016x} Node",
        ])

    def test_arrays(self):
        table = [0, writer.table_word(REFS), 3, writer.FIRST + 48, 0, writer.FIRST + 48]
        answers = self.answers(table + nodes(0), [writer.FIRST])
        self.assertEqual(list(answers.types(20))[1:], [
            "      80       2         1   48 Table",
            "      32       1         1   32 Node",
            "total 2 bytes 80",
        ])

    def test_an_object_that_nothing_reaches(self):
        lines = list(self.answers(nodes(0)).of_object(address(0), 20))
        self.assertEqual(lines, [f"{address(0):016x} Node: no root reaches it"])

    def test_a_reference_that_names_nothing(self):
        with tempfile.TemporaryDirectory() as folder:
            path = Path(folder) / "image"
            path.write_bytes(writer.image(TYPES, nodes(address(5)), [address(0)]))
            ran = writer.run_tool("retained", path)
        self.assertEqual((ran.returncode, ran.stdout), (1, ""))
        self.assertIn("no object has the address 00000000100010a0, which is named", ran.stderr)


def shop(sessions, cache=0):
    """The bytes of an image: a table of roots names a bus, which names an array of sessions, each with an array of
    numbers; and a class with a static field that refers to a cache of nodes, which share a type. Behind it the address
    of the bus, and of the first session."""
    types = [
        ("Roots", 1, 0, ""), ("Roots.thread.main", 1, 0, ""), ("Bus", 0, 0, "nr"), ("Session[]", 1, 0, ""),
        ("Session", 0, 0, "r"), ("byte[]", 2, 0, ""), ("static.Cache", 1, 0, ""), ("shared.1.0", 0, 0, "nr"),
    ]
    words, table = [], writer.table_word

    def here():
        return writer.FIRST + 8 * len(words)

    main = writer.FIRST + 8 * 5
    bus = main + 8 * 4
    array_at = bus + 8 * 4
    first = array_at + 8 * (3 + sessions)
    static = first + 8 * (3 + 3 + 13) * sessions
    words += [0, table(1), 2, main, static]
    words += [0, table(2), 1, bus]
    words += [0, table(3), sessions, array_at]
    words += [0, table(4), sessions, *(first + 8 * 19 * one for one in range(sessions))]
    for _ in range(sessions):
        at = here()
        words += [0, table(5), at + 24, 0, table(6), 104, *[7] * 13]
    assert here() == static
    words += [0, table(7), 1, static + 8 * 4 if cache else 0]
    for one in range(cache):
        words += [0, table(8), 9, here() + 8 * 4 if one + 1 < cache else 0]
    return writer.image(types, words, [writer.FIRST]), bus, first


NAMES = heap_names.Names(
    fields={"Bus": ["count?", "sessions"], "static.Cache": ["first"], "Link": ["class", "next"]},
    shared={"shared.1.0": {9: "Link"}}, sizes={"Session": (12, 0), "byte[]": (16, 1)},
)


class Hunting(unittest.TestCase):
    """What is told of a shop whose bus keeps 200 sessions, and whose cache is a list of 150 links."""

    def setUp(self):
        data, self.bus, self.first = shop(200, 150)
        self.answers = Answers(Heap(parse(data), NAMES))

    def test_suspects(self):
        lines = list(self.answers.suspect_lines())
        array_at, table = self.bus + 32, writer.FIRST + 40
        kept = "retains 32024 bytes, 87 % of the heap, in 401 objects"
        self.assertEqual(lines[0], f"suspect 1: {array_at:016x} Session[] {kept}")
        self.assertEqual(lines[1:5], [
            f"    {table:016x} Roots.thread.main [0]", f"    {self.bus:016x} Bus sessions",
            f"    {array_at:016x} Session[]", "    holds 200 Session, which retain 30400 bytes",
        ])
        self.assertIn("    of all that it retains, 200 byte[] have 25600 bytes", lines)
        second = lines.index(next(line for line in lines if line.startswith("suspect 2")))
        self.assertIn("static.Cache retains 4832 bytes, 13 % of the heap, in 151 objects", lines[second])
        self.assertIn("    holds 1 Link, which retains 4800 bytes", lines)

    def test_the_list_of_a_class_loader(self):
        """What static fields retain isn't laid to the array that holds all classes."""
        types = [("Object[]", 1, 0, ""), *((f"static.C{one}", 1, 0, "") for one in range(20)), ("byte[]", 2, 0, "")]
        words, first = [0, writer.table_word(1), 20], writer.FIRST + 8 * 23
        words += [first + 8 * 17 * one for one in range(20)]
        for one in range(20):
            words += [0, writer.table_word(2 + one), 1, first + 8 * 17 * one + 32]
            words += [0, writer.table_word(22), 80, *[7] * 10]
        answers = Answers(Heap(parse(writer.image(types, words, [writer.FIRST]))))
        self.assertEqual(answers.objects[0], 41)
        self.assertIn("no object, and no objects of a type side by side", next(answers.suspect_lines()))

    def test_no_suspects(self):
        image = writer.image(TYPES, nodes(*[0] * 30), [address(one) for one in range(30)])
        answers = Answers(Heap(parse(image)))
        self.assertIn("suspect 1: 30 Node retain 960 bytes", list(answers.suspect_lines())[0])
        answers = Answers(Heap(parse(writer.image(TYPES, []))))
        self.assertIn("no objects of a type side by side, retain 10 % of the heap", list(answers.suspect_lines())[0])

    def test_tree(self):
        lines = list(self.answers.tree_lines(1.0, 20))
        self.assertEqual([line.split(maxsplit=5)[-1] for line in lines[1:7]], [
            "Roots", "Roots.thread.main = [0]", "Bus = [0]", "Session[] = sessions", "Session", "static.Cache = [1]",
        ])
        self.assertEqual(lines[5].split(), ["82.3", "30400", "400", "..", "200", "Session"])
        self.assertEqual(lines[-1], self.answers.total())

    def test_a_tree_that_is_deep(self):
        length = 2000
        answers = Answers(Heap(parse(
            writer.image(TYPES, nodes(*(address(one) for one in range(1, length)), 0), [address(0)]))))
        self.assertLess(len(list(answers.tree_lines(0.1, 5000))), 100)
        self.assertEqual([one.vertex for one in answers.suspects()], [1])

    def test_incoming(self):
        lines = list(self.answers.incoming_lines(self.first, 20))
        self.assertEqual(lines[0], f"1 object refers to {self.first:016x} Session")
        self.assertEqual(lines[2].split(), ["32024", f"{self.bus + 32:016x}", "Session[]", "[0]"])
        self.assertEqual(list(self.answers.incoming_lines(writer.FIRST, 20))[-1], "root t1 l0 refers to it, too")

    def test_growth(self):
        older = Answers(Heap(parse(shop(50)[0]), NAMES))
        lines = list(self.answers.growth_lines(older, 10, 3))
        self.assertEqual([line.split() for line in lines[1:4]], [
            ["+150", "+19200", "200", "25600", "byte[]"], ["+150", "+4800", "150", "4800", "Link"],
            ["+150", "+3600", "200", "4800", "Session"],
        ])
        self.assertIn("and 1 more", lines)
        self.assertIn("    +24000 bytes since the older image", lines)
        self.assertIn("    +4800 bytes since the older image", lines)
        older = Answers(Heap(parse(writer.image(TYPES, nodes(0), [address(0)]))))
        self.assertIn("    it is new", list(self.answers.growth_lines(older, 10, 3)))

    def test_sizes_of_the_dumped_program(self):
        answers = Answers(Heap(parse(shop(2)[0]), NAMES, True))
        rows = {line.split()[-1]: line.split()[3] for line in list(answers.types(20))[1:-1]}
        self.assertEqual((rows["Session"], rows["byte[]"], rows["Roots"], rows["Bus"]), ("32", "240", "0", "32"))

    def test_files_that_say_what_can_not_be(self):
        """Sizes of elements are for arrays alone, and slots of fields are looked for among those that an object has."""
        types = [("Node", 0, 0, "nr"), ("java.lang.String", 0, 0, "r"), ("byte[]", 2, 0, "")]
        words = [0, writer.table_word(1), (1 << 64) - 1, 0, 0, writer.table_word(2), writer.FIRST + 56]
        words += [0, writer.table_word(3), 2, 0x6968]
        names = heap_names.Names({"java.lang.String": ["value", *"abcdefgh", "coder"]}, sizes={"Node": (24, 8)})
        answers = Answers(Heap(parse(writer.image(types, words, [writer.FIRST, writer.FIRST + 32])), names, True))
        self.assertEqual((answers.sizes[1:], answers.text(2)), ([24, 24, 32], "hi"))
        with tempfile.TemporaryDirectory() as folder:
            path = Path(folder) / "a.names"
            for line in ("size A 1", "size A -1 0", f"size A 0 {1 << 40}", "name A x B", "name A 1"):
                path.write_text(line + "\n", encoding="ascii")
                with self.assertRaises(heap_names.BadNames):
                    heap_names.beside(Path(folder) / "a.image")

    def test_command_lines(self):
        with tempfile.TemporaryDirectory() as folder:
            now, then = Path(folder) / "now.image", Path(folder) / "then.image"
            now.write_bytes(shop(30, 9)[0])
            then.write_bytes(shop(3)[0])
            (Path(folder) / "now.fields").write_text("Bus count? sessions\n", encoding="ascii")
            (Path(folder) / "now.names").write_text("name shared.1.0 9 Link\nsize Link 24 0\n", encoding="ascii")
            for words in (["--suspects"], ["--tree"], ["--by-type"], ["--against", then], ["--to", "0x10001000"],
                          ["--object", f"{self.bus:x}"], ["--sizes", "dump"]):
                ran = writer.run_tool("retained", now, *words)
                self.assertEqual((ran.returncode, ran.stderr), (0, ""), words)
            self.assertIn("Link", writer.run_tool("retained", now, "--by-type").stdout)
            self.assertIn(" Bus sessions\n", writer.run_tool("retained", now, "--suspects").stdout)
            self.assertEqual(writer.run_tool("retained", now, "--against", folder).returncode, 1)
            for words in (["--top", "-1"], ["--object", "zzz"], ["--least", "0"]):
                ran = writer.run_tool("retained", now, *words)
                self.assertEqual(ran.returncode, 2)
                self.assertRegex(ran.stderr, "invalid (count|address|percent) value")
            (Path(folder) / "now.names").write_text("what\n", encoding="ascii")
            ran = writer.run_tool("retained", now)
            self.assertEqual((ran.returncode, ran.stderr.count("\n")), (1, 1))
            self.assertIn("line 1 is none of a `.names` file", ran.stderr)
            with open("/dev/full", "w", encoding="ascii") as full:
                ran = subprocess.run([sys.executable, "-B", str(writer.TOOLS / "retained"), str(then)], stdout=full,
                                     stderr=subprocess.PIPE, text=True, check=False)
            self.assertEqual((ran.returncode, ran.stderr), (1, "retained: the output: No space left on device\n"))


class SlotNames(unittest.TestCase):
    def test_slots_of_arrays_of_structs(self):
        """The file of fields names the first elements, and the names go on with each further one."""
        length, held = 20, writer.FIRST + 24 + 20 * 24
        words = [0, writer.table_word(1), length, *[0, 0, 0] * 17, 0, held, held, *[0, 0, 0] * 2]
        words += [0, writer.table_word(2), 0]
        heap = Heap(parse(writer.image([("Entry[]", 3, 0, "nrr"), ("Node", 0, 0, "n")], words)),
                    heap_names.Names({"Entry[]": ["[0].hash?", "[0].key", "[0].value", "[1].hash?"]}))
        names = [heap.slot_name(0, slot) for slot in (0, 1, 3, 5, 52, 53)]
        self.assertEqual(names, ["[0].hash", "[0].key", "[1].hash", "[1].value", "[17].key", "[17].value"])


class Program(unittest.TestCase):
    SCRIPT = [
        "type Node class rrn", "type Table refs", "type Entry[] structs nr", "type File class r final",
        "type byte[] bytes",
        *(line for one in range(40) for line in (
            f"t1 new l{one} {('Node', 'Table 3', 'Entry[] 2', 'File', 'byte[] 90')[one % 5]}",
            f"t1 set l{one * 7 % 40 // 5 * 5} {one % 2} l{one}", f"t1 set l{one // 5 * 5} 1 l{one * 3 % 40}",
        )),
        "t1 handle pinned l7", "t1 handle dependent l5 l9", "t1 handle weak l11",
        *(f"t1 null l{one}" for one in range(40) if one % 9), "t1 collect 2 sweeping", "t1 new l50 Table 1",
        "t1 null l50",
    ]

    @unittest.skipUnless(writer.program_with_images(), "CLRHEAP names no program that writes images")
    def test_totals_are_those_of_the_program(self):
        program = writer.program_with_images()
        answers = Answers(Heap(parse(writer.replies(program, self.SCRIPT, "image"))))
        total = writer.replies(program, [*self.SCRIPT, "dumpheap -stat -live"], "run")[-1]
        self.assertEqual(answers.total() + " free 0", total)

    @unittest.skipUnless(writer.program_with_images("objsize 0000000000000000"), "CLRHEAP names none with objsize")
    def test_reach_is_objsize(self):
        program = writer.program_with_images()
        image = parse(writer.replies(program, self.SCRIPT, "image"))
        image.handles = [handle for handle in image.handles if handle.kind != "dependent"]
        heap = Heap(image)
        edges = [heap.targets[heap.starts[one]:heap.starts[one + 1]] for one in range(len(heap.addresses))]
        asked = [f"objsize {one:016x}" for one in heap.addresses]
        shown = writer.replies(program, self.SCRIPT + asked, "run")[-len(asked):]
        for one, line in enumerate(shown):
            below = reached(edges, [one])
            size = sum(heap.sizes[one] for one in below)
            self.assertEqual(line.split()[2:], ["objects", str(len(below)), "bytes", str(size)])


if __name__ == "__main__":
    unittest.main()
