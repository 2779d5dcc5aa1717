"""Tests of from-mono: run this file. Where CLRHEAP names a built program, scripts are run, too."""
import gzip
import os
import random
import subprocess
import sys
import tempfile
import unittest
from pathlib import Path

sys.dont_write_bytecode = True
FOLDER = Path(__file__).resolve().parent
TOOL = FOLDER.parent / "from-mono"
sys.path[:0] = [str(FOLDER), str(FOLDER.parent)]

import dump_writer as writer  # noqa: E402
import heap_script  # noqa: E402
import shot as shots  # noqa: E402
from dump_writer import (  # noqa: E402
    BLOB, HEAD, IMAGE, NODE, OFFSETS, POINTERS, STACK, STATICS, TAIL, DumpWriter, tiny_dump, vtable_of,
)
from heap_script import BadDump, Form, Names, Room, TooMuch  # noqa: E402
from layout import Layout, spell  # noqa: E402
from mlpd import Dump  # noqa: E402
from offsets import ask_mono, class_lines, read_offsets  # noqa: E402
from script import script  # noqa: E402

SAMPLES = sorted((FOLDER / "samples").glob("*.mlpd"))
PROGRAM = os.environ.get("CLRHEAP")


def run_script(text):
    """The last reply of the built program to a script of which no line is refused."""
    ran = subprocess.run([PROGRAM, "run"], input=text, capture_output=True, text=True, check=True)
    refused = [line for line in ran.stdout.splitlines() if line.startswith("refused")]
    return refused[0] if refused else ran.stdout.splitlines()[-1]


class WithDump(unittest.TestCase):
    def with_file(self, name, body, read):
        with tempfile.TemporaryDirectory() as folder:
            path = Path(folder) / name
            path.write_bytes(body)
            return read(str(path))

    def open(self, body, wanted=None):
        return self.with_file("tiny.mlpd", body, lambda path: Dump(path, wanted))

    def offsets(self, text=OFFSETS):
        return self.with_file("tiny.offsets", text.encode(), read_offsets)

    def layout(self, body=None, offsets=None):
        dump = self.open(tiny_dump() if body is None else body)
        return Layout(dump, self.offsets(offsets) if offsets else None)


class Reading(WithDump):
    def test_objects_and_references(self):
        dump = self.open(tiny_dump())
        self.assertEqual(len(dump.shot.addresses), 8)
        self.assertEqual(dump.class_of(dump.shot.vtables[0]), ("Map.Node", IMAGE))
        offsets, named = dump.shot.references(0)
        self.assertEqual((list(offsets), list(named)), ([16, 24], [TAIL, writer.NAME]))
        offsets, named = dump.shot.references(4)
        self.assertEqual((len(offsets), offsets[127]), (129, 32 + 8 * 127))
        self.assertEqual((offsets[128], named[128]), (32 + 8 * 299, TAIL))

    def test_a_compressed_dump(self):
        self.assertEqual(len(self.open(gzip.compress(tiny_dump())).shot.addresses), 8)
        with self.assertRaises(BadDump):
            self.open(gzip.compress(tiny_dump())[:-20])

    def test_several_shots(self):
        dump = DumpWriter()
        writer.write_start(dump)
        writer.write_shot(dump)
        dump.begin()
        dump.thing(HEAD, NODE, 40)
        dump.end()
        body = dump.file()
        self.assertEqual([len(self.open(body, wanted).shot.addresses) for wanted in (None, 0, 1)], [1, 8, 1])
        with self.assertRaisesRegex(BadDump, "its shots are 0 to 1"):
            self.open(body, 2)

    def test_a_program_that_goes_on(self):
        """The last buffer may be half there, after a whole shot."""
        body = tiny_dump()
        dump = DumpWriter()
        writer.write_others(dump)
        more = dump.file()[len(DumpWriter().data):]
        for size in (3, 47, 48, len(more) - 3):
            for half in (body + more[:size], gzip.compress(body + more[:size])[:-8]):
                self.assertEqual(len(self.open(half).shot.addresses), 8)

    def test_what_is_no_dump(self):
        whole, unknown, none = tiny_dump(), DumpWriter(), DumpWriter()
        unknown.event(0x0F)
        writer.write_others(none)
        cut = [whole[:size] for size in (0, 4, 50, 300, len(whole) // 2, len(whole) - 1)]
        for body in (*cut, unknown.file(), none.file(), DumpWriter(15).file(), whole.replace(b"\1LPM", b"\1LPN")):
            with self.subTest(size=len(body)), self.assertRaises(BadDump):
                self.open(body)

    def test_an_object_that_is_named_and_missing(self):
        dump = DumpWriter()
        writer.write_start(dump)
        dump.begin()
        dump.thing(HEAD, NODE, 40, (16, TAIL))
        dump.end()
        with self.assertRaisesRegex(BadDump, "names 1 objects"):
            self.open(dump.file())

    def test_a_number_of_too_many_bytes(self):
        dump = DumpWriter()
        dump.event(0x04, b"\xff" * 200_000 + b"\0")
        with self.assertRaisesRegex(BadDump, "cut off, or damaged"):
            self.open(dump.file())


class Damaged(WithDump):
    """A dump in which bytes are others gives some heap or one line that it is damaged, and nothing else."""

    def turn(self, body):
        """What a damaged dump gives: the lines of a script, or nothing."""
        try:
            layout = self.layout(body, OFFSETS)
            Room(layout.all_sizes()).check()
            return sum(map(len, script(layout)))
        except (BadDump, TooMuch):
            return 0

    def damage(self, body, chance):
        raw = bytearray(body)
        for _ in range(chance.randint(1, 6)):
            raw[chance.randrange(len(raw))] = chance.choice((0, 1, 63, 64, 127, 128, 255, chance.randrange(256)))
        return bytes(raw)

    def test_tiny_dumps(self):
        chance, body = random.Random(5), tiny_dump()
        made = [self.turn(self.damage(body, chance)) > 0 for _ in range(600)]
        self.assertGreater(sum(made), 60)
        self.assertGreater(made.count(False), 60)

    def test_stored_dumps(self):
        chance = random.Random(6)
        for path in SAMPLES:
            body = path.read_bytes()
            body = gzip.decompress(body) if body[:2] == b"\x1f\x8b" else body
            for _ in range(6):
                self.turn(self.damage(body, chance))

    def test_cut_dumps(self):
        body = tiny_dump()
        for size in range(0, len(body), 7):
            self.assertEqual(self.turn(body[:size]), 0)

    def test_fields_of_a_class_that_are_too_large(self):
        dump = DumpWriter()
        writer.write_start(dump)
        dump.region(STATICS, 1 << 40, 3, vtable_of(NODE))
        writer.write_shot(dump)
        with self.assertRaisesRegex(BadDump, "static fields of a class have"):
            self.layout(dump.file())


class AtOnce(WithDump):
    """What is told while a dump is read. Limits are small here."""

    def test_a_shot_that_is_too_large(self):
        self.addCleanup(setattr, shots, "MOST_BYTES", shots.MOST_BYTES)
        shots.MOST_BYTES = 150
        with self.assertRaisesRegex(TooMuch, "its first 4 objects alone need a longer script"):
            self.open(tiny_dump())

    def test_bytes_of_objects(self):
        self.addCleanup(setattr, shots, "LIMIT", shots.LIMIT)
        shots.LIMIT = 100
        with self.assertRaisesRegex(TooMuch, "its objects have [0-9,]+ bytes and more, and a heap has at most 100$"):
            self.open(tiny_dump())

    def test_no_script_is_shorter_than_was_counted(self):
        bodies = [tiny_dump(), many_classes(1200), *(path.read_bytes() for path in SAMPLES)]
        for body in bodies:
            dump = self.open(body)
            counted = dump.shot.least_lines() + dump.shot.least_names(dump._least_name)
            self.assertLessEqual(counted, sum(map(len, script(Layout(dump)))))


def many_classes(count):
    """A dump of so many classes with an object each, in eight shapes. A thread has a stack, and there are 100 more."""
    many = DumpWriter()
    many.image(b"/srv/Map.exe")
    for number in range(count):
        many.define(number, f"Class{number}" + "[]" * (number % 8 == 7))
        many.region(STATICS + 64 * number, 24, 3, vtable_of(number))
    for thread in range(100):
        many.region(STACK + 0x100000 + 64 * thread, 64, 1, 0x7F12_0000_0000 + thread, "Thread Stack")
    many.begin()
    for number in range(count):
        address, held = HEAD + 256 * number, HEAD + 256 * (number // 2)
        size = 16 + 8 * (1 + number % 8) if number % 8 < 7 else 32 + 8 * 3
        many.thing(address, number, size, *([(16 + 8 * (number % 8), held)] if number % 8 < 7 else [(40, held)]))
        many.roots((STATICS + 64 * number + 8, address))
    many.roots(*((STACK + 0x100000 + 64 * thread, HEAD) for thread in range(100)))
    many.end()
    return many.file()


class Types(WithDump):
    def test_forms(self):
        layout = self.layout()
        forms = {name: (form.shape, form.pattern) for name, form in layout.types.items()}
        self.assertEqual(forms["Map.Node"], ("class", "rrn"))
        self.assertEqual(forms["System.String"], ("bytes", ""))
        self.assertEqual(forms["System.Byte[]"], ("bytes", ""))
        for name in ("Map.Node[]", "Map.Node[,]", "Map.Entry<System.String,Map.Node>[]"):
            self.assertEqual(forms[name], ("refs", ""))
        self.assertEqual(forms["statics"], forms["Roots.threads"])
        self.assertNotIn("Map.Row[]", forms)
        self.assertEqual(layout.fields["Map.Node"], ["+16", "+24", "+32?"])

    def test_lengths(self):
        lengths = {sort.name: sort.length_of for sort in self.layout().sorts}
        self.assertEqual(lengths["System.String"](32), 8)
        self.assertEqual(lengths["Map.Node[,]"](32 + 48 + 16), 6)
        self.assertEqual(lengths["System.Byte[]"](136), 104)
        self.assertIsNone(lengths["Map.Node"])

    def test_names_of_fields(self):
        layout = self.layout(offsets=OFFSETS)
        self.assertEqual(layout.unnamed, 0)
        self.assertEqual(layout.fields["Map.Node"], ["Next", "Name", "Count|Flags?"])
        self.assertEqual(layout.fields["static.Map.Node"], ["class", "First"])
        entries = "Map.Entry<System.String,Map.Node>[]"
        self.assertEqual(layout.types[entries], Form("structs", "nrr"))
        self.assertEqual(layout.fields[entries][:4], ["[0].Hash?", "[0].Key", "[0].Value", "[1].Hash?"])

    def test_no_number_is_told_as_if_it_were_known(self):
        for layout in (self.layout(), self.layout(offsets=OFFSETS)):
            for name, form in layout.types.items():
                fields, letters = layout.fields.get(name, []), form.pattern.replace("-", "")
                self.assertTrue(form.shape != "bytes" or all(field == "?" for field in fields), name)
                for at, letter in enumerate(letters * 16 if form.shape == "structs" else letters):
                    if at < len(fields):
                        self.assertEqual(fields[at].endswith("?"), letter == "n", (name, at))

    def test_names_that_do_not_agree_with_the_shot(self):
        layout = self.layout(offsets=OFFSETS.replace("field 24 r Name", "field 24 n Name").replace("16 r V", "16 n V"))
        self.assertEqual((layout.unnamed, layout.fields["Map.Node"]), (2, ["+16", "+24", "+32?"]))
        self.assertEqual(layout.types["Map.Entry<System.String,Map.Node>[]"], Form("refs"))

    def test_what_is_no_file_of_offsets(self):
        for text in ("field 16 r Next\n", "class A\nfield x r Next\n", "class A\nfield 16\n", "hello\n", "element 8\n"):
            with self.subTest(text=text), self.assertRaises(BadDump):
                self.offsets(text)

    def test_no_class_loses_its_name(self):
        """Of 1,500 classes those with few objects share types. The file of names, and what stands in the objects, tell
        which is whose."""
        layout = self.layout(many_classes(1500))
        self.assertLessEqual(len(layout.types), heap_script.MOST_TYPES)
        self.assertGreater(layout.merged, 600)
        lines = list(layout.name_lines())
        shared = {line.split()[3]: line.split()[1:3] for line in lines if line.startswith("name ")}
        classes = {f"Class{number}" + "[]" * (number % 8 == 7) for number in range(1500)}
        self.assertEqual((classes | {f"static.{name}" for name in classes}) - {*layout.types, *shared}, set())
        stacks = {f"Roots.stack.{0x7F12_0000_0000 + thread:x}" for thread in range(100)}
        self.assertEqual(stacks - {*layout.types, *shared}, set())
        of, number = shared["Class996"]
        self.assertEqual(layout.types[of].pattern, "nrnnnn")
        self.assertEqual(layout.fields["Class996"], ["class", "+48", "+16?", "+24?", "+32?", "+40?"])
        text = "".join(script(layout))
        self.assertIn(f"t1 new l2 {of}\nt1 put l2 0 {number}\nt1 set l0 996 l2\n", text)
        self.assertIn("t1 get l2 l0 996\nt1 get l3 l0 498\nt1 set l2 1 l3\n", text)
        of, number = shared["Class999[]"]
        self.assertIn(f"t1 new l2 {of} 3\nt1 put l2 0 {number}\n", text)
        self.assertIn("t1 get l2 l0 999\nt1 get l3 l0 499\nt1 set l2 3 l3\n", text)
        of, number = shared["static.Class996"]
        self.assertIn(f"t1 new l2 {of} 1\nt1 put l2 0 {number}\nt1 get l3 l0 996\nt1 set l2 1 l3\n", text)
        if PROGRAM:
            self.assertEqual(run_script(text), f"collected 2 compact kept {1500 + len(layout.tables)} freed 1")

    def test_classes_of_one_name(self):
        dump = DumpWriter()
        dump.image(b"/srv/Map.exe")
        dump.define(0, "Map.Task")
        dump.define(1, "Map.Task", POINTERS)
        dump.begin()
        dump.thing(HEAD, 0, 16)
        dump.thing(TAIL, 1, 16)
        dump.end()
        self.assertLessEqual({"Map.Task<Map.exe>", "Map.Task<unknown>"}, set(self.layout(dump.file()).types))

    def test_names(self):
        names = Names(spell)
        self.assertEqual(names.take("Map.Program.<Build>c__AnonStorey0"), "Map.Program.<Build>c__AnonStorey0")
        self.assertEqual(names.take("<Private>`1"), "_<Private>_1")
        self.assertEqual(names.take("Free"), "Free.2")
        long = f"A.B.Map<A.B.{'y' * 50},A.B.C.{'z' * 50},A.B.Other>[]"
        self.assertEqual(names.take(long), f"Map<{'y' * 50},{'z' * 50},Other>[]")
        self.assertEqual(len(names.take("x" * 300)), 128)

    def test_sizes_on_mono(self):
        lines = set(self.layout(offsets=OFFSETS).name_lines())
        self.assertLessEqual({
            "size Map.Node 40 0", "size System.String 24 1", "size System.Byte[] 32 1", "size Map.Node[] 32 8",
            "size Map.Node[,] 48 8", "size Map.Entry<System.String,Map.Node>[] 32 24", "size static.Map.Node 0 0",
        }, lines)


class OfRoots(WithDump):
    def test_tables_and_handles(self):
        layout = self.layout()
        self.assertEqual([slots for *_, slots in layout.tables], [{1: 0}, {1: 4, 2: 5}])
        self.assertEqual([table[0] for table in layout.tables], ["statics", "Roots.threads"])
        self.assertEqual([name for _, name in layout.shared], ["Roots.stack.patrol_one", "static.Map.Node"])
        self.assertEqual(layout.roots.handles, [("strong", 6), ("pinned", 6)])

    def test_a_region_that_was_taken_back(self):
        dump = DumpWriter()
        writer.write_start(dump)
        dump.unregister(STACK)
        writer.write_shot(dump)
        self.assertIn("unknown", self.layout(dump.file()).roots.tables)

    def test_a_region_that_was_registered_again_and_again(self):
        """Buffers of threads stand in no order of time. What was registered last is there, and that takes no long
        time."""
        dump = DumpWriter()
        dump.time = 10_000_000
        writer.write_start(dump)
        dump.buffer()
        for number in range(30_000):
            dump.time = number * 100
            dump.region(STACK, 0x1000, 1, THREAD_GONE, "Thread Stack")
            dump.unregister(STACK)
            if number % 100 == 0:
                dump.buffer()
        dump.buffer()
        dump.time = 20_000_000
        writer.write_shot(dump)
        self.assertEqual(list(self.layout(dump.file()).roots.tables), ["stack.patrol one"])


THREAD_GONE = 0x7F13_0000_0000


class Scripts(WithDump):
    def lines(self, offsets=None):
        return "".join(script(self.layout(offsets=offsets))).splitlines()

    def test_each_object_is_made_and_named(self):
        lines = self.lines()
        self.assertIn("type Map.Node class rrn", lines)
        self.assertEqual(sum(line.startswith("t1 new l2 Map.Node") and "[" not in line for line in lines), 3)
        head = lines.index("t1 get l2 l0 0")
        self.assertEqual(lines[head + 1:head + 5], [
            "t1 get l3 l0 1", "t1 set l2 0 l3", "t1 get l3 l0 3", "t1 set l2 1 l3"])
        self.assertEqual(lines[-5:], [
            "t1 null l0", "t1 null l2", "t1 null l3", "t1 compact-large once", "t1 collect 2 compacting"])

    @unittest.skipUnless(PROGRAM, "CLRHEAP names no program")
    def test_a_program_keeps_what_the_roots_reach(self):
        for offsets in (None, OFFSETS):
            text = "".join(line + "\n" for line in self.lines(offsets))
            self.assertEqual(run_script(text), "collected 2 compact kept 8 freed 3")


class Command(unittest.TestCase):
    def run_on(self, folder, body, *words):
        path = Path(folder) / "app.mlpd"
        path.write_bytes(body)
        return self.run_words(str(path), *words)

    def run_words(self, *words, **more):
        command = [sys.executable, "-B", str(TOOL), *words]
        return subprocess.run(command, capture_output=True, text=True, check=False, **more)

    def test_what_stands_beside_the_script(self):
        with tempfile.TemporaryDirectory() as folder:
            Path(folder, "app.offsets").write_text(OFFSETS, encoding="utf-8")
            ran = self.run_on(folder, tiny_dump(), str(Path(folder) / "app.script"))
            texts = {path.name: path.read_text(encoding="utf-8") for path in Path(folder).glob("app.[sfwn]*")}
            piped = self.run_on(folder, tiny_dump(), "--offsets", str(Path(folder) / "app.offsets"))
        self.assertEqual((ran.returncode, ran.stdout), (0, ""))
        self.assertEqual(sorted(texts), ["app.fields", "app.names", "app.script", "app.words"])
        self.assertEqual(texts["app.script"], piped.stdout)
        self.assertEqual(texts["app.words"], heap_script.WORDS + "\n")
        self.assertIn("Map.Node Next Name Count|Flags?\n", texts["app.fields"])
        self.assertIn("clrheap " + heap_script.WORDS, ran.stderr)

    def test_classes_for_the_offsets(self):
        with tempfile.TemporaryDirectory() as folder:
            ran = self.run_on(folder, tiny_dump(), "--classes")
        lines = ran.stdout.splitlines()
        self.assertEqual(lines[0], "image /srv/Map.exe AF847767-F2CE-46BD-B1F7-7722FBC64210")
        self.assertIn("class Map.Node[,]", lines)
        self.assertNotIn("class Map.Row[]", lines)

    def test_field_names_without_mono(self):
        with tempfile.TemporaryDirectory() as folder:
            path = Path(folder) / "app.mlpd"
            path.write_bytes(tiny_dump())
            ran = self.run_words("--field-names", str(path), env={"PATH": folder})
        self.assertEqual((ran.returncode, ran.stdout, ran.stderr.count("\n")), (1, "", 1))
        self.assertIn("need `mono` and `mcs`", ran.stderr)

    def test_nothing_that_is_read_is_written_over(self):
        with tempfile.TemporaryDirectory() as folder:
            path, offsets = Path(folder) / "app.mlpd", Path(folder) / "names.fields"
            (Path(folder) / "app.words").symlink_to("app.mlpd")
            offsets.write_text(OFFSETS, encoding="utf-8")
            for words in ([str(path)], [str(Path(folder) / "app.script")], [str(Path(folder) / "other.names")],
                          [str(Path(folder) / "names.script"), "--offsets", str(offsets)]):
                ran = self.run_on(folder, tiny_dump(), *words)
                self.assertEqual((ran.returncode, ran.stderr.count("\n")), (1, 1), ran.stderr)
                self.assertEqual(path.read_bytes(), tiny_dump())
                self.assertEqual(offsets.read_text(encoding="utf-8"), OFFSETS)

    def test_faults_get_a_line_and_a_status(self):
        with tempfile.TemporaryDirectory() as folder:
            ran = self.run_on(folder, b"hello", str(Path(folder) / "app.script"))
            self.assertEqual([one.name for one in Path(folder).iterdir()], ["app.mlpd"])
            self.assertEqual((ran.returncode, ran.stdout, ran.stderr.count("\n")), (1, "", 1))
            self.assertIn("no dump of Mono's log profiler", ran.stderr)
            ran = self.run_on(folder, tiny_dump(), str(Path(folder) / "none" / "app.script"))
            self.assertTrue(ran.stderr.endswith("/none/app.script: No such file or directory\n"), ran.stderr)
            app = str(Path(folder) / "app.mlpd")
            for words in ([str(Path(folder) / "none.mlpd")], [folder], [app, "--offsets", "none"]):
                ran = self.run_words(*words)
                self.assertEqual((ran.returncode, ran.stderr.count("\n")), (1, 1), ran.stderr)
            with open("/dev/full", "wb") as full:
                words = [sys.executable, "-B", str(TOOL), str(Path(folder) / "app.mlpd")]
                ran = subprocess.run(words, stdout=full, stderr=subprocess.PIPE, text=True, check=False)
            self.assertEqual((ran.returncode, ran.stderr), (1, "from-mono: the output: No space left on device\n"))

    def test_what_no_heap_can_hold(self):
        dump = DumpWriter()
        writer.write_start(dump)
        dump.begin()
        dump.thing(BLOB, writer.BYTES, 1 << 30)
        dump.end()
        with tempfile.TemporaryDirectory() as folder:
            ran = self.run_on(folder, dump.file(), str(Path(folder) / "app.script"))
            self.assertEqual([one.name for one in Path(folder).iterdir()], ["app.mlpd"])
        self.assertEqual((ran.returncode, ran.stderr.count("\n")), (1, 1))
        self.assertIn("a heap has at most 1,073,741,824; take the shot after less work", ran.stderr)

    def test_help(self):
        ran = self.run_words("--help")
        self.assertEqual((ran.returncode, ran.stderr), (0, ""))
        self.assertIn("heapshot=ondemand", ran.stdout)


class Samples(WithDump):
    """Stored dumps of real programs, with the counts that `mprof-report --reports=heapshot` tells of them."""

    def test_counts(self):
        self.assertEqual(len(SAMPLES), 3)
        for path in SAMPLES:
            with self.subTest(path=path.name):
                told = {}
                for line in path.with_suffix(".counts").read_text(encoding="utf-8").splitlines():
                    size, count, name = line.split(" ", 2)
                    told[name] = int(count), int(size)
                layout = Layout(Dump(str(path)), read_offsets(path.with_suffix(".offsets")))
                counts = {sort.name: [0, 0] for sort in layout.sorts}
                for number, size in zip(layout.sort_of, layout.shot.sizes):
                    counts[layout.sorts[number].name][0] += 1
                    counts[layout.sorts[number].name][1] += size
                self.assertEqual({name: tuple(both) for name, both in counts.items()}, told)
                self.assertEqual((layout.unnamed, layout.merged, layout.roots.lost), (0, 0, 0))

    def test_sizes(self):
        """With the sizes that stand beside a script, the objects of the script have the bytes that they had on Mono,
        but for what is left behind the last element of arrays of structs."""
        for path in SAMPLES:
            layout = Layout(Dump(str(path)), read_offsets(path.with_suffix(".offsets")))
            for sort in layout.sorts:
                base, element = sort.own
                for size in sort.sizes:
                    told = base + element * (sort.length_of(size) if sort.length_of else 0) + 7 & ~7
                    self.assertTrue(0 <= (size + 7 & ~7) - told < max(element, 1), (sort.name, size, told))

    @unittest.skipUnless(PROGRAM, "CLRHEAP names no program")
    def test_a_program_keeps_all(self):
        for path in SAMPLES:
            with self.subTest(path=path.name):
                layout = Layout(Dump(str(path)), read_offsets(path.with_suffix(".offsets")))
                words = [PROGRAM, *heap_script.WORDS.split()]
                text = "".join(script(layout))
                ran = subprocess.run(words, input=text, capture_output=True, text=True, check=True)
                kept = len(layout.shot.addresses) + len(layout.tables)
                self.assertNotIn("refused", ran.stdout)
                self.assertEqual(ran.stdout.splitlines()[-1], f"collected 2 compact kept {kept} freed 1")


class Asking(WithDump):
    def test_what_mono_is_asked(self):
        lines = list(class_lines(self.open(tiny_dump())))
        self.assertEqual(len(lines), 1 + 6)

    def test_a_fault_of_mono_is_told(self):
        """A compiler that fails ends the question with one line."""
        with tempfile.TemporaryDirectory() as folder:
            for name in ("mcs", "mono"):
                (Path(folder) / name).write_text("#!/bin/sh\necho broken >&2\nexit 3\n", encoding="ascii")
                (Path(folder) / name).chmod(0o755)
            before = os.environ["PATH"]
            self.addCleanup(os.environ.__setitem__, "PATH", before)
            os.environ["PATH"] = folder + os.pathsep + before
            with self.assertRaisesRegex(BadDump, "mcs ended with status 3: broken"):
                ask_mono(self.open(tiny_dump()))


if __name__ == "__main__":
    unittest.main()
