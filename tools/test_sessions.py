"""Tests of `ask` and `transcript`: run this file. A small program stands in for the real one, and where CLRHEAP names
that, it is asked, too."""
import io
import os
import pty
import select
import signal
import subprocess
import sys
import tempfile
import time
import unittest
from pathlib import Path

sys.dont_write_bytecode = True
TOOLS = Path(__file__).resolve().parent
sys.path.insert(0, str(TOOLS))

import session as sessions  # noqa: E402
from heap_names import Names as Beside  # noqa: E402
from image_tools import load_tool  # noqa: E402


ask = load_tool("ask")

# It answers some lines as `clrheap` does, and ends at `end`.
STAND_IN = '''#!/usr/bin/env python3
import sys, time
replies = {
    "": "refused syntax", "t0 step": "refused unknown-thread", "gcwhere 0000000000000000": "refused no-object",
    "two": "one\\ntwo", "full": "refused oom", "blocked": "refused blocked 3", "options": " ".join(sys.argv[1:]),
    "dumpheap -stat": "00 1 24 A\\n01 2 999 B\\n02 3 72 C\\ntotal 6 bytes 1095 free 0",
    "dumpheap -stat -live": "00 1 24 A\\ntotal 1 bytes 24 free 0",
}
if sys.argv[1] == "open":
    told = open(sys.argv[-1]).read()
    if told != "an image":
        print(told[1:], end="")
        sys.exit(int(told[0]))
for line in sys.stdin:
    if line.strip() == "end":
        sys.exit(3)
    if line.strip() == "wait":
        open(sys.argv[0] + ".waits", "w").close()
        time.sleep(1)
    print(replies.get(line.rstrip("\\n"), "refused syntax"), flush=True)
'''


class WithProgram(unittest.TestCase):
    def setUp(self):
        folder = tempfile.TemporaryDirectory()
        self.addCleanup(folder.cleanup)
        self.folder = Path(folder.name)
        self.program = self.folder / "program"
        self.program.write_text(STAND_IN, encoding="ascii")
        self.program.chmod(0o755)

    def write(self, name, text):
        path = self.folder / name
        path.write_text(text, encoding="utf-8")
        return str(path)

    def run_tool(self, name, text, *words, program=""):
        command = [sys.executable, "-B", str(TOOLS / name), "--program", program or str(self.program), *words]
        return subprocess.run(command, input=text, capture_output=True, text=True, check=False, timeout=60)


class Feeding(WithProgram):
    def feed(self, text):
        session, told = sessions.Session(str(self.program)), []
        self.addCleanup(session.close)
        return session.feed(io.BytesIO(text.encode()), told.append), told

    def test_the_last_reply_and_what_was_refused(self):
        (last, refused), told = self.feed("two\nfull\n\nfull\nblocked\ntwo\n")
        self.assertEqual((last, dict(refused)), ("two", {"oom": 2, "syntax": 1, "blocked": 1}))
        self.assertEqual(told, ["oom", "syntax", "blocked"])

    def test_a_script_that_ends_without_a_line_feed(self):
        self.assertEqual(self.feed("full\ntwo")[0], ("two", {"oom": 1}))
        self.assertEqual(self.feed("")[0], ("", {}))

    def test_replies_in_pieces_of_any_size(self):
        piece, sessions.PIECE = sessions.PIECE, 7
        try:
            self.assertEqual(self.feed("full\n\n" * 50 + "two\n")[0], ("two", {"oom": 50, "syntax": 50}))
        finally:
            sessions.PIECE = piece

    def test_retained_of_a_program_that_makes_no_image(self):
        ran = self.run_tool("ask", "retained\ntwo\n", self.write("a.script", ""))
        self.assertEqual(ran.stdout, "no answer: this is no image of a heap\n\none\ntwo\n\n")

    def test_a_program_that_ends(self):
        with self.assertRaises(sessions.Ended) as fault:
            self.feed("two\nend\n")
        self.assertEqual(str(fault.exception), "the program ended with status 3")


class Asking(WithProgram):
    def test_each_reply_is_ended_by_an_empty_line(self):
        ran = self.run_tool("ask", "two\nwhat\n\ntwo\n", self.write("a.script", "two\nfull\n"))
        self.assertEqual(ran.stdout, "one\ntwo\n\nrefused syntax\n\nrefused syntax\n\none\ntwo\n\n")
        self.assertIn("ask: 1 line was refused: 1 oom\n", ran.stderr)
        self.assertEqual(ran.returncode, 0)

    def test_options_are_those_said_or_those_beside_the_script(self):
        script = self.write("a.script", "")
        self.write("a.words", "run --limit 7 --b0 8\n")
        self.assertEqual(self.run_tool("ask", "options\n", script).stdout, "run --limit 7 --b0 8\n\n")
        self.assertEqual(self.run_tool("ask", "options\n", script, "--limit=9").stdout, "run --limit=9\n\n")

    def test_sorted(self):
        ran = self.run_tool("ask", "sorted\nsorted 1\nsorted 1 -live\n", self.write("a.script", ""))
        whole = "01 2 999 B\n02 3 72 C\n00 1 24 A\ntotal 6 bytes 1095 free 0\n\n"
        most = "01 2 999 B\ntotal 6 bytes 1095 free 0\n\n"
        self.assertEqual(ran.stdout, whole + most + "00 1 24 A\ntotal 1 bytes 24 free 0\n\n")

    def test_a_program_that_ends(self):
        ran = self.run_tool("ask", "end\ntwo\n", self.write("a.script", ""))
        self.assertEqual((ran.returncode, ran.stdout), (1, ""))
        self.assertIn("the program ended with status 3", ran.stderr)

    def test_quit(self):
        ran = self.run_tool("ask", "two\nexit\ntwo\n", self.write("a.script", ""))
        self.assertEqual((ran.returncode, ran.stdout), (0, "one\ntwo\n\n"))

    def test_refusals_are_explained_once(self):
        asked = "full\nfull\nblocked\nwhat\nephrefs 3\n\ngcwhere 0000000000000000\n"
        ran = self.run_tool("ask", asked, self.write("a.script", ""))
        told = [line for line in ran.stderr.splitlines() if "the program is" not in line and "runs" not in line]
        self.assertEqual(told[-5:], [
            "ask: the heap is full: it needs a larger --limit",
            "ask: thread 3 suspends all others, until its `resume`",
            "ask: `what` is no line of clrheap; `help` has the commands",
            "ask: it is written: ephrefs",
            "ask: no object has this address; `listnearobj` shows what is near it",
        ])

    def test_control_c_on_a_terminal(self):
        """It gives up a question or a line that is typed, and the next question is answered."""
        control, terminal = pty.openpty()
        self.addCleanup(os.close, control)
        command = [sys.executable, "-B", str(TOOLS / "ask"), "--program", str(self.program), self.write("a.script", "")]
        env = {**os.environ, "HOME": str(self.folder), "TERM": "dumb"}
        # What runs behind a shell's `&` ignores SIGINT, and so does what it starts.
        run = subprocess.Popen(command, stdin=terminal, stdout=terminal, stderr=terminal, env=env,
                               start_new_session=True,
                               preexec_fn=lambda: signal.signal(signal.SIGINT, signal.SIG_DFL))
        self.addCleanup(run.wait)
        self.addCleanup(run.kill)
        os.close(terminal)
        self.read_until(control, b"> ")
        # One that comes just before Python waits for a key is seen with the next key alone, so there are several.
        self.read_until(control, b"> ", lambda: run.send_signal(signal.SIGINT))
        os.write(control, b"wait\n")
        end = time.monotonic() + 30
        while not self.program.with_name("program.waits").exists() and time.monotonic() < end:
            time.sleep(0.05)
        run.send_signal(signal.SIGINT)
        self.read_until(control, b"given up")
        os.write(control, b"two\nquit\n")
        self.read_until(control, b"one\r\ntwo\r\n")
        self.assertEqual(run.wait(30), 0)

    def read_until(self, file, words, nudge=lambda: None):
        text, end = b"", time.monotonic() + 30
        while words not in text:
            self.assertLess(time.monotonic(), end, text)
            nudge()
            while select.select([file], [], [], 0.5)[0] and words not in text:
                text += os.read(file, 1000)

    def test_words_that_are_wrong(self):
        script, none = self.write("a.script", ""), str(self.folder / "none")
        for tool in ("ask", "transcript"):
            for words, status in (((), 2), ((str(self.program), script), 2), ((none,), 1), ((str(self.folder),), 1)):
                ran = self.run_tool(tool, "", *words)
                self.assertEqual((ran.returncode, ran.stdout, ran.stderr.count("\n")), (status, "", 1), ran.stderr)
            ran = self.run_tool(tool, "", script, program=none)
            self.assertEqual((ran.returncode, ran.stderr), (1, f"{tool}: {none}: No such file or directory\n"))
        self.assertEqual(self.run_tool("ask", "", "-").returncode, 2)

    def test_a_script_of_which_each_line_is_refused(self):
        ran = self.run_tool("ask", "", self.write("a.script", "type A class r\r\nwhat\r\n"))
        self.assertIn("a.script is no script, as its lines end with a carriage return\n", ran.stderr)
        self.assertNotIn("no script", self.run_tool("ask", "", self.write("a.script", "full\ntwo\n")).stderr)


class OfImages(WithProgram):
    def test_it_is_opened_with_the_options_that_are_said(self):
        image = self.write("a.image", "an image")
        self.write("a.words", "run --limit 7\n")
        self.assertEqual(self.run_tool("ask", "options\n", "--image", image).stdout, f"open -- {image}\n\n")
        ran = self.run_tool("ask", "options\ntwo\n", "--image", image, "--b0", "8")
        self.assertEqual((ran.returncode, ran.stdout), (0, f"open --b0 8 -- {image}\n\none\ntwo\n\n"))

    def test_what_is_not_opened(self):
        for text, why in {
            "7bad image at 98\n": "bad image at 98",
            "7unfit image at 16\n": "unfit image at 16",
            "2": "the program doesn't open it: it has no `open`, or no such option",
            "3": "it can't be read",
            "5": "there is not enough memory for it",
            "6": "it is longer than an image may be",
            "8": "the program ended with status 8",
        }.items():
            with self.subTest(text=text):
                image = self.write("a.image", text)
                ran = self.run_tool("ask", "two\n", "--image", image)
                self.assertEqual((ran.returncode, ran.stdout, ran.stderr), (1, "", f"ask: {image}: {why}\n"))

    @unittest.skipUnless("CLRHEAP" in os.environ, "CLRHEAP names no program")
    def test_questions_about_an_image(self):
        program, image = os.environ["CLRHEAP"], self.folder / "a.image"
        script = b"type A class r\ntype B class n\nt1 new l0 A\nt1 new l1 B\nt1 set l0 0 l1\nt1 null l1\n"
        image.write_bytes(subprocess.run([program, "image"], input=script, capture_output=True, check=True).stdout)
        self.write("a.fields", "A next\n")
        asked = ["gcroot 0x10001018", "retained 1", "dumpobj 0x10001000", "what", "tree 1", "t1 null l0", "retained 1",
                 "suspects", "t1 collect 2 compacting"]
        ran = self.run_tool("ask", "\n".join(asked), "--image", str(image), program=program)
        root, most, shown, what, tree, null, again, suspects, collected, _ = ran.stdout.split("\n\n")
        self.assertEqual(root, "root t1 l0\n0000000010001000 A next\n0000000010001018 B")
        self.assertEqual(most.splitlines()[1:], ["      48       2   24 0000000010001000 A", "total 2 bytes 48"])
        self.assertEqual(shown.splitlines()[1:], ["slot 0 ref 0000000010001018 next"])
        self.assertEqual((what, null, collected), ("refused syntax", "ok", "collected 2 compact kept 0 freed 2"))
        self.assertIn("0000000010001000 A", tree)
        changed = "no answer: the heap has changed since its image was opened"
        self.assertEqual((again, suspects), (changed, changed))
        image.write_bytes(image.read_bytes()[:-1])
        ran = self.run_tool("ask", "", "--image", str(image), program=program)
        self.assertEqual((ran.returncode, ran.stdout), (1, ""))
        self.assertRegex(ran.stderr, r"^ask: \S+: bad image at \d+\n$")


class Told:
    """Stands in for a session: it answers from a table."""

    REPLIES = {
        "dumpobj 0000000000000010": [
            "object 0000000000000010 Shop size 32 gen 2", "slot 0 ref 0000000000000020", "slot 1 num 5",
        ],
        "dumpobj 0000000000000020": [
            "object 0000000000000020 Bus[] size 32 gen 2 length 1", "slot 0 ref 0000000000000030",
        ],
        "dumpobj 0000000000000040": ["refused no-object"],
        "gcroot 0000000000000030": [
            "root t1 l0", "0000000000000010 Shop", "0000000000000020 Bus[]", "0000000000000030 Bus",
        ],
        "gcroot 0000000000000050": ["none"],
        "dumpobj 0000000000000030": ["object 0000000000000030 Bus size 24 gen 2"],
        "dumpobj 0000000000000060": [
            "object 0000000000000060 Sum size 40 gen 0", "slot 0 num 0", "slot 1 num 0",
            "slot 2 num 18446744073709551614",
        ],
        "dumpobj 0000000000000070": [
            "object 0000000000000070 shared.1.0 size 32 gen 2", "slot 0 num 7", "slot 1 ref 0000000000000010",
        ],
        "gcroot 0000000000000070": ["root t1 l1", "0000000000000070 shared.1.0"],
        "dumpobj 0000000000000080": [
            "object 0000000000000080 java.lang.String size 32 gen 2", "slot 0 ref 0000000000000090", "slot 1 num 0",
        ],
        "dumpobj 0000000000000090": [
            "object 0000000000000090 byte[] size 32 gen 2 length 3", "slot 0 num 116", "slot 1 num 101",
            "slot 2 num 97",
        ],
        "gcroot 0000000000000080": ["root t1 l1", "0000000000000080 java.lang.String"],
        "dumparray -start 1 0000000000000070": [
            "object 0000000000000070 shared.1.0 size 32 gen 2", "slot 1 ref 0000000000000010",
        ],
        "gcroot -all 0000000000000030": [
            "root t1 l0", "0000000000000010 Shop", "0000000000000020 Bus[]", "0000000000000030 Bus", "root h0",
            "0000000000000020 Bus[]", "0000000000000030 Bus", "roots 2",
        ],
        "pathto 0000000000000010 0000000000000020": ["0000000000000010 Shop", "0000000000000020 Bus[]"],
        "pathto 0000000000000020 0000000000000010": ["none"],
    }

    def ask(self, line):
        return self.REPLIES[line]


class Names(unittest.TestCase):
    def answer(self, question, names=Beside({"Shop": ["bus", "count"]})):
        return ask.Answers(Told(), names).answer(question)

    def test_behind_slots(self):
        shown = self.answer("dumpobj 0000000000000010")
        self.assertEqual(shown[1:], ["slot 0 ref 0000000000000020 bus", "slot 1 num 5 count"])
        self.assertEqual(self.answer("dumpobj 0000000000000040"), ["refused no-object"])

    def test_on_the_way_from_a_root(self):
        shown = self.answer("gcroot 0000000000000030")
        self.assertEqual(shown, [
            "root t1 l0", "0000000000000010 Shop bus", "0000000000000020 Bus[] slot 0", "0000000000000030 Bus",
        ])
        self.assertEqual(self.answer("gcroot 0000000000000050"), ["none"])

    def test_on_all_ways(self):
        self.assertEqual(self.answer("gcroot -all 0000000000000030"), [
            "root t1 l0", "0000000000000010 Shop bus", "0000000000000020 Bus[] slot 0", "0000000000000030 Bus",
            "root h0", "0000000000000020 Bus[] slot 0", "0000000000000030 Bus", "roots 2",
        ])
        self.assertEqual(self.answer("pathto 0000000000000010 0000000000000020"), [
            "0000000000000010 Shop bus", "0000000000000020 Bus[]",
        ])
        self.assertEqual(self.answer("pathto 0000000000000020 0000000000000010"), ["none"])

    def test_without_them_replies_stay(self):
        for question, reply in Told.REPLIES.items():
            self.assertEqual(self.answer(question, Beside()), reply)

    def test_numbers_that_the_script_lacks(self):
        names = Beside({"Shop": ["bus", "count?"], "Sum": ["lost?", "kept", "less"]})
        self.assertEqual(self.answer("dumpobj 0000000000000010", names)[2], "slot 1 num 5 count")
        self.assertEqual(self.answer("dumpobj 0000000000000060", names)[1:], [
            "slot 0 num ? lost", "slot 1 num 0 kept", "slot 2 num -2 less",
        ])

    def test_classes_that_share_a_type(self):
        names = Beside({"Order": ["class", "bus"]}, {"shared.1.0": {7: "Order"}})
        self.assertEqual(self.answer("dumpobj 0000000000000070", names), [
            "object 0000000000000070 Order size 32 gen 2", "slot 0 num 7 class", "slot 1 ref 0000000000000010 bus",
        ])
        self.assertEqual(self.answer("gcroot 0000000000000070", names), ["root t1 l1", "0000000000000070 Order"])
        self.assertEqual(self.answer("dumparray -start 1 0000000000000070", names), [
            "object 0000000000000070 Order size 32 gen 2", "slot 1 ref 0000000000000010 bus",
        ])

    def test_texts(self):
        names = Beside({"java.lang.String": ["value", "coder"]})
        self.assertEqual(self.answer("dumpobj 0000000000000080", names)[-1], 'text "tea"')
        self.assertEqual(self.answer("gcroot 0000000000000080", names)[-1], '0000000000000080 java.lang.String "tea"')

    def test_spellings(self):
        for question in ("!DumpObj 10", "sos do 0x10", "DO 0x0010", " dumpobj  0x10 "):
            said = "dumpobj 0000000000000010" if "0x" in question else "dumpobj 10"
            self.assertEqual(ask.forgive(question), said)
        for question, said in {
            "dumpheap -live -short": "dumpheap -short -live",
            "!DumpHeap -Stat -MIN 0x20": "dumpheap -stat -min 32",
            "dumpheap -min 0x20 -mt 7ff000000040": "dumpheap -mt 00007ff000000040 -min 32",
            "dumpheap -segment 0x10000000 -gen gen1": "dumpheap -gen 1 -segment 0000000010000000",
            "dumpheap -min": "dumpheap -min",
            "dumpheap -strings": "dumpheap -strings",
            "eeheap": "eeheap -gc",
            "fq": "finalizequeue",
            "da 0x10 -Length 0x2 -start 3": "dumparray -start 3 -length 2 0000000000000010",
            "DumpMT 7ff000000040": "dumpmt 00007ff000000040",
            "gcroot 0x10 -ALL": "gcroot -all 0000000000000010",
            "PathTo 0x10 0X20": "pathto 0000000000000010 0000000000000020",
            "Retained 0x1A": "retained 000000000000001a",
            "retained Node": "retained Node",
            "retained 10": "retained 10",
            "heapstat -iu": "gcheapstat -inclUnrooted",
            "GCHeapStat -inclunrooted": "gcheapstat -inclUnrooted",
            "lno 10001004": "listnearobj 0000000010001004",
            "EphRefs": "ephrefs",
            "gchandles -Stat": "gchandles -stat",
            "GCHandles -type WeakShort": "gchandles -type weak",
            "gchandles -type WeakLong": "gchandles -type weaklong",
            "help DA": "help dumparray",
            "t1 collect 2": "t1 collect 2",
        }.items():
            with self.subTest(question=question):
                self.assertEqual(ask.forgive(question), said)

    def test_help_tells_of_each_command(self):
        told = "\n".join(self.answer("help"))
        for verb in ask.FORMS:
            self.assertRegex(told, rf"(?m)^{verb}\b")
        self.assertEqual(self.answer("help lno"), ["listnearobj A".ljust(36) + "what is at and near an address"])


class Transcripts(WithProgram):
    def test_lines_and_replies(self):
        ran = self.run_tool("transcript", "", self.write("a.script", "two\n\nfull"), "--limit", "9")
        self.assertEqual(ran.stdout, "> two\none\ntwo\n> \nrefused syntax\n> full\nrefused oom\n")
        ran = self.run_tool("transcript", "options\n", "-", "--limit", "9")
        self.assertEqual((ran.returncode, ran.stdout), (0, "> options\nrun --limit 9\n"))

    def test_a_program_that_ends(self):
        ran = self.run_tool("transcript", "two\nend\ntwo\n", "-")
        self.assertEqual((ran.returncode, ran.stdout), (3, "> two\none\ntwo\n"))

    @unittest.skipUnless("CLRHEAP" in os.environ, "CLRHEAP names no program")
    def test_retained(self):
        script = self.write("a.script", "type A class r\ntype B class n\nt1 new l0 A\nt1 new l1 B\nt1 set l0 0 l1")
        asked = "retained 1\nt1 null l1\nretained 1\nretained B\nretained 0000000010001018\n"
        ran = self.run_tool("ask", asked, script, program=os.environ["CLRHEAP"])
        first, null, second, of_type, of_object, rest = ran.stdout.split("\n\n")
        head = "retained objects size address          name\n"
        self.assertEqual(first, head + "      24       1   24 0000000010001000 A\ntotal 2 bytes 48")
        self.assertEqual(null, "ok")
        self.assertEqual(second, head + "      48       2   24 0000000010001000 A\ntotal 2 bytes 48")
        self.assertEqual(of_type.splitlines()[1:], ["      24       1         1   24 B"])
        self.assertIn("root t1 l0 0000000010001000 A", of_object)
        self.assertEqual(rest, "")

    @unittest.skipUnless("CLRHEAP" in os.environ, "CLRHEAP names no program")
    def test_questions_of_debuggers(self):
        """Each form of `help` is one of the program, and slips of spelling are forgiven."""
        script = self.write("a.script", "type A class r\ntype B class n\nt1 new l0 A\nt1 new l1 B\nt1 set l0 0 l1")
        asked = {
            "dumpheap -gen gen0 -short": "0000000010001000\n0000000010001018",
            "dumpheap -SEGMENT 0x11000000": "total 0 bytes 0 free 0",
            "heapstat": "gen 0 objects 2 bytes 48 free 0",
            "HeapStat -iu": "gen 0 objects 2 bytes 48 free 0 dead 0",
            "da 0x10001000 -Length 1": "object 0000000010001000 A size 24 gen 0\nslot 0 ref 0000000010001018",
            "DumpMT 7ff000000040": "mt 00007ff000000040 A class r",
            "gcroot 10001018 -all": "root t1 l0\n0000000010001000 A\n0000000010001018 B\nroot t1 l1",
            "pathto 0x10001018 0x10001000": "none",
            "retained 0x10001000": "retained 0000000010001000 objects 1 bytes 24\nits dominators, from a root down",
            "retained 0x10001001": "refused no-object",
            "lno 0x10001019": "before 0000000010001000 00007ff000000040 24 A\nat 0000000010001018",
            "ephrefs": "refs 0",
            "GCHandles -stat": "strong 0\npinned 0\nweak 0",
            "gchandles -type WeakShort": "handles 0",
        }
        ran = self.run_tool("ask", "\n".join(asked), script, program=os.environ["CLRHEAP"])
        replies = ran.stdout.split("\n\n")
        self.assertEqual(len(replies), len(asked) + 1)
        for reply, (question, front) in zip(replies, asked.items()):
            with self.subTest(question=question):
                self.assertEqual(reply[:len(front)], front)
        self.assertIn("ask: no object has this address", ran.stderr)
        self.assertNotIn("it is written", ran.stderr)

    @unittest.skipUnless("CLRHEAP" in os.environ, "CLRHEAP names no program")
    def test_the_program_itself(self):
        script = "type Node class rn\nt1 new l0 Node\ndumpobj 0000000010001000\n\nverifyheap\n"
        ran = self.run_tool("transcript", script, "-", program=os.environ["CLRHEAP"])
        without = "".join(line for line in ran.stdout.splitlines(keepends=True) if not line.startswith("> "))
        plain = subprocess.run([os.environ["CLRHEAP"], "run"], input=script, capture_output=True, text=True, check=True)
        self.assertEqual(without, plain.stdout)
        asked = self.run_tool("ask", "verifyheap\nfoo\n", self.write("a.script", script), program=os.environ["CLRHEAP"])
        self.assertEqual((asked.stdout, asked.returncode), ("clean\n\nrefused syntax\n\n", 0))
        self.assertIn("1 line was refused: 1 syntax", asked.stderr)


if __name__ == "__main__":
    unittest.main()
