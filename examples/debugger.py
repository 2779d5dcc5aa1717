#!/usr/bin/env python3
"""A debugger in small: asks each command over a pipe, and compares the answers with what the words of an image say.

    debugger.py [--program PROGRAM] SCRIPT [OPTION..]           tells how many answers agree, or the first that doesn't
    debugger.py [--program PROGRAM] --image IMAGE [OPTION..]    asks an image that is opened

OPTION is one of `clrheap run`, as for tools/transcript, or one of `clrheap open`. In IMAGE no thread has begun an
object: it would have a context, of which an image knows nothing.
"""
import io
import json
import re
import subprocess
import sys
from collections import Counter, defaultdict, deque
from itertools import chain, islice
from pathlib import Path

TOOLS = Path(__file__).resolve().parent.parent / "tools"
sys.path.append(str(TOOLS))
from command_line import read_words  # noqa: E402
from endings import Fault, end  # noqa: E402
from session import Ended, Session  # noqa: E402

# Roots with what they refer to, and dependent handles with both parts.
ROOT = re.compile(r"^(t\d+ l\d+|ready \d+|h\d+(?= strong| pinned))(?: [a-z]+)? (\w{16})", re.MULTILINE)
DEPENDENT = re.compile(r"^h\d+ dependent (\w{16}) \S+ (\w{16})", re.MULTILINE)


def slots(word):
    """A word as `dumpobj` shows it: a slot, some bytes of an array, or nothing."""
    if word["what"] == "slot":
        return [f"slot {word['slot']} {word['kind']} {word.get('number') or word.get('target') or 'null'}"]
    held = bytes.fromhex(word["value"])[::-1] if word["what"] == "bytes" else b""
    return [f"slot {at} num {byte}" for at, byte in enumerate(held, word.get("from", 0)) if at <= word["to"]]


def generation(address, segment):
    """The generation of what stands at an address of a segment."""
    return 2 - sum(address >= segment.get(start, "g") for start in ("gen1", "gen0"))


def distances(edges, starts, without=None):
    """How many steps each object is away from the nearest start, where none leads to one that is left out."""
    found = {start: 0 for start in starts}
    waiting = deque(found)
    while waiting:
        one = waiting.popleft()
        for other in edges[one]:
            if other not in found and other != without:
                found[other] = found[one] + 1
                waiting.append(other)
    return found


class Debugger:
    """A session with the program, and the image that it opens, or that of the heap that it has after the script."""

    def __init__(self, words):
        self.agreed = 0
        if words.image:
            self.heap = Session.of_image(words.program, words.script, words.options)
            self.image = Path(words.script).read_bytes()
            return
        # A collection at the end gives up contexts, of which an image knows nothing.
        with words.open() as file:
            script = file.read() + b"t1 collect 2\n"
        command = [words.program, "image", *words.options]
        self.image = subprocess.run(command, input=script, stdout=subprocess.PIPE, check=True).stdout
        self.heap = Session(words.program, words.options)
        self.heap.feed(io.BytesIO(script))

    def told(self, *options):
        """The lines of image-words."""
        command = [sys.executable, "-B", TOOLS / "image-words", "-", *options]
        ran = subprocess.run(command, input=self.image, stdout=subprocess.PIPE, check=True)
        return ran.stdout.decode().splitlines()

    def agree(self, command, lines):
        """Asks. The answer has to be these lines, and one of sums behind them."""
        answer = self.heap.ask(command)
        if answer[:len(lines)] != lines or len(answer) > len(lines) + 1:
            raise Fault(f"{command}: the answer is {answer}, and the image says {lines}")
        self.agreed += 1

    def agree_on(self, address, words, segment):
        """An object: what it holds, where it stands, and what is near it."""
        size, gen = 8 * len(words), generation(address, segment)
        length = "".join(f" length {word['number']}" for word in words if word["what"] == "length")
        head = f"object {address} {words[1]['type']} size {size} gen {gen}{length}"
        self.agree(f"dumpobj {address}", [head, *islice(chain.from_iterable(map(slots, words)), 16)])
        shown = islice(chain.from_iterable(map(slots, words)), 1, 31)
        self.agree(f"dumparray -start 1 -length 30 {address}", [head, *shown])
        self.agree(f"gcwhere {address}", [f"gen {gen} {segment['kind']} {segment['base']} size {size}"])
        item = f"at {address} {words[1]['value']} {size} {words[1]['type']}"
        self.check(f"listnearobj {address}", lambda answer: item in answer)

    def agree_on_ways(self, address, sizes, edges, roots):
        """That shortest chains lead to an object, and what it retains."""
        leading = {root: far[address] for root, far in roots.items() if address in far}
        root, *objects = self.heap.ask(f"gcroot {address}")
        way = [root, *(line[:16] for line in objects)]
        linked = way[-1] == address and all(there in edges[here] for here, there in zip(way, way[1:]))
        self.check(f"gcroot {address}", lambda _: linked and len(objects) == min(leading.values()))
        self.check(f"pathto {way[1]} {address}", lambda answer: len(answer) == len(objects))
        lines = sum(1 + far for far in leading.values())
        self.check(f"gcroot -all {address}", lambda answer: answer[lines:] == [f"roots {len(leading)}"])
        gone = sizes.keys() - distances(edges, roots, address).keys()
        told = f"retained {address} objects {len(gone)} bytes {sum(map(sizes.get, gone))}"
        self.agree(f"retained {address}", [told])

    def check(self, command, holds):
        """Asks. Of the answer something has to be so."""
        answer = self.heap.ask(command)
        if not holds(answer):
            raise Fault(f"{command}: the image has no such answer: {answer}")
        self.agreed += 1

    def compare(self):
        """Asks all commands, and each that takes an address for each object."""
        segments, items, edges = [], {}, defaultdict(set)
        for word in map(json.loads, self.told("--json")):
            if "segment" in word:
                segments.append(word)
            else:
                items.setdefault(word["object"], ([], segments[-1]))[0].append(word)
                edges[word["object"]] |= {word.get("target")} - {None}
        told = self.told("--roots")
        names = [("root " + name, address) for name, address in ROOT.findall("\n".join(told))]
        for one, other in names + DEPENDENT.findall("\n".join(told)):
            edges[one].add(other)
        self.compare_lists(items, told)
        self.compare_sums(items)
        roots = {name: distances(edges, [name]) for name, _ in names}
        sizes = {at: 8 * len(words) for at, (words, _) in items.items() if words[1]["type"] != "Free"}
        for address in sizes:
            self.agree_on(address, *items[address])
            self.agree_on_ways(address, sizes, edges, roots)

    def compare_lists(self, items, roots):
        listed = [f"{at} {words[1]['value']} {8 * len(words)} {words[1]['type']}" for at, (words, _) in items.items()]
        self.agree("dumpheap", listed)
        for gen in range(3):
            passing = [at for at, (_, segment) in items.items() if generation(at, segment) == gen]
            self.agree(f"dumpheap -short -gen {gen}", passing or ["none"])
        self.agree("eeheap -gc", [line for line in self.told() if line.startswith("segment ")])
        handles = [re.sub(r"(\w{16}) \S+", r"\1", line) for line in roots if line.startswith("h")]
        self.agree("gchandles", handles)
        self.agree("gchandles -type weak", [line for line in handles if " weak " in line])
        counts = Counter(line.split(" ")[1] for line in handles)
        kinds = ("strong", "pinned", "weak", "weaklong", "dependent")
        self.agree("gchandles -stat", [f"{kind} {counts[kind]}" for kind in kinds])
        queues = [re.sub(r" \d+", "", line, count=1) for line in roots if re.match("entry|ready", line)]
        self.agree("finalizequeue", queues)
        self.agree("verifyheap", ["clean"])

    def compare_sums(self, items):
        """What is told of generations and types."""
        rows = {row: [0, 0, 0] for row in ("gen 0", "gen 1", "gen 2", "large", "pinned", "total")}
        young, types = [], set()
        for at, (words, segment) in items.items():
            gen, size = generation(at, segment), 8 * len(words)
            small = segment["kind"] in ("small", "ephemeral")
            for row in (f"gen {gen}" if small else segment["kind"], "total"):
                added = (0, 0, size) if words[1]["type"] == "Free" else (1, size, 0)
                rows[row] = [one + more for one, more in zip(rows[row], added)]
            types.add((words[1]["value"], words[1]["type"]))
            for word in words:
                target = word.get("target")
                if target and generation(target, items[target][1]) < gen:
                    young.append(f"{at} {words[1]['type']} slot {word['slot']} ref {target} {word['target_type']}")
        sums = [f"{row} objects {n} bytes {size} free {free}" for row, (n, size, free) in rows.items()]
        self.agree("gcheapstat", sums)
        self.agree("ephrefs", young)
        for table, name in sorted(types):
            self.check(f"dumpmt {table}", lambda answer: f"{answer[0]} ".startswith(f"mt {table} {name} "))


def main():
    try:
        debugger = Debugger(read_words("debugger", __doc__, images=True))
        debugger.compare()
    except (Ended, subprocess.CalledProcessError) as fault:
        raise Fault(fault) from fault
    print(f"{debugger.agreed} answers agree")
    return 0


if __name__ == "__main__":
    end("debugger", main)
