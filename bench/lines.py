#!/usr/bin/env python3
"""Times whole scripts: how many lines a second the built program answers.

Two scripts. `parse` is 5,000,000 cheap lines on slots and locals, all on two objects. `alloc` is
300,000 small births, which is about what an ephemeral segment of 16 MiB holds while nothing is
collected. Each is run TURNS times; the least time counts, less the least time of an empty script
(the program's start, with the memory of two segments).

With `perf` on the machine it also prints in which functions the time of each script goes.

Usage: lines.py PROGRAM [CORE]     (the built program, and the processor to run on, 2 if left out)
"""
import pathlib
import shutil
import sys
import tempfile

from programs import Program, command_line

WORDS = command_line(__doc__, 2)
PROGRAM = Program(str(pathlib.Path(WORDS[0]).resolve()), WORDS[1] if len(WORDS) > 1 else "2")
TURNS = 7
# Lines a second that are wanted.
WANTED = {"parse": 10_000_000, "alloc": 6_000_000}


def draw(count, seed=1):
    """A fixed row of numbers below `count`."""
    state = seed
    while True:
        state = (state * 6364136223846793005 + 1442695040888963407) % (1 << 64)
        yield (state >> 33) % count


def parse(lines=5_000_000):
    start = [
        "type Node class rrn", "type byte[] bytes", "t1 new l0 Node", "t1 new l1 byte[] 1000",
        "t1 set l0 0 l1",
    ]
    cycle = [
        "t1 copy l2 l0", "t1 get l3 l0 0", "t1 put l0 2 123456", "t1 read l0 2", "t1 set l2 1 l0",
        "t1 put l1 17 200", "t1 read l1 17", "t1 null l3", "t16 copy l63 l62", "t1 get l4 l2 1",
    ]
    return start + (cycle * (lines // len(cycle) + 1))[:lines]


def alloc(lines=300_000):
    script = ["type Node class rrn", "type byte[] bytes", "type Table refs", "t1 new l0 Table 1024"]
    length, slot, local = draw(200), draw(1024, 2), draw(7, 3)
    for i in range(lines):
        if i % 16 == 7:
            script.append(f"t1 new l{1 + i % 7} byte[] {next(length)}")
        elif i % 64 == 63:
            script.append(f"t1 set l0 {next(slot)} l{1 + next(local)}")
        else:
            script.append(f"t1 new l{1 + i % 7} Node")
    return script


def main():
    slow = False
    with tempfile.TemporaryDirectory() as name:
        folder = pathlib.Path(name)
        empty = folder / "empty"
        empty.write_text("")
        start = PROGRAM.least_time(empty, TURNS)
        print(f"an empty script: {start * 1000:.1f} ms")
        for script in [parse, alloc]:
            path = folder / script.__name__
            lines = script()
            path.write_text("\n".join(lines) + "\n")
            spent = PROGRAM.least_time(path, TURNS) - start
            rate = len(lines) / spent
            refused = sum(reply.startswith("refused") for reply in PROGRAM.replies(path))
            wanted = WANTED[script.__name__]
            slow = slow or rate < wanted
            print(
                f"{script.__name__}: {len(lines)} lines, {refused} refused, {spent * 1000:.0f} ms, "
                f"{rate / 1e6:.1f} million lines a second (wanted {wanted / 1e6:.0f}), "
                f"{spent / len(lines) * 1e9:.0f} ns a line"
            )
            if shutil.which("perf"):
                for percent, function in PROGRAM.shares(path, folder)[:24]:
                    print(f"    {percent:5.1f} % {function}")
    sys.exit(1 if slow else 0)


if __name__ == "__main__":
    main()
