#!/usr/bin/env python3
"""Tells the longest line of a script whose heap grows to 220 MiB: a live list of 9,600,000 objects of 24 bytes.

Lines are sent for a PIECE of objects at a time, and the next piece when all replies have come. While the list is built, the longest
piece is told and the middle one, which is what lines take without a collection. Then each kind of collection is a piece
of one line. Times are the program's own on a processor. A second program that takes the same scripts stands beside.

Usage: latency.py PROGRAM [OTHER]
"""
import pathlib
import sys

import growth
from programs import command_line

OBJECTS, PIECE = 9_600_000, 1_000
CORE, OPTIONS = "2", ["--limit", "1073741824", "--segment", "67108864", "--b2", "67108864"]
# Two objects. Lines are short, as a script has at most 256 MiB.
BUILD = "t1 new l1 N\nt1 set l1 0 l0\nt1 new l0 N\nt1 set l0 0 l1\n"
LINES = {
    "a young collection": "t1 collect 0 sweeping",
    "a full sweep": "t1 collect 2 sweeping",
    "a full compaction": "t1 collect 2 compacting",
    "the young collection behind it": "t1 collect 0 sweeping",
    "the next one": "t1 collect 0 sweeping",
    "an initial mark": "t1 background begin",
    "a step of 1,000 objects": "background step 1000",
    "the last pause behind all steps": "t1 background end",
}


def longest(run, lines, count):
    """The longest and the middle time, in seconds, of so many pieces of these lines."""
    spent, before = [], run.seconds()
    for _ in range(count):
        if not run.answer(lines):
            run.end()
            sys.exit("latency.py: the program ended early")
        now = run.seconds()
        spent.append(now - before)
        before = now
    spent.sort()
    return spent[-1], spent[count // 2]


def measured(program):
    """A pair of words and seconds for each kind of line."""
    growth.SECONDS = 900    # the list alone takes some ten of them
    run = growth.Run(program, OPTIONS, CORE)
    longest(run, b"type N class r\n", 1)
    most, middle = longest(run, (BUILD * (PIECE // 2)).encode(), OBJECTS // PIECE)
    found = [("the longest of all that build the list", most - middle), (f"{2 * PIECE:,} lines that do", middle)]
    for name, line in LINES.items():
        if name.startswith("the last pause"):
            run.answer(f"background step {OBJECTS}\n".encode())
        found.append((name, longest(run, f"{line}\n".encode(), 1)[0]))
    run.end()
    return found


def main():
    words = command_line(__doc__, 2)
    programs = [str(pathlib.Path(word).resolve()) for word in words]
    for rows in zip(*map(measured, programs)):
        print(f"{rows[0][0]}: " + ", ".join(f"{spent * 1000:.2f}" for _, spent in rows) + " ms")


if __name__ == "__main__":
    main()
