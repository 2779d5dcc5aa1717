#!/usr/bin/env python3
"""Tells how the cost of lines and collections grows, and fails where it grows faster than docs/COSTS.md says.

Each case (growth_cases.py) builds a heap of n, 2n, 4n and 8n objects, segments or handles, and then runs the lines that
are timed. Time is the program's own on a processor between two replies of one run, the least of several. A case fails
where the exponent of its time (the slope of logarithms, by least squares) is above the promised one by more than SLACK,
for which caches are granted. Where another program is given, its times stand beside, and replies must be equal.

Usage: growth.py PROGRAM [--beside OTHER] [--core N] [--turns K] [CASE ..]     (all cases where none is named)
"""
import argparse
import hashlib
import math
import os
import pathlib
import subprocess
import sys
import threading

from growth_cases import CASES

DOUBLINGS, SLACK, SECONDS = 4, 0.3, 120
# The reply to a line without a word, which tells that all lines in front of it were answered.
MARK = b"refused syntax\n"


class Run:
    """A program that answers a script in parts."""

    def __init__(self, program, options, core):
        command = ["taskset", "-c", core, program, "run"] + options
        self.process = subprocess.Popen(command, stdin=subprocess.PIPE, stdout=subprocess.PIPE, bufsize=0)
        self.timer = threading.Timer(SECONDS, self.process.kill)
        self.timer.start()
        self.replies = hashlib.sha256()

    def answer(self, lines):
        """Sends lines and reads their replies; False where the program ended before the last one."""
        writer = threading.Thread(target=self._write, args=(lines + b"\n",))
        writer.start()
        tail = b""
        while not tail.endswith(MARK):
            piece = os.read(self.process.stdout.fileno(), 1 << 20)
            if not piece:
                break
            self.replies.update(piece)
            tail = (tail + piece)[-len(MARK):]
        writer.join()
        return tail.endswith(MARK)

    def _write(self, lines):
        view = memoryview(lines)
        try:
            while view:
                view = view[os.write(self.process.stdin.fileno(), view[:1 << 20]):]
        except OSError:
            pass    # the program has ended, which `answer` tells

    def seconds(self):
        """How long the program was on a processor."""
        return int(pathlib.Path(f"/proc/{self.process.pid}/schedstat").read_text().split()[0]) / 1e9

    def end(self):
        self.timer.cancel()
        self.process.stdin.close()
        self.process.stdout.close()
        self.process.wait()


def time_once(program, case, parts, core):
    """The time of the measured lines and a checksum of all replies, or None where the program ended early."""
    run = Run(program, case.options, core)
    try:
        built, timed = parts
        if not run.answer(built):
            return None
        before = run.seconds()
        if not run.answer(timed):
            return None
        return run.seconds() - before, run.replies.hexdigest()
    finally:
        run.end()


def times_of(case, programs, core, turns):
    """For each program its least time for each size, as far as it came, with the checksums of its replies."""
    found = {program: [] for program in programs}
    for size in (case.least << k for k in range(DOUBLINGS)):
        parts = case.parts(size)
        for program in programs:
            if len(found[program]) < int(math.log2(size // case.least)):
                continue    # it did not end at a smaller size
            ran = [time_once(program, case, parts, core) for _ in range(turns)]
            if all(ran):
                found[program].append(min(ran))
    return found


def exponent(times):
    """The slope of the logarithms of times at sizes that double."""
    points = [(k, math.log2(max(spent, 1e-6))) for k, (spent, _) in enumerate(times)]
    if len(points) < 2:
        return math.inf
    middle = [sum(values) / len(points) for values in zip(*points)]
    return (sum((x - middle[0]) * (y - middle[1]) for x, y in points)
            / sum((x - middle[0]) ** 2 for x, _ in points))


def show(case, programs, found):
    """Prints a case's row for each program, and answers what is wrong with it."""
    wrong = []
    for program in programs:
        times = found[program]
        steps = " ".join(f"{spent * 1000:.1f}" for spent, _ in times)
        grows = exponent(times) if len(times) == DOUBLINGS else math.inf
        print(f"{case.name} {pathlib.Path(program).name}: {steps} ms from {case.least}, exponent {grows:.2f}"
              f" (promised {case.exponent})", flush=True)
        if program == programs[0] and grows > case.exponent + SLACK:
            wrong.append(f"{case.name}: exponent {grows:.2f}")
    if len(programs) == 2:
        ours, theirs = (found[program] for program in programs)
        if any(mine[1] != other[1] for mine, other in zip(ours, theirs)):
            wrong.append(f"{case.name}: replies differ")
        if len(ours) == len(theirs) == DOUBLINGS:
            print(f"{case.name}: {ours[-1][0] / max(theirs[-1][0], 1e-6):.2f} times at {case.least << DOUBLINGS - 1}")
    return wrong


def main():
    parser = argparse.ArgumentParser(description=__doc__.splitlines()[0])
    parser.add_argument("program")
    parser.add_argument("--beside", help="another program that takes the same scripts")
    parser.add_argument("--core", default="2", help="the processor to run on")
    parser.add_argument("--turns", type=int, default=2, help="how often each size is run")
    parser.add_argument("case", nargs="*", help="names of growth_cases.py")
    words = parser.parse_intermixed_args()
    unknown = [name for name in words.case if name not in CASES]
    if unknown:
        sys.exit(f"growth.py: no case {unknown[0]}; cases: {' '.join(CASES)}")
    programs = [str(pathlib.Path(path).resolve()) for path in (words.program, words.beside) if path]
    wrong = []
    for name in words.case or CASES:
        wrong += show(CASES[name], programs, times_of(CASES[name], programs, words.core, words.turns))
    for line in wrong:
        print(line, file=sys.stderr)
    return 1 if wrong else 0


if __name__ == "__main__":
    sys.exit(main())
