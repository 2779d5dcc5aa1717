#!/usr/bin/env python3
"""Times full sweeping collections of the built program: nanoseconds an object.

Two heaps. `list` is a chain of 350,000 objects with one reference each. `graph` is 200,000 objects of
three slots in tables of 10,000 references, each object with references to two others at random,
and a third of the tables dropped before the first collection.

Each script is run with FEW and with MANY collections at its end. The difference of the least times,
divided by the collections that MANY has more and by the objects that are kept, is the time for an object.
With `perf` on the machine it is split between marking and sweeping by the functions that spend it, in
a script in which nearly all the time goes into collections.

Usage: collecting.py PROGRAM [CORE]     (the built program, and the processor to run on, 2 if left out)
"""
import pathlib
import shutil
import sys
import tempfile

from programs import Program, command_line

WORDS = command_line(__doc__, 2)
PROGRAM = Program(str(pathlib.Path(WORDS[0]).resolve()), WORDS[1] if len(WORDS) > 1 else "2")
TURNS = 7
FEW, MANY = 2, 42
# Nanoseconds an object that are allowed.
WANTED = {"marking": 30, "sweeping": 12}
COLLECT = "t1 collect 2 sweeping"


def draw(seed):
    """A fixed row of numbers: each call gives one below its argument."""
    state = [seed]

    def below(count):
        state[0] = (state[0] * 6364136223846793005 + 1442695040888963407) % (1 << 64)
        return (state[0] >> 33) % count

    return below


def list_(objects=350_000):
    script = ["type N class r"]
    for _ in range(objects):
        script += ["t1 new l1 N", "t1 set l1 0 l0", "t1 copy l0 l1"]
    return script


def graph(objects=200_000, row=10_000):
    below, tables = draw(9), objects // row
    script = ["type Table refs", "type Node class rrn", f"t1 new l3 Table {tables}"]
    for table in range(tables):
        script += [f"t1 new l0 Table {row}", f"t1 set l3 {table} l0"]
        for i in range(row):
            script += ["t1 new l1 Node", f"t1 set l0 {i} l1"]
    for _ in range(objects // 50):
        for first in (10, 20):
            for j in range(10):
                script += [f"t1 get l0 l3 {below(tables)}", f"t1 get l{first + j} l0 {below(row)}"]
        for j in range(10):
            script += [f"t1 set l{10 + j} 0 l{20 + below(10)}", f"t1 set l{20 + j} 1 l{10 + below(10)}"]
    script += [f"t1 set l3 {table} l63" for table in range(0, tables, 3)]
    script += [f"t1 null l{k}" for k in range(30) if k != 3]
    return script


# The functions of a collection, by what their names begin with: what a function inlined counts with it, and the sweep's
# pass is inlined into its caller.
PHASES = {
    "clr_mark": "marking", "clr_sweep": "sweeping", "clr_collect": "sweeping",
    "clr_runtime::runtime::Runtime::collect": "sweeping",
}


def phase(function):
    """Which part of a collection a function is of, if it is of one."""
    return next((part for start, part in PHASES.items() if function.startswith(start)), None)


def timed(name, lines, folder):
    """Nanoseconds an object, by phase."""
    scripts = {}
    for count in (0, FEW, MANY):
        scripts[count] = folder / f"{name}-{count}"
        scripts[count].write_text("\n".join(lines + [COLLECT] * count) + "\n")
    words = PROGRAM.replies(scripts[FEW])[-1].split()
    if words[:3] != ["collected", "2", "sweep"]:
        sys.exit(f"{name}: the last reply is {' '.join(words)}")
    kept = int(words[4])
    spent = PROGRAM.least_time(scripts[MANY], TURNS) - PROGRAM.least_time(scripts[FEW], TURNS)
    each = spent / (MANY - FEW) / kept * 1e9
    print(f"{name}: {kept} objects, {spent / (MANY - FEW) * 1000:.2f} ms a collection, {each:.1f} ns an object")
    if not shutil.which("perf"):
        return {}
    parts = {}
    for percent, function in PROGRAM.shares(scripts[MANY], folder):
        part = phase(function)
        if part:
            parts[part] = parts.get(part, 0) + percent
            print(f"    {percent:5.1f} % {function}")
    whole = sum(parts.values())
    return {part: each * percent / whole for part, percent in parts.items()}


def main():
    slow = False
    with tempfile.TemporaryDirectory() as name:
        for label, lines in [("list", list_()), ("graph", graph())]:
            for part, spent in timed(label, lines, pathlib.Path(name)).items():
                wanted = WANTED.get(part)
                slow = slow or (wanted is not None and spent > wanted)
                print(f"  {part}: {spent:.1f} ns an object" + (f" (wanted {wanted})" if wanted else ""))
    sys.exit(1 if slow else 0)


if __name__ == "__main__":
    main()
