#!/usr/bin/env python3
"""Times young sweeps of the built program, over a small and a large heap of old objects.

Each heap has tables of 10,000 references to old objects. Then, 10,000 times over, one object is made, 100 slots of the
tables come to name it, and generation 0 is swept, each tenth time generation 1.

`near` stores into 100 slots in a row of one table, `far` into 100 slots at random. In `far` most cards of the tables
name objects of generation 1 at most times, so each sweep scans most of them; in `near` it scans few.

Each script is run with and without its collections; the difference is the time for them. With
a second program, which takes the same scripts, the ratio of the whole scripts is shown, interleaved.

Usage: young.py PROGRAM [OTHER [OPTION..]]
"""
import os
import pathlib
import random
import subprocess
import sys
import tempfile

from programs import command_line

ROUNDS, STORES, ROW, TURNS = 10_000, 100, 10_000, 5


def old_heap(objects):
    script = ["type Table refs", "type Node class rrn"]
    for table in range(objects // ROW):
        script.append(f"t1 new l{10 + table} Table {ROW}")
        for i in range(ROW):
            script += ["t1 new l1 Node", f"t1 set l{10 + table} {i} l1"]
    return script + ["t1 null l1", "t1 collect 1 sweeping", "t1 collect 1 sweeping"]


def places(draw, tables, near):
    if not near:
        return [(draw.randrange(tables), draw.randrange(ROW)) for _ in range(STORES)]
    table, first = draw.randrange(tables), draw.randrange(ROW - STORES)
    return [(table, first + i) for i in range(STORES)]


def rounds(objects, near, sweeps):
    draw, script = random.Random(7), []
    for turn in range(ROUNDS):
        script.append("t1 new l1 Node")
        script += [f"t1 set l{10 + table} {i} l1" for table, i in places(draw, objects // ROW, near)]
        if sweeps:
            script.append(f"t1 collect {1 if turn % 10 == 9 else 0} sweeping")
    return script


def seconds(words, path):
    """Processor seconds of one run."""
    with open(path) as lines:
        process = subprocess.Popen(words, stdin=lines, stdout=subprocess.DEVNULL)
        _, status, used = os.wait4(process.pid, 0)
    if status:
        sys.exit(f"{words[0]}: status {status}")
    return used.ru_utime + used.ru_stime


def least(programs, path):
    """The least seconds of each program, interleaved."""
    times = [[seconds(words, path) for words in programs] for _ in range(TURNS)]
    return [min(column) for column in zip(*times)]


def main():
    words = command_line(__doc__)
    programs = [[str(pathlib.Path(words[0]).resolve()), "run"]]
    if len(words) > 1:
        programs.append([str(pathlib.Path(words[1]).resolve()), "run", *words[2:]])
    with tempfile.TemporaryDirectory() as folder:
        path = pathlib.Path(folder) / "script"
        for name, near in (("near", True), ("far", False)):
            for objects in (20_000, 200_000):
                spent = {}
                for part, lines in (
                    ("stores", rounds(objects, near, sweeps=False)),
                    ("whole", rounds(objects, near, sweeps=True)),
                ):
                    path.write_text("\n".join(old_heap(objects) + lines) + "\n")
                    spent[part] = least(programs, path)
                each = [(whole - stores) / ROUNDS * 1e6 for whole, stores in zip(spent["whole"], spent["stores"])]
                text = ", ".join(f"{micros:.1f} us a sweep" for micros in each)
                ratio = ""
                if len(programs) > 1:
                    ratio = f", whole script {spent['whole'][0] / spent['whole'][1]:.2f} times the other"
                print(f"{name}, {objects} old objects: {text}{ratio}")


main()
