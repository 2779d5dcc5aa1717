#!/usr/bin/env python3
"""Times lines beside another program that takes the same scripts: slides, sizes, commands that look, background
collections.

Each case is a script that is run with and without the lines that it times, the programs in turn; the difference of the
least times is the time of these lines.

- `slide`: 1,000 large arrays of 85,000 bytes, of which every second is dropped: a full sweep that slides the others,
  beside one that doesn't.
- `objsize`: 20 sizes of 200,000 objects, for each object.
- `looks`: commands that look, over 200,000 and over 1,000,000 objects. Below a search stands its ratio to the slower
  one of `gcroot` and `objsize`; 1.5 is wanted at most.
- `background`: a background collection of 200,000 old objects by steps of 1,000, and by its last pause alone beside its
  other parts; and a blocking sweep of them.
- `stores`: 1,000,000 stores into old objects while no background collection runs, and while one does.
- `fit`: fittings of plugs into free items of generation 2, all of one size, for several numbers of both. The budgets
  let no young collection of the births take a plug to generation 2 before.

Usage: features.py PROGRAM [OTHER]
"""
import pathlib
import tempfile

from growth import Run
from programs import Program, command_line

TURNS, OBJECTS, ROW, STORES = 7, 200_000, 10_000, 1_000_000
# How many objects commands look at, how often each is asked, the first object, and options for so many objects.
LOOKED_AT, ASKED, LOWEST = (200_000, 1_000_000), 3, "0000000010001000"
AMPLE = "--limit", "1073741824", "--segment", "67108864", "--b0", "1073741824", "--b1", "1073741824"
# Free items and plugs of the fittings.
FITS = (50_000, 5_000), (100_000, 5_000), (100_000, 10_000), (100_000, 20_000)
BUDGETS = "--b0", "134217728", "--b1", "268435456"


def arrays():
    """The script of the large arrays, every second of them dropped."""
    script = ["type Table refs", "type byte[] bytes", "t1 new l0 Table 1000"]
    for i in range(1000):
        script += ["t1 new l1 byte[] 84976", f"t1 set l0 {i} l1"]
    script.append("t1 null l1")
    script += [f"t1 set l0 {i} l1" for i in range(0, 1000, 2)]
    return script


def graph(objects=OBJECTS):
    """The script of objects in tables, each of which refers to the one before, all of generation 2."""
    tables = objects // ROW
    script = ["type Table refs", "type Node class rrn", f"t1 new l0 Table {tables}"]
    for table in range(tables):
        script += [f"t1 new l1 Table {ROW}", f"t1 set l0 {table} l1"]
        for i in range(ROW):
            script += ["t1 new l2 Node", f"t1 set l1 {i} l2", "t1 set l2 0 l3", "t1 copy l3 l2"]
    script += ["t1 null l1", "t1 null l2", "t1 null l3", "t1 collect 1 compacting", "t1 collect 1 compacting"]
    return script


def gaps(count, plugs):
    """The script of so many free items of generation 2, and of so many plugs of generation 1 of their size."""
    script = ["type Table refs", "type Node class rrn", "t1 new l0 Table 100", "t1 new l5 Table 100"]
    script += rows("l0", count, "t1 collect 1 compacting") + ["t1 collect 1 compacting"] + halved("l0", count)
    script += ["t1 collect 2 sweeping"] + rows("l5", plugs, "t1 collect 0 compacting") + halved("l5", plugs)
    return script


def rows(table, count, collect):
    """Lines that make two objects for each of `count`, in rows of the table, and collect."""
    script = []
    for row in range(2 * count // ROW):
        script += [f"t1 new l1 Table {ROW}", f"t1 set {table} {row} l1"]
        for i in range(ROW):
            script += ["t1 new l2 Node", f"t1 set l1 {i} l2"]
    return script + ["t1 null l1", "t1 null l2", collect]


def halved(table, count):
    """Lines that drop every second of these objects."""
    script = []
    for row in range(2 * count // ROW):
        script.append(f"t1 get l1 {table} {row}")
        script += [f"t1 set l1 {i} l3" for i in range(0, ROW, 2)]
    return script + ["t1 null l1"]


def timed(programs, folder, before, lines):
    """The least seconds that the lines take behind the others, of each program."""
    scripts = []
    for name, text in (("with", before + lines), ("without", before)):
        path = folder / name
        path.write_text("\n".join(text) + "\n")
        scripts.append(path)
    least = [[None, None] for _ in programs]
    for _ in range(TURNS):
        for program, times in zip(programs, least):
            for k, script in enumerate(scripts):
                spent = program.least_time(script, 1)
                times[k] = spent if times[k] is None else min(times[k], spent)
    return [long - short for long, short in least]


def show_looks(words, folder, objects):
    """Times the commands that look over a heap of so many objects: the program's own time between two replies of one
    run. Of all objects a search finds the last one last."""
    old = graph(objects)
    heap = Program(words[0], "3", AMPLE).replies(write(folder, old + ["dumpheap -short"]))[-objects:]
    first, middle, last = LOWEST, heap[objects // 2], heap[-1]
    runs = [Run(path, list(AMPLE), "3") for path in words]
    for run in runs:
        run.timer.cancel()
        run.answer("".join(line + "\n" for line in old).encode())
    nearest = [0]
    for line in (
        f"gcroot {last}", f"objsize {first}", f"pathto {first} {last}", f"retained {first}", f"retained {last}",
        f"gcroot -all {last}", "gcheapstat -inclUnrooted", "dumpheap -stat -live", "gcheapstat", "ephrefs",
        "dumpheap -stat", "dumpheap -stat -gen 1", f"listnearobj {middle}", f"dumparray -length 10 {first}",
        "gchandles -stat",
    ):
        times = [min(seconds_of(run, line) for _ in range(TURNS)) for run in runs]
        show(f"{line}, {objects:,} objects", times, "ms", ASKED)
        if line.startswith(("gcroot 0", "objsize")):
            nearest.append(times[0])
        if line.startswith(("gcroot -all", "pathto", "retained")):
            print(f"  {times[0] / max(nearest):.2f} times the slower of gcroot and objsize")
    for run in runs:
        run.end()


def seconds_of(run, line):
    """How long the program takes over a line that is asked several times."""
    before = run.seconds()
    run.answer(f"{line}\n".encode() * ASKED)
    return run.seconds() - before


def show(name, times, unit, count):
    """A row: the time of each program, and the ratio of the first to the second."""
    shown = ", ".join(f"{spent * 1e9 / count / (1e6 if unit == 'ms' else 1):.1f} {unit}" for spent in times)
    ratio = f", {times[0] / times[1]:.2f} times" if len(times) == 2 and times[1] > 0 else ""
    print(f"{name}: {shown}{ratio}")


def main():
    words = command_line(__doc__, 2)
    programs = [Program(path, "3") for path in words]
    with tempfile.TemporaryDirectory() as name:
        folder = pathlib.Path(name)
        swept = timed(programs, folder, arrays(), ["t1 collect 2 sweeping"])
        show("a full sweep of the arrays", swept, "ms", 1)
        slid = timed(programs, folder, arrays(), ["t1 compact-large once", "t1 collect 2 sweeping"])
        show("with a slide", slid, "ms", 1)
        old = graph()
        first = programs[0].replies(write(folder, old))[2] or LOWEST
        show("objsize, an object", timed(programs, folder, old, [f"objsize {first}"] * 20), "ns", 20 * OBJECTS)
        for objects in LOOKED_AT:
            show_looks(words, folder, objects)
        show("a blocking sweep", timed(programs, folder, old, ["t1 collect 2 sweeping"]), "ms", 1)
        begun = ["t1 background begin"]
        marked = begun + ["background step 1000"] * (OBJECTS // 1000 + 1)
        show("a background collection", timed(programs, folder, old, marked + ["t1 background end"]), "ms", 1)
        show("its last pause", timed(programs, folder, old + marked, ["t1 background end"]), "ms", 1)
        stores = ["t1 get l1 l0 3", "t1 get l2 l1 7"] + ["t1 set l1 9 l2"] * STORES
        show("a store", timed(programs, folder, old, stores), "ns", STORES)
        show("a store while one runs", timed(programs, folder, old + begun, stores), "ns", STORES)
        ample = [Program(path, "3", BUDGETS) for path in words]
        for items, plugs in FITS:
            fitted = timed(ample, folder, gaps(items, plugs), ["t1 collect 1 fitting"])
            show(f"a fitting of {plugs:,} plugs over {items:,} free items", fitted, "ms", 1)


def write(folder, lines):
    path = folder / "script"
    path.write_text("\n".join(lines) + "\n")
    return path


if __name__ == "__main__":
    main()
