#!/usr/bin/env python3
"""Times compacting collections of the built program beside another program that takes the same scripts.

Two heaps. `compact` is 200,000 objects in 20 tables of 10,000 references; before each of 8 full compactions every 24th
slot of the tables is emptied. `pins` has OBJECTS objects, of which every fourth is pinned by a handle and every fourth
named by a table; six compactions, two of each generation, and after each so many births into the gaps. `pins` is run
for a quarter, a half and all of the objects, since its time is to grow no faster than they do.

Each script is run with and without its collections, the programs in turn; the difference of the least times, divided by
the objects that the collections answer, is the time for an object. For `pins` the births into the gaps are a part of
the difference. With `perf` on the machine that of this program is split into phases.

Usage: compacting.py PROGRAM [OTHER [OPTION..]]
"""
import os
import pathlib
import re
import shutil
import subprocess
import sys
import tempfile

from programs import command_line

ROW, TURNS = 10_000, 7
OBJECTS = 240_000
COLLECTED = re.compile(rb"collected \d \w+ kept (\d+) freed (\d+)")

# What a function belongs to, by its name in the report of `perf`.
PHASES = [
    ("clr_mark", "mark"), ("clr_scan", "mark"),
    ("clr_plan", "plan"), ("clr_plugs::writer", "plan"), ("clr_plugs::builder", "plan"), ("clr_sweep", "plan"),
    ("clr_survivors::pins", "plan"), ("clr_reloc", "relocate"), ("clr_moves::going", "relocate"),
    ("clr_plugs::search", "relocate"), ("clr_survivors::roots", "relocate"),
    ("clr_compact", "move"), ("clr_moves", "move"), ("clr_plugs", "move"),
    ("clr_survivors", "other"), ("clr_collect", "other"),
]


def draw(seed):
    """A fixed row of numbers: each call gives one below its argument."""
    state = [seed]

    def below(count):
        state[0] = (state[0] * 6364136223846793005 + 1442695040888963407) % (1 << 64)
        return (state[0] >> 33) % count

    return below


def compact(objects):
    below, tables = draw(3), objects // ROW
    script = ["type Table refs", "type Node class rrn", "type byte[] bytes", f"t1 new l3 Table {tables}"]
    for table in range(tables):
        script += [f"t1 new l0 Table {ROW}", f"t1 set l3 {table} l0"]
        for i in range(ROW):
            script.append(f"t1 new l1 byte[] {below(100)}" if i % 5 == 4 else "t1 new l1 Node")
            script.append(f"t1 set l0 {i} l1")
            if i % 3 == 0 and i % 5 != 4:
                script.append("t1 set l1 0 l1")
    script.append("t1 null l1")
    for turn in range(8):
        for table in range(tables):
            script.append(f"t1 get l0 l3 {table}")
            script += [f"t1 set l0 {i} l9" for i in range(turn, ROW, 24)]
        script.append("t1 collect 2 compacting")
    return script


def pins(objects):
    script = ["type Node class rrn", "type Table refs", f"t1 new l0 Table {ROW}"]
    for i in range(objects):
        script.append("t1 new l1 Node")
        if i % 4 == 0:
            script.append("t1 handle pinned l1")
        elif i % 4 == 1:
            script.append(f"t1 set l0 {i % ROW} l1")
    script.append("t1 null l1")
    for generation in (0, 0, 1, 1, 2, 2):
        script.append(f"t1 collect {generation} compacting")
        for i in range(objects // 8):
            script.append("t1 new l1 Node")
            if i % 8 == 0:
                script.append(f"t1 set l0 {i * 7 % ROW} l1")
        script.append("t1 null l1")
    return script + ["t1 collect 2 compacting"]


def seconds(words, path, out=subprocess.DEVNULL):
    """Processor seconds of one run."""
    with open(path) as lines:
        process = subprocess.Popen(words, stdin=lines, stdout=out)
        _, status, used = os.wait4(process.pid, 0)
    if status:
        sys.exit(f"{words[0]}: status {status}")
    return used.ru_utime + used.ru_stime


def least(programs, path):
    """The least seconds of each program, interleaved."""
    times = [[seconds(words, path) for words in programs] for _ in range(TURNS)]
    return [min(column) for column in zip(*times)]


def replies(words, path):
    with open(path) as lines:
        return subprocess.run(words, stdin=lines, capture_output=True, check=True).stdout


def phases(words, path, folder):
    """The shares of the phases, by `perf`, in hundredths of the whole script."""
    data = folder / "perf.data"
    with open(path) as lines:
        record = ["perf", "record", "-q", "-o", str(data), *words]
        subprocess.run(record, stdin=lines, stdout=subprocess.DEVNULL, stderr=subprocess.DEVNULL)
    told = ["perf", "report", "-q", "-i", str(data), "--stdio", "--percent-limit", "0.1", "-F", "overhead,symbol"]
    report = subprocess.run(told, capture_output=True, text=True)
    shares = {}
    for line in report.stdout.splitlines():
        row = re.match(r"\s*([\d.]+)%\s+\[.\]\s+(.*)", line)
        part = row and next((part for start, part in PHASES if row[2].strip().startswith(start)), None)
        if part:
            shares[part] = shares.get(part, 0) + float(row[1])
    return shares


def timed(name, script, programs, folder):
    whole, plain = folder / f"{name}.script", folder / f"{name}.base"
    whole.write_text("\n".join(script) + "\n")
    plain.write_text("\n".join(line for line in script if " collect " not in line) + "\n")
    answers = [replies(words, whole) for words in programs]
    if any(answer != answers[0] for answer in answers):
        sys.exit(f"{name}: the replies differ")
    objects = sum(int(kept) + int(freed) for kept, freed in COLLECTED.findall(answers[0]))
    spent, bare = least(programs, whole), least(programs, plain)
    each = [(a - b) / objects * 1e9 for a, b in zip(spent, bare)]
    text = ", ".join(f"{nanos:.1f} ns an object" for nanos in each)
    ratio = ""
    if len(programs) > 1:
        ratio = f", {each[0] / each[1]:.2f} times the other; whole scripts {spent[0] / spent[1]:.2f} times"
    print(f"{name}: {objects} objects, {text}{ratio}", flush=True)
    if shutil.which("perf"):
        for part, share in sorted(phases(programs[0], whole, folder).items()):
            print(f"    {part}: {share / 100 * spent[0] / objects * 1e9:.1f} ns an object")


def main():
    words = command_line(__doc__)
    programs = [[str(pathlib.Path(words[0]).resolve()), "run"]]
    if len(words) > 1:
        programs.append([str(pathlib.Path(words[1]).resolve()), "run", *words[2:]])
    with tempfile.TemporaryDirectory() as name:
        folder = pathlib.Path(name)
        timed("compact", compact(200_000), programs, folder)
        for share in (4, 2, 1):
            timed(f"pins, {OBJECTS // share // 4} of them", pins(OBJECTS // share), programs, folder)


main()
