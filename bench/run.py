#!/usr/bin/env python3
"""Times words, slides and clears of clr_mem, and births and walks of the crates above it, beside
the same work in plain Rust.

Copies the crates under test and the benchmark's into one repository of their own in the system's
temporary folder (kept, so that a second run proves little; the first takes some minutes), proves
and builds them there (LLVM, by `rt run`), builds plain.rs by `rustc -O`, runs the programs in turn
and prints for each kind of work the least time of either side and their ratio. Both sides must
print the same checksums.

Usage: run.py [CORE]     (the processor to run on, 2 if left out)
"""
import pathlib
import shutil
import subprocess
import sys
import tempfile

if sys.argv[1:] in (["-h"], ["--help"]):
    sys.exit(print(__doc__.strip()))
HERE = pathlib.Path(__file__).resolve().parent
WORK = pathlib.Path(tempfile.gettempdir()) / "clr_mem_bench"
CORE = sys.argv[1] if len(sys.argv) > 1 else "2"
TURNS = 3
# The benchmark's own crates, as lines of crates.txt.
OWN = """\
clr_speed: clr_mem anyhow
clr_walk_speed: clr_types clr_model clr_heap clr_view clr_ctx anyhow
"""
PROGRAMS = ["clr_speed", "clr_walk_speed"]
# How many words or objects each time is for, and what one of them is.
STEPS = {
    "near": (131072 // 8 * 6104, "word"),
    "scattered": (16384 * 6104, "word"),
    "far": (67108864 // 8 * 12, "word"),
    "make": (1000000, "object"),
    "walk": (1000000 * 20, "object"),
}
WANTED = {"near": 1.2, "scattered": 1.2, "far": 1.2, "slide": 1.1, "zero": 1.1, "walk": 2.0}


def run(command, folder):
    ran = subprocess.run(["taskset", "-c", CORE] + command, cwd=folder, text=True, capture_output=True)
    if ran.returncode:
        sys.exit(ran.stdout[-2000:] + ran.stderr[-2000:])
    return ran.stdout


def times(output):
    """The least time and the checksums for each kind of work in a program's output."""
    least, sums = {}, {}
    for line in output.splitlines():
        name, spent, checksum = line.split()
        least[name] = min(least.get(name, int(spent)), int(spent))
        sums.setdefault(name, set()).add(checksum)
    return least, sums


def crates():
    """The crates under test with all that they use, as crates.txt has them, and in the end the benchmark's own."""
    rows = dict(line.split(":") for line in (HERE.parent / "crates.txt").read_text().splitlines())
    wanted, found = [name for line in OWN.splitlines() for name in line.split(":")[1].split()], set()
    while wanted:
        name = wanted.pop()
        if name in rows and name not in found:
            found.add(name)
            wanted += rows[name].split()
    return "".join(f"{name}:{uses}\n" for name, uses in rows.items() if name in found) + OWN


def copy_crates():
    """Brings the sources in WORK up to date, and leaves what earlier checks kept there.

    The benchmark's own files end in .txt here, so that no check of the repository above reads them.
    """
    for line in crates().splitlines():
        name = line.split(":")[0]
        crate = HERE / name if name in PROGRAMS else HERE.parent / "crates" / name
        for part in ["src", "specs", "proofs"]:
            target = WORK / "crates" / name / part
            shutil.rmtree(target, ignore_errors=True)
            shutil.copytree(crate / part, target)
            for file in target.rglob("*.txt"):
                file.rename(file.with_suffix(""))
    (WORK / "crates.txt").write_text(crates())


def build():
    """Builds all, and gives the proved programs and the plain one."""
    copy_crates()
    proved = []
    for name in PROGRAMS:
        folder = WORK / "crates" / name
        run(["rt", "run"], folder)
        proved.append(str(folder / "out" / name))
    run(["rustc", "-O", "-o", str(WORK / "plain"), str(HERE / "plain.rs")], HERE)
    return proved, str(WORK / "plain")


def main():
    proved, plain = build()
    outputs = {"proved": "", "plain": ""}
    for _ in range(TURNS):
        for program in proved:
            outputs["proved"] += run([program], WORK)
        outputs["plain"] += run([plain], WORK)
    ours, our_sums = times(outputs["proved"])
    theirs, their_sums = times(outputs["plain"])
    if our_sums != their_sums:
        sys.exit(f"the checksums differ: {our_sums} and {their_sums}")
    print(f"{'work':10} {'proved ns':>12} {'plain ns':>12} {'ratio':>6}  wanted   each")
    slow = False
    for name, spent in ours.items():
        ratio = spent / theirs[name]
        wanted = WANTED.get(name)
        slow = slow or (wanted is not None and ratio > wanted)
        each = ""
        if name in STEPS:
            count, thing = STEPS[name]
            each = f"{spent / count:.2f} ns/{thing}, plain {theirs[name] / count:.2f}"
        print(f"{name:10} {spent:12} {theirs[name]:12} {ratio:6.2f}  {wanted or '':6}   {each}")
    sys.exit(1 if slow else 0)


if __name__ == "__main__":
    main()
