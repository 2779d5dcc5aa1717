#!/usr/bin/env python3
"""Keeps the LLVM text of the proved program, so that other marks on inlining are tried on just that.

    proved_text.py FILE [CHECKOUT]     of a checkout in which `rt ci` has passed, this one if none is named: 3 minutes
    unproved.py OUT --from FILE [NAME=MARK..]

The gate leaves the library of each crate behind. This has the kit check and build the program over them, and keeps the
module that it hands to clang. What `unproved.py` makes of the text with no mark changed is the proved program but for
where its functions stand, and with marks changed no proof is any worse for it, since no proof speaks of marks; but only
the gate builds what is proved.
"""
import argparse
import pathlib
import subprocess
import sys
import tempfile

# In the place of the kit's clang: it keeps the module that it is given, and compiles it.
CLANG = """#!/bin/sh
[ -f module.bc ] && cp module.bc "{kept}"
exec "{clang}" "$@"
"""


def toolchain(home, folder, kept):
    """The kit's toolchain, with another clang."""
    tools = folder / "tools"
    (tools / "bin").mkdir(parents=True)
    for tool in (home / "toolchain/bin").iterdir():
        if tool.name != "clang":
            (tools / "bin" / tool.name).symlink_to(tool)
    (tools / "lib").symlink_to(home / "toolchain/lib")
    clang = tools / "bin/clang"
    clang.write_text(CLANG.format(kept=kept, clang=home / "toolchain/bin/clang"))
    clang.chmod(0o755)
    return tools


def words(home, checkout, tools, made):
    """The kit's words to build the program over the libraries that the gate left."""
    rows = [line.split("#")[0].split(":")[0].split() for line in (checkout / "crates.txt").read_text().splitlines()]
    names = [row[0] for row in rows if row and row[0] != "clrheap"]
    built = ["--extern", f"std={home}/rlibs/std.rlib", "-L", f"dependency={home}/rlibs"]
    built += ["--extern", f"clr_run={checkout}/crates/clr_run/out/rlib/clr_run.rlib"]
    for name in names:
        built += ["-L", f"dependency={checkout}/crates/{name}/out/rlib"]
    logic = ["--antt-project", f"{home}/rattle/logic/antt-project.json", "--logic-built", f"{home}/logic_built"]
    build = [f"{home}/bin/rattle", "build", "--crate-name", "clrheap", "src/main.rt"]
    return build + [*built, *logic, "--toolchain", tools, "--backend", "llvm", "-o", made]


def main():
    parser = argparse.ArgumentParser(description=__doc__, formatter_class=argparse.RawDescriptionHelpFormatter)
    parser.add_argument("file", type=pathlib.Path)
    parser.add_argument("checkout", nargs="?", type=pathlib.Path, default=pathlib.Path(__file__).parent.parent)
    asked = parser.parse_args()
    checkout = asked.checkout.resolve()
    home = pathlib.Path(subprocess.check_output(["rt", "doc"], text=True).strip()).parent
    with tempfile.TemporaryDirectory() as name:
        folder = pathlib.Path(name)
        kept = folder / "kept.bc"
        built = words(home, checkout, toolchain(home, folder, kept), folder / "made.o")
        ran = subprocess.run(built, cwd=checkout / "crates/clrheap", capture_output=True, text=True)
        if ran.returncode or not kept.exists():
            sys.exit(ran.stdout + ran.stderr)
        told = [home / "toolchain/bin/clang", "--no-default-config", "-x", "ir", kept, "-S", "-emit-llvm", "-O0"]
        subprocess.run([*told, "-o", asked.file], check=True, stderr=subprocess.DEVNULL)


main()
