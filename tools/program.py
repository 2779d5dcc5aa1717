"""Which program the tools run, and the words that say so.

It is the one that `--program` names, else the variable CLRHEAP, else `unproved` at the top of the repository, as
`python3 bench/unproved.py unproved` builds it, else the proved one.
"""
import os
import shutil
from pathlib import Path

from endings import Fault, end, tell

TOP = Path(__file__).resolve().parent.parent
UNPROVED, PROVED = TOP / "unproved", TOP / "crates/clrheap/out/clrheap"
HELP = "the built program; else $CLRHEAP, ./unproved or crates/clrheap/out/clrheap"


def add_option(parser):
    """Lets a tool's command line name the program."""
    parser.add_argument("--program", metavar="PROGRAM", help=HELP)


def find_program(tool, named=None):
    """The path of the program. Where no word of the command line names it, which one it is stands on standard error."""
    if named:
        return runnable(named)
    if os.environ.get("CLRHEAP"):
        return told(tool, runnable(os.environ["CLRHEAP"]), "as CLRHEAP says")
    if UNPROVED.is_file():
        return told(tool, str(UNPROVED), "built without its proofs")
    if PROVED.is_file():
        return told(tool, str(PROVED), "proved")
    raise Fault("there is no program: `python3 bench/unproved.py unproved` builds one, and --program names another")


def runnable(named):
    """A path for a name: one without a `/` is looked for in the folders of PATH, and then here."""
    if "/" in named or shutil.which(named) or not Path(named).is_file():
        return named
    return f"./{named}"


def told(tool, path, how):
    tell(tool, f"the program is {shown(path)}, {how}")
    return path


def shown(path):
    """A path as a shell takes it, from this folder on where it is below that."""
    path = Path(path)
    if path.is_absolute() and path.is_relative_to(Path.cwd()):
        path = path.relative_to(Path.cwd())
    text = str(path)
    return text if "/" in text else f"./{text}"


def main():
    """Prints the path, for scripts of a shell."""
    print(find_program("program"))
    return 0


if __name__ == "__main__":
    end("program", main)
