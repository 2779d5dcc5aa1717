"""How long a built program takes over a script, and in which functions."""
import re
import shutil
import subprocess
import sys
import time


def command_line(page, most=None):
    """The words of the command line: one program at least, and so many words at most. Where the page is asked for it is
    printed, and where a word is wrong one line says so, with status 2; where a program isn't there, with status 1."""
    words = sys.argv[1:]
    if words in (["-h"], ["--help"]):
        sys.exit(print(page.strip()))
    if not words or most and len(words) > most:
        usage = next(line for line in page.splitlines() if line.startswith("Usage: "))
        stop(2, f"{usage.lower().split('.py')[0]}.py {usage.partition('.py ')[2]}; --help tells more")
    if not shutil.which(words[0]):
        stop(1, f"{words[0]}: there is no such program; one in this folder is named as ./{words[0]}")
    return words


def stop(status, line):
    print(line, file=sys.stderr)
    sys.exit(status)


class Program:
    """A built `clrheap` that runs on one processor, with options of `run`."""

    def __init__(self, path, core, options=()):
        self.words = ["taskset", "-c", core, path, "run", *options]

    def least_time(self, script, turns):
        """The least seconds of so many runs. Replies are thrown away."""
        least = None
        for _ in range(turns):
            with open(script) as lines:
                begun = time.perf_counter()
                subprocess.run(self.words, stdin=lines, stdout=subprocess.DEVNULL, check=True)
                spent = time.perf_counter() - begun
            least = spent if least is None else min(least, spent)
        return least

    def replies(self, script):
        """All replies, as lines of text."""
        with open(script) as lines:
            ran = subprocess.run(self.words, stdin=lines, capture_output=True, text=True, check=True)
        return ran.stdout.splitlines()

    def shares(self, script, folder):
        """The functions that take most of the time, by `perf`: pairs of a percentage and a name."""
        data = folder / "perf.data"
        with open(script) as lines:
            subprocess.run(
                ["perf", "record", "-q", "-o", str(data), *self.words],
                stdin=lines, stdout=subprocess.DEVNULL, stderr=subprocess.DEVNULL,
            )
        report = subprocess.run(
            ["perf", "report", "-q", "-i", str(data), "--stdio", "--percent-limit", "0.5", "-F", "overhead,symbol"],
            capture_output=True, text=True,
        )
        rows = [re.match(r"\s*([\d.]+)%\s+\[.\]\s+(.*)", line) for line in report.stdout.splitlines()]
        return [(float(row[1]), row[2].strip()) for row in rows if row]
