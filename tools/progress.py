"""Tells people that a tool is still at work: where a step takes long, and standard error is a terminal."""
import sys
import threading
import time
from contextlib import contextmanager

from endings import tell

SECONDS = 2


@contextmanager
def step(tool, what, always=False, writes=False):
    """Tells what is being done as soon as it has taken two seconds, and then how long it takes already. A step that
    is `always` told is told at once, whether or not this is a terminal, and at its end. One that `writes` its output to
    the same terminal is not told."""
    done, begun = threading.Event(), time.monotonic()
    is_terminal = sys.stderr.isatty() and not (writes and sys.stdout.isatty())

    def beat():
        wait = SECONDS
        while not done.wait(wait):
            tell(tool, f"{'  ' if always else what + ' '}.. {time.monotonic() - begun:.0f} s")
            wait = min(2 * wait, 10)

    if always:
        tell(tool, what)
    if is_terminal:
        threading.Thread(target=beat, daemon=True).start()
    try:
        yield
    finally:
        done.set()
    if always:
        tell(tool, f"  {time.monotonic() - begun:.1f} s")
