"""How the tools end: with a status and at most one line on standard error, and never with a traceback.

The status is 0 where a tool did what was asked, 1 where it could not (a file is missing, or isn't what was said), and 2
where the words of the command line are wrong.
"""
import gc
import os
import signal
import sys

FAULT, USAGE = 1, 2
# 128 and the number of SIGPIPE.
CLOSED_PIPE = 141


class Fault(Exception):
    """One line says why there is no answer."""


class UsageFault(Exception):
    """One line says what is wrong with the words of the command line."""


def end(name, main):
    """Runs a tool's `main`, and ends with the status that it answers. Where the reader of the output goes away, as
    `head` does, it ends without a word, and so it does where Ctrl-C is pressed: with the status that a shell tells of
    the signal."""
    # What the tools allocate has few cycles, and looking for them takes a fifth of the time.
    gc.disable()
    try:
        status = main()
        sys.stdout.flush()
    except KeyboardInterrupt:
        status = 128 + signal.SIGINT
        forget_output()
    except BrokenPipeError:
        status = CLOSED_PIPE
        forget_output()
    except UsageFault as fault:
        status = USAGE
        tell(name, f"{fault}; --help tells more")
    except (Fault, OSError, MemoryError, RecursionError) as fault:
        status = FAULT
        tell(name, reason(fault))
        forget_output()
    sys.exit(status)


def tell(name, text):
    """A line on standard error."""
    print(f"{name}: {text}", file=sys.stderr, flush=True)


def forget_output():
    """What is left of the output can't be written, so Python isn't to try it at its end."""
    try:
        os.dup2(os.open(os.devnull, os.O_WRONLY), 1)
    except OSError:
        pass


def reason(fault):
    """What went wrong, in a line, with the name of the file where it was one."""
    if isinstance(fault, OSError):
        return f"{fault.filename or 'the output'}: {fault.strerror or fault}"
    if isinstance(fault, MemoryError):
        return "there is not enough memory"
    return "what was read is nested too deeply" if isinstance(fault, RecursionError) else str(fault)


def fault_of(path, fault):
    """The fault of a file, for a tool to end with."""
    why = fault.strerror or fault if isinstance(fault, OSError) else fault
    return Fault(f"{'standard input' if path == '-' else path}: {why}")


def count(text):
    """A number of lines, objects or so that a word of the command line says."""
    if not (text.isascii() and text.isdecimal()) or int(text) == 0:
        raise ValueError(text)
    return int(text)


def address(text):
    """An address that a word of the command line says, with or without `0x` and leading zeros."""
    if not text.isascii() or not text.removeprefix("0x").isalnum():
        raise ValueError(text)
    value = int(text, 16)
    if value >= 1 << 64:
        raise ValueError(text)
    return value


def percent(text):
    """A share that a word of the command line says."""
    value = float(text.removesuffix("%"))
    if not 0 < value <= 100:
        raise ValueError(text)
    return value
