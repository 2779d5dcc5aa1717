"""For the tests of the tools: loads a tool as a module, writes small images, and runs a program."""
import os
import struct
import subprocess
import sys
from pathlib import Path

TOOLS = Path(__file__).resolve().parent
sys.path.insert(0, str(TOOLS))

from image_tools import load_tool  # noqa: E402, F401

FREE_WORD = 0x7FF0_0000_0000
BASE, LARGE, PINNED = 0x1000_0000, 0x1100_0000, 0x1200_0000
FIRST = BASE + 0x1000


def run_tool(name, *words):
    """Runs a tool as a user does."""
    command = [sys.executable, "-B", str(TOOLS / name), *map(str, words)]
    return subprocess.run(command, capture_output=True, text=True, check=False)


def program_with_images(line="verifyheap"):
    """The program that CLRHEAP names, where it knows images and such a line, or nothing."""
    program = os.environ.get("CLRHEAP")
    if program and subprocess.run([program, "image"], input=b"", capture_output=True, check=False).returncode == 0:
        return program if replies(program, [line], "run") != ["refused syntax"] else None
    return None


def replies(program, script, *words):
    """The lines, or with `image` the bytes, that a program writes."""
    text = "".join(line + "\n" for line in script).encode()
    written = subprocess.run([program, *words], input=text, capture_output=True, check=True).stdout
    return written if words[0] == "image" else written.decode().splitlines()


def numbers(*values):
    return struct.pack(f"<{len(values)}Q", *values)


def segment(base, kind, words, start1=0, start0=0):
    """The fields of a segment of 16 MiB, and its words."""
    return numbers(base, 1 << 24, kind, base + 0x1000 + 8 * len(words), start1, start0, *words)


def image(types, words, local_places=(), handles=(), ready=(), version=2, pinned=()):
    """The bytes of an image. A type is a name, the number of a shape, 1 for a finaliser and a pattern. The words are
    those of the ephemeral segment. The large segment is empty. Behind it stand pinned ones, each of such words."""
    data = b"CLRHEAP%d" % version + numbers(1 << 28, *([85_000, 0] if version == 2 else []))
    data += numbers(len(types))
    for name, shape, finaliser, pattern in types:
        data += numbers(len(name)) + name.encode() + numbers(shape, finaliser, len(pattern)) + pattern.encode()
    data += numbers(2 + len(pinned)) + segment(BASE, 1, words, FIRST, FIRST) + segment(LARGE, 2, [])
    for number, held in enumerate(pinned):
        data += segment(PINNED + (number << 24), 3, held)
    data += numbers(*local_places, *[0] * (1024 - len(local_places)))
    if version == 2:
        data += numbers(0, *[0] * 80, len(handles))
        for handle in handles:
            data += numbers(*handle)
        data += numbers(0, len(ready), *ready)
    return data


def table_word(number):
    return FREE_WORD + 64 * number
