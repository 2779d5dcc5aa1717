#!/usr/bin/env python3
"""Times images of the built program beside another program that takes the same words.

`objects` is a heap of 200,000 objects of three slots, which name each other at random, in 20 tables of 10,000
references. `bytes` has arrays of 64 MiB in which the last byte is written, up to nearly 1 GiB, and `refs` arrays of
references as large, all null.

Of each heap `image` runs a script and writes an image, and `inspect` and `migrate` read it. `run` is the same script
with no image, so what `image` takes more is what making and writing the image takes. Shown are the least processor
seconds of each command, interleaved, with the ratio to the other program, and where GNU time is on the machine the
greatest memory as a multiple of the image. What both programs write must agree. Then the first program opens the image
and answers one question, with the ratio to its own `migrate`.

Usage: images.py PROGRAM [OTHER]
"""
import filecmp
import os
import pathlib
import shutil
import subprocess
import sys
import tempfile

from programs import command_line

OBJECTS, ROW = 200_000, 10_000
BUDGETS = ["--b0", "1073741824", "--bl", "1073741824"]
LARGE = ["--limit", "1073741824", "--segment", "67108864"]
# An array that fills a segment of 64 MiB, less its first 4,096 bytes.
FULL = 67_108_864 - 4_096 - 24


def draw(seed):
    """A fixed row of numbers: each call gives one below its argument."""
    state = [seed]

    def below(count):
        state[0] = (state[0] * 6364136223846793005 + 1442695040888963407) % (1 << 64)
        return (state[0] >> 33) % count

    return below


def objects():
    below, tables = draw(9), OBJECTS // ROW
    yield from ("type Table refs", "type Node class rrn", f"t1 new l3 Table {tables}")
    for table in range(tables):
        yield from (f"t1 new l0 Table {ROW}", f"t1 set l3 {table} l0")
        for i in range(ROW):
            yield from ("t1 new l1 Node", f"t1 set l0 {i} l1", f"t1 put l1 2 {i}")
            for slot in (0, 1):
                yield from (f"t1 get l4 l3 {below(table + 1)}", f"t1 get l5 l4 {below(ROW)}", f"t1 set l1 {slot} l5")


def arrays(shape, count):
    yield f"type A {shape}"
    length = FULL if shape == "bytes" else FULL // 8
    for local in range(count):
        yield f"t1 new l{local} A {length}"
        if shape == "bytes":
            yield f"t1 put l{local} {length - 1} 1"


def seconds(program, words, path, out=os.devnull):
    """Processor seconds of one run."""
    with open(path, "rb") as given, open(out, "wb") as taken:
        process = subprocess.Popen([program, *words], stdin=given, stdout=taken)
        _, status, used = os.wait4(process.pid, 0)
    if status:
        sys.exit(f"{program} {words[0]}: status {status}")
    return used.ru_utime + used.ru_stime


def memory(program, words, path, folder):
    """The greatest resident memory of one run, in bytes. A child's own count would begin with that of this process."""
    log = folder / "time"
    seconds("time", ["-f", "%M", "-o", str(log), program, *words], path)
    return 1024 * int(log.read_text().split()[-1])


def agree(programs, words, path, folder):
    """The file with what a command writes, which has to be the same for all programs."""
    files = [folder / f"{words[0]}-{number}" for number in range(len(programs))]
    for program, file in zip(programs, files):
        seconds(program, words, path, file)
        if not filecmp.cmp(files[0], file, shallow=False):
            sys.exit(f"{words[0]}: the programs write other bytes")
    for file in files[1:]:
        file.unlink()
    return files[0]


def columns(spent):
    """Milliseconds of each program, and the ratio of the first to the other."""
    text = "".join(f"{1000 * one:9.1f} ms" for one in spent)
    return text + (f", {spent[0] / spent[1]:.2f} times the other" if len(spent) > 1 else "")


def least(programs, words, given, turns):
    """The least seconds of each program, interleaved."""
    times = [[seconds(program, words, given) for program in programs] for _ in range(turns)]
    return [min(column) for column in zip(*times)]


def opened(program, image, turns, folder, migrated):
    """What it takes to open an image and to answer a line."""
    question = folder / "question"
    question.write_text("gcwhere 0000000010001000\n")
    words = ["open", str(image)]
    spent = least([program], words, question, turns)[0]
    text = f"    open    {columns([spent])}, {spent / migrated:.2f} times migrate"
    if shutil.which("time"):
        text += f", memory {memory(program, words, question, folder) / image.stat().st_size:.2f} images"
    print(text, flush=True)


def timed(name, script, options, programs, turns, folder):
    path = folder / "script"
    path.write_text("".join(line + "\n" for line in script))
    image = agree(programs, ["image", *options], path, folder)
    length = image.stat().st_size
    print(f"{name}, an image of {length:,} bytes")
    told = {}
    for command in ("run", "image", "inspect", "migrate"):
        words, given = ([command, *options], path) if command in ("run", "image") else ([command], image)
        if command != "image":
            agree(programs, words, given, folder)
        told[command] = least(programs, words, given, turns)
        text = f"    {command:8}{columns(told[command])}"
        if shutil.which("time"):
            taken = [memory(program, words, given, folder) / length for program in programs]
            text += ", memory" + "".join(f" {images:.2f}" for images in taken) + " images"
        print(text, flush=True)
    opened(programs[0], image, turns, folder, told["migrate"][0])
    more = [whole - run for whole, run in zip(told["image"], told["run"])]
    print(f"    image, less the run{columns(more)}", flush=True)


def main():
    programs = [str(pathlib.Path(program).resolve()) for program in command_line(__doc__, 2)]
    with tempfile.TemporaryDirectory() as name:
        folder = pathlib.Path(name)
        timed("objects", objects(), BUDGETS, programs, 9, folder)
        for shape, count in (("bytes", 3), ("bytes", 7), ("bytes", 15), ("refs", 7)):
            timed(f"{count} arrays of {shape}", arrays(shape, count), BUDGETS + LARGE, programs, 5, folder)


main()
