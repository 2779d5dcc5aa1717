"""Turns a heap shot of a .NET program that runs on Mono into a script that makes the same objects.

    from-mono DUMP > SCRIPT            the script alone
    from-mono DUMP SCRIPT              the script, and beside it, with these endings in place of its own,
                                       .words     the words with which `clrheap` is to run it
                                       .fields    the names of slots: a class on each line, and a name for each slot
                                       .names     the names of classes that share a type, and the sizes on Mono
    from-mono --field-names DUMP       asks Mono for the names of fields: an OFFSETS file
    from-mono --classes DUMP           what FieldOffsets.exe reads, where that runs on another machine

DUMP is what Mono's log profiler writes. The second line has a shot taken of the program that the first one starts:

    mono --profile=log:heapshot=ondemand,port=9999,output=shop.mlpd Shop.exe &
    echo heapshot > /dev/tcp/127.0.0.1/9999

A shot has the offset of each reference, and neither names of fields nor numbers. Slots are called by their offsets, but
with an OFFSETS file by their names: the one that stands beside the dump, shop.offsets for shop.mlpd, or that of
--offsets. It needs Mono and the program's own files, and runs no code of the program:

    from-mono --field-names shop.mlpd > shop.offsets

A shot that no heap or no script can hold gets one line that says so and what to do, and status 1, and nothing is
written.
"""
import sys
from pathlib import Path

from command_line import Parser
from endings import fault_of
from heap_script import BadDump, Room, TooMuch, check_files, collect, merged_lines, report, write
from layout import Layout
from mlpd import Dump
from offsets import ask_mono, class_lines, read_offsets
from progress import step
from script import script

ADVICE = "take the shot after less work of the program: a leak shows in a smaller heap, too"


def own_lines(layout):
    """What a report tells of a shot."""
    shot, dump, roots = layout.shot, layout.dump, layout.roots
    of = f", the last of {dump.shots} shots" if dump.shots > 1 and dump.wanted is None else ""
    lines = [
        f"{len(shot.addresses):,} objects of {len(layout.sorts):,} classes, {shot.bytes:,} bytes on Mono, "
        f"{len(shot.targets):,} references{of}",
        f"{len(roots.statics):,} classes with static fields, {len(roots.tables):,} tables of other roots, "
        f"{len(roots.handles):,} handles",
        *merged_lines(layout),
    ]
    if layout.unnamed:
        lines.append(f"of {layout.unnamed:,} classes the OFFSETS file has not the references that the shot has")
    if roots.lost:
        lines.append(f"{roots.lost:,} roots name no object of the shot")
    return lines


def tell_names(dump, asks):
    """Writes an OFFSETS file, or what FieldOffsets reads."""
    if not asks:
        print("\n".join(class_lines(dump)))
        return
    text, told = ask_mono(dump)
    sys.stdout.write(text)
    sys.stderr.write(told)


def turn(words):
    if words.classes or words.field_names:
        tell_names(Dump(words.dump, words.shot), words.field_names)
        return
    offsets = words.offsets or beside(words.dump)
    check_files(words.script, words.dump, *([offsets] if offsets else []))
    with step("from-mono", f"reads {words.dump}"):
        dump = Dump(words.dump, words.shot)
    with step("from-mono", f"makes the lines of {len(dump.shot.addresses):,} objects", writes=True):
        layout = Layout(dump, read_offsets(offsets) if offsets else None)
        room = Room(layout.all_sizes())
        room.check()
        texts = collect(script(layout), len(dump.shot.addresses))
        write(words.script, texts, layout)
    report(own_lines(layout), room, texts, words.script)


def beside(path):
    """The OFFSETS file that stands beside a dump, or nothing."""
    offsets = Path(path).with_suffix(".offsets")
    return str(offsets) if offsets.is_file() and not offsets.samefile(path) else None


def number(text):
    if not (text.isascii() and text.isdecimal()):
        raise ValueError(text)
    return int(text)


def main():
    parser = Parser("from-mono", __doc__)
    parser.add_argument("dump", metavar="DUMP", help="what Mono's log profiler wrote")
    parser.add_argument("script", nargs="?", metavar="SCRIPT", help="where the script goes, else standard output")
    parser.add_argument("--shot", type=number, metavar="N", help="the number of a shot, from 0, else the last one")
    parser.add_argument("--offsets", metavar="FILE", help="names of fields by offset, as FieldOffsets.exe writes them")
    parser.add_argument("--field-names", action="store_true", help="ask Mono for an OFFSETS file, and write no script")
    parser.add_argument("--classes", action="store_true", help="write the input of FieldOffsets.exe, and no script")
    words = parser.parse_intermixed_args()
    try:
        turn(words)
    except BadDump as fault:
        raise fault_of(words.dump, fault) from fault
    except TooMuch as fault:
        raise fault_of(words.dump, f"{fault}; {ADVICE}") from fault
    return 0
