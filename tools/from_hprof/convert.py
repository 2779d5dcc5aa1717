"""Turns a Java heap dump into a script that makes the same objects.

    from-hprof DUMP > SCRIPT      the script alone
    from-hprof DUMP SCRIPT        the script, and beside it, with these endings in place of its own,
                                  .words     the words with which `clrheap` is to run it
                                  .fields    the names of fields: a class on each line, and a name for each of its slots
                                  .names     the names of classes that share a type, and what sizes objects had in Java

Numbers are kept in fields whose names say how much there is, as `size` and `count`, and short texts of strings. Behind
the names of all other numbers there is a `?` in the `.fields` file.

A dump that no heap or no script can hold gets one line that says so and what to do, and status 1, and nothing is
written.
"""
from command_line import Parser
from endings import fault_of
from heap_script import BadDump, Room, TooLong, TooMuch, check_files, collect, merged_lines, report, write
from hprof import Dump
from layout import Layout
from limits import Limits
from progress import step
from script import MOST_LETTERS, script

ADVICE = "take the dump after less work of the program, and without `-all`: a leak shows in a smaller heap, too"


def own_lines(layout, room):
    """What a report tells of a dump."""
    lines = [f"{len(layout.dump.identities):,} objects of {len(layout.types):,} types, {room.bytes:,} bytes"]
    lines += merged_lines(layout)
    if not layout.letters:
        lines.append("no texts of strings are kept" + (", and no numbers" if not layout.values else ""))
    elif layout.letters < MOST_LETTERS[0]:
        lines.append(f"of each string the first {layout.letters} bytes are kept")
    return lines


def turn(words):
    check_files(words.script, words.dump)
    with step("from-hprof", f"reads {words.dump}"):
        dump = Dump(words.dump, Limits().look)
    with step("from-hprof", f"makes the lines of {len(dump.identities):,} objects", writes=True):
        layout, room, texts = make(dump, words.weak)
        write(words.script, texts, layout)
    report(own_lines(layout, room), room, texts, words.script)


def make(dump, weak):
    """The layout, the room that it needs, and the script. Where this is too long, it has no texts, and then no numbers,
    either."""
    for values in (Layout.TEXTS, Layout.NUMBERS):
        try:
            return make_once(dump, weak, values)
        except TooLong:
            continue
    return make_once(dump, weak, Layout.NO_VALUES)


def make_once(dump, weak, values):
    layout = Layout(dump, weak, values)
    room = Room(layout.all_sizes())
    room.check()
    return layout, room, collect(script(layout, weak), len(dump.identities))


def main():
    parser = Parser("from-hprof", __doc__)
    parser.add_argument("dump", metavar="DUMP", help="a heap dump in the HPROF format")
    parser.add_argument("script", nargs="?", metavar="SCRIPT", help="where the script goes, else standard output")
    parser.add_argument(
        "--weak", choices=("null", "handle", "reference"), default="null",
        help="what stands for a weak or phantom reference: null, a weak handle beside it, or a reference as any other",
    )
    words = parser.parse_intermixed_args()
    try:
        turn(words)
    except BadDump as fault:
        raise fault_of(words.dump, fault) from fault
    except TooMuch as fault:
        raise fault_of(words.dump, f"{fault}; {ADVICE}") from fault
    return 0
