"""The lines of a script that makes the objects of a shot and lets them name each other.

All objects stand in one array, the index, while they are made. Then a strong handle holds each table of what roots
name, the program's own handles are made, and nothing else is held any more. Lines come in pieces, each of whole lines.
"""
from heap_script import FIRST, INDEX, end_lines, made, numbered, set_slots, taken, type_lines


def script(layout):
    """All pieces."""
    yield from type_lines(layout.types)
    yield from make_objects(layout)
    yield from set_references(layout)
    yield from hold_roots(layout)
    yield from end_lines()


def make_objects(layout):
    shot, lines = layout.shot, {}
    yield f"t1 new l{INDEX} {layout.index_type} {len(shot.addresses)}\n"
    for number, key in enumerate(zip(layout.sort_of, shot.sizes)):
        line = lines.get(key)
        if line is None:
            sort, size = layout.sorts[key[0]], key[1]
            line = made(sort.type, sort.length_of(size) if sort.length_of else None)
            line = lines[key] = f"{line}\n{numbered(sort.number)}"
        yield f"{line}t1 set l{INDEX} {number} l{FIRST}\n"


def set_references(layout):
    shot, named = layout.shot, layout.shot.index.__getitem__
    slots = [sort.slot_of for sort in layout.sorts]
    first, offsets, targets = shot.first, shot.offsets, shot.targets
    for number, sort in enumerate(layout.sort_of):
        low, high = first[number], first[number + 1]
        if low < high:
            yield taken(number) + set_slots(zip(map(slots[sort], offsets[low:high]), map(named, targets[low:high])))


def hold_roots(layout):
    for of, number, length, slots in layout.tables:
        yield f"{made(of, length)}\n{numbered(number)}{set_slots(slots.items())}t1 handle strong l{FIRST}\n"
    for kind, number in layout.roots.handles:
        yield f"{taken(number)}t1 handle {kind} l{FIRST}\n"
