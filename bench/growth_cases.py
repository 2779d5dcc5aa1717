"""Scripts whose size is a number: shapes of heaps on which the cost of lines and collections is measured as it grows.

A case is a generator of lines. The lines in front of MEASURED build the heap, those behind it are timed. CASES has them
by name, each with its least size, the exponent that docs/COSTS.md promises, and the options of the program.
"""
import dataclasses
import random
import typing

MEASURED = None
WIDE = ["--limit", "1073741824", "--segment", "67108864", "--b0", "1073741824", "--b1", "1073741824",
        "--b2", "1073741824", "--bl", "1073741824"]
NARROW = ["262144" if word == "67108864" else word for word in WIDE]
LEAF = "0000000010001000"
# The first large object, and an address in the middle of the small heap, of a heap that `leaf_and_heap` builds.
TABLE, MIDDLE = "0000000014001000", "0000000010100004"


@dataclasses.dataclass(frozen=True)
class Case:
    """A shape: its lines for a size, the least size, the promised exponent, the program's options."""
    name: str
    lines: typing.Callable
    least: int
    exponent: float
    options: list

    def parts(self, size):
        """The lines that build the heap, and those that are timed, each as bytes."""
        built, timed = [], []
        into = built
        for line in self.lines(size):
            if line is MEASURED:
                into = timed
            else:
                into.append(line)
        return tuple("".join(line + "\n" for line in part).encode() for part in (built, timed))


CASES = {}


def case(least, exponent=1.0, options=WIDE):
    """Puts a generator among the cases under its own name."""
    def put(lines):
        CASES[lines.__name__] = Case(lines.__name__, lines, least, exponent, options)
        return lines
    return put


def nulls(*local_numbers):
    return [f"t1 null l{number}" for number in local_numbers]


def nodes(count, words="r"):
    """A table in local 0 of objects with the slots of these words."""
    yield from [f"type Node class {words}", "type Table refs", f"t1 new l0 Table {count}"]
    for i in range(count):
        yield from ["t1 new l1 Node", f"t1 set l0 {i} l1"]


# ---- marking

def cell_lines(count):
    """A list of cells (data, next), appended at its end, with an object of data for each."""
    yield from ["type Cell class rr", "type Box class n", "t1 new l0 Cell", "t1 copy l9 l0"]
    for _ in range(count):
        yield from ["t1 new l2 Box", "t1 new l1 Cell", "t1 set l1 0 l2", "t1 set l0 1 l1", "t1 copy l0 l1"]
    yield from nulls(0, 1, 2)


@case(50_000)
def list_of_cells(n):
    yield from cell_lines(n)
    yield MEASURED
    yield "t1 collect 2 sweeping"


@case(50_000, options=[])
def list_of_cells_built(n):
    yield MEASURED
    yield from cell_lines(n)


@case(25_000)
def list_of_low_leaves(n):
    """Cells (low, data, next): `low` is a leaf made before, so that each overflow range begins low in the heap."""
    yield from ["type Cell class rrr", "type Leaf class n", "type Table refs", f"t1 new l8 Table {n}"]
    for i in range(n):
        yield from ["t1 new l1 Leaf", f"t1 set l8 {i} l1"]
    yield "t1 new l0 Cell"
    for i in range(n):
        yield from ["t1 new l1 Cell", f"t1 get l2 l8 {i}", "t1 new l3 Leaf", "t1 set l1 0 l2", "t1 set l1 1 l3",
                    "t1 set l1 2 l0", "t1 copy l0 l1"]
    yield from nulls(1, 2, 3, 8)
    yield MEASURED
    yield "t1 collect 2 sweeping"


@case(12_500)
def list_with_high_leaves(n):
    """Cells (data, data, high, next), the newest first: `high` is a leaf behind all cells, so that each time the mark
    stack overflows, objects at both ends of the heap are left for the overflow walk."""
    yield from ["type Cell class rrrr", "type Leaf class n", "t1 new l0 Cell"]
    for _ in range(n):
        yield from ["t1 new l2 Leaf", "t1 new l3 Leaf", "t1 new l1 Cell", "t1 set l1 0 l2", "t1 set l1 1 l3",
                    "t1 set l1 3 l0", "t1 copy l0 l1"]
    yield "t1 copy l1 l0"
    for _ in range(n):
        yield from ["t1 new l2 Leaf", "t1 set l1 2 l2", "t1 get l1 l1 3"]
    yield from nulls(1, 2, 3)
    yield MEASURED
    yield "t1 collect 2 sweeping"


@case(2_500)
def spines(n):
    """Objects of 32 slots: 31 leaves, and the next such object in the last slot."""
    yield from ["type Spine class " + "r" * 32, "type Leaf class n", "t1 new l0 Leaf"]
    for _ in range(n):
        yield "t1 new l1 Spine"
        for slot in range(31):
            yield from ["t1 new l2 Leaf", f"t1 set l1 {slot} l2"]
        yield from ["t1 set l1 31 l0", "t1 copy l0 l1"]
    yield from nulls(1, 2)
    yield MEASURED
    yield "t1 collect 2 sweeping"


def random_references(n):
    draw = random.Random(3)
    yield from nodes(n, "rrn")
    for i in range(n):
        yield f"t1 get l1 l0 {i}"
        for slot in (0, 1):
            yield from [f"t1 get l2 l0 {draw.randrange(n)}", f"t1 set l1 {slot} l2"]
    yield "t1 get l9 l0 0"
    yield from nulls(0, 1, 2)


@case(50_000, 1.2)
def random_graph(n):
    yield from random_references(n)
    yield MEASURED
    yield "t1 collect 2 sweeping"


# ---- young collections

def old_table(n, kind):
    """An old table of references or of structs, each of which names an old object."""
    yield from ["type Node class r", f"type Table {kind}", f"t1 new l0 Table {n}"]
    step = 2 if kind == "structs rn" else 1
    for i in range(n):
        if i % 50 == 0:
            yield "t1 new l1 Node"
        yield f"t1 set l0 {i * step} l1"
    yield from ["t1 null l1", "t1 collect 1 compacting", "t1 collect 1 compacting"]


def young_stores(n, how, step=1):
    for i in range(200):
        yield from ["t1 new l1 Node", f"t1 set l0 {i * 7919 % n * step} l1", "t1 null l1", f"t1 collect 0 {how}"]


@case(125_000, 0.1)
def young_compactions_beside_a_table(n):
    yield from old_table(n, "refs")
    yield MEASURED
    yield from young_stores(n, "compacting")


@case(60_000, 0.1)
def young_compactions_beside_structs(n):
    yield from old_table(n, "structs rn")
    yield MEASURED
    yield from young_stores(n, "compacting", 2)


@case(125_000, 0.1)
def young_sweeps_beside_a_table(n):
    yield from old_table(n, "refs")
    yield MEASURED
    yield from young_stores(n, "sweeping")


@case(125_000, 0.4)
def young_sweeps_beside_objects(n):
    yield from nodes(n)
    yield from nulls(1) + ["t1 collect 1 sweeping"] * 2
    yield MEASURED
    for _ in range(10_000):
        yield from ["t1 new l1 Node", "t1 collect 0 sweeping"]


@case(125_000, 0.1)
def young_sweeps_beside_entries(n):
    yield from ["type Final class n final", "type Node class r", "t1 new l0 Final"]
    yield from ["t1 reregister l0"] * n + ["t1 collect 1 sweeping"] * 2
    yield MEASURED
    for _ in range(10_000):
        yield from ["t1 new l1 Node", "t1 collect 0 sweeping"]


# ---- background collections

@case(50_000, 1.2)
def background_step_over_a_random_graph(n):
    yield from random_references(n)
    yield from ["t1 collect 1 sweeping"] * 2 + ["t1 background begin"]
    yield MEASURED
    yield "background step 1000000000"


@case(25_000)
def background_step_over_a_zigzag(n):
    """A chain that goes from the low half of the objects to the high one and back, once for each pair."""
    yield from nodes(n)
    yield from ["t1 get l9 l0 0", "t1 copy l1 l9"]
    for i in range(1, n):
        place = i // 2 if i % 2 == 0 else n // 2 + i // 2
        yield from [f"t1 get l2 l0 {min(place, n - 1)}", "t1 set l1 0 l2", "t1 copy l1 l2"]
    yield from nulls(0, 1, 2) + ["t1 collect 2 sweeping"] * 2 + ["t1 background begin"]
    yield MEASURED
    yield "background step 1000000000"


@case(125_000)
def background_steps_of_one_object(n):
    yield from ["type Node class r", "t1 new l0 Node"]
    for _ in range(n):
        yield from ["t1 new l1 Node", "t1 set l1 0 l0", "t1 copy l0 l1"]
    yield from nulls(1) + ["t1 collect 2 sweeping"] * 2 + ["t1 background begin"]
    yield MEASURED
    yield from ["background step 1"] * n + ["t1 background end"]


def chained_segments(count, each):
    """Segments of 262,144 bytes with so many nodes each; a chain goes from each node to one of the segment before."""
    yield from ["type Node class r", "type Bytes bytes", "type Table refs", f"t1 new l0 Table {count * each}",
                f"t1 new l5 Table {3 * count}"]
    for segment in range(count):
        for i in range(each):
            yield from ["t1 new l1 Node", f"t1 set l0 {segment * each + i} l1"]
        for i in range(3):
            yield from ["t1 new l1 Bytes 80000", f"t1 set l5 {segment * 3 + i} l1"]
    yield from [f"t1 get l1 l0 {(count - 1) * each}", "t1 copy l9 l1"]
    chain = [segment * each + i for i in range(each) for segment in range(count - 1, -1, -1)][1:]
    for node in chain:
        yield from [f"t1 get l2 l0 {node}", "t1 set l1 0 l2", "t1 copy l1 l2"]
    yield from nulls(0, 1, 2) + ["t1 collect 2 sweeping"] * 2


@case(32, 1.2, NARROW)
def background_step_over_segments(n):
    yield from chained_segments(n, 2_000)
    yield "t1 background begin"
    yield MEASURED
    yield "background step 1000000000"


@case(125, 0.2, NARROW)
def stores_while_background_runs(n):
    yield from chained_segments(n, 30)
    yield "t1 background begin"
    yield MEASURED
    yield from ["t1 set l9 0 l9"] * 100_000


# ---- fits

def gaps_and_plugs(n, size):
    """5n free items of 24 bytes in generation 2, and n plugs of generation 1 of these sizes."""
    yield from ["type Node class n", "type Table refs", "type Bytes bytes", f"t1 new l0 Table {5 * n}",
                f"t1 new l3 Table {n}"]
    for i in range(5 * n):
        yield from ["t1 new l1 Node", f"t1 set l0 {i} l1", "t1 new l1 Node"]
    yield from nulls(1) + ["t1 collect 2 sweeping"] * 2
    for i in range(n):
        yield from [f"t1 new l1 Bytes {size(i) - 24}", f"t1 set l3 {i} l1", "t1 new l1 Node"]
    yield from nulls(1) + ["t1 collect 0 sweeping"]


@case(1_000, 1.2)
def fits_of_all_sizes(n):
    yield from gaps_and_plugs(n, lambda i: 1000 + 8 * (i * 37 % 1021))
    yield MEASURED
    yield "t1 collect 1 fitting"


@case(1_000, 1.2)
def fits_of_two_sizes(n):
    yield from gaps_and_plugs(n, lambda i: 2000 + 1024 * (i % 2))
    yield MEASURED
    yield "t1 collect 1 fitting"


# ---- allocation among free items

@case(4_000, 1.2)
def refills_among_gaps(n):
    """n gaps in front of pinned objects, and n / 8 allocations of 8,024 bytes that fit in none of them."""
    yield from ["type Node class n", "type Bytes bytes"]
    for _ in range(n):
        yield from ["t1 new l1 Bytes 24", "t1 new l1 Node", "t1 handle pinned l1"]
    yield from nulls(1) + ["t1 collect 0 compacting"]
    yield MEASURED
    yield from ["t1 new l1 Bytes 8000"] * (n // 8)


def pinned_items(n, length):
    """n free items in pinned segments, each beside an object; the length tells the bytes of the array that went."""
    yield from ["type Bytes bytes", "type Table refs", f"t1 new l0 Table {n}"]
    for i in range(n):
        yield from [f"t1 new-pinned l1 Bytes {length(i)}", f"t1 set l0 {i} l1", f"t1 new-pinned l1 Bytes {length(i)}"]
    yield from nulls(1) + ["t1 collect 2 sweeping"]


@case(12_500, 1.2)
def pinned_allocations_that_fit_nowhere(n):
    yield from pinned_items(n, lambda i: 8)
    yield MEASURED
    yield from ["t1 new-pinned l1 Bytes 40"] * (n // 4)


@case(12_500, 1.2)
def pinned_allocations_behind_small_items(n):
    yield from pinned_items(n, lambda i: 8 if i < n // 2 else 40)
    yield MEASURED
    yield from ["t1 new-pinned l1 Bytes 40"] * (n // 2)


@case(12_500)
def pinned_allocations_that_fit_first(n):
    yield from pinned_items(n, lambda i: 8)
    yield MEASURED
    yield from ["t1 new-pinned l1 Bytes 8"] * n


# ---- handles

def dependent_chain(n, order):
    """A chain of objects that dependent handles tie together, made in this order."""
    yield from nodes(n + 1)
    for i in order:
        yield from [f"t1 get l1 l0 {i}", f"t1 get l2 l0 {i + 1}", "t1 handle dependent l1 l2"]
    yield from ["t1 get l9 l0 0"] + nulls(0, 1, 2)


def zigzag(n):
    """Links in an order in which each pass over the handles, rising or falling, finds few of them due."""
    order = [0] * n
    for i in range(n):
        order[i // 2 if i % 2 == 0 else n - 1 - i // 2] = i
    return order


@case(8_191)
def dependent_handles_that_rise(n):
    yield from dependent_chain(n, range(n))
    yield MEASURED
    yield "t1 collect 2 sweeping"


@case(8_191, 1.2)
def dependent_handles_in_random_order(n):
    order = list(range(n))
    random.Random(5).shuffle(order)
    yield from dependent_chain(n, order)
    yield MEASURED
    yield "t1 collect 2 sweeping"


@case(8_191, 1.2)
def dependent_handles_in_a_zigzag(n):
    yield from dependent_chain(n, zigzag(n))
    yield MEASURED
    yield "t1 collect 2 sweeping"


@case(8_191)
def handles_made_and_freed(n):
    yield from ["type Node class n", "t1 new l0 Node"]
    yield MEASURED
    for kind in ("strong", "weak", "weaklong", "pinned"):
        yield from [f"t1 handle {kind} l0"] * n
        yield from [f"t1 free h{i * 40503 % n}" for i in range(n)]


# ---- finalisation

@case(100_000)
def finalizers_one_by_one(n):
    yield "type Final class n final"
    yield from ["t1 new l0 Final"] * n + nulls(0)
    yield MEASURED
    yield "t1 collect 2 sweeping"
    yield from ["t1 finalizer l0"] * n


# ---- the commands of SOS

def leaf_and_heap(n, line, times):
    """A line about one object without references, in a heap of n others."""
    yield from ["type Node class r", "type Table refs", "t1 new l9 Node", f"t1 new l0 Table {n}"]
    for i in range(n):
        yield from ["t1 new l1 Node", f"t1 set l0 {i} l1"]
    yield from nulls(1) + ["t1 collect 1 sweeping"] * 2
    yield MEASURED
    yield from [line] * times


@case(125_000, 0.2)
def objsize_of_a_leaf(n):
    yield from leaf_and_heap(n, f"objsize {LEAF}", 10_000)


@case(125_000, 0.2)
def gcroot_of_a_leaf(n):
    yield from leaf_and_heap(n, f"gcroot {LEAF}", 10_000)


@case(125_000, 0.2)
def dumpobj_of_a_leaf(n):
    yield from leaf_and_heap(n, f"dumpobj {LEAF}", 10_000)


@case(125_000, 0.2)
def gcwhere_of_a_leaf(n):
    yield from leaf_and_heap(n, f"gcwhere {LEAF}", 10_000)


@case(125_000, 0.2)
def dumparray_within_a_table(n):
    yield from leaf_and_heap(n, f"dumparray -start 100000 -length 20 {TABLE}", 10_000)


@case(125_000, 0.2)
def listnearobj_in_the_middle(n):
    yield from leaf_and_heap(n, f"listnearobj {MIDDLE}", 10_000)


@case(125_000, 0.2)
def pathto_of_a_leaf(n):
    yield from leaf_and_heap(n, f"pathto {LEAF} {LEAF}", 10_000)


@case(125_000)
def pathto_without_a_chain(n):
    yield from leaf_and_heap(n, f"pathto {TABLE} {LEAF}", 10)


@case(125_000)
def retained_of_a_leaf(n):
    yield from leaf_and_heap(n, f"retained {LEAF}", 10)


@case(125_000)
def gcroot_all_of_a_leaf(n):
    yield from leaf_and_heap(n, f"gcroot -all {LEAF}", 10)


@case(8_191)
def gcroot_all_of_handles(n):
    """Each of n handles refers to an object of its own, and these to one leaf."""
    yield from ["type Node class r", "t1 new l0 Node"]
    for _ in range(n):
        yield from ["t1 new l1 Node", "t1 set l1 0 l0", "t1 handle strong l1"]
    yield MEASURED
    yield from [f"gcroot -all {LEAF}"] * 10


@case(125_000)
def gcheapstat_of_objects(n):
    yield from leaf_and_heap(n, "gcheapstat", 10)


@case(125_000)
def gcheapstat_unrooted(n):
    yield from leaf_and_heap(n, "gcheapstat -inclUnrooted", 10)


@case(125_000)
def ephrefs_of_objects(n):
    yield from leaf_and_heap(n, "ephrefs", 10)


@case(125_000)
def verifyheap_of_objects(n):
    yield from leaf_and_heap(n, "verifyheap", 10)


@case(125_000)
def dumpheap_stat(n):
    yield from leaf_and_heap(n, "dumpheap -stat", 10)


@case(125_000)
def dumpheap_stat_live(n):
    yield from leaf_and_heap(n, "dumpheap -stat -live", 10)


@case(7_500_000)
def verifyheap_of_an_array(n):
    yield from ["type Table refs", f"t1 new l0 Table {n}"]
    yield MEASURED
    yield "verifyheap"


@case(8_191)
def gchandles_of_all(n):
    yield from ["type Node class r", "t1 new l0 Node"] + ["t1 handle weak l0"] * n
    yield MEASURED
    yield from ["gchandles"] * 10


# ---- segments

@case(125, 1.2, NARROW)
def sweeps_of_small_segments(n):
    yield from chained_segments(n, 30)
    yield MEASURED
    yield from ["t1 collect 2 sweeping"] * 5


@case(125, 1.2, NARROW)
def compactions_of_small_segments(n):
    yield from chained_segments(n, 30)
    yield MEASURED
    yield from ["t1 collect 2 compacting"] * 5


@case(100, 1.2, NARROW)
def sweeps_of_large_segments(n):
    """n large segments of the least size with three objects each: five full sweeps."""
    yield from ["type Bytes bytes", "type Table refs", "t1 new l0 Table 10000"]
    for i in range(3 * n):
        yield from ["t1 new l1 Bytes 85000", f"t1 set l0 {i} l1"]
    yield MEASURED
    yield from ["t1 collect 2 sweeping"] * 5


@case(12_500)
def large_objects_that_slide(n):
    n //= 10
    yield from ["type Bytes bytes", "type Table refs", f"t1 new l0 Table {n}"]
    for i in range(n):
        yield from ["t1 new l1 Bytes 85000"] + ([f"t1 set l0 {i} l1"] if i % 2 else [])
    yield from nulls(1)
    yield MEASURED
    yield from ["t1 compact-large once", "t1 collect 2 sweeping"]
