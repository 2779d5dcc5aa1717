"""The objects of an image as a graph, what the roots reach of it, and what dominates what: for `retained`, `report`
and `ask`.

An object retains itself and each object that the roots reach over it alone: the objects that it dominates. What is
known of objects and vertices stands in arrays and lists by their numbers, as there may be millions.
"""
from array import array
from collections import Counter, defaultdict
from itertools import accumulate, islice

from heap_image import FREE_WORD, BadImage
from heap_names import Names

NONE = -1
MOST_KINDS = 65_536


class Heap:
    """The objects of an image by their numbers, and their references: object N refers to `targets[starts[N]:starts[N +
    1]]`. A kind is a type of the image, or, behind these, a class that shares a type with others. `sizes` are the bytes
    of the image, or with `own` those that the dumped program's runtime gave the objects, where `names` tell them."""

    def __init__(self, image, names=None, own=False):
        self.image, self.names = image, names or Names()
        self.kind_names = [one.name for one in image.types]
        self.type_of_kind = list(range(len(image.types)))
        self._find_shapes(own)
        self.addresses, self.kinds, self.sizes = [], array("H"), array("Q")
        self.starts, raw = [0], []
        secondaries = self._secondaries()
        for segment in image.segments:
            self._take_items(segment, raw, secondaries)
        self.number = dict(zip(self.addresses, range(len(self.addresses))))
        try:
            self.targets = list(map(self.number.__getitem__, raw))
            self.roots = [(name, self.number[address]) for name, address in image.roots()]
            for address in secondaries:
                self.number[address]
        except KeyError as fault:
            raise BadImage(f"no object has the address {fault.args[0]:016x}, which is named") from fault

    def _find_shapes(self, own):
        """For each type: where its references stand, how its size is told, and where the number of a class."""
        shapes = self.shapes = [Shape(one) for one in self.image.types]
        self.shared = [None] * len(shapes)
        for kind, one in enumerate(self.image.types):
            names = self.names.shared.get(one.name)
            if names and shapes[kind].first_number:
                self.shared[kind] = shapes[kind].first_number, self._kinds_of(kind, names)
        self.own = [self._own_size(kind) if own else None for kind in range(len(self.kind_names))]
        self.has_own = any(self.own)

    def _own_size(self, kind):
        name = self.kind_names[kind]
        if name in self.names.sizes:
            return self.names.sizes[name]
        return (0, 0) if is_table(name) and self.names.sizes else None

    def _kinds_of(self, kind, names):
        """A kind for each class that shares a type, by its number."""
        kinds = {}
        for number, name in names.items():
            if len(self.kind_names) == MOST_KINDS:
                break
            kinds[number] = len(self.kind_names)
            self.kind_names.append(name)
            self.type_of_kind.append(kind)
        return kinds

    def _take_items(self, segment, raw, secondaries):
        """Takes the items of a segment. For each object this is one round of the loop, so it looks up little."""
        words, first, count = segment.words, segment.first, len(segment.words)
        bases = [one.base for one in self.image.types]
        elements = [one.element for one in self.image.types]
        fixed = [shape.fixed for shape in self.shapes]
        of_array = [shape.of_array for shape in self.shapes]
        known = {FREE_WORD + 64 * kind: kind for kind in range(len(bases))}.get
        shared, own, has_own = self.shared, self.own, self.has_own
        address_of, kind_of, size_of, start_of = (
            one.append for one in (self.addresses, self.kinds, self.sizes, self.starts)
        )
        name, at = raw.append, 0
        while at < count:
            kind = known(words[at + 1]) if at + 2 < count else None
            if kind is None:
                raise BadImage(f"no item stands at {segment.offset + 8 * at}")
            size, element = bases[kind], elements[kind]
            if element:
                size += element * words[at + 2] + 7 & ~7
            behind = at + (size >> 3)
            if behind > count:
                raise BadImage(f"the item at {segment.offset + 8 * at} passes the end of its segment")
            if kind:
                for offset in fixed[kind]:
                    if words[at + offset]:
                        name(words[at + offset])
                if of_array[kind]:
                    raw.extend(filter(None, of_array[kind](words, at)))
                address = first + 8 * at
                if secondaries and address in secondaries:
                    raw.extend(secondaries[address])
                if shared[kind]:
                    offset, kinds = shared[kind]
                    if at + offset < behind:
                        kind = kinds.get(words[at + offset], kind)
                if has_own and own[kind]:
                    base, own_element = own[kind]
                    size = base + (own_element * words[at + 2] if element else 0) + 7 & ~7
                address_of(address)
                kind_of(kind)
                size_of(size)
                start_of(len(raw))
            at = behind

    def _secondaries(self):
        found = defaultdict(list)
        for handle in self.image.handles:
            if handle.kind == "dependent" and handle.target and handle.second:
                found[handle.target].append(handle.second)
        return found

    def name(self, one):
        return self.kind_names[self.kinds[one]]

    def type_of(self, one):
        return self.image.types[self.type_of_kind[self.kinds[one]]]

    def words_of(self, one):
        """The words of an object's segment, and the number of its header's word among them."""
        segment = self.image.segment_of(self.addresses[one])
        return segment.words, (self.addresses[one] - segment.first) >> 3

    def slots(self, one):
        """The references of an object that aren't null: pairs of a slot and the number of what it names."""
        (words, at), of = self.words_of(one), self.type_of(one)
        if of.shape == "bytes" or of.shape != "refs" and "r" not in of.pattern:
            return
        first = at + (2 if of.shape == "class" else 3)
        count = len(of.pattern) if of.shape == "class" else of.slots(words[at + 2])
        for slot in range(count):
            if words[first + slot] and (of.shape == "refs" or of.is_reference(slot)):
                yield slot, self.number[words[first + slot]]

    def slot_name(self, one, slot):
        """What people call a slot of an object: the name of a field, or the index in an array."""
        of = self.type_of(one)
        if of.shape == "structs" and self.kinds[one] >= len(self.image.types):
            row, inner = divmod(slot, len(of.pattern))
            return self.names.slot(self.name(one), slot) or f"[{row * (len(of.pattern) - 1) + inner - 1}]"
        if of.shape == "structs":
            element, inner = divmod(slot, len(of.pattern))
            name = self.names.slot(self.name(one), inner).removeprefix("[0].")
            return f"[{element}].{name or inner}"
        return self.names.slot(self.name(one), slot) or (f"[{slot}]" if of.shape == "refs" else f"slot {slot}")

    def way(self, one, held):
        """How an object refers to another, or nothing where it doesn't, but by a dependent handle."""
        for slot, target in self.slots(one):
            if target == held:
                return self.slot_name(one, slot)
        return "dependent handle" if held in self.targets[self.starts[one]:self.starts[one + 1]] else ""

    def text(self, one, most=60):
        """The text of a string, as far as the script has it, or nothing."""
        of = self.name(one)
        if of != "java.lang.String":
            return ""
        held = next((target for _, target in self.slots(one)), None)
        if held is None or self.type_of(held).shape != "bytes":
            return ""
        (words, at), fields = self.words_of(held), self.names.fields.get(of, ())
        wide = self.name(held) == "char[]"
        coder = fields.index("coder") if "coder" in fields else len(self.type_of(one).pattern)
        if coder < len(self.type_of(one).pattern):
            own, first = self.words_of(one)
            wide = own[first + 2 + coder] == 1
        length = words[at + 2]
        raw = words[at + 3:at + 3 + (min(length, 2 * most) + 7) // 8].tobytes()[:length]
        letters = raw.decode("utf-16-le" if wide else "latin-1", "replace").rstrip("\0")
        cut = len(letters) > most or letters and len(letters) * (1 + wide) < length
        return "".join(one if one.isprintable() else "·" for one in letters[:most]) + "…" * bool(cut)


class Shape:
    """Where objects of a type have their references: at `fixed` words from the header's on, or, in arrays, as
    `of_array` finds them among the words; and where they have their first number."""

    def __init__(self, of):
        self.fixed, self.of_array = (), None
        offsets = [at for at, letter in enumerate(of.pattern) if letter == "r"]
        self.first_number = of.pattern.find("n") + (2 if of.shape == "class" else 3) if "n" in of.pattern else 0
        if of.shape == "class":
            self.fixed = tuple(2 + at for at in offsets)
        elif of.shape == "refs":
            self.of_array = lambda words, at: words[at + 3:at + 3 + words[at + 2]]
        elif offsets:
            step = len(of.pattern)
            self.of_array = lambda words, at: (
                name
                for low in range(at + 3, at + 3 + step * words[at + 2], step)
                for name in [words[low + offset] for offset in offsets]
            )


def is_table(name):
    """Whether a type is one with which a converter of dumps stands for roots."""
    return name == "Roots" or name.startswith("Roots.")


def is_static(name):
    """Whether a type is one with which a converter of dumps stands for a class, with its static fields."""
    return name in ("static", "statics") or name.startswith("static.")


class Graph:
    """What the roots reach. Vertices are numbered in the order in which a depth first search meets them, and vertex 0
    refers to what the roots refer to. `order` has the object of each vertex, and `rank` the vertex of each object, or
    none; `parent` is the tree of the search, `left` the order in which it left the vertices, and `others` has the
    vertices that name a vertex beside its parent: most have none."""

    def __init__(self, starts, targets, roots):
        self.starts, self.targets, self.roots = starts, targets, roots
        edges = self._search()
        self.others = {}
        edges.sort()
        for edge in edges:
            self.others.setdefault(edge >> 32, []).append(edge & 0xFFFF_FFFF)
        self._back = None

    def _search(self):
        """Numbers the vertices. Answers the edges that are not in the tree: what is named times 2^32, and who does."""
        starts, targets = self.starts, self.targets
        rank = [NONE] * (len(starts) - 1)
        order, parent, left, edges = [NONE], [0], [], []
        order_of, parent_of, leave, other = order.append, parent.append, left.append, edges.append
        # The roots are read as what vertex 0 names. A row of the stack: who is left to try, and whose they are.
        stack, held_by, above, count = [], iter(self.roots), 0, 1
        while True:
            for held in held_by:
                vertex = rank[held]
                if vertex >= 0:
                    other(vertex << 32 | above)
                    continue
                rank[held] = count
                order_of(held)
                parent_of(above)
                low, high = starts[held], starts[held + 1]
                if low != high:
                    stack.append((held_by, above))
                    held_by, above = iter(targets[low:high]), count
                    count += 1
                    break
                leave(count)
                count += 1
            else:
                if not stack:
                    break
                leave(above)
                held_by, above = stack.pop()
        self.rank, self.order, self.parent, self.left = rank, order, parent, left
        return edges

    def backwards(self, vertex):
        """The vertices that name one, each once."""
        return dict.fromkeys([self.parent[vertex], *self.others.get(vertex, ())])

    def forwards(self, vertex):
        """The vertices that one names."""
        if vertex == 0:
            return sorted({self.rank[root] for root in self.roots})
        one = self.order[vertex]
        return [self.rank[held] for held in self.targets[self.starts[one]:self.starts[one + 1]]]

    def reaching(self, vertex, stop=lambda vertex: False):
        """All vertices from which a chain leads to this one, and the one itself. Behind those at which it is to stop no
        further ones are looked for."""
        seen, waiting = {vertex}, [vertex]
        while waiting:
            for one in self.backwards(waiting.pop()):
                if one not in seen:
                    seen.add(one)
                    if not stop(one):
                        waiting.append(one)
        return seen


class Nearest:
    """Shortest paths from the roots of a graph. They are looked for as far as they are asked for: most questions are
    about vertices near the roots."""

    def __init__(self, graph):
        self.graph, self.front = graph, graph.forwards(0)
        self.before = [NONE] * len(graph.order)
        self.before[0] = 0
        for vertex in self.front:
            self.before[vertex] = 0

    def path(self, vertex):
        """The vertices of a shortest path from a root to a vertex."""
        before = self.before
        while before[vertex] < 0:
            self._step()
        found = [vertex]
        while before[found[-1]]:
            found.append(before[found[-1]])
        return found[::-1]

    def _step(self):
        """Reaches all vertices that are one reference further away."""
        graph, before, reached = self.graph, self.before, []
        starts, targets, rank, order = graph.starts, graph.targets, graph.rank, graph.order
        for vertex in self.front:
            one = order[vertex]
            for held in targets[starts[one]:starts[one + 1]]:
                below = rank[held]
                if before[below] < 0:
                    before[below] = vertex
                    reached.append(below)
        self.front = reached


def forest(ancestor, semi, label):
    """A function that finds the vertex of least semidominator on the way from a vertex up to below the root of its
    tree. The vertices from `linked` on are in the forest. The way becomes short: `label` keeps what was found on
    it."""
    def evaluate(vertex, linked):
        above = ancestor[vertex]
        if above < linked:
            return label[vertex]
        path = [vertex]
        while ancestor[above] >= linked:
            path.append(above)
            above = ancestor[above]
        root, least = ancestor[above], label[above]
        for one in reversed(path):
            if semi[least] < semi[label[one]]:
                label[one] = least
            else:
                least = label[one]
            ancestor[one] = root
        return least

    return evaluate


def dominators(graph):
    """The immediate dominator of each vertex, by the algorithm of Lengauer and Tarjan with path compression. A vertex
    to which its parent alone refers has it as its dominator, and as its semidominator. Of the others, those that have a
    semidominator wait for their dominator in a list of it."""
    count = len(graph.order)
    semi, dominator, waiting = list(graph.parent), list(graph.parent), {}
    evaluate = forest(list(graph.parent), semi, list(range(count)))
    others = graph.others
    # All that happens, happens at vertices that several name, or on which some wait: from the last one down.
    for vertex in range(count - 1, -1, -1):
        if vertex in waiting:
            for one in waiting.pop(vertex):
                best = evaluate(one, vertex + 1)
                dominator[one] = best if semi[best] < vertex else vertex
        if vertex in others and vertex:
            least = semi[vertex]
            for one in others[vertex]:
                if one > vertex:
                    one = semi[evaluate(one, vertex + 1)]
                if one < least:
                    least = one
            semi[vertex] = least
            if least != graph.parent[vertex]:
                waiting.setdefault(least, []).append(vertex)
    for vertex in sorted(others):
        if vertex and dominator[vertex] != semi[vertex]:
            dominator[vertex] = dominator[dominator[vertex]]
    return dominator


def sums_below(dominator, values):
    """For each vertex, the sum of the values of all that it dominates."""
    sums = list(values)
    for vertex in range(len(sums) - 1, 0, -1):
        sums[dominator[vertex]] += sums[vertex]
    return sums


class KindSets:
    """Sets of kinds by numbers, so that the same one is stored once, and what was asked of two is found again."""

    def __init__(self):
        self.sets, self.numbers, self.met, self.added = [0], {0: 0}, {}, {}

    def _number(self, bits):
        number = self.numbers.get(bits)
        if number is None:
            number = self.numbers[bits] = len(self.sets)
            self.sets.append(bits)
        return number

    def with_kind(self, number, kind):
        key = number << 16 | kind
        found = self.added.get(key)
        if found is None:
            found = self.added[key] = self._number(self.sets[number] | 1 << kind)
        return found

    def common(self, one, other):
        key = one << 32 | other
        found = self.met.get(key)
        if found is None:
            found = self.met[key] = self._number(self.sets[one] & self.sets[other])
        return found


def kinds_above(graph, kinds):
    """For each vertex, the kinds of which one stands on each way from the roots to it, as the number of a set, and the
    sets: the greatest solution of: those that all vertices before it have, and its own. First all vertices are taken
    in an order in which most come behind those that name them, then those for which that wasn't so."""
    count, sets, parent, others = len(graph.order), KindSets(), graph.parent, graph.others
    above, added, with_kind = [NONE] * count, sets.added, sets.with_kind
    above[0] = 0

    def meet(vertex):
        met = above[parent[vertex]]
        for one in others.get(vertex, ()):
            other = above[one]
            if other >= 0 and other != met:
                met = other if met < 0 else sets.common(met, other)
        return with_kind(met, kinds[vertex])

    for vertex in reversed(graph.left):
        if vertex in others:
            above[vertex] = meet(vertex)
        else:
            met = above[parent[vertex]]
            found = added.get(met << 16 | kinds[vertex])
            above[vertex] = with_kind(met, kinds[vertex]) if found is None else found
    stale = [vertex for vertex in others if vertex and meet(vertex) != above[vertex]]
    while stale:
        changed = []
        for vertex in stale:
            met = meet(vertex)
            if met != above[vertex]:
                above[vertex] = met
                changed.append(vertex)
        stale = list(dict.fromkeys(below for vertex in changed for below in graph.forwards(vertex)))
    return above, sets.sets


def retained_by_kind(graph, kinds, sizes):
    """The bytes and the number of the objects that all instances of a kind together retain, by kind."""
    above, sets = kinds_above(graph, kinds)
    bytes_of, count_of = [0] * len(sets), Counter(above)
    for number, size in zip(above, sizes):
        bytes_of[number] += size
    retained, objects = Counter(), Counter()
    for number, count in count_of.items():
        left, size = sets[number], bytes_of[number]
        while left:
            lowest = left & -left
            kind = lowest.bit_length() - 1
            left ^= lowest
            retained[kind] += size
            objects[kind] += count
    return retained, objects


def children_of(dominator):
    """The vertices that each one dominates directly, in two lists: those of V are `children[first[V]:first[V + 1]]`."""
    count = len(dominator)
    first = [0] * (count + 2)
    for above in islice(dominator, 1, None):
        first[above + 2] += 1
    first = list(accumulate(first))
    children = [0] * (count - 1 if count else 0)
    for vertex in range(1, count):
        above = dominator[vertex] + 1
        children[first[above]] = vertex
        first[above] += 1
    return children, first
