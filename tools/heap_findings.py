"""What an image tells whoever hunts a leak: chains from roots, suspects, the tree of dominators, and what has grown.
For `retained`, `report` and `ask`.
"""
import re
from bisect import bisect_right
from collections import Counter
from dataclasses import dataclass, field
from functools import cached_property
from heapq import heappop, heappush, nsmallest
from itertools import repeat

from heap_graph import (
    NONE, Graph, Nearest, children_of, dominators, is_static, is_table, retained_by_kind, sums_below,
)

# A suspect retains such a share of the heap, alone or with others of its type that are held side by side.
SUSPECT = 0.1
# Where one of the objects that an object immediately dominates retains such a share of what that retains, the way
# down goes on to it.
GOES_ON = 0.8
# Where one retains such a share and has the same type, both are parts of one list or tree.
SAME_AGAIN = 0.1
MOST_SUSPECTS = 12
# So many objects of another image are looked at, to find the one at the end of the same chain.
MOST_COMPARED = 2000


def without_addresses(name):
    """The name of a class without an address in it: the runtime gives hidden classes another one in each run."""
    return re.sub(r"0x[0-9a-f]+", "0x..", name)


@dataclass
class Step:
    """An object on a chain, and how it refers to the next one: nothing for the last."""

    vertex: int
    way: str = ""


@dataclass
class Suspect:
    """An accumulation point: an object, or, with a kind, all of it that an object dominates side by side. `held` are
    the types of what it dominates, each with a count and the bytes that they retain, and `inside` those of all that it
    retains, each with a count and their own bytes."""

    vertex: int
    bytes: int
    objects: int
    kind: int = 0
    count: int = 1
    held: list = field(default_factory=list)
    inside: list = field(default_factory=list)


@dataclass
class Node:
    """A vertex in a cut dominator tree, with the number of the node above, and what was cut of what it dominates:
    names, with a count, the objects and the bytes that they retain."""

    vertex: int
    above: int
    depth: int
    cut: list = field(default_factory=list)


class Findings:
    """The dominators of a heap with their sums, and what is found with them. Vertex 0 stands for all roots."""

    def __init__(self, heap):
        self.heap = heap
        self.graph = Graph(heap.starts, heap.targets, [one for _, one in heap.roots])
        order = self.graph.order
        self.sizes = [0, *map(heap.sizes.__getitem__, order[1:])]
        self.kinds = [0, *map(heap.kinds.__getitem__, order[1:])]
        self.dominator = dominators(self.graph)
        self.bytes = sums_below(self.dominator, self.sizes)
        self.objects = sums_below(self.dominator, [0, *repeat(1, len(order) - 1)])

    # ---- one vertex

    def name(self, vertex):
        return self.heap.name(self.graph.order[vertex])

    def address(self, vertex):
        return self.heap.addresses[self.graph.order[vertex]]

    def label(self, vertex):
        return f"{self.address(vertex):016x} {self.name(vertex)}"

    def text(self, vertex):
        return self.heap.text(self.graph.order[vertex])

    def way(self, vertex, held):
        """How an object refers to another, or nothing where it doesn't."""
        return self.heap.way(self.graph.order[vertex], self.graph.order[held]) if vertex else ""

    def percent(self, size):
        return 100 * size / self.bytes[0] if self.bytes[0] else 0.0

    def is_root_table(self, vertex):
        return vertex == 0 or is_table(self.name(vertex))

    @cached_property
    def _children(self):
        return children_of(self.dominator)

    def held(self, vertex):
        """The vertices that one dominates directly."""
        children, first = self._children
        return children[first[vertex]:first[vertex + 1]]

    def most(self, vertices, top=None):
        def key(one):
            return -self.bytes[one], one

        return sorted(vertices, key=key) if top is None else nsmallest(top, vertices, key=key)

    def dominators_of(self, vertex):
        """The vertices over which each way to one leads, from a root on, and the one itself."""
        path = [vertex]
        while self.dominator[path[-1]]:
            path.append(self.dominator[path[-1]])
        return path[::-1]

    # ---- chains

    @cached_property
    def _nearest(self):
        return Nearest(self.graph)

    def chain(self, vertex):
        """A shortest chain from a root to a vertex."""
        found = self._nearest.path(vertex)
        return [*(Step(one, self.way(one, held)) for one, held in zip(found, found[1:])), Step(vertex)]

    def short_chain(self, vertex):
        """The chain without its front, where a converter of dumps made this: from the last class with a static field,
        or the last table of roots on."""
        chain = self.chain(vertex)
        heads = [at for at, step in enumerate(chain[:-1]) if is_table(self.name(step.vertex)) or self._is_class(step)]
        return chain[heads[-1] if heads else 0:]

    def _is_class(self, step):
        return is_static(self.name(step.vertex)) and step.way not in ("superclass", "loader", "signers", "domain")

    def roots_by_vertex(self):
        """The names of the roots that refer to each vertex."""
        found = {}
        for name, one in self.heap.roots:
            found.setdefault(self.graph.rank[one], []).append(name)
        return found

    # ---- incoming references

    def incoming(self, one):
        """The objects that refer to an object, as pairs of an object and how it does."""
        found, starts, targets = [], self.heap.starts, self.heap.targets
        at = -1
        while True:
            try:
                at = targets.index(one, at + 1)
            except ValueError:
                break
            found.append(bisect_right(starts, at) - 1)
        return [(by, self.heap.way(by, one)) for by in dict.fromkeys(found)]

    # ---- types

    @cached_property
    def by_type(self):
        """A row for each kind that is there: what all its objects retain together, how many objects that is, how many
        it has, their own bytes, and its number."""
        retained, objects = retained_by_kind(self.graph, self.kinds, self.sizes)
        retained.pop(0, None)
        count, size = self.counts
        return [(retained[kind], objects[kind], count[kind], size[kind], kind)
                for kind in sorted(retained, key=lambda kind: (-retained[kind], kind))]

    @cached_property
    def counts(self):
        """How many objects each kind has, and how many bytes they have."""
        count, size = Counter(self.kinds[1:]), Counter()
        for kind, one in zip(self.kinds, self.sizes):
            size[kind] += one
        return count, size

    def grouped(self, vertices):
        """Vertices by their kinds, with most bytes first: kind, count, objects and bytes that they retain."""
        count, objects, size = Counter(), Counter(), Counter()
        for one in vertices:
            kind = self.kinds[one]
            count[kind] += 1
            objects[kind] += self.objects[one]
            size[kind] += self.bytes[one]
        return [(kind, count[kind], objects[kind], size[kind])
                for kind in sorted(size, key=lambda kind: (-size[kind], kind))]

    def inside(self, vertices):
        """All that some vertices retain, by kinds: kind, count and own bytes, with most bytes first."""
        count, size, waiting = Counter(), Counter(), list(vertices)
        children, first = self._children
        while waiting:
            one = waiting.pop()
            count[self.kinds[one]] += 1
            size[self.kinds[one]] += self.sizes[one]
            waiting += children[first[one]:first[one + 1]]
        return [(kind, count[kind], size[kind]) for kind in sorted(size, key=lambda kind: (-size[kind], kind))]

    # ---- suspects

    def suspects(self, share=SUSPECT):
        """The accumulation points: down the dominator tree, until what is retained is spread over many. What is
        retained beside such a way is looked at, too."""
        least, found, waiting = max(share * self.bytes[0], 1), [], [0]
        while waiting:
            path, is_list = self._way_down(waiting.pop())
            for above, below in zip(path, [*path[1:], 0]):
                if is_list and not below:
                    found.append(self._suspect(above))
                    continue
                held = self.held(above)
                heavy = [one for one in held if self.bytes[one] >= least]
                waiting += [one for one in heavy if one != below]
                light = [one for one in held if self.bytes[one] < least] if heavy else held
                if self.is_root_table(above) or self._holds_classes(light):
                    found += self._groups(above, light, least)
                elif not heavy:
                    found.append(self._suspect(above))
                elif self.bytes[above] - sum(self.bytes[one] for one in heavy) >= least:
                    found.append(self._suspect(above, light))
        found.sort(key=lambda one: (-one.bytes, one.vertex))
        return found[:MOST_SUSPECTS]

    def _holds_classes(self, held):
        """Whether most of what is held is held by class objects: a loader has a list of its classes, and what their
        static fields retain is no one list."""
        of_classes = sum(self.bytes[one] for one in held if is_static(self.name(one)))
        return 2 * of_classes > sum(map(self.bytes.__getitem__, held))

    def _way_down(self, vertex):
        """The way down from a vertex, as long as one that it dominates retains nearly all of what it does, and whether
        what the last one dominates is a list or a tree of objects of one type."""
        path, best = [vertex], 0
        while True:
            best = max(self.held(path[-1]), key=self.bytes.__getitem__, default=0)
            if not best or self.bytes[best] < GOES_ON * self.bytes[path[-1]]:
                break
            path.append(best)
        kind = self.kinds[path[-1]]
        if not path[-1] or self.heap.image.types[self.heap.type_of_kind[kind]].shape != "class":
            return path, False
        again = best and self.kinds[best] == kind and self.bytes[best] >= SAME_AGAIN * self.bytes[path[-1]]
        if not (again or len(path) > 2 and self.kinds[path[-2]] == kind):
            return path, False
        while len(path) > 1 and self.kinds[path[-1]] == kind and not self.is_root_table(path[-2]):
            path.pop()
        return path, True

    def _suspect(self, vertex, light=None):
        held = self.held(vertex) if light is None else light
        size = self.bytes[vertex] if light is None else self.sizes[vertex] + sum(map(self.bytes.__getitem__, held))
        count = self.objects[vertex] if light is None else 1 + sum(map(self.objects.__getitem__, held))
        return Suspect(vertex, size, count, held=self.grouped(held), inside=self.inside(held))

    def _groups(self, above, light, least):
        """Those of one type that a table of roots dominates side by side: all together they retain much."""
        for kind, count, objects, size in self.grouped(light):
            if size >= least and count > 1:
                some = [one for one in light if self.kinds[one] == kind]
                held = [below for one in some for below in self.held(one)]
                first = self.most(some, 1)[0]
                yield Suspect(first, size, objects, kind, count, self.grouped(held), self.inside(some))

    def signature(self, suspect):
        """What a suspect is called in each image of the same program: its chain, without addresses."""
        steps = [f"{without_addresses(self.name(step.vertex))}.{step.way}" for step in self.short_chain(suspect.vertex)]
        shown = [step if "[" not in step.rpartition(".")[2] else step.rpartition(".")[0] for step in steps]
        return tuple(shown) + ((without_addresses(self.heap.kind_names[suspect.kind]),) if suspect.kind else ())

    # ---- the tree

    def tree(self, share=0.0005, most=12_000, deepest=200):
        """The tree of dominators, without what retains less than a share of the heap, and so many nodes at most: those
        that retain most. Node 0 stands for all roots."""
        least, nodes, waiting = share * self.bytes[0], [Node(0, NONE, 0)], []
        self._wait(waiting, 0, nodes, least)
        shown = {0: 0}
        while waiting and len(nodes) < most:
            _, vertex, above = heappop(waiting)
            nodes.append(Node(vertex, above, nodes[above].depth + 1))
            shown[vertex] = len(nodes) - 1
            if nodes[-1].depth < deepest:
                self._wait(waiting, len(nodes) - 1, nodes, least)
        for node in nodes:
            node.cut = self.grouped(one for one in self.held(node.vertex) if one not in shown)
        return nodes

    def _wait(self, waiting, number, nodes, least):
        for one in self.held(nodes[number].vertex):
            if self.bytes[one] >= least:
                heappush(waiting, (-self.bytes[one], one, number))

    # ---- another image

    def growth(self, older):
        """A row for each class whose objects are more or fewer than in another image: how many more, how many bytes
        more, how many and how many bytes now, and the name; with those first that have changed most."""
        now, then = self._by_name(), older._by_name()
        rows = []
        for name in now.keys() | then.keys():
            (count, size), (count_then, size_then) = now.get(name, (0, 0)), then.get(name, (0, 0))
            if (count, size) != (count_then, size_then):
                rows.append((count - count_then, size - size_then, count, size, name))
        return sorted(rows, key=lambda row: (-abs(row[1]), -abs(row[0]), row[4]))

    def _by_name(self):
        count, size = self.counts
        found = {}
        for kind in count:
            name = without_addresses(self.heap.kind_names[kind])
            before = found.get(name, (0, 0))
            found[name] = before[0] + count[kind], before[1] + size[kind]
        return found

    def compared(self, older, share=SUSPECT):
        """The suspects, each with the bytes that the same chain retained in another image, or nothing where there was
        no such chain."""
        found = []
        for one in self.suspects(share):
            name = self.kind_names_of(one)
            then = older.bytes_of(self.signature(one), name, bool(one.kind))
            found.append((one, then))
        return found

    def kind_names_of(self, suspect):
        return without_addresses(self.heap.kind_names[suspect.kind] if suspect.kind else self.name(suspect.vertex))

    def bytes_of(self, signature, name, all_of_them):
        """What the object at the end of a chain retains, or all together that end such chains, or nothing."""
        kinds = {kind for kind, one in enumerate(self.heap.kind_names) if without_addresses(one) == name}
        found = None
        for vertex in self.most([one for one, kind in enumerate(self.kinds) if kind in kinds and one], MOST_COMPARED):
            group = self.kinds[vertex] if all_of_them else 0
            if self.signature(Suspect(vertex, 0, 0, group)) == signature:
                if not all_of_them:
                    return self.bytes[vertex]
                found = (found or 0) + self.bytes[vertex]
        return found
