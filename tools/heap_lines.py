"""What `retained` and `ask` tell of a heap, as lines: the objects that retain most, suspects, the dominator tree, one
object, and what has grown."""
from collections import Counter

from heap_findings import MOST_SUSPECTS, SUSPECT, Findings
from heap_graph import NONE, is_static, is_table
from heap_image import BadImage

HEADS = ("retained", "objects", "size", "address", "name")
MOST_ROOTS = 10
TREE_SHARE = 1.0


class Answers(Findings):
    """The lists, made of the dominators and their sums."""

    def rows(self, vertices):
        """A row for each vertex: bytes and objects that it retains, its size, its address and its name."""
        return [(self.bytes[one], self.objects[one], self.sizes[one], f"{self.address(one):016x}", self.name(one))
                for one in vertices]

    def by_object(self, top):
        yield from table(HEADS, self.rows(self.most(range(1, len(self.sizes)), top)))
        yield self.total()

    def types(self, top):
        """The lines of `by_type` for so many types, or for all."""
        rows = [(*row, self.heap.kind_names[kind]) for *row, kind in self.by_type[:top]]
        yield from table(("retained", "objects", "instances", "size", "name"), rows)
        yield self.total()

    def of_object(self, at, top):
        """The path of dominators, the roots that reach the object, and what it retains."""
        one = self.number(at)
        vertex = self.graph.rank[one]
        if vertex == NONE:
            yield f"{at:016x} {self.heap.name(one)}: no root reaches it"
            return
        yield "its dominators, from a root down"
        yield from table(HEADS, self.rows(self.dominators_of(vertex)))
        yield from self.roots_of(vertex)
        held = self.held(vertex)
        yield f"it immediately dominates {counted(len(held), 'object', 'objects')}"
        yield from table(HEADS, self.rows(self.most(held, top)))

    def number(self, at):
        one = self.heap.number.get(at)
        if one is None:
            raise BadImage(f"no object has the address {at:016x}" if at >= 0 else "an address has 16 digits")
        return one

    def roots_of(self, vertex):
        """The nearest root with its chain, how many others reach the object, and the first of these. Where a converter
        of dumps made the script, tables stand for the dumped program's roots, and objects for its classes, which hold
        what their static fields name: then both are told, and ways that lead from one class to another aren't
        counted."""
        yield from self.chain_lines(vertex)
        reaching = self.graph.reaching(vertex)
        found = [(name, self.graph.rank[one]) for name, one in self.heap.roots if self.graph.rank[one] in reaching]
        yield f"{len(found)} of {len(self.heap.roots)} roots reach it"
        yield from shortened([f"root {name} {self.label(one)}" for name, one in found])
        if not any(is_table(self.name(one)) for _, one in found):
            return
        reaching = self.graph.reaching(vertex, stop=lambda one: one and is_static(self.name(one)))
        lines = []
        for one in sorted(reaching - {0, vertex}):
            if self.name(one).startswith("Roots."):
                for held in sorted(reaching.intersection(self.graph.forwards(one))):
                    lines.append(f"{self.name(one)} {self.label(held)}")
            elif is_static(self.name(one)):
                held = next((held for held in self.graph.forwards(one) if held in reaching), 0)
                lines.append(f"{self.name(one)} {self.way(one, held)} {self.label(held)}")
        yield f"{len(lines)} roots and static fields of the dumped program reach it"
        yield from shortened(lines)

    def chain_lines(self, vertex):
        """The shortest chain from a root."""
        chain = self.chain(vertex)
        names = self.roots_by_vertex()[chain[0].vertex]
        yield f"a shortest path from a root, {names[0]}"
        yield from self.step_lines(chain)

    def step_lines(self, chain):
        for step in chain:
            text = self.text(step.vertex)
            yield " ".join(filter(None, (self.label(step.vertex), step.way, f'"{text}"' if text else "")))

    def incoming_lines(self, at, top):
        one = self.number(at)
        found = self.incoming(one)
        yield f"{counted(len(found), 'object refers to', 'objects refer to')} {at:016x} {self.heap.name(one)}"
        ways = Counter((self.heap.name(by), way if "[" not in way else "[..]") for by, way in found)
        if len(found) > top:
            rows = [(many, f"{name} {way}") for (name, way), many in ways.most_common(top)]
            yield from table(("objects", "name"), rows)
        rows = []
        for by, way in found[:top]:
            vertex = self.graph.rank[by]
            kept = str(self.bytes[vertex]) if vertex != NONE else "unreached"
            rows.append((kept, f"{self.heap.addresses[by]:016x}", f"{self.heap.name(by)} {way}"))
        yield from table(("retained", "address", "name"), rows)
        yield from more(len(found) - top)
        for name, root in self.heap.roots:
            if root == one:
                yield f"root {name} refers to it, too"

    # ---- leak suspects

    def suspect_lines(self, share=100 * SUSPECT, older=None):
        found = self.compared(older, share / 100) if older else [(one, None) for one in self.suspects(share / 100)]
        if not found:
            yield f"no object, and no objects of a type side by side, retain {share:g} % of the heap"
        for number, (suspect, then) in enumerate(found, 1):
            yield from self.one_suspect(number, suspect, then, bool(older))
        if len(found) == MOST_SUSPECTS:
            yield f"there may be more: these are the first {MOST_SUSPECTS}"
        yield self.total()

    def one_suspect(self, number, suspect, then, compares):
        what = f"{suspect.count} {self.heap.kind_names[suspect.kind]}" if suspect.kind else self.label(suspect.vertex)
        verb = "retain" if suspect.kind else "retains"
        kept = f"{suspect.bytes} bytes, {self.percent(suspect.bytes):.0f} % of the heap, in {suspect.objects} objects"
        yield f"suspect {number}: {what} {verb} {kept}"
        if compares:
            yield "    it is new" if then is None else f"    {suspect.bytes - then:+} bytes since the older image"
        for line in self.step_lines(self.short_chain(suspect.vertex)):
            yield f"    {line}"
        for kind, many, _, size in suspect.held[:5]:
            yield f"    holds {many} {self.heap.kind_names[kind]}, which retain{'s' * (many == 1)} {size} bytes"
        for kind, many, size in suspect.inside[:5]:
            yield f"    of all that it retains, {many} {self.heap.kind_names[kind]} have {size} bytes"

    def tree_lines(self, share, top):
        """So many lines of objects at most, each below its immediate dominator."""
        nodes = self.tree(share / 100, top + 1, 60)
        below = {}
        for number, node in enumerate(nodes[1:], 1):
            below.setdefault(node.above, []).append(number)
        yield f"{'percent':>7} {'retained':>10} {'objects':>8} {'size':>8} {'address':16} name"
        waiting = [(0, 0)]
        while waiting:
            number, cut = waiting.pop()
            node = nodes[number]
            pad = "  " * (node.depth if cut else node.depth - 1)
            if cut:
                kind, many, objects, size = node.cut[cut - 1]
                name = f"{pad}{many} {self.heap.kind_names[kind]}"
                yield f"{self.percent(size):7.1f} {size:10} {objects:8} {'':8} {'..':16} {name}"
                continue
            if number:
                one = node.vertex
                kept = f"{self.percent(self.bytes[one]):7.1f} {self.bytes[one]:10} {self.objects[one]:8}"
                way = self.way(self.dominator[one], one)
                text = self.text(one)
                name = " ".join(filter(None, (self.name(one), way and f"= {way}", text and f'"{text}"')))
                yield f"{kept} {self.sizes[one]:8} {self.address(one):016x} {pad}{name}"
            shown = [at + 1 for at, row in enumerate(node.cut[:3]) if self.percent(row[3]) >= share]
            waiting += [(number, at) for at in reversed(shown)]
            waiting += [(at, 0) for at in reversed(below.get(number, ()))]
        yield self.total()

    def growth_lines(self, older, share, top):
        rows = self.growth(older)
        yield from table(("more", "bytes", "instances", "size", "name"), [
            (f"{many:+}", f"{size:+}", *rest) for many, size, *rest in rows[:top]
        ])
        yield from more(len(rows) - top)
        many, size = self.objects[0] - older.objects[0], self.bytes[0] - older.bytes[0]
        yield f"all together {many:+} objects {size:+} bytes"
        yield from self.suspect_lines(share, older)

    def total(self):
        return f"total {self.objects[0]} bytes {self.bytes[0]}"


def counted(number, one, several):
    return f"{number} {one if number == 1 else several}"


def more(number):
    if number > 0:
        yield f"and {number} more"


def shortened(lines):
    yield from lines[:MOST_ROOTS]
    yield from more(len(lines) - MOST_ROOTS)


def table(heads, rows):
    """Lines of columns. Numbers stand at the right of theirs."""
    texts = [heads, *(tuple(map(str, row)) for row in rows)]
    widths = [max(map(len, column)) for column in zip(*texts)]
    for row in texts:
        cells = [cell.rjust(width) for cell, width in zip(row, widths)]
        cells[-1] = row[-1]
        if "address" in heads:
            cells[-2] = row[-2].ljust(widths[-2])
        yield " ".join(cells)
