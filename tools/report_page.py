"""The page that `report` writes: text of HTML with a style, a script and the data of the tree in it.

All that an image or a `.fields` file says goes through `clean` and is escaped, and the page's policy lets no script run
but its own.
"""
import base64
import hashlib
import html
import json
import re
from collections import Counter
from pathlib import Path

from heap_answers import Heap as Picture
from heap_answers import Segment, Spans
from heap_findings import SUSPECT
from heap_graph import is_static, is_table
from heap_image import walk
from image_tools import load_tool
from picture import count_of, size_text

FOLDER = Path(__file__).resolve().parent
MOST_TYPES = 2000
MOST_GROWTH = 200
MOST_ROOTS = 100
MOST_CHAIN = 40
PICTURE_ROWS = 6
SECTIONS = (
    ("summary", "Summary"), ("suspects", "Leak suspects"), ("growth", "Growth"), ("tree", "Dominator tree"),
    ("types", "Histogram"), ("roots", "GC roots"), ("segments", "Segments"),
)
LIBRARIES = ("java.", "javax.", "jdk.", "sun.", "com.sun.", "System.", "Microsoft.", "Mono.")
LIBRARIES += tuple(f"static.{name}" for name in LIBRARIES)
KINDS_OF_ROOTS = {"t": "local variable", "h": "handle", "r": "f-reachable queue"}


def clean(text):
    """A text of others without what isn't printable, and not too long."""
    text = str(text)
    if not text.isprintable():
        text = "".join(one if one.isprintable() else "\N{REPLACEMENT CHARACTER}" for one in text)
    return text if len(text) <= 300 else text[:299] + "…"


def told(text):
    """A text of others, as HTML."""
    return html.escape(clean(text))


def number(value):
    return f"{value:,}"


def signed(value):
    return f"{value:+,}"


def share(value):
    return f"{value:.1f} %" if value >= 0.05 or not value else "< 0.1 %"


def element(name, inside, **attributes):
    """An element. `class_` stands for its class, and `data_v` for `data-v`."""
    words = {key.rstrip("_").replace("_", "-"): html.escape(str(value)) for key, value in attributes.items()}
    return "".join([f"<{name}", *(f' {key}="{value}"' for key, value in words.items()), f">{inside}</{name}>"])


def named(name):
    """A name of others, which breaks between its parts, and doesn't turn the direction of what stands around it."""
    return element("bdi", re.sub(r"(?<=[.,;+$_])(?=\w)", "<wbr>", told(name)), class_="code")


def table(caption, heads, rows, **attributes):
    """A table. A head says its title, and whether its column has numbers. Each row has cells, HTML for texts, and for
    numbers what is shown or pairs of that and the value by which it is sorted."""
    lines = [f"<caption>{html.escape(caption)}</caption>", "<thead><tr>"]
    for title, is_number in heads:
        lines.append(element("th", title, scope="col", class_="num" if is_number else "text"))
    lines.append("</tr></thead><tbody>")
    for row in rows:
        cells = []
        for at, ((_, is_number), cell) in enumerate(zip(heads, row)):
            shown, value = cell if isinstance(cell, tuple) else (cell, None)
            more = {"data_v": value} if value is not None else {}
            cells.append(element("td", shown, class_="num" if is_number else "text", **more))
        lines.append(f"<tr>{''.join(cells)}</tr>")
    lines.append("</tbody>")
    return element("div", element("table", "\n".join(lines), **attributes), class_="wide", tabindex=0, role="region",
                   aria_label=caption)


def count_cell(value, text=None):
    return text or number(value), value


class Page:
    def __init__(self, findings, older, title, least):
        self.findings, self.older, self.title, self.least = findings, older, title, least
        self.heap, self.image = findings.heap, findings.heap.image
        self.kind_names = self.heap.kind_names
        self.picture = picture_of(self.heap)
        self.nodes = findings.tree(least)
        self.number_of = {node.vertex: at for at, node in enumerate(self.nodes)}

    def text(self):
        script = (FOLDER / "report.js").read_text(encoding="utf-8")
        style = (FOLDER / "report.css").read_text(encoding="utf-8")
        digest = base64.b64encode(hashlib.sha256(script.encode()).digest()).decode()
        policy = f"default-src 'none'; style-src 'unsafe-inline'; script-src 'sha256-{digest}'; base-uri 'none'"
        sections = [(key, name) for key, name in SECTIONS if key != "growth" or self.older]
        links = "".join(element("a", name, href=f"#{key}") for key, name in sections)
        bodies = "\n".join(
            element("section", f"<h2>{name}</h2>\n{getattr(self, key)()}", id=key) for key, name in sections
        )
        return "\n".join([
            "<!DOCTYPE html>", '<html lang="en"><head><meta charset="utf-8">',
            f'<meta http-equiv="Content-Security-Policy" content="{html.escape(policy)}">',
            '<meta name="viewport" content="width=device-width, initial-scale=1">',
            '<meta name="color-scheme" content="light dark">',
            f"<title>{told(self.title)}: heap report</title>", f"<style>\n{style}</style></head><body>",
            '<a class="skip" href="#suspects">Skip to the leak suspects</a>',
            f"<header><h1>{named(self.title)}</h1><p>{self.about()}</p></header>",
            f'<nav aria-label="Sections">{links}</nav>', f"<main>{bodies}</main>",
            f'<script type="application/json" id="data">{self.data()}</script>',
            f"<script>{script}</script></body></html>", "",
        ])

    def about(self):
        objects, size = self.findings.objects[0], self.findings.bytes[0]
        return f"Heap report: {count_of(objects, 'live object')}, {size_text(size)}"

    # ---- what is there

    def summary(self):
        counts, sizes = self.picture.sums()
        spans = [(key, of, counts[key, of], sizes[key, of]) for key, of in counts]
        free = [(many, size) for key, _, many, size in spans if key == 0]
        used = sum(size for key, _, _, size in spans if key)
        live, size = self.findings.objects[0], self.findings.bytes[0]
        unreached = len(self.heap.addresses) - live
        cards = [
            (size_text(size), f"retained by roots, in {count_of(live, 'object')}"),
            (size_text(used), f"used by all {count_of(len(self.heap.addresses), 'object')}"
             + (f", {number(unreached)} of them unreachable" if unreached else "")),
            (size_text(sum(size for _, size in free)), f"free, in {count_of(sum(many for many, _ in free), 'item')}"),
            (size_text(sum(one.reserved for one in self.image.segments)),
             f"reserved, in {count_of(len(self.image.segments), 'segment')}"),
            (number(len(self.findings.by_type)), "types of live objects"),
        ]
        tiles = "".join(f"<div><dt>{html.escape(what)}</dt><dd>{value}</dd></div>" for value, what in cards)
        handles = Counter(handle.kind for handle in self.image.handles)
        rows = [(f"{kind} handles", count_cell(handles[kind])) for kind in sorted(handles)]
        rows += [
            ("objects registered for finalisation", count_cell(len(self.image.entries))),
            ("objects that wait for their finaliser (f-reachable)", count_cell(len(self.image.ready))),
        ]
        note = ""
        if self.heap.has_own:
            note = ("<p>Bytes are those that the dumped program’s runtime gave the objects. "
                    "The first number counts these, the second one the heap that was made of the dump.</p>")
        return f"<dl class=\"tiles\">{tiles}</dl>{note}" + table(
            "Handles and finaliser queues", [("What", False), ("Count", True)], rows,
        )

    # ---- suspects

    def suspects(self):
        found = self.findings.compared(self.older) if self.older else [(one, None) for one in self.findings.suspects()]
        if not found:
            return (f"<p>No object, and no objects of one type side by side, retain {100 * SUSPECT:.0f} % of the heap: "
                    "nothing stands out.</p>")
        total = sum(one.bytes for one, _ in found)
        head = (f"<p>{count_of(len(found), 'suspect')}. Together they retain "
                f"{share(self.findings.percent(min(total, self.findings.bytes[0])))} of the heap.</p>")
        return head + "\n".join(self.suspect(at, one, then) for at, (one, then) in enumerate(found, 1))

    def suspect(self, at, one, then):
        name = self.kind_names[one.kind] if one.kind else self.findings.name(one.vertex)
        percent = self.findings.percent(one.bytes)
        who = f"{number(one.count)} instances of {named(name)} retain" if one.kind else f"One {named(name)} retains"
        words = (f"{who} <b>{share(percent)}</b> of the heap, {size_text(one.bytes)} in "
                 f"{count_of(one.objects, 'object')}")
        if one.held:
            kind, many, _, kept = one.held[0]
            words += f", {size_text(kept)} of it through {number(many)} × {named(self.kind_names[kind])}"
        change = ""
        if self.older:
            change = ' <span class="badge new">new</span>' if then is None else (
                f' <span class="badge">{signed(one.bytes - then)} bytes since the older image</span>')
        held = [(named(self.kind_names[kind]), count_cell(many), count_cell(size), share(self.findings.percent(size)))
                for kind, many, _, size in one.held[:6]]
        inside = [(named(self.kind_names[kind]), count_cell(many), count_cell(size),
                   share(self.findings.percent(size))) for kind, many, size in one.inside[:8]]
        heads = [("Type", False), ("Count", True)]
        shows = ""
        if one.vertex in self.number_of:
            node = self.number_of[one.vertex]
            button = element("button", "Show it in the dominator tree", type="button", class_="reveal", data_node=node)
            shows = f"<p>{button}</p>"
        bar = f'<div class="meter"><i style="width:{percent:.1f}%"></i></div>'
        return element("article", "\n".join([
            f"<h3>{at}. {self.owner(one)} <span class=\"big-share\">{share(percent)}</span>{change}</h3>", bar,
            f"<p>{words}.</p>", "<h4>Path from a root</h4>", self.chain(self.findings.short_chain(one.vertex)), shows,
            '<div class="pair">',
            table("Immediately dominated", [*heads, ("Retained", True), ("Share", True)], held) if held else "",
            table("Everything that it retains", [*heads, ("Own bytes", True), ("Share", True)], inside),
            "</div>",
        ]), class_="suspect")

    def owner(self, suspect):
        """The field that retains it: of the last object on the chain that isn't one of the runtime's own
        collections."""
        for step in reversed(self.findings.short_chain(suspect.vertex)[:-1]):
            name = self.findings.name(step.vertex)
            if not name.startswith(LIBRARIES) and not is_table(name) and not step.way.startswith("[") and step.way:
                return named(f"{readable_root(name)}.{step.way}")
        name = self.findings.name(suspect.vertex)
        return named(readable_root(name) if is_static(name) else short(name))

    def chain(self, steps):
        """A chain from a root on. What is in the middle of a long one is left out."""
        lines, left = [], len(steps) - MOST_CHAIN
        shown = steps if left <= 0 else [*steps[:MOST_CHAIN // 2], None, *steps[len(steps) - MOST_CHAIN // 2:]]
        for step in shown:
            if step is None:
                lines.append(f"<li>… {count_of(left, 'object')} more …</li>")
                continue
            name, text = self.findings.name(step.vertex), self.findings.text(step.vertex)
            way = f' <span class="way">.{told(step.way)}</span>' if step.way and not step.way.startswith("[") else (
                f' <span class="way">{told(step.way)}</span>' if step.way else "")
            kept = f'<span class="dim">{size_text(self.findings.bytes[step.vertex])}</span>'
            said = f' <q>{told(text)}</q>' if text else ""
            address = f'<span class="dim code">{self.findings.address(step.vertex):016x}</span>'
            lines.append(f"<li>{named(readable_root(name))}{way}{said} {kept} {address}</li>")
        root = self.findings.roots_by_vertex().get(steps[0].vertex)
        of_table = is_table(self.findings.name(steps[0].vertex))
        head = f"<li class=\"root\">root {told(root[0])}</li>" if root and not of_table else ""
        return f"<ol class=\"chain\">{head}{''.join(lines)}</ol>"

    # ---- growth

    def growth(self):
        rows = self.findings.growth(self.older)
        objects = self.findings.objects[0] - self.older.objects[0]
        size = self.findings.bytes[0] - self.older.bytes[0]
        head = f"<p>Since the older image: <b>{signed(objects)}</b> objects, <b>{signed(size)}</b> bytes.</p>"
        gone = self.gone()
        shown = table("Types by change", [
            ("Type", False), ("Objects, change", True), ("Bytes, change", True), ("Objects now", True),
            ("Bytes now", True),
        ], [(named(name), (signed(many), many), (signed(more), more), count_cell(now), count_cell(bytes_now))
            for many, more, now, bytes_now, name in rows[:MOST_GROWTH]],
            class_="sortable", data_filter="types that changed")
        return head + gone + shown + cut_note(len(rows), MOST_GROWTH, "types that changed")

    def gone(self):
        """The suspects of the older image that retain much less now."""
        lines = []
        for one in self.older.suspects():
            now = self.findings.bytes_of(self.older.signature(one), self.older.kind_names_of(one), bool(one.kind))
            if now is None or now < one.bytes / 2:
                lines.append(one)
        if not lines:
            return ""
        told_ones = "".join(f"<li>{named(self.older.name(one.vertex))}, {size_text(one.bytes)}</li>" for one in lines)
        head = "What retained much in the older image, and retains less than half of it now:"
        return f"<p>{head}</p><ul>{told_ones}</ul>"

    # ---- the tree

    def tree(self):
        least = self.least * self.findings.bytes[0]
        return "\n".join([
            "<p>Each object stands below its immediate dominator: without that it would be free. <b>Retained</b> is "
            "what would be freed with it, <b>own</b> is its shallow size. Click a block to look into it, or use the "
            "arrow keys.</p>",
            '<h3>Map of retained bytes</h3>'
            '<div class="tools"><button type="button" id="up" disabled>Up one level</button>'
            '<span id="crumbs" aria-live="polite"></span></div>',
            '<div id="icicle" role="group" aria-label="Retained bytes as an icicle: wide blocks retain much"></div>',
            '<h3>Tree</h3>'
            '<div class="wide" tabindex="-1"><table id="dominators" role="treegrid" aria-label="Dominator tree">'
            '<caption>Dominator tree</caption>'
            '<thead><tr><th scope="col" class="text">Object</th><th scope="col" class="num">Share</th>'
            '<th scope="col" class="num">Retained</th><th scope="col" class="num own">Own</th>'
            '<th scope="col" class="num own">Objects</th></tr></thead><tbody></tbody></table></div>',
            "<noscript><p>The tree and the icicle need JavaScript; all else on this page doesn’t.</p></noscript>",
            f"<p class=\"dim\">Shown are {number(len(self.nodes) - 1)} of "
            f"{count_of(self.findings.objects[0], 'object')}. "
            f"What retains less than {number(int(least))} bytes ({100 * self.least:g} % of the heap) is summed up by "
            "type in rows that begin with a count.</p>",
        ])

    def data(self):
        """The tree for the script: columns, and what was cut."""
        findings, names, ways, texts = self.findings, Strings(), Strings(), {}
        slots = {}
        columns = {key: [] for key in ("above", "name", "way", "address", "retained", "own", "objects")}
        cut = []
        for at, node in enumerate(self.nodes):
            one = node.vertex
            columns["above"].append(node.above)
            columns["name"].append(names.number(readable_root(findings.name(one)) if one else "all roots"))
            columns["way"].append(ways.number(self._way(one, slots)))
            columns["address"].append(f"{findings.address(one):x}" if one else "")
            columns["retained"].append(findings.bytes[one])
            columns["own"].append(findings.sizes[one])
            columns["objects"].append(findings.objects[one])
            text = findings.text(one) if one else ""
            if text:
                texts[at] = clean(text)
            for kind, many, objects, size in node.cut[:4]:
                cut.append((at, names.number(self.kind_names[kind]), many, objects, size))
            if node.cut[4:]:
                rest = [sum(row[column] for row in node.cut[4:]) for column in (1, 2, 3)]
                cut.append((at, names.number(f"objects of {count_of(len(node.cut) - 4, 'other type')}"), *rest))
        found = {**columns, "names": names.texts, "ways": ways.texts, "texts": texts, "cut": cut}
        text = json.dumps(found, separators=(",", ":"), ensure_ascii=True)
        return text.replace("&", "\\u0026").replace("<", "\\u003c").replace(">", "\\u003e")

    def _way(self, vertex, slots):
        """How the dominator of a vertex refers to it. The slots of one are looked at once, as there may be many."""
        above = self.findings.dominator[vertex]
        if not vertex or not above:
            return ""
        if above not in slots:
            one = self.findings.graph.order[above]
            slots[above] = {held: slot for slot, held in self.heap.slots(one)}
        slot = slots[above].get(self.findings.graph.order[vertex])
        return "" if slot is None else self.heap.slot_name(self.findings.graph.order[above], slot)

    # ---- types, roots, segments

    def types(self):
        rows = [
            (named(self.kind_names[kind]), count_cell(count), count_cell(size), count_cell(retained),
             (share(self.findings.percent(retained)), retained))
            for retained, _, count, size, kind in self.findings.by_type[:MOST_TYPES]
        ]
        head = ("<p>What all objects of a type have of their own, and what would be freed if all of them went, "
                "together.</p>")
        shown = head + table("Types of live objects", [
            ("Type", False), ("Objects", True), ("Own bytes", True), ("Retained", True), ("Share", True),
        ], rows, class_="sortable", data_filter="types")
        return shown + cut_note(len(self.findings.by_type), MOST_TYPES, "types")

    def roots(self):
        findings, groups = self.findings, {}
        handles = {f"h{handle.number}": handle.kind for handle in self.image.handles}
        for name, one in self.heap.roots:
            vertex, letter = findings.graph.rank[one], name[:1]
            kind = KINDS_OF_ROOTS.get(letter, "root")
            if letter == "h":
                kind = f"{handles[name]} handle"
            elif letter == "t":
                kind = f"local variable of thread {name.split(' ')[0]}"
            groups.setdefault(kind, []).append(vertex)
        rows = []
        for kind, vertices in groups.items():
            size = sum(findings.bytes[one] for one in set(vertices))
            rows.append((size, html.escape(kind), len(vertices)))
        tables = {kind for kind, name in enumerate(self.kind_names) if name.startswith("Roots.")}
        for vertex in [one for one, kind in enumerate(findings.kinds) if kind in tables]:
            name = readable_root(findings.name(vertex))
            rows.append((findings.bytes[vertex], named(name), len(findings.graph.forwards(vertex))))
        rows.sort(key=lambda row: (-row[0], row[1]))
        shown = table("Roots by kind", [("Kind", False), ("Roots", True), ("Retained by what they name", True),
                                        ("Share", True)],
                      [(kind, count_cell(many), count_cell(size), (share(findings.percent(size)), size))
                       for size, kind, many in rows[:MOST_ROOTS]], class_="sortable")
        return shown + cut_note(len(rows), MOST_ROOTS, "kinds of roots") + (
            "<p class=\"dim\">An object that several roots reach is retained by none of them alone.</p>")

    def segments(self):
        heads = [("Base", False), ("Kind", False), ("Used", True), ("Free inside", True), ("Reserved", True)]
        rows = []
        for segment in self.picture.segments:
            spans = self.picture.spans[segment.base]
            free = sum(end - start for start, end, key in zip(spans.starts, spans.ends, spans.keys) if key == 0)
            used = segment.end - segment.first
            rows.append((f'<span class="code">{segment.base:016x}</span>', segment.kind, count_cell(used),
                         count_cell(free), count_cell(segment.reserved)))
        drawn = load_tool("heap-picture").draw([self.picture], "Where objects stand", PICTURE_ROWS)
        head, style, rest = drawn.partition("<style>")[0], *drawn.partition("<style>")[2].split("</style>", 1)
        style = re.sub(r"(^|} )(?=[.a-z]+ {)", r"\1.drawn ", style, flags=re.MULTILINE)
        drawn = f"{head}<style>{style}</style>{clean_picture(rest)}"
        note = ""
        if any(map(is_table, self.kind_names)):
            note = ("<p>These are the segments of the heap that was made of the dump, not those of the dumped program: "
                    "addresses, generations and free space are its own.</p>")
        return note + table("Segments of the heap", heads, rows) + (
            f'<div class="wide drawn" tabindex="0" role="region" aria-label="Picture of the segments">{drawn}</div>')


def clean_picture(text):
    """A picture in which what isn't printable is left out: its names are escaped already."""
    return "".join(one if one.isprintable() or one == "\n" else "\N{REPLACEMENT CHARACTER}" for one in text)


class Strings:
    """Texts by numbers, each once."""

    def __init__(self):
        self.texts, self.numbers = [], {}

    def number(self, text):
        if text not in self.numbers:
            self.numbers[text] = len(self.texts)
            self.texts.append(clean(text))
        return self.numbers[text]


OF_THREADS = {
    "Roots.thread.": "thread ", "Roots.stack.": "stack of the thread ",
    "Roots.threadstatic.": "thread static fields of the thread ",
}


def readable_root(name):
    """What people call a table with which a converter of dumps stands for roots or static fields."""
    if name == "Roots":
        return "all roots of the dump"
    for kind, told in OF_THREADS.items():
        if name.startswith(kind):
            return told + name.removeprefix(kind)
    if name.startswith("Roots."):
        return "roots: " + name.removeprefix("Roots.")
    if name.startswith("static."):
        return "class " + name.removeprefix("static.")
    return "class object" if name == "static" else name


def short(name):
    """A name without its packages."""
    head = name.split("<")[0].split("[")[0]
    return name[head.rfind(".") + 1:] or name


def cut_note(count, most, what):
    return f"<p class=\"dim\">Shown are the first {number(most)} of {number(count)} {what}.</p>" if count > most else ""


def picture_of(heap):
    """The heap as `heap-picture` draws it. Kinds are those of the graph."""
    image = heap.image
    segments = [Segment(one.base, one.kind, one.end, one.reserved, one.start1, one.start0) for one in image.segments]
    picture = Picture(segments, image.limit)
    picture.names += heap.kind_names[1:]
    picture.pins = {handle.target for handle in image.handles if handle.kind == "pinned" and handle.target}
    kinds, at = heap.kinds, 0
    for segment in image.segments:
        spans = picture.spans[segment.base] = Spans()
        starts, ends, keys, first = spans.starts.append, spans.ends.append, spans.keys.append, segment.first
        for word, kind, size in walk(image, segment):
            start = first + 8 * word
            starts(start)
            ends(start + size)
            if kind:
                keys(kinds[at] + 2)
                at += 1
            else:
                keys(0)
    return picture
