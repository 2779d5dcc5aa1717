"""An SVG picture, its measures, its colours, and words for numbers: for `heap-picture`."""
import html

WIDTH = 960
MARGIN = 36

PAPER, INK, FAINT, PALE = "#fcfbf8", "#2f3437", "#7b8085", "#efece5"
LINE = "#d9d5cc"
PIN = "#b5473c"


def count_of(value, word):
    return f"{value:,} {word}" + ("" if value == 1 else "s")


def size_text(value):
    """A size in the unit that reads best."""
    for unit, width in (("MiB", 1 << 20), ("KiB", 1 << 10)):
        if value >= width:
            return f"{value / width:.1f}".removesuffix(".0") + f" {unit}"
    return count_of(value, "byte")


def shorten(name, most=31):
    """A name of so many letters, without its front where it has more."""
    return name if len(name) <= most else "…" + name[1 - most:].lstrip(".")


class Picture:
    """The elements of an SVG picture, from the top down."""

    def __init__(self, title, width=WIDTH):
        self.title, self.width = title, width
        self.parts = []
        self.y = MARGIN

    def text(self, x, y, words, kind="", anchor="start", hint=""):
        style = f' class="{kind}"' if kind else ""
        side = "" if anchor == "start" else f' text-anchor="{anchor}"'
        inside = f"<title>{html.escape(hint, quote=False)}</title>" if hint else ""
        self.parts.append(f'<text x="{x:g}" y="{y:g}"{style}{side}>{inside}{html.escape(words, quote=False)}</text>')

    def rect(self, x, y, width, height, fill, more="", hint=""):
        inside = f"<title>{html.escape(hint, quote=False)}</title>" if hint else ""
        end = f">{inside}</rect>" if inside else "/>"
        size = f'width="{width:.2f}" height="{height:g}"'
        self.parts.append(f'<rect x="{x:.2f}" y="{y:g}" {size} fill="{fill}"{more}{end}')

    def path(self, steps, fill):
        """A path whose edges stay sharp, so that no seam is seen between its parts."""
        self.parts.append(f'<path d="{steps}" fill="{fill}" shape-rendering="crispEdges"/>')

    def line(self, x1, y1, x2, y2, colour, more=""):
        self.parts.append(f'<line x1="{x1:g}" y1="{y1:g}" x2="{x2:g}" y2="{y2:g}" stroke="{colour}"{more}/>')

    def pin(self, x, y):
        """A pin whose point is at this place."""
        self.parts.append(
            f'<path d="M{x:.2f} {y:g} l-1 -7 a4 4 0 1 1 2 0 z" fill="{PIN}" stroke="{PAPER}" stroke-width="0.8"/>'
        )

    def svg(self):
        height = self.y + MARGIN
        size = f'viewBox="0 0 {self.width} {height:g}" width="{self.width}" height="{height:g}"'
        mono = "font: 12px 'SF Mono', 'DejaVu Sans Mono', monospace"
        return "\n".join([
            f'<svg xmlns="http://www.w3.org/2000/svg" {size} role="img">',
            f"<title>{html.escape(self.title, quote=False)}</title>",
            "<style>",
            f"text {{ font: 13px 'Segoe UI', 'Helvetica Neue', 'DejaVu Sans', sans-serif; fill: {INK} }}",
            ".head { font-size: 22px } .name { font-size: 15px } .big { font-size: 18px }",
            f".faint {{ fill: {FAINT}; font-size: 12px }} .small {{ font-size: 11px; fill: {FAINT} }}",
            f".place {{ {mono}; fill: {FAINT} }} .long {{ font-size: 9.5px }}",
            "</style>",
            '<pattern id="free" width="6" height="6" patternUnits="userSpaceOnUse" patternTransform="rotate(45)">',
            '<rect width="6" height="6" fill="#ffffff"/>'
            '<path d="M0 0 v6" stroke="#d3cfc6" stroke-width="2"/></pattern>',
            f'<rect width="{self.width}" height="{height:g}" fill="{PAPER}"/>',
            *self.parts,
            "</svg>",
            "",
        ])
