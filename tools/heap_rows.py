"""Which part of a heap stands in which row of its picture: for `heap-picture`.

Heaps that stand side by side have the same rows: what stands beside one another has the same places.
"""
from bisect import bisect_left, bisect_right
from dataclasses import dataclass
from itertools import islice

LEAST_ROW = 4096
MOST_ROWS = 24
NEVER = 1 << 64


@dataclass
class Row:
    """A row: where it starts, and the numbers of the spans in it, for each heap. Or so many rows inside one span of
    each, which are drawn as one slim row. A heap that has nothing there has no spans."""

    start: int
    spans: list
    skipped: int = 0


class Part:
    """A segment of a heap, with its spans. `long` are the numbers of those that may have several whole rows inside."""

    def __init__(self, segment, spans):
        self.segment, self.spans = segment, spans
        least = 2 * LEAST_ROW
        self.long = [at for at, (start, end) in enumerate(zip(spans.starts, spans.ends)) if end - start > least]
        self.long_starts = [spans.starts[number] for number in self.long]

    def count(self, row_bytes):
        """How many rows it has."""
        return -(-(self.segment.end - self.segment.first) // row_bytes)

    def inside(self, index, row_bytes):
        """Where a whole row lies inside a span, between the rows in which this begins and ends: the span as a range,
        and the row in which it ends. Behind the end of the segment there is no span, and no end."""
        start = self.segment.first + index * row_bytes
        if start >= self.segment.end:
            return range(0), NEVER
        at = bisect_left(self.long_starts, start) - 1
        if at >= 0:
            number = self.long[at]
            last = (self.spans.ends[number] - 1 - self.segment.first) // row_bytes
            if index < last:
                return range(number, number + 1), last
        return None

    def within(self, start, row_bytes):
        """The numbers of the spans in a row."""
        return range(bisect_right(self.spans.ends, start), bisect_left(self.spans.starts, start + row_bytes))


def rows_of(parts, row_bytes):
    """The rows of segments of some heaps that have one base."""
    index, end, first = 0, max(part.count(row_bytes) for part in parts), parts[0].segment.first
    while index < end:
        start, inside = first + index * row_bytes, [part.inside(index, row_bytes) for part in parts]
        skipped = min(last for _, last in inside) - index if all(inside) else 0
        if skipped > 1:
            yield Row(start, [spans for spans, _ in inside], skipped)
        else:
            yield Row(start, [part.within(start, row_bytes) for part in parts])
        index += max(skipped, 1)


def choose_row_bytes(groups, most_rows=MOST_ROWS):
    """The least size of a row, a power of two, for which the picture has few rows. A group has one base."""
    row_bytes, most = LEAST_ROW, max(part.segment.reserved for parts in groups for part in parts)
    while row_bytes < most and not are_few(groups, row_bytes, most_rows):
        row_bytes *= 2
    return row_bytes


def are_few(groups, row_bytes, most_rows):
    rows = (row for parts in groups for row in rows_of(parts, row_bytes))
    return sum(1 for _ in islice(rows, most_rows + 1)) <= most_rows
