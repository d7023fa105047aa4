"""What lies where among the addresses of a program. Not proved."""

from bisect import bisect_left, bisect_right


class Spans:
    """Disjoint spans from start to end, in rising order, each with a value; neighbours with one value are one.
    Each question and each change is a search, however many spans there are."""

    def __init__(self, rows=()):
        self.starts, self.ends, self.values = map(list, zip(*rows)) if rows else ([], [], [])

    def __iter__(self):
        return zip(self.starts, self.ends, self.values)

    def __bool__(self):
        return bool(self.starts)

    def copy(self):
        return Spans(list(self))

    def places(self, start, end):
        """The places, from one up to another, of the spans that have an address from start to end."""
        first = bisect_right(self.ends, start)
        return first, max(first, bisect_left(self.starts, end))

    def between(self, start, end):
        """(start, end, value) of what of the spans lies from start to end."""
        return [(max(start, self.starts[place]), min(end, self.ends[place]), self.values[place])
                for place in range(*self.places(start, end))]

    def gaps(self, start, end):
        """(start, end) of what lies from start to end, and in no span."""
        found, at = [], start
        for first, after, _ in self.between(start, end):
            if at < first:
                found.append((at, first))
            at = after
        return found + [(at, end)] * (at < end)

    def has(self, address):
        first, after = self.places(address, address + 1)
        return first < after

    def at(self, address):
        """The value there, or None."""
        first, after = self.places(address, address + 1)
        return self.values[first] if first < after else None

    def remove(self, start, end):
        first, after = self.places(start, end)
        if first == after or start >= end:
            return
        left = [(self.starts[first], start, self.values[first])] * (self.starts[first] < start)
        right = [(end, self.ends[after - 1], self.values[after - 1])] * (end < self.ends[after - 1])
        self.replace(first, after, left + right)

    def add(self, start, end, value=True):
        """In place of what lies there."""
        if start >= end:
            return
        self.remove(start, end)
        first = after = bisect_left(self.starts, start)
        if first and self.ends[first - 1] == start and self.values[first - 1] == value:
            first -= 1
            start = self.starts[first]
        if after < len(self.starts) and self.starts[after] == end and self.values[after] == value:
            end = self.ends[after]
            after += 1
        self.replace(first, after, [(start, end, value)])

    def replace(self, first, after, rows):
        self.starts[first:after] = [row[0] for row in rows]
        self.ends[first:after] = [row[1] for row in rows]
        self.values[first:after] = [row[2] for row in rows]
