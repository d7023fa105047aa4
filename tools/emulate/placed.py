"""The pages of an address space that are placed. Not proved."""

from .spans import Spans


class Placed(dict):
    """By page its node; and the runs that these pages make, so that what is asked of a span is a search."""

    def __init__(self, nodes=(), runs=None):
        super().__init__(nodes)
        self.runs = runs or Spans()

    def add(self, first, nodes):
        """A run of pages, in place of what is there."""
        self.update(zip(range(first, first + len(nodes)), nodes))
        self.runs.add(first, first + len(nodes))

    def between(self, first, after):
        return [page for low, high, _ in self.runs.between(first, after) for page in range(low, high)]

    def drop(self, first, after):
        """Gives the pages that are placed no more."""
        gone = self.between(first, after)
        for page in gone:
            del self[page]
        self.runs.remove(first, after)
        return gone

    def copy(self):
        return Placed(self, self.runs.copy())
