"""Values that hold over ranges of bits, however long these are."""

import bisect
import heapq


class Stretches:
    """Ranges (first, end, value), in the order of a list: each value holds from `first` on and before `end`, and where
    ranges overlap the one later in the list counts."""

    def __init__(self, ranges):
        self.edges, self.values = [], []  # from each edge on up to the next one
        self.values_put = {}
        waiting = sorted(((first, place) for place, (first, _, _) in enumerate(ranges)), reverse=True)
        holding = []  # a heap, of which the range latest in the list comes first
        for edge in sorted({edge for first, end, _ in ranges for edge in (first, end)}):
            while waiting and waiting[-1][0] <= edge:
                heapq.heappush(holding, -waiting.pop()[1])
            while holding and ranges[-holding[0]][1] <= edge:
                heapq.heappop(holding)
            self.edges.append(edge)
            self.values.append(ranges[-holding[0]][2] if holding else None)

    def at(self, bit):
        """The value that holds at this bit, or None."""
        if bit in self.values_put:
            return self.values_put[bit]
        place = bisect.bisect_right(self.edges, bit)
        return self.values[place - 1] if place else None

    def put(self, bit, value):
        """The value holds at this bit, in place of another."""
        self.values_put[bit] = value

    def next_change(self, bit):
        """The first bit above this one at which another value may hold; None where there is none."""
        later = [other for other in self.values_put if other > bit]
        place = bisect.bisect_right(self.edges, bit)
        return min(later + self.edges[place:place + 1], default=None)
