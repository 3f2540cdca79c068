"""The records of a journal as columns, and plain counts over the first of them. `audit` calls it.

    columns = Columns(plan)
    columns.add(x, y, bin, weight, values)     # of each record, in the journal's order
    columns.finish()
    columns.rows(query, 40)                    # the rows of the reply to a Query over the first 40 records

A count goes through all of these records, with nothing in between them and the sum: no tree, no order, no total that is kept.
So that this is quick in Python, each step is one call over a whole column: which records a filter leaves is a byte for each of
them, 1 or 0, and the bytes of several filters are ANDed as one long number."""
import array
import collections
import itertools
import sys

KEPT_LEVELS = 4


def planes_of(numbers):
    """The bytes of a column of numbers under 2^32: all lowest bytes, then all next ones, and so on."""
    numbers = array.array("I", numbers)
    if sys.byteorder == "big":
        numbers.byteswap()
    raw = numbers.tobytes()
    return [raw[place::4] for place in range(4)]


LOWER = [bytes(int(byte < digit) for byte in range(256)) for digit in range(256)]
SAME = [bytes(int(byte == digit) for byte in range(256)) for digit in range(256)]


def marks(number):
    """So many records, of which each is left."""
    return int.from_bytes(b"\1" * number, "little")


def below(planes, limit, number):
    """Which of the first records have less than a limit: decided by the lowest byte, then anew by each higher one."""
    if limit >= 2**32:
        return marks(number)
    left = 0
    for plane in planes:
        digit, limit, plane = limit % 256, limit // 256, plane[:number]
        left &= int.from_bytes(plane.translate(SAME[digit]), "little")
        left |= int.from_bytes(plane.translate(LOWER[digit]), "little")
    return left


def path_of(x, y):
    """A tile's place in path order, among those of its level."""
    return sum(((x >> level & 1) + 2 * (y >> level & 1)) << 2 * level for level in range(20))


class Columns:
    def __init__(self, plan):
        self.plan = plan
        self.x, self.y, self.bins = (array.array("I") for _ in range(3))
        self.weights = array.array("I") if plan.weight else None
        self.values = [bytearray() for _ in plan.categories]
        self.levels = {}

    def add(self, x, y, at, weight, values):
        self.x.append(x)
        self.y.append(y)
        self.bins.append(at)
        if self.weights is not None:
            self.weights.append(weight)
        for column, value in zip(self.values, values):
            column.append(value)

    def __len__(self):
        return len(self.x)

    def finish(self):
        self.planes = {"x": planes_of(self.x), "y": planes_of(self.y), "bin": planes_of(self.bins)}

    def kept(self, query, number):
        """Which of the first records the filters of a query leave: a byte for each, or none where all are left."""
        depth, (z, x, y), (begin, end) = self.plan.depth, query.tile, query.bins
        left, top, right, bottom = (side << depth - z for side in (x, y, x + 1, y + 1))
        if query.verb == "window":
            left, top, right, bottom = query.words
        if query.verb == "series":
            start, width, rows = query.words
            begin, end = start, start + rows * width
        size, sides = 2**depth, [("x", left, right), ("y", top, bottom), ("bin", begin, end)]
        found = marks(number)
        for name, low, high in sides:
            if (low, high) != (0, size) or name == "bin":
                found &= below(self.planes[name], high, number) & ~below(self.planes[name], low, number)
        for category, values in query.sets.items():
            table = bytes(int(value in values) for value in range(256))
            found &= int.from_bytes(self.values[category][:number].translate(table), "little")
        return found.to_bytes(number, "little")

    def total(self, kept):
        return kept.count(1) if self.weights is None else sum(itertools.compress(self.weights, kept))

    def totals(self, keys, kept):
        """The total of each key of the records that are left."""
        keys = itertools.compress(keys, kept)
        if self.weights is None:
            return collections.Counter(keys)
        totals = collections.Counter()
        for key, weight in zip(keys, itertools.compress(self.weights, kept)):
            totals[key] += weight
        return totals

    def tiles(self, level):
        """The tile of a level that each record is in, as one number."""
        if level not in self.levels:
            if len(self.levels) == KEPT_LEVELS:
                del self.levels[next(iter(self.levels))]
            up = self.plan.depth - level
            self.levels[level] = array.array("Q", [x >> up << 20 | y >> up for x, y in zip(self.x, self.y)])
        return self.levels[level]

    def rows(self, query, number):
        kept = self.kept(query, number)
        return getattr(self, query.verb)(query, kept)

    def count(self, query, kept):
        return [[self.total(kept)]]

    window = count

    def hist(self, query, kept):
        category = query.words[0]
        totals = self.totals(self.values[category], kept)
        return [[value, totals[number]] for number, value in enumerate(self.plan.categories[category][1])]

    def cross(self, query, kept):
        first, second = query.words
        totals = self.totals(zip(self.values[first], self.values[second]), kept)
        of_first, of_second = (enumerate(self.plan.categories[category][1]) for category in query.words)
        return [[one, other, totals[v, w]] for (v, one), (w, other) in itertools.product(of_first, of_second)]

    def series(self, query, kept):
        start, width, rows = query.words
        totals = [0] * rows
        for at, total in self.totals(self.bins, kept).items():
            totals[(at - start) // width] += total
        return [[start + row * width, total] for row, total in enumerate(totals)]

    def map(self, query, kept):
        level = query.tile[0] + query.words[0]
        totals = self.totals(self.tiles(level), kept)
        rows = [[level, tile >> 20, tile & 2**20 - 1, total] for tile, total in totals.items()]
        return sorted(rows, key=lambda row: path_of(row[1], row[2]))

    def best(self, query, kept):
        # (Python's sort leaves equal ones in the order that they have.)
        return sorted(self.map(query, kept), key=lambda row: -row[3])[: query.words[1]]
