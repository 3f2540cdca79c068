"""The rows of a CSV as lines of a feed: places as tiles, dates as instants, values as labels. `prepare` calls it.

    source = Source(columns, reader)           # a Columns of folder.py, and a csv.reader whose first row is the header
    source.write(file)                         # a line of each record, without a header, in the CSV's order
    source.records, source.refused, source.first, source.last, source.values

The time of a line is its instant, in seconds since 1970, which is negative before. A row that gives no record is refused for
one reason: `refused` has how many, and of the first its number and the value."""
import collections
import csv
import itertools
import math
import re
from math import asinh
from math import pi
from math import radians
from math import tan
from math import trunc

from dates import DateFault
from dates import Dates
from dates import FormFault
from dates import Kept
from dates import NOT_THERE
from dates import OTHER_FORM
from dates import SKIPPED
from folder import FolderFault
from folder import quoted

# Where the map ends: Web Mercator goes to 85.05113 degrees.
MOST_LATITUDE = 85.0511
MOST_WEIGHT = 2**28 - 1
# A column with more values is no category, and memory is to stay small.
MOST_VALUES = 100000
ROWS_AT_ONCE = 500
# What an empty field of a category is called.
NO_VALUE = "none"

SHORT, NO_PLACE, NO_NUMBER, OFF_MAP = "too short", "without coordinates", "with coordinates that are no numbers", "off the map"
NO_WEIGHT, NO_DATE, EARLY = "without a weight", "without a date", "before the start"
WRONG_FORM, WRONG_DATE = "with a date of another form", "with a date that does not exist"
SKIPPED_TIME = "at a local time that the zone skips"
# The form of a date that stands in three to six columns, as `joined` joins them.
PARTS = ["%Y", "-%m", "-%d", " %H", ":%M", ":%S"]


def form_of(columns):
    """The form of the dates: that of the line `time`, or that of three and more columns."""
    if columns.form or len(columns.time) < 3:
        return columns.form
    if len(columns.time) > len(PARTS):
        raise FolderFault("a date of more columns than year, month, day, hour, minute and second needs a form")
    return "".join([PARTS[0] if columns.century is None else "%y", *PARTS[1 : len(columns.time)]])


def dates_of(columns):
    try:
        return Dates(columns.zone, form_of(columns), columns.century)
    except FormFault as fault:
        raise FolderFault(f"the line `time`: {fault}") from None


def start_of(columns):
    """The instant of the line `start`, or none."""
    if columns.start is None:
        return None
    try:
        return Dates(columns.zone).instant_of(columns.start)
    except DateFault as fault:
        raise FolderFault(f"the line `start`: `{columns.start}` {fault}") from None


def place_of(name, header):
    """The place of a column in the header."""
    if header.count(name) == 1:
        return header.index(name)
    if name in header:
        raise FolderFault(f'the CSV has {header.count(name)} columns "{name}"')
    if set(name.split()) <= set(header):
        raise FolderFault(f'the CSV has no column "{name}"; several columns have commas between: {", ".join(name.split())}')
    raise FolderFault(f'the CSV has no column "{name}"; it has {", ".join(map(quoted, header))}'[:1000])


class OffMap(ValueError):
    """A place is not on the map."""


class Values(dict):
    """The values of one category: of each field of the CSV what stands in the feed's line, behind a comma. What no plan may have as
    a value stands there as an empty text, which is none, until the others are gathered."""

    def __init__(self, name, place):
        super().__init__()
        self.name, self.place = name, place
        # How many records have each field, and the fields that no plan may have.
        self.counts, self.wrong = collections.Counter(), set()

    def __missing__(self, field):
        if len(self) >= MOST_VALUES:
            raise FolderFault(f"the category `{self.name}` has more than {MOST_VALUES} values")
        if len(field.encode()) > 64 or re.search(r'["\x00-\x1f\x7f]', field):
            self.wrong.add(field)
            self[field] = ',""'
        else:
            self[field] = f',"{field or NO_VALUE}"'
        return self[field]

    def totals(self):
        """How many records have each value."""
        totals = dict(self.counts)
        if "" in totals:
            totals[NO_VALUE] = totals.get(NO_VALUE, 0) + totals.pop("")
        return totals


class Source:
    """A CSV that is read once, some rows at a time: a batch is worked on column by column, which is many times faster than
    row by row. A batch in which something is wrong is cut in two, down to the row that is wrong."""

    def __init__(self, columns, reader):
        self.columns, self.reader, self.size = columns, reader, 2**columns.depth
        header = [name.strip() for name in next(reader, [])]
        if not header:
            raise FolderFault("the CSV is empty: it has no header")
        self.time = [place_of(name, header) for name in columns.time]
        self.latitude, self.longitude = place_of(columns.latitude, header), place_of(columns.longitude, header)
        self.weight = place_of(columns.weight[1], header) if columns.weight else None
        self.values = [Values(name, place_of(column, header)) for name, column in columns.categories]
        # How many fields a row needs.
        self.needed = 1 + max([*self.time, self.latitude, self.longitude, self.weight or 0, *(it.place for it in self.values)])
        self.dates, self.earliest = dates_of(columns), start_of(columns)
        # The columns and rows of tiles, written out with what stands before and behind them in a feed.
        self.columns_out, self.rows_out = Kept(lambda x: f"\n{x},"), Kept(lambda y: f"{y},")
        self.records = self.doubled = 0
        # Of each reason how many rows, the number of the first and its value.
        self.refused = {}
        # The least and the greatest instant, x and y.
        self.first = self.west = self.north = math.inf
        self.last = self.east = self.south = -math.inf

    def write(self, sink):
        """Writes a line of each record."""
        number, needed, latitude, longitude = 2, self.needed, self.latitude, self.longitude
        while rows := self.next_rows(number):
            numbers = range(number, number + len(rows))
            number += len(rows)
            # What is most often lacking is looked for here, so that few batches fail.
            placed = [cells for cells in rows if len(cells) >= needed and cells[latitude] and cells[longitude]]
            if len(placed) < len(rows):
                numbers = self.refuse_unplaced(rows, numbers)
            if placed:
                sink.writelines(self.lines_of(placed, numbers))

    def next_rows(self, number):
        """The next rows of the CSV, of which the first has this number."""
        rows = []
        try:
            rows.extend(itertools.islice(self.reader, ROWS_AT_ONCE))
        except csv.Error as fault:
            at = f"row {number + len(rows)} of the CSV, which ends in line {self.reader.line_num}"
            raise FolderFault(f"{at}: {fault}") from None
        return rows

    def refuse_unplaced(self, rows, numbers):
        """Refuses the rows that are too short or have no coordinates, and gives the numbers of the others."""
        kept = []
        for cells, number in zip(rows, numbers):
            if len(cells) >= self.needed and cells[self.latitude] and cells[self.longitude]:
                kept.append(number)
            else:
                self.refuse(cells, number)
        return kept

    def lines_of(self, rows, numbers):
        """The lines of some rows, which have these numbers."""
        try:
            yield self.batch(rows)
        except ValueError:
            if len(rows) == 1:
                self.refuse(rows[0], numbers[0])
                return
            half = len(rows) // 2
            yield from self.lines_of(rows[:half], numbers[:half])
            yield from self.lines_of(rows[half:], numbers[half:])

    def batch(self, rows):
        """The lines of rows that are all right; else it fails, and changes nothing."""
        fields = list(zip(*rows))
        instants = self.instants_of(fields, len(rows))
        xs, ys = tiles_of(fields[self.latitude], fields[self.longitude], self.size)
        weights = [] if self.weight is None else [[f",{weight_of(text)}" for text in fields[self.weight]]]
        labels = [list(map(values.__getitem__, fields[values.place])) for values in self.values]
        self.note(xs, ys, instants)
        for values in self.values:
            values.counts.update(fields[values.place])
        columns = [map(self.columns_out.__getitem__, xs), map(self.rows_out.__getitem__, ys), map(str, instants), *weights, *labels]
        # The texts of all columns in the order of the lines, which is quicker than to put each line together.
        texts = [""] * (len(columns) * len(rows))
        for at, column in enumerate(columns):
            texts[at :: len(columns)] = column
        return "".join(texts)[1:] + "\n"

    def instants_of(self, fields, number):
        """The instants of so many rows' dates."""
        if not self.time:
            return [0] * number
        instants = self.dates.instants_of(joined([fields[at] for at in self.time], self.columns.form))
        if self.earliest is not None and min(instants) < self.earliest:
            raise ValueError
        return instants

    def note(self, xs, ys, instants):
        """Counts records, and keeps the least and the greatest of each."""
        self.records += len(xs)
        self.doubled += self.dates.doubled
        self.west, self.east = min(self.west, min(xs)), max(self.east, max(xs))
        self.north, self.south = min(self.north, min(ys)), max(self.south, max(ys))
        self.first, self.last = min(self.first, min(instants)), max(self.last, max(instants))

    def refuse(self, cells, number):
        """Counts a row that gives no record, by the first reason that holds. An empty line is no row."""
        if cells:
            reason, value = self.reason_of(cells)
            self.refused.setdefault(reason, [0, number, value])[0] += 1

    def reason_of(self, cells):
        """Why a row gives no record, and the value that is wrong."""
        if len(cells) < self.needed:
            return SHORT, f"{len(cells)} fields"
        place = [cells[self.latitude].strip(), cells[self.longitude].strip()]
        try:
            tiles_of(place[:1], place[1:], self.size)
        except OffMap:
            return OFF_MAP, ",".join(place)
        except ValueError:
            return (NO_PLACE if "" in place else NO_NUMBER), ",".join(place)
        try:
            if self.weight is not None:
                weight_of(cells[self.weight])
        except ValueError:
            return NO_WEIGHT, cells[self.weight]
        return self.reason_of_date(joined([[cells[at]] for at in self.time], self.columns.form)[0])

    def reason_of_date(self, text):
        """The same where only the date is left."""
        if not text.strip(" -:?"):
            return NO_DATE, text
        try:
            self.dates.instant_of(text)
        except DateFault as fault:
            return {OTHER_FORM: WRONG_FORM, NOT_THERE: WRONG_DATE, SKIPPED: SKIPPED_TIME}[str(fault)], text
        return EARLY, text


def joined(parts, has_form):
    """The texts of dates whose parts stand in columns, with spaces between. Without a form, three and more columns are year, month,
    day, hour, minute and second. A part that is empty is no part of a date, though a day by itself would be one."""
    if len(parts) == 1:
        return parts[0]
    parts = [[text.strip() or "?" for text in texts] for texts in parts]
    if len(parts) > 2 and not has_form:
        parts = [map("-".join, zip(*parts[:3]))] + ([map(":".join, zip(*parts[3:]))] if len(parts) > 3 else [])
    return list(map(" ".join, zip(*parts)))


def tiles_of(latitudes, longitudes, size):
    """The columns and rows of tiles, as map servers number them, of places in degrees."""
    # Python takes 4_1.8 for a number.
    if "_" in "".join(latitudes) or "_" in "".join(longitudes):
        raise ValueError
    latitudes, longitudes = list(map(float, latitudes)), list(map(float, longitudes))
    if not (-MOST_LATITUDE <= min(latitudes) and max(latitudes) <= MOST_LATITUDE):
        raise OffMap
    east = max(longitudes)
    if not (-180 <= min(longitudes) and east <= 360):
        raise OffMap
    if east >= 180:
        longitudes = [longitude - 360 if longitude >= 180 else longitude for longitude in longitudes]
    xs = list(map(trunc, [(longitude + 180) / 360 * size for longitude in longitudes]))
    if max(xs) == size:
        # So near to 180 that the sum was rounded to 360.
        xs = [min(x, size - 1) for x in xs]
    # From the equator, tiles to an angle of 1 in the map's projection.
    middle, scale = size / 2, size / (2 * pi)
    return xs, list(map(trunc, [middle - north * scale for north in map(asinh, map(tan, map(radians, latitudes)))]))


def weight_of(text):
    """A whole number that a plan takes as a weight; 35.0, as some programs write it, is 35."""
    found = re.fullmatch(r"\s*([0-9]{1,12})(?:\.0*)?\s*", text, re.ASCII)
    if not found or not 1 <= int(found[1]) <= MOST_WEIGHT:
        raise ValueError
    return int(found[1])
