"""An export and the folder's `columns`, read by docs/FORMATS.md, "A folder of records", and compared with the plan and the feed
that were made of them. `audit` calls it.

    Export("FOLDER", "FOLDER/export.csv", plan).compare("FOLDER/out/feed.csv")    # a line, or a Disagreement"""
import array
import collections
import csv
import datetime
import glob
import itertools
import json
import math
import os
import re

from auditor.feeds import Feed
from auditor.instants import Clock
from auditor.instants import EPOCH
from auditor.instants import SECOND
from auditor.instants import UTC
from auditor.plans import Disagreement
from auditor.plans import is_value

MOST_LATITUDE, MOST_WEIGHT = 85.0511, 2**28 - 1
NUMBER = re.compile(r"\s*[+-]?(?:[0-9]+\.?[0-9]*|\.[0-9]+)(?:[eE][+-]?[0-9]+)?\s*")
WEIGHT = re.compile(r"\s*([0-9]{1,12})(?:\.0*)?\s*")
UNITS = {"": 1, "s": 1, "m": 60, "h": 3600, "d": 86400, "w": 604800}
# So near to a tile's side the last digit of a sine decides.
NEAR = 1e-6


class Words:
    """What the file `columns` says."""

    def __init__(self, path):
        self.lines = collections.defaultdict(list)
        with open(path, encoding="utf-8-sig") as file:
            for line in map(str.strip, file):
                if line and not line.startswith("#"):
                    word, _, rest = line.partition(" ")
                    self.lines[word].append(rest.strip())
        self.latitude, self.longitude = bare(self.only("latitude")), bare(self.only("longitude"))
        self.categories = [(line.partition(" ")[0], bare(line.partition(" ")[2].strip())) for line in self.lines["category"]]
        weight, _, column = self.only("weight", "").partition(" ")
        self.weight = (weight, bare(column.strip())) if weight else None
        self.zone, self.depth = bare(self.only("zone", "UTC")), int(self.only("depth", "16"))
        number, unit = re.fullmatch("([0-9]+)([smhdw]?)", self.only("width", "1h")).groups()
        self.width = int(number) * UNITS[unit]
        self.century = int(self.only("century", "0")) or None
        self.others = {}
        for line in self.lines["others"]:
            name, number, value = (line.split(None, 2) + ["", ""])[:3]
            self.others[name] = (int(number or 255), bare(value or "others"))
        self.time, self.form = time_of(self.only("time", ""))

    def only(self, word, without=None):
        found = self.lines[word] or [without]
        if len(found) > 1 or found[0] is None:
            raise Disagreement(f"`columns` has {len(self.lines[word])} lines `{word}`")
        return found[0]

    def clock(self):
        form = self.form
        if form is None and len(self.time) > 2:
            year = "%Y" if self.century is None else "%y"
            form = "".join([year, "-%m", "-%d", " %H", ":%M", ":%S"][: len(self.time)])
        return Clock(self.zone, form, self.century)


def bare(name):
    """A name without the quotes about it."""
    return name[1:-1].replace('""', '"') if re.fullmatch('"(?:[^"]|"")*"', name) else name


def time_of(text):
    """The columns and the form of the line `time`."""
    names, form = [], None
    while text:
        found = re.match(r'("(?:[^"]|"")*"|[^,"%]*?)\s*(,\s*|$|(?=\s\S*%|\s(?:milli)?seconds$|$))', text)
        names.append(bare(found[1]))
        text = text[found.end() :]
        if not found[2]:
            form, text = text.strip() or None, ""
    return names, form


class Records:
    """The records of an export: columns of numbers, in the rows' order."""

    def __init__(self, words, rows):
        self.words, self.clock = words, words.clock()
        self.rows, self.instants, self.weights = array.array("I"), array.array("q"), array.array("I")
        self.latitudes, self.longitudes = array.array("d"), array.array("d")
        # Of each category the number of each record's field, and the fields with their numbers.
        self.fields = [(array.array("I"), {}) for _ in words.categories]
        self.refused = 0
        earliest = words.only("start", "")
        self.earliest = Clock(words.zone, None, None).instant(bare(earliest)) if earliest else None
        self.take_header([name.strip() for name in next(rows, [])])
        for number, row in enumerate(rows, 2):
            if row and not self.take(number, row):
                self.refused += 1

    def take_header(self, header):
        names = [self.words.latitude, self.words.longitude, *self.words.time]
        names += [column for _, column in self.words.categories + [self.words.weight or ("", self.words.latitude)]]
        wrong = next((name for name in names if header.count(name) != 1), None)
        if wrong is not None:
            raise Disagreement(f'the export has {header.count(wrong)} columns "{wrong}"')
        self.latitude, self.longitude, *places = map(header.index, names)
        self.times, places = places[: len(self.words.time)], places[len(self.words.time) :]
        self.places, self.weight = places[:-1], places[-1] if self.words.weight else None
        self.least = 1 + max(map(header.index, names))

    def take(self, number, row):
        """Adds the record of a row, where it gives one."""
        if len(row) < self.least:
            return False
        place, weight = place_of(row[self.latitude], row[self.longitude]), 1
        if self.weight is not None:
            found = WEIGHT.fullmatch(row[self.weight])
            weight = int(found[1]) if found else 0
        instant = self.clock.instant(self.date(row)) if self.times else 0
        if place is None or not 1 <= weight <= MOST_WEIGHT or instant is None:
            return False
        if self.earliest is not None and instant < self.earliest:
            return False
        self.latitudes.append(place[0])
        self.longitudes.append(place[1])
        self.rows.append(number)
        self.instants.append(instant)
        self.weights.append(weight)
        for (column, fields), at in zip(self.fields, self.places):
            column.append(fields.setdefault(row[at], len(fields)))
        return True

    def date(self, row):
        if len(self.times) == 1:
            return row[self.times[0]]
        parts = [row[at].strip() for at in self.times]
        return " ".join(parts if len(parts) == 2 else filter(None, ["-".join(parts[:3]), ":".join(parts[3:])]))


def place_of(latitude, longitude):
    """A place that is on the map, or none."""
    if not NUMBER.fullmatch(latitude) or not NUMBER.fullmatch(longitude):
        return None
    latitude, longitude = float(latitude), float(longitude)
    if abs(latitude) > MOST_LATITUDE or not -180 <= longitude <= 360:
        return None
    return latitude, longitude - 360 if longitude >= 180 else longitude


class Export:
    def __init__(self, top, path, plan):
        self.words, self.plan = Words(os.path.join(top, "columns")), plan
        self.path = path or self.csv_of(top)
        with open(self.path, encoding="utf-8-sig", newline="") as file:
            rows = csv.reader(file, strict=True)
            try:
                self.records = Records(self.words, rows)
            except (csv.Error, UnicodeDecodeError) as fault:
                raise Disagreement(f"{self.path} about line {rows.line_num}: {fault}") from None

    def csv_of(self, top):
        if self.words.lines["file"]:
            return os.path.join(top, bare(self.words.only("file")))
        found = glob.glob(f"{glob.escape(top)}/*.csv")
        if len(found) != 1:
            raise Disagreement(f"{top} has {len(found)} files *.csv; name one after --export")
        return found[0]

    def compare(self, feed):
        """Goes through the feed, whose lines have to be the records in the order of time, and those of one time as they come."""
        records, plan = self.records, self.plan
        self.names = [self.names_of(*one) for one in zip(self.words.categories, records.fields)]
        origin = origin_beside(feed)
        self.compare_plan(origin)
        order = sorted(range(len(records.rows)), key=records.instants.__getitem__)
        # Of each category, which value of the plan a field is by its number.
        numbers = []
        for names, (_, fields), (_, values) in zip(self.names, records.fields, plan.categories):
            numbers.append([values.index(names[field]) for field in fields])
        for at, found in itertools.zip_longest(order, Feed(feed, plan)):
            if at is None:
                raise Disagreement(f"line {found[0]} of the feed is of no row of {self.path}")
            if found is None:
                raise Disagreement(f"row {records.rows[at]} of {self.path} is not in the feed")
            values = [of_field[column[at]] for of_field, (column, _) in zip(numbers, records.fields)]
            self.compare_line(at, found, records.instants[at] - origin, values)
        return f"{len(order)} records of {self.path}, {records.refused} rows refused, just these in the feed"

    def compare_line(self, at, found, time, values):
        line, (x, y, found_time, weight, *found_values) = found
        records, size = self.records, 2**self.plan.depth
        where = f"line {line} of the feed and row {records.rows[at]} of {self.path}"
        if found_time != time:
            raise Disagreement(f"{where}: the time is {found_time} and not {time}")
        left = (records.longitudes[at] + 180) / 360 * size
        top = size / 2 - math.asinh(math.tan(math.radians(records.latitudes[at]))) * size / (2 * math.pi)
        for name, number, side in (("x", x, left), ("y", y, top)):
            if number != int(side) and not -NEAR < side - number < 1 + NEAR:
                raise Disagreement(f"{where}: {name} is {number} and not {int(side)}")
        if weight != records.weights[at]:
            raise Disagreement(f"{where}: the weight is {weight} and not {records.weights[at]}")
        for (name, texts), value, wanted in zip(self.plan.categories, found_values, values):
            if value != wanted:
                raise Disagreement(f"{where}: {name} is {json.dumps(texts[value])} and not {json.dumps(texts[wanted])}")

    def names_of(self, category, column_and_fields):
        """Which value each field of a category becomes."""
        name, (column, fields) = category[0], column_and_fields
        counts, totals = collections.Counter(column), collections.Counter()
        for text, number in fields.items():
            totals[text or "none"] += counts[number]
        could = sorted(filter(is_value, totals), key=lambda text: (-totals[text], text))
        number, rest = self.words.others.get(name, (256, None))
        kept = set(could if len(totals) <= number and len(could) == len(totals) else could[:number])
        if rest is None and len(kept) < len(totals):
            raise Disagreement(f"the export has {len(totals)} values of {name}, and `columns` no line `others {name}`")
        return {text: (text or "none") if (text or "none") in kept else rest for text in fields}

    def compare_plan(self, origin):
        """Compares the members of the plan that follow from `columns` and the records."""
        words, plan = self.words, self.plan
        weight = words.weight[0] if words.weight else None
        pairs = [("depth", plan.depth, words.depth), ("width", plan.width, words.width), ("weight", plan.weight, weight)]
        pairs.append(("start", plan.start, self.start() - origin))
        pairs.append(("categories", [name for name, _ in plan.categories], [name for name, _ in words.categories]))
        for name, found, wanted in pairs:
            if found != wanted:
                raise Disagreement(f"the plan's {name} is {found} and not {wanted}")
        for (name, values), names in zip(plan.categories, self.names):
            wanted = sorted(set(names.values()))
            if values != wanted:
                one = next((value for value in sorted(set(values) ^ set(wanted))), values[0])
                raise Disagreement(f"the plan's values of {name} are not those of the export in their order, as {json.dumps(one)}")

    def start(self):
        """The instant at which bin 0 begins: that of the line `start`, or the Monday before the first record."""
        records = self.records
        if records.earliest is not None or not records.times or not records.rows:
            return records.earliest or 0
        first = EPOCH + min(records.instants) * SECOND
        if records.clock.zone is not None:
            first = first.replace(tzinfo=UTC).astimezone(records.clock.zone)
        monday = (first - datetime.timedelta(days=first.weekday())).replace(hour=0, minute=0, second=0, fold=0)
        if records.clock.zone is not None:
            monday = monday.astimezone(UTC).replace(tzinfo=None)
        return (monday - EPOCH) // SECOND


def origin_beside(feed):
    """The instant, in seconds since 1970, from which the feed's times count."""
    path = os.path.join(os.path.dirname(feed) or ".", "origin.json")
    if not os.path.exists(path):
        return 0
    with open(path, encoding="utf-8") as file:
        try:
            return (datetime.datetime.fromisoformat(json.load(file)["origin"].replace("Z", "")) - EPOCH) // SECOND
        except (ValueError, KeyError, TypeError, AttributeError):
            raise Disagreement(f"{path} has no origin as 1970-01-01T00:00:00Z") from None
