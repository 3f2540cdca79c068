"""Lines, and the rows of a feed, read by docs/FORMATS.md, "Lines" and "Feeds". `audit` calls it.

    feed = Feed("FOLDER/north.csv", plan)
    for number, record in feed: ..           # the accepted rows: the line's number from 1, and the record
    feed.accepted, feed.blank, feed.refused  # how many, once all were read; feed.faults has the first five with their lines

A record is x, y, the time, the weight and then the numbers of the values."""
import csv
import operator

from auditor.plans import Disagreement

MARK = b"\xef\xbb\xbf"
MOST_LINE = 4096
MOST_BIN, MOST_WEIGHT, LIMIT = 2**32 - 1, 2**28 - 1, 2**64


def lines_of(path):
    """The lines of a file, each with its number from 1; a long line is none."""
    with open(path, "rb") as file:
        number, read = 0, file.readline
        while piece := read(MOST_LINE + 2):
            number += 1
            line, is_whole = (piece[:-1], True) if piece.endswith(b"\n") else (piece, len(piece) < MOST_LINE + 2)
            if len(line) > MOST_LINE:
                while not is_whole and (piece := read(MOST_LINE + 2)):
                    is_whole = piece.endswith(b"\n")
                yield number, None
                continue
            if number == 1 and line.startswith(MARK):
                line = line[len(MARK) :]
            yield number, line[:-1] if line.endswith(b"\r") else line


def fields_of(line):
    """The fields of a line, or none where it is not one record. Records without a byte are passed over."""
    if "\r" not in line:
        return line.split(",") if '"' not in line else next(csv.reader((line,)))
    records = []
    at = 0
    while at < len(line):
        if line[at] == "\r":
            at += 1
            continue
        record, at = record_at(line, at)
        records.append(record)
    return records[0] if len(records) == 1 else None


def record_at(line, at):
    """The fields of the record that begins at a place of a line, and the place behind it."""
    fields = []
    while True:
        field, at = field_at(line, at)
        fields.append(field)
        if line[at : at + 1] != ",":
            return fields, at
        at += 1


def field_at(line, at):
    """The field that begins at a place of a line, and the place of the comma or the end of the record behind it."""
    field = ""
    if line[at : at + 1] == '"':
        at += 1
        while at < len(line):
            end = line.find('"', at)
            if end < 0:
                return field + line[at:], len(line)
            field, at = field + line[at:end], end + 1
            if line[at : at + 1] != '"':
                break
            field, at = field + '"', at + 1
    end = min(place for place in (line.find(",", at), line.find("\r", at), len(line)) if place >= 0)
    return field + line[at:end], end


class Refused(Exception):
    """Why a row gives no record: a fault as the report prints it."""


def number_of(text, name):
    if text.isascii() and text.isdigit() and len(text) <= 20 and (number := int(text)) < LIMIT:
        return number
    raise Refused(f"BadNumber({name})")


def text_of(line):
    """A line as a text with a character for each of its bytes, whatever these are."""
    return line.decode("latin-1")


class Feed:
    def __init__(self, path, plan):
        self.path, self.plan, self.size = path, plan, 2**plan.depth
        self.numbers = [{text_of(value.encode()): number for number, value in enumerate(values)} for _, values in plan.categories]
        self.names = [name for name, _ in plan.categories]
        self.accepted = self.blank = self.refused = 0
        self.faults = []

    def __iter__(self):
        lines = lines_of(self.path)
        self.take_header(next(lines, (1, None))[1])
        for number, line in lines:
            if line == b"":
                self.blank += 1
                continue
            try:
                record = self.record(line)
            except Refused as fault:
                self.refused += 1
                if len(self.faults) < 5:
                    self.faults.append((number, str(fault)))
                continue
            self.accepted += 1
            yield number, record

    def take_header(self, line):
        """Finds the needed columns in the first line."""
        header = fields_of(text_of(line)) if line and not line.startswith(MARK) else None
        if header is None:
            raise Disagreement(f"feed {self.path}: its header is refused: BadRow")
        columns = self.plan.columns()
        for fault, is_wrong in (("NoColumn", lambda count: count == 0), ("TwoColumns", lambda count: count > 1)):
            wrong = next((name for name in columns if is_wrong(header.count(name))), None)
            if wrong:
                raise Disagreement(f"feed {self.path}: its header is refused: {fault}({wrong})")
        self.pick = operator.itemgetter(*(header.index(name) for name in columns))

    def record(self, line):
        """The record of a line."""
        if line is None:
            raise Refused("LongLine")
        fields = None if line.startswith(MARK) else fields_of(text_of(line))
        if fields is None:
            raise Refused("BadRow")
        try:
            x, y, time, *rest = self.pick(fields)
        except IndexError:
            raise Refused("ShortRow") from None
        x, y, time, weight = number_of(x, "x"), number_of(y, "y"), number_of(time, "time"), 1
        if self.plan.weight:
            weight, *rest = number_of(rest[0], self.plan.weight), *rest[1:]
        if x >= self.size or y >= self.size:
            raise Refused("BadTile(x)" if x >= self.size else "BadTile(y)")
        try:
            values = [numbers[value] for numbers, value in zip(self.numbers, rest)]
        except KeyError:
            name = next(name for name, numbers, value in zip(self.names, self.numbers, rest) if value not in numbers)
            raise Refused(f"UnknownValue({name})") from None
        if time < self.plan.start:
            raise Refused("EarlyTime")
        if (time - self.plan.start) // self.plan.width > MOST_BIN:
            raise Refused("LateTime")
        if not 1 <= weight <= MOST_WEIGHT:
            raise Refused("BadWeight")
        return x, y, time, weight, *values
