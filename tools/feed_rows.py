"""What of a feed's rows is refused, and why, by the rules of docs/FORMATS.md ("Lines" and "Feeds").

Usage: from feed_rows import Rules, count_of, header_fault, rows_of. It shares no code with the program. Most rows are
judged by one regular expression, which takes accepted rows alone; what it does not take is judged field by field."""
import collections
import csv
import re

MARK = b"\xef\xbb\xbf"
LONGEST, MOST = 4096, 1 << 30
AT_ONCE = 1 << 22
DECIMAL = re.compile("[0-9]{1,20}")
# The plan that `demo` has built in.
DEMO = {"categories": [{"name": "kind", "values": ["a", "b"]}], "depth": 3, "start": 0, "width": 10}

# How many rows are accepted, blank and refused; how many for each fault, and the first line of each, with its number.
Counted = collections.namedtuple("Counted", "accepted blank refused faults first")


def letters_of(value):
    """A value as fields are read: each byte is a letter."""
    return value.encode().decode("latin-1")


class Rules:
    """What a plan says of the rows of its feeds."""

    def __init__(self, plan):
        self.side, self.start, self.width = 1 << plan["depth"], plan["start"], plan["width"]
        self.weight = plan.get("weight")
        self.values = {one["name"]: set(map(letters_of, one["values"])) for one in plan["categories"]}
        self.numbers = ["x", "y", "time"] + [self.weight] * (self.weight is not None)
        self.needed = self.numbers + list(self.values)


def record_of(line):
    """The fields of a line that is one record, or None. A carriage return outside quotes ends a record."""
    text = line.decode("latin-1").lstrip("\r")
    try:
        return next(csv.reader([text])) if text else None
    except csv.Error:
        return None


def header_of(line, rules):
    """The places of the needed columns in a feed's first line (its line feed left out), or why it is refused."""
    text = line[len(MARK) :] if line.startswith(MARK) else line
    text = text[:-1] if text.endswith(b"\r") else text
    fields = record_of(text) if len(line) <= LONGEST and text and not text.startswith(MARK) else None
    if fields is None:
        return "BadRow"
    for name in rules.needed:
        if name not in fields:
            return f"NoColumn({name})"
    for name in rules.needed:
        if fields.count(name) > 1:
            return f"TwoColumns({name})"
    return [fields.index(name) for name in rules.needed]


def number_of(field):
    return int(field) if DECIMAL.fullmatch(field) and int(field) < 1 << 64 else None


def fault_of_fields(fields, rules):
    """Why the needed fields are no point, or None."""
    numbers = [number_of(field) for field in fields[: len(rules.numbers)]]
    for name, number in zip(rules.numbers, numbers):
        if number is None:
            return f"BadNumber({name})"
    for name, number in zip("xy", numbers):
        if number >= rules.side:
            return f"BadTile({name})"
    for (name, values), field in zip(rules.values.items(), fields[len(numbers) :]):
        if field not in values:
            return f"UnknownValue({name})"
    if numbers[2] < rules.start:
        return "EarlyTime"
    if (numbers[2] - rules.start) // rules.width >= 1 << 32:
        return "LateTime"
    if rules.weight is not None and not 1 <= numbers[3] < 1 << 28:
        return f"BadWeight({rules.weight})"
    return None


def fault_of_line(line, places, rules):
    """Why a line after the header is no point, or None; a line that is blank has ''."""
    if len(line) > LONGEST:
        return "LongLine"
    line = line[:-1] if line.endswith(b"\r") else line
    if not line:
        return ""
    fields = None if line.startswith(MARK) else record_of(line)
    if fields is None:
        return "BadRow"
    if max(places) >= len(fields):
        return "ShortRow"
    return fault_of_fields([fields[place] for place in places], rules)


def at_most(number):
    """A pattern of decimals of no more digits than the number, and no greater."""
    digits = str(number)
    parts = [f"[0-9]{{1,{len(digits) - 1}}}"] * (len(digits) > 1)
    for at, digit in enumerate(digits):
        if digit > "0":
            parts.append(f"{digits[:at]}[0-{int(digit) - 1}][0-9]{{{len(digits) - at - 1}}}")
    return "|".join([*parts, digits])


def at_least(number):
    """A pattern of decimals without zeros before them, and no less than the number."""
    digits = str(number)
    parts = [f"[1-9][0-9]{{{len(digits)},}}"]
    for at, digit in enumerate(digits):
        if digit < "9":
            parts.append(f"{digits[:at]}[{int(digit) + 1}-9][0-9]{{{len(digits) - at - 1}}}")
    return "|".join([*parts, digits])


def quick_pattern(places, rules):
    """A pattern that takes only points, if its groups are values: the categories, in the order of the columns."""
    latest = min(rules.start + (rules.width << 32) - 1, (1 << 64) - 1)
    time = f"(?:{at_most(latest)})"
    if rules.start:
        time = f"(?=(?:{at_least(rules.start)})(?![0-9])){time}"
    tile = f"(?:{at_most(rules.side - 1)})"
    kinds = {"x": tile, "y": tile, "time": time}
    if rules.weight is not None:
        kinds[rules.weight] = f"(?!0+(?![0-9]))(?:{at_most((1 << 28) - 1)})"
    kinds.update({name: '([^",\\r]*)' for name in rules.values})
    columns = ['[^",\\r]*'] * (max(places) + 1)
    for name, place in zip(rules.needed, places):
        columns[place] = kinds[name]
    return re.compile((",".join(columns) + '(?:,[^"\\r]*)?\\r?').encode("latin-1"))


def lines_of(file):
    """The lines of a feed, in lists. Of a line that is far too long only the front is kept."""
    rest = b""
    while block := file.read(AT_ONCE):
        lines = (rest + block).split(b"\n")
        rest = lines.pop()
        rest = rest[: LONGEST + 1] if len(rest) > AT_ONCE else rest
        if lines:
            yield lines
    if rest:
        yield [rest]


def unusual(lines, pattern, values, good):
    """The places of the lines that the pattern does not take, or whose categories are not known to be values."""
    for at, line in enumerate(lines):
        found = pattern.fullmatch(line)
        if found is None or len(line) > LONGEST:
            yield at
        elif found.groups() not in good:
            if all(text.decode("latin-1") in known for text, known in zip(found.groups(), values)):
                good.add(found.groups())
            else:
                yield at


def header_fault(path, rules):
    """Why the header of a plain file is refused, or None."""
    with open(path, "rb") as it:
        line = it.readline(LONGEST + 2)
    found = header_of(line.removesuffix(b"\n"), rules)
    return found if isinstance(found, str) else None


def rows_of(path):
    """How many lines of a plain file come after its header and are not blank."""
    rows = -1
    with open(path, "rb") as it:
        for lines in lines_of(it):
            rows += len(lines) - lines.count(b"") - lines.count(b"\r")
    return rows


def count_of(path, rules):
    """What of the rows of a plain file is accepted, blank and refused; or the fault of its header."""
    faults, first, number, good = collections.Counter(), {}, 0, set()
    places = None
    with open(path, "rb") as it:
        for lines in lines_of(it):
            if places is None:
                places = header_of(lines[0], rules)
                if isinstance(places, str):
                    return places
                pattern = quick_pattern(places, rules)
                order = [rules.values[name] for _, name in sorted(zip(places[len(rules.numbers) :], rules.values))]
                lines, number = lines[1:], 1
            for at in unusual(lines, pattern, order, good):
                fault = fault_of_line(lines[at], places, rules)
                if fault is not None:
                    faults[fault] += 1
                    first.setdefault(fault, (number + at + 1, lines[at]))
            number += len(lines)
    if places is None:
        return "BadRow"
    blank = faults.pop("", 0)
    refused = sum(faults.values())
    return Counted(number - 1 - blank - refused, blank, refused, faults, first)
