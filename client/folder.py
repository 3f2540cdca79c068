"""A folder of records: what its file `columns` says, and what `prepare` left in its `out/`: plan.json and origin.json.

docs/FORMATS.md, "A folder of records", has the form of these files. For whoever imports it:

    columns = read_columns("examples/city")      # a Columns: .time, .latitude, .categories and so on
    csv_of("examples/city", columns)             # the path of the CSV
    is_stale("examples/city")                    # whether out/ is missing, or older than the CSV, the scripts or `columns`
    plan = read_plan("examples/city/out/plan.json")
    calendar = Calendar(plan, read_origin("examples/city/out/plan.json"))
    calendar.bin_of_text("2024-02-01")           # the bin in which that date begins, in the folder's zone
    calendar.text_of(768)                        # "2024-02-02", where the bin begins; with hours where it is no midnight

What is wrong is a FolderFault, whose text is one line for a person."""
import csv
import datetime
import json
import os
import re
import zoneinfo
from dataclasses import dataclass
from dataclasses import field

EPOCH = datetime.datetime(1970, 1, 1, tzinfo=datetime.timezone.utc)
NAME = re.compile(r"[a-z0-9_]{1,32}")
FILE_NAME = re.compile(r"[A-Za-z0-9_-][A-Za-z0-9._-]{0,63}")
UNITS = {"": 1, "s": 1, "m": 60, "h": 3600, "d": 86400, "w": 604800}
# Words that may stand last in the line `time`, in the place of a form: the column counts these since 1970.
COUNTED = {"seconds": 1, "milliseconds": 1000}


class FolderFault(Exception):
    """What is wrong with a folder of records, in one line."""


@dataclass
class Columns:
    """What the file `columns` says. A column's name is a text; an absent line is None, or the value that stands here."""

    file: str = None
    time: list = field(default_factory=list)  # the columns that make the date; none: all records are in bin 0
    form: str = None  # a form as `%d/%m/%Y %H:%M`, or `seconds` or `milliseconds`
    zone: str = "UTC"
    century: int = None  # the first of the 100 years that two digits of a year mean
    latitude: str = None
    longitude: str = None
    categories: list = field(default_factory=list)  # pairs: the name in the plan, the column
    weight: tuple = None  # such a pair
    others: dict = field(default_factory=dict)  # a category's name: how many values keep their names, what the rest is called
    depth: int = 16
    width: int = 3600
    start: str = None
    batch: int = 65536
    scripts: list = None


def read_columns(folder):
    """The file `columns` of a folder."""
    path = os.path.join(folder, "columns")
    columns, seen = Columns(), set()
    for number, line in enumerate(lines_of(path), 1):
        line = line.strip()
        if not line or line.startswith("#"):
            continue
        word, _, rest = line.partition(" ")
        try:
            if word in seen and word not in ("category", "others"):
                raise FolderFault(f"a second line `{word}`")
            seen.add(word)
            take_line(columns, word, rest.strip())
        except FolderFault as fault:
            raise FolderFault(f"{path} line {number}: {fault}") from None
    check_columns(path, columns)
    return columns


def lines_of(path):
    try:
        with open(path, encoding="utf-8-sig") as it:
            return it.read().splitlines()
    except OSError as fault:
        raise FolderFault(f"{path}: {fault.strerror}") from None
    except UnicodeDecodeError:
        raise FolderFault(f"{path}: not UTF-8") from None


def take_line(columns, word, rest):
    """Puts what one line says into `columns`."""
    if not rest:
        raise FolderFault(f"nothing after `{word}`")
    if word in ("file", "zone", "start"):
        setattr(columns, word, only_name(rest))
    elif word in ("latitude", "longitude"):
        setattr(columns, word, only_name(rest))
    elif word in ("depth", "batch", "century"):
        limits = {"depth": (1, 20), "batch": (1, 65536), "century": (1, 9900)}
        setattr(columns, word, number_of(word, rest, *limits[word]))
    elif word == "width":
        columns.width = seconds_of(rest)
    elif word == "time":
        columns.time, columns.form = time_of(rest)
    elif word == "scripts":
        columns.scripts = rest.split()
    elif word in ("category", "weight"):
        name, _, column = rest.partition(" ")
        if not NAME.fullmatch(name):
            raise FolderFault(f"the name `{name}` has other characters than a to z, 0 to 9 and _, or more than 32")
        if not column.strip():
            raise FolderFault(f"no column after `{word} {name}`")
        pair = (name, only_name(column.strip()))
        if word == "weight":
            columns.weight = pair
        else:
            columns.categories.append(pair)
    elif word == "others":
        name, number, value = (rest.split(None, 2) + ["", ""])[:3]
        if name in columns.others:
            raise FolderFault(f"a second line `others {name}`")
        columns.others[name] = (number_of(f"others {name}", number or "255", 1, 255), only_name(value or "others"))
    else:
        raise FolderFault(f"no line begins with `{word}`")


def check_columns(path, columns):
    """What no single line shows."""
    for word in ("latitude", "longitude"):
        if getattr(columns, word) is None:
            raise FolderFault(f"{path}: no line `{word}`")
    names = ["x", "y", "time"] + [name for name, _ in columns.categories] + ([columns.weight[0]] if columns.weight else [])
    twice = next((name for name in names if names.count(name) > 1), None)
    if twice:
        raise FolderFault(f"{path}: two columns of the feed are called `{twice}`; x, y and time are always there")
    if len(columns.categories) > 4:
        raise FolderFault(f"{path}: {len(columns.categories)} categories; a plan takes 4")
    for name in columns.others:
        if name not in (known for known, _ in columns.categories):
            raise FolderFault(f"{path}: `others {name}`, and no category is called so")
    if columns.scripts and len(columns.scripts) > 8:
        raise FolderFault(f"{path}: {len(columns.scripts)} scripts; a plan takes 8")
    for name in columns.scripts or ():
        if not FILE_NAME.fullmatch(name):
            raise FolderFault(f"{path}: a plan takes no script of the name `{name}`")
    zone_of(columns.zone)


def names_of(text):
    """The names of columns in a line, with commas between; in quotes where a name has a comma, a quote or a %."""
    try:
        names = [name.strip() for name in next(csv.reader([text], skipinitialspace=True, strict=True))]
    except csv.Error:
        names = []
    if "" in names or not names:
        raise FolderFault(f"`{text}` names no column, or has a quote that does not end")
    return names


def only_name(text):
    """One name, in quotes or as it stands: a comma is one of its characters."""
    if re.fullmatch(r'"(?:[^"]|"")*"', text):
        return text[1:-1].replace('""', '"')
    return text


def time_of(rest):
    """The columns and the form of a line `time`. The form begins with the first word that has a %, outside of quotes."""
    bare = re.sub(r'"(?:[^"]|"")*"', lambda found: "_" * len(found[0]), rest)
    form, begin = None, re.search(r"(?:^|(?<=\s))\S*%", bare)
    if begin:
        rest, form = rest[: begin.start()], rest[begin.start() :].strip()
    else:
        head, _, last = rest.rpartition(" ")
        if last in COUNTED and head.strip() and not head.rstrip().endswith(","):
            rest, form = head, last
    return names_of(rest.strip()), form


def number_of(word, text, least, most):
    if not re.fullmatch(r"[0-9]{1,20}", text) or not least <= int(text) <= most:
        raise FolderFault(f"`{word}` takes a number from {least} to {most}, and not `{text}`")
    return int(text)


def seconds_of(text):
    """A width: seconds, or a number with s, m, h, d or w after it."""
    found = re.fullmatch(r"([0-9]{1,12})([smhdw]?)", text)
    if not found or int(found[1]) == 0:
        raise FolderFault(f"`width` takes seconds, or a number as 30m, 1h, 1d, 1w, and not `{text}`")
    return int(found[1]) * UNITS[found[2]]


def text_of_width(seconds):
    """A width as the line `width` takes it: 1h, 1d, 90s."""
    unit = next(unit for unit in "wdhms" if seconds % UNITS[unit] == 0)
    return f"{seconds // UNITS[unit]}{unit}"


def quoted(name):
    """A column's name as a line of `columns` takes it."""
    return '"' + name.replace('"', '""') + '"' if re.search('[,"%]', name) else name


def zone_of(name):
    """A time zone by its name in the IANA database."""
    try:
        return zoneinfo.ZoneInfo(name)
    except (ValueError, OSError, zoneinfo.ZoneInfoNotFoundError):
        raise FolderFault(f"no time zone is called `{name}`; they are called as Europe/Lisbon") from None


def csv_of(folder, columns):
    """The path of the folder's CSV: the one that `columns` names, or the only one there."""
    if columns.file:
        return os.path.join(folder, columns.file)
    found = sorted(name for name in os.listdir(folder) if name.endswith(".csv"))
    if len(found) != 1:
        raise FolderFault(f"{folder} has {len(found)} files *.csv; name one by a line `file NAME` in {folder}/columns")
    return os.path.join(folder, found[0])


def scripts_of(folder, columns):
    """The names of the folder's scripts: those that `columns` names, or all *.txt."""
    if columns.scripts is not None:
        return columns.scripts
    found = sorted(name for name in os.listdir(folder) if name.endswith(".txt"))
    if len(found) > 8 or not all(map(FILE_NAME.fullmatch, found)):
        raise FolderFault(f"{folder} has more than 8 files *.txt, or names that no plan takes; name some by a line `scripts NAME ..`")
    return found


def out_of(folder):
    return os.path.join(folder, "out")


def is_stale(folder):
    """Whether `prepare` has to be called: out/plan.json is missing, or something that it was made of is newer."""
    columns = read_columns(folder)
    sources = [os.path.join(folder, name) for name in ["columns", *scripts_of(folder, columns)]]
    try:
        made = os.stat(os.path.join(out_of(folder), "plan.json")).st_mtime_ns
        return any(os.stat(path).st_mtime_ns > made for path in [csv_of(folder, columns), *sources])
    except FileNotFoundError:
        return True


def read_plan(path):
    """The plan as the JSON object that it is."""
    return json_of(path, dict)


def read_origin(plan):
    """The file origin.json beside the plan of that path, or what holds where there is none."""
    path = os.path.join(os.path.dirname(plan) or ".", "origin.json")
    if not os.path.exists(path):
        return {"origin": "1970-01-01T00:00:00Z", "zone": "UTC"}
    return json_of(path, dict)


def json_of(path, kind):
    try:
        with open(path, encoding="utf-8") as it:
            found = json.load(it)
    except OSError as fault:
        raise FolderFault(f"{path}: {fault.strerror}") from None
    except ValueError:
        raise FolderFault(f"{path}: no JSON") from None
    if not isinstance(found, kind):
        raise FolderFault(f"{path}: no JSON object")
    return found


class Calendar:
    """Which bin of a plan a date is in, and when a bin begins. A date without an offset is one of the zone."""

    def __init__(self, plan, origin):
        self.zone = zone_of(origin.get("zone", "UTC"))
        try:
            begin = datetime.datetime.fromisoformat(origin["origin"].replace("Z", "+00:00")) - EPOCH
        except (KeyError, ValueError, TypeError, AttributeError):
            raise FolderFault("origin.json has no origin as 1970-01-01T00:00:00Z") from None
        # The instant at which bin 0 begins, in seconds since 1970, which is negative before.
        self.begin = begin.days * 86400 + begin.seconds + plan["start"]
        self.width = plan["width"]

    def instant_of(self, number):
        """When a bin begins, in seconds since 1970."""
        return self.begin + number * self.width

    def date_of(self, number):
        """When a bin begins, as a datetime in the zone."""
        return (EPOCH + datetime.timedelta(seconds=self.instant_of(number))).astimezone(self.zone)

    def text_of(self, number):
        """When a bin begins: 2024-02-01, and with hours, minutes and seconds as far as they are not 0."""
        date = self.date_of(number)
        length = 19 if date.second else 16 if date.hour or date.minute else 10
        return date.isoformat(" ")[:length]

    def bin_of(self, instant):
        """The bin that has an instant, which is in seconds since 1970; before bin 0 it is negative."""
        return (instant - self.begin) // self.width

    def bin_of_text(self, text):
        """The bin that has a date as 2024-02-01, 2024-02-01 10:30 or 2024-02-01T10:30:00+01:00."""
        from dates import DateFault
        from dates import Dates
        dates = Dates(self.zone.key)
        try:
            instant = dates.instant_of(text)
        except DateFault as fault:
            raise FolderFault(f"`{text}` {fault}") from None
        if dates.fault_of_order():
            raise FolderFault(dates.fault_of_order()[1])
        return self.bin_of(instant)
