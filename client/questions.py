"""Lines with dates, and the questions of the query language by which they are asked.

    line = Line("series month with type=THEFT", calendar, depth, tile, span)
    line.questions                 # lists of pairs: a word of a question, and the number of the word that it came of

A line is a question of docs/FORMATS.md, "Queries", in which a bin may be a date, `2024-02-01`, `2024-02` or
`"2024-02-01 10:30"`, and

    series day                        asks for each day from the first record to the last
    series day 2024-01-01 2024-02-01  asks for each day from the one date to before the other
    series 2024-01-01 1d 31           asks for 31 days
    map 7, best 7 10                  without `in` go down from the smallest tile that has all records

A step is a number with s, m, h, d, w, month, quarter or y, or a word such as day. The calendar is that of
client/folder.py; `tile` and `span` are called where that tile, or the first and the last bin that have records, are
needed. What is wrong is a Fault: one of the program's, or `BadDate`, `BadStep` or, where no bin begins at a date,
`NoBin`."""
import calendar as months
import datetime
import difflib
import itertools
import re

from asks import CubeError
from asks import Fault
from dates import DateFault
from dates import Dates

MOST_BIN, MOST_ROWS, ROWS_AT_ONCE = 2**32, 100000, 10000
DATE = re.compile(r'"?([0-9]{4}-[0-9]{2})(-[^"]*)?"?')
STEP = re.compile(r"([0-9]{0,6})(s|seconds?|m|minutes?|h|hours?|d|days?|w|weeks?|months?|quarters?|y|years?)")
SECONDS, DAYS, MONTHS = {"s": 1, "m": 60, "h": 3600}, {"d": 1, "w": 7}, {"month": 1, "q": 3, "y": 12}
# How many words of its own each verb has, before its filters.
OWN_WORDS = {"count": 0, "hist": 1, "map": 1, "series": 3, "window": 4, "best": 2, "cross": 2}
FILTER_WORDS = {"in": 1, "with": 1, "time": 2}
VERBS = [*OWN_WORDS, "stat", "told"]


def cut(line):
    """The words of a line, each with its place: a space between two quotes belongs to the word."""
    return [(found[0], found.start()) for found in re.finditer(r'(?:"[^"]*"|[^ ])+', line)]


def quoted(value):
    """A category's value as a line has it."""
    return f'"{value}"' if " " in value or "|" in value else value


def meant(fault, values):
    """The word that is like the one at fault, or nothing. `values` are those of each category, by its name."""
    name, _, value = fault.word.partition("=")
    words = {"UnknownVerb": VERBS, "UnknownFilter": FILTER_WORDS, "UnknownCategory": values}
    words["UnknownValue"] = its = values.get(name, ())
    pieces = [it.strip('"') for it in re.findall(r'(?:"[^"]*"|[^"|])+', value)]
    wanted = (next((it for it in pieces if it not in its), "") if fault.name == "UnknownValue" else name).lower()
    known = {it.lower(): it for it in words.get(fault.name, ())}
    found = [it for it in known if wanted and it.startswith(wanted)] + difflib.get_close_matches(wanted, known, 1, 0.5)
    return quoted(known[found[0]]) if found else None


def is_number(text):
    return text.isascii() and text.isdigit()


class Line:
    """A line with dates, and its questions: one, or several for a series whose intervals are not all as wide."""

    def __init__(self, line, calendar, depth, tile, span):
        self.line, self.calendar, self.depth, self.tile, self.span = line, calendar, depth, tile, span
        self.words = cut(line)
        self.verb = self.text(1)
        own = 1 + OWN_WORDS.get(self.verb, len(self.words))
        if self.verb == "series" and self.is_step(2):
            own = 4 if self.is_time(3) else 2
        self.filters = self.dated_filters(own + 1)
        self.questions = self.series() if self.verb == "series" else [self.plain(own)]

    def text(self, at):
        """The word of a number from 1, or nothing."""
        return self.words[at - 1][0] if at <= len(self.words) else ""

    def is_date(self, at):
        return bool(DATE.fullmatch(self.text(at)))

    def is_time(self, at):
        return is_number(self.text(at)) or self.is_date(at)

    def is_step(self, at):
        return bool(STEP.fullmatch(self.text(at)))

    def fault(self, name, at, why=""):
        word, place = self.words[at - 1] if at <= len(self.words) else ("", len(self.line.rstrip()) + 1)
        return Fault(name, at, word, place, why)

    def from_reply(self, reply, question):
        """The fault that a reply to one of the questions says, at the word of this line."""
        at = reply.get("at")
        if at is None:
            return CubeError(f"the program said {reply['fault']}")
        known = [number for _, number in question]
        number = known[at - 1] if at <= len(known) else len(self.words) + 1
        return self.fault(reply["fault"], number or 1)

    def dated_filters(self, at):
        """The words from a number on, with the dates of `time` as bins."""
        found, left, dated = [], 0, ()
        for number in range(at, len(self.words) + 1):
            if left:
                left -= 1
            else:
                left = FILTER_WORDS.get(self.text(number), 0)
                dated = range(number + 1, number + 3) if self.text(number) == "time" else ()
            is_bin = number in dated and self.is_date(number)
            found.append((str(self.bin_of_word(number, 0)) if is_bin else self.text(number), number))
        return found

    def plain(self, own):
        """The question of a line that is no series."""
        words = [(self.text(number), number) for number in range(1, min(own, len(self.words)) + 1)]
        if self.verb in ("map", "best") and is_number(self.text(2)) and all(text != "in" for text, _ in self.filters):
            z, x, y = self.tile()
            up = max(0, z + int(self.text(2)) - self.depth)
            if up < z:
                words += [("in", None), (f"{z - up}/{x >> up}/{y >> up}", None)]
        return words + self.filters

    def bin_of_word(self, at, least=None):
        """The bin that a word says: a number, or the date at which it begins."""
        if not self.is_date(at):
            return int(self.text(at))
        month, day = DATE.fullmatch(self.text(at)).groups()
        try:
            instant = Dates(self.calendar.zone.key).instant_of(month + (day or "-01"))
        except DateFault as fault:
            raise self.fault("BadDate", at, f"it {fault}") from None
        return self.bin_of(instant, at, least)

    def bin_of(self, instant, at, least=None):
        """The bin that begins at an instant. Before bin 0 it is `least`, and a fault where that is None."""
        number = self.calendar.bin_of(instant)
        if number < 0 and least is None:
            raise self.fault("NoBin", at, f"bin 0 begins {self.calendar.text_of(0)}")
        if number < 0 or number >= MOST_BIN:
            return least if number < 0 else MOST_BIN
        if self.calendar.instant_of(number) != instant:
            around = " and ".join(self.calendar.text_of(it) for it in (number, number + 1))
            raise self.fault("NoBin", at, f"no bin begins then; bins begin {around}")
        return number

    def series(self):
        """The questions of a series."""
        if self.is_step(2):
            bounds, came = self.bounds_of_step(), (2, 2, 2)
        elif self.is_time(2) and self.is_step(3):
            bounds, came = self.bounds(self.bin_of_word(2), 3, rows=self.rows(4)), (2, 3, 4)
        else:
            own = [(self.text(at), at) for at in (2, 3, 4)]
            own[0] = (str(self.bin_of_word(2)), 2) if self.is_date(2) else own[0]
            return [[("series", 1), *own[: len(self.words) - 1], *self.filters]]
        return [[("series", 1), *zip(map(str, piece), came), *self.filters] for piece in pieces_of(bounds)]

    def rows(self, at):
        """How many rows a word says."""
        if not is_number(self.text(at)):
            raise self.fault("BadNumber" if self.text(at) else "MissingWord", at)
        if not 1 <= int(self.text(at)) <= MOST_ROWS:
            raise self.fault("OutOfRange", at, f"a series has 1 to {MOST_ROWS} rows")
        return int(self.text(at))

    def bounds_of_step(self):
        """The bounds of `series STEP FROM TO`, or from the first record to the last."""
        if not self.is_time(3):
            span = self.span() or (0, 0)
            return self.bounds(span[0], 2, end=span[1] + 1, is_floored=True)
        if not self.is_time(4):
            raise self.fault("BadDate" if self.text(4) else "MissingWord", 4)
        end = self.bin_of_word(4, 0)
        return [min(bound, end) for bound in self.bounds(self.bin_of_word(3), 2, end=end)]

    def bounds(self, first, at, rows=None, end=None, is_floored=False):
        """The bins at which intervals begin, and where the last ends: so many rows, or as many as reach `end`."""
        most, found = rows or MOST_ROWS, []
        try:
            for moment in itertools.islice(self.moments(first, at, is_floored), most + 1):
                found.append(self.bin_of(moment, at, 0 if is_floored else None))
                if found[-1] == MOST_BIN or rows is None and found[-1] >= end:
                    break
        except (OverflowError, ValueError):
            pass
        if len(found) < 2 or (found[-1] < end if rows is None else len(found) <= rows):
            raise self.fault("OutOfRange", at, f"a series has 1 to {MOST_ROWS} rows, and its bins are under 2^32")
        return found

    def moments(self, first, at, is_floored):
        """The instants at which intervals begin, without end: from a bin on, or from where the step begins that has
        it. Days and longer steps go by the dates of the zone. Hours and shorter ones have so many seconds."""
        number, unit = STEP.fullmatch(self.text(at)).groups()
        number, unit = int(number or 1), "month" if unit.startswith("month") else unit[0]
        width = number * SECONDS.get(unit, self.calendar.width)
        if not width or width % self.calendar.width:
            raise self.fault("BadStep", at, f"a bin has {self.calendar.width} seconds")
        if unit in SECONDS:
            first -= first % (width // self.calendar.width) if is_floored else 0
            return itertools.count(self.calendar.instant_of(first), width)
        date = self.calendar.date_of(first)
        date = floor_of(date, unit) if is_floored else date
        return (instant_of(moved(date, number * step, unit)) for step in itertools.count())


def floor_of(date, unit):
    """When the day, week, month, quarter or year begins that has a date."""
    day = date.replace(hour=0, minute=0, second=0, fold=0)
    if unit in DAYS:
        return moved(day, -day.weekday() if unit == "w" else 0, "d")
    month = {"month": day.month, "q": (day.month - 1) // 3 * 3 + 1, "y": 1}[unit]
    return day.replace(month=month, day=1)


def moved(date, number, unit):
    """The date so many days, weeks, months, quarters or years later, by the clocks of its zone."""
    if number == 0:
        return date
    if unit in DAYS:
        return date + datetime.timedelta(days=number * DAYS[unit])
    year, month = divmod(date.year * 12 + date.month - 1 + number * MONTHS[unit], 12)
    return date.replace(year=year, month=month + 1, day=min(date.day, months.monthrange(year, month + 1)[1]))


def instant_of(date):
    return int(date.timestamp())


def pieces_of(bounds):
    """Bounds as (first bin, width, rows) of series questions: one for each stretch of intervals that are as wide."""
    pieces = []
    for begin, end in zip(bounds, bounds[1:]):
        width = end - begin
        if pieces and pieces[-1][1] == width and pieces[-1][2] < ROWS_AT_ONCE:
            pieces[-1][2] += 1
        elif width:
            pieces.append([begin, width, 1])
    return pieces
