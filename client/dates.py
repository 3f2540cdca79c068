"""Dates as texts, read to instants: whole seconds since 1970, which are negative before. A text is right or refused.

    dates = Dates("Europe/Lisbon")                       # the ISO forms and the American ones
    dates = Dates("UTC", "%d/%m/%Y %H:%M")               # a form of one's own
    dates = Dates("UTC", "seconds")                      # a number of seconds since 1970; or "milliseconds"
    dates.instant_of("14/03/2024 23:37")                 # 1710459420, or a DateFault, whose text says why
    dates.instants_of(["14/03/2024 23:37"])              # the same of many, in a fifth of the time

docs/FORMATS.md, "A folder of records", has the rules."""
import datetime
import re
import zoneinfo

DAY = 86400
EPOCH_DAY = datetime.date(1970, 1, 1).toordinal()
# A table of texts that were read grows no further than this, since a file may have as many texts as rows.
MOST_KEPT = 100000
MONTHS = "january february march april may june july august september october november december".split()
WEEKDAYS = "monday tuesday wednesday thursday friday saturday sunday".split()
COUNTED = {"seconds": 1, "milliseconds": 1000}

OTHER_FORM, NOT_THERE, SKIPPED = "is a date of another form", "is a date that does not exist", "is a local time that the zone skips"

HALF = r"(?P<p>[AP]\.?M\.?)"
OFFSET = r"(?P<offset>Z|UTC|GMT|[+-]\d\d(?::?\d\d)?)"
ISO_DAY = r"(?P<Y>\d{4})(?P<cut>[-/])(?P<m>\d\d)(?P=cut)(?P<d>\d\d)"
AMERICAN_DAY = r"(?P<month>\d\d?)/(?P<day>\d\d?)/(?P<year>\d{4})"
CLOCK = rf"(?P<H>\d\d?):(?P<M>\d\d)(?::(?P<S>\d\d)(?:[.,]\d+)?)?(?:\s*{HALF})?(?:\s*{OFFSET})?"
DEFAULT = rf"(?:{ISO_DAY}|{AMERICAN_DAY})(?:(?:T|\s+){CLOCK})?"

# What each word of a form reads; a number may have fewer digits, and a name may be in small letters or in large ones.
DIRECTIVES = {
    "Y": r"(?P<Y>\d{4})", "y": r"(?P<y>\d\d)", "m": r"(?P<m>\d\d?)", "d": r"(?P<d>\d\d?)", "j": r"(?P<j>\d{1,3})",
    "H": r"(?P<H>\d\d?)", "I": r"(?P<I>\d\d?)", "M": r"(?P<M>\d\d?)", "S": r"(?P<S>\d\d?)", "f": r"\d{1,9}", "p": HALF,
    "z": OFFSET, "b": f"(?P<b>{'|'.join(MONTHS)}|{'|'.join(name[:3] for name in MONTHS)})", "%": "%",
    "a": f"(?P<a>{'|'.join(WEEKDAYS)}|{'|'.join(name[:3] for name in WEEKDAYS)})",
}  # fmt: skip
SAME = {"%B": "%b", "%h": "%b", "%A": "%a", "%e": "%d", "%Z": "%z", "%T": "%H:%M:%S", "%R": "%H:%M", "%F": "%Y-%m-%d", "%D": "%m/%d/%y"}
# What may stand before the first colon of a form and after it, so that both can be read apart.
HEAD_WORDS, TAIL_WORDS = set("YymdjbaHI%"), set("MSfpz%")


class DateFault(ValueError):
    """Why a text is no instant."""


class FormFault(Exception):
    """Why nothing can be read by a form."""


class Kept(dict):
    """What `read` gives for each key. It is asked once for a key, while few are kept."""

    def __init__(self, read):
        super().__init__()
        self.read = read

    def __missing__(self, key):
        value = self.read(key)
        if len(self) < MOST_KEPT:
            self[key] = value
        return value


class Dates:
    """Reads texts of one form, or of the default ones, in a zone. What stands before the first colon of a text, which is a day and an
    hour, is read once, and so is what stands behind it; the instant is the sum."""

    def __init__(self, zone="UTC", form=None, century=None):
        self.zone, self.form, self.century = zoneinfo.ZoneInfo(zone), form, century
        self.is_utc = zone == "UTC"
        # The first text whose order is month-first alone, day-first alone, or may be both, of those without a form.
        self.month_first = self.day_first = self.both_fit = None
        # The texts that were read last, and how many of them are local times that come twice.
        self.texts, self.doubled = [], 0
        self.whole = re.compile(DEFAULT if form is None else pattern_of(form, century), re.ASCII | re.IGNORECASE)
        # One o'clock, and what stands behind the colon at each full hour: by a clock of 24 hours, and of 12.
        self.sample_head, self.sample_tails = samples_of(form)
        self.heads = [Kept(self.head_24), Kept(self.head_12)]
        self.tails = [Kept(self.tail_24), Kept(self.tail_12)]
        self.wholes = Kept(self.steady)

    def instants_of(self, texts):
        """The instants of texts, or the DateFault of one."""
        self.texts, self.doubled = texts, 0
        try:
            if self.sample_head is None or ":" not in texts[0]:
                wholes = self.wholes
                return [wholes[text] for text in texts]
            return self.sums_of(texts)
        except DateFault:
            # One is wrong, or another kind of text than the first, or at an hour in which the clocks change.
            return [self.read(text) for text in texts]

    def sums_of(self, texts):
        """The instants of texts, each the sum of what is read up to its first colon and behind it."""
        half, at = is_half(texts[0]), texts[0].index(":") + 1
        heads, tails = self.heads[half], self.tails[half]
        try:
            # Mostly each text has its first colon where the first text has it.
            return [heads[text[:at]] + tails[text[at:]] for text in texts]
        except DateFault:
            ends = [text.find(":") + 1 for text in texts]
            return [heads[text[:end]] + tails[text[end:]] for text, end in zip(texts, ends)]

    def instant_of(self, text):
        """The instant of a text."""
        return self.instants_of([text])[0]

    def read(self, text):
        """The instant of one text."""
        half, end = is_half(text), text.find(":") + 1
        try:
            if self.sample_head is not None and end < len(text):
                return self.heads[half][text[:end]] + self.tails[half][text[end:]]
        except DateFault:
            pass
        ordinal, seconds, offset = self.parts_of(text)
        if offset is None:
            offset = 0 if self.is_utc else self.shift_at(ordinal, seconds)
        return ordinal * DAY + seconds - offset

    def parts_of(self, text):
        """The day of a text, counted from 1970, the seconds of its clock, and its offset or None."""
        if self.form in COUNTED:
            instant = counted(text.strip(), COUNTED[self.form])
            return instant // DAY, instant % DAY, 0
        parts = match(self.whole, text.strip())
        if parts.get("month"):
            parts.update(Y=parts["year"], m=parts["month"], d=parts["day"])
            self.note_order(int(parts["m"]), int(parts["d"]), text.partition(":")[0])
        return day_of(parts, self.century), *clock_of(parts)

    def head_24(self, head, half=False):
        """The instant at which the hour of a head, which ends in its one colon, begins, where the clocks do not change in it; or that in
        the morning, where they change neither then nor 12 hours later."""
        if head.partition(":")[1:] != (":", ""):
            raise DateFault(OTHER_FORM)
        ordinal, seconds, _ = self.parts_of(head + self.sample_tails[half])
        return ordinal * DAY + seconds - self.steady_shift(ordinal, [seconds, seconds + DAY // 2][: 1 + half])

    def head_12(self, head):
        return self.head_24(head, True)

    def tail_24(self, tail, half=False):
        """The seconds from the begin of the hour, or of the same hour in the morning."""
        text = f"{self.sample_head}:{tail}"
        _, seconds, offset = self.parts_of(text)
        if is_half(text) != half or offset is not None and not self.is_utc:
            raise DateFault(OTHER_FORM)
        return seconds - 3600 - (offset or 0)

    def tail_12(self, tail):
        return self.tail_24(tail, True)

    def steady(self, text):
        """The instant of a whole text, where the clocks do not change in its hour."""
        ordinal, seconds, offset = self.parts_of(text)
        if offset is None:
            offset = self.steady_shift(ordinal, [seconds - seconds % 3600])
        return ordinal * DAY + seconds - offset

    def steady_shift(self, ordinal, hours):
        """The zone's offset in hours of a day that begin at so many seconds, where it is one and the same."""
        if self.is_utc:
            return 0
        shifts = {self.offset(ordinal, hour + more, fold) for hour in hours for more in (0, 3600) for fold in (0, 1)}
        if len(shifts) > 1:
            raise DateFault(SKIPPED)
        return shifts.pop()

    def note_order(self, first, second, head):
        """Keeps the first text of each kind. The day 3/3/2024 is the same in both orders."""
        kind = "month_first" if second > 12 else "day_first" if first > 12 else "both_fit"
        if first != second and min(first, second) <= 12 and getattr(self, kind) is None:
            setattr(self, kind, next(text for text in self.texts if text.startswith(head)))

    def shift_at(self, ordinal, seconds):
        """The zone's offset at a local time: of one that comes twice that of the first."""
        first, second = (self.offset(ordinal, seconds, fold) for fold in (0, 1))
        if first < second:
            raise DateFault(SKIPPED)
        self.doubled += first > second
        return first

    def offset(self, ordinal, seconds, fold):
        try:
            local = datetime.datetime.fromordinal(EPOCH_DAY + ordinal) + datetime.timedelta(seconds=seconds)
            offset = local.replace(tzinfo=self.zone, fold=fold).utcoffset()
        except (ValueError, OverflowError):
            raise DateFault(NOT_THERE) from None
        return offset.days * DAY + offset.seconds

    def fault_of_order(self):
        """A date that was read month-first and may be wrong, and why; or none."""
        if self.month_first and self.day_first:
            return self.day_first, f'"{self.month_first}" is month-first and "{self.day_first}" is day-first'
        if self.day_first:
            return self.day_first, f'"{self.day_first}" is day-first'
        if self.both_fit and not self.month_first:
            return self.both_fit, f'all dates may be month-first or day-first, as "{self.both_fit}"'
        return None


def match(pattern, text):
    """The parts of a text by their names."""
    found = pattern.fullmatch(text)
    if not found:
        raise DateFault(OTHER_FORM)
    return found.groupdict()


def counted(text, unit):
    """The instant of a number of seconds, or of thousandths; what is less than a second is left out."""
    found = re.fullmatch(r"(-?[0-9]{1,15})(\.[0-9]*)?", text)
    if not found:
        raise DateFault(OTHER_FORM)
    is_under = found[1].startswith("-") and (found[2] or "").strip(".0") != ""
    instant = (int(found[1]) - is_under) // unit
    day_in_range(instant // DAY)
    return instant


def day_in_range(ordinal):
    if not 1 <= ordinal + EPOCH_DAY <= datetime.date.max.toordinal():
        raise DateFault(NOT_THERE)
    return ordinal


def day_of(parts, century):
    """The number, from 1970, of the day that the parts of a form give."""
    year = int(parts["Y"]) if parts.get("Y") else century + (int(parts["y"]) - century) % 100
    month = MONTHS.index(next(name for name in MONTHS if name.startswith(parts["b"].lower()))) + 1 if parts.get("b") else 1
    try:
        if parts.get("j"):
            ordinal = datetime.date(year, 1, 1).toordinal() + int(parts["j"]) - 1
            if datetime.date.fromordinal(ordinal).year != year:
                raise DateFault(NOT_THERE)
        else:
            ordinal = datetime.date(year, int(parts.get("m") or month), int(parts.get("d") or 1)).toordinal()
    except (ValueError, OverflowError):
        raise DateFault(NOT_THERE) from None
    # The first day of the calendar was a Monday.
    if parts.get("a") and not WEEKDAYS[(ordinal - 1) % 7].startswith(parts["a"].lower()):
        raise DateFault(NOT_THERE)
    return ordinal - EPOCH_DAY


def clock_of(parts):
    """The seconds of a time of day, and its offset or None."""
    hour, minute, second = (int(parts.get(part) or 0) for part in "HMS")
    if parts.get("p"):
        hour = int(parts.get("I") or hour)
        if not 1 <= hour <= 12:
            raise DateFault(NOT_THERE)
        hour = hour % 12 + 12 * parts["p"].upper().startswith("P")
    if hour > 23 or minute > 59 or second > 59:
        raise DateFault(NOT_THERE)
    return 3600 * hour + 60 * minute + second, offset_of(parts.get("offset"))


def offset_of(text):
    """The seconds by which an offset's clocks are ahead of UTC, or None where there is no offset."""
    if text is None or text[0] not in "+-":
        return None if text is None else 0
    hours, minutes = int(text[1:3]), int(text[3:].lstrip(":") or 0)
    if hours > 14 or minutes > 59:
        raise DateFault(NOT_THERE)
    return (3600 * hours + 60 * minutes) * (-1 if text[0] == "-" else 1)


def is_half(text):
    """Whether a text ends in AM or PM."""
    return text[-3:].rstrip(" .").endswith(("M", "m"))


def words_of(form):
    """The letter behind each %."""
    return re.findall(r"%(.?)", form)


def in_full(form):
    """A form whose shorter words are put out in full."""
    for short, full in SAME.items():
        form = form.replace(short, full)
    return form


def pattern_of(form, century):
    """The pattern of a form."""
    if form in COUNTED:
        return ""
    form = in_full(form)
    check_words(words_of(form), form, century)
    pieces = re.findall(r"%(.)|(\s+)|([^%\s]+)", form)
    return "".join(DIRECTIVES[word] if word else r"\s+" if space else re.escape(other) for word, space, other in pieces)


def samples_of(form):
    """A text of the form at one o'clock up to the colon, and at a full hour behind it; none where it cannot be cut there."""
    if form is None:
        return "2000-01-01 01", ["00", "00 AM"]
    head, _, tail = in_full(form).partition(":")
    if form in COUNTED or not set(words_of(head)) <= HEAD_WORDS or not tail or not set(words_of(tail)) <= TAIL_WORDS:
        return None, None
    one = datetime.datetime(2000, 1, 1, 1, tzinfo=datetime.timezone.utc)
    return one.strftime(head), [one.strftime(tail)] * 2


def check_words(words, form, century):
    """A form has to give a whole day, no part of it twice, and of an hour of 12 the half of the day."""
    unknown = next((word for word in words if word not in DIRECTIVES), None)
    if unknown is not None:
        raise FormFault(f"no form has %{unknown}")
    if len([word for word in words if word != "%"]) != len(set(words) - {"%"}):
        raise FormFault(f"{form} has a part twice")
    has = set(words)
    if "y" in has and century is None:
        raise FormFault("%y needs a line `century 1970`, or another first of the 100 years that two digits mean")
    if len(has & {"Y", "y"}) != 1 or len(has & {"m", "b", "j"}) != 1 or len(has & {"d", "j"}) != 1:
        raise FormFault(f"{form} has not one year, one month and one day, or one year and %j")
    if len(has & {"H", "I"}) > 1 or ("I" in has) != ("p" in has):
        raise FormFault(f"{form} has %H and %I, or only one of %I and %p")


# The days of forms that people use besides the default ones, and the clocks.
DAYS_KNOWN = ["%d.%m.%Y", "%d/%m/%Y", "%d-%m-%Y", "%m-%d-%Y", "%d %b %Y", "%d-%b-%Y", "%b %d, %Y", "%Y.%m.%d", "%Y%m%d", "%d/%m/%y", "%m/%d/%y"]
CLOCKS_KNOWN = ["", " %H:%M", " %H:%M:%S", " %I:%M %p", " %I:%M:%S %p", "T%H:%M:%S"]


def forms_that_read(text, days=tuple(DAYS_KNOWN)):
    """Forms of a line `time` that would read a text."""
    forms = [day + clock for day in days for clock in CLOCKS_KNOWN]
    counted_by = {9: "seconds", 10: "seconds", 12: "milliseconds", 13: "milliseconds"}
    if re.fullmatch("[0-9]+", text.strip()) and len(text.strip()) in counted_by:
        return [counted_by[len(text.strip())]]
    return [form for form in forms if is_read(text, form)]


def is_read(text, form):
    try:
        Dates("UTC", form, 1970).instant_of(text)
    except DateFault:
        return False
    return True
