"""The dates of an export as instants, read by docs/FORMATS.md, "A folder of records". `audit` calls it.

    clock = Clock("Europe/Lisbon", "%d/%m/%Y %H:%M", None)
    clock.instant("14/03/2024 23:37")      # seconds since 1970, or None where a row with this date is refused"""
import datetime
import re
import zoneinfo

UTC = datetime.timezone.utc
EPOCH = datetime.datetime(1970, 1, 1)
SECOND = datetime.timedelta(seconds=1)
MONTHS = ["jan", "feb", "mar", "apr", "may", "jun", "jul", "aug", "sep", "oct", "nov", "dec"]
LONG_MONTHS = "january|february|march|april|may|june|july|august|september|october|november|december"
DAYS = ["mon", "tue", "wed", "thu", "fri", "sat", "sun"]
LONG_DAYS = "monday|tuesday|wednesday|thursday|friday|saturday|sunday"
OFFSET = r"(?P<z>z|utc|gmt|[+-]\d\d(?::?\d\d)?)"
HALF = r"(?P<p>[ap]m|[ap]\.m\.)"
TIME = rf"(?P<H>\d\d?):(?P<M>\d\d)(?::(?P<S>\d\d)(?:[.,]\d+)?)?(?:\s*{HALF})?(?:\s*{OFFSET})?"
WITHOUT_FORM = [
    re.compile(rf"(?P<Y>\d\d\d\d)([-/])(?P<m>\d\d)\2(?P<d>\d\d)(?:[ t]\s*{TIME})?", re.ASCII | re.IGNORECASE),
    re.compile(rf"(?P<m>\d\d?)/(?P<d>\d\d?)/(?P<Y>\d\d\d\d)(?:[ t]\s*{TIME})?", re.ASCII | re.IGNORECASE),
]
STANDS_FOR = {"%T": "%H:%M:%S", "%R": "%H:%M", "%F": "%Y-%m-%d", "%D": "%m/%d/%y", "%B": "%b", "%h": "%b", "%A": "%a"}
WORDS = {
    "%Y": r"(?P<Y>\d{4})", "%y": r"(?P<y>\d\d)", "%m": r"(?P<m>\d\d?)", "%d": r"(?P<d>\d\d?)", "%j": r"(?P<j>\d{1,3})",
    "%b": rf"(?P<b>{LONG_MONTHS}|{'|'.join(MONTHS)})", "%a": rf"(?P<a>{LONG_DAYS}|{'|'.join(DAYS)})", "%H": r"(?P<H>\d\d?)",
    "%I": r"(?P<H>\d\d?)", "%p": HALF, "%M": r"(?P<M>\d\d?)", "%S": r"(?P<S>\d\d?)", "%f": r"\d{1,9}", "%z": OFFSET, "%%": "%",
}  # fmt: skip
COUNTS = {"seconds": 1, "milliseconds": 1000}
MOST_KEPT = 100000


def pattern_of(form):
    """What a form reads, as a pattern."""
    for word, longer in STANDS_FOR.items():
        form = form.replace(word, longer)
    pieces = re.findall(r"%.|\s+|[^%\s]+", form)
    text = "".join(WORDS[piece] if piece[0] == "%" else r"\s+" if piece.isspace() else re.escape(piece) for piece in pieces)
    return re.compile(text, re.ASCII | re.IGNORECASE)


class Clock:
    """Reads dates of one form, or of the forms that need no word, by the clocks of a zone."""

    def __init__(self, zone, form, century):
        self.zone, self.century = None if zone == "UTC" else zoneinfo.ZoneInfo(zone), century
        self.unit = COUNTS.get(form)
        self.patterns = WITHOUT_FORM if form is None else [] if self.unit else [pattern_of(form)]
        self.kept = {}

    def instant(self, text):
        if text not in self.kept:
            if len(self.kept) >= MOST_KEPT:
                self.kept.clear()
            try:
                self.kept[text] = self.counted(text.strip()) if self.unit else self.read(text.strip())
            except (ValueError, OverflowError):
                self.kept[text] = None
        return self.kept[text]

    def counted(self, text):
        """A number of seconds, or of thousandths, of which a part of a second is left out: rounded down."""
        found = re.fullmatch(r"(-?)([0-9]{1,15})(?:\.([0-9]*))?", text)
        if not found:
            return None
        number = int(found[2]) * (-1 if found[1] else 1)
        if found[1] and (found[3] or "").strip("0"):
            number -= 1
        datetime.datetime.fromordinal(719163 + number // self.unit // 86400)
        return number // self.unit

    def read(self, text):
        found = next(filter(None, (pattern.fullmatch(text) for pattern in self.patterns)), None)
        if found is None:
            return None
        parts = found.groupdict()
        local = self.day(parts) + self.time_of_day(parts)
        if parts.get("z"):
            return (local - EPOCH) // SECOND - offset_of(parts["z"])
        if self.zone is None:
            return (local - EPOCH) // SECOND
        # (Of two instants that clocks showed alike this is the first; a time that none showed comes back as another.)
        instant = local.replace(tzinfo=self.zone).astimezone(UTC)
        if instant.astimezone(self.zone).replace(tzinfo=None) != local:
            return None
        return (instant.replace(tzinfo=None) - EPOCH) // SECOND

    def day(self, parts):
        year = int(parts["Y"]) if parts.get("Y") else self.century + (int(parts["y"]) - self.century) % 100
        if parts.get("j"):
            day = datetime.datetime(year, 1, 1) + datetime.timedelta(days=int(parts["j"]) - 1)
            if day.year != year:
                raise ValueError
        else:
            month = MONTHS.index(parts["b"][:3].lower()) + 1 if parts.get("b") else int(parts["m"])
            day = datetime.datetime(year, month, int(parts["d"]))
        if parts.get("a") and DAYS[day.weekday()] != parts["a"][:3].lower():
            raise ValueError
        return day

    def time_of_day(self, parts):
        hour, minute, second = (int(parts.get(name) or 0) for name in "HMS")
        if parts.get("p"):
            if not 1 <= hour <= 12:
                raise ValueError
            hour = hour % 12 + (12 if parts["p"][0] in "pP" else 0)
        if hour > 23 or minute > 59 or second > 59:
            raise ValueError
        return datetime.timedelta(hours=hour, minutes=minute, seconds=second)


def offset_of(text):
    """The seconds by which an offset is ahead of UTC."""
    if text[0] not in "+-":
        return 0
    digits = text[1:].replace(":", "").ljust(4, "0")
    hours, minutes = int(digits[:2]), int(digits[2:])
    if hours > 14 or minutes > 59:
        raise ValueError
    return (3600 * hours + 60 * minutes) * (-1 if text[0] == "-" else 1)
