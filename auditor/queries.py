"""The lines of a script, read by docs/FORMATS.md, "Queries". `audit` calls it.

    for number, asked in asked_of("FOLDER/counts.txt", plan): ..

`number` is the line's number from 1, and `asked` a Query, or a Fault. Lines that ask for no reply are passed over, and the
last line is that before the first `quit`."""
import re
from dataclasses import dataclass
from dataclasses import field

from auditor.feeds import lines_of

LIMIT = 2**64
MOST_DEEP, MOST_ROWS, MOST_BEST = 10, 10000, 1000


@dataclass
class Query:
    verb: str
    words: list  # the numbers after the verb, or the numbers of the categories
    tile: tuple = (0, 0, 0)
    sets: dict = field(default_factory=dict)  # a category's number: the numbers of the values that are left
    bins: tuple = (0, 2**32)


class Fault(Exception):
    """The fault of a line: its name, and the number of the word."""

    def __init__(self, name, word):
        super().__init__(name, word)
        self.name, self.word = name, word


def asked_of(path, plan):
    for number, line in lines_of(path):
        try:
            words = words_of(line)
            if words == ["quit"]:
                return
            if words:
                yield number, Reader(words, plan).query()
        except Fault as fault:
            yield number, fault


def words_of(line):
    """The words of a line; none where it asks for nothing."""
    if line is None:
        raise Fault("LongLine", 1)
    try:
        text = line.decode()
    except UnicodeDecodeError:
        raise Fault("NotText", 1) from None
    # A word is of texts in quotes and of other characters than spaces; a quote that no further one follows is one of these.
    return [] if text.startswith("#") else re.findall(r'(?:"[^"]*"|[^ ])+', text)


def decimal_of(text):
    """The number of a decimal, or none."""
    return int(text) if re.fullmatch("[0-9]{1,20}", text) and int(text) < LIMIT else None


class Reader:
    """Reads the words of one line from left to right."""

    def __init__(self, words, plan):
        self.words, self.plan, self.at = words, plan, 0
        self.has = set()

    def next(self):
        """The next word, whose number is then `at`."""
        self.at += 1
        if self.at > len(self.words):
            raise Fault("MissingWord", self.at)
        return self.words[self.at - 1]

    def fail(self, name):
        raise Fault(name, self.at)

    def number(self, least, most):
        number = decimal_of(self.next())
        if number is None:
            self.fail("BadNumber")
        if not least <= number <= most:
            self.fail("OutOfRange")
        return number

    def category(self, name):
        number = self.plan.category_number(name)
        return self.fail("UnknownCategory") if number is None else number

    def query(self):
        verb = self.next()
        if verb in ("stat", "told", "quit"):
            if len(self.words) > 1:
                raise Fault("UnknownFilter", 2)
            return Query(verb, [])
        if verb not in WORDS_OF_VERBS:
            self.fail("UnknownVerb")
        query = Query(verb, WORDS_OF_VERBS[verb](self))
        while self.at < len(self.words):
            self.filter(query)
        if verb in ("map", "best") and query.tile[0] + query.words[0] > self.plan.depth:
            raise Fault("TooDeep", 2)
        return query

    def map_words(self):
        return [self.number(0, MOST_DEEP)]

    def best_words(self):
        return [self.number(0, MOST_DEEP), self.number(1, MOST_BEST)]

    def series_words(self):
        return [self.number(0, 2**32 - 1), self.number(1, 2**32), self.number(1, MOST_ROWS)]

    def window_words(self):
        size = 2**self.plan.depth
        left, top = self.number(0, size), self.number(0, size)
        return [left, top, self.number(left, size), self.number(top, size)]

    def hist_words(self):
        return [self.category(self.next())]

    def cross_words(self):
        first, second = self.category(self.next()), self.category(self.next())
        return self.fail("SameCategory") if first == second else [first, second]

    def filter(self, query):
        word = self.next()
        if word not in ("in", "with", "time"):
            self.fail("UnknownFilter")
        if word == "in" and query.verb == "window":
            self.fail("InWithWindow")
        if word == "time" and query.verb == "series":
            self.fail("TimeInSeries")
        if word == "with":
            self.item(query)
            return
        if word in self.has:
            self.fail("RepeatedFilter")
        self.has.add(word)
        if word == "in":
            query.tile = self.tile(self.next())
        else:
            begin = self.number(0, 2**32)
            query.bins = (begin, self.number(begin, 2**32))

    def tile(self, word):
        numbers = [decimal_of(text) for text in word.split("/")]
        if len(numbers) != 3 or None in numbers or numbers[0] > self.plan.depth or max(numbers[1:]) >= 2 ** numbers[0]:
            self.fail("BadTile")
        return tuple(numbers)

    def item(self, query):
        """A category with a set of its values."""
        item = self.next()
        name, equals, rest = item.partition("=")
        pieces = pieces_of(rest)
        if item.count('"') % 2 or any('"' in piece and not re.fullmatch('"[^"]*"', piece) for piece in pieces):
            self.fail("BadQuote")
        if not equals:
            self.fail("UnknownCategory")
        number = self.category(name)
        if number in query.sets:
            self.fail("RepeatedFilter")
        values = self.plan.categories[number][1]
        try:
            query.sets[number] = {values.index(piece.strip('"')) for piece in pieces}
        except ValueError:
            self.fail("UnknownValue")


def pieces_of(text):
    """The text between each two | that are not between quotes."""
    pieces, is_open = [""], False
    for character in text:
        is_open ^= character == '"'
        if character == "|" and not is_open:
            pieces.append("")
        else:
            pieces[-1] += character
    return pieces


WORDS_OF_VERBS = {
    "count": lambda reader: [], "hist": Reader.hist_words, "map": Reader.map_words, "series": Reader.series_words,
    "window": Reader.window_words, "cross": Reader.cross_words, "best": Reader.best_words,
}  # fmt: skip
