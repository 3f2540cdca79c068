"""The plan of a run, read by docs/FORMATS.md, "Plans". `audit` calls it.

    plan = read_plan("FOLDER/plan.json")     # a Plan, or a Disagreement
    plan.depth, plan.categories, plan.weight"""
import json
import re

FILE_NAME = re.compile(r"[A-Za-z0-9_-][A-Za-z0-9._-]{0,63}")
NAME = re.compile(r"[a-z0-9_]{1,32}")
LIMIT = 2**64
TEXT_LISTS = {"asks": (0, 8), "feeds": (1, 8), "finals": (0, 8)}
NUMBERS = {"batch": (1, 65536), "depth": (1, 20), "start": (0, LIMIT - 1), "version": (1, 2), "width": (1, LIMIT - 1)}


class Disagreement(Exception):
    """The first place that is not as it has to be, in one line."""


class Plan:
    """The members of a plan that a run accepts."""

    def __init__(self, members):
        self.batch, self.depth, self.start, self.width = (members[name] for name in ("batch", "depth", "start", "width"))
        self.asks, self.feeds, self.finals = members["asks"], members["feeds"], members["finals"]
        self.journal, self.weight = members["journal"], members.get("weight")
        # Pairs: the category's name, and its values in the order of their numbers.
        self.categories = [(one["name"], one["values"]) for one in members["categories"]]

    def columns(self):
        """The columns that a feed needs, in the order in which their absence is told."""
        return ["x", "y", "time", *([self.weight] if self.weight else []), *(name for name, _ in self.categories)]

    def category_number(self, name):
        return next((number for number, (known, _) in enumerate(self.categories) if known == name), None)


def read_plan(path):
    with open(path, "rb") as file:
        text = file.read(2**20 + 1)
    try:
        members = json.loads(text.decode(), parse_int=whole, parse_float=str, parse_constant=str) if len(text) <= 2**20 else None
    except ValueError:
        members = None
    why = "no JSON object" if not isinstance(members, dict) else fault_of(members)
    if why:
        raise Disagreement(f"{path} is no plan of a run: {why}")
    return Plan(members)


def whole(text):
    """A number without a sign, under 2^64; another is left as a text, which no member of a number may be."""
    return int(text) if text.isdigit() and int(text) < LIMIT else text


def fault_of(members):
    """Why an object is no plan, or none."""
    needed = {*TEXT_LISTS, *NUMBERS, "categories", "journal", *(["weight"] if members.get("version") == 2 else [])}
    for name in sorted(needed - set(members)):
        return f"Missing({name})"
    for name in sorted(set(members) - needed):
        return f"Unknown({json.dumps(name)})"
    wrong = next((name for name in sorted(needed) if not KINDS.get(name, is_number)(members[name])), None)
    if wrong:
        return f"BadKind({wrong})"
    wrong = next((name for name in sorted(needed) if not is_in_range(name, members[name])), None)
    return f"OutOfRange({wrong})" if wrong else repeated(members)


def is_number(value):
    return isinstance(value, int) and not isinstance(value, bool)


def is_text(value):
    return isinstance(value, str)


def is_texts(value):
    return isinstance(value, list) and all(map(is_text, value))


def is_categories(value):
    return isinstance(value, list) and all(
        isinstance(one, dict) and set(one) == {"name", "values"} and is_text(one["name"]) and is_texts(one["values"]) for one in value
    )


KINDS = {**dict.fromkeys(TEXT_LISTS, is_texts), "categories": is_categories, "journal": is_text, "weight": is_text}


def is_in_range(name, value):
    if name in TEXT_LISTS:
        least, most = TEXT_LISTS[name]
        return least <= len(value) <= most and all(map(FILE_NAME.fullmatch, value))
    if name in NUMBERS:
        least, most = NUMBERS[name]
        return least <= value <= most
    if name == "categories":
        return len(value) <= 4 and all(NAME.fullmatch(one["name"]) and are_values(one["values"]) for one in value)
    return bool((FILE_NAME if name == "journal" else NAME).fullmatch(value))


def are_values(values):
    return 1 <= len(values) <= 256 and all(is_value(value) for value in values)


def is_value(value):
    """Whether a plan may have a text as a category's value."""
    return 1 <= len(value.encode(errors="surrogatepass")) <= 64 and not re.search(r'["\x00-\x1f\x7f]', value)


def repeated(members):
    """The first text that stands twice in a list that may not have one twice, or none."""
    weight = [members["weight"]] if "weight" in members else []
    columns = ["x", "y", "time", *weight, *(one["name"] for one in members["categories"])]
    scripts = members["asks"] + members["finals"]
    files = members["feeds"] + scripts + [members["journal"]] + [f"{name}.out" for name in scripts]
    for texts in (columns, *(one["values"] for one in members["categories"]), files):
        twice = next((text for at, text in enumerate(texts) if text in texts[:at]), None)
        if twice is not None:
            return f"Repeated({json.dumps(twice, ensure_ascii=False)})"
    return None
