"""A client of the nanocube program: a cube over an image, a live run or a folder of records. Python's standard
library.

    cube = Cube.of_folder("examples/city")               # or Cube.of_image(plan, image), or Cube.of_run(folder)
    cube.count(in_="9/131/190", with_={"type": "THEFT"}, time=("2024-01-01", "2024-02-01"))
    cube.series("day")                                   # a list of tuples (bin, date, total)
    cube.ask("hist type")                                # the reply as the program gives it, in bytes
    cube.reply("series month with type=THEFT")           # the same of a line with dates

docs/CLIENT.md has ten lines to copy, and client/questions.py says what a line with dates may be. What is wrong with a
question is a Fault. Any other trouble, such as a run that has ended, is a CubeError. Both are one line for a
person."""
import collections
import datetime
import json
import os
import stat
import subprocess
import sys

from asks import SECONDS
from asks import TOP
from asks import Ask
from asks import CubeError
from asks import Fault
from asks import Loaded
from asks import environment
from asks import plan_in
from asks import program_of
from folder import Calendar
from folder import FolderFault
from folder import is_stale
from folder import out_of
from folder import read_origin
from questions import MOST_BIN
from questions import Line
from questions import cut

Total = collections.namedtuple("Total", "total")
Value = collections.namedtuple("Value", "value total")
Pair = collections.namedtuple("Pair", "first second total")
Tile = collections.namedtuple("Tile", "z x y total")
Interval = collections.namedtuple("Interval", "bin date total")


class Cube:
    """A cube that is asked. Bins may be dates: texts as 2024-02-01, dates, or datetimes, which are of the plan's zone
    where they have none. `seen` says over how many records the last reply was."""

    def __init__(self, plan, asker, is_live):
        """Over the plan of that path. `asker` has a method `ask`, as Ask and Loaded."""
        self.plan, self.asker, self.is_live, self.known = plan_in(plan), asker, is_live, {}
        self.seen = self.said = None
        try:
            self.calendar = Calendar(self.plan, read_origin(plan))
        except FolderFault as fault:
            raise CubeError(f"{plan}: {fault}") from None

    @classmethod
    def of_image(cls, plan, image, seconds=SECONDS):
        """Over an image that the program saved under a plan, by a child that loads it."""
        return cls(plan, Loaded(plan, image, seconds), False)

    @classmethod
    def of_run(cls, folder, seconds=SECONDS):
        """Over the live run in a folder, beside other clients of its asks."""
        return cls(os.path.join(folder, "plan.json"), Ask(folder, seconds), True)

    @classmethod
    def of_folder(cls, folder, seconds=SECONDS):
        """Over a live run; or over a folder of records, or one with a plan and its feeds, whose image is saved where
        it is missing or older than they are."""
        try:
            if os.path.exists(os.path.join(folder, "columns")):
                if is_stale(folder):
                    subprocess.run([f"{TOP}/prepare", folder], check=True)
                folder = out_of(folder)
        except FolderFault as fault:
            raise CubeError(f"{fault}") from None
        except subprocess.CalledProcessError as fault:
            raise CubeError(f"./prepare {folder} ended with status {fault.returncode}") from None
        except OSError as fault:
            raise CubeError(f"{fault.filename}: {fault.strerror}") from None
        plan = os.path.join(folder, "plan.json")
        if is_live(folder, plan_in(plan)):
            return cls.of_run(folder, seconds)
        return cls.of_image(plan, image_of(folder, plan), seconds)

    def ask(self, line):
        """The program's reply to a line as it stands, in bytes."""
        return self.asker.ask(line)

    def close(self):
        self.asker.close()

    def __enter__(self):
        return self

    def __exit__(self, *fault):
        self.close()

    def answer(self, line):
        """The reply to a line with dates, as the object that it is. The rows of several questions are put together;
        `seen` is that of the last."""
        asked = Line(line, self.calendar, self.plan["depth"], self.tile, self.span)
        rows = []
        for question in asked.questions:
            self.said = self.ask(" ".join(text for text, _ in question))
            reply = json.loads(self.said)
            if "fault" in reply:
                raise asked.from_reply(reply, question)
            rows += reply.get("rows", ())
        self.seen = reply.get("seen", reply.get("told"))
        if len(asked.questions) > 1:
            reply["rows"] = rows
            self.said = json.dumps(reply, separators=(",", ":")).encode()
        return reply

    def reply(self, line):
        """The reply to a line with dates, in bytes as the program would print it, faults too."""
        try:
            self.answer(line)
        except Fault as fault:
            return fault.reply()
        return self.said

    def rows(self, line):
        """The rows of the reply to a line with dates, as named tuples."""
        verb, rows = line.split()[0], self.answer(line).get("rows")
        if rows is None:
            raise CubeError(f"the reply to `{verb}` has no rows")
        if verb == "series":
            return [Interval(number, self.date_of(number), total) for number, total in rows]
        return [KINDS[verb](*row) for row in rows]

    def date_of(self, number):
        """When a bin begins, in the plan's zone; nothing after the year 9999."""
        try:
            return self.calendar.date_of(number)
        except (OverflowError, ValueError):
            return None

    def count(self, **filters):
        return self.rows(line_of("count", filters))[0].total

    def hist(self, category, **filters):
        return self.rows(line_of(f"hist {category}", filters))

    def map(self, depth, **filters):
        return self.rows(line_of(f"map {depth}", filters))

    def best(self, depth, number, **filters):
        return self.rows(line_of(f"best {depth} {number}", filters))

    def series(self, *words, **filters):
        """series("day"), series("day", first, end), series(start, "1d", 31) or series(start, bins, rows)."""
        return self.rows(line_of(" ".join(["series", *map(time_of, words)]), filters))

    def window(self, x0, y0, x1, y1, **filters):
        return self.rows(line_of(f"window {x0} {y0} {x1} {y1}", filters))[0].total

    def cross(self, first, second, **filters):
        return self.rows(line_of(f"cross {first} {second}", filters))

    def stat(self):
        """The size of the cube, by name."""
        return self.answer("stat")

    def told(self):
        return self.answer("told")["told"]

    def tile(self):
        """The smallest tile that has all records, as (z, x, y)."""
        return self.kept("tile", self.find_tile)

    def span(self):
        """The first and the last bin that have records, or nothing."""
        return self.kept("span", self.find_span)

    def kept(self, name, find):
        """What was found once, which holds as long as no records come."""
        if self.is_live or name not in self.known:
            self.known[name] = find()
        return self.known[name]

    def find_tile(self):
        tile = (0, 0, 0)
        while tile[0] < self.plan["depth"]:
            rows = json.loads(self.ask("map 1 in %d/%d/%d" % tile))["rows"]
            if len(rows) != 1:
                break
            tile = tuple(rows[0][:3])
        return tile

    def find_span(self):
        if not self.total(0, MOST_BIN):
            return None
        first = halved(lambda it: self.total(0, it + 1) > 0)
        return first, halved(lambda it: self.total(it + 1, MOST_BIN) == 0)

    def total(self, begin, end):
        return json.loads(self.ask(f"count time {begin} {end}"))["rows"][0][0]

    def schema(self):
        """What is in the cube: records, their total, the smallest tile and the bins that have all, each value's
        total."""
        total, seen = self.count(), self.seen
        values = {it["name"]: self.hist(it["name"]) for it in self.plan["categories"]}
        return {"records": seen, "total": total, "tile": self.tile(), "span": self.span(), "categories": values}


KINDS = {"count": Total, "window": Total, "hist": Value, "map": Tile, "best": Tile, "cross": Pair}


def halved(holds):
    """The least bin that `holds`, of which all later ones hold."""
    least, most = 0, MOST_BIN - 1
    while least < most:
        half = (least + most) // 2
        least, most = (least, half) if holds(half) else (half + 1, most)
    return least


def line_of(begin, filters):
    """A question's line, of its first words and its filters by name: in_, with_ and time."""
    words, left = [begin], dict(filters)
    tile, values, time = left.pop("in_", None), left.pop("with_", None) or {}, left.pop("time", None)
    if left:
        raise TypeError(f"filters are in_, with_ and time, and not {', '.join(left)}")
    if tile is not None:
        words += ["in", tile if isinstance(tile, str) else "/".join(map(str, tile[:3]))]
    for name, wanted in values.items():
        wanted = [wanted] if isinstance(wanted, str) else wanted
        words += ["with", f"{name}=" + "|".join(f'"{value}"' for value in wanted)]
    if time is not None:
        begin, end = time
        words += ["time", time_of(0 if begin is None else begin), time_of(MOST_BIN if end is None else end)]
    return " ".join(words)


def time_of(value):
    """A bin, a date or a text as a word of a line."""
    text = value.isoformat() if isinstance(value, datetime.date) else str(value)
    return f'"{text}"' if " " in text else text


def is_live(folder, plan):
    """Whether a folder's asks are pipes."""
    paths = [os.path.join(folder, name + end) for name in plan.get("asks", ()) for end in ("", ".out")]
    return bool(paths) and all(os.path.exists(path) and stat.S_ISFIFO(os.stat(path).st_mode) for path in paths)


def image_of(folder, plan):
    """The path of the image beside a plan, which is saved where it is missing, or older than the plan or a feed."""
    image = os.path.join(folder, "cube.img")
    sources = [plan, *(os.path.join(folder, name) for name in plan_in(plan).get("feeds", ()))]
    try:
        if os.path.exists(image) and all(os.stat(image).st_mtime_ns > os.stat(path).st_mtime_ns for path in sources):
            return image
        words = [os.path.realpath(program_of()), "save", "plan.json", f".cube.img.{os.getpid()}"]
        made = subprocess.run(words, cwd=folder, env=environment(), stdin=subprocess.DEVNULL, stdout=-1, text=True)
        if made.returncode:
            said = made.stdout.strip().splitlines()
            raise CubeError(f"{folder}: no image was saved, " + (said[-1] if said else f"status {made.returncode}"))
        os.replace(os.path.join(folder, words[-1]), image)
    except OSError as fault:
        raise CubeError(f"{fault.filename}: {fault.strerror}") from None
    for line in made.stdout.splitlines():
        if " refused" in line and not line.endswith(" 0 refused"):
            print(line, file=sys.stderr)
    return image
