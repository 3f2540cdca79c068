"""Folders of made-up records and calls of ./explore, for the checks and measurements of the page.

    make_folder("folder", 3000)              # a folder with feed.csv, plan.json and origin.json
    run = Running(top, ["--keep", "folder", "500"])
    run.port                                 # where it serves
    run.end()                                # Ctrl-C: the status and what it printed"""
import json
import os
import random
import re
import select
import signal
import subprocess
import time

DEPTH, WIDTH = 16, 3600
PLACES = [(19000, 26000, 3000), (20500, 27500, 900), (25000, 29500, 5000), (16800, 24350, 40)]
CATEGORIES = {
    "strength": ["0 depression", "1 tropical storm", "2 hurricane 1", "3 hurricane 2", "4 hurricane 3"],
    "month": ["Aug", "Sep", "Oct"],
    "place": [f"district {number:02d}" for number in range(17)] + ["a|b", "Málaga, ñ & co"],
}


def make_folder(folder, number, seed=1):
    """So many records of some ten years, in the order of time, at four places of the northern Atlantic."""
    drawn = random.Random(seed)
    names = list(CATEGORIES)
    categories = [{"name": name, "values": CATEGORIES[name]} for name in names]
    plan = {"asks": [], "batch": 100, "categories": categories, "depth": DEPTH, "feeds": ["feed.csv"], "finals": [],
            "journal": "journal.txt", "start": 0, "version": 1, "width": WIDTH}
    os.makedirs(folder, exist_ok=True)
    with open(f"{folder}/plan.json", "w", encoding="utf-8") as it:
        json.dump(plan, it, ensure_ascii=False)
    with open(f"{folder}/origin.json", "w", encoding="utf-8") as it:
        json.dump({"origin": "2010-01-01T00:00:00Z", "zone": "America/New_York"}, it)
    with open(f"{folder}/feed.csv", "w", encoding="utf-8") as it:
        it.write("x,y,time," + ",".join(names) + "\n")
        for moment in sorted(drawn.randrange(10 * 365 * 86400) for _ in range(number)):
            x, y, spread = drawn.choice(PLACES)
            values = [drawn.choice(CATEGORIES[name][: drawn.randint(1, len(CATEGORIES[name]))]) for name in names]
            place = ",".join(str(int(drawn.gauss(middle, spread)) % 65536) for middle in (x, y))
            it.write(f"{place},{moment}," + ",".join(f'"{value}"' for value in values) + "\n")


started = []                      # each explore, so that none is left over where a check breaks off


def end_all():
    for run in started:
        if run.process.poll() is None:
            run.end()


class Running:
    """./explore of a checkout, as a process that prints its address first, or after the lines `before`."""

    def __init__(self, top, words, seconds=60, **more):
        more = {"stdout": subprocess.PIPE, "stderr": subprocess.STDOUT, "text": True, **more}
        keeps = words[:1] == ["--keep"]
        words = [f"{top}/explore", *words[:keeps], "--port", "0", *words[keeps:]]
        self.process = subprocess.Popen(words, stdin=subprocess.DEVNULL, **more)
        started.append(self)
        if not select.select([self.process.stdout], [], [], seconds)[0]:
            self.process.kill()
            raise RuntimeError("explore printed no address")
        self.before, first = "", self.process.stdout.readline()
        # (Why it takes another form than it was asked for comes before the address.)
        while first.startswith(("capacity: ", "so ")):
            self.before, first = self.before + first, self.process.stdout.readline()
        found = re.fullmatch(r"http://127\.0\.0\.1:(\d+)/\n", first)
        if not found:
            raise RuntimeError(f"explore printed {first!r}")
        self.port, self.url = int(found.group(1)), first.strip()

    def end(self, how=signal.SIGINT):
        """Its status and what it printed after its address."""
        if how:
            self.process.send_signal(how)
        said = self.process.communicate(timeout=60)[0]
        return self.process.returncode, said

    def below(self):
        """The processes that it has started, and those that they have started, by id: their command lines."""
        found, left = {}, [self.process.pid]
        while left:
            words = ["ps", "-o", "pid=,args=", "--ppid", ",".join(map(str, left))]
            children = subprocess.run(words, stdout=-1, text=True).stdout.splitlines()
            left = [int(line.split()[0]) for line in children if " ps -o " not in line]
            found |= {int(line.split()[0]): line.split(maxsplit=1)[1] for line in children}
        return {pid: words for pid, words in found.items() if not words.startswith("ps ")}

    def run_of(self):
        """The process id of the program."""
        return next(pid for pid, words in self.below().items() if " plan.json" in words)


def alive(pids, seconds=3):
    """Which of these processes are there still after a while."""
    end = time.monotonic() + seconds
    while time.monotonic() < end:
        left = [pid for pid in pids if os.path.exists(f"/proc/{pid}")]
        if not left:
            return []
        time.sleep(0.02)
    return left
