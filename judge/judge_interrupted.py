"""judge_interrupted.py PROGRAM LIBRARY [rows | BATCH]: runs with each call of one kind refused in turn (LIBRARY is
judge/refuse.c, built), judged by what docs/FORMATS.md says of status, report and files. Each ends with 1 at the first
run that is wrong.

Without `rows` it is a plan of two feeds, an ask and a final, published in batches of BATCH records (1), with each
opening, read, write, half write, closing and allocation refused, judged by plain counts over the journal. With `rows`
it is worked rows with each allocation refused: the counts of a feed of three records by `demo`; two feeds with an ask
and a final; a final whose second put fails; and two categories. Such a run ends with the row's own status and text, or
out of memory, and then it is judged as the others are."""
import collections
import json
import os
import re
import subprocess
import sys
import tempfile

sys.path.insert(0, os.path.join(os.path.dirname(os.path.realpath(__file__)), "../tools"))
from usage import words_of

NO_MEMORY = {"fault": "NoMemory"}


def plan_of(feeds, asks, finals, categories=(("kind", "ab"),), depth=3, width=10):
    return {
        "asks": asks,
        "batch": 1,
        "categories": [{"name": name, "values": list(values)} for name, values in categories],
        "depth": depth,
        "feeds": feeds,
        "finals": finals,
        "journal": "j.txt",
        "start": 0,
        "version": 1,
        "width": width,
    }


def weighed(points, holds):
    return [[sum(map(holds, points))]]


def rows_of(line, points):
    """The rows of a table line over the points, each of x, y, its values and its bin."""
    if line == "hist kind":
        return [[name, sum(p[2] == v for p in points)] for v, name in enumerate("ab")]
    if line == "map 1":
        tiles = collections.Counter((p[1] >> 2, p[0] >> 2) for p in points)
        return [[1, x, y, tiles[y, x]] for y, x in sorted(tiles)]
    tests = {
        "count": lambda p: True,
        "count with m=c": lambda p: p[3] == 0,
        "count with k=a with m=d": lambda p: p[2:4] == (0, 1),
        "count with kind=a": lambda p: p[2] == 0,
        "count in 1/0/0 with kind=a": lambda p: p[0] < 4 and p[1] < 4 and p[2] == 0,
    }
    return weighed(points, tests[line])


def journal_of(lines):
    """The entries of a journal's lines, as feeder, number and point."""
    return [(words[0], words[1], tuple(words[2:])) for words in (list(map(int, line.split())) for line in lines)]


class Case:
    """A plan with its feeds, the points that each gives, what each line is (`accepted`, `blank` or a refusal), and its
    scripts."""

    def __init__(self, plan, feeds, accepted, scripts, rows=None, env=None, whole=None):
        self.plan, self.feeds, self.accepted, self.scripts = plan, feeds, accepted, scripts
        self.rows = rows or {name: ["accepted"] * len(accepted[name]) for name in feeds}
        # What is refused beside, and what the folder and the report have to be where nothing else was: a test of both
        # and the status.
        self.env, self.whole = env or {}, whole
        self.outputs = [f"{name}.out" for name in plan["asks"] + plan["finals"]] + [plan["journal"]]

    def judge_transcript(self, lines, replies, points, final, lacking):
        """The replies to the first of the script's asked lines, over the journal's points. The last number seen."""
        asked = [line for line in lines if not line.startswith("#")]
        assert len(replies) <= len(asked)
        seen = told = last = 0
        for line, reply in zip(asked, replies):
            if reply == NO_MEMORY:
                assert lacking
                continue
            if line == "sum 1":
                assert reply == {"at": 1, "fault": "UnknownVerb"}, reply
            elif line == "told":
                assert told <= reply["told"] <= len(points)
                assert not final or reply["told"] == len(points)
                told = reply["told"]
            else:
                assert max(seen, told) <= reply["seen"] <= len(points)
                assert not final or reply["seen"] == len(points)
                seen = last = reply["seen"]
                if line == "stat":
                    assert reply["nodes"] + reply["tables"] == reply["proper"] + 1
                else:
                    assert reply["rows"] == rows_of(line, points[:seen]), (line, reply)
        return last

    def feed_lines(self, name, given, fault):
        """The report's lines of a feed that gave so many rows, and was stopped by a fault or by none."""
        rows = self.rows[name][:given]
        refused = [(2 + i, row) for i, row in enumerate(rows) if row not in ("accepted", "blank")]
        lines = [f"feed {name}: {rows.count('accepted')} accepted, {rows.count('blank')} blank, {len(refused)} refused"]
        lines += [f"feed {name} line {at}: {what}" for at, what in refused]
        return lines + ([f"feed {name} stopped: {fault}"] if fault else [])

    def take_feed(self, name, report):
        """How many rows of a feed the report is of, and its fault. It takes the feed's lines from the report."""
        for given in range(len(self.rows[name]), -1, -1):
            for fault in (None, "Read", "NoMemory"):
                lines = self.feed_lines(name, given, fault)
                rest = report[len(lines) :]
                if report[: len(lines)] == lines and not (rest and rest[0].startswith(f"feed {name}")):
                    del report[: len(lines)]
                    return given, fault
        raise AssertionError(report)

    def judge_order(self, entries, given, whole):
        """The entries are an interleaving of a front of each feed's accepted points, of those that it gave unless
        memory ran out."""
        for f, name in enumerate(self.feeds, 1):
            mine = [e for e in entries if e[0] == f]
            assert [e[1] for e in mine] == list(range(len(mine)))
            assert [e[2] for e in mine] == self.accepted[name][: len(mine)], (name, mine)
            if whole:
                assert len(mine) == self.rows[name][: given[name]].count("accepted"), (name, mine)
        assert all(e[0] <= len(self.feeds) for e in entries)

    def judge_script(self, folder, name, points, lacking, fault):
        """The replies in a script's output, over the journal's points: how many, and the last number seen."""
        *lines, rest = open(os.path.join(folder, name + ".out")).read().split("\n")
        assert rest == "" or fault == "Write", (name, rest)
        replies = [json.loads(line) for line in lines]
        last = self.judge_transcript(self.scripts[name], replies, points, name in self.plan["finals"], lacking)
        assert (
            fault
            or not replies
            and lacking
            or len(replies) == sum(not line.startswith("#") for line in self.scripts[name])
        )
        return len(replies), last

    def judge_report(self, status, out, folder, writes):
        """Judges a run that put its whole report. Whether its sessions were closed. `writes`: whether a write was
        refused."""
        report, lacking = out.splitlines(), status == 4
        feeds = {name: self.take_feed(name, report) for name in self.feeds}
        scripts = {name: take_script(name, report, ("Read", "NoMemory", *["Write"] * writes)) for name in self.scripts}
        closed = report[0] != "sessions: not closed"
        if not closed:
            report.pop(0)
            assert lacking
        count = int(re.fullmatch(r"journal: (\d+) entries", report.pop(0))[1])
        assert not report, report
        faults = [fault for *_, fault in [*feeds.values(), *scripts.values()]]
        assert "Read" not in faults or status in (4, 5)
        assert "NoMemory" not in faults or lacking
        assert status != 0 or not any(faults)
        for name, (rows, fault) in feeds.items():
            assert fault or rows == len(self.rows[name])
        *lines, rest = open(os.path.join(folder, "j.txt")).read().split("\n")
        entries = journal_of(lines)
        assert writes or len(entries) == count and rest == ""
        self.judge_order(entries, {name: feeds[name][0] for name in self.feeds}, not lacking and len(entries) == count)
        if len(entries) < count:
            return faults, closed
        for name, (replies, seen, fault) in scripts.items() if closed else ():
            found = self.judge_script(folder, name, [e[2] for e in entries], lacking, fault)
            assert found == (replies, seen) or lacking and found == (0, 0), (name, found)
        return faults, closed

    def judge_silent(self, status, folder):
        """A run without a report ended before its threads, and left its outputs empty, as far as they were created, and
        from the front. Or memory ran out after them, and the journal's file begins the text of fronts of the feeds'
        records. What was seen. """
        there = [os.path.join(folder, name) for name in self.outputs]
        sizes = [os.path.getsize(path) for path in there if os.path.exists(path)]
        assert all(map(os.path.exists, there[: len(sizes)]))
        if not any(sizes):
            return f"no report, {len(sizes)} outputs, empty"
        assert status == 4 and len(sizes) == len(self.outputs)
        *lines, _ = open(os.path.join(folder, "j.txt")).read().split("\n")
        self.judge_order(journal_of(lines), {}, False)
        return "no report, all outputs"

    def judge_unsaid(self, folder):
        """A run whose report alone was not put misses nothing in its files."""
        entries = journal_of(open(os.path.join(folder, "j.txt")).read().splitlines())
        self.judge_order(entries, {name: len(self.rows[name]) for name in self.feeds}, True)
        for name in self.scripts:
            self.judge_script(folder, name, [e[2] for e in entries], False, None)

    def run(self, program, library, kind, n):
        """A run with the n-th call of a kind refused: its status, and what was seen."""
        with tempfile.TemporaryDirectory() as folder:
            before = {
                name: "".join(f"{line}\n" for line in lines) for name, lines in {**self.feeds, **self.scripts}.items()
            }
            before["plan.json"] = json.dumps(self.plan)
            got = run_in(
                folder, before, [program, "run", "plan.json"], {"LD_PRELOAD": library, kind: str(n), **self.env}
            )
            assert set(os.listdir(folder)) <= {*before, *self.outputs}
            if self.whole and got.returncode != 4:
                assert self.whole(got, lambda name: open(os.path.join(folder, name)).read()), got
                return got.returncode, "all as the row has it"
            if got.stdout.endswith("entries\n"):
                writes = kind in ("FAIL_WRITE", "FAIL_SHORT") or bool(self.env)
                faults, closed = self.judge_report(got.returncode, got.stdout, folder, writes)
                assert faults.count("Read") <= (kind == "FAIL_READ")
                return got.returncode, "a report" if closed else "a report of open sessions"
            if self.env and got.returncode == 4 and got.stdout:
                # Replies by the line for out of memory are other puts, so the one that fails may be the report's.
                return 4, "a part of the report"
            if kind in ("FAIL_WRITE", "FAIL_SHORT"):
                assert got.returncode == 6
                self.judge_unsaid(folder)
                return got.returncode, "a part of the report, and whole files"
            assert got.stdout == "" and got.returncode != 0, got
            return got.returncode, self.judge_silent(got.returncode, folder)


def run_in(folder, files, words, env):
    """Runs a program in a folder of these files, which it leaves as they were."""
    for name, text in files.items():
        open(os.path.join(folder, name), "w").write(text)
    got = subprocess.run(words, cwd=folder, capture_output=True, text=True, env={**os.environ, **env}, timeout=60)
    assert all(open(os.path.join(folder, name)).read() == text for name, text in files.items())
    return got


def take_script(name, report, faults):
    """How many replies a script had, the last number seen, and its fault. It takes the script's lines from the
    report."""
    found = re.fullmatch(rf"script {re.escape(name)}: (\d+) replies, seen (\d+)", report.pop(0))
    fault = None
    if report[0].startswith(f"script {name} stopped: "):
        fault = report.pop(0).rsplit(" ", 1)[1]
        assert fault in faults, fault
    return int(found[1]), int(found[2]), fault


A = ["x,y,kind,time", "0,0,a,5", "7,7,b,12", "0,0,a,15"]
OF_A = [(0, 0, 0, 0), (7, 7, 1, 1), (0, 0, 0, 1)]

INTERRUPTED = Case(
    plan_of(["a.csv", "b.csv"], ["q.txt"], ["f.txt"]),
    {
        "a.csv": ["x,y,kind,time", "0,0,a,5", "", "7,7,b,12", "8,0,a,1", "0,0,a,15"],
        "b.csv": ["time,kind,y,x", "25,b,1,2", "31,a,1,2", "x,a,1,2"],
    },
    {"a.csv": OF_A, "b.csv": [(2, 1, 1, 2), (2, 1, 0, 3)]},
    {
        "q.txt": ["count", "# a note", "told", "hist kind", "sum 1"],
        "f.txt": ["count", "hist kind", "map 1", "told", "count in 1/0/0 with kind=a", "stat"],
    },
    {
        "a.csv": ["accepted", "blank", "accepted", "BadTile(x)", "accepted"],
        "b.csv": ["accepted", "accepted", "BadNumber(time)"],
    },
)


def two_feeds(got, text):
    entries = text("j.txt").splitlines()
    report = (
        "feed a.csv: 3 accepted, 0 blank, 0 refused\nfeed b.csv: 1 accepted, 0 blank, 0 refused\n"
        "script q.txt: 0 replies, seen 0\nscript f.txt: 1 replies, seen 4\njournal: 4 entries\n"
    )
    return (
        (got.returncode, got.stdout) == (0, report)
        and text("f.txt.out") == '{"rows":[[4]],"seen":4}\n'
        and text("q.txt.out") == ""
        and sorted(entries)[:3] == [e for e in entries if e[0] == "1"] == ["1 0 0 0 0 0", "1 1 7 7 1 1", "1 2 0 0 0 1"]
        and sorted(entries)[3:] == ["2 0 2 1 1 2"]
    )


def a_put_fails(got, text):
    return (
        got.returncode == 6
        and text("f.txt.out") == '{"rows":[[3]],"seen":3}\n{"rows":[[3]'
        and text("g.txt.out") == '{"rows":[[3]],"seen":3}\n' * 2
    )


def two_categories(got, text):
    return (
        got.returncode == 0
        and text("f.txt.out")
        == '{"nodes":16,"proper":19,"seen":3,"shared":6,"tables":4}\n{"rows":[[2]],"seen":3}\n{"rows":[[1]],"seen":3}\n'
    )


ROWS = {
    "two feeds, an ask and a final": Case(
        plan_of(["a.csv", "b.csv"], ["q.txt"], ["f.txt"]),
        {"a.csv": A, "b.csv": ["time,kind,y,x", "25,b,1,2"]},
        {"a.csv": OF_A, "b.csv": [(2, 1, 1, 2)]},
        {"q.txt": [], "f.txt": ["count"]},
        whole=two_feeds,
    ),
    "the second put fails": Case(
        plan_of(["a.csv"], [], ["f.txt", "g.txt"]),
        {"a.csv": A},
        {"a.csv": OF_A},
        {"f.txt": ["count"] * 2, "g.txt": ["count"] * 2},
        env={"FAIL_SHORT": "4"},
        whole=a_put_fails,
    ),
    "two categories": Case(
        plan_of(["a.csv"], [], ["f.txt"], [("k", "ab"), ("m", "cd")], 1, 1),
        {"a.csv": ["x,y,k,m,time", "0,0,a,c,0", "1,0,a,d,0", "0,0,a,c,0"]},
        {"a.csv": [(0, 0, 0, 0, 0), (1, 0, 0, 1, 0), (0, 0, 0, 0, 0)]},
        {"f.txt": ["stat", "count with m=c", "count with k=a with m=d"]},
        whole=two_categories,
    ),
}


class Demo:
    """The three records by `demo`: `stat` and a count."""

    want = ['{"nodes":14,"proper":17,"seen":3,"shared":7,"tables":4}', '{"rows":[[2]],"seen":3}']

    def run(self, program, library, kind, n):
        files = {"a.csv": "".join(f"{line}\n" for line in A), "q.txt": "stat\ncount with kind=a\n"}
        with tempfile.TemporaryDirectory() as folder:
            got = run_in(folder, files, [program, "demo", "a.csv", "q.txt"], {"LD_PRELOAD": library, kind: str(n)})
            assert set(os.listdir(folder)) == {*files}
        replies = got.stdout.splitlines()
        if got.returncode == 0:
            assert replies == self.want, got
            return 0, "all as the row has it"
        assert got.returncode == 4 and len(replies) <= 2, got
        assert all(
            reply in (want, json.dumps(NO_MEMORY, separators=(",", ":"))) for reply, want in zip(replies, self.want)
        ), got
        return 4, f"{len(replies)} replies"


def refuse_each(title, case, program, library, kind):
    """Runs the case with each call of a kind refused, the first, the second and so on, until eight runs have met no
    such call."""
    ends, n, over, first = collections.Counter(), 0, 0, case.run(program, library, kind, 10**9)
    while over < (8 if kind != "FAIL_CLOSE" else 30):
        n += 1
        try:
            end = case.run(program, library, kind, n)
        except BaseException:
            print(f"{title}, {kind}={n}")
            raise
        ends[end] += 1
        over = over + 1 if end == first else 0
    print(f"{title}, 1 to {n}:")
    for (status, what), count in sorted(ends.items()):
        print(f"    {count} with status {status} and {what}", flush=True)


def main():
    program, library = map(os.path.abspath, words_of(__doc__, 2)[:2])
    if sys.argv[3:] == ["rows"]:
        for title, case in {"three records by demo": Demo(), **ROWS}.items():
            refuse_each(title, case, program, library, "FAIL_ALLOC")
        return
    INTERRUPTED.plan["batch"] = int((sys.argv[3:] or [1])[0])
    for kind in ("FAIL_OPEN", "FAIL_READ", "FAIL_WRITE", "FAIL_SHORT", "FAIL_CLOSE", "FAIL_ALLOC"):
        refuse_each(kind, INTERRUPTED, program, library, kind)


main()
