"""judge_runs.py PROGRAM RUNS: runs a plan of 8 feeds of 2,000 records with 8 asks of 500 lines that often, and judges
what each run leaves, by plain counts over its journal and by PROGRAM recount. It prints what was seen, and ends with 1
at the first line that is wrong. Its plain counts are its own: judges that shared one would share its mistakes."""
import json
import os
import random
import subprocess
import sys
import tempfile
import typing

sys.path.insert(0, os.path.join(os.path.dirname(os.path.realpath(__file__)), "../tools"))
from usage import words_of

FEEDS, RECORDS, ASKS, LINES = 8, 2_000, 8, 500
DEPTH, VALUES, BINS = 10, "abcd", 1_024
# The bits of a number with a free place before each. Of a tile's x and y these make the labels from the root to it, as
# one number.
SPREAD = [sum(((number >> i) & 1) << 2 * i for i in range(DEPTH)) for number in range(1 << DEPTH)]


class Table(typing.NamedTuple):
    """The rows of a line's table, as texts without their totals, in order. A row may be hidden until a record counts to
    it."""

    heads: list
    rows_of: typing.Callable  # The row to which each of these records counts, by its place; -1 where it counts to none.
    hides: bool = False


def one_count(rng):
    """A `count` with every filter, and its table."""
    z = rng.randrange(1, 4)
    x, y, value, low = rng.randrange(1 << z), rng.randrange(1 << z), rng.randrange(4), rng.randrange(BINS)
    shift = DEPTH - z
    line = f"count in {z}/{x}/{y} with kind={VALUES[value]} time {low} {BINS}"
    return line, Table(
        ["["],
        lambda records: [
            0 if (r[0] >> shift, r[1] >> shift, r[2]) == (x, y, value) and r[3] >= low else -1 for r in records
        ],
    )


def map_of(down):
    """The tiles so many levels down, in the order of their labels."""
    shift, tiles = DEPTH - down, range(1 << down)
    order = sorted((SPREAD[x] + 2 * SPREAD[y], x, y) for x in tiles for y in tiles)
    return Table(
        [f"[{down},{x},{y}," for _, x, y in order],
        lambda records: [SPREAD[r[0] >> shift] + 2 * SPREAD[r[1] >> shift] for r in records],
        True,
    )


def series_of(width, rows):
    """So many intervals from bin 0."""
    return Table(
        [f"[{width * row}," for row in range(rows)],
        lambda records: [r[3] // width if r[3] < width * rows else -1 for r in records],
    )


def queries(rng):
    """Lines of scripts, each with its table."""
    return dict(
        [
            *(one_count(rng) for _ in range(4)),
            ("count", Table(["["], lambda records: [0] * len(records))),
            ("hist kind", Table([f'["{value}",' for value in VALUES], lambda records: [r[2] for r in records])),
            ("map 1", map_of(1)),
            ("map 5", map_of(5)),
            ("series 0 256 4", series_of(256, 4)),
            ("series 0 1 1000", series_of(1, 1000)),
        ]
    )


def write(folder, name, lines):
    with open(os.path.join(folder, name), "w") as it:
        it.writelines(line + "\n" for line in lines)


def make(folder, rng, asked):
    """Writes plan, feeds and scripts. The records of each feed, and the lines of each script."""
    feeds, scripts = [], []
    for f in range(FEEDS):
        feeds.append(list(zip(*(rng.choices(range(size), k=RECORDS) for size in (1024, 1024, 4, BINS)))))
        write(folder, f"feed{f}.csv", ["x,y,kind,time"] + [f"{x},{y},{VALUES[v]},{t}" for x, y, v, t in feeds[f]])
    for a in range(ASKS):
        scripts.append(rng.choices([*asked, "told"], k=LINES))
        write(folder, f"ask{a}.txt", scripts[a])
    plan = {
        "asks": [f"ask{a}.txt" for a in range(ASKS)],
        "batch": 64,
        "categories": [{"name": "kind", "values": list(VALUES)}],
        "depth": DEPTH,
        "feeds": [f"feed{f}.csv" for f in range(FEEDS)],
        "finals": [],
        "journal": "journal.txt",
        "start": 0,
        "version": 1,
        "width": 1,
    }
    write(folder, "plan.json", [json.dumps(plan)])
    return feeds, scripts


def journal_of(folder, feeds):
    """The journal's records, which are each feed's records in that feed's order, and nothing else."""
    records = []
    left = [
        iter([(f"{f + 1} {n} {x} {y} {v} {t}\n", (x, y, v, t)) for n, (x, y, v, t) in enumerate(feed)])
        for f, feed in enumerate(feeds)
    ]
    with open(os.path.join(folder, "journal.txt")) as it:
        for line in it:
            text, record = next(left[int(line[0]) - 1], (None, None))
            assert line == text, line
            records.append(record)
    assert len(records) == FEEDS * RECORDS, len(records)
    return records


def number_of(reply):
    """The number at the end of a reply: how many records it has seen, or tells of."""
    return int(reply[reply.rindex(":") + 1 : -1])


def judge_order(name, lines, replies, most):
    """Sees that no reply to a script has seen less than one before it. The replies to tables: the line, how many
    records were seen, and the text."""
    assert len(replies) == len(lines), (name, len(replies))
    seen = told = 0
    for line, reply in zip(lines, replies):
        number = number_of(reply)
        if line == "told":
            assert told <= number <= most and reply == f'{{"told":{number}}}', (name, line, reply)
            told = number
        else:
            assert max(seen, told) <= number <= most, (name, line, reply)
            seen = number
            yield line, seen, reply


def judge_table(line, table, records, replies):
    """Judges all replies to a line, with the least seen first, by plain counts. Each text is wanted byte by byte; from
    one to the next only the rows of records that came between are written anew."""
    rows = table.rows_of(records)
    totals = [0] * (len(table.heads) + 1)  # The last is of the records that count to no row.
    texts = ["" if table.hides else f"{head}0]" for head in table.heads]
    done, wanted = -1, ""
    for seen, reply in replies:
        if seen > done:
            new = rows[max(done, 0) : seen]
            for row in new:
                totals[row] += 1
            for row in set(new) - {-1}:
                texts[row] = f"{table.heads[row]}{totals[row]}]"
            done, wanted = seen, f'{{"rows":[{",".join(filter(None, texts))}],"seen":{seen}}}'
        assert reply == wanted, (line, reply, wanted)


def judge(scripts, outs, asked, records):
    """Judges the replies to all scripts, each a list of lines. The different numbers of records that they have seen."""
    replies_to = {line: [] for line in asked}
    for a, (lines, replies) in enumerate(zip(scripts, outs)):
        for line, seen, reply in judge_order(f"ask{a}.txt", lines, replies, len(records)):
            replies_to[line].append((seen, reply))
    for line, replies in replies_to.items():
        judge_table(line, asked[line], records, sorted(replies))
    return {seen for replies in replies_to.values() for seen, _ in replies}


def lines_in(path):
    """The lines of a file, which ends with a line feed."""
    with open(path) as it:
        *lines, rest = it.read().split("\n")
    assert rest == "", (path, rest)
    return lines


def main():
    program, runs = os.path.abspath(words_of(__doc__, 2)[0]), int(sys.argv[2])
    rng = random.Random(1)
    replies, audits, fronts, beside = 0, 0, set(), 0
    for run in range(runs):
        with tempfile.TemporaryDirectory() as folder:
            asked = queries(rng)
            feeds, scripts = make(folder, rng, asked)
            out = subprocess.run([program, "run", "plan.json"], cwd=folder, capture_output=True, text=True)
            assert out.returncode == 0, (run, out)
            records = journal_of(folder, feeds)
            outs = [lines_in(os.path.join(folder, f"ask{a}.txt.out")) for a in range(ASKS)]
            seen = judge(scripts, outs, asked, records)
            replies += sum(map(len, outs))
            for a in range(ASKS):
                words = ["recount", "plan.json", "journal.txt", f"ask{a}.txt", f"ask{a}.txt.out"]
                audit = subprocess.run([program, *words], cwd=folder, capture_output=True, text=True)
                assert audit.stdout == f"recount: {LINES} replies agree, 0 without memory\n", (run, audit)
                audits += 1
            fronts |= seen
            beside += any(0 < n < len(records) for n in seen)
    print(
        f"{runs} runs, {replies} replies right, {audits} audits agree; {beside} runs with replies over a part of the"
        f" journal, {len(fronts)} different numbers of points seen"
    )


if __name__ == "__main__":
    main()
