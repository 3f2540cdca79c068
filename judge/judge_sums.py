#!/usr/bin/env python3
"""Judges `add_replies`: random feeds cut into shares, whose replies are added by the program and by a plain sum.

python3 judge/judge_sums.py NANOCUBE ADD_REPLIES [CASES [SEED]]

Each case makes a plan, a script and records, cuts the records into 1 to 8 shares, runs each share and the whole feed by
NANOCUBE, and adds the shares' replies by ADD_REPLIES. The output must be, line by line, the plain sum of the replies,
and the reply of the whole feed where replies add up. Then one share has a line more, a line less or another line, and
must be refused at that line. Its plain counts are its own: judges that shared one would share its mistakes."""
import json
import os
import random
import subprocess
import sys
import tempfile

sys.path.insert(0, os.path.join(os.path.dirname(os.path.realpath(__file__)), "../tools"))
from usage import words_of

NOT_ADDITIVE = '{"fault":"NotAdditive"}'
VALUES = {"kind": ["a", "b", "c c"], "day": ["mo", "tu|we"]}


def compact(value):
    return json.dumps(value, separators=(",", ":"), sort_keys=True)


def random_line(depth, names):
    place = random.randrange(depth + 1)
    region = (
        f" in {place}/{random.randrange(2 ** place)}/{random.randrange(2 ** place)}" if random.random() < 0.3 else ""
    )
    level = place if region else 0
    time = f" time {random.randrange(4)} {random.randrange(4, 9)}" if random.random() < 0.3 else ""
    verb = random.choice(["count", "hist", "map", "series", "window", "cross", "best", "stat", "told", "fault", "#"])
    if verb == "hist":
        return f"hist {random.choice(names)}{region}{time}"
    if verb == "map":
        return f"map {random.randrange(depth - level + 1)}{region}{time}"
    if verb == "series":
        return f"series {random.randrange(3)} {random.randrange(1, 4)} {random.randrange(1, 6)}{region}"
    if verb == "window":
        x, y = random.randrange(2**depth), random.randrange(2**depth)
        return f"window {x} {y} {random.randrange(x, 2 ** depth + 1)} {random.randrange(y, 2 ** depth + 1)}{time}"
    if verb == "cross":
        return f"cross {names[0]} {names[1]}{region}{time}" if len(names) > 1 else f"cross {names[0]} {names[0]}"
    if verb == "best":
        return f"best {random.randrange(depth - level + 1)} {random.randrange(1, 5)}{region}"
    if verb == "fault":
        return random.choice(["map 30", "hist absent", "count in 9/0/0", "nothing", "stat more"])
    return "# a note" if verb == "#" else f"{verb}{region}{time}" if verb == "count" else verb


def add_rows(verb, tables):
    sums, order = {}, []
    for table in tables:
        for row in table:
            key = tuple(row[:-1])
            if key not in sums:
                order.append(key)
            sums[key] = sums.get(key, 0) + row[-1]
    if verb == "map":
        order.sort(key=lambda key: [2 * (key[2] >> k & 1) + (key[1] >> k & 1) for k in reversed(range(key[0]))])
    return [list(key) + [sums[key]] for key in order]


def plain_sum(line, replies):
    verb = line.split()[0]
    values = [json.loads(reply) for reply in replies]
    if "fault" in values[0]:
        assert len(set(replies)) == 1
        return replies[0]
    if verb in ("best", "stat"):
        return NOT_ADDITIVE
    if verb == "told":
        return compact({"told": sum(value["told"] for value in values)})
    return compact(
        {"rows": add_rows(verb, [value["rows"] for value in values]), "seen": sum(value["seen"] for value in values)}
    )


def damages(replies):
    """A share's replies with a line more, and with one less or another in its place; the first wrong line, and why."""
    yield len(replies) + 1, "TooMany", replies + ['{"told":1}']
    if replies:
        yield len(replies), "TooFew", replies[:-1]
        at = random.randrange(len(replies))
        why, line = random.choice([("NotReply", ""), ("NotReply", "{}"), ("OtherRows", '{"fault":"NoMemory"}')])
        yield at + 1, why, replies[:at] + [line] + replies[at + 1 :]


def run(nanocube, folder, plan, header, records, script):
    os.mkdir(folder)
    for name, text in (("plan.json", compact(plan)), ("q.txt", script), ("a.csv", header + "".join(records))):
        with open(os.path.join(folder, name), "w", encoding="utf-8") as file:
            file.write(text)
    assert (
        subprocess.run([nanocube, "run", "plan.json"], cwd=folder, stdout=subprocess.DEVNULL, check=False).returncode
        == 0
    )
    with open(os.path.join(folder, "q.txt.out"), encoding="utf-8") as file:
        return file.read().splitlines()


def one_case(nanocube, add_replies, top):
    depth = random.randrange(1, 6)
    names = random.sample(sorted(VALUES), random.randrange(1, 3))
    weighted = random.random() < 0.4
    plan = {
        "asks": [],
        "batch": random.choice([1, 7, 64]),
        "categories": [{"name": n, "values": VALUES[n]} for n in names],
        "depth": depth,
        "feeds": ["a.csv"],
        "finals": ["q.txt"],
        "journal": "j.txt",
        "start": 0,
        "version": 1,
        "width": 10,
    }
    if weighted:
        plan.update(version=2, weight="n")
    header = ",".join(["x", "y", "time", *names, *(["n"] if weighted else [])]) + "\n"
    records = []
    for _ in range(random.choice([0, 1, 3, 20, 60])):
        fields = [
            random.randrange(2**depth),
            random.randrange(2**depth),
            random.randrange(80),
            *(random.choice(VALUES[n]) for n in names),
        ]
        records.append(",".join(map(str, fields + ([random.randrange(1, 1000)] if weighted else []))) + "\n")
    lines = [random_line(depth, names) for _ in range(random.randrange(1, 8))]
    script = "".join(line + "\n" for line in lines)
    shares = [[] for _ in range(random.randrange(1, 9))]
    for record in records:
        random.choice(shares).append(record)
    whole = run(nanocube, os.path.join(top, "whole"), plan, header, records, script)
    replies = [run(nanocube, os.path.join(top, f"s{k}"), plan, header, share, script) for k, share in enumerate(shares)]
    words = [add_replies, "s0/plan.json", "s0/q.txt", *(f"s{k}/q.txt.out" for k in range(len(shares)))]
    done = subprocess.run(words, cwd=top, capture_output=True, check=False)
    asked = [line for line in lines if not line.startswith("#")]
    want = [plain_sum(line, column) for line, column in zip(asked, zip(*replies))] if asked else []
    got = done.stdout.decode().splitlines()
    assert done.returncode == 0 and got == want, (lines, got, want)
    for line, sum_, reply in zip(asked, got, whole):
        assert sum_ in (reply, NOT_ADDITIVE), (line, sum_, reply)
    k = random.randrange(len(shares))
    for at, why, damaged in damages(replies[k]):
        with open(os.path.join(top, f"s{k}", "q.txt.out"), "w", encoding="utf-8") as file:
            file.write("".join(line + "\n" for line in damaged))
        done = subprocess.run(words, cwd=top, capture_output=True, check=False)
        said = done.stdout.decode()
        assert done.returncode == 9 and said == f"share s{k}/q.txt.out: reply {at}: {why}\n", (lines, damaged, said)
    return len(asked)


def main():
    nanocube, add_replies = map(os.path.abspath, words_of(__doc__, 2)[:2])
    cases = int(sys.argv[3]) if len(sys.argv) > 3 else 1000
    random.seed(int(sys.argv[4]) if len(sys.argv) > 4 else 1)
    lines = 0
    for _ in range(cases):
        with tempfile.TemporaryDirectory() as top:
            lines += one_case(nanocube, add_replies, top)
    print(f"{cases} cases, {lines} replies: each is the plain sum, and each damaged share is refused at its line")


main()
