"""Plans, feeds and scripts that are drawn at random, for the judges that hold two ways to the same replies together.

Usage: from random_plans import lines_of, make, write."""
import json
import os

ASKS, FINALS, LINES = 2, 4, 12


def region(rng, depth, down):
    """A filter `in`, or none, under which there are so many levels."""
    z = rng.randrange(depth - down + 1)
    return f" in {z}/{rng.randrange(2**z)}/{rng.randrange(2**z)}" if rng.random() < 0.5 else ""


def filters(rng, sizes):
    text = ""
    for k, size in enumerate(sizes):
        if rng.random() < 0.4:
            text += f" with c{k}=" + "|".join(f"v{rng.randrange(size)}" for _ in range(rng.randrange(1, 4)))
    return text


def time(rng, bins):
    ends = sorted(rng.randrange(bins + 2) for _ in range(2))
    return f" time {ends[0]} {ends[1]}" if rng.random() < 0.5 else ""


def random_line(rng, depth, sizes, bins):
    verb = rng.choice(["count", "hist", "map", "series", "window", "cross", "best", "stat", "told", "hist absent"])
    down = rng.randrange(min(depth, 5) + 1)
    rest = region(rng, depth, down) + filters(rng, sizes)
    if verb in ("count", "hist", "cross"):
        names = [f"c{k}" for k in rng.sample(range(len(sizes)), min(len(sizes), {"hist": 1, "cross": 2}.get(verb, 0)))]
        return " ".join([verb, *names]) + rest + time(rng, bins)
    if verb == "map":
        return f"map {down}" + rest + time(rng, bins)
    if verb == "best":
        return f"best {down} {rng.randrange(1, 9)}" + rest + time(rng, bins)
    if verb == "series":
        return f"series {rng.randrange(bins)} {rng.randrange(1, 9)} {rng.randrange(1, 40)}" + rest
    if verb == "window":
        (x, x1), (y, y1) = (sorted(rng.randrange(2**depth + 1) for _ in range(2)) for _ in range(2))
        return f"window {x} {y} {x1} {y1}" + filters(rng, sizes) + time(rng, bins)
    return verb


def write(folder, name, text):
    with open(os.path.join(folder, name), "w", encoding="ascii") as file:
        file.write(text)


def lines_of(folder, name):
    with open(os.path.join(folder, name), encoding="ascii") as file:
        return file.read().splitlines(keepends=True)


def make(rng, folder):
    """Writes a plan, its feeds and its scripts."""
    depth, bins, weighs = rng.randrange(1, 9), rng.choice([1, 20, 300]), rng.random() < 0.5
    sizes = [rng.choice([1, 2, 3, 40, 256]) for _ in range(rng.randrange(1, 5))]
    names = [f"c{k}" for k in range(len(sizes))]
    plan = {
        "asks": [f"a{n}" for n in range(ASKS)],
        "batch": rng.choice([1, 2, 7, 64, 65_536]),
        "categories": [{"name": n, "values": [f"v{v}" for v in range(size)]} for n, size in zip(names, sizes)],
        "depth": depth,
        "feeds": ["f0", "f1"],
        "finals": [f"q{n}" for n in range(FINALS)],
        "journal": "journal",
        "start": 0,
        "version": 2 if weighs else 1,
        "width": 1,
        **({"weight": "n"} if weighs else {}),
    }
    write(folder, "plan", json.dumps(plan))
    places = rng.choice([2, 10, 2**depth])
    for feed in plan["feeds"]:
        text = ",".join(["x", "y", *names, "time", *(["n"] if weighs else [])]) + "\n"
        for _ in range(rng.choice([0, 1, 10, 100, 400])):
            row = [rng.randrange(min(places, 2**depth)) for _ in range(2)]
            row += [f"v{rng.randrange(size)}" for size in sizes] + [rng.randrange(bins)]
            text += ",".join(map(str, row + ([rng.randrange(1, 100_000)] if weighs else []))) + "\n"
        write(folder, feed, text)
    for script in plan["asks"] + plan["finals"]:
        write(folder, script, "".join(random_line(rng, depth, sizes, bins) + "\n" for _ in range(LINES)))
    return plan
