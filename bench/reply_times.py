"""reply_times.py PROGRAM.. [--peer NANOCUBE] [--records 50000] [--rounds 5] [--functions N]: what replies take, by
`load` over one image.

For each kind of line, of each PROGRAM in turn: processor time a line, as the difference of a script of many such lines
and of none (the least of so many rounds of each), and, where `valgrind` is installed, instructions a line over a
smaller cube, as such a difference too. A line is read from the script, answered and printed; the output goes to no
file. With `--functions N` the N functions that take most of a line's instructions are told besides. At the end,
instructions a record of `load` and of `save`'s image: of `load` with no line, and of the functions that write the
image.

NANOCUBE is bench/nanocube.rs, built: plain Rust that inserts the same records, reads the same scripts, answers and
prints, and measures that part of itself. It has no `told`, `best` and faults. What it prints has to be what the first
PROGRAM prints.

Records are those of load_times.py: generated (one category) for all lines but `cross`, which is asked of a city's of
three types and of one of four."""
import argparse
import json
import os
import re
import shutil
import subprocess
import tempfile

from runs import KINDS, step, timed


def tiles(level, count, text):
    """So many lines, each with another tile of a level."""
    s, lines = 1, []
    for _ in range(count):
        s = step(s)
        lines.append(
            text.format(
                level, (s >> 50) % (1 << level), (s >> 38) % (1 << level), "abcd"[(s >> 62) & 3], (s >> 32) % 512
            )
        )
    return lines


# Each kind of line: the records, how many lines a round has, and how they are made.
LINES = {
    "told": ("generated", 400_000, lambda n: ["told"] * n),
    "count": ("generated", 400_000, lambda n: ["count"] * n),
    "count with tile, value and interval": (
        "generated",
        400_000,
        lambda n: tiles(4, n, "count in {}/{}/{} with kind={} time {} 1024"),
    ),
    "hist kind": ("generated", 400_000, lambda n: ["hist kind"] * n),
    "map 6 (4,096 rows)": ("generated", 200, lambda n: ["map 6"] * n),
    "series 0 1 1000": ("generated", 4_000, lambda n: ["series 0 1 1000"] * n),
    "best 6 10": ("generated", 200, lambda n: ["best 6 10"] * n),
    "sum 77 (a fault)": ("generated", 400_000, lambda n: ["sum 77"] * n),
    "cross type district (3 by 2)": ("city", 400_000, lambda n: ["cross type district"] * n),
    "cross type district (4 by 2)": ("city4", 400_000, lambda n: ["cross type district"] * n),
}


def write_script(folder, lines):
    with open(os.path.join(folder, "script.txt"), "w", encoding="utf-8") as it:
        it.writelines(line + "\n" for line in lines)


def make_image(program, folder, kind, records):
    KINDS[kind].write(folder, records, 1)
    with open(os.path.join(folder, "plan.json"), "w", encoding="utf-8") as it:
        json.dump({**KINDS[kind].plan(1, 65536), "finals": []}, it)
    status, out, *_ = timed(program, ["save", "plan.json", "cube.img"], folder)
    assert status == 0, out


LOAD = ["load", "plan.json", "cube.img", "script.txt"]
# The verbs that plain Rust has.
PEER_VERBS = ("count", "hist", "map", "series", "cross")


def seconds(program, folder, lines, rounds):
    """The least processor seconds of so many loads with these lines."""
    write_script(folder, lines)
    least = float("inf")
    for _ in range(rounds):
        with open(os.devnull, "wb") as nowhere:
            child = subprocess.Popen([program, *LOAD], cwd=folder, stdout=nowhere)
            _, status, usage = os.wait4(child.pid, 0)
        assert status == 0, status
        least = min(least, usage.ru_utime + usage.ru_stime)
    return least


def peer_words(kind):
    """The words with which plain Rust answers the script over the records of this kind."""
    return [
        str(KINDS[kind].depth),
        "numbers.txt",
        "script.txt",
        *(f"{name}={'|'.join(values)}" for name, values in KINDS[kind].categories),
    ]


def peer_seconds(peer, folder, kind, lines, rounds):
    """The least processor seconds that plain Rust takes for these lines, as it tells them."""
    write_script(folder, lines)
    runs = [
        subprocess.run(
            [peer, *peer_words(kind)], cwd=folder, check=True, stdout=subprocess.DEVNULL, stderr=subprocess.PIPE
        )
        for _ in range(rounds)
    ]
    return min(float(it.stderr) for it in runs)


def test_same(program, peer, folder, kind, lines):
    """Whether both print the same replies."""
    write_script(folder, lines)
    one, other = (
        subprocess.run(words, cwd=folder, check=True, stdout=subprocess.PIPE, stderr=subprocess.DEVNULL).stdout
        for words in ([program, *LOAD], [peer, *peer_words(kind)])
    )
    assert one == other, f"{program} and {peer} print other replies to {lines[0]}"


def counted(program, folder, words):
    """The instructions of each function of a command."""
    out = os.path.join(folder, "callgrind.out")
    subprocess.run(
        ["valgrind", "--tool=callgrind", f"--callgrind-out-file={out}", program, *words],
        cwd=folder,
        check=True,
        stdout=subprocess.DEVNULL,
        stderr=subprocess.DEVNULL,
    )
    told = subprocess.run(
        ["callgrind_annotate", "--threshold=100", out], check=True, capture_output=True, text=True, errors="replace"
    )
    found = {}
    for taken, where in re.findall(r"(?m)^\s*([\d,]+) \([^)]*\)\s+(\S.*)$", told.stdout):
        name = re.sub(r" \[.*\]$", "", where).split(":", 1)[-1]
        if name != "PROGRAM TOTALS":
            found[name] = found.get(name, 0) + int(taken.replace(",", ""))
    return found


def instructions(program, folder, words, lines, most):
    """The instructions that each of these lines takes, in all and of the functions that take most."""
    taken = []
    for some in ([], lines):
        write_script(folder, some)
        taken.append(counted(program, folder, words))
    each = {name: (there - taken[0].get(name, 0)) / len(lines) for name, there in taken[1].items()}
    return sum(each.values()), sorted(each.items(), key=lambda it: -it[1])[:most]


def lines_of(programs, peer, records, rounds, most):
    for name, (kind, count, make) in LINES.items():
        beside = peer if name.split()[0] in PEER_VERBS else []
        with tempfile.TemporaryDirectory() as folder:
            make_image(programs[0], folder, kind, records)
            lines, few = make(count), make(max(20, count // 1_000))
            told = [(seconds(it, folder, lines, rounds) - seconds(it, folder, [], rounds)) / count for it in programs]
            told += [peer_seconds(it, folder, kind, lines, rounds) / count for it in beside]
            print(f"{name}: {', '.join(f'{1e6 * it:.2f}' for it in told)} us a line", flush=True)
            for it in beside:
                test_same(programs[0], it, folder, kind, few)
            if not shutil.which("valgrind"):
                continue
            make_image(programs[0], folder, kind, 2_000)
            for program, words in [(it, LOAD) for it in programs] + [(it, peer_words(kind)) for it in beside]:
                whole, functions = instructions(program, folder, words, few, most)
                print(
                    f"  {program}: {whole:,.0f} instructions a line"
                    + "".join(f"\n    {it:>9,.0f}  {at}" for at, it in functions),
                    flush=True,
                )


def images_of(programs, most):
    """Instructions a record of `load`, and of what writes an image."""
    few, many = 2_000, 12_000
    for program in programs:
        taken = {form: [] for form in ("save", "load")}
        for records in (few, many):
            with tempfile.TemporaryDirectory() as folder:
                make_image(program, folder, "generated", records)
                write_script(folder, [])
                taken["load"].append(counted(program, folder, LOAD))
                taken["save"].append(counted(program, folder, ["save", "plan.json", "cube.img"]))
        for form, (one, other) in taken.items():
            each = {name: (there - one.get(name, 0)) / (many - few) for name, there in other.items()}
            if form == "save":
                each = {name: it for name, it in each.items() if "image" in name}
            first = sorted(each.items(), key=lambda it: -it[1])[:most]
            what = "save, what writes its image" if form == "save" else "load"
            print(
                f"{program}: {what}: {sum(each.values()):,.0f} instructions a record"
                + "".join(f"\n    {it:>9,.0f}  {at}" for at, it in first),
                flush=True,
            )


def main():
    words = argparse.ArgumentParser(description=__doc__, formatter_class=argparse.RawDescriptionHelpFormatter)
    words.add_argument("programs", nargs="+", metavar="PROGRAM")
    words.add_argument("--peer", type=os.path.abspath)
    words.add_argument("--records", type=int, default=50_000)
    words.add_argument("--rounds", type=int, default=5)
    words.add_argument("--functions", type=int, default=0, metavar="N")
    words.add_argument("--only", choices=["lines", "images"])
    given = words.parse_args()
    programs = [os.path.abspath(it) for it in given.programs]
    if given.only != "images":
        lines_of(programs, [given.peer] if given.peer else [], given.records, given.rounds, given.functions)
    if given.only != "lines" and shutil.which("valgrind"):
        images_of(programs, given.functions)


if __name__ == "__main__":
    main()
