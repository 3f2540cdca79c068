"""load_times.py PROGRAM.. [--groups GROUPS] [--records 200000] [--kinds generated,city,checkins] [--batches
1,64,1024,16384,65536]
             [--feeds 1,8] [--rounds 1]: times loading, of each PROGRAM in turn, so that the figures of one run compare.

For each kind of records and each batch: `save` (reading, one cube, and its image), and `run` with so many feeds (two
copies), in seconds by the clock and of processors, records a second, and MB at most. GROUPS is the program of
bench/groups.rs, which inserts the same records one by one and in groups of the same sizes in plain Rust. `count` has to
be the same of every form, and `stat` of an image is printed. runs.py says what the kinds of records are."""
import argparse
import json
import os
import subprocess
import tempfile

from runs import KINDS, timed


def told(records, seconds, busy, most):
    return f"{seconds:.2f} s ({busy:.2f} of processors), {records / seconds:,.0f} records a second, {most:.0f} MB"


def least_of(rounds, work):
    return min((work() for _ in range(rounds)), key=lambda took: took[3])


def replies(folder, name):
    with open(os.path.join(folder, name), encoding="utf-8") as it:
        return it.read().splitlines()


def run(program, folder, words, report):
    took = timed(program, words, folder)
    assert took[0] == 0 and took[1].decode().splitlines()[-1].startswith(report), took
    return took


def load(program, kind, folder, records, batch, feeds, rounds):
    """Times `save` and the runs of one batch, and returns the replies of each."""
    answers = []
    for form in ["save", *feeds]:
        with open(os.path.join(folder, "plan.json"), "w") as it:
            json.dump(kind.plan(1 if form == "save" else form, batch), it)
        kind.write(folder, records, 1 if form == "save" else form)
        if form == "save":
            took = least_of(rounds, lambda: run(program, folder, ["save", "plan.json", "cube.img"], "image: "))
            size = os.path.getsize(os.path.join(folder, "cube.img"))
            _, out, *_ = timed(program, ["load", "plan.json", "cube.img", "final.txt"], folder)
            answers.append(out.decode().splitlines())
            print(f"  batch {batch}, save: {told(records, *took[2:])}, an image of {size / 1e6:.1f} MB", flush=True)
        else:
            took = least_of(rounds, lambda: run(program, folder, ["run", "plan.json"], f"journal: {records} entries"))
            answers.append(replies(folder, "final.txt.out"))
            print(f"  batch {batch}, run with {form} feed{'s' * (form > 1)}: {told(records, *took[2:])}", flush=True)
    return answers


def measure(name, given):
    kind, counts = KINDS[name], set()
    with tempfile.TemporaryDirectory() as folder:
        with open(os.path.join(folder, "final.txt"), "w") as it:
            it.write("count\nstat\n")
        for program in given.programs:
            print(f"{name}, {given.records:,} records, {program}:", flush=True)
            for batch in given.batches:
                answers = load(os.path.abspath(program), kind, folder, given.records, batch, given.feeds, given.rounds)
                counts |= {json.dumps(json.loads(lines[0])["rows"]) for lines in answers}
                print(f"  batch {batch}, stat: {answers[0][1]}", flush=True)
        if given.groups:
            print(f"{name}, {given.records:,} records, plain Rust:", flush=True)
            kind.write(folder, given.records, 1)
            words = [
                os.path.abspath(given.groups),
                "numbers.txt",
                str(kind.depth),
                str(len(kind.categories)),
                "0",
                *map(str, given.batches),
            ]
            env = {**os.environ, "ROUNDS": str(given.rounds)}
            for line in subprocess.run(
                words, cwd=folder, env=env, check=True, capture_output=True, text=True
            ).stdout.splitlines():
                print(f"  {line}", flush=True)
    assert counts <= {f"[[{given.records}]]"}, counts


def numbers(text):
    return [int(word) for word in text.split(",")]


def main():
    words = argparse.ArgumentParser(description=__doc__, formatter_class=argparse.RawDescriptionHelpFormatter)
    words.add_argument("programs", nargs="*", metavar="PROGRAM")
    words.add_argument("--groups")
    words.add_argument("--records", type=int, default=200_000)
    words.add_argument("--kinds", type=lambda text: text.split(","), default=["generated", "city", "checkins"])
    words.add_argument("--batches", type=numbers, default=[1, 64, 1024, 16384, 65536])
    words.add_argument("--feeds", type=numbers, default=[1, 8])
    words.add_argument("--rounds", type=int, default=1)
    given = words.parse_args()
    for name in given.kinds:
        measure(name, given)


if __name__ == "__main__":
    main()
