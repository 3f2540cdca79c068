"""What judge_least.py and judge_one_image.py have in common: the words of a call, random lists, cubes that are saved,
and images that are read back, by the rules of tools/check_images. They import it. It prints nothing but a use."""
import importlib.machinery
import importlib.util
import json
import os
import subprocess
import sys
import typing

from pipes import plan_of

TOOLS = os.path.join(os.path.dirname(os.path.realpath(__file__)), "../tools")


def module_of(name):
    """A script of tools/ as a module. Nothing is left beside it."""
    sys.dont_write_bytecode = True
    loader = importlib.machinery.SourceFileLoader(name, os.path.join(TOOLS, name))
    made = importlib.util.module_from_spec(importlib.util.spec_from_loader(name, loader))
    loader.exec_module(made)
    return made


IMAGES = module_of("check_images")


class Records(typing.NamedTuple):
    """A random list. A row is its x, its y, its bin, its weight and the number of its value in each category."""

    depth: int
    sizes: list  # how many values each category has
    rows: list

    def named(self):
        return [(f"c{k}", [f"v{n}" for n in range(size)]) for k, size in enumerate(self.sizes)]


def program_of():
    """What tools/program_of prints."""
    asked = subprocess.run([os.path.join(TOOLS, "program_of")], stdout=subprocess.PIPE, text=True, check=False)
    if asked.returncode:
        sys.exit(asked.returncode)
    return asked.stdout.strip()


def words_of(use, numbers):
    """The program and the numbers of a call `[PROGRAM] [NUMBER ..]`. Those that it lacks are these numbers."""
    words = sys.argv[1:]
    named = words[:1] if words and not words[0].isdigit() else []
    given = words[len(named) :]
    wrong = named and not (os.path.isfile(named[0]) and os.access(named[0], os.X_OK))
    if wrong or len(given) > len(numbers) or not all(it.isdigit() for it in given):
        print(use, file=sys.stderr)
        sys.exit(2)
    return os.path.abspath(named[0] if named else program_of()), [*map(int, given), *numbers[len(given) :]]


def run_judge(main):
    """Calls a judge's main function. An absent file, a closed pipe and Ctrl-C end it with one line."""
    try:
        main()
    except (KeyboardInterrupt, BrokenPipeError):
        os.dup2(os.open(os.devnull, os.O_WRONLY), sys.stdout.fileno())
        sys.exit("the judge was ended")
    except (OSError, ValueError) as fault:
        sys.exit(str(fault))


def draw(rng, depth, few, count, heaviest=1):
    """Random records, of which almost a third are in the place and with the values of an earlier one."""
    sizes = [rng.randrange(1, 5) for _ in range(few)]
    rows = []
    for _ in range(count):
        if rows and rng.random() < 0.3:
            x, y, _, _, *chosen = rng.choice(rows)
        else:
            x, y, chosen = rng.randrange(1 << depth), rng.randrange(1 << depth), [rng.randrange(size) for size in sizes]
        rows.append((x, y, rng.randrange(5), rng.randint(1, heaviest), *chosen))
    return Records(depth, sizes, rows)


def write_feed(path, records, rows):
    names = [name for name, _ in records.named()]
    with open(path, "w", encoding="utf-8") as it:
        it.write(",".join(["x", "y", "time", "n", *names]) + "\n")
        for x, y, row, weight, *chosen in rows:
            it.write(",".join(map(str, [x, y, row, weight, *(f"v{n}" for n in chosen)])) + "\n")


def call(program, folder, *words):
    """What a call of the program in a folder prints. It has to end with 0."""
    done = subprocess.run([program, *words], cwd=folder, capture_output=True, text=True, check=False)
    if done.returncode:
        raise ValueError(f"{' '.join(words)} ended with {done.returncode} in {folder}: {done.stdout}{done.stderr}")
    return done.stdout


def save(program, folder, records, feeds, batch):
    """The bytes of the image of the records of these lists of rows, one for each feed, in groups of a batch."""
    plan = {**plan_of(len(feeds), 0, batch, records.depth, records.named()), "version": 2, "weight": "n"}
    for name, rows in zip(plan["feeds"], feeds):
        write_feed(os.path.join(folder, name), records, rows)
    with open(os.path.join(folder, "plan.json"), "w", encoding="utf-8") as it:
        json.dump(plan, it)
    call(program, folder, "save", "plan.json", "cube.img")
    with open(os.path.join(folder, "cube.img"), "rb") as it:
        return it.read()


def least_image_of(records):
    """The image of the least cube of the records, made of the records alone."""
    schema = IMAGES.Schema(records.depth, dict(records.named()), "n", 1)
    made = [IMAGES.Record(x, y, tuple(chosen), row, weight) for x, y, row, weight, *chosen in records.rows]
    return IMAGES.image_of(made, schema)


def slots_of(image):
    """The slots of an image, by the rules of docs/FORMATS.md."""
    return IMAGES.Reader(image).slots


def links_of(slot, home):
    """Each link of a slot with the address to which it is a step. A time table has none."""
    if isinstance(slot, dict):
        return []
    children, content = slot
    steps = [(link, (*home[:-1], (*home[-1], label))) for label, link in children]
    return steps + ([(content, (*home, ()))] if content else [])


def homes_of(slots):
    """The address of each slot along proper links: the labels of each dimension that it has come to."""
    homes = [((),)] + [None] * (len(slots) - 1)
    for number, slot in enumerate(slots):
        for (mark, target), address in links_of(slot, homes[number]):
            if mark == IMAGES.PROPER:
                homes[target] = address
    return homes
