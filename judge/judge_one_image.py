"""judge_one_image.py [PROGRAM] [LISTS [SEED]]: saves LISTS (500) random lists of records three times each, shuffled, in
other batches and over other splits into feeds. It compares the bytes of the images with each other, and with those
of the image of the least cube, which is made here of the list of records alone.

A batch of more than one record is inserted as a group, and so is what is left over at the end, also a single record.
For each list one of the batches leaves a single record over, where there is such a batch.

PROGRAM is by default what tools/program_of prints. It ends with 1 at the first other image."""
import random
import sys
import tempfile

from cubes import draw, homes_of, least_image_of, run_judge, save, slots_of, words_of

USE = "use: judge_one_image.py [PROGRAM] [LISTS [SEED]]"
SAVES = 3


def list_of(rng):
    """A random list: up to four categories, some with weights, mostly small, and some as deep as a plan may be."""
    depth = 20 if rng.random() < 0.1 else rng.randrange(1, 6)
    count = rng.randrange(200, 400) if rng.random() < 0.1 else rng.randrange(2, 60)
    return draw(rng, depth, rng.randrange(5), count, rng.choice((1, 1, 1000)))


def feeds_of(rng, rows):
    """The rows, shuffled and cut into one to eight feeds, of which some may be without records."""
    rows = rng.sample(rows, len(rows))
    cuts = sorted(rng.randrange(len(rows) + 1) for _ in range(rng.randrange(8)))
    return [rows[begin:end] for begin, end in zip([0, *cuts], [*cuts, len(rows)])]


def batches_of(rng, count):
    """Three batches of two and more, one of which leaves a single record over, where there is such a one."""
    sizes = [*range(2, count + 1), 64 * count, 65536]
    single = [batch for batch in sizes if count % batch == 1]
    first = [rng.choice(single)] if single else []
    return first + rng.sample([it for it in sizes if it not in first], SAVES - len(first))


def difference(image, other):
    """Where two images differ: their lengths, the first byte, and the addresses at which one alone has a slot."""
    at = next((k for k, (one, two) in enumerate(zip(image, other)) if one != two), min(len(image), len(other)))
    here, there = (homes_of(slots_of(it)) for it in (image, other))
    more, less = sorted(set(there) - set(here)), sorted(set(here) - set(there))
    told = f"{len(other)} bytes and {len(there)} slots beside {len(image)} and {len(here)}, first at byte {at}; "
    return told + f"{len(more)} slots more, {len(less)} less, the first of these at {(more + less or ['none'])[0]}"


def judge(program, folder, rng):
    """Saves a list three times, and gives what is wrong, or None, and how many saves left a single record over."""
    drawn = list_of(rng)
    wanted = least_image_of(drawn)
    batches = batches_of(rng, len(drawn.rows))
    for batch in batches:
        image = save(program, folder, drawn, feeds_of(rng, drawn.rows), batch)
        if image != wanted:
            return f"batch {batch} of {batches}: {difference(wanted, image)}: {drawn}", 0
    return None, sum(len(drawn.rows) % batch == 1 for batch in batches)


def main():
    program, (lists, seed) = words_of(USE, [500, 1])
    rng, single = random.Random(seed), 0
    with tempfile.TemporaryDirectory() as folder:
        for number in range(lists):
            wrong, left = judge(program, folder, rng)
            if wrong:
                print(f"list {number}: {wrong}")
                sys.exit(1)
            single += left
    print(f"{lists} lists, {SAVES * lists} saves: one image each, that of the least cube")
    print(f"{single} of the saves leave a single record over")


if __name__ == "__main__":
    run_judge(main)
