"""judge_least.py [PROGRAM] [CASES [SEED]]: saves CASES (3,000) random small feeds in batches of two records and more,
and judges the cube of each: it has to be the least one, which is counted here from the list of records alone. What is
left over at the end is a batch too, also a single record.

What `stat` tells has to be the numbers of the least cube. And of the slots that the image has, each proper link has to
be one whose address has no finer one with all its records. Each shared link has to lead to the slot of a finer address
with all its records.

A walk goes down the quadrants of a place so far, and then, category by category, down a value or past it, to time.
Its link is proper where no walk that is longer in an earlier dimension has all the records of it, and shared
otherwise. A slot stands at the root and at the end of each proper link. PROGRAM is by default what tools/program_of
prints."""
import json
import os
import random
import sys
import tempfile

from cubes import IMAGES, call, draw, homes_of, links_of, run_judge, save, slots_of, words_of

BATCHES = (2, 3, 7, 64, 65536)
USE = "use: judge_least.py [PROGRAM] [CASES [SEED]]"


def walks(record, depth, few):
    """The walks of a record: dimension, quadrants, values (None is any), and whether it is level 0."""
    quadrants, values = record
    for level in range(depth + 1):
        yield 1, quadrants[:level], (), False
        chosen = [()]
        for dim in range(2, few + 3):
            yield from ((dim, quadrants[:level], past, True) for past in chosen)
            if dim < few + 2:
                value = values[dim - 2]
                yield from ((dim, quadrants[:level], (*past, value), False) for past in chosen)
                chosen = [(*past, it) for past in chosen for it in (None, value)]


def is_proper(walk, records, depth):
    """Whether no walk that is longer in an earlier dimension has all of these records, which are those of the walk."""
    dim, quadrants, values, _ = walk
    if dim == 1:
        return True
    turns = [{values_of[k] for _, values_of in records} for k in range(dim - 2) if values[k] is None]
    if len(quadrants) < depth:
        turns.append({path[len(quadrants)] for path, _ in records})
    return all(len(labels) > 1 for labels in turns)


def slot_before(walk):
    """The walk of the slot that has this link."""
    dim, quadrants, values, is_content = walk
    if dim == 1:
        return 1, quadrants[:-1], (), False
    if not is_content:
        return dim, quadrants, values[:-1], True
    if dim == 2:
        return 1, quadrants, (), False
    # The content of a node at level 0 is for any value, that of its child for the child's.
    return (dim - 1, quadrants, values[:-1], True) if values[-1] is None else (dim - 1, quadrants, values, False)


def records_under(records, depth, few):
    """The records of each walk."""
    under = {}
    for record in records:
        for walk in walks(record, depth, few):
            under.setdefault(walk, []).append(record)
    return under


def least(under, count, depth, few):
    """What `stat` tells of the least cube of so many records, which these walks have."""
    proper = {walk for walk, some in under.items() if is_proper(walk, some, depth)}
    root = (1, (), (), False)
    slots = proper | {root}
    links = [walk for walk in under if walk != root and slot_before(walk) in slots]
    tables = sum(walk[0] == few + 2 for walk in slots)
    return {
        "nodes": len(slots) - tables,
        "tables": tables,
        "proper": sum(it in proper for it in links),
        "seen": count,
        "shared": sum(it not in proper for it in links),
    }


def walk_of(address):
    """An address of a slot as a walk."""
    if len(address) == 1:
        return 1, address[0], (), False
    values = tuple(labels[0] if labels else None for labels in address[1:-1])
    return len(address), address[0], values + address[-1], not address[-1]


def is_finer(address, than):
    """Whether an address goes on from another by the same labels, in earlier dimensions than its last."""
    return (
        address != than
        and len(address) == len(than)
        and address[-1] == than[-1]
        and all(long[: len(labels)] == labels for long, labels in zip(address, than))
    )


def fault_of_link(mark, address, home, under, depth):
    """What is wrong with a link to a slot of this home, or None."""
    some = under.get(walk_of(address))
    if some is None:
        return "leads to no record"
    if mark == IMAGES.PROPER:
        fine = is_proper(walk_of(address), some, depth)
        return None if fine else "is proper, and a finer address has all its records"
    if not is_finer(home, address):
        return f"is shared, and leads to {home}, which is not finer"
    return None if under[walk_of(home)] == some else f"is shared, and leads to {home}, which has not all its records"


def fault_of_slots(slots, under, depth):
    """The first link of an image that is wrong, or None."""
    homes = homes_of(slots)
    for number, slot in enumerate(slots):
        for (mark, target), address in links_of(slot, homes[number]):
            wrong = fault_of_link(mark, address, homes[target], under, depth)
            if wrong:
                return f"slot {number}: the link to {address} {wrong}"
    return None


def quadrants_of(x, y, depth):
    return tuple(2 * (y >> level & 1) + (x >> level & 1) for level in reversed(range(depth)))


def case(program, folder, rng):
    """One feed in one batch size: what is wrong with its cube, or None."""
    depth, few, batch = rng.randrange(1, 6), rng.randrange(5), rng.choice(BATCHES)
    drawn = draw(rng, depth, few, rng.randrange(1, 26))
    image = save(program, folder, drawn, [drawn.rows], batch)
    told = json.loads(call(program, folder, "load", "plan.json", "cube.img", "script.txt"))
    records = [(quadrants_of(x, y, depth), tuple(chosen)) for x, y, _, _, *chosen in drawn.rows]
    under = records_under(records, depth, few)
    wanted = least(under, len(records), depth, few)
    wrong = fault_of_slots(slots_of(image), under, depth)
    if told != wanted:
        wrong = f"{told}, and the least cube has {wanted}"
    return wrong and f"{wrong}: batch {batch}, {drawn}"


def main():
    program, (cases, seed) = words_of(USE, [3000, 1])
    rng = random.Random(seed)
    with tempfile.TemporaryDirectory() as folder:
        with open(os.path.join(folder, "script.txt"), "w", encoding="utf-8") as it:
            it.write("stat\n")
        for number in range(cases):
            wrong = case(program, folder, rng)
            if wrong:
                print(f"case {number}: {wrong}")
                sys.exit(1)
    print(f"{cases} feeds in batches: each cube is the least one of its records, by its numbers and slot by slot")


if __name__ == "__main__":
    run_judge(main)
