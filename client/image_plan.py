#!/usr/bin/env python3
"""What an image was saved under: IMAGE.plan, which `./nanocube save` keeps beside an image, and how a plan differs.

An image has no names and no times. Under a plan whose values are exchanged, or whose start or width differ, it answers
with wrong names and wrong times. So `refusal(plan, image)` says, in one line, why the image is not to be read under
that plan, or nothing. docs/FORMATS.md has the form of IMAGE.plan. `./nanocube` calls this file as a script:

    image_plan.py check PLAN IMAGE         prints why IMAGE may not be saved over, to standard error, and ends with 1
    image_plan.py keep PLAN PART IMAGE     PART is the new image: it becomes IMAGE, and its schema IMAGE.plan
    image_plan.py compare PLAN IMAGE       prints the refusal to standard error, and ends with 1
"""
import contextlib
import fcntl
import hashlib
import json
import os
import stat
import sys

# The members of a plan that say what an image means. A plan without `weight` has none.
SCHEMA = ("categories", "depth", "start", "width", "weight")
# What holds where a plan has no origin.json beside it.
ORIGIN = {"origin": "1970-01-01T00:00:00Z", "zone": "UTC"}
WORD = b"nanocube-plan"
AT_ONCE = 1 << 20


class Entry:
    """One entry of IMAGE.plan: which image it is of, and the bytes of the plan and of the origin.json beside that."""

    def __init__(self, length, changed, digest, origin, plan):
        self.length, self.changed, self.digest, self.origin, self.plan = length, changed, digest, origin, plan

    def text(self):
        head = f"{self.length} {self.changed} {self.digest} {len(self.origin)} {len(self.plan)}\n"
        return WORD + b" " + head.encode() + self.origin + self.plan + b"\n"


def target_of(image):
    """Where the image lies, with links followed: its schema is kept there."""
    return os.path.realpath(image) if os.path.islink(image) else image


def bytes_of(path):
    """What a plain file holds; of anything else, as of an absent file, None."""
    try:
        if not stat.S_ISREG(os.stat(path).st_mode):
            return None
        with open(path, "rb") as it:
            return it.read()
    except OSError:
        return None


def origin_path(plan):
    return os.path.join(os.path.dirname(plan), "origin.json")


def digest_of(path):
    digest = hashlib.sha256()
    with open(path, "rb") as it:
        while block := it.read(AT_ONCE):
            digest.update(block)
    return digest.hexdigest()


def changed_of(found):
    """When a file was last changed, as `./nanocube` prints it too."""
    return f"{found.st_mtime:.6f}"


def entries_of(text):
    """The entries of an IMAGE.plan. What is no entry ends them."""
    entries, at = [], 0
    while text.startswith(WORD + b" ", at):
        end = text.find(b"\n", at)
        try:
            length, changed, digest, origin, plan = text[at:end].decode("ascii").split(" ")[1:]
            middle = end + 1 + int(origin)
            last = middle + int(plan)
            entry = Entry(int(length), changed, digest, text[end + 1 : middle], text[middle:last])
        except ValueError:
            break
        if end < 0 or text[last : last + 1] != b"\n":
            break
        entries.append(entry)
        at = last + 1
    return entries


def entry_of(image, entries):
    """The entry of this image, or None. Its digest is taken only where the file's time is another than was kept."""
    found = os.stat(image)
    alike = [entry for entry in entries if entry.length == found.st_size]
    for entry in alike:
        if entry.changed == changed_of(found):
            return entry
    digest = digest_of(image) if alike else ""
    return next((entry for entry in alike if entry.digest == digest), None)


def has_kind(name, value):
    if name == "categories":
        return isinstance(value, list) and all(
            isinstance(one, dict) and isinstance(one.get("name"), str) and isinstance(one.get("values"), list)
            and all(isinstance(text, str) for text in one["values"]) for one in value)
    return isinstance(value, str) if name == "weight" else type(value) is int


def origin_of(text):
    """What an origin.json says. Where it is no JSON object, its text is what differs."""
    try:
        members = json.loads(text or b"{}")
    except (ValueError, RecursionError):
        members = None
    return {**ORIGIN, **members} if isinstance(members, dict) else {**ORIGIN, "origin": text.decode(errors="replace")}


def schema_of(plan, origin=b""):
    """What the texts of a plan and its origin.json say of an image. None where the plan has no such members."""
    try:
        members = json.loads(plan)
    except (ValueError, RecursionError):
        return None
    if not isinstance(members, dict):
        return None
    if not all(has_kind(name, members[name]) if name in members else name == "weight" for name in SCHEMA):
        return None
    return {**origin_of(origin), **{name: members.get(name) for name in SCHEMA}}


def names_of(categories):
    return [one["name"] for one in categories]


def shown(value):
    """A member's value in a few words."""
    text = "none" if value is None else value if isinstance(value, str) else json.dumps(value, ensure_ascii=False)
    return text if len(text) <= 100 else text[:100] + ".."


def differing_categories(kept, given):
    """What differs between two lists of categories: their names, or the values of the first that differs."""
    if names_of(kept) != names_of(given):
        return "categories", shown(names_of(kept)), shown(names_of(given))
    for one, other in zip(kept, given):
        pairs = list(zip(one["values"], other["values"]))
        at = next((place for place, (mine, yours) in enumerate(pairs) if mine != yours), len(pairs))
        if one["values"] != other["values"]:
            what = f"categories: value {at + 1} of {one['name']}"
            return what, shown((one["values"] + [None])[at]), shown((other["values"] + [None])[at])
    return "categories", shown(kept), shown(given)


def difference(kept, given):
    """The first member in which two schemas differ, with what each has, in one line; or None."""
    for name in [*SCHEMA, *sorted((kept.keys() | given.keys()) - set(SCHEMA))]:
        if kept.get(name) != given.get(name):
            what, mine, yours = name, shown(kept.get(name)), shown(given.get(name))
            if name == "categories":
                what, mine, yours = differing_categories(kept[name], given[name])
            return f"{what}: {mine} when it was saved, {yours} now"
    return None


def refusal(plan, image):
    """Why the image is not to be read under the plan (two paths): one line, or None. An image without IMAGE.plan is
    read as ever. What the program refuses by itself is left to it: an absent image, or a plan that is none."""
    place = target_of(image)
    kept, held = bytes_of(place + ".plan"), os.path.isfile(place)
    if kept is None or not held:
        return None
    entry = entry_of(place, entries_of(kept))
    if entry is None:
        return f"{image}: {image}.plan was kept with another image; remove it where the image is right"
    if os.path.exists(plan) and not os.path.isfile(plan):
        return f"{image}: {plan} is no plain file, and cannot be compared with {image}.plan"
    given, text = bytes_of(plan), bytes_of(origin_path(plan)) or b""
    if given is None or (given == entry.plan and text == entry.origin):
        return None
    now, then = schema_of(given, text), schema_of(entry.plan, entry.origin)
    found = now and then and difference(then, now)
    return f"{image} was saved under another plan: {found} in {plan}" if found else None


def may_not_save(plan, image):
    """Why `save` may not write this image: it is the plan, or one of its feeds, under whatever name. Else None."""
    try:
        feeds = json.loads(bytes_of(plan) or b"{}").get("feeds", [])
    except (ValueError, AttributeError, RecursionError):
        feeds = []
    for what, name in [("the plan", plan)] + [("a feed of the plan", feed) for feed in feeds if isinstance(feed, str)]:
        if os.path.exists(name) and os.path.exists(image) and os.path.samefile(name, image):
            return f"{image} is {what}, {name}: an image would take its place"
    return None


def began():
    """When this process began, as `./nanocube` reads it too; nothing where the system does not tell."""
    found = (bytes_of("/proc/self/stat") or b"").decode(errors="replace").rpartition(")")[2].split()
    return found[19] if found else ""


def write_beside(path, text, parts):
    """Writes a file that is to take the place of another, under a name beside it that tells which process made it."""
    parts.append(f"{path}.{len(parts)}.{os.getpid()}-{began()}.saving")
    with open(parts[-1], "wb") as it:
        it.write(text)
    return parts[-1]


def exchange(part, image, entry, parts):
    """Makes `part` the image, and leaves IMAGE.plan with its entry alone.

    Over an image that has an entry, IMAGE.plan gets the entries of both first. So at each moment it has one of the
    image that is there, and none is taken for another's: a process that is ended in between leaves nothing that reads
    wrongly."""
    kept = f"{image}.plan"
    earlier = entry_of(image, entries_of(bytes_of(kept) or b"")) if os.path.exists(image) else None
    last = write_beside(kept, entry.text(), parts)
    if earlier:
        os.rename(write_beside(kept, earlier.text() + entry.text(), parts), kept)
    elif os.path.exists(kept):
        os.unlink(kept)
    os.rename(part, image)
    os.rename(last, kept)


@contextlib.contextmanager
def alone_in(folder):
    """Waits until no other `save` exchanges files in the folder, where its file system has such locks."""
    opened = os.open(folder, os.O_RDONLY)
    try:
        with contextlib.suppress(OSError):
            fcntl.flock(opened, fcntl.LOCK_EX)
        yield
    finally:
        os.close(opened)


def keep(plan, part, image):
    """Makes `part` the image, and keeps the plan beside it. Answers what is to be said. Nothing waits for the disk (no
    fsync), so what is there after the power failed is the file system's matter."""
    text, parts = bytes_of(plan), []
    found = os.stat(part)
    if os.path.exists(image):
        os.chmod(part, stat.S_IMODE(os.stat(image).st_mode))
    if text is None:
        # A plan that came through a pipe is gone, so the new image has no entry.
        if os.path.exists(f"{image}.plan"):
            os.unlink(f"{image}.plan")
        os.rename(part, image)
        return f"{plan} is no plain file, so {image}.plan was not kept"
    entry = Entry(found.st_size, changed_of(found), digest_of(part), bytes_of(origin_path(plan)) or b"", text)
    try:
        with alone_in(os.path.dirname(image) or "."):
            exchange(part, image, entry, parts)
    finally:
        for name in filter(os.path.exists, parts):
            os.unlink(name)
    return None


def answer(words):
    """What a call says, or None, and its status."""
    if words[0] == "check":
        said = may_not_save(*words[1:])
        return said, 1 if said else 0
    if words[0] == "compare":
        said = refusal(*words[1:])
        return said and f"{said}. `--other-plan` loads it all the same", 1 if said else 0
    return keep(*words[1:]), 0


def main(words):
    if (words[:1], len(words)) not in [(["check"], 3), (["compare"], 3), (["keep"], 4)]:
        print(__doc__, file=sys.stderr)
        return 2
    try:
        said, status = answer(words)
    except OSError as fault:
        said, status = f"{words[-1]} was not saved: {fault.strerror or fault}", 6
    except KeyboardInterrupt:
        return 130
    if said:
        print(f"nanocube: {said}", file=sys.stderr)
    return status


if __name__ == "__main__":
    sys.exit(main(sys.argv[1:]))
