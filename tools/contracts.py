"""What the scripts that read contracts share: the functions of a crate with their clauses, the definitions of its
specs/, and the promises of a page of docs/bands/."""
import glob
import os
import re
from collections import defaultdict

from pages import TOP

BANDS = sorted(os.path.relpath(path, TOP) for path in glob.glob(f"{TOP}/docs/bands/*.md"))
OWNER = re.compile(
    r"(?:pub )?(?:unsafe )?(?:(trait) (\w+)|impl\b(?:[^{]*\bfor )?[^{]*?(\w+)(?:<[^{]*>)?(?:\s+where [^{]*)?\s*\{)"
)
FUNCTION = re.compile(r"(\s*)(?:pub(?:\([^)]*\))? )?(?:const )?(?:unsafe )?fn (\w+)")
CLAUSE = re.compile(r"\s*(?:ensures|requires)\*?(?: (\w+))? *\{")
DEFINES = re.compile(r"(\s*)(?:abbrev pub|unfoldable pub|pub record|pub data) ([^\s:({]+)")
IMPORT = re.compile(r"ghost use Rattle\.(\w+)\.specs\.([\w.]+?)\.\{([^}]*)\}")
WORD = re.compile(r"[^\W\d][\w'-]*")
# What a contract's clause without a name is called here.
UNNAMED = ""


def files(crate, folder, ending):
    """The path and the text of each file in a folder of a crate."""
    for at, _, names in sorted(os.walk(f"{TOP}/crates/{crate}/{folder}")):
        for name in sorted(names):
            if name.endswith(ending):
                with open(f"{at}/{name}", encoding="utf-8") as it:
                    yield os.path.relpath(f"{at}/{name}", TOP), it.read()


def crates_by_band():
    """The crates of each band, in the order of crates.txt."""
    found, band = {}, None
    with open(f"{TOP}/crates.txt", encoding="utf-8") as it:
        for line in it:
            if line.startswith("# "):
                band = line[2:].split(":")[0].split()[0]
            elif line.strip():
                found.setdefault(band, []).append(line.split()[0].rstrip(":"))
    return found


def clause_text(lines, at):
    """A clause's text, from its first line on to the brace that closes it."""
    text = lines[at]
    while text.count("{") > text.count("}") and at + 1 < len(lines):
        at += 1
        text += " " + lines[at].strip()
    return text


def functions_of(crate):
    """The clauses of each function of a crate, by its name with that of its type or trait."""
    clauses = defaultdict(dict)
    for path, text in files(crate, "src", ".rt"):
        owner = name = ""
        lines = text.split("\n")
        imports = imports_of(text)
        for at, line in enumerate(lines):
            if re.match(r"(pub )?(unsafe )?(trait|impl)\b", line):
                head = OWNER.match(" ".join(lines[at : at + 12]))
                owner = (head[2] or head[3]) + "::" if head else ""
            elif line.startswith("}"):
                owner = ""
            elif head := FUNCTION.match(line):
                name = (owner if head[1] else "") + head[2]
                clauses[name].update()
            elif head := CLAUSE.match(line):
                clauses[name].setdefault(head[1] or UNNAMED, []).append((clause_text(lines, at), imports))
    return clauses


def imports_of(text):
    """What each name that a file's contracts use is: the crate, the file of its specs/ and the name there."""
    found = {}
    for crate, module, names in IMPORT.findall(text):
        for part in filter(None, (it.strip() for it in names.split(","))):
            there, _, here = part.partition(" as ")
            found[here or there] = (crate, module, there)
    return found


def definitions_of(crate):
    """Of each file of a crate's specs/: its path, the comment at its head, and each public definition with its
    comment."""
    for path, text in files(crate, "specs", ".antt"):
        if path.endswith("/Lib.antt"):
            continue
        lines = text.split("\n")
        about = " ".join(
            line[2:].strip() for line in lines[: next(n for n, line in enumerate(lines) if not line.startswith("--"))]
        )
        comment, found = [], []
        for line in lines:
            if head := DEFINES.match(line):
                found.append((head[2], " ".join(comment)))
            comment = [*comment, line.strip()[2:].strip()] if line.strip().startswith("--") else []
        yield path, about, found


def promises(page):
    """Each promise of a page of a band: its crate, and the calls and clauses that carry it, which stand in brackets at
    the end of an item of a list."""
    crate, item = None, ""
    with open(f"{TOP}/{page}", encoding="utf-8") as it:
        for line in [*it.read().split("\n"), ""]:
            if not line.startswith("  "):
                if crate and (found := re.search(r" \((`[^()]*)\)$", item)):
                    yield crate, found[1]
                item = ""
            if head := re.match(r"##+ (?:`(\w+)`)?", line):
                crate = head[1]
            elif line.startswith("- ") or item:
                item += " " + line.strip()
