"""What the scripts that try the pages of this repository share: a page's parts, and how a case is told."""
import os
import re

TOP = os.path.dirname(os.path.dirname(os.path.realpath(__file__)))
TABLE_LINE = re.compile(r"\|(.*)\|\s*$")
CODE = re.compile(r"(``?)(.+?)\1")


def ok(name):
    print(f"ok {name}")


def failed(name, why):
    print(f"FAILED {name}: {' '.join(str(why).split())[:300]}")


def judge(name, wanted, found):
    """Tells whether what was found is what a page says. A capital letter by itself is any number, and so are those of a
    line `capacity: ..`, which tells of the machine."""
    pattern = re.sub(r"(?<=\s)[A-Z](?=\\?\s|,|$)", r"\\d+", re.escape(wanted.strip()), flags=re.M)
    pattern = re.sub(r"(?m)^capacity:.*$", lambda line: re.sub(r"\d[\d.,\\]*", r"[\\d.,]+", line[0]), pattern)
    if re.fullmatch(pattern, found.strip()):
        ok(name)
    else:
        failed(name, f"the page says {wanted.strip()!r}, and the program {found.strip()!r}")


def pieces(text):
    """The code blocks, tables and paragraphs of a page."""
    lines, at = text.split("\n"), 0
    while at < len(lines):
        end = at + 1
        if lines[at].startswith("```"):
            while end < len(lines) and not lines[end].startswith("```"):
                end += 1
            yield "block", lines[at + 1 : end]
            end += 1
        elif TABLE_LINE.match(lines[at]):
            while end < len(lines) and TABLE_LINE.match(lines[end]):
                end += 1
            rows = [re.split(r"(?<!\\)\|", line.strip()[1:-1]) for line in lines[at:end]]
            yield "table", [[cell.strip().replace("\\|", "|") for cell in row] for row in rows]
        elif lines[at].strip():
            while end < len(lines) and lines[end].strip() and not lines[end].startswith(("```", "|")):
                end += 1
            yield "text", " ".join(lines[at:end])
        at = end


def code_of(cell):
    """The first code in a cell, or None."""
    found = CODE.search(cell)
    return found[2] if found else None


def asks(line):
    return line.strip() and not line.startswith("#") and line.strip() != "quit"


def lines_of(path):
    with open(path, encoding="utf-8") as it:
        return it.read().split("\n")
