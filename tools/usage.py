"""For scripts that take a program's path and few other words: without these they show their page and end with 2."""
import os
import sys


def words_of(page, least=1):
    """The words of the call. Where they are fewer, or the first names no program, it says so and the script ends."""
    words = sys.argv[1:]
    if len(words) < least or words[0].startswith("-"):
        print(page.strip(), file=sys.stderr)
        sys.exit(2)
    if not os.path.isfile(words[0]) or not os.access(words[0], os.X_OK):
        print(f"{os.path.basename(sys.argv[0])}: {words[0]} is no program", file=sys.stderr)
        sys.exit(2)
    return words
