"""The tracked files as they stand in the working tree, read once for all checks, and what is found wrong in them."""
import functools
import re
from itertools import zip_longest

from prelude import ROOT, tracked

WITHOUT_TEXT = re.compile(r".*\.png|tools/c-example/stored/.*")
FENCE = re.compile(r"^ *```")


@functools.cache
def text_of(file):
    """The text of a file, which is read once for all checks."""
    return file.read_text(encoding="utf-8", errors="replace")


class Tree:
    """The tracked files by their paths, the files and folders that are asked for, if any are, and what a check has found wrong."""

    def __init__(self, wanted=()):
        self.paths, self.wanted = tracked(), wanted
        self.folders = {"/".join(path.split("/")[:depth]) for path in self.paths for depth in range(1, path.count("/") + 1)}
        self.known = {*self.paths, *self.folders}
        self.faults = []
        self.counted = 0

    def text(self, path):
        return "" if WITHOUT_TEXT.fullmatch(path) else text_of(ROOT / path)

    def has(self, path):
        return path in self.known

    def sources(self, pattern):
        return [path for path in sorted(self.paths) if re.fullmatch(pattern, path)]

    def pages(self):
        return [path for path in self.paths if path.endswith(".md")]

    def wrong(self, path, line, what):
        """Notes what is wrong at a place; line 0 is the file itself."""
        self.faults.append((path, line, what))

    def seen(self, number=1):
        """Counts what a check has looked at."""
        self.counted += number


def lines_of_page(text):
    """The lines of a page with their numbers, and whether each is in a block of code."""
    in_code = False
    for number, line in enumerate(text.split("\n"), 1):
        fence = FENCE.match(line) is not None
        yield number, line, in_code or fence
        in_code ^= fence


def line_at(text, place):
    return text.count("\n", 0, place) + 1


def section(text, heading):
    """What is below such a heading of a page, up to the next one."""
    found = re.search(rf"^## {heading}$(.*?)^## ", text, re.M | re.S)
    return found[1] if found else ""


def table(text, heading):
    """The cells of each row of the table below a heading, but for its head."""
    rows = [line.strip("|").split(" | ") for line in section(text, heading).split("\n") if line.startswith("| ")]
    return [[cell.strip() for cell in row] for row in rows[1:] if len(row) == len(rows[0])]


def first_difference(old, new):
    """The number of the first line in which texts differ, and that line of the new one."""
    lines = enumerate(zip_longest(old.split("\n"), new.split("\n"), fillvalue=""), 1)
    return next(((number, other) for number, (one, other) in lines if one != other), (1, ""))
