"""The form of pages: table cells of more than 40 words, lines of more than 150 columns, and times of day.

Text in `..` is one word of a cell. Columns are those of lines outside of tables and of blocks of code. docs/API.md, which
is made, is left out.
"""
import re

from .sentences import MADE, WORD
from .tree import lines_of_page

MOST_WORDS = 40
MOST_COLUMNS = 150
CELLS = re.compile(r"(?<!\\)\|")
QUOTED = re.compile(r"`[^`]*`")
TIME = re.compile(r"(?<![\w:.,-])(?:[01]?\d|2[0-3]):[0-5]\d(?::[0-5]\d)?(?![\w:])")


def lines(tree):
    """The lines of all pages: page, number, line, whether it is code, whether it is of a table."""
    for page in tree.pages():
        if page not in MADE:
            tree.seen()
            for number, line, is_code in lines_of_page(tree.text(page)):
                yield page, number, line, is_code, not is_code and line.lstrip().startswith("|")


def check_cells(tree):
    for page, number, line, _, is_row in lines(tree):
        for cell in CELLS.split(line) if is_row else ():
            count = len(WORD.findall(QUOTED.sub("X", cell)))
            if count > MOST_WORDS:
                tree.wrong(page, number, f"a table cell of {count} words, and not of {MOST_WORDS}: {cell.strip()[:80]}")


def check_columns(tree):
    for page, number, line, is_code, is_row in lines(tree):
        if len(line) > MOST_COLUMNS and not is_code and not is_row:
            tree.wrong(page, number, f"a line of {len(line)} columns, and not of {MOST_COLUMNS}: {line.strip()[:80]}")


def check_times(tree):
    for page, number, line, _, _ in lines(tree):
        for time in TIME.findall(line):
            tree.wrong(page, number, f"a time of day, {time}: {line.strip()[:80]}")
