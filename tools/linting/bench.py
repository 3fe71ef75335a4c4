"""The figures of bench/, and what they come to."""
import re
from collections import namedtuple

from prelude import ROOT

BENCH = ROOT / "bench"
# The times are kept as texts, with the digits that they were printed with.
Row = namedtuple("Row", "table group name ours cpp rust sets instructions")


def lines_of(name):
    """The fields of each line of a file of bench/: what is between two spaces or more."""
    text = (BENCH / name).read_text()
    return [re.split(r"\s{2,}", line.strip()) for line in text.split("\n") if line.strip() and not line.startswith("#")]


def rows():
    """The rows of bench/figures.txt."""
    return [Row(*line[:6], *([] if text == "-" else text.split(",") for text in line[6:8])) for line in lines_of("figures.txt")]


def better_over_ours(ours, *peers):
    return min(map(float, peers)) / float(ours)


def ratio(row):
    """The better peer's time over ours."""
    return better_over_ours(row.ours, row.cpp, row.rust)
