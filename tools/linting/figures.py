"""The tables of pages, and the chart of docs/PERF.md, that are made of the figures in bench/.

A table of a page follows a line `<!-- figures: NAME -->`. The files are figures.txt (times of this library and of its peers),
steps.txt (times of the steps of a change), gate.txt (written by `tools/time gate`), sizes.txt and counts.txt (by `tools/write`).
Nothing is built or timed here.
"""
import re
from pathlib import Path

from prelude import ROOT, crates, tracked

from .bench import BENCH, better_over_ours, lines_of, ratio, rows
from .chart import THEMES, draw
from .clauses import PUBLIC, UNREAD, Counts
from .tree import line_at

PLACE = re.compile(r"(<!-- figures: ([\w-]+) -->\n)((?:\|.*\n)*)")
COUNTS = "bench/counts.txt"


def with_commas(number):
    return f"{int(number):,}" if number.isdigit() else number


def table_of(heads, lines):
    """A table of a page: its heads, and its lines of cells."""
    text = [f"| {' | '.join(cells)} |\n" for cells in [heads, *lines]]
    return "".join([text[0], "|---" * len(heads) + "|\n", *text[1:]])


def compared(row):
    """The better peer's time over ours, and in brackets the same by instructions."""
    return f"**{ratio(row):.2f}**" + (f" ({better_over_ours(*row.instructions):.2f})" if row.instructions else "")


def times(name, heads):
    """The table of a part of bench/figures.txt, a line for each row."""
    of_it = [row for row in rows() if row.table == name]
    has_sets, has_group = any(row.sets for row in of_it), len(heads) > 1
    heads = heads + ["ours", "C++", "Rust", "better over ours"] + (["by sets"] if has_sets else [])
    return table_of(heads, [
        ([row.group] if has_group else []) + [row.name, row.ours, row.cpp, row.rust, compared(row)] + ([", ".join(row.sets)] if has_sets else [])
        for row in of_it])


def across(name, head):
    """The table of a part of bench/figures.txt, a column for each of its groups."""
    lines, groups = {}, []
    for row in (row for row in rows() if row.table == name):
        lines.setdefault(row.name, [row.name]).append(f"{row.ours}, {row.cpp}, {row.rust}: {compared(row)}")
        groups += [row.group] if row.group not in groups else []
    return table_of([head] + [group if group.startswith("`") else f"`{group}`" for group in groups], list(lines.values()))


def gate():
    found = {line[0]: line[1:] for line in lines_of("gate.txt")}
    heads = ["proofs", "tests", "edits", "programs", "other", "together", "longest chain", "minutes by the clock", "GB at a time"]
    cells = found["all"] + [found[name][0] for name in ("other", "together", "longest chain", "minutes by the clock", "GB at a time")]
    return table_of(heads, [[with_commas(cell) for cell in cells]])


def sizes():
    found = [(Path(path).name, with_commas(size)) for path, size in lines_of("sizes.txt")]
    return table_of([f"`{name}`" for name, _ in found], [[size for _, size in found]])


def counts():
    found = [[what, with_commas(number)] for what, number in lines_of("counts.txt")]
    found += [["", ""]] * (-len(found) % 3)
    third = len(found) // 3
    return table_of(["what", "how many"] * 3, [sum(found[row::third], []) for row in range(third)])


def steps():
    """How long the steps of a change take; what is measured by tools/time gate is in gate.txt."""
    measured = {line[0]: line[1] for line in lines_of("gate.txt")}
    commit = re.search(r"Of commit (\w+)", (BENCH / "gate.txt").read_text())[1]
    lines = []
    for step, seconds, clock, of_commit, machine in lines_of("steps.txt"):
        if seconds == "gate.txt":
            seconds, clock, of_commit = measured["together"], measured["minutes by the clock"] + " min", commit
        cells = [step, with_commas(seconds), clock, of_commit, machine]
        lines.append(["" if cell == "-" else cell for cell in cells])
    return table_of(["step", "seconds of processor time", "by the clock", "commit", "on"], lines)


TABLES = {
    "docs/PERF.md": {
        "program": lambda: across("program", "input"),
        "reading": lambda: times("reading", ["a million words of"]),
        "building": lambda: times("building", ["way", "what"]),
        "classic": lambda: across("classic", "messages, memory"),
        "gate": gate,
        "sizes": sizes,
        "counts": counts,
    },
    "CONTRIBUTING.md": {"steps": steps},
}


def count(pattern, paths, is_code=False):
    """How often a pattern is in these files, or in their code."""
    texts = [(ROOT / path).read_text() for path in tracked("crates", "conformance") if re.fullmatch(paths, path)]
    return sum(len(re.findall(pattern, UNREAD.sub(" ", text) if is_code else text, re.M)) for text in texts)


def counted():
    """What the tree has, by name."""
    clauses = Counts()
    yield "crates", len(crates())
    yield "functions of the sources, without the crates of tests", count(r"\bfn\s+\w", r"crates/\w+(?<!_tests)/src/.*\.rt", True)
    yield "functions of the crates of tests", count(r"\bfn\s+\w", r"crates/\w+_tests/src/.*\.rt", True)
    yield "tests", count(r"#\[test\]", r"crates/\w+/src/.*\.rt", True)
    yield "cases of `conformance/`", count(r"^case ", r"conformance/.*\.txt")
    yield "edits in `must-fail/`, which the gate tries", count(r"\A", r".*\.edit")
    yield "edits in `more-edits.txt`", count(r"^edit: ", r".*/more-edits\.txt")
    yield "edits in `test-edits.txt`", count(r"^edit: ", r".*/test-edits\.txt")
    yield "`ensures` of product code", sum(clauses.found.values())
    yield "`ensures` that only apply a record", sum(clauses.left_out.values())
    yield "further copies of another `ensures`", sum(clauses.further.values())
    yield "public functions with a contract", len(clauses.lengths[PUBLIC])
    yield "public functions with a contract of more than 12 lines", len(clauses.long(PUBLIC))


def counts_text():
    return "# What the tree has. `tools/write figures` writes this file.\n#\n" + "".join(f"{what:<58}{number}\n" for what, number in counted())


def write():
    """Counts what the tree has, into bench/counts.txt, and writes the tables of the pages."""
    (ROOT / COUNTS).write_text(counts_text())
    for page, tables in TABLES.items():
        text = (ROOT / page).read_text()
        (ROOT / page).write_text(PLACE.sub(lambda place: place[1] + (tables[place[2]]() if place[2] in tables else place[3]), text))


def check(tree):
    again = ": run tools/write figures"
    if tree.text(COUNTS) != counts_text():
        tree.wrong(COUNTS, 0, "not what the tree has" + again)
    for page, tables in TABLES.items():
        text = tree.text(page)
        places = list(PLACE.finditer(text))
        tree.seen(len(places))
        if sorted(place[2] for place in places) != sorted(tables):
            tree.wrong(page, 0, f"it has the tables {' '.join(place[2] for place in places)}; wanted are {' '.join(tables)}")
        for place in places:
            if place[2] in tables and place[3] != tables[place[2]]():
                tree.wrong(page, line_at(text, place.start()), f"another table {place[2]} than bench/ has" + again)
    faster = f"{sum(round(ratio(row), 2) >= 1 for row in rows())} of {len(rows())} rows"
    if faster not in tree.text("docs/PERF.md"):
        tree.wrong("docs/PERF.md", 0, f"it does not say that ours is the faster in {faster}")
    for theme in THEMES:
        path = f"docs/perf-{theme}.svg"
        tree.seen()
        if not tree.has(path) or tree.text(path) != draw(rows(), theme):
            tree.wrong(path, 0, "not the chart of bench/figures.txt: run tools/write chart")
