"""The known differences of other libraries, tools/conformance/differences.txt, and the table of them in docs/DIFFERENCES.md."""
import collections

import corpus

BEGIN = "<!-- The causes of tools/conformance/differences.txt, written by tools/compare-conformance --write. -->\n"
END = "<!-- The end of these causes. -->\n"
COLUMNS = ["cause", "document", "here", "C++", "Rust", "seen"]


def stanzas():
    """Each cause: its lines by their first words, and the cases, each with a library and a file."""
    stanza = None
    for line in (corpus.ROOT / "tools/conformance/differences.txt").read_text().splitlines():
        word, _, rest = line.partition(": ")
        if word == "cause":
            if stanza:
                yield stanza
            stanza = {"cases": []}
        if word.startswith("differs, "):
            file, _, names = rest.partition(": ")
            stanza["cases"] += [(library, file, name) for library in word[9:].split(", ") for name in names.split(" | ")]
        elif stanza is not None and rest:
            stanza[word] = rest
    yield stanza


def known():
    """The cause of each difference, by the library, the file and the case."""
    return {case: stanza["cause"] for stanza in stanzas() for case in stanza["cases"]}


def table(cases):
    """The rows of the table, with how many cases differ for each cause."""
    there = {(case.file, case.name) for case in cases}
    rows = ["| what | encoding document | here | C++ 0.9.2 | Rust 0.14.11 | what a user sees | cases |\n", "|---|---|---|---|---|---|---|\n"]
    for stanza in stanzas():
        counts = collections.Counter(library for library, *_ in stanza["cases"])
        for library, *case in stanza["cases"]:
            if tuple(case) not in there:
                raise SystemExit("tools/conformance/differences.txt: there is no case %s: %s" % tuple(case))
        cells = [stanza.get(column, "as here") for column in COLUMNS]
        cells.append(", ".join("%d %s" % (counts[library], library) for library in ("C++", "Rust") if counts[library]))
        rows.append("| %s |\n" % " | ".join(cells))
    return "".join(rows)


def with_table(page, cases):
    """The page with the table as it is now."""
    if BEGIN not in page or END not in page:
        raise SystemExit("docs/DIFFERENCES.md has no place for the table of causes")
    before, _, rest = page.partition(BEGIN)
    return before + BEGIN + "\n" + table(cases) + "\n" + END + rest.partition(END)[2]
