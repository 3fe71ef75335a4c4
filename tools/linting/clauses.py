"""The `ensures` of product code that repeat another, and the lines of code and of contracts.

Product code is src/ of the crates of crates.txt, without those whose comment there says "tests only" and without the files of
modules under #[cfg(test)].

Two clauses have the same text where they differ at most in white space, in their names, and in the names that they bind: by
`λ x.`, by `let x =`, and by `(x y : T)`. Of n clauses with one text n share it, and n - 1 are further copies,
each counted for its own crate; crates and files are taken in the order of crates.txt and of their names. A clause that only
applies a record of specs/ to arguments is left out, since it repeats no fact.

A contract's length is its lines from the first `requires` or `ensures` to the `{` of the body, or to the `;` of a trait's
function. Public functions are `pub fn` and those of a `pub trait`; those of a trait's impl that have clauses of their own are
listed after them.
"""
import collections
import os
import re

from prelude import ROOT

from .tree import line_at, text_of

LONG = 12
UNREAD = re.compile(r"""//[^\n]*|"(?:\\.|[^"\\])*"|'(?:\\[^']+|[^'\\])'""", re.DOTALL)
CLAUSE = re.compile(r"(?<![\w.])(requires|ensures)\b\*?\s*(\w*)\s*\{")
TEST_MODULE = re.compile(r"#\[cfg\(test\)\]\s*(?:pub(?:\(\w+\))? )?mod (\w+);")
FUNCTION = re.compile(r"(\bpub\s+)?(?:(?:const|unsafe|extern)\s+)*\bfn\s+(\w+)")
TRAIT = re.compile(r"\bpub trait [^{]*\{")
IMPL = re.compile(r"\bimpl\b[^{;]* for [^{;]*\{")
RECORD = re.compile(r"^(?:pub )?record (\w+)", re.MULTILINE)
NAME = re.compile(r"[^\W\d][\w']*")
# What is after `λ`, after `let`, and in `(x y : T)`.
BINDERS = re.compile(r"λ([^.]*)\.|\blet ([\w']+) =|[({]((?:[^\W\d][\w']* )+): ")

PUBLIC, OF_IMPL = "public functions", "functions of a trait's impl"
Clause = collections.namedtuple("Clause", "crate place text")


def product_crates():
    """The names of crates.txt, but of those whose comment says "tests only"."""
    comment, above, names = "", False, []
    for line in text_of(ROOT / "crates.txt").splitlines(keepends=True):
        if line.startswith("#"):
            comment = comment + line[1:] if above else line[1:]
        elif line.strip() and "tests only" not in " ".join(comment.split()):
            names.append(line.split()[0].rstrip(":"))
        above = line.startswith("#")
    return names


def product_files(crate):
    """The files of a crate, each with its text, but for modules of tests."""
    files = {str(path.relative_to(ROOT)): text_of(path) for path in sorted((ROOT / "crates" / crate / "src").rglob("*.rt"))}
    tests = []
    for path, text in files.items():
        folder = path[:-len(".rt")]
        if os.path.basename(folder) in ("lib", "main"):
            folder = os.path.dirname(folder)
        tests += [f"{folder}/{name}" for name in TEST_MODULE.findall(text)]
    return {path: text for path, text in files.items()
            if not any(path == test + ".rt" or path.startswith(test + "/") for test in tests)}


def after_block(text, at):
    """Where the block ends whose `{` is just before `at`."""
    depth = 1
    while depth:
        depth += {"{": 1, "}": -1}.get(text[at], 0)
        at += 1
    return at


def contract(code, at):
    """Where the contract of the function with its name at `at` begins and ends, or None for both."""
    first, last, depth = None, None, 0
    while depth or code[at] not in "{;":
        clause = CLAUSE.match(code, at)
        if clause:
            first = at if first is None else first
            at = last = after_block(code, clause.end())
        else:
            depth += {"(": 1, "[": 1, ")": -1, "]": -1}.get(code[at], 0)
            at += 1
    return first, last


def evened(said):
    """A clause with numbers for the names that it binds, in the order in which it binds them."""
    bound = {}
    for names in BINDERS.findall(said):
        for name in NAME.findall(re.sub(r":[^()]*", "", "".join(names))):
            bound.setdefault(name, f"#{len(bound)}")
    return " ".join(bound.get(word, word) for word in re.findall(r"[\w']+|[^\w\s']", said))


def applies(said, records):
    """Whether a clause is one of these records applied to arguments, and nothing else."""
    whole = None
    while whole != said:
        whole, said = said, re.sub(r"[(\[{][^()\[\]{}]*[)\]}]", "x", said)
    return re.fullmatch(r"[\w.'⊤⊥ ]+", said) is not None and re.match(r"[\w']*", said)[0] in records


def clauses(crate, path, code):
    """Each `ensures` of a file."""
    for clause in CLAUSE.finditer(code):
        if clause.group(1) == "ensures":
            place = f"{path}:{line_at(code, clause.start())} {clause.group(2)}"
            yield Clause(crate, place.rstrip(), " ".join(code[clause.end():after_block(code, clause.end()) - 1].split()))


def contracts(path, code):
    """The length of each contract of a file, its place, and whose function it is: PUBLIC or OF_IMPL."""
    traits, impls = ([range(block.end(), after_block(code, block.end())) for block in blocks.finditer(code)]
                     for blocks in (TRAIT, IMPL))
    for function in FUNCTION.finditer(code):
        at = function.start(2)
        first, last = contract(code, function.end())
        is_public = function.group(1) or any(at in block for block in traits)
        if first and (is_public or any(at in block for block in impls)):
            place = f"{path}:{line_at(code, at)} {function.group(2)}"
            yield code.count("\n", first, last) + 1, place, PUBLIC if is_public else OF_IMPL


class Counts:
    """What is counted: of each crate its lines, its `ensures`, and those that only apply a record; clauses by their text; contracts."""

    def __init__(self):
        records = {name for path in sorted(ROOT.glob("crates/*/specs/**/*.antt")) for name in RECORD.findall(text_of(path))}
        self.lines, self.found, self.left_out = collections.Counter(), collections.Counter(), collections.Counter()
        self.lengths, same = {PUBLIC: [], OF_IMPL: []}, collections.defaultdict(list)
        for crate in product_crates():
            for path, text in product_files(crate).items():
                self.lines[crate] += text.count("\n")
                # What is neither code nor clause becomes spaces, so that each place stays as it is.
                code = UNREAD.sub(lambda said: re.sub(r"[^\n]", " ", said.group()), text)
                for clause in clauses(crate, path, code):
                    self.found[crate] += 1
                    if applies(clause.text, records):
                        self.left_out[crate] += 1
                    else:
                        same[evened(clause.text)].append(clause)
                for length, place, kind in contracts(path, code):
                    self.lengths[kind].append((length, place))
        self.shared = sorted((copies for copies in same.values() if len(copies) > 1), key=len, reverse=True)
        self.sharing = collections.Counter(clause.crate for copies in self.shared for clause in copies)
        self.further = collections.Counter(clause.crate for copies in self.shared for clause in copies[1:])

    def long(self, kind):
        return sorted((entry for entry in self.lengths[kind] if entry[0] > LONG), key=lambda entry: -entry[0])


def print_all(most):
    """Prints the counts, the long contracts, and the texts that are at the most places, with these places."""
    counts = Counts()
    columns = counts.found, counts.left_out, counts.sharing, counts.further, counts.lines
    row = "{:16}{:>9}{:>10}{:>14}{:>16}{:>15}"
    print(row.format("crate", "ensures", "left out", "share a text", "further copies", "lines of src/"))
    for crate in counts.lines:
        print(row.format(crate, *(column[crate] for column in columns)))
    print(row.format("together", *(sum(column.values()) for column in columns)))
    for kind in PUBLIC, OF_IMPL:
        print(f"\n{len(counts.lengths[kind])} {kind} have a contract, {len(counts.long(kind))} one of more than {LONG} lines")
        for length, place in counts.long(kind):
            print(f"{length:4}  {place}")
    for copies in counts.shared[:most]:
        print(f"\n{len(copies)} times: {copies[0].text}")
        for clause in copies:
            print(f"      {clause.place}")
