"""Whether the table "Where to change what" of docs/ARCHITECTURE.md has the files that a change meets.

Each file of a row is in the crate named before it, or in the folder of the file before it; a path from the top is whole. For the
rows of `SEARCHED` what is searched is found in no other file: of code without comments, in the sources and definitions of crates other
than those of tests, in what C and Python take of capnp_c, in tools/ and in the model of conformance/.
"""
import fnmatch
import re

from .glossary import without_comments
from .rattle import ERRORS, KIND
from .tree import table

PAGE = "docs/ARCHITECTURE.md"
QUOTED = re.compile(r"`([^`]+)`")
# a file that has as many kinds in its code lists them
MANY_KINDS = 9
CODE = re.compile(r"crates/(?!\w+_(?:tests|examples|uses|bench|sample|classic)/)\w+/(?:src|specs)/(?!.*\btests\.rt$).*|crates/capnp_c/(?:.*\.h|python/.*)|tools/.*|conformance/model\.py")
BOUND = re.compile(r"\b51[12]\b")
# Of a row what is searched in a file's code, and the files in which that is something else, each with the reason.
SEARCHED = {
    "a new kind of error": (lambda code, kinds: len(kinds & set(words_of(code))) >= MANY_KINDS, {
        "tools/conformance/differences.txt": "made by tools/compare-conformance",
        "tools/c-example/exports.c": "the errors that calls return",
        "tools/showing/try_written.py": "the lines of messages that are tried",
    }),
    "the bound of 511 segments": (lambda code, kinds: BOUND.search(code), {
        "crates/capnp_orphans/src/heap.rt": "a number of bytes",
        "tools/conformance/differences.txt": "made by tools/compare-conformance",
        "tools/linting/changes.py": "the numbers that are searched",
        "tools/c-example/addressbook.js": "a number of bytes",
        "tools/*/try_*.py": "messages of 511 segments are inputs, and their lines",
        "tools/running/*": "messages of 511 segments are inputs",
        "tools/timing/program": "messages of 511 segments are inputs",
    }),
}


def words_of(code):
    """The names of code, in camel case where they are in capital letters."""
    for name in re.findall(r"[A-Za-z_]\w+", code):
        name = name.removeprefix("LINSJOAR_")
        yield "".join(part.capitalize() for part in name.split("_")) if name.isupper() else name


def files_of(tree, cell):
    """The files that a row names, each as it is written and as the paths that this may be."""
    crate = folder = ""
    for named in QUOTED.findall(cell):
        first, _, rest = named.partition("/")
        if tree.has("crates/" + first):
            crate, folder = "crates/" + first, ""
            if rest:
                yield named, [path for path in tree.known if path == "crates/" + named]
        elif tree.has(named) and "/" in named:
            folder = named.rpartition("/")[0]
            yield named, [named]
        elif re.search(r"\.\w+$", named) or "/" in named:
            inside = folder or crate
            found = [path for path in tree.known if fnmatch.fnmatch(path, f"{inside}/{named}") or fnmatch.fnmatch(path, f"{inside}/*/{named}")]
            yield named, found


def check(tree):
    kinds, changes = set(KIND.findall(tree.text(ERRORS))), dict(table(tree.text(PAGE), "Where to change what"))
    for name in SEARCHED.keys() - changes.keys():
        tree.wrong(PAGE, 0, f"it has no row `{name}`")
    named = {}
    for name, cell in changes.items():
        for written, found in files_of(tree, cell):
            tree.seen()
            named.setdefault(name, set()).update(found)
            if not found:
                tree.wrong(PAGE, 0, f"{name}: `{written}` is not in the crate or the folder that is named before it")
    for path in filter(CODE.fullmatch, tree.paths):
        code = without_comments(path, tree.text(path))
        for name, (searched, exceptions) in SEARCHED.items():
            excepted = any(fnmatch.fnmatch(path, pattern) for pattern in exceptions)
            is_named = any(path == other or path.startswith(other + "/") for other in named.get(name, ()))
            if not excepted and not is_named and searched(code, kinds):
                tree.wrong(path, 0, f"the row `{name}` of {PAGE} does not name it")
