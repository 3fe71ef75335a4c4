"""Whether each public function that returns a `Result` says in its documentation when it fails.

It reads the libraries' sources: functions and methods that are `pub`, and the methods of public traits, whose
documentation counts for each `impl` of theirs. One says it by a word for failing, by the name of a kind of error, or
by "as `other` does" of one of them.
"""
import re

from prelude import crates

from .rattle import ERRORS, KIND, items

CRATES = [*crates()["capnp"], "capnp", "capnp_c"]
WITHOUT_RESULTS = {"capnp_c"}  # its exports return numbers
RETURNS = re.compile(r"-> .*\bResult<")
WORDS = r"\bfail(?:s|ed|ing|ures?)?\b|\brefus(?:es?|ed|als?)\b|\berrors?\b"
OTHER = re.compile(r"\bas \[?`(?:\w+::)*(\w+)`\]?(?:\([^)]*\))? does\b")


def check(tree):
    kinds = KIND.findall(tree.text(ERRORS))
    if not kinds:
        tree.wrong(ERRORS, 0, "no kinds of errors are found")
        return
    says = re.compile(WORDS + r"|\b(?:" + "|".join(kinds) + r")\b", re.I)
    found = []
    for crate in CRATES:
        of_crate = [(path, item.line, item.name, " ".join(item.comment)) for path in tree.sources(rf"crates/{crate}/src/(.*/)?(?!\w*tests)\w+\.rt")
                    for item in items(tree.text(path)) if item.kind == "fn" and RETURNS.search(item.signature)]
        if not of_crate and crate not in WITHOUT_RESULTS:
            tree.wrong(f"crates/{crate}", 0, "no public function that returns a `Result` is found")
        found += of_crate
    names = {name for _, _, name, _ in found}
    tree.seen(len(found))
    for path, number, name, comment in found:
        if not says.search(comment) and not names & set(OTHER.findall(comment)):
            tree.wrong(path, number, f"the documentation of `{name}` doesn't say when it fails")
