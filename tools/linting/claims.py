"""Names in the lists of docs/CLAIMS.md that are not where the list says: in the heading's crate, in one below it or in the one that is named
with the name; in a contract that the item names before it; in a linked file, for what is before or within `(..)`, below each heading."""
import functools
import re

from .tree import ROOT, line_at, text_of

PAGE = "docs/CLAIMS.md"
SECTION = re.compile(r"^## ([^\n]*)\n(.*?)(?=^## )", re.M | re.S)
ITEM = re.compile(r"^- .*?(?=^- |\n\n)", re.M | re.S)
LINK = re.compile(r"\[`\w+\.antt`\]\(\.\./([^)]+)\)")
NAME = re.compile(r"`((?:\w+::)*[A-Za-z_]\w*)`(?:\]\(\.\./([^)]+)\))?(?: of `(capnp\w*)(?:::\w+)*`)?")
LINKED = re.compile(r"`(\w+)` \(((?:[^()[]|\[[^]]*\]\([^)]*\))*)\)")
WORD = re.compile(r"\w+")
TYPE = re.compile(r"^ *(?:pub(?:\(crate\))? )?(?:struct|enum|trait|type|const|impl)\b")
FUNCTION = re.compile(r"^(?!\s*//).*\bfn (\w+)")


@functools.cache
def words_of(path):
    return frozenset(WORD.findall(text_of(ROOT / path)))


def contracts(tree, crate):
    """Of each name of a crate the words of its contracts, or of the files of the type or module that it is."""
    known, function = {crate: set()}, None
    for path in tree.sources(rf"crates/{crate}/src/.*\.rt"):
        lines = tree.text(path).split("\n")
        for name in WORD.findall(path.partition("/src/")[2] + " ".join(filter(TYPE.match, lines))):
            known.setdefault(name, set()).update(words_of(path))
        for line in lines:
            found = FUNCTION.match(line)
            function = known.setdefault(found[1], set()) if found else function
            if function is not None:
                function.update(WORD.findall(line))
                function = None if line.strip() == "{" or line.endswith("};") or found and line[-1] in "{;" else function
    return known


def check_linked(tree, item, wrong):
    for record, inner in LINKED.findall(item):
        parts = [part for path in LINK.findall(inner) for part in tree.text(path).split("\n\n")]
        own = [part for part in parts if re.search(rf"^(?:abbrev |record |pub )*{record}\b", part, re.M)]
        for name in [record] * record[0].isupper() + re.findall(r"`(\w+)`", inner.partition("[")[0]) if parts else ():
            if name not in WORD.findall(" ".join(own or parts)):
                wrong(f"{name} is not of {record} in the file that is linked after it")


def check_item(tree, known, crates, item, wrong):
    crates, cited = [*crates, *known.keys() & re.findall(r"`(capnp\w*)[:`]", item)], set()
    for found in NAME.finditer(item):
        tree.seen()
        *before, name = found[1].split("::")
        named = [crate for crate in (*before[:1], found[3]) if crate in known]
        words = [known[crate][name] for crate in named or crates if name in known[crate]]
        links = LINK.findall(item[:found.start()]) + LINK.findall(item[found.end():])[:1]
        linked = name in cited or any(name in words_of(path) for path in links)
        if found[2] and name not in tree.text(found[2]) or not words and (named or not linked):
            wrong(f"{found[1]} is not of {(named or crates)[0]}, a contract before it, or a file linked after it")
        cited.update(*words)


def check(tree):
    page, listed = tree.text(PAGE), dict(re.findall(r"^(\w+)[^:#\n]*:(.*)$", tree.text("crates.txt"), re.M))
    known = {crate: contracts(tree, crate) for crate in listed}
    for section in SECTION.finditer(page):
        for item in ITEM.finditer(section[2]):
            wrong = lambda what: tree.wrong(PAGE, line_at(page, section.start(2) + item.start()), what)
            said = item[0].replace("\n  ", " ")
            check_linked(tree, said, wrong)
            if section[1] in known:
                check_item(tree, known, [section[1], *known.keys() & listed[section[1]].split()], said, wrong)
