"""Files and names that pages give and that are not there, and paths below `tools/` and the like that any file gives.

Of links it looks for the file and the heading. Of what is in `..` it looks for paths, and for identifiers: with `::`, in
CamelCase or in snake_case. A path is from the top, from the page's folder, or the end of a path. An identifier has to be in
the code of a tracked file, or in a block of code of its page, and the parts of one `A::b` in one file. Names of std, of the
kit, of other libraries and of a user's files are in names_of_others.txt, and may be anywhere.
"""
import fnmatch
import os
import re

from .comments import headings_of
from .glossary import GLOSSARY, NAME, without_comments, without_table
from .tree import ROOT, line_at

OTHERS = "tools/linting/names_of_others.txt"
# pages that have names which are no longer there: what changed, and what is made of the sources
LEFT_OUT = {"CHANGELOG.md", "docs/API.md"}
LINK = re.compile(r"\]\(([^)\s]+)\)")
BLOCK = re.compile(r"^ *```[^\n]*\n.*?^ *```", re.M | re.S)
QUOTED = re.compile(r"(?<!`)`([^`]+)`(?!`)")
PATH = re.compile(r"\.{0,2}[\w*-][\w.*-]*(?:/[\w.*-]+)+/?|\.{1,2}(?:/[\w.*-]+)+/?")
FILE = re.compile(r"[\w*-]+\.(?:rt|antt|md|py|edit|capnp|txt|h|cc|rs|js)")
# words that stand for a name, what is built, and devices
PLACEHOLDER = re.compile(
    r"(?:^|/)(?:[A-Z][A-Z_]+|N|Y|M)(?=[./_]|$)|\.\.\.|(?:^|/)(?:out|target|must-fail)(?:/|$)|^/?(?:dev|usr|proc|etc|tmp|home)/")
PLACEHOLDER_PART = re.compile(r"(?<![A-Z])[A-Z]+(?=_[a-z])|(?<=[a-z]_)[A-Z]+(?![A-Z])")
TOPS = ("tools/", "crates/", "docs/", "bench/", "conformance/", ".ci/")
MENTIONED = re.compile(r"(?<![\w./-])(?:tools|bench|docs|conformance)/[\w.*/-]*[\w*]")
IDENTIFIER = re.compile(r"[A-Za-z_]\w*(?:::[A-Za-z_]\w*)*")
CAMEL_OR_SNAKE = re.compile(r"[A-Z][a-z0-9]+[A-Z]\w*|[a-z][a-z0-9]*[A-Z]\w*|[A-Za-z]\w*_\w+")


def words_of_code(path, text):
    """The words of a file but for comments, and those of its path; of a page those alone."""
    words = set(re.split(r"[/.]", path))
    if path.endswith(".md") or path == OTHERS:
        return words
    return words.union(NAME.findall(without_comments(path, text) if path.endswith((".rt", ".antt")) else text))


class Known:
    """What the tree has: its paths, folders and ends of paths, headings, and of each word of code the files that have it."""

    def __init__(self, tree):
        self.ends = set()
        for path in {*tree.paths, *tree.folders}:
            parts = path.split("/")
            self.ends.update("/".join(parts[at:]) for at in range(len(parts)))
        listed = (ROOT / OTHERS).read_text().split("\n")
        self.others = {word for line in listed if not line.startswith("#") for word in line.split()}
        self.files = {}
        for number, path in enumerate(tree.paths):
            for word in words_of_code(path, tree.text(path)):
                self.files.setdefault(word, set()).add(number)
        self.anchors = {page: {anchor for _, _, anchor in headings_of(tree.text(page))} for page in tree.pages()}

    def missing(self, identifier, of_page):
        """The part of an identifier that is nowhere, or all of it where no file has its parts, if it is one to look for."""
        parts = identifier.split("::")
        if len(parts) == 1 and not CAMEL_OR_SNAKE.fullmatch(identifier) or PLACEHOLDER_PART.search(identifier):
            return None
        ours = [part for part in parts if part not in self.others and part not in of_page]
        for part in ours:
            if part not in self.files:
                return part
        return identifier if len(ours) > 1 and not set.intersection(*(self.files[part] for part in ours)) else None

    def has_path(self, page, path):
        """Whether it is a path from the top, from the page's folder, or the end of one; `*` stands for a part."""
        path = path.removeprefix("./").rstrip("/")
        here = os.path.normpath(os.path.join(os.path.dirname(page), path))
        if path in self.ends or here in self.ends or path in self.others:
            return True
        if "*" in path:
            like = re.compile(fnmatch.translate(path).replace(".*", "[^/]*"))
            return any(like.match(end) for end in self.ends)
        # a file may be named without its ending
        return any(path + ending in self.ends for ending in (".rt", ".antt", ".py"))


def paths_of(quoted):
    """The paths in what is in `..`: all of it, or words that begin with a folder of the top."""
    words = quoted.split()
    for word in words:
        word = word.strip("'\",;:()").partition("#")[0]
        is_path = PATH.fullmatch(word) and (len(words) == 1 and "." in word.rpartition("/")[2] or word.startswith(TOPS))
        if (is_path or len(words) == 1 and FILE.fullmatch(word)) and not PLACEHOLDER.search(word):
            yield word.rstrip(".")


def check_links(tree, page, known, text):
    for link in LINK.finditer(text):
        target, _, anchor = link[1].partition("#")
        if re.match(r"[a-z]+:", target):
            continue
        path = os.path.normpath(os.path.join(os.path.dirname(page), target)) if target else page
        if not tree.has(path):
            tree.wrong(page, line_at(text, link.start()), f"the file {target} of the link is not there")
        elif anchor and path in known.anchors and anchor not in known.anchors[path]:
            tree.wrong(page, line_at(text, link.start()), f"the heading #{anchor} of the link is not there in {path}")


def check_quoted(tree, page, known, text, of_page):
    for quoted in QUOTED.finditer(text):
        tree.seen()
        line = line_at(text, quoted.start())
        paths = set(paths_of(quoted[1]))
        for path in sorted(paths):
            if not known.has_path(page, path):
                tree.wrong(page, line, f"the file {path} is not there")
        for identifier in IDENTIFIER.findall(quoted[1]) if not paths else ():
            part = known.missing(identifier, of_page)
            if part == identifier and "::" in part:
                tree.wrong(page, line, f"no file has the parts of the name {part}")
            elif part:
                tree.wrong(page, line, f"the name {part} is nowhere" + (f", of {identifier}" if part != identifier else ""))


def check_mentioned(tree, path, known):
    text = tree.text(path)
    for found in MENTIONED.finditer(text):
        if not PLACEHOLDER.search(found[0]) and not known.has_path(path, found[0]):
            tree.wrong(path, line_at(text, found.start()), f"the file {found[0]} is not there")


def check(tree):
    known = Known(tree)
    for path in tree.paths:
        if path not in LEFT_OUT and not path.startswith("tools/linting/"):
            check_mentioned(tree, path, known)
    for page in tree.pages():
        if page in LEFT_OUT:
            continue
        text, of_page = tree.text(page), set()
        for block in BLOCK.findall(text):
            of_page.update(NAME.findall(block))
        text = BLOCK.sub(lambda block: "\n" * block[0].count("\n"), text)
        check_links(tree, page, known, text)
        check_quoted(tree, page, known, without_table(text) if page == GLOSSARY else text, of_page)
