"""The table of words in docs/ARCHITECTURE.md, "Glossary": one word for each idea, in names, clauses, comments and pages.

Of each row the third column has what is not said: within `..` parts of a name, in snake or camel case, and within ".."
what is in comments and pages; `*` stands for any ending. The fourth column has what may stay: within `..` whole
names, within ".." phrases, and paths, for files in which the word has another sense.
"""
import fnmatch
import os
import re

from .tree import line_at, section, table

GLOSSARY = "docs/ARCHITECTURE.md"
NAME = re.compile(r"[A-Za-z_][A-Za-z0-9_]*")
PARTS = re.compile(r"[A-Z]+(?![a-z])|[A-Z][a-z]*|[a-z]+|[0-9]+")
# in a page no option, and no name of a tool
PAGE_NAME = re.compile(r"(?<![\w-])[A-Za-z_][A-Za-z0-9_]*(?![\w-])")
STRING = r"b?\"(?:\\.|[^\"\\\n])*\""
# a comment, or a string
ASIDE = {
    ".rt": re.compile(r"//[^\n]*|" + STRING),
    ".antt": re.compile(r"(?:(?<=\s)|^)--(?=\s|$)[^\n]*|" + STRING, re.M),
    ".txt": re.compile(r"^#[^\n]*|//[^\n]*|" + STRING, re.M),
    ".c": re.compile(r"//[^\n]*|/\*.*?\*/|" + STRING, re.S),
    ".py": re.compile(r"(?:(?<=\s)|^)#[^\n]*|\"{3}.*?\"{3}|%s|'(?:\\.|[^'\\\n])*'" % STRING, re.M | re.S),
}
ASIDE.update(dict.fromkeys((".edit", ".h"), ASIDE[".rt"]) | dict.fromkeys((".cc", ".rs", ".js"), ASIDE[".c"]))
ASIDE.update(dict.fromkeys((".sh", ".capnp"), ASIDE[".py"]))
BLOCK = re.compile(r"^```[^\n]*\n.*?^```|`[^`\n]*`", re.M | re.S)
QUOTED = re.compile(r"`[^`\n]*`")


def parts_of(name):
    return [part.lower() for part in PARTS.findall(name)]


class Row:
    """A row of the glossary: the word, what is not said for it, and what may stay."""

    def __init__(self, cells):
        self.word = re.sub(r"[`*]", "", cells[0])
        self.parts = [item.split("_") for item in re.findall(r"`([^`]+)`", cells[2])]
        self.first = {wanted[0] for wanted in self.parts}
        self.begin = tuple(word[:-1] for word in self.first if word.endswith("*")) or ("\0",)
        self.phrases = [(item, phrase_of(item)) for item in re.findall(r'"([^"]+)"', cells[2])]
        kept = re.findall(r"`([^`]+)`", cells[3])
        self.paths = [item for item in kept if "/" in item or item.endswith(".md")]
        self.names = [item for item in kept if item not in self.paths]
        self.kept_phrases = [phrase_of(item) for item in re.findall(r'"([^"]+)"', cells[3])]

    def has(self, parts):
        """Whether a name of these parts has one that is not said."""
        if self.first.isdisjoint(parts) and not any(part.startswith(self.begin) for part in parts):
            return False
        return any(
            all(fnmatch.fnmatchcase(part, want) for part, want in zip(parts[at:], wanted))
            for wanted in self.parts
            for at in range(len(parts) - len(wanted) + 1)
        )

    def keeps(self, name):
        return any(fnmatch.fnmatchcase(name, kept) for kept in self.names)

    def leaves(self, path):
        return any(fnmatch.fnmatch(path, kept) for kept in self.paths)


def phrase_of(item):
    """What finds a phrase, also over the end of a line."""
    words = [re.escape(word).replace(r"\*", r"\w*") for word in item.split()]
    return re.compile(r"(?<![\w-])" + r"[ ]*(?: |\n[ ]*)".join(words) + r"(?![\w-])", re.IGNORECASE)


def rows_of(tree):
    return [Row(cells) for cells in table(tree.text(GLOSSARY), "Glossary")]


def without_table(text):
    """The page without the rows of its table, which have what is not said; line by line as it is."""
    part = section(text, "Glossary")
    return text.replace(part, re.sub(r"^\|.*$", "", part, flags=re.M)) if part else text


def suffix_of(path, text):
    """The ending that says what a file is written in; of a file of tools/ without one its first line does."""
    suffix = os.path.splitext(path)[1]
    return suffix if suffix or not path.startswith("tools/") else ".rt" if text.startswith("//") else ".py"


def without_comments(path, text):
    aside = ASIDE.get(suffix_of(path, text))
    return aside.sub(lambda found: "" if found[0].startswith(("//", "--", "#", "/*", '"""')) else found[0], text) if aside else text


def code_and_prose(path, text):
    """What is code, with what is in `..`, and what is plain English; both line by line as the text is."""
    suffix = suffix_of(path, text)
    lines_of = lambda part: "\n" * part.count("\n")
    if suffix == ".md":
        # a block that is code, or what is in `..`
        code, prose, at = [], [], 0
        for found in BLOCK.finditer(text):
            before, inner = text[at:found.start()], found.group(0)
            code += [lines_of(before), " ", inner.strip("`")]
            prose += [before, "`", lines_of(inner)]
            at = found.end()
        return "".join(code), "".join(prose) + text[at:]
    aside = ASIDE.get(suffix)
    if aside is None:
        return "", text
    prose, at = [], 0

    def kept(found):
        nonlocal at
        prose.append(lines_of(text[at:found.start()]))
        at = found.end()
        inner = found.group(0)
        # what stands for itself between three quotes is a comment
        is_comment = inner.startswith('"""') and not text[text.rfind("\n", 0, found.start()) + 1:found.start()].strip()
        if inner.startswith(('"', 'b"', "'")) and not is_comment:
            prose.append(lines_of(inner))
            return lines_of(inner) + '""'
        prose.append(QUOTED.sub("`", inner.lstrip("/-!#")))
        return lines_of(inner) + " ".join(QUOTED.findall(inner))

    code = aside.sub(kept, text)
    return code, "".join(prose)


def look_for_rows(tree, path, rows, hits):
    """What the table says otherwise, in one file; `hits` has of each name the rows that it is against."""
    text = without_table(tree.text(path)) if path == GLOSSARY else tree.text(path)
    code, prose = code_and_prose(path, text)
    stems = [part[: -len(".antt")] if part.endswith(".antt") else part for part in path.split("/")]
    names = set((PAGE_NAME if path.endswith(".md") else NAME).findall(code)) | set(NAME.findall(" ".join(stems[2:])))
    found = {}
    for name in names:
        if name not in hits:
            parts = parts_of(name)
            hits[name] = [row for row in rows if row.has(parts)]
        for row in hits[name]:
            if not row.keeps(name) and not row.leaves(path):
                found.setdefault(name, row)
    for name, row in sorted(found.items()):
        at = re.search(r"(?<![A-Za-z0-9_])%s(?![A-Za-z0-9_])" % name, code)
        tree.wrong(path, line_at(code, at.start()) if at else 0, f"'{name}' ({row.word})")
    lowered = prose.lower()
    for row in rows:
        for item, phrase in row.phrases:
            if max(re.split(r"[ *]+", item), key=len).lower() not in lowered or row.leaves(path):
                continue
            for match in phrase.finditer(prose):
                if not any(kept.match(prose, match.start()) for kept in row.kept_phrases):
                    tree.wrong(path, line_at(prose, match.start()), f"'{' '.join(match[0].split())}' ({row.word})")
