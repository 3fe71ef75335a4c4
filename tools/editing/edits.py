"""The edits of crates/NAME/more-edits.txt and test-edits.txt, and how one is made in a copy of the tree.

An edit is a paragraph of lines `KEY: TEXT`: its name (`edit`), the test or the tool that has to find it, where it is one of
test-edits.txt, the file, and each text that is replaced (`old`) with what takes its place (`new`).
"""
import contextlib
import random
import re
from dataclasses import dataclass
from pathlib import Path

from prelude import ROOT

MORE, TEST = "more-edits.txt", "test-edits.txt"


@dataclass
class Edit:
    crate: str
    name: str
    lines: list

    def said(self, key):
        """What the line with a key says, or nothing."""
        return next((text for of, text in self.lines if of == key), None)

    def pairs(self):
        """Each file, what is there, and what takes its place."""
        file = old = None
        for key, text in self.lines:
            file, old = (text if key == "file" else file), (text if key == "old" else old)
            if key == "new":
                yield file, old, text

    def __str__(self):
        return "%s %s" % (self.crate, self.name)


class Misfit(Exception):
    """Why an edit can't be made."""


def edits_in(path, first="edit", crate=""):
    """The edits of a file, by their names, which the line with this key has."""
    paragraphs = re.split(r"\n+(?=%s: )" % first, path.read_text())[1:] if path.exists() else []
    lines = [[line.split(": ", 1) for line in text.splitlines() if line and line[0] != "#"] for text in paragraphs]
    return sorted((Edit(crate, of[0][1], of) for of in lines), key=lambda edit: edit.name)


def edits_of(crate, kind):
    return edits_in(ROOT / "crates" / crate / kind, crate=crate)


def crates_with(kind):
    return sorted(path.parent.name for path in ROOT.glob("crates/*/" + kind))


def picked(all_of_them, given):
    """The first N once Python's random.Random(S) has shuffled them, so that the same seed picks the same ones again."""
    if given.pick is None:
        return all_of_them
    shuffled = list(all_of_them)
    random.Random(given.seed).shuffle(shuffled)
    return shuffled[:given.pick]


def has_word(name, words):
    return not words or any(word in name for word in words)


@contextlib.contextmanager
def made(edit, copy):
    """Makes an edit in a copy of the tree while it is tried."""
    before = {}
    try:
        for file, old, new in edit.pairs():
            path = Path(copy, "crates", edit.crate, file)
            text = path.read_text()
            before.setdefault(path, text)
            if text.count(old) != 1:
                raise Misfit("what it replaces stands there %d times" % text.count(old))
            path.write_text(text.replace(old, new))
        yield
    finally:
        for path, text in before.items():
            path.write_text(text)
