"""Whether the code of pages is in the files that it is taken from.

In a page of `PAGES`, under a line that is `path` alone, each ```rust block has to be in that file, line by line
and without a gap. Examples of public items are taken out of the documentation by `tools/try-consumer examples`.
"""
import re

from .tree import line_at

PAGES = ["docs/GUIDE.md", "README.md", "docs/COMPILER.md"]
PART = re.compile(r"^`([\w./-]+/src/[\w./-]+)`:?$|^```rust\n(.*?)^```$", re.M | re.S)


def check_page(tree, page):
    text, path, compared = tree.text(page), None, 0
    for found in PART.finditer(text):
        if found[1]:
            path = found[1]
            continue
        compared += 1
        if path is None or not tree.has(path):
            tree.wrong(page, line_at(text, found.start()), f"the block is of {path or 'no file'}, which is not there")
        elif "\n" + found[2] not in "\n" + tree.text(path):
            tree.wrong(page, line_at(text, found.start()), f"the block is not in {path}")
    if not compared or len(re.findall(r"^```", text, re.M)) % 2:
        tree.wrong(page, 0, "a block does not end, or none is there that would be compared with its file")
    tree.seen(compared)


def check(tree):
    for page in PAGES:
        check_page(tree, page)
