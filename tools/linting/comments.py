"""What a rename by a script leaves in comments and pages, and lists of headings.

It finds a doc comment within a doc comment; a comment that goes on as a sentence after the name of a definition; a
page whose list of its own headings isn't its headings; a page that says of something that it is not here yet.
"""
import re

from . import tree as files

WITHIN = re.compile(r"^\s*//[/!].*\s///(\s|$)")
SENTENCE = re.compile(r"^\s*(?://[/!]?|--) ?([A-Z][a-z0-9]+(?:[A-Z][a-z0-9]*)+) [a-z]")
DEFINED = re.compile(r"^(?:pub )?(?:record |data )?([A-Z]\w*)\b", re.M)
NOT_HERE = re.compile(r"\bnot here yet\b", re.I)
HEADING = re.compile(r"^(#+) (.*)$")
LINK = re.compile(r"\[((?:[^\]]|\n)*?)\]\(#([^)\s]*)\)")


def anchor_of(heading):
    """The anchor that a heading's page has for it."""
    said = re.sub(r"\[([^\]]*)\]\([^)]*\)", r"\1", heading)
    return re.sub(r"[^\w\- ]", "", said.strip().lower()).replace(" ", "-")


def headings_of(text):
    """Each heading outside of code: its level, its text and its anchor, with a number where the page has it before."""
    found, before = [], {}
    for _, line, is_code in files.lines_of_page(text):
        heading = HEADING.match(line)
        if heading and not is_code:
            anchor = anchor_of(heading[2])
            before[anchor] = before.get(anchor, -1) + 1
            found.append((len(heading[1]), heading[2], anchor + (f"-{before[anchor]}" if before[anchor] else "")))
    return found


def front_of(text):
    """What is before the page's first heading of the second level."""
    return text.split("\n## ")[0]


def wrong_heading(text):
    """The first heading that the page's list of its headings lacks, or has where the page has another one, if it has a list."""
    linked = [anchor for _, anchor in LINK.findall(front_of(text))]
    if len(linked) < 3:
        return None
    levels = {anchor: level for level, _, anchor in headings_of(text) if level > 1}
    # a list of one heading a line has the third level below the second
    deepest = 3 if "\n  - [" in front_of(text) else 2
    wanted = [anchor for anchor, level in levels.items() if level <= deepest or anchor in linked]
    for number in range(max(len(linked), len(wanted))):
        if linked[number : number + 1] != wanted[number : number + 1]:
            return (wanted[number : number + 1] or linked[number : number + 1])[0]
    return None


def listed_headings(text):
    """Such a list of all headings, one a line."""
    return ["%s- [%s](#%s)" % ("  " * (level - 2), heading, anchor) for level, heading, anchor in headings_of(text) if level > 1]


def with_headings(text):
    """The page with that list in the place of its own, which begins with a line "- [" and ends before the next heading."""
    front, rest = text.split("\n## ", 1)
    lines = front.split("\n")
    first = next((number for number, line in enumerate(lines) if line.startswith("- [")), len(lines))
    return "\n".join(lines[:first] + listed_headings(text)) + "\n\n## " + rest


def check_page(tree, path):
    text = tree.text(path)
    for number, line in enumerate(text.split("\n"), 1):
        if NOT_HERE.search(line):
            tree.wrong(path, number, "it says that something is not here yet")
    heading = wrong_heading(text)
    if heading:
        at = text.find(f"(#{heading})")
        tree.wrong(path, files.line_at(text, at) if at >= 0 else 1,
                   f"the list of headings goes wrong at #{heading} (`tools/write headings` writes it)")


def check_code(tree, path, defined):
    for number, line in enumerate(tree.text(path).split("\n"), 1):
        if WITHIN.match(line):
            tree.wrong(path, number, "a doc comment within a doc comment")
        begun = SENTENCE.match(line)
        if begun and begun[1] in defined:
            tree.wrong(path, number, f"a comment goes on after `{begun[1]}`")


def check(tree):
    defined = {name for path in tree.paths if "/specs/" in path for name in DEFINED.findall(tree.text(path))}
    for path in tree.paths:
        if path.endswith(".md"):
            check_page(tree, path)
        elif path.endswith((".rt", ".antt")):
            check_code(tree, path, defined)
        else:
            continue
        tree.seen()
