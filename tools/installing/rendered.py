"""Manual pages as `man` shows them, for the tools that try programs."""
import os
import re
import shutil
import subprocess
import sys
import tempfile

FOLDER = os.path.dirname(os.path.abspath(__file__))


def sections_of(crate, program):
    """The sections of the manual page that is made of a program, each by its title: its items, each a list of lines.
    None on a machine that has no man."""
    if not shutil.which("man"):
        return None
    made = subprocess.run([sys.executable, os.path.join(FOLDER, "manual.py"), crate, crate, program], check=True, capture_output=True)
    with tempfile.NamedTemporaryFile(suffix=".1") as page:
        page.write(made.stdout)
        page.flush()
        shown = subprocess.run(["man", "--no-hyphenation", "--no-justification", "--local-file", page.name], check=True,
                               capture_output=True, env={**os.environ, "MANWIDTH": "100", "LC_ALL": "C.UTF-8"})
    return items_of(shown.stdout.decode())


def items_of(page):
    """The same of a page as it is shown: titles are at the left, and a line seven columns in begins an item."""
    sections, items = {}, []
    for line in page.splitlines():
        if re.match(r" {7}\S", line):
            items.append([line[7:]])
        elif line.startswith(" " * 14) and items:
            items[-1].append(line[14:])
        elif line.strip():
            items = sections.setdefault(line, [])
    return sections


def is_of(item, term):
    """Whether an item has this term: on a line of its own, or before the text where there is room for it."""
    return item[0] == term or (len(term) < 7 and item[0].startswith(term.ljust(7)))


def wrongs_of(crate, program, terms):
    """What is wrong with the page of a program whose sections have these terms, beside those that each page has: terms
    that are missing, or are none, and words of the program's help that aren't on the page in their order. None on a
    machine that has no man."""
    sections = sections_of(crate, program)
    if sections is None:
        return None
    said = subprocess.run([program, "--help"], check=True, capture_output=True, text=True).stdout
    parts = re.split(r"^(\S.*):\n", said, flags=re.MULTILINE)
    texts = {title.upper(): text.split() for title, text in zip(parts[1::2], parts[2::2])}
    wrongs = [] if sorted(texts) == sorted(terms) else ["sections %s, wanted %s" % (sorted(texts), sorted(terms))]
    for title, wanted in terms.items():
        items = sections.get(title, [])
        if len(items) != len(wanted) or not all(map(is_of, items, wanted)):
            wrongs.append("%s: items %s, wanted of %s" % (title, [item[0] for item in items], wanted))
        words = " ".join(" ".join(item) for item in items).split()
        if words != texts.get(title):
            wrongs.append("%s: words %s, wanted %s" % (title, words, texts.get(title)))
    return wrongs
