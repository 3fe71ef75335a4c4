"""Writes the manual page of a built program: manual.py CRATE NAME [PROGRAM]

The page is made of what the program prints for `--help`; that of the plugin is of the comment at the head of its
main.rt, and has the words and what follows them from `--help`. NAME is what it is installed as, and PROGRAM the file that is asked, if it
isn't that in the crate's folder.
"""
import re
import subprocess
import sys

sys.dont_write_bytecode = True
from troff import ROOT, bold, escaped, head

NAME = r"(?:(?<=\W)|^)(--?[a-zA-Z][\w-]*)"


def term(text):
    """The words of a command, an option or an example; options are bold."""
    return "".join(bold(part) if re.fullmatch(NAME, part) else escaped(part) for part in re.split(NAME, text))


def items_of(lines):
    """The terms of a section, each with its text. A line is two to six spaces, the term, at least two spaces, the
    text; a line that is indented as far as the text above it goes on with that."""
    items, column = [], 0
    for line in lines:
        if not line.strip():
            continue
        begun = re.fullmatch(r" {2,6}(\S.*?)(?: {2,}(\S.*))?", line)
        if begun and (not items or begun.start(1) < column):
            items.append([begun[1], begun[2] or ""])
            # Where the text begins only on the next line, it is further in than any term.
            column = begun.start(2) if begun[2] else 7
        else:
            items[-1][1] = (items[-1][1] + " " + line.strip()).strip()
    return items


def section(title, lines):
    page = [".SH " + title.upper()]
    for words, text in items_of(lines):
        page += [".TP", term(words), escaped(text)]
    return page


def page_of_help(text):
    """The pages' part after its head, of what --help prints."""
    about, rest = text.split("\n\n", 1)
    usage, rest = re.match(r"Usage: (.*)\n\n?([\s\S]*)", rest).groups()
    page = [".SH SYNOPSIS", term(usage)]
    parts = re.split(r"^(\S.*):\n", rest, flags=re.MULTILINE)
    if parts[0].strip():
        page += [".SH DESCRIPTION", escaped(" ".join(parts[0].split()))]
    for title, lines in zip(parts[1::2], parts[2::2]):
        page += section(title, lines.splitlines())
    return about, page


def page_of_comment(source):
    """The same of the comment at the head of a file."""
    comment = "\n".join(line[3:].strip() for line in re.match(r"(?://!.*\n)+", source)[0].splitlines())
    first, *paragraphs = comment.split("\n\n")
    about = re.split(r"[:.]", first)[0]
    marked = [re.sub(r"`(.*?)`", r"\\fB\1\\fR", " ".join(part.split()).replace("-", "\\-"))
              for part in [first] + paragraphs]
    usage = re.search(r"`(.*?)`", first)[1] + "[:FOLDER] SCHEMA.."
    return about, [".SH SYNOPSIS", bold(usage), ".SH DESCRIPTION", "\n.PP\n".join(marked)]


def page_of_words(text):
    """What follows the line of usage in what --help prints: the words, and a paragraph."""
    words, rest = re.search(r"^usage: .*\n\n((?:  .*\n)+)\n([\s\S]*)", text, re.MULTILINE).groups()
    return section("Options", words.splitlines()) + [".PP", escaped(" ".join(rest.split()))]


crate, name, *programs = sys.argv[1:]
program = programs[0] if programs else ROOT / "crates" / crate / "out" / crate
said = subprocess.run([program, "--help"], check=True, capture_output=True, text=True).stdout
if crate == "capnpc_rattle":
    about, page = page_of_comment((ROOT / "crates" / crate / "src/main.rt").read_text())
    page += page_of_words(said)
else:
    about, page = page_of_help(said)
print(head(name, 1, about), *page, sep="\n")
