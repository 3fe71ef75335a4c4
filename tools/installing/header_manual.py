"""Writes the manual page linsjoar(3).

The page is made of crates/capnp_c/linsjoar.h. A comment with an empty line after it begins a section, if its first
sentence is short, or is a paragraph. Another comment is the text of what is declared below it.
"""
import re
import sys

sys.dont_write_bytecode = True
from troff import ROOT, bold, escaped, head

# A comment and the code below it up to an empty line or the next comment, either of which may be missing.
BLOCK = re.compile(r"(?:^/\*(?P<comment>[\s\S]*?)\*/\n)?(?P<code>(?:(?!/\*).+\n)*)", re.M)
ERROR = re.compile(r"/\*([\s\S]*?)\*/\s*(LINSJOAR_\w+) = (\d+)")
INLINE = "static inline "
TITLE_LENGTH = 50


def text_of(comment):
    """The paragraphs of a comment."""
    lines = re.sub(r"^ *\*(?: |$)", "", comment.strip(), flags=re.M)
    return [" ".join(part.split()) for part in re.split(r"\n\s*\n", lines)]


def paragraphs(parts):
    """What is between `` in a text is italic."""
    return "\n.PP\n".join(re.sub(r"\\\(ga(.*?)\\\(ga", r"\\fI\1\\fR", escaped(part)) for part in parts)


def section(comment):
    """A section of a comment that says what follows, or a paragraph."""
    first, *more = text_of(comment)
    sentence, _, rest = first.partition(". ")
    if len(sentence) > TITLE_LENGTH:
        return [".PP", paragraphs([first, *more])]
    parts = ([rest] if rest else []) + more
    return ['.SH "%s"' % escaped(sentence.rstrip(".").upper()), *([paragraphs(parts)] if parts else [])]


def declared(code):
    """The lines of some declarations: of a function that has a body only what is before that."""
    declaration = lambda found: found[1].replace("\n" + " " * len(INLINE), "\n") + ";"
    code = re.sub("^" + INLINE + r"([^{]*?) \{(?:.*\}$|[\s\S]*?^\}$)", declaration, code, flags=re.M)
    code = re.sub(r"LINSJOAR_CHECKED\s", "", code)
    code = re.sub(r"^(#define \w+\(.*?\)) *\\\n(?:.*\\\n)*.*\n", r"\1\n", code, flags=re.M)
    return [] if code.startswith("#if") else code.splitlines()


def item(comment, code):
    lines = declared(code)
    if not lines:
        return []
    shown = [".PP", ".nf", *map(bold, lines), ".fi"]
    return shown + ([".RS", paragraphs(text_of(comment)), ".RE"] if comment else [])


def errors(header):
    page = [".SH ERRORS"]
    for comment, name, number in ERROR.findall(re.search(r"^enum linsjoar_error \{[\s\S]*?^\};", header, re.M)[0]):
        page += [".TP", "%s (%s)" % (bold(name), number), paragraphs(text_of(comment))]
    return page


def described(header):
    """What a header declares, by its comments."""
    body = re.search(r'extern "C" \{\n#endif\n([\s\S]*)\n#ifdef', header)[1]
    for block in BLOCK.finditer(body):
        comment, code = block["comment"], block["code"]
        if "enum linsjoar_error {" not in code:
            yield from item(comment, code) if code else section(comment) if comment else []


def page_of(header, types):
    """The page but for its head, of the header of the library and that of the types that the schema compiler writes."""
    first, *more = text_of(header.split("#ifndef", 1)[0].strip()[2:-2])
    sentence, _, after = first.partition(". ")
    page = [".SH SYNOPSIS", ".nf", bold("#include <linsjoar.h>"), bold("#include <linsjoar_types.h>"), "",
            bold("cc ... $(pkg-config --cflags --libs linsjoar)"), ".fi", ".SH DESCRIPTION", paragraphs([after, *more])]
    page += [*described(header), ".SH TYPES OF A SCHEMA", about(types), *described(types)]
    return sentence, page + errors(header)


def about(header):
    """The comment at the head of a header, with its examples as they are."""
    lines = re.sub(r"^ \* ?", "", header.split("#ifndef", 1)[0].strip()[2:-2], flags=re.M).split("\n")
    shown = []
    for line in lines:
        is_example = line.startswith("    ")
        if is_example != (shown[-1:] == [".fi"]):
            shown += [".PP", ".nf", ".fi"] if is_example else [".PP"]
        if is_example:
            shown.insert(-1, escaped(line))
        elif line.strip():
            shown.append(escaped(line.strip()))
    return "\n".join(shown)


name, page = page_of(*((ROOT / "crates/capnp_c" / header).read_text() for header in ("linsjoar.h", "linsjoar_types.h")))
print(head("linsjoar", 3, name), *page, sep="\n")
