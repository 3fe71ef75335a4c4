"""Sentences of more than 35 words, and phrases that are hard to follow, in comments of .rt and .antt files and in pages.

A sentence ends at a full stop, and with its list item, heading or table cell; text in `..` is one word.
"""
import os
import re

from .glossary import GLOSSARY, phrase_of

MOST_WORDS = 35
# files that are looked at, and those that are made
WITH_SENTENCES = re.compile(r"^(crates/.*(?<!_capnp)\.(rt|antt)|(crates|docs|tools|conformance)/.*\.md|[A-Z]+\.md)$")
MADE = {"docs/API.md"}
# in place of these the noun is said again, or a plainer word
PHRASES = [
    ("of which", "the noun again, in a sentence of its own"),
    ("those of", "the noun again"),
    ("that of", "the noun again"),
    ("beside", "next to, compared with, as well as"),
]
# sentences that may be longer, or have such a phrase: a file, and the first words
SENTENCES_ALLOWED = [
    ("README.md", "*While its source does not fail"),  # the contract of stream readers, which docs/CLAIMS.md has again
    ("docs/CLAIMS.md", "*While its source does not fail"),
    (GLOSSARY, "`told_text`, `one_text`"),  # names alone
]

# a line that is a comment, and what it says
COMMENT = {".rt": re.compile(r"\s*//[/!]?(.*)"), ".antt": re.compile(r"\s*--(.*)")}
LIST_ITEM = re.compile(r"([-*]|\d+\.)\s")
# between sentences; a colon ends one before what begins like one
SENTENCE_END = re.compile(r"(?<=[.!?])\s+(?![a-z])|(?<=:)\s+(?=[A-Z(\[])")
WORD = re.compile(r"\S*\w\S*")


def paragraphs(path, text):
    """Paragraphs, list items, headings and table cells of comments or of a page, without code; each with its first line's number."""
    comment = COMMENT.get(os.path.splitext(path)[1])
    lines, first, in_code = [], 0, False
    for number, line in enumerate(text.split("\n") + [""], 1):
        if comment:
            found = comment.fullmatch(line)
            line = found.group(1) if found else ""
            in_code = in_code and found is not None
        line = line.strip()
        fence, heading, row = line.startswith("```"), line.startswith("#"), line.startswith("|")
        if lines and (in_code or not line or fence or heading or row or LIST_ITEM.match(line)):
            yield first, "\n".join(lines)
            lines = []
        if fence:
            in_code = not in_code
        elif line and not in_code:
            if heading or row:
                yield from ((number, part) for part in re.split(r"(?<!\\)\|", line))
            else:
                first = first if lines else number
                lines.append(line)


def look_for_sentences(tree, path, phrases):
    for first, paragraph in paragraphs(path, tree.text(path)):
        # as long as the paragraph, and each text in `..` is one word
        prose = re.sub(r"`[^`]*`", lambda found: "X" * len(found[0]), paragraph)
        line_of = lambda at: first + paragraph.count("\n", 0, at)
        starts = [0] + [end.end() for end in SENTENCE_END.finditer(prose)]
        for start, end in zip(starts, starts[1:] + [len(prose)]):
            sentence = " ".join(paragraph[start:end].split())
            if any(path == place and sentence.startswith(words) for place, words in SENTENCES_ALLOWED):
                continue
            count = len(WORD.findall(prose[start:end]))
            if count > MOST_WORDS:
                tree.wrong(path, line_of(start), f"a sentence of {count} words, and not of {MOST_WORDS}: {sentence[:100]}")
            for phrase, pattern, instead in phrases:
                for found in pattern.finditer(prose, start, end):
                    around = " ".join(paragraph[max(start, found.start() - 30):end].split())
                    tree.wrong(path, line_of(found.start()), f"'{phrase}' ({instead}): {around[:100]}")


def check(tree):
    phrases = [(phrase, phrase_of(phrase), instead) for phrase, instead in PHRASES]
    for path in tree.paths:
        if WITH_SENTENCES.match(path) and path not in MADE:
            tree.seen()
            look_for_sentences(tree, path, phrases)
