"""Words of our own where the field has one: those of the glossary (glossary.py), and those that went before it.

Files that the schema compiler writes (*_capnp.rt) have only names and prose of their schemas, and are left out.
"""
import functools
import re

from .glossary import GLOSSARY, NAME, look_for_rows, parts_of, rows_of

# what went before there was a table, wherever it is, in prose or as a part of a name, and what is said in its place
WENT = {
    "answer answers answered answering": "returns, or a result",
    "pad pads": "landing pad",
    "lent": "caller-provided, in names: provided",
    "piece pieces": "chunk",
    "charge charges charged": "counted against the traversal limit, in names: traversed",
    "level levels": "nesting depth left, in names: nesting",
    "behind": "after, in names: after, following",
    "crowded": "no room",
    "astray": "an invalid pointer",
    "barred": "unreadable",
    "spot spots": "location, as a type: RootLocation",
}
# within names of several words
IN_NAMES = {
    "told": "declared",
    "near": "local, of a pointer without a landing pad; fast path",
    "formed": "output",
    "standing": "untrimmed",
    "tidy": "preorder",
    "tight": "truncated",
}
# whole names
NAMES = set("""
    TellsTable TellsAccepted has_short_way unpack_lone unpack_lone_groups lone_mark bare_pointer bare_elements IsBare MARKS PLACES HasTaken Tidy IsTight BegunCopy LeftRun
    meet_object pass_struct pass_list pass_pointers keep_limit keep_padding keep_count keep_zeros MadeStructList
    MadePointerList made_struct_list made_pointer_list in_stretch WipesRoot give_back BringsHome NotTakenAtHome IsHome HasFew HasMany
    of_held trim_held put_own_words own_words PointerRows Misfits Misses Unsaid Unmeasured Unreadable
    try_read_text_into try_read_packed_text_into IsPackedText IsPackedTextOf IsFrameText AreTexts EndsTexts ReturnsText ReturnsTexts
    frame_text group_text packed_text_is_one packed_encoding_is_one stopped_walk_has_no_trees refused_has_no_object
    RowPair refused_by IsRefusedBy land_local land_far land_wide is_wide visit_list kept_elements own_bits fill_indices read_tag body_tag
""".split())
# of several words, and what is said in their place
PHRASES = re.compile(r"\b(so many\b|the same of\b|(?:is|are|was|were|be) refused by (?=`|[0-9]|this kind|a kind))")
# where one of these may be: a file, and what its line holds
ALLOWED = [
    ("", r"Answers(?:\.antt|$)"),  # the toolchain's name of a file
    ("", r"\bno-answer\b"),  # rt says it
    ("tools/linting/comments.py", r"[lL]evel"),  # of headings
    ("", r"\btold_text\b"),  # std has it
    ("", r"\b[cf]\.pad\b"),  # std's Formatter::pad
    ("", r"\bLent\b"),  # ScratchSegment::Lent, as upstream has it
    ("LICENSE", r""),
    ("crates/capnp_object_tests/src/calls/counts.rt", r"\b(One|Two)Pads?\b"),
    ("tools/linting/words.py", r""),  # these lists
    ("tools/consumer/clickhouse.py", r"\blevel>"),  # of what a server logs
    ("tools/conformance/differences.txt", r""),  # made of the names of cases
    (GLOSSARY, r"^\| "),
    ("crates/capnpc_rattle/src/schema_capnp.rt", r"^ *///"),  # what schema.capnp says itself
]
# names and prose that are not the tree's own: what is made of a schema, and what a name was
NOT_OURS = re.compile(r"^(CHANGELOG\.md|tools/linting/words\.py$|docs/API\.md|crates/(capnpc_rattle|capnp_schema)/src/schema_capnp\.rt|crates/capnpc_sample/|crates/.*_capnp\.rt$)")
READ = re.compile(r"^(crates/.*(\.(rt|antt|edit|md|h)|-edits\.txt)|docs/.*\.md|README\.md|CONTRIBUTING\.md|CHANGELOG\.md|crates\.txt|tools/.*|conformance/.*\.(py|md))$")

LANDING = re.compile(r"\blanding(\s(?:\s*(?:///?|//!|--|\*|#)?\s)*)pads?\b", re.I)


@functools.cache
def went(name, is_own):
    """What is said in the place of a name, if it is one that went, or a part of it is."""
    parts = parts_of(re.sub(r"(?i)landing_?pads?", "landing", name))
    for words, instead in WENT.items():
        if not set(parts).isdisjoint(words.split()):
            return instead
    if is_own and name in NAMES:
        return "another name"
    return next((IN_NAMES[part] for part in parts if part in IN_NAMES), None) if is_own and len(parts) > 1 else None


def look_for_went(tree, path):
    """What went before: in names, comments, strings and pages, and in the path itself, which is line 0."""
    text = LANDING.sub(r"\1", tree.text(path))
    is_own = not NOT_OURS.match(path)
    if PHRASES.search(text) or any(went(name, is_own) for name in set(NAME.findall(path + " " + text))):
        for number, line in enumerate([path.removesuffix("Answers.antt"), *text.split("\n")]):
            found = [(name, went(name, is_own)) for name in NAME.findall(line)] + [(phrase, "what is meant") for phrase in PHRASES.findall(line)]
            for name, instead in found:
                if instead and not any(re.search(text, line) for place, text in ALLOWED if place in ("", path)):
                    tree.wrong(path, number, f"'{name}' ({instead})")


def check(tree):
    rows, hits = rows_of(tree), {}
    if not any(row.parts or row.phrases for row in rows):
        tree.wrong(GLOSSARY, 0, "no table of words")
    for path in filter(READ.match, tree.paths):
        tree.seen()
        look_for_went(tree, path)
        if not NOT_OURS.match(path) and not path.endswith(".h"):
            look_for_rows(tree, path, rows, hits)
