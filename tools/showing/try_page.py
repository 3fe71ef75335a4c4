"""Runs of capnp_show --html, each page compared with the one that drawing.py draws; which arrows of dense pages lie over one
another; and a page in a browser."""
import random
import re
from collections import defaultdict

from drawing import page_of
from model import frame, packed_message
from nodes import hash_of, messages_of, shown_of
from page import wrongs_of
from runs import count, expect_unwritten, run, write
from samples import (
    INVALID, CYCLE, DOUBLINGS, ESCAPES, FAR, HELLO, MESSAGES, STRUCTS, WIDE, list_pointer, random_messages, struct_pointer, text_of, words,
)
from try_browser import try_browser

MARKUP = text_of("<b a=\"'\">&amp;")
# a root whose two pointers point to one object, and to a part of it
OVERLAPS = [words(2 << 48, 1 << 32 | 2 << 48 | 4, 1 << 32 | 4, 5, 0, 0)]
# a landing pad that two pointers share, within the object that it points to
LANDING = [words(2 << 48, 0x1_00000002, 0x1_00000002), words(3 << 32 | 0xFFFFFFFC, 7, 8)]
# lists of structs of no words, with words after the last element, and whose elements have no pointers
LISTS = [words(3 << 48, 0x07_00000009, 0x1F_00000009, 0x17_00000015, 5 << 2, 1 << 2 | 1 << 32, 1, 2, 3, 2 << 2 | 1 << 32, 4, 5)]
# every kind of list, from a struct with eight pointers
KINDS = [words(8 << 48, *((3 << 35 | code << 32 | (7 + 2 * code) << 2 | 1) for code in range(7)), 0, *range(24))]
# 65,534 nodes below the first of three pointers, which are a list of 71 pointers to one list of 922; so those of the second and the
# third one are the nodes 65,536 and 65,537
NODES = [words(3 << 48, list_pointer(1, 4, 6, 71), struct_pointer(2, 997, 1, 0), struct_pointer(3, 998, 1, 0),
               *(list_pointer(at, 75, 6, 922) for at in range(4, 75)), *(924 * [0]))]
DRAWN = [*MESSAGES, WIDE, LANDING, STRUCTS, LISTS, KINDS, MARKUP, ESCAPES, [words(3)], OVERLAPS]
LINK = re.compile(r'<a href="(#[^"]*)">[0-9a-f]*<svg><path class="(c[0-9])" d="M([0-9]+) ([0-9]+)([^m"]*)')


def large(count_of_words):
    """A message of a given number of words, whose root has data alone."""
    return [words((count_of_words - 1) << 32) + bytes(8 * (count_of_words - 1))]


def expect_page(what, args, contents, limits=None, stdin=b""):
    """Compares a run over files of these bytes, or over standard input where no file is named, and its page."""
    result = run(["--html", *args, *(name for name in contents if name != "standard input")], stdin)
    inputs, said = [], ""
    for name, content in contents.items():
        first = int(args[args.index("--first") + 1]) if "--first" in args else float("inf")
        messages, error = messages_of(content, "--packed" in args, (limits or {}).get("words", 8388608), first)
        inputs.append((name, [(row, segments, hash_of(segments) if "--hash" in args else None) for row, segments in messages]))
        said += (f"capnp_show: {name}: framed\n" if "--detect" in args else "") + shown_of(args, name, content)[1]
    wrongs = wrongs_of(result.stdout.decode(), page_of(inputs, limits or {}))
    wanted = 1 if "message" in said else 0, said
    if (result.returncode, result.stderr.decode()) != wanted:
        wrongs.append(f"status {result.returncode}, diagnostics:\n{result.stderr.decode()}\nwanted: {wanted}")
    count(f"page: {what}", wrongs)
    return result.stdout.decode(), inputs


def expect_drawn(what, messages, args=(), limits=None, bytes_of=frame):
    content = b"".join(map(bytes_of, messages))
    return expect_page(what, list(args), {"standard input": content}, limits, content)


def try_drawings():
    for args, bytes_of in (([], frame), (["--packed"], packed_message)):
        expect_drawn(f"messages {args}", DRAWN, args, bytes_of=bytes_of)
    expect_drawn("random messages", random_messages(300))
    expect_drawn("nesting", [CYCLE, STRUCTS, INVALID], ["--nesting", "1"], {"nesting": 1})
    expect_drawn("words", [CYCLE, FAR], ["--words", "9"], {"words": 9})
    expect_drawn("doublings", [DOUBLINGS], ["--words", "99"], {"words": 99})
    expect_drawn("more nodes than are drawn", [NODES, HELLO])
    expect_drawn("4,096 and 4,097 words", [large(4096), large(4097), HELLO, [bytes(8 * 2048), bytes(8 * 2049)]])
    messages = [HELLO, STRUCTS, [bytes(8)], [words(3)]]
    expect_drawn("hashes", messages, ["--hash"])
    expect_drawn("the first two", messages, ["--first", "2"])


def try_inputs():
    """Pages of several inputs, some of which can't be read to their ends."""
    both, name = frame(HELLO) + frame(FAR), "<i>&amp;\"'\1.bin"
    contents = {"both.bin": both, "cut.bin": both + frame(HELLO)[:9], "none.bin": b"", name: both}
    for file_name, content in contents.items():
        write(file_name, content)
    expect_page("an empty input", [], {"standard input": b""})
    for file_name in "none.bin", "cut.bin", name:
        expect_page(file_name, [], {file_name: contents[file_name]})
    expect_page("several files", [], contents)
    expect_page("detected", ["--detect"], {"both.bin": both})
    missing = run(["--html", "missing.bin"])
    begins = missing.stderr.startswith(b"capnp_show: missing.bin: the file can't be opened: ")
    wrongs = wrongs_of(missing.stdout.decode(), page_of([("missing.bin", [])], {}))
    count("page: a missing file", wrongs + ([] if begins and missing.returncode == 1 else [str(missing)]))
    with open("/dev/full", "wb") as full:
        expect_unwritten("page: a full device", ["--html", "both.bin"], full)


def arrows_of(text):
    """The straight lines of each arrow of a page, by the line on which they lie: from where to where, and whose."""
    lines = defaultdict(list)
    for target, colour, left, top, turns in LINK.findall(text):
        at = {"H": int(left), "V": int(top)}
        for way, to in re.findall("([HV])([0-9]+)", turns):
            other = "V" if way == "H" else "H"
            lines[way, at[other]].append((*sorted((at[way], int(to))), target, colour))
            at[way] = int(to)
    return lines


def overlaps(text):
    """The pairs of arrows to different words that lie over one another, each by the two words and the two colours."""
    for kept in arrows_of(text).values():
        for index, (low, high, target, colour) in enumerate(kept):
            for other_low, other_high, other, other_colour in kept[:index]:
                if target != other and max(low, other_low) < min(high, other_high):
                    yield target, other, colour, other_colour


def try_lanes():
    """Within eight rows no arrow lies over one to another word; where many do, they differ in their colours."""
    def page_of_pointers(starts, size):
        kept = [list_pointer(0, 1, 6, len(starts)), *(struct_pointer(1 + at, start, 1, 0) for at, start in enumerate(starts))]
        return run(["--html"], frame([words(*kept, *((size - len(kept)) * [0]))])).stdout.decode()

    source = random.Random(11)
    for trial in range(20):
        page = page_of_pointers([source.randrange(1, 32) for _ in range(31)], 32)
        wrongs = [f"arrows to {pair[0]} and {pair[1]}" for pair in overlaps(page)]
        count(f"lanes: {trial}", wrongs if len(LINK.findall(page)) == 32 else [f"its links: {page}"])
    page = page_of_pointers(range(288, 575), 575)
    pairs = list(overlaps(page))
    wrongs = [f"arrows in one colour to {pair[0]} and {pair[1]}" for pair in pairs if pair[2] == pair[3]]
    count("lanes: 287 pointers", wrongs if pairs and len(LINK.findall(page)) == 288 else [f"its {len(pairs)} pairs"])


def try_pages():
    try_drawings()
    try_inputs()
    try_lanes()
    try_browser(*expect_drawn("messages", DRAWN))
