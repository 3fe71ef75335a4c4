"""Lines and JSON that are worked by hand: of each kind of node, names, texts and errors; and numbers of several digits."""
from model import KINDS, frame
from runs import expect, expect_parts, expect_shown, run, write
from samples import CYCLE, FAR, HELLO, MOST_VOIDS, STRUCTS, list_pointer, nested, struct_pointer, text_of, words

FAR_LINES = """message 0: offset 0, bytes 48, segments 2, words 4
  root: struct, data 0, pointers 1, at 0:1
    pointer 0: list, element byte, count 3, at 1:1, landing pad 1:0, words 1, text "hi"
"""
STRUCTS_LINES = """message 0: offset 0, bytes 64, segments 1, words 7
  root: list, element struct, count 2, data 1, pointers 1, at 0:1
    element 0: struct, data 1, pointers 1, at 0:2
      pointer 0: null
    element 1: struct, data 1, pointers 1, at 0:4
      pointer 0: list, element byte, count 2, at 0:6, text "a"
"""
HELLO_JSON = (
    '{"file":"log","index":0,"offset":0,"bytes":21,"segments":1,"words":3,'
    '"sha256":"761b8e3a3c1b60eef738be817129f1fee3b1696d5ccd9224c06875442cb8cfd7",'
    '"tree":[{"depth":0,"label":"root","kind":"list","element":"byte","count":14,'
    '"segment":0,"word":1,"text":"Hello, World!"}]}\n'
)
FAR_JSON = '"segment":1,"word":1,"landing_pad":{"words":1,"segment":1,"word":0},"text":"hi"}]}\n'
NESTED_LINES = """message 0: offset 0, bytes 24, segments 1, words 2, no canonical form: \
objects are nested deeper than --nesting allows (NestingLimitExceeded)
  root: struct, data 0, pointers 1, at 0:1
    pointer 0: refused, since objects are nested deeper than --nesting allows (NestingLimitExceeded)
"""
LIMITED_LINES = """message 0: offset 0, bytes 24, segments 1, words 2
  root: struct, data 0, pointers 1, at 0:1
    pointer 0: struct, data 0, pointers 1, at 0:1
      pointer 0: refused, since the objects have more words than --words allows (ReadLimitExceeded)
"""
# Names of files that can be opened, and how they are shown in front of a line and within quotation marks.
NAMES = [
    ("log", "log"),
    ('a"b\\c', 'a\\"b\\\\c'),
    ("\1\t\n\x1f\x7f\x9f\u00e9", "\\u0001\\t\\n\\u001f\\u007f\\u009f\u00e9"),
]
# Texts within quotation marks: as JSON has them, and U+007F to U+009F by their numbers. Characters
# that may not stand as they are have their neighbours beside them, and runs of none, one and two
# plain ones between them.
QUOTED = [
    ("", '""'),
    ("plain", '"plain"'),
    ('a"\\\n\x1b\x7f\u00e9', '"a\\"\\\\\\n\\u001b\\u007f\u00e9"'),
    ("\0\t\n\x1f\x7f\x9f\u00e9", '"\\u0000\\t\\n\\u001f\\u007f\\u009f\u00e9"'),
    ("\0a\x1f ", '"\\u0000a\\u001f "'),
    ("\x08\t\n\x0b\x0c\r\x0e", '"\\u0008\\t\\n\\u000b\\u000c\\r\\u000e"'),
    ('!"#', '"!\\"#"'),
    ("[\\]", '"[\\\\]"'),
    ("%&';<=>?", "\"%&';<=>?\""),
    ("~\x7f\x80", '"~\\u007f\\u0080"'),
    ("\x9f\xa0\xbf\xc0", '"\\u009f\xa0\xbf\xc0"'),
    ("\xff\u07ff\u0800\ud7ff\ue000\uffff\U00010000\U0010ffff", '"\xff\u07ff\u0800\ud7ff\ue000\uffff\U00010000\U0010ffff"'),
    ('""a"bc"', '"\\"\\"a\\"bc\\""'),
    ("\u00e9\x82\u00e9\xa9\u00e9", '"\u00e9\\u0082\u00e9\xa9\u00e9"'),
]
# What is said of root pointers and of messages that are rejected.
ROOTS = [
    (words(struct_pointer(0, 1, 1, 0)), "a pointer leads outside of its segment (PointerOutOfBounds)"),
    (words(4294967295 << 32 | 2), "a pointer leads to a segment that is not there (InvalidSegmentId(4294967295))"),
    (words(3), "a pointer leads to a capability (CapabilityRefused)"),
    (words(list_pointer(0, 1, 7, 0), 1), "a pointer leads to another kind of object (WrongPointerKind)"),
    (MOST_VOIDS[0], "the objects have more words than --words allows (ReadLimitExceeded)"),
]
TABLES = [
    ([], b"\xff\x01\0\0\0\0\0\0", "the segment table has a number of segments that is not from 1 to 511 (InvalidNumberOfSegments(512))"),
    ([], frame(HELLO)[:30], "the input ends within a message (FailedToFillTheWholeBuffer)"),
    ([], words(1, 0x09090909_00000000), f"the padding of the segment table is not zero ({KINDS[26]})"),
    (["--words", "2"], frame(HELLO), "the message has more words than --words allows (MessageTooLarge(3))"),
    (["--packed"], b"\x10", "the packed input ends within a message (PrematureEndOfPackedInput)"),
    (["--packed"], b"\0\1\0", "a run of packed words goes past the end of the segments (PackedInputDidNotEndCleanlyOnASegmentBoundary)"),
]


def try_lines():
    expect("written: a far pointer", run(["--tree"], frame(FAR)), 0, FAR_LINES)
    expect_parts("written: a far pointer, as JSON", ["--tree", "--json"], frame(FAR), [FAR_JSON])
    expect("written: a list of structs", run(["--tree"], frame(STRUCTS)), 0, STRUCTS_LINES)
    write("log", b"\x10\x03\x11\x01\x72\xffHello, W\0\x1forld!")
    expect("written: a JSON object", run(["--packed", "--json", "--hash", "--tree", "log"]), 0, HELLO_JSON)
    expect("written: nesting", run(["--hash", "--tree", "--nesting", "1"], frame(CYCLE)), 0, NESTED_LINES)
    expect("written: words", run(["--tree", "--words", "2"], frame(CYCLE)), 0, LIMITED_LINES)
    expect("written: no message", run(["--count"]), 0, "0\n")
    expect("written: two messages", run(["--count"], frame(HELLO) + frame(FAR)), 0, "2\n")


def try_names():
    for name, shown in NAMES:
        write(name, frame(HELLO))
        line = f"{shown}: message 0: offset 0, bytes 32, segments 1, words 3\n"
        expect(f"written: the name {shown}", run([name, name]), 0, line + line)
        node = f'{{"file":"{shown}","index":0,"offset":0,"bytes":32,"segments":1,"words":3}}\n'
        expect(f"written: the name {shown}, as JSON", run(["--json", name]), 0, node)
    for args, line in ((["", "log"], "log: message 0: offset 0, bytes 32, segments 1, words 3\n"), (["--json", ""], "")):
        result, front = run(args), "capnp_show: : the file can't be opened: "
        result.stderr = result.stderr[: len(front)]
        expect(f"written: the name of nothing {args}", result, 1, line, front)
    content = b"".join(frame(text_of(text)) for text, _ in QUOTED)
    expect_parts("written: texts", ["--tree"], content, [f"at 0:1, text {shown}\n" for _, shown in QUOTED])
    expect_parts("written: texts, as JSON", ["--tree", "--json"], content, [f'"word":1,"text":{shown}}}]}}\n' for _, shown in QUOTED])


def try_errors():
    for segment, said in ROOTS:
        expect_parts(f"written: {said}", ["--tree"], frame([segment]), [f"\n  root: refused, since {said}\n"])
        node = f'{{"depth":0,"label":"root","kind":"refused","why":"{said}"}}'
        expect_parts(f"written: {said}, as JSON", ["--tree", "--json"], frame([segment]), [node])
    for args, content, said in TABLES:
        expect(f"written: {said}", run(args, content), 1, "", f"capnp_show: standard input: message 0 at byte 0: {said}\n")


def try_numbers():
    """Numbers of one digit, of two and of three, in each place of a node and of a message: messages, segments, depths and words."""
    empty = frame([b""])
    for args in [], ["--json"]:
        expect_shown("101 messages", args, 101 * empty)
        expect_shown("511 segments", args, frame(509 * [b""] + [bytes(8), bytes(80)]), "log")
    landing = bytes(80) + words(11 << 32 | 12 << 3 | 2, struct_pointer(-1, 0, 9, 10))
    elements = words(*(struct_pointer(at, at + 1, 0, 1) for at in range(8)), 1 << 48, 0)
    texts = b"hi\0\0\0\0\0\0\xc3\xa9\"\0\0\0\0\0\xff\0\0\0\0\0\0\0"
    for segments in (
        [nested(9, struct_pointer(9, 10, 0, 10), *(9 * [0]), 10 << 32 | 2)],
        [words(9 << 32 | 10 << 3 | 6), *(8 * [b""]), landing, b"", bytes(8 * 31)],
        [words(list_pointer(0, 1, 7, 190), struct_pointer(-1, 10, 9, 10)) + bytes(8 * 190)],
        [words(list_pointer(0, 9, 3, 9)) + bytes(8 * 11)],
        [nested(9, struct_pointer(9, 10, 10, 1), *(10 * [7]), 11 << 32 | 2), *(10 * [b""]),
         words(list_pointer(0, 1, 7, 11), struct_pointer(-1, 11, 0, 1)) + elements + words(0)],
        *([words(2 << 32 | 6), texts, words(1 << 32 | word << 3 | 2, list_pointer(-1, 0, 2, count))]
          for word, count in ((0, 2), (0, 3), (1, 5), (2, 2))),
    ):
        for args in ["--tree"], ["--tree", "--json"]:
            expect_shown("numbers", args, frame(segments))


def try_written():
    try_lines()
    try_names()
    try_errors()
    try_numbers()
