"""What each command prints of the inputs of conformance/ and of long streams, and where it stops."""
import corpus
import model
from runs import COMMANDS, PRINTED, ended_of, name_of, stopped, usage, whole

MANY = 70005

# Segments of no words and of the bytes 1 to 8; then one empty segment; then one of two words.
STREAM = b"".join(map(model.frame, ([b"", bytes(range(1, 9))], [b""], [8 * b"\1" + 8 * b"\2"])))
LINES = [b"0 2 1 0 1\n", b"1 1 0 0\n", b"2 1 2 2\n"]
EMPTY, HELLO = model.frame([b""]), model.frame([b"\x01\0\0\0\x72\0\0\0Hello, World!\0\0\0"])

# Words that are no command, each by itself.
OTHERS = [
    [], ["lst"], ["lists"], ["list", "list"], ["list", ""], ["list", "--packed", "x"], ["list", "--packed", "--packed"],
    ["list", "--lenient", "--lenient"], ["list", "--lenient", "--packed", "--lenient"],
    ["list", "--packed", "--lenient", "--lenient"], ["--lenient", "list"],
    ["--lenient", "pack"], ["--packed", "list"], ["pack", "--packed"],
    ["pack", "--packed", "--lenient"], ["unpack", "--packed"], ["unpack", "--lenient", "--lenient"],
    ["canon", "--lenient"], ["canon", "--packed", "--lenient"], ["canon", "canon"], ["canon", "--packed", "--packed"],
    ["canonical"], ["LIST"], [b"\xff"],
]

# Objects that are shared: structs of two pointers to the next struct, 2^40 - 1 of them as a tree, and a list
# of 65,536 pointers to one list of 8,192 words. Both walks end at the default limit of words.
TWO_POINTERS = 2 << 48
DOUBLINGS = [TWO_POINTERS] + 39 * [TWO_POINTERS | 4, TWO_POINTERS] + [0, 0]
SHARED_LISTS = [0x80006_00000001] + [0x10005_00000001 + 4 * left for left in range(65535, -1, -1)] + 8192 * [0]


def inputs():
    """The calls and segments of the cases of conformance/ that have no option."""
    for case in corpus.cases():
        call, _, *options, segments = next(iter(case.requests.values())).split()[:8]
        if call in ("framed", "packed", "canonical", "pack", "write") and options == [*model.DEFAULTS.values()]:
            yield call, model.parse(segments)


def try_cases(program):
    """Each input by the commands that take it: strict and lenient ones in turn, and canonical forms after a message."""
    for number, (call, segments) in enumerate(inputs()):
        message = [segment[:len(segment) // 8 * 8] for segment in segments]
        if call in ("pack", "write"):
            program.expect("pack", model.frame(message[:511] or [b""]))
            continue
        if call == "canonical":
            if 0 < len(segments) < 512:
                form = model.packed_message if number % 4 == 0 else model.frame
                command = "canon --packed" if number % 4 == 0 else "canon"
                program.expect(command, form([HELLO[8:]]) + form(message) + form([HELLO[8:]]))
            continue
        given, packed = b"".join(segments), " --packed" if call == "packed" else ""
        lenient = ["", " --lenient"][number % 2]
        program.expect("list" + packed + lenient, given)
        program.expect(("unpack" if packed else "pack") + ["", " --lenient"][number % 3 % 2], given)
        program.expect("canon" + packed, given)


def try_others(program):
    for words in OTHERS:
        program.expect(words, STREAM, usage(STREAM))
    for words in COMMANDS:
        program.expect(words)
    # These lines are worked by hand, also for the model.
    lines = whole(b"".join(LINES))
    for ended in program.run(["list"], STREAM), ended_of("list", STREAM):
        program.compare(lines, ended, "list")
    for words in DOUBLINGS, SHARED_LISTS:
        given = model.frame([b"".join(word.to_bytes(8, "little") for word in words)])
        program.compare(stopped(0, "20 ReadLimitExceeded", left=None), program.run(["canon"], given), "canon of shared objects")


def try_long_streams(program):
    """Many messages of a null root; messages that are skipped in two parts and a rest, whole and cut; and as many segments as
    there may be, of which the last has the text "hello world!"."""
    null, long = model.frame([bytes(8)]), model.frame([65600 * b"\7"])
    for words in COMMANDS:
        is_packed = "--packed" in words or words.startswith("unpack")
        one = model.packed_message([bytes(8)]) if is_packed else null
        printed = [PRINTED[words.split()[0]](index, [bytes(8)]) for index in range(MANY if words.startswith("list") else 1)]
        wanted = whole(b"".join(printed) * (MANY // len(printed)))
        program.compare(wanted, program.run(words.split(), MANY * one), "%s, %d messages" % (words, MANY))
        for count in 9, 10, 511:
            segments = [(2 | count - 1 << 32).to_bytes(8, "little"), *((count - 2) * [b""]), b"\1\0\0\0\x6a\0\0\0hello world!\0\0\0\0"]
            program.expect(words, model.packed_message(segments) if is_packed else model.frame(segments))
    for length in 8, 9, 32776, 65543, 65544, 65607, 65608:
        given = long[:length]
        for words in "list", "list --lenient":
            program.compare(ended_of(words, given), program.run([*words.split()], given), name_of([words], given))


def try_streams(program):
    try_cases(program)
    try_others(program)
    try_long_streams(program)
