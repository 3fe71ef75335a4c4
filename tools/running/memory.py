"""Memory: within a bound that goes by the largest message each reader takes a whole stream, however long that is and whatever
came before; it is none for a reader that skips. A table is taken at its word: a reader asks for what it declares, within
the limit, before the words come."""
import functools
import itertools
import os
import subprocess

import model

LARGE = 1 << 17

# The bytes that a program holds whatever it reads, its buffers and arguments, and a page to which a large block is rounded.
OWN = 12 << 10
BUFFERS = 160 << 10

# A message's words and how many segments they are in, one after the other, and words that a last table declares with nothing
# after it. The last two streams fail with FailedToFillTheWholeBuffer, as no byte of the segments is there, and MessageTooLarge.
STREAMS = {
    "one message": ([(LARGE, 1)], None),
    "1,000 small ones after it": ([(LARGE, 1)] + 1000 * [(1, 1)], None),
    "1,000 small ones": (1000 * [(1, 1)], None),
    "each twice as long": ([(1 << power, 1) for power in range(18)], None),
    "each a word longer": ([(LARGE - 9 + words, 1) for words in range(10)], None),
    "511 segments": (3 * [(LARGE, 511)], None),
    "a table alone": ([], LARGE),
    "a table past the limit": ([], (8 << 20) + 1),
}
# The same for the program alone, whose streams are larger: as large as it takes, many that are large, and many that are small.
LARGER = {
    "the largest": ([(8 << 20, 1)], None),
    "40 large ones": (40 * [(1 << 20, 1)], None),
    "large and small ones": ([(words, 1) for step in range(16, 0, -1) for words in (step << 17, 1)], None),
    "many small ones": (200_000 * [(1, 1)], None),
}

# How often the bytes of the largest message are kept: by a reader into new memory once, into kept memory, which grows to more
# than is asked for, twice, and by one that skips never. So it is with the commands; a canonical form is kept once more.
READERS = {"framed": 1, "packed": 1, "framed-one-by-one": 1, "packed-one-by-one": 1, "framed-into-kept": 2,
           "packed-into-kept": 2, "framed-skipped": 0, "packed-skipped": 0}
FACTORS = {"list": 0, "list --packed": 0, "pack": 2, "unpack": 2, "canon": 3, "canon --packed": 3}


@functools.lru_cache(maxsize=2)
def message_of(words, count, is_packed):
    """A message of zeros, whose segments but the last have a word each."""
    segments = (count - 1) * [bytes(8)] + [bytes(8 * (words - count + 1))]
    if not is_packed:
        return model.frame(segments)
    whole, rest = divmod(words - count + 1, 256)
    return model.pack(model.segment_table(segments)) + (count - 1) * b"\0\0" + whole * b"\0\xff" + (bytes([0, rest - 1]) if rest else b"")


def stream_of(messages, declared, is_packed):
    """The bytes of a stream."""
    content = b"".join(message_of(*one, is_packed) for one in messages)
    table = (declared << 32).to_bytes(8, "little") if declared else b""
    return content + (model.pack(table) if is_packed else table)


def bound(factor, messages, declared):
    """The most bytes that a reader may hold: so often those of the largest message within the limit, and for each segment where
    it begins and ends, in memory that grows to twice of that."""
    words = max([words for words, _ in messages] + [declared if declared and declared <= 8 << 20 else 0])
    return factor * 8 * words + 2 * 16 * max([count for _, count in messages] + [1])


def kept_by(program, command, given):
    """What a run prints, and how many bytes it holds at most."""
    environment = {**os.environ, "LD_PRELOAD": program.library("malloc"), "COUNTED": program.file("counted")}
    with open(program.file("given"), "wb") as file:
        file.write(given)
    with open(program.file("given"), "rb") as source:
        ran = subprocess.run(command, env=environment, stdin=source, stdout=subprocess.PIPE, stderr=subprocess.PIPE, timeout=60)
    return ran.stdout, int(program.read("counted").split()[1])


def compare(program, name, kept, most, is_right=True):
    program.tried += 1
    if kept > most or not is_right:
        program.wrong += 1
        print("try-program: %s: %d bytes of at most %d%s" % (name, kept, most, "" if is_right else ", and reads something else"))


def try_memory(program):
    for (name, (messages, declared)), is_packed in itertools.product({**STREAMS, **LARGER}.items(), (False, True)):
        given = stream_of(messages, declared, is_packed)
        for words, factor in FACTORS.items():
            if ("--packed" in words or words == "unpack") != is_packed:
                continue
            printed, kept = kept_by(program, [program.path, *words.split()], given)
            is_list = words.startswith("list") and len(messages) < 2000
            lines = b"".join(b"%d %d %d%s %d\n" % (index, count, size, (count - 1) * b" 1", size - count + 1)
                             for index, (size, count) in enumerate(messages))
            compare(program, "%s of %s" % (words, name), kept, OWN + BUFFERS + bound(factor, messages, declared), not is_list or printed == lines)


def try_readers(program):
    """Each reader of the library, by a program of its own (tools/running/readers)."""
    for name, (messages, declared) in STREAMS.items():
        for reader, factor in READERS.items():
            given = stream_of(messages, declared, reader.startswith("packed"))
            printed, kept = kept_by(program, [program.path, reader], given)
            error = 0 if not declared else 1 if declared <= 8 << 20 else 8
            compare(program, "%s, %s" % (reader, name), kept, OWN + bound(factor, messages, declared),
                    printed == b"%d %d\n" % (len(messages), error))
