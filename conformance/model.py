#!/usr/bin/env python3
"""A model of Cap'n Proto's message layer: the rules of docs/FORMAT.md as a program, by which results are expected.

`model.py [FILE ..]` copies files of cases, or standard input, and writes what it finds in the place of each result
(conformance/README.md). It knows nothing of the library, and follows the order of the encoding document.
"""
import fileinput
import itertools
import math
import re
import struct
from dataclasses import dataclass
from decimal import Decimal

WORDS_LIMIT, NESTING_LIMIT, SEGMENTS_COUNT_LIMIT = 8388608, 64, 512

# The kinds of errors, in the order of their numbers, and what is said of each.
SENTENCES = {
    "FailedToFillTheWholeBuffer": "the input ends within a message",
    "BufferNotLargeEnough": "a buffer is too short for what was to be put there",
    "EmptyBuffer": "a buffer that was to hold a message is empty",
    "EmptySlice": "the bytes that were to begin with a message are none",
    "InvalidNumberOfSegments": "the segment table has a number of segments that is not from 1 to 511",
    "MessageEndsPrematurely": "the input ends before the message does",
    "MessageSizeOverflow": "the size of the message does not fit 64 bits",
    "MessageTooLarge": "the message has more words than --words allows",
    "PrematureEndOfFile": "the input ends where a message was to begin",
    "PrematureEndOfPackedInput": "the packed input ends within a message",
    "PackedInputDidNotEndCleanlyOnASegmentBoundary": "a run of packed words goes past the end of the segments",
    "OutOfMemory": "there is not enough memory",
    "DeviceFailed": "the input can't be read",
    "NotWholeWords": "what was to be packed or unpacked is no whole number of words",
    "AllocationTooLarge": "an object is larger than a segment may be",
    "SegmentTaken": "the only segment is in use",
    "PointerOutOfBounds": "a pointer leads outside of its segment",
    "InvalidSegmentId": "a pointer leads to a segment that is not there",
    "NestingLimitExceeded": "objects are nested deeper than --nesting allows",
    "ReadLimitExceeded": "the objects have more words than --words allows",
    "CapabilityRefused": "a pointer leads to a capability",
    "WrongPointerKind": "a pointer leads to another kind of object",
    "TextNotTerminated": "a text has no zero byte at its end",
    "CanonicalTooLarge": "the canonical form is larger than a segment may be",
    "NotOneSegment": "the message has more than one segment",
    "NonZeroPadding": "the padding of the segment table is not zero",
}
KINDS = ["", *SENTENCES]


class Invalid(Exception):
    """A call fails: with a kind of error, and its numbers."""
    def __init__(self, kind, *numbers):
        super().__init__(kind, *numbers)
        self.kind, self.number = kind, KINDS.index(kind)
        self.text = kind + ("(%s)" % ", ".join(map(str, numbers)) if numbers else "")
        self.sentence, self.result = f"{SENTENCES[kind]} ({self.text})", f"error {self.number} {self.text}"


class NoMessage(Exception):
    """A stream has no further message."""


def require(condition, kind, *numbers):
    if not condition:
        raise Invalid(kind, *numbers)


# Serialization over a stream

def take(unread, size, kind="FailedToFillTheWholeBuffer"):
    """The next bytes, which are consumed; where there are fewer, all are consumed and the call fails."""
    found, unread[:size] = bytes(unread[:size]), b""
    require(len(found) == size, kind)
    return found


def number_of(encoding):
    return int.from_bytes(encoding, "little")


def take_field(unread):
    """A number of a segment table."""
    require(len(unread) >= 4, "MessageEndsPrematurely", 4, len(unread))
    return number_of(take(unread, 4))


def table_size(count):
    return 8 * (count // 2 + 1)


def segment_table(segments):
    require(0 < len(segments) < SEGMENTS_COUNT_LIMIT, "InvalidNumberOfSegments", len(segments))
    fields = [len(segments) - 1, *(len(segment) // 8 for segment in segments)]
    return b"".join(field.to_bytes(4, "little") for field in fields).ljust(table_size(len(segments)), b"\0")


def frame(segments):
    """The framed message, with a padding of zeros."""
    return segment_table(segments) + b"".join(segments)


def split(content, lengths):
    """The segments of these lengths in words."""
    content = bytearray(content)
    return [take(content, 8 * length) for length in lengths]


def read_message(unread, request=take, lenient=False, limit=WORDS_LIMIT, room=math.inf):
    """The next message of a stream, by three requests: `take` over plain bytes, `unpack` over packed ones."""
    require(room >= 8, "BufferNotLargeEnough")
    if not unread:
        raise NoMessage
    table = bytearray(request(unread, 8))
    count = (take_field(table) + 1) % 2**32
    require(0 < count < SEGMENTS_COUNT_LIMIT, "InvalidNumberOfSegments", count)
    require(room >= table_size(count), "BufferNotLargeEnough")
    table += request(unread, table_size(count) - 8)
    lengths = [take_field(table) for _ in range(count)]
    words = sum(lengths)
    require(words <= limit, "MessageTooLarge", words)
    require(lenient or not any(table), "NonZeroPadding")
    require(room >= table_size(count) + 8 * words, "BufferNotLargeEnough")
    return split(request(unread, 8 * words), lengths)


def read_flat(unread, lenient=False, limit=WORDS_LIMIT):
    """The message at the front of bytes in memory, whose table is taken in whole words."""
    require(unread, "EmptySlice")
    table = bytearray(take(unread, 8))
    count = (take_field(table) + 1) % 2**32
    require(0 < count < SEGMENTS_COUNT_LIMIT, "InvalidNumberOfSegments", count)
    table += take(unread, table_size(count) - 8)
    lengths = [take_field(table) for _ in range(count)]
    require(sum(lengths) <= limit, "MessageTooLarge", sum(lengths))
    require(lenient or not any(table), "NonZeroPadding")
    return take_segments(unread, lengths)


def read_fields(unread, lenient=False, limit=WORDS_LIMIT):
    """The message at the front of bytes in memory, whose table is taken field by field."""
    count = take_field(unread) + 1
    require(count < SEGMENTS_COUNT_LIMIT, "InvalidNumberOfSegments", count)
    lengths = [take_field(unread) for _ in range(count)]
    require(sum(lengths) <= limit, "MessageTooLarge", sum(lengths))
    require(count % 2 or take_field(unread) == 0 or lenient, "NonZeroPadding")
    return take_segments(unread, lengths)


def take_segments(unread, lengths):
    require(len(unread) >= 8 * sum(lengths), "MessageEndsPrematurely", sum(lengths), len(unread) // 8)
    return split(take(unread, 8 * sum(lengths)), lengths)


def line_of(index, segments):
    """The line of `list`: the index, how many segments there are, their words in all, and the words of each."""
    lengths = [len(segment) // 8 for segment in segments]
    return " ".join(map(str, [index, len(lengths), sum(lengths), *lengths])) + "\n"


# Packing

def pack(chunk):
    """The packing of whole words, whose runs are as long as they can be."""
    words, packed = [chunk[at:at + 8] for at in range(0, len(chunk), 8)], b""
    zeros = "".join(str(word.count(0)) for word in words)
    for run in re.finditer("8{1,256}|0[01]{0,255}|.", zeros):
        word, *others = words[run.start():run.end()]
        packed += bytes([sum(1 << bit for bit in range(8) if word[bit]), *filter(None, word)])
        packed += bytes([len(others)]) + b"".join(filter(any, others)) if word.count(0) in (0, 8) else b""
    return packed


def unpack(unread, size):
    """The chunk of this size, group by group; no run goes on past its end."""
    chunk, cut = bytearray(), "PrematureEndOfPackedInput"
    while len(chunk) < size:
        tag = take(unread, 1, cut if chunk else "FailedToFillTheWholeBuffer")[0]
        chunk += b"".join(take(unread, 1, cut) if tag >> bit & 1 else b"\0" for bit in range(8))
        if tag in (0x00, 0xff):
            run = 8 * take(unread, 1, cut)[0]
            require(run <= size - len(chunk), "PackedInputDidNotEndCleanlyOnASegmentBoundary")
            chunk += take(unread, run) if tag else bytes(run)
    return bytes(chunk)


def packed_message(segments):
    """The packed message as it is written: the table and each segment by itself."""
    return b"".join(map(pack, [segment_table(segments), *segments]))


# Pointers and objects

STRUCT, LIST, FAR, CAPABILITY = range(4)
BITS_OF_ELEMENTS = [0, 1, 8, 16, 32, 64, 64]
BYTES, POINTERS, STRUCTS = 2, 6, 7


@dataclass
class Object:
    """What a pointer points to: a struct, or a list of `count` elements of a code; of null an empty one of any kind."""
    kind: int
    segment: int = 0
    begin: int = 0  # the first word, of a list of structs that of the first element
    data: int = 0  # the data words and the pointers of the struct, or of each element of a list of structs
    pointers: int = 0
    code: int = 0
    count: int = 0
    room: int = 0  # the words of a list of structs by its pointer
    landing: tuple = ()  # the places of the landing pad's words
    counted: int = 0  # what it counts against the traversal limit
    nesting: int = 0  # the nesting depth that is left at its pointers

    def step(self):
        return self.data + self.pointers

    def size(self):
        """Its words, without those that no element of a list of structs uses."""
        if self.kind == STRUCT:
            return self.step()
        return 1 + self.count * self.step() if self.code == STRUCTS else -(-self.count * BITS_OF_ELEMENTS[self.code] // 64)

    def structs(self):
        """The first words of the struct, or of the elements."""
        return range(self.begin, self.begin + self.count * self.step(), self.step()) if self.step() else []

    def places(self):
        """The places of its pointers, in their order."""
        if self.kind == LIST and self.code == POINTERS:
            return [self.begin + index for index in range(self.count)]
        return [first + self.data + index for first in self.structs() for index in range(self.pointers)]


def offset_of(word):
    """Bits 2 to 31, signed."""
    return (word >> 2 & 2**30 - 1) - (word >> 1 & 2**30)


class Message:
    """Segments that are read, under the traversal limit and the nesting limit."""
    LANDING_PAD_BITS, TAG_COUNT = 7, 2**30 - 1

    def __init__(self, segments, limit=WORDS_LIMIT, nesting=NESTING_LIMIT):
        self.segments = segments
        self.limit, self.left, self.root = limit, limit, (0, 0, max(0, nesting))

    def has(self, segment):
        return segment < len(self.segments)

    def holds(self, found, words):
        return 0 <= found.begin <= found.begin + words <= len(self.segments[found.segment]) // 8

    def word(self, segment, index):
        require(self.has(segment), "InvalidSegmentId", segment)
        require(index < len(self.segments[segment]) // 8, "PointerOutOfBounds")
        return number_of(self.segments[segment][8 * index:8 * index + 8])

    def bytes_at(self, segment, begin, words):
        return self.segments[segment][8 * begin:8 * (begin + words)]

    def object_at(self, segment, index, nesting):
        """What the pointer at a place points to, or None of null; it isn't counted yet."""
        word = self.word(segment, index)
        if word == 0:
            return None
        landing = ()
        if word & 3 == FAR:
            segment, index = word >> 32, word >> 3 & 2**29 - 1
            landing = tuple((segment, index + more) for more in range(1 + (word >> 2 & 1)))
            word, tag = self.word(segment, index), self.word(*landing[-1])
        begin = index + 1 + offset_of(word)
        if len(landing) == 2:
            require(word & self.LANDING_PAD_BITS == FAR, "PointerOutOfBounds")
            segment, begin, word = word >> 32, word >> 3 & 2**29 - 1, tag
            require(self.has(segment), "InvalidSegmentId", segment)
        require(word & 3 != FAR, "PointerOutOfBounds")
        require(word & 3 != CAPABILITY, "CapabilityRefused")
        require(nesting > 0, "NestingLimitExceeded")
        return self.body(word, Object(word & 3, segment, begin, landing=landing, nesting=nesting - 1))

    def body(self, word, found):
        """The object that a pointer word says, at the place where it begins."""
        if found.kind == STRUCT:
            found.data, found.pointers, found.count = word >> 32 & 0xffff, word >> 48, 1
        else:
            found.code, found.count = word >> 32 & 7, word >> 35
        is_structs = found.kind == LIST and found.code == STRUCTS
        words = 1 + found.count if is_structs else found.size()
        require(self.holds(found, words), "PointerOutOfBounds")
        if is_structs:
            tag = self.word(found.segment, found.begin)
            require(tag & 3 == STRUCT, "WrongPointerKind")
            found.room, found.begin = found.count, found.begin + 1
            found.count, found.data, found.pointers = tag >> 2 & self.TAG_COUNT, tag >> 32 & 0xffff, tag >> 48
            require(found.count * found.step() <= found.room, "PointerOutOfBounds")
        no_words = found.kind == LIST and (found.step() == 0 if is_structs else found.code == 0)
        found.counted = len(found.landing) + words + (found.count if no_words else 0)
        return found

    def count(self, found):
        """Counts an object against the traversal limit."""
        self.left -= found.counted if found else 0
        require(self.left >= 0, "ReadLimitExceeded")
        return found

    def read(self, segment, index, nesting):
        return self.count(self.object_at(segment, index, nesting))


# Views of objects

def bytes_of(message, found):
    """Data: a list of bytes."""
    if not found:
        return b""
    require(found.kind == LIST and found.code == BYTES, "WrongPointerKind")
    return message.bytes_at(found.segment, found.begin, found.size())[:found.count]


def text_of(message, found):
    """Data whose last byte is zero, without it."""
    data = bytes_of(message, found)
    require(not found or data[-1:] == b"\0", "TextNotTerminated")
    return data[:-1]


def struct_of(found):
    require(not found or found.kind == STRUCT, "WrongPointerKind")
    return found or Object(STRUCT)


def field_of(message, found, bits, index, default):
    """The number of a given number of bits at an index in units of its width; past the data it is the default."""
    data = number_of(message.bytes_at(found.segment, found.begin, found.data))
    return data >> bits * index & 2**bits - 1 ^ default


CODES = {"void": 0, "bool": 1, "pointers": POINTERS, "structs": STRUCTS,
         **{kind + bits: code for kind in ("", "i", "f") for bits, code in (("8", 2), ("16", 3), ("32", 4), ("64", 5))}}


def elements_of(message, found, name, upgraded):
    """The number of elements of a list, and the one at an index: bits, a pointer word, or a struct's data and pointer words."""
    if not found:
        return 0, None
    wanted = CODES[name]
    require(found.kind == LIST, "WrongPointerKind")
    if found.code == STRUCTS and wanted != STRUCTS:
        has_first = found.pointers if wanted == POINTERS else found.data or wanted == 0
        require(upgraded and wanted != 1 and has_first, "WrongPointerKind")
    elif found.code != wanted:
        require(upgraded and wanted == STRUCTS and found.code != 1, "WrongPointerKind")

    def number_at(index):
        bits = BITS_OF_ELEMENTS[found.code]
        word = message.word(found.segment, found.begin + bits * index // 64) if bits else 0
        return word >> bits * index % 64 & 2**bits - 1

    def element_at(index):
        if found.code == STRUCTS:
            sections = sections_of(message, found, index)
            if wanted == STRUCTS:
                return sections
            return sections[1][0] if wanted == POINTERS else sections[0][0] & 2**BITS_OF_ELEMENTS[wanted] - 1 if wanted else 0
        if wanted != STRUCTS:
            return number_at(index)
        return ([], [number_at(index)]) if found.code == POINTERS else ([number_at(index)] if found.code else [], [])

    return found.count, element_at


def sections_of(message, found, element=0):
    """The data words and the pointer words of a struct, or of an element of a list of structs."""
    first = found.begin + element * found.step()
    words = [message.word(found.segment, first + index) for index in range(found.step())]
    return words[:found.data], words[found.data:]


# Trees: what a walk over all objects finds, in preorder

def walk(message, segment, index, nesting):
    """The object at a place and all below it, as a pair of the object and of the trees at its pointers; each is counted."""
    found = message.read(segment, index, nesting)
    if not found:
        return None
    return found, [walk(message, found.segment, place, found.nesting) for place in found.places()]


def size_of(tree):
    """The words of all objects, without landing pads."""
    return tree[0].size() + sum(map(size_of, tree[1])) if tree else 0


# Canonical form

def pointer_word(found, offset, data=0, pointers=0):
    """A pointer to an object at an offset; of a list of structs the count is of words."""
    if found.kind == STRUCT:
        return offset % 2**30 << 2 | data << 32 | pointers << 48
    count = found.count * (data + pointers) if found.code == STRUCTS else found.count
    return offset % 2**30 << 2 | LIST | found.code << 32 | count << 35


def trimmed_sizes(message, found):
    """The least data words and pointers that hold every word of the struct, or of the elements, that isn't zero."""
    least = [0, 0]
    for element in range(found.count if found.step() else 0):
        for side, words in enumerate(sections_of(message, found, element)):
            least[side] = max([least[side], *(index + 1 for index, word in enumerate(words) if word)])
    return least


def put(words, at, message, tree):
    """Writes a tree, trimmed: its pointer at a word that is there, its body at the end, in preorder."""
    if not tree:
        return
    (found, trees), begin = tree, len(words)
    data = pointers = 0
    if found.kind == STRUCT or found.code == STRUCTS:
        data, pointers = trimmed_sizes(message, found)
    words[at] = pointer_word(found, begin - at - 1, data, pointers)
    if found.kind == LIST and found.code < POINTERS:
        whole = number_of(message.bytes_at(found.segment, found.begin, found.size()))
        whole &= 2**(found.count * BITS_OF_ELEMENTS[found.code]) - 1
        words += [whole >> 64 * index & 2**64 - 1 for index in range(found.size())]
        return
    if found.kind == STRUCT and data + pointers == 0:
        words[at] = pointer_word(found, -1)
    if found.kind == LIST and found.code == STRUCTS:
        words.append(found.count << 2 | data << 32 | pointers << 48)
    below = []
    if found.kind == LIST and found.code == POINTERS:
        below = [(len(words) + index, tree) for index, tree in enumerate(trees)]
        words += [0] * found.count
    else:
        for element in range(found.count if data + pointers else 0):
            first = found.begin + element * found.step()
            words += [message.word(found.segment, first + index) for index in range(data)]
            some = trees[element * found.pointers:][:pointers]
            below += [(len(words) + index, tree) for index, tree in enumerate(some)]
            words += [0] * pointers
    for place, tree in below:
        put(words, place, message, tree)


def canonical_form(message):
    """The bytes of the one segment that is the canonical form of the root and all below it."""
    words = [0]
    put(words, 0, message, walk(message, *message.root))
    require(len(words) <= 2**29, "CanonicalTooLarge")
    return b"".join(word.to_bytes(8, "little") for word in words)


def is_canonical(message):
    """Whether a message is its canonical form; what comes first decides, an error or an object that isn't as there."""
    return len(message.segments) <= 1 and follow(message, 1, *message.root) == len(message.segments[0]) // 8


def follow(message, free, segment, index, nesting):
    """Where the bodies end that begin at a free word, or None where one isn't as the canonical form has it."""
    if message.word(segment, index) & 3 == FAR:
        return None
    found = message.read(segment, index, nesting)
    if not found:
        return free
    words = [0] * free
    put(words, index, message, (found, [None] * len(found.places())))
    if words[index] != message.word(segment, index):
        return None
    body = words[free:]
    for place in found.places():
        body[place - free] = message.word(segment, place)
    if body != [message.word(segment, free + index) for index in range(len(body))]:
        return None
    free += len(body)
    for place in found.places():
        free = follow(message, free, segment, place, found.nesting)
        if free is None:
            return None
    return free


# Cases, and the requests that they are

ASKED = {"framed": ["strict", "lenient"], "packed": ["strict", "lenient"], "flat": ["words", "fields", "lenient words", "lenient fields"],
         "pack": ["packed"], "unpack": ["unpacked"], "write": ["framed", "packed"], "pointer": ["null", "text", "data", "struct", "size"],
         "list": ["exact", "upgraded"], "field": ["field"], "canonical": ["test", "form"]}
DEFAULTS = {"limit": str(WORDS_LIMIT), "nesting": str(NESTING_LIMIT), "calls": "none", "buffer": "none", "at": "root"}
ARGUMENTS = {"unpack": 1, "list": 1, "field": 3}


def parse(text):
    """The segments, or chunks, of a case."""
    text = re.sub('"([^"]*)"', lambda quoted: quoted[1].encode().hex(), text)
    text = re.sub(r"(\b\w+|-)\*(\d+)", lambda run: ("|" if run[1] == "-" else "").join([run[1]] * int(run[2])), text)
    return [] if text == "none" else [bytes.fromhex(segment.replace("-", "")) for segment in text.split("|")]


def fold(text):
    """Equal words, elements or empty segments in a row once, with their number."""
    text = re.sub(r"-( \| -)+", lambda run: "-*%d" % run[0].count("-"), text)
    runs = ((token, len(list(run))) for token, run in itertools.groupby(re.findall(r"\[[^]]*\]|[^ ]+", text)))
    return " ".join(token if times == 1 else f"{token}*{times}" for token, times in runs)


def show(segments):
    return fold(" | ".join(segment.hex(" ", -8) or "-" for segment in segments))


def requests_of(lines):
    """What the last of some lines of a case asks, with the options before it: a request for each that is asked."""
    options = dict(DEFAULTS)
    for line in lines:
        word, _, text = line.partition(" ")
        if word in DEFAULTS:
            options[word] = text.replace(" ", ",")
    if word not in ASKED:
        return {}
    *arguments, text = text.split(" ", ARGUMENTS.get(word, 0))
    segments = "|".join(segment.hex() or "-" for segment in parse(text)) or "none"
    return {who: " ".join([word, who.replace(" ", "-"), *options.values(), segments, *arguments]) for who in ASKED[word]}


class Request:
    """A request that is a line: a call, who is asked, the options, the segments, and the arguments of the call."""
    def __init__(self, line):
        self.call, self.who, *options, at, segments = line.split(" ")[:8]
        self.limit, self.nesting, self.calls, self.buffer = (math.inf if word == "none" else int(word) for word in options)
        self.path = [int(index) for index in at.split(",")] if at != "root" else []
        self.segments, self.arguments = parse(segments), line.split(" ")[8:]
        self.bytes = bytearray(b"".join(self.segments))


def show_struct(sections):
    return "[%s]" % " ".join([*("%x" % word for word in sections[0]), "|", *("set" if word else "null" for word in sections[1])])


def show_number(kind, bits):
    """Hexadecimal; of `i8` and so on decimal, with a sign; of `f32` and `f64` the fewest digits that tell the float."""
    if kind[0] not in "if":
        return "%x" % bits
    encoding = bits.to_bytes(int(kind[1:]) // 8, "little")
    if kind[0] == "i":
        return str(int.from_bytes(encoding, "little", signed=True))
    form = "<f" if kind == "f32" else "<d"
    value = struct.unpack(form, encoding)[0]
    if not math.isfinite(value):
        return "NaN" if math.isnan(value) else str(value)
    texts = ("%.*g" % (digits, value) for digits in range(1, 18))
    return format(Decimal(next(text for text in texts if struct.pack(form, float(text)) == encoding)), "f")


def show_elements(kind, count, element_at):
    """The first 64 elements."""
    shown = {"structs": show_struct, "pointers": lambda word: "set" if word else "null"}.get(kind, lambda bits: show_number(kind, bits))
    texts = [shown(element_at(index)) for index in range(min(count, 64))]
    return fold(" ".join([f"list of {count}" + ":" * (count > 0), *texts, *[".."] * (count > 64)]))


def and_unread(unread):
    return f"; {len(unread)} unread" if unread else ""


def of_stream(asked):
    """The results of a reader of a stream, until it returns no message or fails."""
    given, unread, request = [], asked.bytes, unpack if asked.call == "packed" else take
    while len(given) < asked.calls:
        try:
            given.append("message " + show(read_message(unread, request, asked.who == "lenient", asked.limit, asked.buffer)))
        except NoMessage:
            given.append("end")
        except Invalid as error:
            given.append(error.result)
        given[-1] += and_unread(unread) if "error 11" not in given[-1] else ""
        if not given[-1].startswith("message") and asked.calls == math.inf:
            break
    return given


def about_bytes(asked):
    """The result of a call over bytes in memory."""
    if asked.call == "pack":
        return "bytes " + show([b"".join(map(pack, asked.segments))])
    if asked.call == "write":
        return "bytes " + show([(frame if asked.who == "framed" else packed_message)(asked.segments)])
    if asked.call == "unpack":
        return "bytes " + show([unpack(asked.bytes, int(asked.arguments[0]))]) + and_unread(asked.bytes)
    read = read_fields if asked.who.endswith("fields") else read_flat
    return "message " + show(read(asked.bytes, asked.who.startswith("lenient"), asked.limit)) + and_unread(asked.bytes)


def about_object(asked):
    """The result about an object, of a message from which nothing was read."""
    call, who, arguments = asked.call, asked.who, asked.arguments
    message = Message(asked.segments, asked.limit, asked.nesting)
    place = message.root
    if who != "test":
        message.word(*place[:2])
    for index in asked.path:
        found = struct_of(message.read(*place))
        place = (found.segment, found.begin + found.data + index, found.nesting) if index < found.pointers else None
        if not place:
            break
    if who == "null":
        return "yes" if place is None or message.word(*place[:2]) == 0 else "no"
    if who == "test":
        return "yes" if is_canonical(message) else "no"
    if who == "form":
        return "bytes " + show([canonical_form(message)])
    if who == "size":
        message.left = message.limit
        return str(size_of(walk(message, *place)) if place else 0)
    found = message.read(*place) if place else None
    if call == "list":
        return show_elements(arguments[0], *elements_of(message, found, arguments[0], who == "upgraded"))
    if call == "field":
        kind, index, default = arguments[0], int(arguments[1]), int(arguments[2], 16)
        return "number " + show_number(kind, field_of(message, struct_of(found), int(kind.lstrip("if")), index, default))
    if who == "struct":
        return "struct " + show_struct(sections_of(message, struct_of(found)))
    return "bytes " + show([text_of(message, found) if who == "text" else bytes_of(message, found)])


def results(request):
    """The results of a request."""
    asked = Request(request)
    if asked.call in ("framed", "packed"):
        return of_stream(asked)
    whole = bytes(asked.bytes) if asked.call == "flat" else b""
    try:
        return [(about_bytes if asked.call in ("flat", "pack", "unpack", "write") else about_object)(asked)]
    except Invalid as error:
        return [error.result + and_unread(whole)]


def copied(text, results_of=lambda requests: map(results, requests)):
    """The lines of cases, with what is found in the place of each result."""
    asked, case = [], []
    for line in filter(lambda line: not line.startswith(">"), text.splitlines()):
        case = [*([] if line.startswith("case ") else case), line]
        asked.append((line, requests_of(case)))
    given = iter(results_of([request for _, requests in asked for request in requests.values()]))
    for line, requests in asked:
        yield line
        found = {who: tuple(next(given, ())) for who in requests}
        for some in dict.fromkeys(found.values()):
            names = [who for who in found if found[who] == some]
            yield from (f"> {result}" if len(names) == len(found) else f"> {', '.join(names)}: {result}" for result in some)


if __name__ == "__main__":
    print(*copied("".join(fileinput.input())), sep="\n")
