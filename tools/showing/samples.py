"""Messages that capnp_show is run over, as segments of bytes, and framed."""
import random

from nodes import messages_of
from model import frame


def words(*numbers):
    return b"".join(number.to_bytes(8, "little") for number in numbers)


def struct_pointer(at, start, data, pointers):
    """A pointer at one word of a segment to a struct that begins at another."""
    return pointers << 48 | data << 32 | (start - at - 1) % (1 << 30) << 2


def list_pointer(at, start, code, elements):
    """A pointer at one word of a segment to a list that begins at another; of structs their words are counted."""
    return elements << 35 | code << 32 | (start - at - 1) % (1 << 30) << 2 | 1


def text_of(text):
    """A message that is a text."""
    kept = text.encode() + b"\0"
    return [words(list_pointer(0, 1, 2, len(kept))) + kept + bytes(-len(kept) % 8)]


def nested(depth, last, *rest):
    """The first segment of a message whose pointer at word and depth `depth` is the last one before `rest`."""
    return words(*(struct_pointer(at, at + 1, 0, 1) for at in range(depth)), last, *rest)


def zeros(count):
    """A framed message of one segment, of a given number of words that are zero."""
    return frame([bytes(8 * count)])


HELLO = text_of("Hello, World!")
ESCAPES = text_of('a"\\\n\x1b\x7f\u0085\u00e9')
FAR = [words(1 << 48, 0x1_00000002), words(0x1A_00000001) + b"hi\0\0\0\0\0\0"]
WIDE = [words(1 << 48, 0x2_00000006), words(0) + b"hi\0\0\0\0\0\0", words(0x1_0000000A, 0x1A_00000001)]
STRUCTS = [words(0x27_00000001, 0x10001_00000008, 7, 0, 8, 0x12_00000001) + b"a\0\0\0\0\0\0\0"]
# a list of one struct, whose pointer is a capability
ONE_STRUCT = [words(0x17_00000001, 0x1_0001_00000004, 7, 3)]
# a struct whose pointer points to the struct that it is in
CYCLE = [words(1 << 48, 1 << 48 | 0xFFFFFFFC)]
INVALID = [words(6 << 48, 0x80001, 3, 0x9_00000002, 0x40_00000FA1, 0x15_FFFFFF01, 0x1_00000000)]
# structs of two pointers to the next one: 2^40 - 1 of them as a tree
DOUBLINGS = [words(2 << 48, *(39 * [2 << 48 | 4, 2 << 48]), 0, 0)]
# a struct of two pointers to one text
SHARED = [words(2 << 48, 0x1A_00000005, 0x1A_00000001) + b"hi\0\0\0\0\0\0"]
# lists of no words at the end of their segment, of 5 elements and of 2^29 - 1
VOIDS, MOST_VOIDS = [words(0x28_00000001)], [words(0xFFFFFFF8_00000001)]
MESSAGES = [HELLO, FAR, WIDE, STRUCTS, ONE_STRUCT, CYCLE, INVALID, [bytes(8)], [b""], [words(0x0C_00000001, 5), b"", bytes(16)], SHARED, VOIDS, MOST_VOIDS]

# How a page begins and ends.
FRONT = """<!DOCTYPE html>
<html lang="en">
<head>
<meta charset="utf-8">
<meta name="viewport" content="width=device-width">
<title>capnp_show</title>
<style>
"""
END = "</body>\n</html>\n"
# The drawing of FAR, and the list of its objects.
FAR_SECTION = """<section class="message" id="m0-0">
<h2>message 0: offset 0, bytes 48, segments 2, words 4</h2>
<div class="drawing">
<div style="height: 88px">
<h3>segment 0, words 2</h3>
<table class="segment">
<tr><th>0</th><td id="m0-0-0-0" class="pointer root" title="word 0:0, the root pointer, to object 0">\
<a href="#m0-0-0-1">0000000000000100\
<svg><path class="c0" d="M216 61H254m-5 -3l5 3l-5 3"/></svg></a></td>\
<td id="m0-0-0-1" class="pointer o0 c0" title="word 0:1, pointer of object 0, to object 1">\
<a href="#m0-0-1-1">0200000001000000\
<svg><path class="c1" d="M388 61H395V130H247V149H254m-5 -3l5 3l-5 3"/></svg></a></td></tr>
</table>
</div>
<div style="height: 88px">
<h3>segment 1, words 2</h3>
<table class="segment">
<tr><th>0</th><td id="m0-0-1-0" class="landing o1 c1" title="word 1:0, landing pad of object 1">\
010000001a000000</td><td id="m0-0-1-1" class="data o1 c1" title="word 1:1, data of object 1">\
6869000000000000</td></tr>
</table>
</div>
</div>
<ol class="objects" start="0">
<li class="o0 c0">root: struct, data 0, pointers 1, at 0:1</li>
<li class="o1 c1">pointer 0: list, element byte, count 3, at 1:1, landing pad 1:0, words 1, text &quot;hi&quot;</li>
</ol>
</section>
"""


def listed(messages):
    """The framed bytes of messages in a row, and what is listed of each."""
    content = b"".join(map(frame, messages))
    return content, [row for row, _ in messages_of(content)[0]]


def random_messages(count):
    """Messages of random words that are often pointers."""
    source = random.Random(7)
    for _ in range(count):
        sizes = [source.randrange(1, 12) for _ in range(source.randrange(1, 4))]
        yield [words(*(random_word(source, sizes) for _ in range(size))) for size in sizes]


def random_word(source, sizes):
    if source.randrange(6) == 0:
        return source.getrandbits(64)
    kind = source.choice([0, 0, 1, 1, 1, 2])
    offset = source.randrange(-3, 8) % (1 << 30)
    if kind == 2:
        return source.randrange(len(sizes) + 1) << 32 | source.randrange(12) << 3 | source.randrange(4) // 3 << 2 | 2
    if kind == 0:
        return source.randrange(3) << 48 | source.randrange(3) << 32 | offset << 2
    return source.randrange(20) << 35 | source.randrange(8) << 32 | offset << 2 | 1
