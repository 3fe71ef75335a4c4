"""The messages that are timed, framed: those of messages.capnp, trees of many objects, and streams of small messages."""
import struct

NAMES = [
    b"Ann", b"Boris Vian", b"Clara Schumann", b"Dmitri Shostakovich", b"Eleanor of Aquitaine",
    b"Fyodor Mikhailovich Dostoevsky", b"Grace Hopper", b"Henri",
]
# How many elements there are of each of messages.capnp.
COUNTS = {"accounts": 190000, "records": 97500, "names": 307000, "company": 1100}
FAR = 2


# A value is a pair of its kind and its content: of a struct its data words and the values at its pointers, None of null.

def name(index):
    return "text", NAMES[index % len(NAMES)]


def account(index):
    return [index, index * 7919], [name(index)]


def record(index):
    samples = [(index % 64 + at) * 40503 % 2 ** 32 for at in range(10)]
    return [index], [("numbers", samples), name(index)]


def member(index):
    return [index, index * 7919], [name(index), ("struct", ([index % 100], [name(index + 3)]))]


def team(index):
    return [index], [name(index + 1), ("structs", [member(index * 8 + at) for at in range(8)])]


def department(index):
    return [index], [name(index + 2), ("structs", [team(index * 10 + at) for at in range(10)])]


def root_of(shape):
    """The root of a message of messages.capnp."""
    if shape == "names":
        return "struct", ([], [("pointers", [name(index) for index in range(COUNTS[shape])])])
    element = {"accounts": account, "records": record, "company": department}[shape]
    elements = "structs", [element(index) for index in range(COUNTS[shape])]
    return "struct", ([7], [name(0), elements]) if shape == "company" else ([], [elements])


def texts(words, text_words):
    """A list of structs of two numbers and a text of a number of words."""
    text = "text", b"x" * (8 * text_words - 4)
    return "struct", ([], [("structs", [([index * 7919, index % 5], [text]) for index in range(words // (3 + text_words))])])


def structs(words, data, *pointers):
    """A list of pointers to structs of a number of numbers, each with these values at its pointers."""
    each = 1 + data + len(pointers) + sum(value is not None for value in pointers)
    count = words // (each if data else 1)
    return "pointers", [("struct", ([index + 1] * data, list(pointers))) for index in range(count)]


def tree(words):
    """A binary tree of structs of a number and two pointers, as deep as there is room for."""
    def node(below):
        return "struct", ([below + 1], [node(below - 1), node(below - 1)] if below else [None, None])

    return node((words // 3).bit_length() - 2)


def object_words(kind, content):
    """An object's own words, its pointers' places among these with their values, and its pointer word without an offset."""
    if kind == "text":
        padded = content + bytes(8 - len(content) % 8)
        return list(struct.unpack("<%dQ" % (len(padded) // 8), padded)), [], 1 | 2 << 32 | (len(content) + 1) << 35
    if kind == "numbers":
        padded = content + [0] * (len(content) % 2)
        words = [low | high << 32 for low, high in zip(padded[::2], padded[1::2])]
        return words, [], 1 | 4 << 32 | len(content) << 35
    if kind == "pointers":
        return [0] * len(content), list(enumerate(content)), 1 | 6 << 32 | len(content) << 35
    elements = [content] if kind == "struct" else content
    data, pointers = len(elements[0][0]), len(elements[0][1])
    words, below = [] if kind == "struct" else [len(elements) << 2 | data << 32 | pointers << 48], []
    for numbers, values in elements:
        below += [(len(words) + data + at, value) for at, value in enumerate(values) if value]
        words += numbers + [0] * pointers
    word = data << 32 | pointers << 48 if kind == "struct" else 1 | 7 << 32 | len(elements) * (data + pointers) << 35
    return words, below, word


def place(words, pointer, value):
    """Writes objects in preorder, each after its pointer; one of no words has the offset -1."""
    own, below, word = object_words(*value)
    begin = len(words)
    words[pointer] = word | ((begin - pointer - 1) % 2 ** 30 if own else 2 ** 30 - 1) << 2
    words.extend(own)
    for at, child in below:
        place(words, begin + at, child)


def framed(*segments):
    table = struct.pack("<%dI" % (1 + len(segments)), len(segments) - 1, *map(len, segments))
    return table + bytes(-len(table) % 8) + b"".join(struct.pack("<%dQ" % len(words), *words) for words in segments)


def message(root):
    words = [0]
    place(words, 0, root)
    return framed(words)


def small(count):
    """A stream of structs of a number and a text."""
    return b"".join(message(("struct", ([index + 1], [name(index)]))) for index in range(count))


def far(count=65535):
    """A struct of far pointers into segments 1 to 7 in turn: each has landing pads, each before its struct of one word. There are 511
    segments, of which the others have a word each."""
    segments = [[count << 48]] + [[] for _ in range(7)] + [[0] for _ in range(503)]
    for index in range(count):
        target = segments[1 + index % 7]
        segments[0].append(FAR | len(target) << 3 | (1 + index % 7) << 32)
        target += [1 << 32, index]
    return framed(*segments)
