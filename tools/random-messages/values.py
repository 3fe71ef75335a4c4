"""Random values of a schema's types, as text and as the description that the program reads.

A struct is a list of steps: a member and what it is set to, which of a group or a union are steps again, or how it is selected. NULL
is a pointer that is set to null, or not at all; a list is a list, a text is a `str`, data are `bytes`."""
import struct

from schemas import FLOATS, SIGNED, UNSIGNED, Field, Group, fields, shown_number, some_number

NULL = object()
FRAMED = 2  # a message that is read; one that is built is 0 (in memory that grows) or 1 (in a region)
LETTERS = "abc XYZ\0\n\"'\\\x7f\u00e9\u4e2d\U0001f600"
CODES = {8: "B", 16: "H", 32: "I", 64: "Q"}


def is_pointer(kind):
    return kind[0] not in ("number", "enum")


def has_setter(around, field):
    """A field that is nothing has a setter within a union alone, and one of an interface has none."""
    if field.kind[0] == "interface":
        return False
    return field.kind != ("number", "Void") or any(part.is_union for part in around)


def setters(made):
    """The fields that can be set, each with the groups around it."""
    return [(around, field) for around, field in fields(made.members) if has_setter(around, field)]


def groups_of(members):
    """All groups."""
    for member in members:
        if isinstance(member, Group):
            yield member
            yield from groups_of(member.members)


def groups(members, around=(), in_union=False):
    """The groups that are members of unions, each with the groups around it: these can be selected."""
    for member in members:
        if isinstance(member, Group):
            if in_union:
                yield around, member
            yield from groups(member.members, [*around, member], member.is_union)


class Made(list):
    """The steps of a struct. It is built in one go, or (`way`) some calls are made on a builder that is written, read
    as it is (1) or as its canonical form (2), and made a builder again, on which the others are made. The first
    builder may have other values in fields that are set later (`replaced`)."""
    way, first, replaced = 0, 0, ()


# How a group is selected: by a call that clears it, or by a setter of one of its fields, where the C++ library selects it only by
# a call.
SELECTED, IMPLIED = 0, 128


class Values:
    """Of structs a subclass says how they are made (`struct`)."""

    def __init__(self, chance):
        self.chance, self.left = chance, 0

    def root(self, made):
        self.left = self.chance.choice([100, 300, 300, 3000])  # about how many values a message has
        return self.struct(made, self.chance.randrange(6))

    def null_or(self, kind, depth):
        if kind[0] == "interface":
            return NULL
        if is_pointer(kind) and (self.left < 0 or self.chance.random() < 0.1 or depth == 0 and kind[0] == "struct"):
            return NULL
        return self.value(kind, depth)

    def value(self, kind, depth):
        self.left -= 1
        form, of = kind
        if form == "number":
            return None if of == "Void" else some_number(self.chance, of)
        if form == "enum":
            return self.chance.choice(of.names)
        if form == "text":
            return "".join(self.chance.choice(LETTERS) for _ in range(self.length(30)))
        if form == "data":
            return bytes(self.chance.randrange(256) for _ in range(self.length(40)))
        if form == "struct":
            return self.struct(of, depth - 1) if depth > 0 else Made()
        return self.list(of, depth) if form == "list" else self.value(of, depth)

    def length(self, most):
        return self.chance.choice([0, 1, 7, 8, most, self.chance.randrange(1, 900)])

    def list(self, of, depth):
        if not is_pointer(of):
            return [self.value(of, depth) for _ in range(self.chance.choice([0, 1, 3, 17, 70]))]
        most = 0 if self.left < 0 or depth <= 0 else 5
        return [self.value(of, depth - 1) for _ in range(self.chance.randrange(most + 1))]


def text_of(kind, value):
    """A value as the text format has it."""
    form, of = kind
    if form == "list":
        return "[%s]" % ", ".join(text_of(of, item) for item in value)
    if form == "struct":
        return "(%s)" % steps_text(value)
    if form == "text":
        escaped = ("\\x%02x" % ord(letter) if letter < " " or letter in "\"\\\x7f" else letter for letter in value)
        return '"%s"' % "".join(escaped)
    if form == "data":
        return '"%s"' % "".join("\\x%02x" % byte for byte in value)
    return "void" if value is None else value if form == "enum" else shown_number(value)


def steps_text(steps):
    parts = []
    for member, value in steps:
        if isinstance(member, Field):
            parts += [] if value is NULL else ["%s = %s" % (member.name, text_of(member.kind, value))]
        elif member.name:
            parts.append("%s = (%s)" % (member.name, steps_text(value)))
        else:
            parts += [text for text in [steps_text(value)] if text]
    return ", ".join(parts)


def bytes_of(kind, value):
    """A value as the program reads it."""
    form, of = kind
    if form in ("any", "parameter"):
        return bytes_of(of, value)
    if form == "list":
        return struct.pack("<I", len(value)) + b"".join(bytes_of(of, item) for item in value)
    if form == "struct":
        return struct_bytes(of, value)
    if form in ("text", "data"):
        value = value.encode() if form == "text" else value
        return struct.pack("<I", len(value)) + value
    if form == "enum":
        return struct.pack("<H", of.names.index(value))
    return number_bytes(of, value)


def number_bytes(name, value):
    if name == "Void":
        return b""
    if name in FLOATS:
        return struct.pack("<" + FLOATS[name], value)
    width = 8 if name == "Bool" else UNSIGNED.get(name) or SIGNED[name]
    return struct.pack("<" + CODES[width], int(value) % 2**width)


def struct_bytes(made, steps):
    """The builder from which it goes on, and the calls on that."""
    numbers = call_numbers(made)
    if not steps.way:
        return b"\0" + calls_bytes(numbers, steps)
    before = b"\0" + calls_bytes(numbers, [*steps.replaced, *steps[:steps.first]])
    return bytes([steps.way]) + before + calls_bytes(numbers, steps[steps.first:])


def call_numbers(made):
    """The numbers of a builder's calls: those that set fields, and those that select groups."""
    members = [member for _, member in [*setters(made), *groups(made.members)]]
    return {member: number for number, member in enumerate(members)}


def calls_bytes(numbers, calls):
    """How many calls there are, and of each its number and what it takes."""
    return struct.pack("<H", len(calls)) + b"".join(call_bytes(numbers[member], member, value) for member, value in calls)


def call_bytes(number, member, value):
    if isinstance(member, Group):
        return bytes([number | value])
    if not is_pointer(member.kind):
        return bytes([number]) + bytes_of(member.kind, value)
    return bytes([number]) + (b"\0" if value is NULL else b"\1" + bytes_of(member.kind, value))
