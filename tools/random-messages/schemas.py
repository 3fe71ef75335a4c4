"""Schemas: structs with fields of every type, groups and unions, structs within structs, and enums.

A type is a pair of what it is and of what it is of:

    ("number", "UInt16")    also Bool and Void
    ("enum", Enum)
    ("text", None), ("data", None)
    ("list", type)
    ("struct", Struct)
    ("any", type)           any pointer, which points to an object of that type
    ("parameter", type)     the parameter of its struct, which stands for that type wherever the struct is used
    ("interface", None)     no such field is ever set

Where the C++ tool prints what the types print it is given any pointers in the place of parameters (OPAQUE). So has a program in C++,
and names of its own (PEER), since any name may be a word of C++, or of the code that the C++ tool writes."""
import math
import re
import struct

# Width in bits, of integers with their sign.
UNSIGNED = {"UInt8": 8, "UInt16": 16, "UInt32": 32, "UInt64": 64}
SIGNED = {"Int8": 8, "Int16": 16, "Int32": 32, "Int64": 64}
FLOATS = {"Float32": "f", "Float64": "d"}
OPAQUE, PEER = "opaque", "peer"
NUMBERS = ["Bool", *UNSIGNED, *SIGNED, *FLOATS]


# What each struct and field says of itself: the ends and beginnings of comments, and signs of text, of C and of Rattle.
COMMENT = r' # */ ends, /* begins, // too: "@name@" \ {}'


class Field:
    """A field; `default` is its value, or None, and `default_text` that as the schema has it."""

    def __init__(self, name, kind):
        self.name, self.kind, self.number = name, kind, None
        self.default, self.default_text = None, ""

    def peer(self):
        return "field%d" % self.number


class Group:
    """A group, or a union: one without a name is right in its struct or group."""

    def __init__(self, name, is_union, members):
        self.name, self.is_union, self.members, self.number = name, is_union, members, None

    def peer(self):
        return "group%d" % self.number


class Enum:
    def __init__(self, name, names, scope, number):
        self.name, self.names, self.scope, self.number = name, names, scope, number

    def peer(self):
        return "Enum%d" % self.number


class Struct:
    """A struct, with the structs around it and what its parameter stands for, if it has one; `modules` are the
    names of groups, and of what is declared in it."""

    def __init__(self, name, scope, parameter, number):
        self.name, self.scope, self.parameter, self.modules, self.number = name, scope, parameter, set(), number
        self.members, self.structs, self.enums, self.constants = [], [], [], []

    def peer(self):
        return "Struct%d" % self.number

    def path(self):
        """Its name, after those of the structs around it."""
        return ".".join(part.name for part in [*self.scope, self])


class Constant:
    """A constant, with the structs around it, and its value as the schema has it."""

    def __init__(self, name, scope, kind, text, number):
        self.name, self.scope, self.kind, self.text, self.number = name, scope, kind, text, number

    def peer(self):
        return "constant%d" % self.number

    def is_wrapped(self):
        """Whether it is a float for which the C++ tool 0.9.2 writes no code that can be compiled, or a `-0`, which is
        the integer 0 in C++."""
        return self.kind[1] in FLOATS and self.text in ("nan", "inf", "-inf", "-0.0")


def snake(name):
    return re.sub(r"(?<!^)([A-Z])", r"_\1", name).lower()


def capital(name):
    return name[0].upper() + name[1:]


def fields(members):
    """Fields in the order in which they stand, each with the groups around it."""
    for member in members:
        if isinstance(member, Field):
            yield [], member
        else:
            for around, field in fields(member.members):
                yield [member, *around], field


def setter(around, field):
    """The end of the name of a field's setter."""
    return "_".join(snake(part.name) for part in [*around, field] if part.name)


def some_float(chance, code):
    """A number of this format, among them zeros of both signs, infinite, tiny and large ones."""
    least, most = {"f": (2.0**-149, 3.4028234663852886e38), "d": (5e-324, 1.7976931348623157e308)}[code]
    number = chance.choice([0.0, -0.0, 1.0, math.inf, -math.inf, math.nan, least, -most, chance.uniform(-9, 9),
                            chance.uniform(-1, 1) * 10**chance.randrange(-30, 30)])
    return struct.unpack("<" + code, struct.pack("<" + code, number))[0]


def some_number(chance, name):
    if name == "Bool":
        return chance.random() < 0.5
    if name in FLOATS:
        return some_float(chance, FLOATS[name])
    width = UNSIGNED.get(name) or SIGNED[name]
    least = 0 if name in UNSIGNED else -2**(width - 1)
    return chance.choice([0, 1, least, least + 2**width - 1, least + chance.randrange(2**width)])


def shown_number(number):
    """A number as schemas and the text format have it."""
    if isinstance(number, bool):
        return str(number).lower()
    if isinstance(number, float):
        return repr(number).replace("e+", "e")
    return str(number)


class Schema:
    def __init__(self, identity, outer, structs, enums, constants):
        self.identity, self.outer, self.structs, self.enums = identity, outer, structs, enums
        self.constants = constants

    def text(self, mode, index=0):
        """The schema, if OPAQUE or PEER with any pointers in the place of parameters; if PEER, of this index, in a namespace with it."""
        lines = ["@0x%016x;" % self.identity, "interface Called {}"]
        if mode == PEER:
            lines += ['using Cxx = import "/capnp/c++.capnp";', '$Cxx.namespace("schema%d");' % index]
            lines += ["struct Wrapped%s { value @0 : %s; }" % (name, name) for name in FLOATS]
        lines += [enum_text(made, mode) for made in self.enums if not made.scope]
        for made in self.outer:
            lines += struct_lines(made, mode)
        lines += [constant_text(made, mode) for made in self.constants if mode == PEER or not made.scope]
        return "\n".join(lines) + "\n"


def name_in(made, mode):
    return made.peer() if mode == PEER else made.name


def renamed(made, mode):
    """What says that C++ has another name."""
    return ' $Cxx.name("%s")' % made.peer() if mode == PEER else ""


def enum_text(made, mode):
    names = ["%s @%d%s;" % (name, number, ' $Cxx.name("name%d")' % number * (mode == PEER))
             for number, name in enumerate(made.names)]
    return "enum %s { %s }" % (name_in(made, mode), " ".join(names))


def constant_text(made, mode):
    if mode == PEER and made.is_wrapped():
        return "const %s : .Wrapped%s = (value = %s);" % (made.peer(), made.kind[1], made.text)
    return "const %s : %s = %s;" % (name_in(made, mode), kind_text(made.kind, mode), made.text)


def struct_lines(made, mode):
    inner = [enum_text(enum, mode) for enum in made.enums]
    inner += [constant_text(constant, mode) for constant in made.constants if mode != PEER]
    for nested in made.structs:
        inner += struct_lines(nested, mode)
    inner += member_lines(made.members, mode)
    parameter = "(Parameter)" if made.parameter and mode is True else ""
    return ["struct %s%s {%s" % (name_in(made, mode), parameter, COMMENT), *("  " + line for line in inner), "}"]


def member_lines(members, mode):
    for member in members:
        if isinstance(member, Field):
            default = member.default_text and " = " + member.default_text
            yield "%s @%d : %s%s%s;%s" % (member.name, member.number, kind_text(member.kind, mode), default,
                                          renamed(member, mode), COMMENT)
            continue
        kind = "union" if member.is_union else "group"
        yield "%s {" % (member.name and "%s :%s%s" % (member.name, kind, renamed(member, mode)) or kind)
        yield from ("  " + line for line in member_lines(member.members, mode))
        yield "}"


def kind_text(kind, mode):
    form, of = kind
    if form in ("struct", "enum"):
        return "".join("." + applied(part, mode) for part in [*of.scope, of])
    if form == "list":
        return "List(%s)" % kind_text(of, mode)
    if form in ("any", "parameter"):
        is_parameter = form == "parameter" and mode is True
        return "Parameter" if is_parameter else "AnyPointer"
    return {"number": of, "text": "Text", "data": "Data", "interface": ".Called"}[form]


def applied(part, mode):
    """The name of a struct or an enum, a struct with what its parameter stands for."""
    parameter = getattr(part, "parameter", None)
    name = name_in(part, mode)
    return "%s(%s)" % (name, kind_text(parameter, mode)) if parameter and mode is True else name
