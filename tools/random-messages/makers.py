"""Makes random schemas."""
import math
import string

from literals import Literals
from schemas import (FLOATS, NUMBERS, SIGNED, UNSIGNED, Constant, Enum, Field, Group, Schema, Struct, fields, setter,
                     snake)
from values import Made, groups_of, is_pointer, text_of

# Beside plain names: words of the language, of clauses, and names that the module of a struct has.
FIELD_NAMES = """type struct match self fn in new add addRoot addList draft words pointers fields which value
objects result data text list box where ghost requires ensures record elim let length map nothing field super
crate mod pub use enum impl trait async await dyn move ref static true false loop while yield try macro old now
reader builder owned orphan union group void bool id unknown""".split()
STRUCT_NAMES = """Type Struct Match Self Fn Box Owned Reader Builder Result Which Option Some Ok Vec String Orphan
Orphanage ListReader OwnedList Draft StructDraft Super Crate Std Prim Upgraded AnyPointerReader Global""".split()
ENUM_NAMES = "Type Result Option Some Owned Builder Which Copy Debug T Orphan".split()
ENUMERANTS = "self none below notInSchema some ok type red green deepBlue newOne struct".split()
# Constants that each schema has: the ends of what numbers can be, zero bytes.
EDGES = [
    *((("number", name), text) for name in FLOATS for text in ("nan", "inf", "-inf", "-0.0", "0.1")),
    *((("number", name), str(-2**(width - 1))) for name, width in SIGNED.items()),
    *((("number", name), str(2**width - 1)) for name, width in UNSIGNED.items()),
    (("number", "Bool"), "true"), (("number", "Void"), "void"),
    (("text", None), '"a\\x00b\\n\\"c\\""'), (("text", None), '""'),
    (("data", None), '0x"61 00 62 ff 00"'), (("data", None), '""'),
    (("list", ("list", ("number", "Int8"))), "[[1, -1], [], [-128]]"), (("list", ("text", None)), '["", "a\\x00"]')]


def field_of(name, kind, default=None):
    field = Field(name, kind)
    if default is not None:
        field.default, field.default_text = default, text_of(kind, default)
    return field


def edges(number):
    """A struct of what random ones seldom have: each default that a float prints in a word, data with a default in a
    union, unions and groups in one another, and a default that sets a pointer."""
    made = Struct("Edges", [], None, number)
    text, data = ("text", None), ("data", None)
    floats = [field_of("%s%d" % (name.lower(), index), ("number", name), default) for name in FLOATS
              for index, default in enumerate((math.nan, math.inf, -math.inf, -0.0))]
    label = field_of("label", text)
    rest = Group("rest", False, [field_of("last", ("number", "UInt16")), field_of("more", data)])
    both = Group("both", False, [field_of("left", ("number", "Int32"), -1), field_of("right", text, "none"), rest])
    inner = Group("inner", True, [field_of("small", ("number", "UInt8")), both])
    outer = Group("outer", True, [field_of("middle", ("number", "UInt32")), inner])
    union = Group("", True, [field_of("number", ("number", "UInt64")), field_of("payload", data, b"a\0b"), outer])
    made.members = [*floats, label, field_of("numbers", ("list", ("number", "Int8"))),
                    field_of("place", ("struct", made), Made([(label, "none")])), union]
    number_members(made, lambda numbered: None)
    return made


def widths(number, many):
    """A struct of unions in one another, whose groups have fields of every width, and of an enum with many enumerants. In
    most other orders the C++ tool rejects them (its issue 344)."""
    made = Struct("Widths", [], None, number)
    pointers = [("text", None), ("struct", made), ("list", ("list", ("list", ("number", "UInt16"))))]

    def members(name, numbers, others=()):
        return [field_of("%s%d" % (name, index), kind)
                for index, kind in enumerate([*(("number", number) for number in numbers.split()), *others])]
    rest = Group("rest", False, members("last", "UInt16 Bool UInt64 Int64 Float64", pointers))
    both = Group("both", False, [*members("left", "Int32"), rest])
    every = Group("every", False, members("more", "Bool UInt8 UInt16 Float32 UInt64", [("enum", many)]))
    inner = Group("inner", True, [*members("small", "UInt8"), both, every])
    outer = Group("outer", True, [*members("middle", "UInt32"), inner])
    made.members = [Group("", True, [*members("large", "UInt64", [("data", None)]), outer]),
                    field_of("choice", ("enum", many), many.names[-2])]
    number_members(made, lambda numbered: None)
    return made


def number_members(made, shuffle):
    """Numbers the fields in some order, and the groups."""
    numbered = [field for _, field in fields(made.members)]
    shuffle(numbered)
    for index, field in enumerate(numbered):
        field.number = index
    for index, group in enumerate(groups_of(made.members)):
        group.number = index


class Maker:
    """Makes one schema; with `many` it has what random ones seldom have, and an enum of that many enumerants. Of the struct
    that is made it has the names of fields and groups, of modules, and of setters, and how many fields are left to be
    made."""

    def __init__(self, chance, has_constants=False, has_long_names=False, many=0):
        self.chance, self.count = chance, 0
        self.has_constants, self.has_long_names, self.many = has_constants, has_long_names, many
        self.structs, self.enums, self.constants = [], [], []

    def schema(self):
        modules = {"edges", "widths", "many"}
        self.enum([], modules)
        outer = [self.struct([], modules) for _ in range(self.chance.randrange(1, 4))]
        for made in self.structs:
            self.fill(made)
        for made in self.structs:
            for _, field in fields(made.members):
                self.add_default(field)
        if self.many:
            self.enums.append(Enum("Many", ["many%d" % number for number in range(self.many)], [], len(self.enums)))
            for made in (edges(len(self.structs)), widths(len(self.structs) + 1, self.enums[-1])):
                outer.append(made)
                self.structs.append(made)
            self.add_constant([], ("list", ("number", "UInt64")), str([2**64 - 1 - number for number in range(600)]))
        if self.has_constants:
            self.add_constants()
        return Schema(2**63 + self.chance.randrange(2**63), outer, self.structs, self.enums, self.constants)

    def name(self, special, plain, *taken, key=snake):
        """A name that is in none of some sets, and then in all."""
        while True:
            self.count += 1
            name = self.chance.choice(special) if self.chance.random() < 0.3 else self.plain_name(plain)
            if all(key(name) not in names for names in taken):
                for names in taken:
                    names.add(key(name))
                return name

    def plain_name(self, plain):
        """A name of one to sixty letters, or one that ends with a number."""
        if not self.has_long_names:
            return "%s%d" % (plain, self.count)
        first = string.ascii_uppercase if plain[0].isupper() else string.ascii_lowercase
        letters = string.ascii_lowercase * 4 + string.ascii_uppercase
        length = self.chance.randrange(self.chance.choice([4, 20, 60]))
        return self.chance.choice(first) + "".join(self.chance.choice(letters) for _ in range(length))

    def struct(self, scope, modules):
        parameter = self.pointer(1, []) if self.chance.random() < 0.15 else None
        made = Struct(self.name(STRUCT_NAMES, "Struct", modules), scope, parameter, len(self.structs))
        self.structs.append(made)
        while len(scope) < 2 and self.chance.random() < 0.25:
            made.structs.append(self.struct([*scope, made], made.modules))
        if self.chance.random() < 0.2:
            made.enums.append(self.enum([*scope, made], made.modules))
        return made

    def enum(self, scope, modules):
        taken = set()
        names = [self.name(ENUMERANTS, "name", taken, key=str.lower) for _ in range(self.chance.randrange(1, 9))]
        self.enums.append(Enum(self.name(ENUM_NAMES, "Enum", modules), names, scope, len(self.enums)))
        return self.enums[-1]

    def fill(self, made):
        """Makes the members of a struct, whose fields are numbered in any order."""
        self.names, self.modules, self.setters = set(), made.modules, set()
        self.parameter = made.parameter
        self.left = self.chance.choice([1, 4, 8, 8, 12, 20, 40])
        made.members = self.members([], False, self.left)
        number_members(made, self.chance.shuffle)

    def members(self, around, in_union, count):
        """Fields, groups and unions, of which one may have no name."""
        members, has_union = [], in_union
        while len(members) < count and (self.left > 0 or len(members) < 2):
            odds = self.chance.random()
            if odds < 0.8 or len(around) > 2 or self.left < 3:
                members.append(self.field(around, in_union))
                continue
            is_union, is_named = odds < 0.93, has_union or odds > 0.87
            has_union = has_union or not is_named
            group = self.group(around, is_union) if is_named else Group("", is_union, [])
            group.members = self.members([*around, group], is_union, self.chance.randrange(2, 6))
            members.append(group)
        return members

    def group(self, around, is_union):
        while True:
            group = Group(self.name(FIELD_NAMES, "group", self.names, self.modules), is_union, [])
            if setter(around, group) not in self.setters:
                self.setters.add(setter(around, group))
                return group

    def field(self, around, in_union):
        self.left -= 1
        kind = self.kind(in_union)
        while True:
            field = Field(self.name(FIELD_NAMES, "field", self.names), kind)
            if setter(around, field) not in self.setters:
                self.setters.add(setter(around, field))
                return field

    def kind(self, in_union):
        odds = self.chance.random()
        if odds < 0.45:
            return "number", self.chance.choice(NUMBERS)
        if odds < 0.52:
            return "enum", self.chance.choice(self.enums)
        if odds < (0.56 if in_union else 0.53):
            return "number", "Void"
        if odds < 0.6:
            return "any", self.pointer(0, self.structs)
        if odds < 0.61:
            return "interface", None
        if self.parameter and odds < 0.8:
            return "parameter", self.parameter
        return self.pointer(0, self.structs)

    def pointer(self, depth, structs):
        """A type of pointers, over some structs."""
        odds = self.chance.random()
        if odds < 0.2:
            return "text", None
        if odds < 0.35:
            return "data", None
        if odds < 0.55 and depth == 0:
            return "struct", self.chance.choice(structs)
        return "list", self.element(depth + 1, structs)

    def element(self, depth, structs):
        odds = self.chance.random()
        if odds < 0.4:
            return "number", self.chance.choice([*NUMBERS, "Void"])
        if odds < 0.45:
            return "enum", self.chance.choice(self.enums)
        if odds < 0.65 and structs:
            return "struct", self.chance.choice(structs)
        return self.pointer(depth, structs) if depth < 3 else ("text", None)

    def add_default(self, field):
        """Gives a field a default, or none."""
        kind = field.kind
        odds = 0.2 if is_pointer(kind) else 0.4
        if self.chance.random() > odds or kind[0] in ("any", "parameter", "interface") or kind == ("number", "Void"):
            return
        field.default = self.literal(kind)
        field.default_text = text_of(kind, field.default)

    def literal(self, kind):
        """A value as schemas have it."""
        return Literals(self.chance).value(kind, 2)

    def add_constants(self):
        """Those that each schema has, of each enum its last enumerant, and others, in the file and in structs."""
        for kind, text in EDGES:
            self.add_constant([], kind, text)
        for made in self.enums:
            self.add_constant(made.scope, ("enum", made), made.names[-1])
        for made in self.structs:
            self.add_constant([], ("struct", made), text_of(("struct", made), self.literal(("struct", made))))
        for _ in range(self.chance.randrange(4, 9)):
            kind = self.chance.choice([self.element(0, self.structs), ("list", self.element(1, self.structs))])
            made = self.chance.choice([None, *self.structs])
            self.add_constant([*made.scope, made] if made else [], kind, text_of(kind, self.literal(kind)))

    def add_constant(self, scope, kind, text):
        constants = scope[-1].constants if scope else []
        made = Constant("constant%d" % len(self.constants), scope, kind, text, len(self.constants))
        constants.append(made)
        self.constants.append(made)
