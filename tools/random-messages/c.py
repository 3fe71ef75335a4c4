"""The program in C that says what structs of schemas show, and builds them from their descriptions, by the types that the schema
compiler writes for C: as the one in cpp.py, with the names of that."""
from c_templates import (CONSTANTS, DECLARED, HEAD, LIST_OF_LISTS, MADE_POINTERS, MADE_STRUCT, MADE_STRUCTS, MAIN, ROOT, ROOT_DECLARED,
                         SETTER, STRUCT)
from languages import DEPTH, MOST, Language, each
from schemas import FLOATS, SIGNED, UNSIGNED, fields
from values import FRAMED, is_pointer

CODES = {1: "BIT", 8: "BYTE", 16: "TWO_BYTES", 32: "FOUR_BYTES", 64: "EIGHT_BYTES"}
SHORT = {"Bool": "bool", "Float32": "float", "Float64": "double", "Void": "void"}


def main_text(count):
    """The program over this many schemas."""
    return MAIN % {
        "declared": each(ROOT_DECLARED, count),
        "roots": each("    case %(at)d: root%(at)d(program, task, index); break;", count),
        "constants": each(CONSTANTS, count), "most": MOST, "framed": FRAMED}


def text(index, schema):
    """The file of a schema."""
    c = C()
    return HEAD % {
        "index": index, "depth": DEPTH, "lists": lists_of_lists(schema),
        "declared": "\n".join(DECLARED % {"number": made.number, "type": path(made)} for made in schema.structs),
        "structs": "".join(map(c.struct_text, schema.structs)), "roots": "\n".join(map(c.root, schema.structs)),
        "constants": "\n".join(c.constant(index, constant) for constant in schema.constants)}


def path(made):
    return "_".join(part.name for part in [*made.scope, made])


def width(kind):
    form, of = kind
    return 16 if form == "enum" else {"Bool": 1, "Float32": 32, "Float64": 64, **UNSIGNED, **SIGNED}[of]


def code(kind):
    """The code of a list's elements."""
    if kind == ("number", "Void"):
        return "LINSJOAR_VOID"
    return "LINSJOAR_POINTERS" if is_pointer(kind) else "LINSJOAR_" + CODES[width(kind)]


def type_name(kind):
    """The name with which the types and the calls of a type begin."""
    form, of = kind
    if form == "list":
        return type_name(of) + "_list"
    if form in ("struct", "enum"):
        return path(of)
    if form in ("any", "parameter"):
        return "linsjoar_pointer"
    return "linsjoar_" + (SHORT.get(of) or ("i" if of in SIGNED else "u") + str(width(kind)) if form == "number" else form)


def number_type(kind):
    """The type of C of a number, with those of an enum as numbers."""
    return SHORT[kind[1]] if kind[1] in FLOATS else "%sint%d_t" % ("" if kind[1] in SIGNED else "u", width(kind))


def lists_of_lists(schema):
    """What declares the lists of lists that any pointers of a schema point to, as its header declares those of its fields."""
    declared = []
    for struct in schema.structs:
        for _, field in fields(struct.members):
            kind = field.kind[1] if field.kind[0] in ("any", "parameter") else ("",)
            found = []
            while kind[0] == "list" and kind[1][0] == "list":
                kind = kind[1]
                of = "LINSJOAR_STRUCTS" if kind[1][0] == "struct" else code(kind[1])
                found.insert(0, LIST_OF_LISTS % {"name": type_name(kind), "code": of})
            declared += [text for text in found if text not in declared]
    return "".join(declared)


def number_shown(kind, value):
    if kind == ("number", "Void"):
        return ""
    if kind[1] in FLOATS:
        return "show_%s(program, %s);" % (SHORT[kind[1]], value)
    cast = "(uint%d_t)" % width(kind) if kind[1] in SIGNED else ""
    return "show_bits(program, %s%s);" % (cast, value)


def read(kind, pointer, value):
    """The call that reads what a pointer of a type points to."""
    form, of = kind
    if form in ("text", "data"):
        return "linsjoar_read_%s(&%s, &%s)" % (form, pointer, value)
    if form == "list" and of[0] != "struct":
        return "linsjoar_read_list(&%s, %s, &%s.elements)" % (pointer, code(of), value)
    return "%s_read(&%s, &%s)" % (type_name(kind), pointer, value)


def pointer_shown(kind, call, nesting=0):
    """What says what a call reads into its last argument, which is named `value` and a nesting."""
    value = "value%d" % nesting
    return "{ struct %s_reader %s; show_error(program, %s); %s }" % (
        type_name(kind), value, call(value), value_shown(kind, value, nesting))


def value_shown(kind, value, nesting):
    form, of = kind
    if form == "text":
        return "show_text(program, &%s);" % value
    if form == "data":
        return "show_bytes(program, %s.bytes, %s.len);" % (value, value)
    if form == "struct":
        return "show%d(program, depth, &%s);" % (of.number, value)
    at, got = "i%d" % nesting, "%s_get%s(&%s, i%d" % (type_name(kind), "_number" * (of[0] == "enum"), value, nesting)
    if of[0] == "struct":
        inner = "value%d" % (nesting + 1)
        element = "struct %s_reader %s = %s); %s" % (type_name(of), inner, got, value_shown(of, inner, nesting + 1))
    elif is_pointer(of):
        element = pointer_shown(of, lambda inner: "%s, &%s)" % (got, inner), nesting + 1)
    else:
        element = number_shown(of, got + ")")
    length = "%s_len(&%s)" % (type_name(kind), value)
    loop = "for (uint32_t %s = 0; %s < %s; %s++) { %s }" % (at, at, length, at, element) if element else ""
    return 'show_list(program, %s); %s show_word(program, "]");' % (length, loop)


def name_of(struct, around):
    """The front of the names of a group's functions, or of those of what is around it."""
    return "_".join([path(struct), *(part.name for part in around if part.name)])


class C(Language):
    """A place is the front of the names of its functions."""
    NAMED, SET = 'show_field(program, "%s");', 'show_word(program, "set");'

    def within(self, place, group):
        return "%s_%s" % (place, group.name)

    def opened(self, place, group, lines):
        return [self.named(group), *lines]

    def which(self, place):
        return place + "_which(read)"

    def tag(self, place, member):
        return "%s_which_%s" % (place, member.name)

    def switch(self, place, union):
        *lines, end = super().switch(place, union)
        mark = "_" if any(member.name.startswith("notInSchema") for member in union.members) else ""
        return [*lines, "case %s_which_notInSchema%s: break;" % (place, mark), end]

    def field(self, place, field):
        """What says what a field shows, by the name of its struct or group."""
        form, of = field.kind
        got = "%s_get_%s%s(read" % (place, field.name, "_number" * (form == "enum"))
        if field.kind == ("number", "Void") or form == "interface":
            return ""
        if not is_pointer(field.kind):
            return number_shown(field.kind, got + ")")
        has = "show_flag(program, %s_has_%s(read));" % (place, field.name)
        if form in ("any", "parameter"):
            shown = pointer_shown(of, lambda value: read(of, "pointer", value))
            return ("%s { struct linsjoar_pointer_reader pointer = %s); if (linsjoar_is_null(&pointer)) show_word(program, "
                    '"null"); else %s }' % (has, got, shown))
        return "%s %s" % (has, pointer_shown(field.kind, lambda value: "%s, &%s)" % (got, value)))

    def made_struct(self, of, orphan, nesting):
        return MADE_STRUCT % {"type": path(of), "number": of.number, "nesting": nesting, "orphan": orphan}

    def made_structs(self, of, orphan, nesting):
        return MADE_STRUCTS % {"type": path(of), "number": of.number, "nesting": nesting, "orphan": orphan}

    def made_pointers(self, of, orphan, nesting):
        made = self.made(of, "&orphans%d[at%d].word" % (nesting, nesting), nesting + 1)
        return MADE_POINTERS % {"type": type_name(of), "nesting": nesting, "orphan": orphan, "made": made}

    def made_numbers(self, of, orphan, _):
        if of[1] in ("Bool", "Void"):
            return "*(%s) = make_%ss(program);" % (orphan, of[1].lower())
        return "MAKE_NUMBERS(program, %s, %s, %s);" % (type_name(of), number_type(of), orphan)

    def made_bytes(self, form, orphan, _):
        return "*(%s) = make_%s(program);" % (orphan, form)

    def setter(self, struct, around, field):
        form, of = field.kind
        call = "%s_set_%s%s(draft" % (name_of(struct, around), field.name, "_number" * (form == "enum"))
        if field.kind == ("number", "Void"):
            return call + ");"
        if is_pointer(field.kind):
            return SETTER % (type_name(field.kind), self.made(field.kind, "&typed.word", 0), call)
        if of in FLOATS:
            return "%s, take_%s(program));" % (call, SHORT[of])
        taken = "take_number(program, 1) != 0" if of == "Bool" else "(%s)take_number(program, %d)" % (
            number_type(field.kind), width(field.kind) // 8)
        return "%s, %s);" % (call, taken)

    def selection(self, struct, around, group):
        return "%s_init(draft);" % name_of(struct, [*around, group])

    def struct_text(self, made):
        calls = "\n".join("        case %d: %s break;" % pair for pair in enumerate(self.calls(made)))
        shown = "\n".join("    " + line for line in self.members(path(made), made.members))
        return STRUCT % {"type": path(made), "number": made.number, "calls": calls, "shown": shown}

    def root(self, made):
        return ROOT % {"number": made.number, "type": path(made), "depth": DEPTH, "made": self.made(("struct", made), "&root", 0)}

    def constant(self, index, constant):
        scope = path(constant.scope[-1]) if constant.scope else "schema%d" % index
        if constant.kind == ("number", "Void"):
            return ""
        if is_pointer(constant.kind):
            shown = pointer_shown(constant.kind, lambda value: "%s_get_%s(&%s)" % (scope, constant.name, value))
        else:
            shown = number_shown(constant.kind, "%s_%s" % (scope, constant.name))
        return "    %s %s" % (self.named(constant), shown)
