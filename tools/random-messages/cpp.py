"""The program in C++ that builds the structs of schemas from their descriptions, and says what they show, by the types that the C++
tool writes of them. Structs, fields and groups have names of its own (`peer`)."""
from languages import DEPTH, MOST, Language, each
from schemas import capital
from values import FRAMED, is_pointer

NUMBERS = {"Void": "capnp::Void", "Bool": "bool", "Float32": "float", "Float64": "double",
           **{"%sInt%d" % (sign, width): "%sint%d_t" % (sign.lower(), width)
              for sign in ("", "U") for width in (8, 16, 32, 64)}}

HEAD = """\
#include "schema%(index)d.capnp.h"
#include "peer.h"
namespace schema%(index)d {
%(declared)s
%(structs)s

void say(bool isFramed, uint8_t index, Source& source, Shown& shown) {
    switch (index) {
%(roots)s
    }
}

void constants(Shown& shown) {
%(constants)s
}
}
"""
MAKE = """
capnp::Orphan<%(type)s> make%(number)d(Source& source, capnp::Orphanage objects) {
    capnp::Orphan<%(type)s> orphan;
    if (source.number<uint8_t>()) {
        auto first = make%(number)d(source, objects);
        orphan = objects.newOrphanCopy(first.getReader());
    } else {
        orphan = objects.newOrphan<%(type)s>();
    }
    auto made = orphan.get();
    for (auto left = source.number<uint16_t>(); left > 0; left--) switch (source.number<uint8_t>() & 127) {
%(calls)s
    }
    return orphan;
}
"""
SHOW = """
void show(Shown& shown, uint32_t depth, %(type)s::Reader read) {
    if (!shown.enters(depth)) return;
    depth--;
%(shown)s
    shown.field("}");
}

void keep(Shown& shown, %(type)s::Builder made) {
%(kept)s
}
"""
MAIN = """\
#include "peer.h"
%(declared)s

// What is said of the messages that the file `words[1]` describes goes to `words[2]`, and those that are built to `words[3]`.
int main(int, char** words) {
    std::ifstream file(words[1], std::ios::binary);
    std::string input((std::istreambuf_iterator<char>(file)), std::istreambuf_iterator<char>());
    auto begin = reinterpret_cast<const uint8_t*>(input.data());
    Source source{begin, begin + input.size()};
    Shown shown;
%(constants)s
    while (source.left != source.end) {
        auto isFramed = source.number<uint8_t>() == %(framed)d;
        auto schema = source.number<uint8_t>();
        auto index = source.number<uint8_t>();
        shown.field("message");
        if (!isFramed) shown.messages += {%(framed)d, static_cast<char>(schema), static_cast<char>(index)};
        switch (schema) {
%(cases)s
        }
    }
    std::ofstream(words[2], std::ios::binary) << shown.text << '\\n';
    std::ofstream(words[3], std::ios::binary) << shown.messages;
}
"""
CONSTANTS = """\
    shown.field("schema");
    shown.left = %d;
    schema%%(at)d::constants(shown);""" % MOST
DECLARED = "namespace schema%(at)d { void say(bool, uint8_t, Source&, Shown&); void constants(Shown&); }"
CASE = "        case %(at)d: schema%(at)d::say(isFramed, index, source, shown); break;"
ROOT = """\
        case %(number)d: return ::say<%(type)s>(isFramed, source, shown, %(depth)d, %(most)d, make%(number)d,
            [](Shown& shown, %(type)s::Builder made) { keep(shown, made); });"""
STRUCT = "capnp::Orphan<%(type)s> make%(number)d(Source& source, capnp::Orphanage objects);\n" \
    "void show(Shown& shown, uint32_t depth, %(type)s::Reader read);"


def main_text(count):
    """The program over this many schemas."""
    return MAIN % {"declared": each(DECLARED, count), "constants": each(CONSTANTS, count), "cases": each(CASE, count), "framed": FRAMED}


def text(index, schema):
    """The file of a schema."""
    cpp, structs = Cpp(), schema.structs
    roots = [{"number": made.number, "type": path(made), "depth": DEPTH, "most": MOST} for made in structs]
    return HEAD % {"index": index, "declared": "\n".join(STRUCT % root for root in roots),
                   "roots": "\n".join(ROOT % root for root in roots),
                   "structs": "".join(map(cpp.struct_text, structs)), "constants": "\n".join(map(cpp.constant, schema.constants))}


def path(made):
    return "::".join(part.peer() for part in [*made.scope, made])


def type_of(kind):
    form, of = kind
    if form == "list":
        return "capnp::List<%s>" % type_of(of)
    if form in ("any", "parameter"):
        return type_of(of)
    return path(of) if form in ("struct", "enum") else NUMBERS[of] if form == "number" else "capnp::" + form.capitalize()


def reached(name, around):
    """The groups around a member, by their getters."""
    return name + "".join(".get%s()" % capital(part.peer()) for part in around if part.name)


def sign(field):
    """The code that the C++ tool 0.9.2 writes takes the default -0.0 for 0.0, and the tool itself doesn't: of such a
    field the numbers have the other sign there."""
    return "-" * (field.default_text == "-0.0")


class Cpp(Language):
    NAMED, SET = 'shown.field("%s");', 'shown.word("set");'

    def within(self, _, group):
        return group.peer()

    def opened(self, place, group, lines):
        return ["{ %s auto %s = %s;" % (self.named(group), group.peer(), reached(place, [group])), *lines, "}"]

    def which(self, place):
        return place + ".which()"

    def tag(self, place, member):
        return "decltype(%s)::Reads::%s" % (place, member.peer().upper())

    def field(self, place, field):
        """What shows a field's value."""
        value = "%s.get%s()" % (place, capital(field.peer()))
        if field.kind == ("number", "Void") or field.kind[0] == "interface":
            return ""
        if not is_pointer(field.kind):
            return "show(shown, depth, %s%s);" % (sign(field), value)
        any_of = "Any<%s>" % type_of(field.kind) if field.kind[0] in ("any", "parameter") else ""
        return 'shown.word(%s.has%s() ? "+" : "-"); show%s(shown, depth, %s);' % (place, capital(field.peer()), any_of, value)

    def made_struct(self, of):
        return "make%d(source, objects)" % of.number

    def made_bytes(self, form):
        return "%sOf(source, objects)" % form

    def made_numbers(self, of):
        return "numbersOf<%s%s>(source, objects)" % (type_of(of), ", uint16_t" if of[0] == "enum" else "")

    def made_structs(self, of):
        return "structsOf<%s>(source, objects, make%d)" % (path(of), of.number)

    def made_pointers(self, of):
        return "pointersOf<%s>(source, objects, [](Source& source, capnp::Orphanage objects) { return %s; })" % (
            type_of(of), self.made(of))

    def setter(self, _, around, field):
        target, name = reached("made", around), capital(field.peer())
        form, of = field.kind
        if field.kind == ("number", "Void"):
            return "%s.set%s();" % (target, name)
        if form == "number":
            return "%s.set%s(%ssource.number<%s>());" % (target, name, sign(field), NUMBERS[of])
        if form == "enum":
            return "%s.set%s(static_cast<%s>(source.number<uint16_t>()));" % (target, name, path(of))
        if form in ("any", "parameter"):
            return "{ auto any = %s.init%s(); if (!source.isNull()) any.adopt(%s); }" % (target, name, self.made(of))
        return "%s.adopt%s(source.isNull() ? capnp::Orphan<%s>() : %s);" % (
            target, name, type_of(field.kind), self.made(field.kind))

    def selection(self, _, around, group):
        return "%s.init%s();" % (reached("made", around), capital(group.peer()))

    def kept_member(self, around, field):
        name = "%s.%%s%s()" % (reached("made", around), capital(field.peer()))
        if is_pointer(field.kind):
            return 'shown.word(%s ? "+" : "-");' % (name % "has")
        return "show(shown, 0, %s%s);" % (sign(field), name % "get")

    def struct_text(self, made):
        names = {"type": path(made), "number": made.number}
        calls = "\n".join("        case %d: %s break;" % pair for pair in enumerate(self.calls(made)))
        return MAKE % {**names, "calls": calls} + SHOW % {
            **names, "shown": "\n".join("    " + line for line in self.members("read", made.members)),
            "kept": "\n".join("    " + line for line in self.kept(made.members))}

    def constant(self, constant):
        name = constant.peer().upper()
        if constant.kind == ("number", "Void"):
            return ""
        value = "*%s" % name if is_pointer(constant.kind) else name + "->getValue()" * constant.is_wrapped()
        return "    %s show(shown, %d, %s);" % (self.named(constant), DEPTH, value)
