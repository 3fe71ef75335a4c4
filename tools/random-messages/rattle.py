"""The modules in Rattle that build the structs of schemas from their descriptions, and say what they show, by the types that the
schema compiler made: as the program in cpp.py, with the names of that."""
from languages import DEPTH, MOST, Language, each
from paths import Paths, either_getters
from rattle_templates import CALLED, CONSTANTS, HEAD, KEPT, LIST, MAKE, MAKE_ROOT, PART, READ, ROOTS, SHOW, SHOW_ROOT, STRUCT
from schemas import Field, capital, setter, snake
from values import is_pointer

AT_ONCE = 8  # calls or members in one function
NUMBERS = {"Void": "()", "Bool": "bool", "Int8": "i8", "Int16": "i16", "Int32": "i32", "Int64": "i64", "UInt8": "u8",
           "UInt16": "u16", "UInt32": "u32", "UInt64": "u64", "Float32": "f32", "Float64": "f64"}


def roots(count):
    """The module over those of this many schemas."""
    make = each("        %(at)d => made_%(at)d::make_root(index, source, objects, shown),", count)
    show = each("        %(at)d => made_%(at)d::show_root(index, message, shown),", count)
    constants = each('    shown.field("schema")?;\n    shown.left = %d;\n    made_%%(at)d::show_constants(shown)?;' % MOST, count)
    by_schema = {"number": "schema", "index": "\n    index: u8,"}
    return (ROOTS % each("mod made_%(at)d;\nmod schema%(at)d_capnp;", count)
            + CALLED % {**MAKE_ROOT, **by_schema, "arms": make} + CALLED % {**SHOW_ROOT, **by_schema, "arms": show}
            + CONSTANTS % constants)


class Rattle(Language, Paths):
    """`made` is the text of the file that the schema compiler made. A place is a struct and the groups around a member."""
    NAMED, SET = 'shown.field("%s")?;', 'shown.word("set")?;'

    def __init__(self, schema, taken, made):
        super().__init__(taken)
        self.schema, self.either = schema, either_getters(made)
        self.lists, self.list_code = {}, []

    def text(self, index):
        """The module of a schema."""
        structs = self.schema.structs
        parts = [part for made in structs for part in [*self.struct(made), self.kept_text(made), *self.shows(made)]]
        makes = [MAKE % {"number": made.number} for made in structs]
        shows = [SHOW % {"number": made.number, "path": self.path(made), "depth": DEPTH, "most": MOST} for made in structs]
        constants = [self.constant(made) for made in self.schema.constants if made.kind != ("number", "Void")]
        by_struct = {"number": "index", "index": ""}
        return "".join([
            HEAD % {"module": "schema%d_capnp" % index}, CALLED % {**MAKE_ROOT, **by_struct, "arms": "\n".join(makes)},
            CALLED % {**SHOW_ROOT, **by_struct, "arms": "\n".join(shows)},
            CONSTANTS % "\n".join(["    let depth = %d;" % DEPTH, *("    " + line for line in constants)]), *parts, *self.list_code])

    # What builds structs.

    def struct(self, made):
        """The function that builds a struct, the one that reads it first, and those that call its setters."""
        calls = ["        %d => %s," % pair for pair in enumerate(self.calls(made))]
        names = {"number": made.number, "path": self.path(made), "at_once": AT_ONCE}
        parts = [calls[at:at + AT_ONCE] for at in range(0, len(calls), AT_ONCE)]
        yield STRUCT % {**names, "parts": "\n".join(
            "            %d => call_%d_%d(call, &mut made, source, objects)?," % (part, made.number, part)
            for part in range(len(parts)))}
        for part, lines in enumerate(parts):
            yield PART % {**names, "part": part, "calls": "\n".join(lines)}

    def setter(self, _, around, field):
        form, of = field.kind
        name = "made.set_" + setter(around, field)
        if field.kind == ("number", "Void"):
            return name + "()"
        if form == "number":
            return name + "(source.number())"
        if form == "enum":
            return "%s(%s::from_number(source.number()))" % (name, self.enum_path(of))
        return "%s(if source.is_null() { Orphan::null() } else { %s? })" % (name, self.made(field.kind))

    def selection(self, _, around, group):
        return "made.init_%s()" % setter(around, group)

    def made_struct(self, of):
        return "struct_%d(source, objects)?.add(objects)" % of.number

    def made_bytes(self, form):
        return "%s_of(source, objects)" % form

    def made_numbers(self, of):
        return "numbers_of::<%s, S>(source, objects)" % self.number(of)

    def made_structs(self, of):
        path = self.path(of)
        return self.list(("struct", of), "struct_%d(source, objects)" % of.number, path + "::Builder::add_list", ", objects")

    def made_pointers(self, of):
        return self.list(of, self.made(of), "objects.pointer_list", "")

    def list(self, of, element, written, more):
        """The function that makes a list of pointers or of structs."""
        if of not in self.lists:
            index = self.lists[of] = len(self.lists)
            self.list_code.append(LIST % {"index": index, "type": self.owned(("list", of)), "element": element,
                                          "written": written, "more": more})
        return "list_%d(source, objects)" % self.lists[of]

    def number(self, kind):
        return "u16" if kind[0] == "enum" else NUMBERS[kind[1]]

    def owned(self, kind):
        """The type of an orphan."""
        form, of = kind
        if form == "struct":
            return self.path(of) + "::Owned"
        if form == "list" and of[0] == "struct":
            return self.path(of[1]) + "::OwnedList"
        if form == "list":
            listed = ("list_list", self.owned(of)) if is_pointer(of) else ("primitive_list", self.number(of))
            return "%s::Owned<%s>" % listed
        return form + "::Owned"

    def kept_text(self, made):
        return KEPT % {"number": made.number, "path": self.path(made),
                       "lines": "\n".join("    " + line for line in self.kept(made.members))}

    def kept_member(self, around, field):
        name = setter(around, field)
        if is_pointer(field.kind):
            return "shown.flag(made.has_%s())?;" % name
        return self.number_shown(field.kind, "made.get_%s()" % name)

    # What says what structs show.

    def shows(self, made):
        """The functions that say what a struct shows."""
        lines = list(self.members((made, []), made.members))
        parts = [lines[at:at + AT_ONCE] for at in range(0, len(lines), AT_ONCE)]
        kind = "%s::Reader<'_, S>" % self.path(made)
        calls = ["show_%d_%d(shown, depth - 1, read)?;" % (made.number, part) for part in range(len(parts))]
        yield self.read("show_%d" % made.number, kind,
                        ["if !shown.enters(depth)? { return Ok(()); }", *calls, 'shown.field("}")?;'])
        for part, part_lines in enumerate(parts):
            yield self.read("show_%d_%d" % (made.number, part), kind, part_lines)
        yield from self.groups((made, []), made.members)

    def read(self, name, kind, lines):
        return READ % {"name": name, "type": kind, "lines": "\n".join("    " + line for line in lines)}

    def groups(self, place, members):
        """The function of each group."""
        for group in members:
            if isinstance(group, Field):
                continue
            inner = self.within(place, group)
            if group.name:
                lines = self.union(inner, group) if group.is_union else self.members(inner, group.members)
                yield self.read("group_%d_%d" % (place[0].number, group.number), "%s::Reader<'_, '_, S>" % self.group_path(inner), lines)
            yield from self.groups(inner, group.members)

    def within(self, place, group):
        return place[0], [*place[1], group]

    def group_path(self, place):
        made, around = place
        return "::".join([self.path(made), *(self.module_of(part.name) for part in around if part.name)])

    def group(self, place, group, read=None):
        if not group.name:
            return super().group(place, group)
        read = read or "read.get_%s()" % snake(group.name)
        return ["%s group_%d_%d(shown, depth, &%s)?;" % (self.named(group), place[0].number, group.number, read)]

    def switch(self, place, union):
        path = self.group_path(place)
        arms = ["    %s::Which::%s" % (path, self.arm(place, member)) for member in union.members]
        arms.append("    %s::Which::NotInSchema(number) => shown.number(number)?," % path)
        return ["\n".join(["match read.which() {", *arms, "}"])]

    def arm(self, place, member):
        """The arm of a member of a union, which is shown by `which` or by its getter."""
        head, lines = self.variant(member.name), ""
        if isinstance(member, Field):
            lines = "%s %s " % (self.named(member), self.SET)
            if member.kind == ("number", "Void") or member.kind[0] == "interface":
                return "%s => { %s }" % (head, lines)
            by_which, by_getter = self.field(place, member, "value"), self.field(place, member)
        else:
            [by_which], [by_getter] = self.group(place, member, "value"), self.group(place, member)
        return "%s(value) => { %s if shown.by_which { %s } else { %s } }" % (head, lines, by_which, by_getter)

    def variant(self, name):
        return capital(name) + "_" * (capital(name) in self.taken["VARIANTS"] or capital(name).startswith("The"))

    def field(self, place, field, value=None):
        """What says what a field shows."""
        form, name = field.kind[0], snake(field.name)
        value = value or "read.get_%s()" % name
        if field.kind == ("number", "Void") or form == "interface":
            return ""
        if not is_pointer(field.kind):
            return self.number_shown(field.kind, value)
        has = "shown.flag(read.has_%s())?;" % name
        if form in ("any", "parameter"):
            view = "let view: Result<%s> = pointer.get_as();" % self.view(field.kind[1])
            return '%s let pointer = %s; if pointer.is_null() { shown.word("null")?; } else { %s %s }' % (
                has, value, view, self.pointer_shown(field.kind[1], "view"))
        if "%s::get_%s" % (self.group_path(place), name) not in self.either:
            return "%s %s" % (has, self.pointer_shown(field.kind, value))
        shown = self.pointer_shown(field.kind, "view")
        return "%s match %s { OrDefault::Stored(view) => { %s } OrDefault::Default(view) => { %s } }" % (
            has, value, shown, shown)

    def number_shown(self, kind, value):
        form, of = kind
        if kind == ("number", "Void"):
            return ""
        if form == "enum":
            return "shown.number(%s.to_number())?;" % value
        return "shown.%s(%s)?;" % ({"Float32": "float32", "Float64": "float64"}.get(of, "number"), value)

    def pointer_shown(self, kind, value, nesting=0):
        """What says what a `Result` of a view shows."""
        form, of = kind
        if form in ("text", "data"):
            return "shown.bytes(%s?%s)?;" % (value, ".as_bytes()" * (form == "text"))
        if form == "struct":
            return "show_%d(shown, depth, &%s?)?;" % (of.number, value)
        got = "list%d.get(index%d)" % (nesting, nesting)
        if not is_pointer(of):
            element = self.number_shown(of, got)
        elif of[0] == "struct":
            element = "show_%d(shown, depth, &%s)?;" % (of[1].number, got)
        else:
            element = self.pointer_shown(of, got, nesting + 1)
        loop = "for index%d in 0..list%d.len() { %s }" % (nesting, nesting, element) if element else ""
        return 'let list%d = %s?; shown.list(list%d.len())?; %s shown.word("]")?;' % (nesting, value, nesting, loop)

    def view(self, kind):
        """The type of a view."""
        form, of = kind
        if form == "text":
            return "text::Reader<'_>"
        if form == "data":
            return "&[u8]"
        if form == "struct":
            return "%s::Reader<'_, S>" % self.path(of)
        if of[0] == "struct":
            return "%s::ListReader<'_, S>" % self.path(of[1])
        if of[0] == "enum":
            return "upgraded::EnumList<'_, %s>" % self.enum_path(of[1])
        if of[0] == "number":
            return "upgraded::NumberList<'_, %s>" % self.number(of)
        return "upgraded::ListList<'_, S, %s>" % self.view(of)

    def constant(self, constant):
        around = self.path(constant.scope[-1]) if constant.scope else self.module
        form, name = constant.kind[0], snake(constant.name)
        value = "%s::%s" % (around, name.upper())
        if form in ("text", "data"):
            shown = "shown.bytes(%s%s)?;" % (value, ".as_bytes()" * (form == "text"))
        elif is_pointer(constant.kind):
            shown = self.pointer_shown(constant.kind, "%s::get_%s()" % (around, name))
        else:
            shown = self.number_shown(constant.kind, value)
        return "%s { %s }" % (self.named(constant), shown)
