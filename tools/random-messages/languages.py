"""What the programs have in common that are made of a schema, in C++, C and Rattle: the calls that build a struct from its
description, and what says what one shows."""
from schemas import Field
from values import groups, is_pointer, setters

DEPTH, MOST = 4, 40  # how deep it goes into structs, and into how many of a message


def each(template, count):
    """A line for each schema."""
    return "\n".join(template % {"at": at} for at in range(count))


class Language:
    """`place` is what members are read of: a struct, or a group. `NAMED` and `SET` say the name of a member, and that it is set."""

    def named(self, member):
        return self.NAMED % member.peer()

    def line(self, member, shown):
        return ["%s %s" % (self.named(member), shown)] if shown else []

    def members(self, place, members):
        """What shows the members of a struct or a group: numbers, also those that are members of a union and not set, pointers,
        groups, and of a union the member that is set."""
        for member in members:
            yield from self.line(member, self.field(place, member)) if isinstance(member, Field) else self.group(place, member)

    def group(self, place, group):
        """The same of a group, which one without a name is no place of."""
        inner = self.within(place, group) if group.name else place
        lines = self.union(inner, group) if group.is_union else self.members(inner, group.members)
        return self.opened(place, group, lines) if group.name else lines

    def union(self, place, union):
        for member in union.members:
            if isinstance(member, Field) and not is_pointer(member.kind):
                yield from self.line(member, self.field(place, member))
        yield from self.switch(place, union)

    def switch(self, place, union):
        """The member of a union that is set, in C and in C++."""
        yield "switch (%s) {" % self.which(place)
        for member in union.members:
            yield "case %s:" % self.tag(place, member)
            if isinstance(member, Field):
                yield "%s %s %s" % (self.named(member), self.SET, self.field(place, member))
            else:
                yield from self.group(place, member)
            yield "break;"
        yield "}"

    def calls(self, struct):
        """The calls on a builder, by their numbers in descriptions: setters, and those that select groups."""
        return [*(self.setter(struct, around, field) for around, field in setters(struct)),
                *(self.selection(struct, around, group) for around, group in groups(struct.members))]

    def made(self, kind, *place):
        """What makes an object of a type."""
        form, of = kind
        if form in ("any", "parameter"):
            return self.made(of, *place)
        if form == "list" and of[0] == "struct":
            return self.made_structs(of[1], *place)
        if form == "list":
            return self.made_pointers(of, *place) if is_pointer(of) else self.made_numbers(of, *place)
        return self.made_struct(of, *place) if form == "struct" else self.made_bytes(form, *place)

    def kept(self, members, around=(), in_union=False):
        """What shows what a builder has: numbers, and whether pointers are set that are no members of unions."""
        for member in members:
            if not isinstance(member, Field):
                yield from self.kept(member.members, [*around, member], in_union or member.is_union)
            elif member.kind[0] != "interface" and not (in_union and is_pointer(member.kind)):
                if member.kind != ("number", "Void"):
                    yield "%s %s" % (self.named(member), self.kept_member(around, member))
