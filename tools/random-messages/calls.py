"""Random calls on builders: setters, and those that select groups of unions, in any order and again and again."""
from schemas import Group
from values import IMPLIED, NULL, SELECTED, Made, Values, groups, groups_of, is_pointer, setters


class Calls(Values):
    """Values whose structs are made by calls. `is_text_same` says whether the C++ tool prints the message alike."""

    def __init__(self, chance):
        super().__init__(chance)
        self.is_text_same = True

    def struct(self, made, depth):
        self.left -= 1
        steps = Made(Course(self, made).calls(depth))
        if self.chance.random() < 0.2:
            self.read_between(made, steps)
        return steps

    def read_between(self, made, steps):
        """The struct is read after some calls, and some of the fields that are set later have other values before."""
        steps.way, steps.first = self.chance.choice([1, 2]), self.chance.randrange(len(steps) + 1)
        later = [member for member, _ in steps[steps.first:]]
        steps.replaced = [(field, self.null_or(field.kind, 0)) for around, field in setters(made)
                          if field in later and not any(part.is_union for part in around) and self.chance.random() < 0.5]

    def set_to(self, field, depth, in_union):
        """What a field is set to. The tool prints the default of a struct or a list that is a member of a union and
        null, and the printing that the schema compiler writes an empty one (docs/COMPILER.md, "Printing")."""
        has_default = in_union and field.default is not None
        value = NULL if has_default and self.chance.random() < 0.5 else self.null_or(field.kind, depth)
        if value is NULL and has_default and field.kind[0] in ("struct", "list"):
            self.is_text_same = False
        return value


class Course:
    """The calls on one builder, and what they have selected. A setter of a field in a group that is a member of a
    union selects that, and clears nothing; the C++ library does so by a call that selects and clears the group.
    So such a group is selected by a call, or, where nothing in its union was set before, by the setter."""

    def __init__(self, values, made):
        self.values, self.chance = values, values.chance
        self.targets = [*setters(made), *groups(made.members)]
        self.selected, self.begun = {}, set()

    def calls(self, depth):
        most = len(self.targets)
        for _ in range(self.chance.choice([0, min(2, most), most // 2, most, 2 * most])):
            yield from self.call(*self.chance.choice(self.targets), depth)

    def call(self, around, target, depth):
        outermost = next((part for part in around if part.is_union), None)
        is_implied = outermost not in self.begun and self.chance.random() < 0.7
        self.begun.add(outermost)
        for union, member in zip(around, around[1:]):
            if union.is_union and self.selected.get(union) is not member:
                yield member, IMPLIED if is_implied else SELECTED
                self.select(union, member)
        in_union = bool(around) and around[-1].is_union
        if in_union:
            self.select(around[-1], target)
        if isinstance(target, Group):
            yield target, SELECTED
        elif is_pointer(target.kind):
            yield target, self.values.set_to(target, depth, in_union)
        else:
            yield target, self.values.value(target.kind, depth)

    def select(self, union, member):
        """A member is selected; of a group that is selected no member of a union is known."""
        self.selected[union] = member
        if isinstance(member, Group):
            for group in [member, *groups_of(member.members)]:
                self.selected.pop(group, None)
