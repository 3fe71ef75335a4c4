"""Random values that stand in a schema: defaults and constants."""
from schemas import Field, fields
from values import Made, Values


class Literals(Values):
    """Values that stand in a schema: there is no text of an any pointer, and a union is set once."""

    def __init__(self, chance):
        super().__init__(chance)
        self.left = 30

    def can_set(self, member):
        inner = [([], member)] if isinstance(member, Field) else fields(member.members)
        return any(field.kind[0] not in ("interface", "any", "parameter") for _, field in inner)

    def struct(self, made, depth):
        self.left -= 1
        return Made(self.steps(made.members, depth, self.chance.choice([0.3, 0.8])))

    def steps(self, members, depth, odds):
        """Sets some members, in any order."""
        found = [(member, self.member(member, depth, odds)) for member in members if self.can_set(member) and self.chance.random() < odds]
        self.chance.shuffle(found)
        return found

    def member(self, member, depth, odds):
        if isinstance(member, Field):
            return self.null_or(member.kind, depth)
        return self.union(member, depth, odds) if member.is_union else self.steps(member.members, depth, odds)

    def union(self, union, depth, odds):
        member = self.chance.choice([member for member in union.members if self.can_set(member)])
        return [(member, self.chosen(member, depth, odds))]

    def chosen(self, member, depth, odds):
        """What a member of a union is set to: no null pointer, since the text format has none in unions, and of a group one field at
        least."""
        if isinstance(member, Field):
            return self.value(member.kind, depth)
        if member.is_union:
            return self.union(member, depth, odds)
        first = self.chance.choice([inner for inner in member.members if self.can_set(inner)])
        others = self.steps([inner for inner in member.members if inner is not first], depth, odds)
        return [(first, self.chosen(first, depth, odds)), *others]

    def length(self, most):
        return self.chance.choice([0, 1, 7, 8, most])
