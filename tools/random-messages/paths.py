"""The paths of what the schema compiler writes in Rattle."""
import re

from schemas import snake


def taken_names(path):
    """The names that the compiler adds a `_` to: of modules, of enums, of variants."""
    with open(path) as file:
        text = file.read()
    lists = {name: text[text.index("const %s:" % name):].split("];")[0] for name in ("MODULES", "ENUMS", "VARIANTS")}
    return {name: set(" ".join(re.findall(r'"([\w ]+)"', names)).split()) for name, names in lists.items()}


def in_modules(text):
    """The lines of a made file, each with the modules around it."""
    modules = []
    for line in text.splitlines():
        depth = (len(line) - len(line.lstrip())) // 4
        if opened := re.match(r" *pub mod (\w+) \{", line):
            modules = modules[:depth] + [opened[1]]
        yield modules[:depth], line


def either_getters(text):
    """The getters of a made file that return a view of the message or one of the default, each by its modules and its
    name."""
    found = set()
    for modules, line in in_modules(text):
        if begun := re.match(r" *pub fn (get_\w+)\(", line):
            name = begun[1]
        if "-> OrDefault<" in line:
            found.add("::".join(["schema", *modules, name]))
    return found


class Paths:
    """The paths of what the compiler writes of a schema."""

    def __init__(self, taken, module="schema"):
        self.taken, self.module = taken, module

    def path(self, made):
        return "::".join([self.module, *(self.module_of(part.name) for part in [*made.scope, made])])

    def module_of(self, name):
        name = snake(name)
        return name + "_" * (name in self.taken["MODULES"] or name.startswith("the_"))

    def enum_path(self, made):
        around = self.path(made.scope[-1]) if made.scope else self.module
        return "%s::%s" % (around, made.name + "_" * (made.name in self.taken["ENUMS"] or made.name.startswith("The")))
