"""`try-random types` and `try-random c`: messages that are built by calls, with the types of the schema compiler and with those of the
C++ tool."""
import os
from concurrent.futures import ThreadPoolExecutor
from pathlib import Path

import c
import cpp
from calls import Calls
from comparing import compare, end, fail, parts_of, run, said, take_schema, tool, write
from prelude import ROOT
from schemas import PEER, Group
from values import bytes_of, groups_of

HERE = Path(__file__).resolve().parent
CC, CXX = os.environ.get("CC", "cc"), os.environ.get("CXX", "g++")
LIBRARIES = ["-lcapnp-rpc", "-lcapnp", "-lkj-async", "-lkj"]
WARNINGS = ["-Wall", "-Wextra", "-pedantic", "-Werror"]


def is_ambiguous(made):
    """Whether a union has a group `which` that has a union: the enumerator of the first has the name of what says which
    member of the second is set, so the schema compiler rejects them for C."""
    unions = [group for group in groups_of(made.members) if group.is_union]
    return any(isinstance(member, Group) and member.name == "which" and (member.is_union or any(
        isinstance(inner, Group) and not inner.name for inner in member.members)) for group in unions
        for member in group.members)


class Messages:
    """Schemas, and descriptions of messages of their structs. The first schema has an enum of 300 enumerants, or 255: Rattle takes
    no more."""

    def __init__(self, copy, chance, count, schemas, has_long_names, is_c):
        self.copy, self.peer, self.is_c = copy, copy.folder / "peer", is_c
        many = 300 if is_c else 255
        self.schemas = [take_schema(chance, lambda schema: self.is_taken(schema, index), True, has_long_names, many * (index == 0))
                        for index in range(schemas)]
        self.names = ["the constants of schema%d.capnp" % index for index in range(schemas)]
        self.has_text, self.descriptions = [True] * schemas, []
        for number in range(count):
            self.add(chance, number, number % schemas)
        self.description = b"".join(self.descriptions)

    def is_taken(self, schema, index):
        """Whether the C++ tool takes a schema, and writes its types."""
        name = "schema%d.capnp" % index
        write(self.copy.folder / name, schema.text(True))
        write(self.peer / name, schema.text(PEER, index))
        return tool("compile", "-oc++", name, folder=self.peer) is not None and not (
            self.is_c and any(map(is_ambiguous, schema.structs)))

    def add(self, chance, number, schema):
        made = chance.choice(self.schemas[schema].structs)
        values = Calls(chance)
        root = values.root(made)
        self.descriptions.append(bytes([chance.randrange(2), schema, made.number]) + bytes_of(("struct", made), root))
        self.names.append("message %d, a %s of schema%d.capnp" % (number, made.name, schema))
        self.has_text.append(values.is_text_same)

    def said_by_peer(self):
        """What the C++ program says, and the messages that it built, as a description has them."""
        write(self.peer / "main.c++", cpp.main_text(len(self.schemas)))
        for index, schema in enumerate(self.schemas):
            write(self.peer / ("peer%d.c++" % index), cpp.text(index, schema))
        names = ["main", *(name % index for index in range(len(self.schemas)) for name in ("peer%d", "schema%d.capnp"))]
        compiler = [CXX, "-std=c++17", "-O0", "-DNDEBUG", "-w", "-I%s" % HERE, "-I."]
        with ThreadPoolExecutor(2) as threads:
            list(threads.map(lambda name: run([*compiler, "-c", name + ".c++", "-o", name + ".o"], self.peer), names))
        run([*compiler, "-o", "peer", *(name + ".o" for name in names), *LIBRARIES], self.peer)
        return self.said_of(self.description)

    def said_of(self, description):
        """What that program says of other messages, and those that it builds."""
        write(self.peer / "description", description)
        run(["./peer", "description", "said", "messages"], self.peer)
        return parts_of(said(self.peer / "said")), (self.peer / "messages").read_bytes()

    def end(self, word, wanted, different):
        constants = sum(len(schema.constants) for schema in self.schemas)
        lines = sum(part.count("\n") + 1 for part in wanted)
        end(word, len(self.descriptions), self.schemas, "%d constants, %d lines" % (constants, lines), different)


def types(copy, chance, count, schemas, has_long_names):
    messages = Messages(copy, chance, count, schemas, has_long_names, False)
    copy.make_program(messages.schemas)
    wanted, framed = messages.said_by_peer()
    found = parts_of(copy.said_by_program(messages.description + framed))
    # Of what the C++ program built, they say what its reader shows, and the text.
    wanted += [part[part.index("\nshown") + 1:] for part in wanted[schemas:]]
    for listed in messages.names, messages.has_text:
        listed += listed[schemas:]
    messages.end("types", wanted, compare(messages.names, wanted, found, messages.has_text))


def headers(copy, count):
    """The folder of the headers, each of which has to be C and C++ as it is."""
    made = copy.folder / "headers"
    copy.write_types(count, made, "c")
    names = sorted(os.listdir(made))
    if names != sorted("schema%d_capnp.h" % index for index in range(count)):
        fail("the schema compiler wrote %s" % names)
    for name in names:
        write(made / "header.cc", '#include "%s"\n' % name)
        for compiler in [CXX, "-std=c++11"], [CXX, "-std=c++17"], [CC, "-std=c11", "-xc"]:
            run([*compiler, *WARNINGS, "-Wconversion", "-fsyntax-only", "-I%s/crates/capnp_c" % copy.folder, "header.cc"], made)
    return made


def library():
    """The library for C, proved here and built where it is not yet."""
    crate = ROOT / "crates/capnp_c"
    if not (crate / "out/libcapnp_c.a").exists():
        run(["rt", "lib"], crate)
    return crate / "out/libcapnp_c.a"


def shown_alone(part):
    """Of what the C++ program says of a message, what its reader shows."""
    return part[part.index("\nshown") + 1:part.rindex("\ntext ")] if "\nshown" in part else part


def built_alone(part):
    """Of what the C++ program says of a message, its canonical form, what its reader shows, and its text."""
    return part[part.index("canonical "):] if "canonical " in part else part


def in_c(copy, chance, count, schemas, has_long_names):
    messages = Messages(copy, chance, count, schemas, has_long_names, True)
    made = headers(copy, schemas)
    write(made / "main.c", c.main_text(schemas))
    names = ["main.c", *("c%d.c" % index for index in range(schemas))]
    for index, schema in enumerate(messages.schemas):
        write(made / names[index + 1], c.text(index, schema))
    run([CC, "-std=c11", "-O1", *WARNINGS, *os.environ.get("CFLAGS", "").split(), "-I%s" % HERE,
         "-I%s/crates/capnp_c" % copy.folder, "-I.", "-o", "program", *names, library()], made)
    wanted, framed = messages.said_by_peer()
    run(["./program", "said", "built"], made, framed + messages.description)
    of_built, _ = messages.said_of((made / "built").read_bytes())
    shown = list(map(shown_alone, wanted))
    different = compare(messages.names, shown, parts_of(said(made / "said")), messages.has_text)
    different += compare(messages.names, *(list(map(built_alone, parts)) for parts in (wanted, of_built)), [True] * len(messages.names))
    messages.end("c", shown, different)
