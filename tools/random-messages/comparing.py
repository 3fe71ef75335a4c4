"""What the words of tools/try-random share: the C++ tool, the schema compiler, programs of crates before any proof, and the comparison
of what two programs say."""
import os
import re
import subprocess
import sys
from pathlib import Path

from makers import Maker
from paths import taken_names
from prelude import ROOT
from rattle import Rattle, roots
from schemas import fields


def fail(what):
    sys.exit("try-random: %s" % what)


def run(words, folder, stream=b""):
    """What a program prints, which has to end well."""
    done = subprocess.run(words, cwd=folder, input=stream, capture_output=True)
    if done.returncode:
        fail("%s ended: %s" % (" ".join(map(str, words[:4])), (done.stdout + done.stderr).decode(errors="replace")[-4000:]))
    return done.stdout


def tool(*words, stream=b"", folder=None):
    """What the C++ tool prints, or None where it ends with another status than 0, or complains."""
    environment = {**os.environ, "PWD": str(folder)} if folder else None
    done = subprocess.run(["capnp", *map(str, words)], input=stream, capture_output=True, cwd=folder, env=environment)
    return None if done.returncode or done.stderr else done.stdout


def write(path, content):
    path.parent.mkdir(parents=True, exist_ok=True)
    if isinstance(content, str):
        path.write_text(content)
    else:
        path.write_bytes(content)
    return path


def said(path):
    return path.read_text(encoding="utf-8", errors="surrogateescape")


def take_schema(chance, is_taken, *options):
    """A random schema that the C++ tool takes, which rejects some orders of groups and unions."""
    while True:
        schema = Maker(chance, *options).schema()
        if is_taken(schema):
            return schema


class Copy:
    """A copy of the repository, in which the words work: a schema's file is schemaN.capnp."""

    def __init__(self, folder):
        self.folder, self.made = folder, folder / "crates/made/src"

    def write_types(self, count, to, *words):
        """Has the schema compiler write what the words ask for of this many schemas: the program of COMPILER, or else that of
        tools/compiling/plugin."""
        request = run(["capnp", "compile", "-o-", *("schema%d.capnp" % index for index in range(count))], self.folder)
        to.mkdir(parents=True)
        compiler = os.environ.get("COMPILER") or run([ROOT / "tools/compiling/plugin"], ROOT).decode().strip()
        run([compiler, to, *words], self.folder, request)

    def make_program(self, schemas):
        """Writes the program that uses the types of the schema compiler."""
        here = Path(__file__).resolve().parent
        for name, file in ("main", "program"), ("shown", "shown"), ("source", "source"):
            write(self.made / (name + ".rt"), (here / file).read_text())
        with open(self.folder / "crates.txt", "a") as file:
            file.write("made: anyhow capnp capnp_frame capnp_orphans capnp_wire\n")
        self.write_types(len(schemas), self.made / "schemas", "builders", "print")
        taken = taken_names(self.folder / "crates/capnpc_rattle/src/reserved.rt")
        write(self.made / "schemas.rt", roots(len(schemas)))
        for index, schema in enumerate(schemas):
            types = (self.made / "schemas" / ("schema%d_capnp.rt" % index)).read_text()
            write(self.made / "schemas" / ("made_%d.rt" % index), Rattle(schema, taken, types).text(index))

    def said_by_program(self, description):
        # The interpreter, which `rt try` asks first, reads no arguments.
        run(["rt", "try", "--steps", "1", "--seconds", "3600", "--", self.folder / "said"], self.folder / "crates/made", description)
        return said(self.folder / "said")


def parts_of(text):
    """What is said of each schema's constants, and of each message."""
    return [part.strip("\n") for part in re.split(r"^(?:schema|message)$", text, flags=re.M)[1:]]


def difference(wanted, found, has_text):
    """The first line in which two parts differ, with the one before it."""
    lines = [part.split("\n") for part in (wanted, found)]
    for index in range(max(map(len, lines))):
        pair = [part[index] if index < len(part) else "nothing" for part in lines]
        if pair[0] != pair[1] and (has_text or not pair[0].startswith("text ")):
            return lines[0][max(index - 1, 0)], *pair
    return None


def compare(names, wanted, found, has_text):
    """How many parts of what two programs say differ; the first ones are printed."""
    if len(wanted) != len(names) or len(found) != len(names):
        fail("%d parts are wanted, C++ says %d, and the types %d" % (len(names), len(wanted), len(found)))
    different = 0
    for name, *pair, is_compared in zip(names, wanted, found, has_text):
        line = difference(*pair, is_compared)
        different += line is not None
        if line and different < 10:
            print("%s, after %s\nwanted %s\nfound  %s" % (name, *(part[:300] for part in line)))
    return different


def end(word, count, schemas, more, different):
    structs = [made for schema in schemas for made in schema.structs]
    print("try-random: %s: %d messages of %d schemas with %d structs and %d fields, %s: %s" % (
        word, count, len(schemas), len(structs), sum(len(list(fields(made.members))) for made in structs), more,
        "%d differ" % different if different else "the same"))
    sys.exit(1 if different else 0)
