"""Reads and builds random messages of random schemas by crates/capnp_c/python/linsjoar.py, and compares with the C++ tool.

    in_python.py MESSAGES SEED SCHEMAS CORRUPT    CORRUPT is how many corrupt messages are read

The schemas have no interfaces, and their parameters are AnyPointer; such fields are not set. Of each message `to_dict` has
to be what `capnp convert binary:json` writes (`json_of` says how values are mapped), `str` what `capnp decode --short`
prints, and what `new(**to_dict())` builds has to have the message's canonical form, which has to be the tool's. A corrupt
message is one with some bits or words of it changed, or cut: reading it returns, or raises what a page says.
"""
import json
import math
import random
import struct
import sys
import tempfile
from pathlib import Path
from unittest.mock import ANY

sys.path.append(str(Path(__file__).resolve().parent.parent))
import linsjoar
from comparing import tool
from literals import Literals
from makers import Maker
from schemas import OPAQUE, Field
from values import steps_text

NAMES = {math.inf: "Infinity", -math.inf: "-Infinity"}


class WithoutInterfaces(Maker):
    def kind(self, in_union):
        while True:
            kind = super().kind(in_union)
            if kind[0] != "interface":
                return kind


def json_of(kind, value):
    """A value as the tool writes it as JSON: numbers of 64 bits as strings, Data as a list of numbers, NaN and infinite
    numbers by name. A null pointer is in neither, but for a union's member: that is None, of which the tool writes the default."""
    form, of = kind
    if value is None and of != "Void":
        return ANY
    if form == "list":
        return [json_of(of, element) for element in value]
    if form == "struct":
        return dict(json_members(of.members, value))
    if of in ("UInt64", "Int64"):
        return str(value)
    if form == "data":
        return list(value)
    if isinstance(value, float) and not math.isfinite(value):
        return NAMES.get(value, "NaN")
    return value


def json_members(members, values):
    for member in members:
        if not member.name:
            yield from json_members(member.members, values)
        elif member.name in values:
            value = values[member.name]
            is_field = isinstance(member, Field)
            yield member.name, json_of(member.kind, value) if is_field else dict(json_members(member.members, value))


def parsed(text):
    """The values of a stream of JSON."""
    decoder, at = json.JSONDecoder(), 0
    while text[at:].strip():
        at += len(text[at:]) - len(text[at:].lstrip())
        value, at = decoder.raw_decode(text, at)
        yield value


class Case:
    """A schema that the tool takes, and messages of its structs."""

    def __init__(self, chance, path):
        self.chance, self.path, self.messages = chance, path, []
        while True:
            self.made = WithoutInterfaces(chance).schema()
            path.write_text(self.made.text(OPAQUE))
            # The tool has no JSON of an AnyPointer, and crashes where the first member of a union is its own struct.
            if all(tool("convert", "text:json", str(path), made.path(), stream=b"()") for made in self.made.structs):
                break
        self.schema = linsjoar.load(str(path))

    def add(self, count):
        """Random messages of a random struct, whose difference from the tool's is returned."""
        made = self.chance.choice(self.made.structs)
        name = made.path()
        texts = [f"({steps_text(Literals(self.chance).root(made))})\n" for _ in range(count)]
        convert = lambda way, stream: tool("convert", "--short", way, str(self.path), name, stream=stream)
        framed = convert("text:binary", "".join(texts).encode())
        kind = self.schema
        for part in name.split("."):
            kind = getattr(kind, part if hasattr(kind, part) else part + "_")
        read = list(kind.read_all(linsjoar.io.BytesIO(framed), nesting_limit=100))
        self.messages += [(kind, root.to_bytes()) for root in read]
        dicts = [root.to_dict() for root in read]
        forms = [root.canonical() for root in read]
        compared = {
            "JSON": ([json_of(("struct", made), fields) for fields in dicts], list(parsed(convert("binary:json", framed).decode()))),
            "text": ("".join(f"{root}\n" for root in read), convert("binary:text", framed).decode()),
            "canonical forms": (b"".join(forms), convert("binary:canonical", framed)),
            "built": ([kind.new(**fields).canonical() for fields in dicts], forms),
            "packed": (list(map(str, kind.read_all_packed(linsjoar.io.BytesIO(convert("binary:packed", framed))))), list(map(str, read))),
        }
        different = [what for what, (found, wanted) in compared.items() if found != wanted]
        for what in different:
            found, wanted = (str(made)[:500] for made in compared[what])
            print(f"{self.path}, {name}, {what}:\n  found {found}\n  wanted {wanted}")
        assert len(read) == count, (len(read), count)
        return bool(different)


def corrupt(chance, data):
    """The message with some bits or words changed, or cut."""
    data = bytearray(data)
    for _ in range(chance.choice([1, 1, 2, 5])):
        at = chance.randrange(len(data) // 8) * 8
        way = chance.randrange(4)
        if way == 0:
            data[at + chance.randrange(8)] ^= 1 << chance.randrange(8)
        elif way == 1:
            # A pointer of any kind, mostly to somewhere near.
            near = chance.randrange(-20, 20) << 2 | chance.randrange(4)
            data[at:at + 8] = struct.pack("<II", near % 2**32, chance.choice([chance.randrange(64), chance.randrange(2**32)]))
        elif way == 2:
            other = chance.randrange(len(data) // 8) * 8
            data[at:at + 8] = data[other:other + 8]
        elif chance.random() < 0.2:
            del data[chance.randrange(8, len(data) + 1):]
    return bytes(data)


def read_corrupt(kind, data):
    """Reads a message in every way; whether it was read."""
    try:
        root = kind.read(data, traversal_limit_in_words=20000)
        fields = root.to_dict()
        str(root)
        root.renew()
        kind.read_packed(root.to_packed())
        assert kind.new(**fields).canonical()
        root.canonical()
        return True
    except (linsjoar.Error, UnicodeDecodeError):
        return False


def main():
    count, seed, schemas, corrupted = map(int, sys.argv[1:])
    chance = random.Random(seed)
    with tempfile.TemporaryDirectory() as folder:
        cases = [Case(chance, Path(folder) / f"schema{index}.capnp") for index in range(schemas)]
        different = sum(cases[index % schemas].add(5) for index in range(count // 5))
        messages = [message for case in cases for message in case.messages]
        read = sum(read_corrupt(kind, corrupt(chance, data)) for kind, data in (chance.choice(messages) for _ in range(corrupted)))
    print(f"try-c: {len(messages)} messages of {schemas} schemas are read and built from Python as the C++ tool does"
          f" ({different} lots differ); of {corrupted} corrupt ones {read} are read")
    sys.exit(bool(different))


main()
