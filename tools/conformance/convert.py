"""Compares what is made of random messages with what the C++ tool's `capnp convert` makes of them (Debian's package capnproto).

    compare-conformance capnp [MESSAGES [SEED]] [PROGRAM SHOWING]      200 and 7 if left out

- what the built programs capnp_ls (pack, unpack, canon, of messages in one segment and in segments of 64 words) and capnp_show
  (hashes) write: packing, canonical forms, and their hashes
- roots that are copied, and composed values of what views read (composing, built by `rt try` before any proof), in segments
  from one word on and in one: the tool's text of each is that of the message
"""
import hashlib
import itertools
import json
import os
import random
import subprocess
import sys
import tempfile
from pathlib import Path

import drivers
import model
from prelude import ROOT, add_crate, copy_tree, tracked

SCHEMA = ROOT / "tools/conformance/composing/composed.capnp"
WAYS = ["a copied root in segments from a word on", "a composed value in segments from a word on", "a copied root", "a composed value"]


def made(chance, kind, depth=2):
    """The text of a random value of a kind of field."""
    if kind.startswith("List("):
        inner, most = kind[5:-1], chance.choice([0, 1, 3, 9] if "Part" in kind or "List(List" in kind else [0, 1, 9, 80])
        return "[%s]" % ", ".join(made(chance, inner, depth - 1) for _ in range(most))
    if kind in ("Part", "Row"):
        fields = {"Part": {"number": "UInt32", "wide": "Int64", "name": "Text", "counts": "List(UInt16)"}, "Row": {"first": "Int16"}}[kind]
        return "(%s)" % ", ".join(f"{name} = {made(chance, of)}" for name, of in fields.items())
    if kind in ("Void", "Bool"):
        return "void" if kind == "Void" else chance.choice(["true", "false"])
    if kind in ("Text", "Data"):
        size = chance.choice([0, 1, 7, 8, 40, 2048, 2056, 3000] if depth == 2 else [0, 1, 7, 8, 40])
        zeros = chance.choice([0, 0.02, 0.5, 1])
        return '"%s"' % "".join(chance.choice("abc xyz") if kind == "Text" else "\\x%02x" % (chance.random() >= zeros and chance.randrange(256))
                                for _ in range(size))
    if kind.startswith("Float"):
        return chance.choice(["0", "-0.0", "1", "inf", "-inf", "1e-30", "3e38", repr(chance.randrange(-2**20, 2**20) / 64)])
    bits = int(kind.lstrip("UInt"))
    least = 0 if kind[0] == "U" else -2**(bits - 1)
    most = least + 2**bits - 1
    return str(chance.choice([least, most, 0, 1, chance.randint(least, most)]))


def some_text(chance):
    """A message of every field; the lists of the other version have the numbers of their lists."""
    lines = SCHEMA.read_text().partition("struct Kinds {\n")[2].splitlines()
    fields = {line.split()[0]: line.split(":")[1].rstrip(";") for line in lines if " :" in line}
    values = {name: made(chance, kind) for name, kind in fields.items() if name != "nothing"}
    shorts = values["shorts"]
    numbers = [number for number in shorts.strip("[]").split(", ") if number]
    values.update(rows="[%s]" % ", ".join(f"(first = {number})" for number in numbers), rowShorts=shorts)
    return "(%s)\n" % ", ".join(f"{name} = {value}" for name, value in values.items())


def convert(way, content, *flags):
    return subprocess.run(["capnp", "convert", "--quiet", *flags, way, SCHEMA, "Kinds"], input=content, check=True,
                          stdout=subprocess.PIPE).stdout


def messages_of(content):
    """The segments of each message of a stream."""
    source, messages = bytearray(content), []
    while source:
        messages.append(model.read_message(source))
    return messages


def program_differences(program, showing, framed, spread):
    """What the programs write otherwise than the tool."""
    packed, canonical = convert("binary:packed", framed), convert("binary:canonical", framed)
    forms, source = [], bytearray(canonical)
    for segments in messages_of(framed):
        forms.append(model.take(source, len(model.canonical_form(model.Message(segments)))))
    framed_forms = b"".join(model.frame([form]) for form in forms)
    hashes = [hashlib.sha256(form).hexdigest() for form in forms]
    for words, given, wanted in (
        ("pack", framed, packed), ("unpack", packed, framed), ("canon", framed, framed_forms), ("canon --packed", packed, framed_forms),
        ("canon", spread, framed_forms), ("canon --packed", convert("binary:packed", spread, "--segment-size=64"), framed_forms),
        ("canon", framed_forms, framed_forms),
    ):
        if subprocess.run([program, *words.split()], input=given, stdout=subprocess.PIPE).stdout != wanted:
            yield f"capnp_ls {words} of {len(given)} bytes writes other bytes"
    for flags, given in (([], framed), (["--packed"], packed), ([], spread)):
        shown = subprocess.run([showing, "--json", "--hash", *flags], input=given, stdout=subprocess.PIPE).stdout
        if [json.loads(line)["sha256"] for line in shown.splitlines()] != hashes:
            yield f"capnp_show --hash {flags} of {len(given)} bytes shows other hashes"


def value_differences(given):
    """Which copied roots and composed values the tool reads otherwise than the messages."""
    with tempfile.TemporaryDirectory() as folder:
        copy, rebuilt = Path(folder), Path(folder, "rebuilt")
        copy_tree(copy, tracked("crates", "crates.txt", "HANDLES"))
        add_crate(copy, "composed: anyhow capnp capnp_values", SCHEMA.parent / "main")
        ran = subprocess.run([*drivers.OURS, "--", rebuilt], cwd=copy / "crates/composed", input=given, stdout=subprocess.PIPE,
                             stderr=subprocess.PIPE)
        if ran.returncode:
            yield "the program of composed values ends with %d\n%s" % (ran.returncode, ran.stderr.decode()[-3000:])
        else:
            yield from rebuilt_differences(given, rebuilt.read_bytes())


def rebuilt_differences(given, rebuilt):
    """The same of what the program wrote."""
    wanted, messages = convert("binary:text", given), messages_of(rebuilt)
    for index, way in enumerate(WAYS):
        found = convert("binary:text", b"".join(map(model.frame, messages[index::4])))
        if found != wanted:
            lines = itertools.zip_longest(wanted.splitlines(), found.splitlines(), fillvalue=b"nothing")
            at, line, other = next((at, *both) for at, both in enumerate(lines) if both[0] != both[1])
            yield f"{way}: message {at}:\nwanted {line[:2000]}\nfound  {other[:2000]}"


def main(words):
    numbers, paths = [int(word) for word in words if word.isdigit()], [word for word in words if not word.isdigit()]
    count, seed = (numbers + [200, 7][len(numbers):])[:2]
    programs = paths or [str(ROOT / f"crates/{name}/out/{name}") for name in ("capnp_ls", "capnp_show")]
    chance = random.Random(seed)
    text = "".join(some_text(chance) for _ in range(count)).encode()
    framed, spread = convert("text:binary", text), convert("text:binary", text, "--segment-size=64")
    several = sum(len(segments) > 1 for segments in messages_of(spread))
    wrong = []
    if all(map(os.path.exists, programs)):
        wrong += program_differences(*programs, framed, spread)
    else:
        print("compare-conformance: without %s no program is compared" % " and ".join(programs))
    wrong += value_differences(framed + spread)
    for text in wrong:
        print(f"compare-conformance: {text}", file=sys.stderr)
    print("compare-conformance: %d messages, %d of several segments, %d bytes, by the C++ tool: %s" % (
        count, several, len(framed), f"{len(wrong)} differ" if wrong else "the same"))
    return 1 if wrong else 0
