"""Thresholds in public functions of the product crates that take a count, a size, an index or a slice: past 66,000, of a slice its
length, each returns `OutOfMemory`, `None` or 0, by its type.

A function is checked first, over what checks here kept in out/; where it is still proved, the tests of the crates over it are run
before any proof. A function takes half a minute to some ten.
"""
import re

from edits import Edit
from linting.rattle import CONTRACT, items
from prelude import ROOT, crates, output

PRODUCT = ["capnp_frame", "capnp_pack", "capnp_layout", "capnp_wire", "capnp_values", "capnp_build", "capnp_message",
           "capnp", "capnp_orphans", "capnp_ls", "capnp_show", "capnp_c"]
PAST = "66_000"
NUMBER = re.compile(r"(?<!const )\b(\w+): (?:usize|u64|u32)\b")
SLICE = re.compile(r"\b(\w+): &(?:'\w+ )?(?:mut )?(?:&(?:'\w+ )?)?(?:\[|str\b)")
# Parameters that are no count, size or index.
OTHERS = {"word", "tag", "bits", "value", "nesting", "mask", "default_bits"}


def returned(kind, crate):
    """What a function of this type returns past the threshold, or nothing."""
    if re.fullmatch(r"Result<[^,]*(<.*>)?[^,]*>", kind):
        library = "capnp_frame" if "capnp_frame" in crates()[crate] else "capnp"
        error = "crate::error::%s" if crate == "capnp_frame" else library + "::%s"
        return "Err(%s::from_kind(%s::OutOfMemory))" % (error % "Error", error % "ErrorKind")
    if kind.startswith("Option<"):
        return "None"
    return "0" if kind in ("usize", "u64", "u32", "u16", "u8", "i64", "i32", "i16", "i8") else None


def body_of(lines, at):
    """The line whose brace opens the body of a function that begins at a line."""
    alone, is_head = lines[at][:-len(lines[at].lstrip())] + "{", True
    while lines[at] != alone:
        is_head = is_head and not CONTRACT.match(lines[at])
        if is_head and lines[at].endswith(" {"):
            break
        at += 1
    return at


def functions():
    """An edit for each function, whose old text is its file up to the body, and whose new one has a line more; by their names."""
    found = []
    for crate in PRODUCT:
        for path in sorted((ROOT / "crates" / crate / "src").rglob("*.rt")):
            text, file = path.read_text(), str(path.relative_to(ROOT / "crates" / crate))
            lines = text.split("\n")
            for item in items(text):
                if item.kind != "fn" or not lines[item.line - 1].lstrip().startswith("pub fn "):
                    continue
                parameters, _, kind = item.signature.rpartition(") -> ")
                counts = [name for name in NUMBER.findall(parameters) if name not in OTHERS]
                counts += [name + ".len()" for name in SLICE.findall(parameters)]
                value = returned(kind, crate)
                if counts and value:
                    head = "\n".join(lines[:body_of(lines, item.line - 1) + 1])
                    line = "if %s > %s { return %s; }" % (counts[0], PAST, value)
                    edit = Edit(crate, file + " " + item.name, [["file", file], ["old", head], ["new", head + "\n" + line]])
                    found.append(edit)
    return sorted(found, key=str)


def goal_of(text):
    """The first line that says what isn't proved."""
    lines = [line.strip() for line in text.splitlines() if re.search(r"error|not proved|goal|refused", line)]
    return lines[0] if lines else (text.strip().splitlines() or ["nothing was said"])[-1]


def outcome_of(edit, copy):
    """How the threshold is caught, if it is."""
    module, name = edit.name.removeprefix("src/").split(".rt ")
    only = name if module in ("lib", "main") else module.replace("/", "::")
    status, said = output(["rt", "check", "--jobs", "1", "--only", only], copy / "crates" / edit.crate)
    if re.search(r"\berror\[[\w-]+\]", said) or status not in (0, 1):
        return "can't be tried: " + goal_of(said)
    if status == 1:
        return "caught: goal: " + goal_of(said)
    over = [name for name, listed in crates().items() if name.endswith("_tests") and edit.crate in listed]
    for tests in over + [edit.crate] * (edit.crate in ("capnp_ls", "capnp_show")):
        said = output(["rt", "try", "--test", "--seconds", "300"], copy / "crates" / tests)[1]
        failed = re.findall(r"^test (\S+) [.]{3} FAILED$", said, re.M)
        if failed:
            return "caught: test: %s %s%s" % (tests, failed[0], " and %d more" % (len(failed) - 1) if failed[1:] else "")
        if "test result: ok" not in said:
            return "can't be tried: " + goal_of(said)
    return "not caught"
