"""The list of public items, docs/API.md: a line for each public item of the libraries and one for the arguments of each
function, from their sources.

An item has the path that its user writes: by its modules, or where one of these is private by
the `pub use` that names it. A line has the item's kind and the first sentence of its documentation; the line below a
function has what it takes and returns, without its contract. The page has two parts: `capnp`, the crate that programs
name, with what it re-exports, and what else the crates below have, for authors of views and allocators. `laws`, whose
functions do nothing, are left out.
"""
import re

from .rattle import items
from .tree import ROOT, first_difference, text_of

PAGE = "docs/API.md"
PARTS = [
    ("For programs", ["capnp"]),
    ("For authors of views and allocators",
     ["capnp_message", "capnp_frame", "capnp_pack", "capnp_layout", "capnp_wire", "capnp_build", "capnp_orphans", "capnp_values"]),
]
LEFT_OUT = {"laws"}
# What code names that the schema compiler writes, and no program.
FOR_MADE_CODE = re.compile(r"constant::|upgraded::(FromStruct|OwnedStructs|StructFields|Structs)$")


def first_sentence(lines):
    """The first sentence of a documentation comment, without the links' targets."""
    text = " ".join(lines).strip()
    text = re.sub(r"\[([^\]]*)\]\([^)]*\)", r"\1", text)
    match = re.match(r"(.*?[.:])(?= |$)", text)
    return (match.group(1) if match else text).rstrip(":").rstrip(".")


def file_of(source, path):
    """The file of a module."""
    return source / ("lib.rt" if not path else "/".join(path) + ".rt")


def module_of(source, file):
    path = list(file.relative_to(source).with_suffix("").parts)
    return [] if path == ["lib"] else path


def is_public(source, path):
    """Whether each module on the way is public."""
    for depth in range(len(path)):
        parent = file_of(source, path[:depth])
        if not re.search(rf"^pub mod {path[depth]};", text_of(parent), re.M):
            return False
    return True


def used_in(source, path, name):
    """The module that names an item of a private module by `pub use`."""
    for depth in range(len(path) - 1, -1, -1):
        if not is_public(source, path[:depth]):
            continue
        for used in re.findall(r"^pub use ([^;]*);", text_of(file_of(source, path[:depth])), re.M):
            if re.search(rf"\b{name}\b", used):
                return path[:depth]
    private = "crate::" + "::".join(path) + "::"
    for file in sorted(source.rglob("*.rt")):
        module = module_of(source, file)
        if is_public(source, module) and re.search(rf"^pub use {private}[^;]*\b{name}\b", text_of(file), re.M):
            return module
    return None


def public_items(source, file):
    """The public items of a file: path, kind, first sentence, signature, whether the documentation has an example."""
    path = module_of(source, file)
    for item in items(text_of(file)) if not LEFT_OUT & set(path) else ():
        where = path if is_public(source, path) else used_in(source, path, item.owner or item.name)
        if where is not None and item.owner is not None:
            sentence = first_sentence(item.comment[: item.comment.index("") if "" in item.comment else None])
            own = "::".join(filter(None, [*where, item.owner, item.name]))
            yield own, item.kind, sentence, item.signature if item.kind == "fn" else None, "```" in item.comment


def leaves(text):
    """The paths that a `use` names."""
    opened = re.match(r"((?:\w+::)*)\{(.*)\}$", text.strip(), re.S)
    if not opened:
        return [text.strip()]
    parts = re.findall(r"(?:[^,{}]|\{[^{}]*\})+", opened.group(2))
    return [opened.group(1) + leaf for part in parts if part.strip() for leaf in leaves(part)]


def passed_on(crate):
    """What a crate re-exports of others: the crate, the path there, none of a whole crate, and the path here."""
    source = ROOT / "crates" / crate / "src"
    for file in sorted(source.rglob("*.rt")):
        path = module_of(source, file)
        if is_public(source, path) and not LEFT_OUT & set(path):
            for used in re.findall(r"^pub use (capnp_[^;]*);", text_of(file), re.M):
                for leaf in leaves(used):
                    there, _, name = leaf.partition(" as ")
                    other, *names = there.split("::")
                    yield other, names, "::".join(path + ([name] if name else names[-1:]))


def take(found, names, here):
    """Takes an item, or all of a module or of the crate, out of a crate's items, and gives it its path here. What the root
    of a crate names may be in a public module of it, too."""
    if not names:
        taken = {(f"{here}::{item[0]}", *item[1:]) for item in found}
        found.clear()
        return taken
    origins = {"::".join(names)}
    if len(names) == 1:
        origins |= {path for path, *_ in found if re.fullmatch(rf"([a-z_]+::)*{names[0]}", path)}
    taken = set()
    for origin in origins:
        for item in [item for item in found if (item[0] + "::").startswith(origin + "::")]:
            found.discard(item)
            taken.add((here + item[0][len(origin):], *item[1:]))
    return taken


def found_items():
    """The items of each crate, each under the crate that programs name it by."""
    found = {}
    for crate in [crate for _, crates in PARTS for crate in crates]:
        source = ROOT / "crates" / crate / "src"
        files = [file for file in sorted(source.rglob("*.rt")) if "tests" not in file.stem]
        found[crate] = {item for file in files for item in public_items(source, file)}
    for other, names, here in passed_on("capnp"):
        found["capnp"] |= take(found[other], names, here)
    return found


def page():
    lines = ["# The public items of the libraries", ""]
    lines += ["Made by `tools/write api` from the documentation in the sources, which says more, as do the contracts there.", ""]
    found = found_items()
    for part, crates in PARTS:
        lines += [f"## {part}", ""]
        for crate in filter(found.get, crates):
            lines += [f"### {crate}", ""]
            for path, kind, sentence, taken, _ in sorted(found[crate], key=lambda item: (item[0].lower(), item[1], item[3] or "")):
                lines.append(f"- `{path}`, {kind}" + (f": {sentence}." if sentence else ""))
                if taken:
                    lines.append(f"  `{taken}`")
            lines.append("")
    return "\n".join(lines)


def without_example():
    """The types and traits that programs name, and the free functions of `capnp` but those of whole crates, that have no
    example."""
    whole = {here for _, names, here in passed_on("capnp") if not names}
    for path, kind, _, _, example in sorted(found_items()["capnp"], key=lambda item: item[0]):
        *owners, _ = path.split("::")
        is_free = not owners or owners[0] not in whole and not owners[-1][:1].isupper()
        wanted = kind in ("struct", "enum", "type", "trait") or kind == "fn" and is_free
        if wanted and not example and not FOR_MADE_CODE.match(path):
            yield f"capnp::{path}"


def check(tree):
    text = page()
    tree.seen(text.count("\n- "))
    has = tree.text(PAGE) if tree.has(PAGE) else ""
    if has != text:
        tree.wrong(PAGE, first_difference(has, text)[0], "not what the sources say: run tools/write api")
    for path in without_example():
        tree.wrong(PAGE, 0, f"{path} has no example in its documentation")
