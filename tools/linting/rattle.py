"""The sources of crates in Rattle: the items of a file, each with its documentation and its signature."""
import re
from collections import namedtuple

ITEM = re.compile(r" *(pub )?(?:const (?=fn))?(?:unsafe )?(?:extern \"C\" )?(fn|struct|enum|trait|const|type) (\w+)")
CONTRACT = re.compile(r"\s*(requires|ensures|decreases|ghost)\b|\s*\{")
BLOCK = re.compile(r"(?:unsafe )?impl(?:<.*?>)? (.*?) \{|pub trait (\w+)")
# The number of its line; the type or trait that it is of, "" outside of these, and None in the block of a trait for a type; the lines
# of its documentation.
Item = namedtuple("Item", "line kind name owner comment signature")

ERRORS = "crates/capnp_frame/src/error.rt"
KIND = re.compile(r"^            ErrorKind::(\w+)", re.M)


def signature(lines):
    """What a function takes and returns, of the lines that begin with its name: all before its contract and body."""
    words = []
    for line in lines:
        if CONTRACT.match(line):
            break
        words.append(re.sub(r"\s*(//.*|[{;])?$", "", line.strip()))
        if line.rstrip().endswith((";", "{")):
            break
    text = re.sub(r"\s+", " ", " ".join(words)).strip().removeprefix("pub ")
    return re.sub(r",? ([)>])", r"\1", re.sub(r"([(<]) ", r"\1", text)).rstrip(",")


def items(text):
    """The public items of a file before its tests, and the functions of its public traits."""
    owner, is_trait, comment, lines = None, False, [], text.split("\n")
    for number, line in enumerate(lines):
        said = line.strip()
        if said.startswith("#[cfg(test)]"):
            return
        if said.startswith("///"):
            comment.append(said[3:].strip())
        elif said and not said.startswith("#["):
            opened, item = BLOCK.match(line), ITEM.match(line)
            if opened or line == "}":
                is_trait = opened is not None and opened[2] is not None
                of_type = opened and opened[1] and " for " not in opened[1]
                owner = opened[2] if is_trait else re.match(r"[\w:]+", opened[1])[0].split("::")[-1] if of_type else None
            if item and (item[1] or is_trait and item[2] == "fn"):
                yield Item(number + 1, item[2], item[3], owner if line.startswith("    ") else "", comment, signature(lines[number:]))
            comment = []
