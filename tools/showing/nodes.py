"""What capnp_show shows of messages by the model of conformance/: the nodes of a walk, as lines and as JSON has them, and the
status, the output and the diagnostics of a run over some bytes."""
import hashlib
import math

import model
from model import BYTES, LIST, POINTERS, SENTENCES, STRUCT, STRUCTS, WORDS_LIMIT, Invalid, Message, NoMessage

ELEMENTS = ["void", "bit", "byte", "2 bytes", "4 bytes", "8 bytes", "pointer", "struct"]
SHORT = {'"': '\\"', "\\": "\\\\", "\n": "\\n", "\r": "\\r", "\t": "\\t"}


def start_of(found):
    """Where an object begins: a list of structs at its tag."""
    return found.segment, found.begin - (found.kind == LIST and found.code == STRUCTS)


def text_of(message, found):
    """The text that a list of bytes is: UTF-8, with a zero byte at its end; None of all else."""
    data = model.bytes_of(message, found) if found.kind == LIST and found.code == BYTES else b""
    try:
        return data[:-1].decode() if data.endswith(b"\0") else None
    except UnicodeDecodeError:
        return None


class Tree:
    """The nodes of a message, as dictionaries in the order of the JSON, and the pointers that were followed.

    Of a pointer `followed` has its place, its node and the object that it points to, None without one. Where
    there are more nodes than `most`, these are left out, and it is cut."""

    def __init__(self, segments, words=WORDS_LIMIT, nesting=model.NESTING_LIMIT, most=None):
        self.message = Message(segments, words)
        self.nodes, self.followed, self.most, self.is_over, self.is_cut = [], [], most, False, False
        self.pointer((0, 0), {"label": "root"}, 0, nesting)

    def pointer(self, place, label, depth, nesting):
        if self.is_full():
            return
        node = {"depth": depth, **label}
        self.nodes.append(node)
        try:
            found = self.message.object_at(*place, 1)
            model.require(not found or nesting > 0, "NestingLimitExceeded")
            self.message.count(found)
        except Invalid as error:
            self.is_over = error.kind == "ReadLimitExceeded"
            node.update(kind="refused", why=error.sentence)
            self.followed.append((place, node, None))
            return
        self.followed.append((place, node, found))
        self.describe(node, found)
        if found:
            self.below(found, depth + 1, nesting - 1)

    def describe(self, node, found):
        """Adds what is shown of an object, or of null, to its node."""
        node["kind"] = "null" if not found else "struct" if found.kind == STRUCT else "list"
        if not found:
            return
        if found.kind == LIST:
            node.update(element=ELEMENTS[found.code], count=found.count)
        if found.kind == STRUCT or found.code == STRUCTS:
            node.update(data=found.data, pointers=found.pointers)
        node.update(zip(("segment", "word"), start_of(found)))
        if found.landing:
            segment, word = found.landing[0]
            node["landing_pad"] = {"words": len(found.landing), "segment": segment, "word": word}
        if (text := text_of(self.message, found)) is not None:
            node["text"] = text

    def is_full(self):
        """Whether no node is added any more."""
        if not self.is_over and len(self.nodes) == self.most:
            self.is_over = self.is_cut = True
        return self.is_over

    def below(self, found, depth, nesting):
        if found.kind == LIST and found.code == STRUCTS and found.pointers:
            for index, first in enumerate(found.structs()):
                if self.is_full():
                    return
                self.nodes.append({"depth": depth, "label": "element", "index": index, "kind": "struct", "data": found.data,
                                   "pointers": found.pointers, "segment": found.segment, "word": first})
                self.pointers(found.segment, first + found.data, found.pointers, depth + 1, nesting)
        elif found.kind == STRUCT or found.code == POINTERS:
            first = found.begin + (found.data if found.kind == STRUCT else 0)
            self.pointers(found.segment, first, len(found.places()), depth, nesting)

    def pointers(self, segment, first, count, depth, nesting):
        for index in range(count):
            if self.is_over:
                return
            self.pointer((segment, first + index), {"label": "pointer", "index": index}, depth, nesting)


def quoted(text, mark='"'):
    """A JSON string, in which control characters are escaped, also those after ASCII's."""
    shown = (SHORT.get(c) or (f"\\u{ord(c):04x}" if ord(c) < 32 or 0x7F <= ord(c) <= 0x9F else c) for c in text)
    return mark + "".join(shown) + mark


def json_of(value):
    if isinstance(value, dict):
        return "{%s}" % ",".join(f'"{key}":{json_of(item)}' for key, item in value.items())
    if isinstance(value, list):
        return "[%s]" % ",".join(map(json_of, value))
    return quoted(value) if isinstance(value, str) else "null" if value is None else str(value)


def line_of(node):
    """A node as a line."""
    label = node["label"] + (f" {node['index']}" if "index" in node else "")
    said = {"null": "null", "struct": "struct", "list": f"list, element {node.get('element')}, count {node.get('count')}"}
    line = said.get(node["kind"]) or f"refused, since {node['why']}"
    if "data" in node:
        line += f", data {node['data']}, pointers {node['pointers']}"
    if "segment" in node:
        line += f", at {node['segment']}:{node['word']}"
    if landing := node.get("landing_pad"):
        line += f", landing pad {landing['segment']}:{landing['word']}, words {landing['words']}"
    if "text" in node:
        line += f", text {quoted(node['text'])}"
    return "  " * (node["depth"] + 1) + label + ": " + line


def hash_of(segments, words=WORDS_LIMIT, nesting=model.NESTING_LIMIT):
    """The hash of the canonical form, or None, and why there is none."""
    try:
        return hashlib.sha256(model.canonical_form(Message(segments, words, nesting))).hexdigest(), None
    except Invalid as error:
        return None, error.sentence


def front_of(row, sha256=None):
    """The line of a message, with its hash, or why there is none, where it is shown."""
    line = f"message {row['index']}: " + ", ".join(f"{key} {row[key]}" for key in list(row)[1:])
    return line + ("" if not sha256 else f", sha256 {sha256[0]}" if sha256[0] else f", no canonical form: {sha256[1]}")


def sentence(kind):
    """What is said of an error, which is given with its numbers."""
    return f"{SENTENCES[kind.split('(')[0]]} ({kind})"


def messages_of(text, is_packed=False, words=WORDS_LIMIT, first=math.inf):
    """The messages of some bytes, each as what is listed of it and its segments; and of the error that ends them the index, the
    offset and the sentence, or None."""
    source, messages = bytearray(text), []
    while len(messages) < first:
        offset = len(text) - len(source)
        try:
            segments = model.read_message(source, model.unpack if is_packed else model.take, limit=words)
        except NoMessage:
            break
        except Invalid as error:
            return messages, (len(messages), offset, error.sentence)
        row = {"index": len(messages), "offset": offset, "bytes": len(text) - len(source) - offset, "segments": len(segments),
               "words": sum(map(len, segments)) // 8}
        messages.append((row, segments))
    return messages, None


def shown_of(args, name, text, is_named=False):
    """What a run by these words is to print of an input as lines or as JSON, and on standard error."""
    number = {word: int(args[args.index(word) + 1]) for word in ("--first", "--words", "--nesting") if word in args}
    words, nesting = number.get("--words", WORDS_LIMIT), number.get("--nesting", model.NESTING_LIMIT)
    messages, error = messages_of(text, "--packed" in args, words, number.get("--first", math.inf))
    said = "" if not error else "capnp_show: %s: message %d at byte %d: %s\n" % (quoted(name, ""), *error)
    front = quoted(name, "") + ": " if is_named else ""
    if "--count" in args:
        return f"{front}{len(messages)}\n", said
    out = []
    for row, segments in messages:
        sha256 = hash_of(segments, words, nesting) if "--hash" in args else None
        nodes = Tree(segments, words, nesting).nodes if "--tree" in args else []
        if "--json" in args:
            found = {"file": name, **row, **({"sha256": sha256[0]} if sha256 else {})}
            found.update({"no_canonical_form": sha256[1]} if sha256 and sha256[1] else {})
            out.append(json_of({**found, "tree": nodes} if "--tree" in args else found) + "\n")
        else:
            out.append("\n".join([front + front_of(row, sha256), *map(line_of, nodes)]) + "\n")
    return "".join(out), said
