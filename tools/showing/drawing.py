"""The page that capnp_show is to write of messages, drawn from a walk of the model over the same bytes."""
import re

from model import POINTERS, STRUCT, STRUCTS
from nodes import Tree, front_of, line_of, quoted, start_of
from page import Element

MOST_WORDS = 4096
MOST_NODES = 65536
WORDS_IN_A_ROW = 4
COLOURS = 9
TOO_LARGE = "A message of more than 4096 words is not drawn."
TOO_MANY = "Only the first 65536 nodes are drawn."


class Word:
    """How a word is drawn: its classes, and what the pointer there points to: None, or "null", or the number of
    an object and its place; and why it is invalid, where a walk comes to it deeper than it may, say."""

    def __init__(self):
        self.classes, self.lead, self.why = ["free"], None, None

    def is_pointer(self):
        return self.classes[0] == "pointer"


class Drawing:
    """The words of a message: each belongs to what the walk reaches it by first."""

    def __init__(self, name, segments, **limits):
        self.name, self.segments = name, segments
        self.words = {(segment, word): Word() for segment, kept in enumerate(segments) for word in range(len(kept) // 8)}
        self.tree = Tree(segments, most=MOST_NODES, **limits)
        self.claim((0, 0), "pointer", "root")
        number = 0
        for place, node, found in self.tree.followed:
            self.follow(place, node, found, number)
            if found:
                self.claim_object(found, f"o{number}", f"c{number % COLOURS}")
                number += 1

    def claim(self, place, *classes):
        word = self.words.get(place)
        if word and word.classes == ["free"]:
            word.classes = list(classes)

    def follow(self, place, node, found, number):
        """Notes what the pointer at a place points to, and why it is invalid, each for the first time."""
        word = self.words.get(place) or Word()
        if node["kind"] == "refused":
            word.why = word.why or node["why"]
        else:
            word.lead = word.lead or ((number, start_of(found)) if found else "null")

    def claim_object(self, found, *of):
        for place in found.landing:
            self.claim(place, "landing", *of)
        segment, word = start_of(found)
        for index, kind in enumerate(kinds_of(found)):
            self.claim((segment, word + index), kind, *of)

    def target(self, word):
        """The object that a word links to, and the place; None where there is no word at that place."""
        is_there = word.is_pointer() and isinstance(word.lead, tuple) and word.lead[1] in self.words
        return word.lead if is_there else None

    def anchor(self, place):
        return f"{self.name}-{place[0]}-{place[1]}"

    def cell(self, place):
        """The cell of a word."""
        word = self.words[place]
        at = place[1] * 8
        shown = self.segments[place[0]][at : at + 8].hex()
        if to := self.target(word):
            shown = Element("a", {"href": "#" + self.anchor(to[1])}, [shown, arrow(to[0])])
        drawn = word.classes + ["null"] * (word.is_pointer() and word.lead == "null") + ["refused"] * bool(word.why)
        return Element("td", {"id": self.anchor(place), "class": classes(drawn), "title": title(word, place)}, [shown])

    def tables(self):
        """The heading and the table of each segment."""
        for segment, kept in enumerate(self.segments):
            count = len(kept) // 8
            yield Element("h3", {}, [f"segment {segment}, words {count}"])
            rows = []
            for first in range(0, count, WORDS_IN_A_ROW):
                places = [(segment, word) for word in range(first, min(first + WORDS_IN_A_ROW, count))]
                rows.append(Element("tr", {}, [Element("th", {}, [str(first)]), *map(self.cell, places)]))
            yield Element("table", {"class": "segment"}, rows)

    def lists(self):
        """The list of the objects, and what is said of a walk that doesn't come to all."""
        place, node, _ = self.tree.followed[0]
        if node["kind"] == "refused" and place not in self.words:
            yield Element("p", {"class": "refused"}, [line_of(node).strip()])
        nodes = [node for _, node, found in self.tree.followed if found]
        lines = [Element("li", {"class": f"o{k} c{k % COLOURS}"}, [line_of(node).strip()]) for k, node in enumerate(nodes)]
        yield Element("ol", {"class": "objects", "start": "0"}, lines)
        if self.tree.is_cut:
            yield Element("p", {"class": "more"}, [TOO_MANY])


def kinds_of(found):
    """What each word of an object holds, in order."""
    element = found.data * ["data"] + found.pointers * ["pointer"]
    if found.kind == STRUCT:
        return element
    if found.code == STRUCTS:
        return ["tag"] + (found.count * element if element else []) + (found.room - found.count * found.step()) * ["data"]
    return found.size() * ["pointer" if found.code == POINTERS else "data"]


def arrow(number):
    """The arrow of a link, in the colour of the object that it points to; where it runs is not compared."""
    path = Element("path", {"class": f"c{number % COLOURS}", "d": is_path})
    return Element("svg", {}, [path])


def is_path(said):
    return bool(said) and re.fullmatch(r"M[0-9]+ [0-9]+[HVLml0-9 .-]*", said) is not None


def classes(wanted):
    """Whether the classes of a cell are these, the first one first."""
    return lambda said: said is not None and said.split()[0] == wanted[0] and sorted(said.split()) == sorted(wanted)


def title(word, place):
    """Whether a cell says where it is and to which object it belongs, or why its pointer is invalid."""
    if word.why:
        return lambda said: said == f"refused, since {word.why}"
    owned = [f"object {name[1:]}" for name in word.classes if re.fullmatch("o[0-9]+", name)]
    parts = [f"{place[0]}:{place[1]}", *owned]
    return lambda said: bool(said) and "refused" not in said and all(re.search(rf"\b{part}\b", said) for part in parts)


def message_of_page(name, row, segments, sha256, limits):
    """The section of a message."""
    inside = [Element("h2", {}, [front_of(row, sha256)])]
    if row["words"] > MOST_WORDS:
        inside.append(Element("p", {"class": "large"}, [TOO_LARGE]))
    else:
        drawing = Drawing(name, segments, **limits)
        inside += [*drawing.tables(), *drawing.lists()]
    return Element("section", {"class": "message", "id": name}, inside)


def page_of(inputs, limits):
    """The page of inputs, each a name and its messages: what is listed of one, its segments and its hash."""
    inside = [Element("meta", {"charset": "utf-8"}), Element("meta", {"name": "viewport", "content": "width=device-width"})]
    inside += [Element("title", {}, ["capnp_show"]), Element("style", {}, [any])]
    inside.append(Element("p", {"class": "legend"}, [any]))
    for number, (name, messages) in enumerate(inputs):
        inside.append(Element("h1", {}, ["".join(c if c.isprintable() else quoted(c, "") for c in name)]))
        for row, segments, sha256 in messages:
            inside.append(message_of_page(f"m{number}-{row['index']}", row, segments, sha256, limits))
    return Element("page", {}, [Element("html", {"lang": "en"}, inside)])
