"""Reads a page that capnp_show wrote, and compares it with the one that drawing.py draws."""
import re
from html.parser import HTMLParser

# what is only between an element and those that are compared: a parser may add it
BETWEEN = {"head", "body", "tbody", "div"}
# what holds elements alone, so that blanks in it mean nothing
HOLDERS = {"page", "html", "section", "table", "tr", "ol", "svg"}
EMPTY = {"meta", "br"}
# what a page that is alone may not have
FETCHING = {"src", "srcset", "data", "action", "background", "poster", "http-equiv"}
ELEMENTS = "html head meta title style body h1 h2 h3 section div p br span table tbody tr th td a svg path ol li".split()
# a start tag whose values are in quotation marks and are escaped
TAG = re.compile(r'<[a-z][a-z0-9]*(\s+[a-z-]+="([^"<&]|&(amp|lt|gt|quot|#39|#[0-9]+);)*")*\s*/?>')
# what no page may have anywhere
NOWHERE = {
    "an & that is not escaped": re.compile(r"&(?!(amp|lt|gt|quot|#39|#[0-9]+);)"),
    "a < that is not escaped": re.compile(r"<(?!/?[a-z]|!DOCTYPE html>)"),
    "a control character": re.compile("[\0-\x09\x0b-\x1f\x7f-\x9f]"),
}


class Element:
    """An element of a page: its tag, its attributes, and texts and elements in it."""

    def __init__(self, tag, attributes=None, inside=()):
        self.tag, self.attributes, self.inside = tag, attributes or {}, list(inside)

    def __str__(self):
        return f"<{self.tag}" + "".join(f' {key}="{value}"' for key, value in self.attributes.items()) + ">"


class Page(HTMLParser):
    """The elements of a page, and what is wrong with them whatever they say."""

    def __init__(self, text):
        super().__init__(convert_charrefs=True)
        self.wrongs, self.top = [], Element("page")
        self.open, self.ids, self.links = [self.top], set(), []
        if not text.startswith("<!DOCTYPE html>"):
            self.wrongs.append("it does not begin with <!DOCTYPE html>")
        for what, pattern in NOWHERE.items():
            if found := pattern.search(text):
                self.wrongs.append(f"{what}: {text[found.start():][:40]!r}")
        self.feed(text)
        self.close()
        self.wrongs += [f"{element} is not closed" for element in self.open[1:]]
        self.wrongs += [f"a link to #{link}, which is not there" for link in self.links if link not in self.ids]

    def handle_starttag(self, tag, attrs):
        written = self.get_starttag_text()
        if not TAG.fullmatch(written):
            self.wrongs.append(f"a tag that is not written as one: {written[:60]!r}")
        if tag not in ELEMENTS:
            self.wrongs.append(f"an element that has no place: {written[:60]!r}")
        element = Element(tag, dict(attrs))
        if len(element.attributes) < len(attrs):
            self.wrongs.append(f"an attribute twice: {written[:60]!r}")
        for name, value in attrs:
            self.look_at_attribute(name, value or "")
        if tag in BETWEEN:
            element.inside = self.open[-1].inside
        else:
            self.open[-1].inside.append(element)
        if tag not in EMPTY:
            self.open.append(element)

    def look_at_attribute(self, name, value):
        is_elsewhere = name == "href" and not value.startswith("#")
        is_styled = name == "style" and not re.fullmatch(r"height: [0-9]+px;?", value)
        if name in FETCHING or name.startswith("on") or is_elsewhere or is_styled:
            self.wrongs.append(f'a page that stands alone has no {name}="{value}"')
        if name == "href":
            self.links.append(value[1:])
        if name == "id":
            if value in self.ids:
                self.wrongs.append(f"the id {value} twice")
            self.ids.add(value)

    def handle_endtag(self, tag):
        if len(self.open) > 1 and self.open[-1].tag == tag:
            self.open.pop()
        else:
            self.wrongs.append(f"</{tag}> within {self.open[-1]}")

    def handle_data(self, data):
        element = self.open[-1]
        if element.tag == "style" and re.search(r"url\(|@import|</", data):
            self.wrongs.append("the style fetches something")
        if element.tag in HOLDERS | BETWEEN:
            if data.strip():
                self.wrongs.append(f"a text within {element}: {data[:60]!r}")
        elif element.inside and isinstance(element.inside[-1], str):
            element.inside[-1] += data
        else:
            element.inside.append(data)

    def handle_comment(self, data):
        self.wrongs.append(f"a comment: {data[:60]!r}")

    def handle_pi(self, data):
        self.wrongs.append(f"an instruction: {data[:60]!r}")


def differences(wanted, found, path=""):
    """What of an element differs from the wanted one: the first difference of each part."""
    path = f"{path}/{wanted}"
    if found.tag != wanted.tag:
        yield f"{path}: found {found}"
        return
    for name in sorted({*wanted.attributes, *found.attributes}):
        said, want = found.attributes.get(name), wanted.attributes.get(name)
        if not (want(said) if callable(want) else said == want):
            yield f"{path}: {name} is {said!r}" + ("" if callable(want) else f" and not {want!r}")
    if wanted.inside == [any]:
        return
    for index in range(max(len(wanted.inside), len(found.inside))):
        want = wanted.inside[index] if index < len(wanted.inside) else None
        is_it = found.inside[index] if index < len(found.inside) else None
        if isinstance(want, Element) and isinstance(is_it, Element):
            yield from differences(want, is_it, path)
        elif want != is_it:
            yield f"{path}: {str(is_it)[:200]!r} and not {str(want)[:200]!r}"
            return


def wrongs_of(text, wanted):
    """What is wrong with the text of a page, which is to be the wanted one; at most five of each kind."""
    page = Page(text)
    return page.wrongs[:5] + [wrong for wrong, _ in zip(differences(wanted, page.top), range(5))]
