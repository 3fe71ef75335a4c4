"""Writes the examples of public items' documentation as tests: examples.py ROOT FOLDER

Each example of crates/CRATE/src becomes a test of FOLDER/of_CRATE.rt; one that has items is there as it is. What examples take is in
tools/consumer/examples/CRATE: first code that comes before them all, then values. A value is a line that begins with `let`, with those
below it. It comes before an example that has its name and gives it no value itself. Below a line `//= PATH ITEM, ..` it is one
for the examples of this file or folder, or of the item; of two the one with the longer path counts. Lines `//> ..` come after the
example. The names of the modules are printed.
"""
import re
import sys
from pathlib import Path
from textwrap import indent

COMMENT = re.compile(r"\s*//[/!] ?(.*)")
ITEM = re.compile(r"\s*(?:pub )?(?:const )?(?:fn|struct|enum|trait|type) (\w+)")
IS_ITEM = re.compile(r"(?:fn|impl|type|static|const) ")
COMMON = """\
let alloc = rt.alloc();
let options = DEFAULT_READER_OPTIONS;
let padding = Padding::Zero;
let format = Format::Framed;
let mut source = HELLO.as_slice();
let segments = [[0; 8].as_slice()];
let mut stream = Vec::new(alloc);
"""
TEST = """
#[test]
fn %s(rt: HostRuntime) -> std::result::Result<(), Fail> {
%s
    Ok(())
}
"""


def examples(path):
    """The lines of each example of a file, after the item that it documents."""
    example, waiting = None, []
    for line in path.read_text().splitlines():
        said = COMMENT.fullmatch(line)
        if said and said[1].startswith("```"):
            if example is not None:
                waiting.append(example)
            example = [] if example is None else None
        elif said and example is not None:
            example.append(said[1])
        elif example is not None:
            sys.exit(f"try-consumer: {path}: an example does not end")
        elif waiting and (item := ITEM.match(line)):
            yield from ((item[1], lines) for lines in waiting)
            waiting = []


class Given:
    """What the examples of a crate take."""

    def __init__(self, text):
        self.code, *rest = re.split(r"^(?=let |//= )", text, maxsplit=1, flags=re.M)
        everywhere, *sections = re.split(r"^//= (.*)\n", "".join(rest), flags=re.M)
        self.sections = [("", COMMON), ("", everywhere)]
        for places, lines in zip(sections[::2], sections[1::2]):
            self.sections += [(place, lines) for place in places.split(", ")]

    def of(self, path, item):
        """The values for an example, by their names, and the lines that come after it."""
        values, after = {}, []
        found = [part for part in self.sections if is_of(part[0], path, item)]
        for _, lines in sorted(found, key=lambda part: len(part[0])):
            for value in re.findall(r"^let .*\n(?:(?!let |//).+\n)*", lines, re.M):
                values[bound(value)[0]] = value
            after = re.findall(r"^//> (.*)", lines, re.M) or after
        return values, after


def is_of(place, path, item):
    folder, _, only = place.partition(" ")
    return (path + "/").startswith(folder + "/" if folder else "") and only in ("", item)


def bound(text):
    return re.findall(r"\b(?:let (?:Some|Ok|Err)\((?:mut )?|let (?:mut )?|for |(?:Some|Ok|Err)\((?=\w+\) =>))(\w+)", text)


def used(text):
    """The names of values in a text: no fields, methods, paths or words of texts."""
    return re.findall(r"(?<![\w.\"])(?<!::)[a-z]\w*(?!\w|::|\"|!)", re.sub(r'"[^"]*"', lambda it: " ".join(re.findall(r"\{(\w+)", it[0])), text))


def with_values(text, values):
    """A text below the values that it takes."""
    needed, own = [], set(bound(text))

    def take(part):
        for name in used(part):
            if name in values and name not in own:
                own.add(name)
                take(values[name])
                needed.append(values[name])
    take(text)
    return "".join(needed) + text


def module(source, given):
    """The tests of the examples of a crate's sources."""
    items, tests, names = [], [], set()
    for file in sorted(source.rglob("*.rt")):
        path = str(file.relative_to(source))[:-3]
        for item, lines in examples(file):
            values, after = given.of(path, item)
            text = "\n".join(lines) + "\n"
            if IS_ITEM.match(text):
                items.append("\n" + text)
                lines = []
            body = with_values("".join(line + "\n" for line in [*lines, *after]), values)
            name = f"{path}_{item}".replace("/", "_").lower()
            if name in names:
                sys.exit(f"try-consumer: {file}: {item} has two examples")
            names.add(name)
            if body:
                tests.append(TEST % (name, indent(body.rstrip("\n"), "    ")))
    return given.code + "".join(items + tests)


root, folder = map(Path, sys.argv[1:])
for crate in sorted((root / "crates").iterdir()):
    given = root / "tools/consumer/examples" / crate.name
    if any("/// ```" in path.read_text() for path in crate.glob("src/**/*.rt")):
        (folder / f"of_{crate.name}.rt").write_text(module(crate / "src", Given(given.read_text())))
        print(f"of_{crate.name}")
