"""Tries what compares pages: pages that are written out here pass, and the same pages with a mistake are found wrong."""
import sys
from html import escape

from drawing import page_of
from nodes import sentence
from page import wrongs_of
from samples import END, ESCAPES, FAR, FAR_SECTION, FRONT, ONE_STRUCT, WIDE, listed, words

HEAD = FRONT + """td { font-family: monospace } .c0 { background: #fff }</style>
</head>
<body>
<p class="legend"><span class="key-data">data</span><br>Each word is shown.</p>
"""
NULLS = [words(3 << 48, 0, 7, 0x12_00000001) + b"a\0\0\0\0\0\0\0"]


def cell(place, classes, shown, link=None, title=None):
    shown = f'<a href="#{link}">{shown}{arrow(int(classes != "pointer root"))}</a>' if link else shown
    _, _, segment, word = place.split("-")
    of = classes.split()[1] if " o" in classes else ""
    title = title or f"word {segment}:{word}" + of.replace("o", ", of object ")
    return f'<td id="{place}" class="{classes}" title="{title}">{shown}</td>'


def arrow(number):
    """The arrow of a link: the root pointer points to object 0, and the other links of these pages to object 1."""
    return f'<svg><path class="c{number}" d="M216 61H254m-5 -3l5 3l-5 3"/></svg>'


def table(segment, count, *rows):
    """The table of a segment; each row is the number of its first word and its cells."""
    written = "".join(f"<tr><th>{first}</th>{''.join(cells)}</tr>\n" for first, *cells in rows)
    heading = f"<h3>segment {segment}, words {count}</h3>"
    return f'<div style="height: 88px">\n{heading}\n<table class="segment">\n{written}</table>\n</div>\n'


def section(name, line, tables, objects):
    """A section; `objects` are the lines of its objects, to each of which one pointer points."""
    listed_objects = "".join(
        f'<li class="o{number} c{number}">{escape(line, quote=False)}</li>\n' for number, line in enumerate(objects)
    )
    return f"""<section class="message" id="{name}">
<h2>{line}</h2>
<div class="drawing">
{tables}</div>
<ol class="objects" start="0">
{listed_objects}</ol>
</section>
"""


INVALID = "refused, since " + sentence("CapabilityRefused")
PAGES = {
    "far": (FAR, FAR_SECTION),
    "double-far": (WIDE, section("m0-0", "message 0: offset 0, bytes 64, segments 3, words 6", table(
        0, 2, (0, cell("m0-0-0-0", "pointer root", "0000000000000100", "m0-0-0-1"),
               cell("m0-0-0-1", "pointer o0 c0", "0600000002000000", "m0-0-1-1")),
    ) + table(
        1, 2, (0, cell("m0-0-1-0", "free", "0000000000000000"), cell("m0-0-1-1", "data o1 c1", "6869000000000000")),
    ) + table(
        2, 2, (0, cell("m0-0-2-0", "landing o1 c1", "0a00000001000000"), cell("m0-0-2-1", "landing o1 c1", "010000001a000000")),
    ), ["root: struct, data 0, pointers 1, at 0:1",
        'pointer 0: list, element byte, count 3, at 1:1, landing pad 2:0, words 2, text "hi"'])),
    "nulls": (NULLS, section("m0-0", "message 0: offset 0, bytes 48, segments 1, words 5", table(
        0, 5, (0, cell("m0-0-0-0", "pointer root", "0000000000000300", "m0-0-0-1"), cell("m0-0-0-1", "pointer o0 c0 null", "0000000000000000"),
               cell("m0-0-0-2", "pointer o0 c0 refused", "0700000000000000", title=INVALID),
               cell("m0-0-0-3", "pointer o0 c0", "0100000012000000", "m0-0-0-4")),
        (4, cell("m0-0-0-4", "data o1 c1", "6100000000000000")),
    ), ["root: struct, data 0, pointers 3, at 0:1", 'pointer 2: list, element byte, count 2, at 0:4, text "a"'])),
    "structs": (ONE_STRUCT, section("m0-0", "message 0: offset 0, bytes 40, segments 1, words 4", table(
        0, 4, (0, cell("m0-0-0-0", "pointer root", "0100000017000000", "m0-0-0-1"), cell("m0-0-0-1", "tag o0 c0", "0400000001000100"),
               cell("m0-0-0-2", "data o0 c0", "0700000000000000"),
               cell("m0-0-0-3", "pointer o0 c0 refused", "0300000000000000", title=INVALID)),
    ), ["root: list, element struct, count 1, data 1, pointers 1, at 0:1"])),
    "escapes": (ESCAPES, section("m0-0", "message 0: offset 0, bytes 32, segments 1, words 3", table(
        0, 3, (0, cell("m0-0-0-0", "pointer root", "010000005a000000", "m0-0-0-1"), cell("m0-0-0-1", "data o0 c0", "61225c0a1b7fc285"),
               cell("m0-0-0-2", "data o0 c0", "c3a9000000000000")),
    ), ['root: list, element byte, count 11, at 0:1, text "a\\"\\\\\\n\\u001b\\u007f\\u0085\u00e9"'])),
}

WORD = 'title="word 0:4, of object 1"'
# mistakes of the page of nulls: what is there, and what is written for it
MISTAKES = [
    ("<!DOCTYPE html>", ""),
    ('lang="en"', 'lang="de"'),
    ('<meta charset="utf-8">', ""),
    ('<meta name="viewport" content="width=device-width">', ""),
    ("<title>capnp_show</title>", "<title>show</title>"),
    ('<p class="legend">', '<p>'),
    ("Each word is shown.</p>", "Each word is shown.</p><p></p>"),
    ("<br>", '<img src="a.png">'),
    ("</style>", '</style><script>alert("a")</script>'),
    ("td {", "@import url(a.css); td {"),
    ("<h1>a&lt;b</h1>", "<h1>a<b</h1>"),
    ("<h1>a&lt;b</h1>", "<h1>a&b</h1>"),
    ("<h1>a&lt;b</h1>", "<h1>a&amp;lt;b</h1>"),
    ("<h1>a&lt;b</h1>", ""),
    ("message 0: offset 0, bytes 48", "message 0: offset 0, bytes 47"),
    ('class="message"', 'class="messages"'),
    ('id="m0-0"', 'id="m0-1"'),
    ("<h3>segment 0, words 5</h3>", "<h3>segment 0, words 4</h3>"),
    ("<th>4</th>", "<th>5</th>"),
    ("</tr>\n<tr>", ""),
    ('class="pointer root"', 'class="pointer root o0 c0"'),
    ('class="pointer root"', 'class="root pointer"'),
    ('class="pointer o0 c0 null"', 'class="pointer o0 c0"'),
    ('class="pointer o0 c0 refused"', 'class="pointer o0 c0"'),
    ('class="data o1 c1"', 'class="data o1 c0"'),
    ('class="data o1 c1"', 'class="data o0 c0"'),
    ('class="data o1 c1"', 'class="data o1 c1 new"'),
    ('class="data o1 c1"', 'class="free"'),
    ("0300", "0003"),
    (INVALID, "refused"),
    (INVALID, INVALID.replace("Capability", "Kind")),
    (f'<a href="#m0-0-0-4">0100000012000000{arrow(1)}</a>', "0100000012000000"),
    (arrow(1), ""),
    ('href="#m0-0-0-4"', 'href="#m0-0-0-3"'),
    ('href="#m0-0-0-4"', 'href="#m0-0-0-9"'),
    ('href="#m0-0-0-4"', 'href="page.html#m0-0-0-4"'),
    (WORD, ""),
    (WORD, WORD + ' onclick="x"'),
    (WORD, "title='word 0:4, of object 1'"),
    (WORD, 'title="word 0:4, of "object 1"'),
    (WORD, f"{WORD} {WORD}"),
    (WORD, 'title="word 0:4, of object 1, refused"'),
    (WORD, 'title="word 0:3, of object 1"'),
    (WORD, 'title="word 0:4, of object 0"'),
    (WORD, 'title="word 0:4, of object 11"'),
    ('id="m0-0-0-4"', 'id="m0-0-0-3"'),
    ("</table>", ""),
    ("</td></tr>", "</tr></td>"),
    ("<h3>", "<p></p><h3>"),
    ("<h3>", "a word<h3>"),
    ("<h3>", "<!-- a word --><h3>"),
    ('start="0"', 'start="1"'),
    (">root:", ">  root:"),
    ('<li class="o0', '<li class="o0 c0">pointer 0: null</li>\n<li class="o0'),
    ('<li class="o0 c0"', "<li"),
    ('<path class="c1"', '<path class="c0"'),
    ('<path class="c1"', '<path class="c1" fill="red"'),
    ('d="M216 61', 'd="'),
    ('d="M216 61', 'd="url(x)'),
    ("<svg>", '<svg width="9">'),
    ("</svg>", '<path class="c1" d="M0 0"/></svg>'),
    ("height: 88px", "background: red"),
    ("</div>\n<ol", "<ol"),
    ("text \"a\"", "text \"b\""),
    ("text \"a\"", "text \"a\x07\""),
    ("</section>\n", ""),
    ("</section>\n", "</section>\n<h1>b</h1>"),
    ("</html>\n", ""),
    ("</html>\n", "</html>\n</html>\n"),
    ("</body>\n", ""),
]


def written(name, inside):
    return f"{HEAD}<h1>{escape(name)}</h1>\n{inside}{END}"


def wanted(name, segments):
    row, = listed([segments])[1]
    return page_of([(name, [(row, segments, None)])], {})


def try_checker():
    """How many written pages are taken for wrong, or faulty ones for right."""
    wrong = 0
    for what, (segments, inside) in PAGES.items():
        for said in wrongs_of(written("a<b", inside), wanted("a<b", segments)):
            print(f"try-show: the page {what} that is written out: {said}", file=sys.stderr)
            wrong += 1
    segments, inside = PAGES["nulls"]
    for right, mistake in MISTAKES:
        text = written("a<b", inside)
        faulty = text.replace(right, mistake, 1)
        if faulty == text or not wrongs_of(faulty, wanted("a<b", segments)):
            print(f"try-show: the fault {mistake!r} for {right!r} is not found", file=sys.stderr)
            wrong += 1
    print(f"try-show: {len(PAGES)} pages that are written out and {len(MISTAKES)} faults of one are tried, {wrong} wrongly taken")
    return wrong


if __name__ == "__main__":
    sys.exit(1 if try_checker() else 0)
