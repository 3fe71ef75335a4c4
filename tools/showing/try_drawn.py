"""Pages of messages that are written out, in part or whole: a section, headings, arrows and links."""
from model import frame
from runs import count, expect_parts, run
from samples import END, FAR, FAR_SECTION, FRONT, HELLO, list_pointer, struct_pointer, words, zeros

LARGE_SECTION = """<section class="message" id="m0-0">
<h2>message 0: offset 0, bytes 32784, segments 1, words 4097</h2>
<p class="large">A message of more than 4096 words is not drawn.</p>
</section>
"""
# The heading of a file of this name: only the characters of markup have names.
MARKED = [
    ("", ""),
    ("plain", "plain"),
    ("\1a\x1f ", "\\u0001a\\u001f "),
    ("\t\n\x0b\r", "\\t\\n\\u000b\\r"),
    ('!"#', "!&quot;#"),
    ("%&'", "%&amp;'"),
    (";<=>?", ";&lt;=&gt;?"),
    ("[\\]", "[\\]"),
    ("~\x7f\x80", "~\\u007f\\u0080"),
    ("\x9f\xa0\xbf\xc0", "\\u009f\xa0\xbf\xc0"),
    ("<<a<bc<", "&lt;&lt;a&lt;bc&lt;"),
    ('a<b>&"\n\x7f\\\u00e9', "a&lt;b&gt;&amp;&quot;\\n\\u007f\\\u00e9"),
]
# Where the pointers are that go from one object to the next, of which the first is at the root; the last
# object is the root's own word. A row has four words. So the arrows, each in the colour of the object that it
# points to, run two cells ahead, to the next cell of the row, to the rows above and below, to a cell of a row
# before their own, and across the whole row. A cell is 132 wide and 26 high, 40 and 14 apart, and the first one
# begins at 84 and 48.
STEPS = [0, 2, 3, 4, 9, 6, 5, 8, 1, 10, 0]
# Straight to the next cell of the row, and else by four turns; those side by side lie 3 apart, by the row where they
# begin and by the column where they end. The one in the colour 3, by hand: its cell begins at 84 and 88, so it begins
# at 84 + 132 = 216 and 88 + 13 = 101. Its tops are 40 apart, so it turns in the lane 88 / 40 = 2, at 216 + 4 + 2 * 3 = 226;
# at 128 - 3 - 1 * 3 = 122, since it ends in the column 1; at 256 - 9 = 247 and at 128 + 13 = 141, and ends at 256 - 2 = 254.
ARROWS = [
    '<path class="c0" d="M216 61H223V39H419V61H426m-5 -3l5 3l-5 3"/>',
    '<path class="c8" d="M388 61H395V119H419V141H426m-5 -3l5 3l-5 3"/>',
    '<path class="c1" d="M560 61H598m-5 -3l5 3l-5 3"/>',
    '<path class="c2" d="M732 61H739V85H75V101H82m-5 -3l5 3l-5 3"/>',
    '<path class="c3" d="M216 101H226V122H247V141H254m-5 -3l5 3l-5 3"/>',
    '<path class="c6" d="M388 101H398V125H75V141H82m-5 -3l5 3l-5 3"/>',
    '<path class="c5" d="M560 101H570V82H247V101H254m-5 -3l5 3l-5 3"/>',
    '<path class="c7" d="M216 141H229V42H247V61H254m-5 -3l5 3l-5 3"/>',
    '<path class="c4" d="M388 141H401V79H419V101H426m-5 -3l5 3l-5 3"/>',
    '<path class="c0" d="M560 141H573V45H75V61H82m-5 -3l5 3l-5 3"/>',
]
# The row of a pointer to the last word of a segment of 16, which is a link, and to the word after it, which is none.
LINKS = [
    (15, '<tr><th>4</th><td id="m0-1-0-4" class="pointer o7 c7" title="word 0:4, pointer of object 7, to object 8">'
         '<a href="#m0-1-0-15">2900000028000000<svg><path class="c8" '
         'd="M216 101H226V156H591V181H598m-5 -3l5 3l-5 3"/></svg></a></td><td id="m0-1-0-5"'),
    (16, '<tr><th>4</th><td id="m0-1-0-4" class="pointer o7 c7" title="word 0:4, pointer of object 7, to object 8">'
         '2d00000028000000</td><td id="m0-1-0-5"'),
]


def chain(steps, last, size):
    """A segment of a given number of words in which each of these pointers points to the next, which is a struct of one; the last pointer
    is given."""
    kept = size * [0]
    for at, start in zip(steps, steps[1:]):
        kept[at] = struct_pointer(at, start, 0, 1)
    kept[steps[-1]] = last
    return words(*kept)


def expect_section(what, text, section):
    """Compares the section of a page that has one, and looks whether the page begins and ends as it has to."""
    shown = run(["--html"], text).stdout.decode()
    front, between, rest = shown.partition("<section ")
    found = between + rest.removesuffix(END)
    wrongs = [] if found == section else [f"{found}\nwanted:\n{section}"]
    if not front.startswith(FRONT) or not rest.endswith(END):
        wrongs.append(f"its front or its end: {shown[:100]} .. {shown[-40:]}")
    count(f"drawn: {what}", wrongs)


def expect_heading(name, heading):
    """Looks at the heading of a file, which need not be there."""
    shown = run(["--html", name]).stdout.decode()
    wanted = f"<h1>{heading}</h1>\n{END}"
    count(f"drawn: the heading {heading}", [] if shown.endswith(wanted) else [f"{shown[-100:]}\nwanted:\n{wanted}"])


def try_drawn():
    expect_section("far pointers", frame(FAR), FAR_SECTION)
    expect_section("4097 words", zeros(4097), LARGE_SECTION)
    for name, heading in MARKED:
        expect_heading(name, heading)
    arrows = chain(STEPS[:-1], struct_pointer(STEPS[-2], STEPS[-1], 1, 0), 11)
    expect_parts("arrows", ["--html"], frame([arrows]), ARROWS)
    for start, row in LINKS:
        links = chain([0, 5, 6, 7, 8, 9, 10, 11, 4], list_pointer(4, start, 0, 5), 16)
        expect_parts(f"a link to the word {start}", ["--html"], frame(HELLO) + frame([links]), [row])
