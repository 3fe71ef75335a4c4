"""Changes of one line of a program in Rattle, by rule. Each is a pair: the line as it is then, and the line with both, the change
where ON is true, so that many can be built at once."""
import re

OTHER = {"==": "!=", "!=": "==", "<": "<=", "<=": "<", ">": ">=", ">=": ">", "&&": "||", "||": "&&"}
BEFORE = (" && ", " || ", "=> ", " = ", "if ", "while ", "return ", "match ", ", ", "| ", "; ", "{ ")
AFTER = (" && ", " || ", ",", ";", " {", " =>", " }")
ADDS = r"(?:\w+\.)*(?:push|add|extend|insert)\w*\(|write!\("


def blank(text):
    """The text with spaces in the place of strings, characters, comments and attributes."""
    return re.sub(r'"(?:\\.|[^"\\])*"|\'(?:\\[^\']*|[^\\\'])\'|//[^\n]*|#!?\[[^\n]*\]',
                  lambda found: re.sub(r"[^\n]", " ", found[0]), text, flags=re.S)


def instead(line, begin, end, new):
    return (line[:begin] + new + line[end:],
            "%s(if ON { %s } else { %s })%s" % (line[:begin], new, line[begin:end], line[end:]))


def numbers(line, code):
    """A number, or a constant that is one, is one more."""
    arm = code.find(" => ")
    for found in re.finditer(r"(?<!\w)(?<!(?<!\.)\.)\d+\b|\b(?:MAX_[A-Z]+|WIDTH|NAME)\b", code):
        new = str(int(found[0]) + 1) if found[0].isdigit() else "(%s + 1)" % found[0]
        if found.start() > arm:
            yield instead(line, *found.span(), new)
        elif line.endswith(",") and " if " not in code[:arm]:
            changed = line[:found.start()] + new + line[found.end():]
            yield changed, " ".join(text.replace(" => ", " if %s => " % word, 1) for text, word in ((line, "!ON"), (changed, "ON")))


def operand(code, ends, opens, closes):
    """How long the operand is that a text begins with."""
    depth = 0
    for at, letter in enumerate(code):
        if not depth and code.startswith(ends, at):
            return at
        depth += (letter in opens) - (letter in closes)
        if depth < 0:
            return at
    return len(code)


def extent(code, begin, end):
    """The operands around an operator: where they begin and end."""
    begin -= operand(code[:begin][::-1], tuple(word[::-1] for word in BEFORE), ")]}", "([{")
    return begin + len(code[begin:]) - len(code[begin:].lstrip()), end + operand(code[end:], AFTER, "([{", ")]}")


def operators(line, code):
    """A comparison, or a connective, is the one next to it."""
    for found in re.finditer(r"(?<= )(==|!=|<=|>=|<|>|&&|\|\|)(?= )", code):
        begin, end = extent(code, *found.span())
        if begin < found.start() and "let " not in code[begin:end]:
            yield instead(line, begin, end, line[begin:found.start()] + OTHER[found[0]] + line[found.end():end])


def branches(line, code, has_wildcard):
    """A branch is taken never, or always."""
    found = re.search(r"\bif (.+?)(?= \{| =>)|^ *(?:&&|\|\|) (.+?)(?= \{|$)", code)
    if found:
        begin, end = found.span(1 if found[1] else 2)
        if "let " in code[begin:end] and found[1]:
            yield tuple(line[:begin] + word + " && " + line[begin:] for word in ("false", "!ON"))
        elif "let " not in code[begin:end] and code[begin:end].count("(") == code[begin:end].count(")"):
            yield from (instead(line, begin, end, word) for word in ("false", "true"))
    arm = code.find(" => ")
    if has_wildcard and arm > 0 and not re.search(r" if |^ *_ ", code[:arm + 1]):
        yield tuple(line[:arm] + " if " + word + line[arm:] for word in ("false", "!ON"))


def adds(line, code):
    """What adds something is left out."""
    indent = " " * (len(line) - len(line.lstrip()))
    if re.match(r" *(?:%s).*\)\??;$" % ADDS, code) and code.count("(") == code.count(")"):
        yield "", "%sif !ON { %s }" % (indent, line.strip())
    found = re.match(r"( *| *[^=]+ => )((?:%s).*\))(\??)(,?)$" % ADDS, code)
    if found and code.count("(") == code.count(")") and bool(found[4]) == ("=>" in found[1]):
        fails = not found[3] and re.match(r"(?:\w+\.)+(?:push|push_str|extend_from_slice|insert)\(", found[2])
        nothing = "Ok(())" if fails else "()"
        yield (line[:found.end(1)] + nothing + found[4],
               "%sif ON { %s } else { %s }%s" % (line[:found.end(1)], nothing, line[found.end(1):found.end(3)], found[4]))


def parts(line, code, begin):
    """The arguments of the call whose parenthesis opens before a column, where it ends in the line."""
    depth, found = 0, [begin]
    for at in range(begin, len(code)):
        if not depth and code[at] == ")":
            return [(begin + (line[begin] == " "), end) for begin, end in zip(found, [*(comma - 1 for comma in found[1:]), at])]
        depth += (code[at] in "([{") - (code[at] in ")]}")
        if not depth and code[at] == ",":
            found.append(at + 1)
    return []


def type_of(argument, types):
    """The type of an argument, as far as its text says."""
    if re.match(r'"|[A-Z_]+$', argument):
        return "&'static str"
    if argument.endswith(".as_str()"):
        return "&str"
    if argument.startswith("&") or argument == "alloc":
        return argument
    return "call" if argument.endswith(")") else types.get(argument.rpartition(".")[2].lstrip("*"))


def can_be(old, new, types):
    """Whether an argument may have the type of another one, as far as their texts say."""
    one, other = type_of(old, types), type_of(new, types)
    return (old != new and not {"&mut", "alloc"} & {part for text in (one, other, old, new) for part in (text or "").split()}
            and (one == other or None in (one, other) or (one, other) == ("&str", "&'static str")))


def arguments(line, code, types):
    """An argument is the one next to it."""
    for found in re.finditer(r"(?<!fn )\b\w+\(", code[:-1]):
        if found.end() > code.find(" => "):
            spans = parts(line, code, found.end())
            for one, other in [*zip(spans, spans[1:]), *zip(spans[1:], spans)]:
                if can_be(line[slice(*one)], line[slice(*other)], types):
                    yield instead(line, *one, line[slice(*other)])


def has_wildcard(codes, at):
    """Whether the arms from a line on have one for all that is left."""
    indent = re.match(" *", codes[at])[0]
    for code in codes[at + 1:]:
        if code.strip() and not code.startswith(indent):
            return False
        if code.startswith(indent + "_ "):
            return True
    return False


def types_in(text):
    """The type that parameters and fields of a name mostly have."""
    found = {}
    for name, kind in re.findall(r"\b(\w+): (&?[^,:=)\n]+?)(?=,\n|, |\))", blank(text)):
        found.setdefault(name, []).append(re.sub(r"'\w+ |<'\w+>", "", kind))
    return {name: max(kinds, key=kinds.count) for name, kinds in found.items()}


def mutants(text, types):
    """The changes of a file's functions: the index of the line, the rule, and both lines."""
    lines, codes, end = text.split("\n"), blank(text).split("\n"), None
    for at, (line, code) in enumerate(zip(lines, codes)):
        if end is None:
            found = re.match(r"( *)(?:pub(?:\(crate\))? )?fn ", code)
            end = found and found[1] + "}"
        elif code == end:
            end = None
        elif code.isascii() and code.strip():
            for rule, found in (
                    ("number", numbers(line, code)), ("operator", operators(line, code)), ("left out", adds(line, code)),
                    ("branch", branches(line, code, has_wildcard(codes, at))),
                    ("argument", arguments(line, code, types))):
                yield from ((at, rule, *pair) for pair in found)
