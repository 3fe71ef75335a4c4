"""Measures what the gate catches of wrong schema compilers: changes a line of crates/capnpc_rattle/src by rule, a line for each
change, and looks which of the gate's runs say that something differs.

The rules (rules.py): a number is one more; a comparison or a connective is the one next to it; a branch is taken
never, or always; what adds something is left out; an argument is the one next to it.

All changes stand in one copy of the tree, each under a switch, which is built once before any proof, and optimized
(building.py). Each is then made in what was built, and compared: first the stored run of the crate, then
`try-compiler`, `try-compiler rejected` and the comparisons with the C++ tool as .ci/run calls them. A comparison runs where the
change makes another output of one of its requests, and the first that fails ends it. A change that doesn't compile, or doesn't end,
is replaced by the next one. So is one that can make no other output, which has a reason in same_output.txt.

It prints each change that nothing catches, and the share that is caught.
"""
import random
import re
import subprocess
import sys
import tempfile
from pathlib import Path

import building
import edits
import rules
from prelude import ROOT, copy_tree, output, tracked

LIMIT = 30  # seconds, for a request
RECORDER = """\
#!/bin/sh
call=$(mktemp -d "$RECORDED/XXXXXX")
cat > "$call/request"
printf '%s\\n' "$@" > "$call/args"
[ ! -d "$1" ] || touch "$call/writes"
[ -z "$RECORDED_ALONE" ] || exit 1
exec "$PROGRAM" "$@" < "$call/request"
"""


def compared():
    """The gate's runs that take the program of COMPILER."""
    found = re.findall(r"^    tools/((?:try-compiler|try-random)\b.*)$", (ROOT / ".ci/run").read_text(), re.M)
    return [call.split() for call in found]


class Mutant:
    def __init__(self, file, at, rule, old, new, both):
        self.file, self.at, self.rule, self.old, self.new, self.both = file, at, rule, old.strip(), new.strip(), both

    def __str__(self):
        return "%s:%d (%s)\n    old: %s\n    new: %s" % (self.file, self.at + 1, self.rule, self.old, self.new)


def all_mutants(sources):
    texts = {str(path.relative_to(sources)): path.read_text() for path in sorted(sources.rglob("*.rt"))
             if path.name != "schema_capnp.rt"}
    types = rules.types_in("\n".join(texts.values()))
    for name, text in texts.items():
        lines = text.split("\n")
        for at, rule, new, both in rules.mutants(text, types):
            yield Mutant(name, at, rule, lines[at], new, both)


def same_output():
    """The changes that can make no other output, by file, or "" for all, and the line before and after."""
    for edit in edits.edits_in(ROOT / "tools/editing/same_output.txt", "why"):
        yield from ((file or "", old, new) for file, old, new in edit.pairs())


def one_a_line(mutants):
    """The first change of each line, in this order."""
    found = {}
    for mutant in mutants:
        found.setdefault((mutant.file, mutant.at), mutant)
    return list(found.values())


class Call:
    """A run of the program: its request and its words."""

    def __init__(self, words, request, writes=False):
        self.words, self.request, self.writes = words, request, writes

    def result(self, program):
        """Status, output and files, or None where it doesn't end."""
        with tempfile.TemporaryDirectory() as folder:
            words = [folder, *self.words[1:]] if self.writes else self.words
            try:
                done = subprocess.run([program, *words], input=self.request, capture_output=True, timeout=LIMIT)
            except subprocess.TimeoutExpired:
                return None
            files = [(path.name, path.read_bytes()) for path in sorted(Path(folder).iterdir())]
            return done.returncode, done.stdout, done.stderr, files


def run_tool(call, **variables):
    return output([ROOT / "tools" / call[0], *call[1:]], ROOT, **{name: str(value) for name, value in variables.items()})


def recorded(call, program, folder):
    """The runs of the program that one of the gate's runs asks for; a comparison ends after the first."""
    calls = Path(tempfile.mkdtemp(dir=folder))
    recorder = calls.with_suffix(".recorder")
    recorder.write_text(RECORDER)
    recorder.chmod(0o755)
    status, said = run_tool(call, COMPILER=recorder, PROGRAM=program, RECORDED=calls, RECORDED_ALONE="" if call[0] == "try-compiler" else "1")
    if call[0] == "try-compiler" and status:
        sys.exit("try-edits: %s fails without a change\n%s" % (" ".join(call), said))
    return [Call((made / "args").read_text().split("\n")[:-1], (made / "request").read_bytes(), (made / "writes").exists())
            for made in sorted(calls.iterdir())]


class Judge:
    """What the gate's runs say of a program: the stored one, and those of tools."""

    def __init__(self, program, folder):
        self.program, self.folder, crate = program, folder, ROOT / "crates/capnpc_rattle"
        words = (crate / "args").read_text().split("\n")[:-1]
        self.runs = [(None, [Call(words, (crate / "stdin").read_bytes())])]
        self.runs += [(call, recorded(call, program, folder)) for call in compared()]
        self.clean = [[call.result(program) for call in calls] for _, calls in self.runs]
        if self.clean[0][0][:2] != (0, (crate / "stdout").read_bytes()):
            sys.exit("try-edits: the stored run fails without a change")

    def caught_by(self, number):
        """The run that catches a change, "" where none does, or None where the program doesn't end."""
        mutant = self.folder / "mutant"
        building.switched(self.program, number, mutant)
        for (tool, calls), clean in zip(self.runs, self.clean):
            found = [call.result(mutant) for call in calls]
            if None in found:
                return None
            if found != clean and (tool is None or run_tool(tool, COMPILER=mutant)[0]):
                return " ".join(tool or ["the stored run"])
        return ""


def try_all(given):
    with tempfile.TemporaryDirectory() as name:
        folder = Path(name)
        copy_tree(folder / "copy", tracked("crates", "crates.txt"))
        crate = folder / "copy/crates/capnpc_rattle"
        mutants = list(all_mutants(crate / "src"))
        random.Random(given.seed).shuffle(mutants)
        mutants = building.build(crate, one_a_line(mutants)[:2 * given.pick + 40], folder)
        judge, same, left = Judge(folder / "program", folder), set(same_output()), []
        caught = unchanged = hanging = 0
        for number, mutant in enumerate(mutants):
            if caught + len(left) == given.pick:
                break
            if same & {(file, mutant.old, mutant.new) for file in ("", mutant.file)}:
                unchanged += 1
                continue
            by = judge.caught_by(number)
            hanging += by is None
            caught += bool(by)
            if by == "":
                left.append(mutant)
            print("try-edits: %s: %s" % ("doesn't end" if by is None else by or "NOT CAUGHT", mutant), flush=True)
    print("try-edits: %d of %d are caught by seed %d; besides %d can make no other output, and %d don't end" % (
        caught, caught + len(left), given.seed, unchanged, hanging))
    for mutant in left:
        print("try-edits: not caught: %s" % mutant)
    return caught < 0.95 * (caught + len(left))
