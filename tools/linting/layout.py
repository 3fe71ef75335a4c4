"""Whether each crate's files are in the layout that `rt fmt` gives them.

`rt fmt` writes and does not compare, so it runs on a copy of the tracked files, and changes nothing here.
"""
import re
import shutil
import tempfile
from pathlib import Path

from prelude import copy_tree, crates, output

from .tree import first_difference

OF_A_CRATE = re.compile(r"crates/(\w+)/.*\.(rt|antt)")


def check(tree):
    of = lambda name, part: f"crates/{name}/".startswith(part) or part.startswith(f"crates/{name}/")
    wanted = [name for name in crates() if not tree.wanted or any(of(name, part) for part in tree.wanted)]
    if not wanted:
        return
    if shutil.which("rt") is None:
        tree.wrong("crates", 0, "rt is not installed, which lays out the files")
        return
    with tempfile.TemporaryDirectory() as folder:
        copy = Path(folder)
        copy_tree(copy, [path for path in tree.paths if path.startswith("crates/") or path == "crates.txt"])
        for name in wanted:
            status, said = output(["rt", "fmt"], copy / "crates" / name)
            if status:
                tree.wrong(f"crates/{name}", 0, "rt fmt: " + said[-2000:])
        for path in tree.paths:
            found = OF_A_CRATE.fullmatch(path)
            if found and found[1] in wanted:
                tree.seen()
                is_now = (copy / path).read_text(encoding="utf-8")
                if is_now != tree.text(path):
                    line, change = first_difference(tree.text(path), is_now)
                    tree.wrong(path, line, f"not in the layout of rt fmt, which has: {change[:100]}")
