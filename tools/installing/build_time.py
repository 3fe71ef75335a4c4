"""Says how long it takes to prove and build crates, and those below them: build_time.py TOOL CRATE..

The seconds of processor time of each crate's proof are those of bench/gate.txt, which `tools/time gate` writes. What a
crate below has in its folder `out` already is left out.
"""
import re
import sys
from pathlib import Path

sys.dont_write_bytecode = True
sys.path.insert(0, str(Path(__file__).resolve().parent.parent))
from prelude import ROOT, below

tool, *names = sys.argv[1:]
seconds = dict(re.findall(r"^(\w+) +(\d+) +\d+ +\d+ +\d+$", (ROOT / "bench/gate.txt").read_text(), re.MULTILINE))
wanted = {name for name in below(*names) if name in names or not (ROOT / f"crates/{name}/out/rlib/{name}.rlib").exists()}
minutes = sum(int(seconds.get(name, 0)) for name in wanted) / 60
unknown = sorted(wanted - set(seconds))
print("%s: first proves and builds %s, %d crates in all: some %d minutes of processor time%s"
      % (tool, ", ".join(names), len(wanted), max(1, round(minutes)),
         ", beside %s, of which no time is known" % ", ".join(unknown) if unknown else ""), flush=True)
