"""What the tools in Python share: the top of the repository, its tracked files, copies of these, what a command says, and the messages
of a stream."""
import os
import shutil
import struct
import subprocess
from pathlib import Path

ROOT = Path(__file__).resolve().parent.parent


def tracked(*below, options=()):
    """The paths of the tracked files that are there, of all or below some paths."""
    listed = subprocess.run(["git", "ls-files", "-z", *options, *below], cwd=ROOT, stdout=subprocess.PIPE, check=True).stdout.decode()
    return [path for path in listed.split("\0") if path and (ROOT / path).is_file()]


def crates():
    """Each crate of crates.txt with those that it lists, lowest first."""
    lines = [line.partition(":") for line in (ROOT / "crates.txt").read_text().splitlines() if ":" in line and line[0] != "#"]
    return {head.split()[0]: names.split() for head, _, names in lines}


def below(*names):
    """These crates and those of the repository below them, highest first."""
    uses, needed = crates(), set(names)
    for name, listed in reversed(uses.items()):
        needed.update(listed if name in needed else ())
    return [name for name in reversed(uses) if name in needed]


def copy_tree(to, paths, crates=()):
    """Copies these files, and what checks here kept of these crates in out/."""
    for path in paths:
        (to / path).parent.mkdir(parents=True, exist_ok=True)
        shutil.copy2(ROOT / path, to / path)
    for name in crates:
        if (ROOT / "crates" / name / "out").is_dir():
            shutil.copytree(ROOT / "crates" / name / "out", to / "crates" / name / "out", symlinks=True,
                            ignore=shutil.ignore_patterns("incremental"))


def add_crate(to, line, main):
    """Adds a crate to such a copy, by its line of crates.txt and the file of its `main`."""
    source = to / "crates" / line.partition(":")[0] / "src"
    source.mkdir(parents=True)
    shutil.copy2(ROOT / main, source / "main.rt")
    with open(to / "crates.txt", "a") as file:
        file.write(line + "\n")


def output(command, folder, **variables):
    """The status of a command, and what it says."""
    ran = subprocess.run(command, cwd=folder, env={**os.environ, **variables}, stdin=subprocess.DEVNULL, stdout=subprocess.PIPE,
                         stderr=subprocess.STDOUT)
    return ran.returncode, ran.stdout.decode(errors="replace")


def messages_of(stream):
    """The framed messages of a stream."""
    at = 0
    while at < len(stream):
        count = struct.unpack_from("<I", stream, at)[0] + 1
        words = sum(struct.unpack_from(f"<{count}I", stream, at + 4))
        end = at + (4 + 4 * count + 7) // 8 * 8 + 8 * words
        yield stream[at:end]
        at = end
