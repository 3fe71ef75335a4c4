"""The drivers of conformance/README.md: how each is built, and what it finds."""
import re
import shutil
import struct
import subprocess
import sys
from pathlib import Path

sys.path[:0] = [str(Path(__file__).resolve().parent / folder) for folder in ("..", "../../conformance")]
import model
from prelude import ROOT, copy_tree, tracked

# The interpreter, which `rt try` asks first, would be slow.
OURS = ["rt", "try", "--steps", "1", "--seconds", "7200"]
CRATES = "anyhow hex capnp capnp_frame capnp_message capnp_pack capnp_wire"
FLOAT = re.compile(r"(?<![^ ])-?[0-9][0-9.]*(e[-+][0-9]+)?(?![^ ])")
CXX = ["g++", "-std=c++17", "-O1"]


def there(tool):
    """The other libraries that are here without being named."""
    found = {"C": ROOT / "crates/capnp_c/out/libcapnp_c.a", "C++": Path("/usr/include/capnp/serialize-packed.h")}
    for name, path in found.items():
        if not path.exists() or not shutil.which("g++"):
            print("%s: without g++ and %s the cases are not run over %s" % (tool, path, name))
        else:
            yield name


def copy_of_crates(folder):
    """A copy of the crates in a folder, with the library's own driver as another one."""
    copy_tree(folder, tracked("crates", "crates.txt", "HANDLES"))
    source = folder / "crates/conformance/src"
    source.mkdir(parents=True)
    for path in (ROOT / "tools/conformance").iterdir():
        if path.is_file() and path.suffix == "" and path.read_text(errors="replace").startswith("//!"):
            (source / (path.name + ".rt")).write_bytes(path.read_bytes())
    with open(folder / "crates.txt", "a") as crates:
        crates.write("conformance: %s\n" % CRATES)


def build(name, work):
    """The command of a library's driver, and the folder in which it runs; a name with a slash is a command."""
    kind, _, crate = name.partition("=")
    if kind == "ours":
        copy_of_crates(work / "copy")
        return OURS, work / "copy/crates/conformance"
    if "/" in kind:
        return [str(Path(name).resolve())], work
    if kind == "Rust":
        (work / "rust/src").mkdir(parents=True)
        shutil.copy(ROOT / "tools/conformance/peer.rs", work / "rust/src/main.rs")
        (work / "rust/Cargo.toml").write_text(
            '[package]\nname = "conformance"\nversion = "0.0.0"\nedition = "2021"\n\n[dependencies]\ncapnp = { path = "%s" }\n' % Path(crate).resolve())
        subprocess.run(["cargo", "build", "--offline", "--release", "--quiet"], cwd=work / "rust", check=True, stderr=subprocess.DEVNULL)
        return [str(work / "rust/target/release/conformance")], work
    library = ROOT / "crates/capnp_c"
    sources = {"C++": ["peer.cc", "-lcapnp", "-lkj"], "C": ["library.cc", "-I%s" % library, "-L%s" % (library / "out"), "-lcapnp_c"]}
    source, *flags = sources[kind]
    subprocess.run([*CXX, "-o", str(work / kind), str(ROOT / "tools/conformance" / source), *flags], check=True)
    return [str(work / kind)], work


def results_in(line, request):
    """The results in a driver's line, as cases have them: of a float the fewest digits, and equal words in a row once."""
    kind = request.split(" ")[8:9]
    if kind in (["f32"], ["f64"]):
        encoding = lambda number: struct.pack("<f" if kind == ["f32"] else "<d", float(number[0]))
        line = FLOAT.sub(lambda number: model.show_number(kind[0], int.from_bytes(encoding(number), "little")), line)
    return [model.fold(found) + mark + unread for found, mark, unread in (result.partition(";") for result in line.split("\t")) if found]


def ask(command, folder, requests):
    """The results of each request by a driver, and what that says beside."""
    ran = subprocess.run(command, cwd=folder, input="".join(f"{request}\n" for request in requests).encode(), stdout=subprocess.PIPE,
                         stderr=subprocess.PIPE)
    return list(map(results_in, ran.stdout.decode(errors="replace").splitlines(), requests)), ran.stderr.decode(errors="replace")


def ask_each(command, folder, asked):
    """The results of requests by who is asked: of each of these those that the driver has. It has to write a line for each."""
    requests = [request for each in asked for request in each.values()]
    found, said = ask(command, folder, requests)
    if len(found) < len(requests):
        raise RuntimeError("%s ends at %s\n%s" % (command[0], requests[len(found)], said[-3000:]))
    found = iter(found)
    return [{who: results for who, results in zip(each, found) if results} for each in asked]


def run_ours(copy, given, seconds=7200):
    """What the library's own driver in a copy writes of cases, nothing where it is not built, and what `rt try` says."""
    said = []

    def results_of(requests):
        found, *said[:] = ask([*OURS[:-1], str(seconds)], copy / "crates/conformance", requests)
        return found
    found = "".join(f"{line}\n" for line in model.copied(given, results_of))
    return found if any(line[:1] == ">" for line in found.splitlines()) else "", said[0]
