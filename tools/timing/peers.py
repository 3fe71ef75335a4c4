"""Programs that `tools/time` builds: in crates, and over the C++ library and the Rust crate, next to which ours are timed."""
import shutil
import subprocess
import sys
from pathlib import Path

from prelude import ROOT

CARGO = """[package]\nname = "peer"\nversion = "0.1.0"\nedition = "2021"\n\n[dependencies]\ncapnp = { path = "%s" }\n
[profile.release]\ncodegen-units = 1\n%s\n\n[workspace]\n"""


def quietly(*command, folder=ROOT):
    """Runs a command; where it fails, the tool ends with the last lines of what it says."""
    done = subprocess.run(command, cwd=folder, stdin=subprocess.DEVNULL, stdout=subprocess.PIPE, stderr=subprocess.STDOUT)
    if done.returncode:
        sys.exit("\n".join(done.stdout.decode(errors="replace").strip().split("\n")[-20:]))


def build_cpp(folder, source, schemas):
    quietly("capnp", "compile", "--src-prefix=%s" % schemas[0].parent, "-oc++:%s" % folder, *schemas)
    quietly("c++", "-O3", "-std=c++17", "-I%s" % folder, "-o", folder / "cpp", source / "main.cc", *folder.glob("*.capnp.c++"), "-lcapnp", "-lkj")
    return folder / "cpp"


def build_rust(folder, files, crate, profile):
    (folder / "rust/src").mkdir(parents=True)
    for file in files:
        shutil.copy(file, folder / "rust/src")
    (folder / "rust/Cargo.toml").write_text(CARGO % (Path(crate or "/usr/share/cargo/registry/capnp-0.14.11").resolve(), profile))
    quietly("cargo", "build", "--offline", "--release", "--quiet", folder=folder / "rust")
    return folder / "rust/target/release/peer"


def built(folder, source, schemas, crate, profile, *more):
    """The peers that can be built of a folder's sources, by their names; of another a line says why it can't be."""
    found = {}
    for name, build, given in (("C++", build_cpp, (source / "cpp", schemas)),
                               ("Rust", build_rust, ([*(source / "rust").iterdir(), *more], crate, profile))):
        try:
            found[name] = build(folder, *given)
        except (SystemExit, FileNotFoundError) as why:
            print("time: the %s peer can't be built, and is left out: %s" % (name, str(why).split("\n")[-1]), file=sys.stderr)
    return found
