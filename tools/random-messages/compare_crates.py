"""`try-random crates`: programs over what the schema compiler writes of random schemas, of which some are proved."""
import shutil
import subprocess
import sys
import time

from comparing import run, take_schema, tool, write
from paths import Paths, taken_names
from prelude import below, copy_tree
from schemas import OPAQUE

MAIN = """\
//! Builds, reads and prints a struct of each type, of which nothing is set.
#![tactic(auto)]

%(modules)s

use anyhow::Result;
use capnp::message::{DEFAULT_READER_OPTIONS, Reader, SegmentArray};
use capnp::orphans::Orphanage;

fn main(rt: HostRuntime) -> Result<()> {
%(calls)s
    Ok(())
}
"""
STRUCT = """
fn struct_%(schema)d_%(number)d(rt: &HostRuntime) -> Result<()> {
    let alloc = rt.alloc();
    let mut objects = Orphanage::new(alloc)?;
    %(path)s::Builder::new().add_root(&mut objects)?;
    let segments = [objects.bytes()];
    let message = Reader::new(SegmentArray::new(&segments), DEFAULT_READER_OPTIONS);
    let read: %(path)s::Reader<'_, SegmentArray<'_>> = message.get_root()?;
    let text = read.to_text(alloc, 8)?;
    println!(rt; "{text}")?;
    Ok(())
}
"""


def is_taken(copy, index, schema):
    write(copy.folder / "opaque" / ("schema%d.capnp" % index), schema.text(OPAQUE))
    return tool("compile", "-o-", write(copy.folder / ("schema%d.capnp" % index), schema.text(True))) is not None


def make_crate(copy, name, schemas):
    """A program over some schemas, by their indices."""
    source, taken = copy.folder / "crates" / name / "src", taken_names(copy.folder / "crates/capnpc_rattle/src/reserved.rt")
    structs = [{"schema": index, "number": made.number, "path": Paths(taken, "schema%d_capnp" % index).path(made)}
               for index, schema in schemas.items() for made in schema.structs]
    modules = "\n".join("mod schema%d_capnp;" % index for index in schemas)
    calls = "\n".join("    struct_%(schema)d_%(number)d(&rt)?;" % made for made in structs)
    write(source / "main.rt", MAIN % {"modules": modules, "calls": calls} + "".join(STRUCT % made for made in structs))
    for index in schemas:
        shutil.copy(copy.folder / ("types/schema%d_capnp.rt" % index), source)
    with open(copy.folder / "crates.txt", "a") as file:
        file.write("%s: anyhow capnp\n" % name)


def wrongs(copy, crate, schemas, is_proved):
    """What is wrong with a crate: `rt fmt` changes a file, other lines are printed than the C++ tool prints of structs in which
    nothing is set, or it is not proved."""
    run(["rt", "fmt"], crate)
    for index in schemas:
        name = "schema%d_capnp.rt" % index
        if (copy.folder / "types" / name).read_text() != (crate / "src" / name).read_text():
            yield "rt fmt changes " + name
    wanted = b"".join(tool("convert", "--short", "text:text", copy.folder / "opaque" / ("schema%d.capnp" % index), made.path(), stream=b"()")
                      for index, schema in schemas.items() for made in schema.structs)
    printed = run(["rt", "try", "--seconds", "3600"], crate)
    if wanted not in printed:
        yield "the C++ tool prints other lines:\n%s\nand the types\n%s" % (wanted.decode(), printed.decode())
    if is_proved and subprocess.run(["rt", "check", "--jobs", "1"], cwd=crate, stdout=subprocess.DEVNULL).returncode:
        yield "rt check has open goals"


def crates(copy, chance, count, schemas_each, proved):
    schemas = [take_schema(chance, lambda schema: is_taken(copy, index, schema), True, True) for index in range(count * schemas_each)]
    copy.write_types(len(schemas), copy.folder / "types", "builders", "print")
    copy_tree(copy.folder, [], below("capnp") if proved else ())
    wrong = 0
    for number in range(count):
        begun, name = time.time(), "capnp_random_%d" % number
        own = {index: schemas[index] for index in range(number * schemas_each, (number + 1) * schemas_each)}
        make_crate(copy, name, own)
        found = list(wrongs(copy, copy.folder / "crates" / name, own, number < proved))
        for line in found:
            print("try-random: %s: %s" % (name, line))
        wrong += len(found)
        print("try-random: %s, %d structs: %s%s (%d s)" % (name, sum(len(schema.structs) for schema in own.values()), (
            "wrong" if found else "tried"), " and proved" * (number < proved), time.time() - begun), flush=True)
    print("try-random: crates: %d random schemas in %d crates: %d differ" % (len(schemas), count, wrong))
    sys.exit(wrong > 0)
