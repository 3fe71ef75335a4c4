"""What the cases of conformance/ say of an edit: the library's own driver is built with it, before any proof, and has to write
something else than the files, or not to come to its end."""
import sys

from prelude import ROOT

sys.path.insert(0, str(ROOT / "tools/conformance"))
import corpus

# The files of a crate that a call of the page reaches.
REACHED = {
    "capnp_frame": """error io message/options message/segments serialize/buffer_segments serialize/no_alloc_buffer_segments
        serialize/owned_segments serialize/provided_stream serialize/segment_lengths serialize/segment_table serialize/segment_table_info
        serialize/stream serialize/stream_table serialize/writing""",
    "capnp_pack": "buffer compact_shuffle copies expand_shuffle group lanes packed_read packed_write runs sizes stream unpack",
    "capnp_layout": "block element_size fast_path landing_pad object output_size pointer pointer_slots pointer_word",
    "capnp_wire": """any_pointer any_pointer/fast_path any_pointer/reader any_pointer_list/reader any_struct any_struct/fields
        any_struct/part any_struct/reader arena/reader_arena canonical data/reader layout/canonical layout/canonical_rules
        layout/copy layout/copy_pointers layout/pending layout/visit layout/walk primitive_element primitive_element/signed
        primitive_list primitive_list/reader read_limiter struct_list/reader text/reader upgraded/number_list
        upgraded/pointer_list upgraded/struct_list""",
}
# The files of cases that are tried first for the edits of a crate: the others only where these don't catch one.
FIRST = {
    "capnp_frame": "buffers flat framed paddings writing",
    "capnp_pack": "buffers packed packing writing",
    "capnp_layout": "canonical lists objects",
    "capnp_wire": "canonical fields limits lists objects",
}


def reaches(edit):
    """Whether a call of the page reaches all files of an edit."""
    return {file for file, *_ in edit.pairs()} <= {"src/%s.rt" % stem for stem in REACHED[edit.crate].split()}


def outcome(given, found, said):
    """What a run of the driver says of an edit; nothing where each result is as the files have it."""
    if found == given:
        return None
    if not found and "checked: " not in said:
        return "can't be built: " + said.strip().split("\n")[0][:100]
    case = "before any case"
    for want, got in zip(given.splitlines(), found.splitlines() + [""]):
        case = want if want.startswith("case ") else case
        if want != got:
            return "caught: %s: %s | %s" % (case, want[:70], got[:70] or said.strip().split("\n")[-1][:70])
    return "caught"


def outcome_of(edit, copy):
    """What becomes of the cases in a copy with an edit."""
    first = [ROOT / "conformance" / (stem + ".txt") for stem in FIRST[edit.crate].split()]
    for paths in first, [path for path in corpus.files() if path not in first]:
        given = "".join(path.read_text() for path in paths)
        said = outcome(given, *corpus.run_ours(copy, given, 1800))
        if said:
            return said
    return "not caught"
