"""The templates of rattle.py."""
HEAD = """\
//! Builds structs of %(module)s from their descriptions, and says what they show.
use super::%(module)s as schema;
use crate::shown::Shown;
use crate::source::{Source, data_of, message_of, numbers_of, text_of};
use capnp::message::{DEFAULT_READER_OPTIONS, Reader, SegmentArray};
use capnp_frame::Result;
use capnp_frame::message::ReaderSegments;
use capnp_orphans::{GrowingSegment, Orphan, Orphanage};
use capnp_wire::constant::OrDefault;
use capnp_wire::primitive_element::PrimitiveElement;
use capnp_wire::{data, list_list, primitive_list, text, upgraded};
"""
# The functions of a schema, and those that call them by its number: of each its name, its type parameters, its own ones, what it
# returns where no schema or struct has the number.
CALLED = """
/// %(does)s
pub fn %(name)s<S: %(bound)s>(
    %(number)s: u8,%(index)s
%(parameters)s
    shown: &mut Shown,
) -> Result<()> {
    match %(number)s {
%(arms)s
        _ => Ok(()),
    }
}
"""
MAKE_ROOT = {
    "does": "Builds the root of a message, a struct of a schema, and says what its builder shows.", "name": "make_root",
    "bound": "GrowingSegment", "parameters": "    source: &mut Source<'_>,\n    objects: &mut Orphanage<S>,"}
SHOW_ROOT = {
    "does": "Says what the root of a message shows, and prints it.", "name": "show_root", "bound": "ReaderSegments",
    "parameters": "    message: &Reader<S>,"}
CONSTANTS = """
/// Says what constants are.
pub fn show_constants(shown: &mut Shown) -> Result<()> {
%s
    Ok(())
}
"""
MAKE = """\
        %(number)d => {
            let made = struct_%(number)d(source, objects)?;
            kept_%(number)d(shown, &made)?;
            made.add_root(objects)
        }"""
SHOW = """\
        %(number)d => {
            let root: %(path)s::Reader<'_, S> = message.get_root()?;
            shown.field("shown")?;
            shown.left = %(most)d;
            show_%(number)d(shown, %(depth)d, &root)?;
            let text = root.to_text(shown.alloc, 64)?;
            shown.field("text")?;
            shown.word(text.as_str())
        }"""
ROOTS = """\
//! The types of some schemas, what builds structs of them, and what says what they show.
use crate::shown::Shown;
use crate::source::Source;
use capnp::message::Reader;
use capnp_frame::Result;
use capnp_frame::message::ReaderSegments;
use capnp_orphans::{GrowingSegment, Orphanage};

%s
"""
READ = """
fn %(name)s<S: ReaderSegments>(shown: &mut Shown, depth: u32, read: &%(type)s) -> Result<()> {
%(lines)s
    Ok(())
}
"""
KEPT = """
fn kept_%(number)d(shown: &mut Shown, made: &%(path)s::Builder) -> Result<()> {
%(lines)s
    Ok(())
}
"""
STRUCT = """
fn struct_%(number)d<S: GrowingSegment>(
    source: &mut Source<'_>,
    objects: &mut Orphanage<S>,
) -> Result<%(path)s::Builder> {
    let mut made = match source.number::<u8>() {
        0 => %(path)s::Builder::new(),
        way => read_%(number)d(way, source, objects)?,
    };
    for _ in 0..source.number::<u16>() {
        let call = source.number::<u8>();
        match call / %(at_once)d {
%(parts)s
            _ => {}
        }
    }
    Ok(made)
}

fn read_%(number)d<S: GrowingSegment>(
    way: u8,
    source: &mut Source<'_>,
    objects: &mut Orphanage<S>,
) -> Result<%(path)s::Builder> {
    let mut written = Orphanage::new(source.alloc)?;
    struct_%(number)d(source, &mut written)?.add_root(&mut written)?;
    let bytes = message_of(source.alloc, way, &written)?;
    let segments = [bytes.as_slice()];
    let message = Reader::new(SegmentArray::new(&segments), DEFAULT_READER_OPTIONS);
    let read: %(path)s::Reader<'_, SegmentArray<'_>> = message.get_root()?;
    %(path)s::Builder::from_reader(&read, objects)
}
"""
PART = """
fn call_%(number)d_%(part)d<S: GrowingSegment>(
    call: u8,
    made: &mut %(path)s::Builder,
    source: &mut Source<'_>,
    objects: &mut Orphanage<S>,
) -> Result<()> {
    match call {
%(calls)s
        _ => {}
    }
    Ok(())
}
"""
LIST = """
fn list_%(index)d<S: GrowingSegment>(
    source: &mut Source<'_>,
    objects: &mut Orphanage<S>,
) -> Result<Orphan<%(type)s>> {
    let mut elements = Vec::new(source.alloc);
    for _ in 0..source.number::<u32>() {
        elements.push(%(element)s?)?;
    }
    %(written)s(elements.as_slice()%(more)s)
}
"""
