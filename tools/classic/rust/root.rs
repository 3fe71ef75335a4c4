//! The roots of messages and lists of structs, untyped: what types made by that crate's compiler hold and call.
use capnp::private::layout::{ElementSize, ListReader, PointerBuilder, PointerReader, StructReader};
use capnp::traits::{FromPointerBuilder, FromPointerReader};
use capnp::{Result, Word};

/// The pointer of a root that is built.
pub struct RootBuilder<'a>(pub PointerBuilder<'a>);

impl<'a> FromPointerBuilder<'a> for RootBuilder<'a> {
    fn init_pointer(builder: PointerBuilder<'a>, _: u32) -> RootBuilder<'a> {
        RootBuilder(builder)
    }
    fn get_from_pointer(builder: PointerBuilder<'a>, _: Option<&'a [Word]>) -> Result<RootBuilder<'a>> {
        Ok(RootBuilder(builder))
    }
}

/// A root that is read.
pub struct RootReader<'a>(pub StructReader<'a>);

impl<'a> FromPointerReader<'a> for RootReader<'a> {
    fn get_from_pointer(reader: &PointerReader<'a>, default: Option<&'a [Word]>) -> Result<RootReader<'a>> {
        Ok(RootReader(reader.get_struct(default)?))
    }
}

/// The list of structs that a pointer of a struct points to.
#[inline]
pub fn structs<'a>(reader: &StructReader<'a>, index: usize) -> Result<ListReader<'a>> {
    reader.get_pointer_field(index).get_list(ElementSize::InlineComposite, None)
}
