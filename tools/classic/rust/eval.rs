//! As crates/capnp_classic/src/eval.rt.
use crate::random::Random;
use crate::Benchmark;
use capnp::private::layout::{StructBuilder, StructReader, StructSize};
use capnp::Result;

const EXPRESSION: StructSize = StructSize { data: 2, pointers: 2 };
const RESULT: StructSize = StructSize { data: 1, pointers: 0 };

// The members of the unions.
const VALUE: u16 = 0;
const INNER: u16 = 1;

#[derive(Default)]
pub struct Eval;

impl Benchmark for Eval {
    const REQUEST: StructSize = EXPRESSION;
    const RESPONSE: StructSize = RESULT;

    fn request(&mut self, random: &mut Random, root: StructBuilder<'_>) -> u64 {
        fill(random, 8, root) as u32 as u64
    }

    fn respond(&mut self, request: StructReader<'_>, response: StructBuilder<'_>) -> Result<()> {
        response.set_data_field::<i32>(0, value_of(request)?);
        Ok(())
    }

    fn said(&self, response: StructReader<'_>) -> Result<u64> {
        Ok(response.get_data_field::<i32>(0) as u32 as u64)
    }
}

fn fill(random: &mut Random, nesting: u32, made: StructBuilder<'_>) -> i32 {
    let operation = random.below(5) as u16;
    made.set_data_field::<u16>(0, operation);
    let left = side(random, nesting, &made, (1, 1, 0));
    let right = side(random, nesting, &made, (6, 2, 1));
    apply(operation, left, right)
}

// One side, by the places of its member, of its value and of its pointer.
#[inline(always)]
fn side(random: &mut Random, nesting: u32, made: &StructBuilder<'_>, place: (usize, usize, usize)) -> i32 {
    if random.below(8) < nesting {
        made.set_data_field::<u16>(place.0, INNER);
        fill(random, nesting - 1, made.get_pointer_field(place.2).init_struct(EXPRESSION))
    } else {
        let value = 1 + random.below(128) as i32;
        made.set_data_field::<u16>(place.0, VALUE);
        made.set_data_field::<i32>(place.1, value);
        value
    }
}

fn value_of(read: StructReader<'_>) -> Result<i32> {
    let left = value_of_side(&read, (1, 1, 0))?;
    let right = value_of_side(&read, (6, 2, 1))?;
    Ok(apply(read.get_data_field::<u16>(0), left, right))
}

#[inline(always)]
fn value_of_side(read: &StructReader<'_>, place: (usize, usize, usize)) -> Result<i32> {
    match read.get_data_field::<u16>(place.0) {
        VALUE => Ok(read.get_data_field::<i32>(place.1)),
        _ => value_of(read.get_pointer_field(place.2).get_struct(None)?),
    }
}

fn apply(operation: u16, left: i32, right: i32) -> i32 {
    match operation {
        0 => left.wrapping_add(right),
        1 => left.wrapping_sub(right),
        2 => left.wrapping_mul(right),
        3 => left.checked_div(right).unwrap_or(i32::MAX),
        4 => left.checked_rem(right).unwrap_or(i32::MAX),
        _ => 0,
    }
}
