//! Reads a whole message, as tools/library/src/views does: the sum of all numbers, and of the lengths and the bytes of all texts. These
//! are read as data: the crate's texts are tested as UTF-8, which ours and the C++ library's are not.
use crate::root::structs;
use capnp::private::layout::{ElementSize, PointerReader, PrimitiveElement, StructReader};
use capnp::Result;

fn of_text(pointer: PointerReader<'_>) -> Result<u64> {
    let bytes = pointer.get_data(None)?;
    // A text's last byte is zero, and is not one of its own.
    let mut sum = bytes.len().saturating_sub(1) as u64;
    for byte in bytes {
        sum = sum.wrapping_add(*byte as u64);
    }
    Ok(sum)
}

// The first number and the first text of a struct.
#[inline(always)]
fn of_group(group: &StructReader<'_>) -> Result<u64> {
    Ok(group.get_data_field::<u64>(0).wrapping_add(of_text(group.get_pointer_field(0))?))
}

// The sum of the structs of a list, by the sum of each.
#[inline(always)]
fn of_structs<'a>(at: &StructReader<'a>, index: usize, each: impl Fn(StructReader<'a>) -> Result<u64>) -> Result<u64> {
    let list = structs(at, index)?;
    let mut sum = 0u64;
    for index in 0..list.len() {
        sum = sum.wrapping_add(each(list.get_struct_element(index))?);
    }
    Ok(sum)
}

fn of_account(account: StructReader<'_>) -> Result<u64> {
    Ok(of_group(&account)?.wrapping_add(account.get_data_field::<u64>(1)))
}

fn of_record(record: StructReader<'_>) -> Result<u64> {
    let samples = record.get_pointer_field(0).get_list(ElementSize::FourBytes, None)?;
    let mut sum = record.get_data_field::<u64>(0);
    for at in 0..samples.len() {
        sum = sum.wrapping_add(u32::get(&samples, at) as u64);
    }
    Ok(sum.wrapping_add(of_text(record.get_pointer_field(1))?))
}

fn of_names(root: StructReader<'_>) -> Result<u64> {
    let names = root.get_pointer_field(0).get_list(ElementSize::Pointer, None)?;
    let mut sum = 0u64;
    for index in 0..names.len() {
        sum = sum.wrapping_add(of_text(names.get_pointer_element(index))?);
    }
    Ok(sum)
}

fn of_member(member: StructReader<'_>) -> Result<u64> {
    let address = member.get_pointer_field(1).get_struct(None)?;
    Ok(of_account(member)?.wrapping_add(of_group(&address)?))
}

fn of_team(team: StructReader<'_>) -> Result<u64> {
    Ok(of_group(&team)?.wrapping_add(of_structs(&team, 1, of_member)?))
}

fn of_department(department: StructReader<'_>) -> Result<u64> {
    Ok(of_group(&department)?.wrapping_add(of_structs(&department, 1, of_team)?))
}

/// The sum of a message, by the name of what it has.
pub fn sum_of(shape: &str, root: StructReader<'_>) -> Result<u64> {
    match shape {
        "accounts" => of_structs(&root, 0, of_account),
        "records" => of_structs(&root, 0, of_record),
        "names" => of_names(root),
        _ => Ok(of_group(&root)?.wrapping_add(of_structs(&root, 1, of_department)?)),
    }
}
