//! As tools/library/cpp/main.cc, over the untyped readers and builders of the Rust crate `capnp` 0.14.11, as what its compiler makes calls
//! them. It takes the same words but `into` and `alone`: it reads no stream into a caller-provided buffer.
mod built;
mod root;
mod views;

use capnp::message::{Builder, Reader, ReaderOptions, ReaderSegments};
use capnp::{any_pointer, serialize, Result};
use root::RootReader;
use std::io::Read;

fn options() -> ReaderOptions {
    ReaderOptions { traversal_limit_in_words: None, nesting_limit: 64 }
}

fn first_number<S: ReaderSegments>(message: &Reader<S>) -> Result<u64> {
    let root: RootReader = message.get_root()?;
    Ok(root.0.get_data_field::<u64>(0))
}

fn set<S: ReaderSegments>(read: &Reader<S>) -> Result<u64> {
    let mut message = Builder::new_default();
    message.set_root(read.get_root::<any_pointer::Reader>()?)?;
    Ok(message.get_segments_for_output().iter().map(|segment| segment.len() as u64 / 8).sum())
}

fn flat(mut input: &[u8], allocates: bool) -> Result<u64> {
    let mut sum = 0u64;
    while !input.is_empty() {
        sum = sum.wrapping_add(if allocates {
            first_number(&serialize::read_message_from_flat_slice(&mut input, options())?)?
        } else {
            first_number(&serialize::read_message_from_flat_slice_no_alloc(&mut input, options())?)?
        });
    }
    Ok(sum)
}

fn copy(input: &[u8]) -> u64 {
    let mut copied = vec![0; input.len()];
    copied.copy_from_slice(input);
    std::hint::black_box(&copied).len() as u64 / 8
}

// What one time of a message comes to.
fn ask(row: &str, mut input: &[u8]) -> Result<u64> {
    let message = serialize::read_message_from_flat_slice(&mut input, options())?;
    match row {
        "set" => set(&message),
        _ => views::sum_of(row, message.get_root::<RootReader>()?.0),
    }
}

fn ask_again(row: &str, times: u32) -> Result<()> {
    let (mut input, mut sum) = (Vec::new(), 0u64);
    std::io::stdin().read_to_end(&mut input)?;
    for _ in 0..times {
        sum = sum.wrapping_add(match row {
            "copy" => copy(&input),
            "flat" => flat(&input, true)?,
            "flat-no-alloc" => flat(&input, false)?,
            _ => ask(row, &input)?,
        });
    }
    println!("{}", sum);
    Ok(())
}

fn main() -> Result<()> {
    let words: Vec<String> = std::env::args().collect();
    let number = |at: usize| words[at].parse::<u32>().unwrap();
    let writes = words.last().is_some_and(|word| word == "write");
    match words[1].as_str() {
        "values" => built::compose(&words[2], number(3), writes),
        "orphans" => built::build(&words[2], number(3), number(4), number(5), writes),
        row => ask_again(row, number(2))?,
    }
    Ok(())
}
