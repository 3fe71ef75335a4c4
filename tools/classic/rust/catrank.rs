//! As crates/capnp_classic/src/catrank.rt.
use crate::random::Random;
use crate::root::structs;
use crate::Benchmark;
use capnp::private::layout::{PointerBuilder, StructBuilder, StructReader, StructSize};
use capnp::Result;
use std::cmp::Ordering;

const LIST: StructSize = StructSize { data: 0, pointers: 1 };
const RESULT: StructSize = StructSize { data: 1, pointers: 2 };

const FRONT: &[u8] = b"http://example.com/";

const WORDS: [&str; 13] = [
    "foo ", "bar ", "baz ", "qux ", "quux ", "corge ", "grault ", "garply ", "waldo ", "fred ", "plugh ", "xyzzy ",
    "thud ",
];

#[derive(Default)]
pub struct CatRank {
    text: String,
}

impl Benchmark for CatRank {
    const REQUEST: StructSize = LIST;
    const RESPONSE: StructSize = LIST;

    fn request(&mut self, random: &mut Random, root: StructBuilder<'_>) -> u64 {
        let count = random.below(1000);
        let mut results = root.get_pointer_field(0).init_struct_list(count, RESULT);
        let mut good = 0;
        for index in 0..count {
            let result = results.reborrow().get_struct_element(index);
            result.set_data_field::<f64>(0, 1000.0 - index as f64);
            fill_url(random, result.get_pointer_field(0));
            good += fill_snippet(&mut self.text, random) as u64;
            result.get_pointer_field(1).set_text(&self.text);
        }
        good
    }

    fn respond(&mut self, request: StructReader<'_>, response: StructBuilder<'_>) -> Result<()> {
        let results = structs(&request, 0)?;
        let mut scored = Vec::with_capacity(results.len() as usize);
        for index in 0..results.len() {
            let result = results.get_struct_element(index);
            scored.push((score_of(&result)?, result));
        }
        scored.sort_unstable_by(|one, other| other.0.partial_cmp(&one.0).unwrap_or(Ordering::Equal));
        let mut list = response.get_pointer_field(0).init_struct_list(scored.len() as u32, RESULT);
        for (index, (score, read)) in scored.iter().enumerate() {
            let result = list.reborrow().get_struct_element(index as u32);
            result.set_data_field::<f64>(0, *score);
            result.get_pointer_field(0).set_text(read.get_pointer_field(0).get_text(None)?);
            result.get_pointer_field(1).set_text(read.get_pointer_field(1).get_text(None)?);
        }
        Ok(())
    }

    fn said(&self, response: StructReader<'_>) -> Result<u64> {
        let results = structs(&response, 0)?;
        let mut good = 0;
        for index in 0..results.len() {
            if results.get_struct_element(index).get_data_field::<f64>(0) <= 1001.0 {
                break;
            }
            good += 1;
        }
        Ok(good)
    }
}

// The url is written where it stays.
fn fill_url(random: &mut Random, pointer: PointerBuilder<'_>) {
    let letters = random.below(100);
    let mut url = pointer.init_text(FRONT.len() as u32 + letters);
    // All bytes that are written are ASCII.
    let bytes = unsafe { url.as_bytes_mut() };
    bytes[..FRONT.len()].copy_from_slice(FRONT);
    for byte in &mut bytes[FRONT.len()..] {
        *byte = b'a' + random.below(26) as u8;
    }
}

fn fill_snippet(text: &mut String, random: &mut Random) -> bool {
    let cat = random.below(8) == 0;
    let dog = random.below(8) == 0;
    text.clear();
    text.push(' ');
    push_words(text, random);
    if cat {
        text.push_str("cat ");
    }
    if dog {
        text.push_str("dog ");
    }
    push_words(text, random);
    cat && !dog
}

fn push_words(text: &mut String, random: &mut Random) {
    for _ in 0..random.below(20) {
        text.push_str(WORDS[random.below(13) as usize]);
    }
}

fn score_of(result: &StructReader<'_>) -> Result<f64> {
    let mut score = result.get_data_field::<f64>(0);
    let snippet = result.get_pointer_field(1).get_text(None)?.as_bytes();
    if has_word(snippet, b" cat ") {
        score *= 10000.0;
    }
    if has_word(snippet, b" dog ") {
        score /= 10000.0;
    }
    Ok(score)
}

// Whether these five bytes are in a text.
fn has_word(text: &[u8], word: &[u8; 5]) -> bool {
    text.windows(5).any(|five| {
        five[0] == word[0] && five[1] == word[1] && five[2] == word[2] && five[3] == word[3] && five[4] == word[4]
    })
}
