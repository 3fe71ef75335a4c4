//! What is built from the root down, in a region that is used again: what tools/library/src/composed composes, and what the benchmarks
//! `orphans` of crates/capnp_bench build.
use crate::root::RootBuilder;
use capnp::message::{Builder, ScratchSpaceHeapAllocator};
use capnp::private::layout::{ElementSize, ListBuilder, PointerBuilder, PrimitiveElement, StructBuilder, StructSize};
use capnp::Word;
use std::io::Write;

const ROOT: StructSize = StructSize { data: 0, pointers: 1 };
const ACCOUNT: StructSize = StructSize { data: 2, pointers: 1 };
const RECORD: StructSize = StructSize { data: 1, pointers: 2 };
const LOG_RECORD: StructSize = StructSize { data: 3, pointers: 2 };
const TABLE_ELEMENT: StructSize = StructSize { data: 2, pointers: 1 };
const NODE: StructSize = StructSize { data: 1, pointers: 2 };

const COMPOSED_NAMES: [&str; 8] = [
    "Ann", "Boris Vian", "Clara Schumann", "Dmitri Shostakovich", "Eleanor of Aquitaine", "Fyodor Mikhailovich Dostoevsky",
    "Grace Hopper", "Henri",
];
const NAMES: [&str; 4] = ["Ada", "Grace", "Barbara", "Margaret"];
const SAMPLES: [u32; 12] = [3, 1, 4, 1, 5, 9, 2, 6, 5, 3, 5, 8];
const WORDS: [&str; 4] = ["", "segment", "landing pad", "canonical form of a message"];

fn name(index: u32) -> &'static str {
    COMPOSED_NAMES[(index % 8) as usize]
}

fn set_numbers(pointer: PointerBuilder<'_>, numbers: &[u32]) {
    let list = pointer.init_list(ElementSize::FourBytes, numbers.len() as u32);
    for (index, number) in numbers.iter().enumerate() {
        u32::set(&list, index as u32, *number);
    }
}

fn accounts(root: StructBuilder<'_>) {
    let mut list = root.get_pointer_field(0).init_struct_list(190000, ACCOUNT);
    for index in 0..190000u32 {
        let account = list.reborrow().get_struct_element(index);
        account.set_data_field::<u64>(0, index as u64);
        account.set_data_field::<u64>(1, index as u64 * 7919);
        account.get_pointer_field(0).set_text(name(index));
    }
}

fn records(root: StructBuilder<'_>, samples: &[u32]) {
    let mut list = root.get_pointer_field(0).init_struct_list(97500, RECORD);
    for index in 0..97500u32 {
        let record = list.reborrow().get_struct_element(index);
        record.set_data_field::<u64>(0, index as u64);
        let first = (index % 64) as usize;
        set_numbers(record.get_pointer_field(0), &samples[first..first + 10]);
        record.get_pointer_field(1).set_text(name(index));
    }
}

fn names(root: StructBuilder<'_>) {
    let mut list = root.get_pointer_field(0).init_list(ElementSize::Pointer, 307000);
    for index in 0..307000u32 {
        list.reborrow().get_pointer_element(index).set_text(name(index));
    }
}

struct Random {
    state: u64,
}

impl Random {
    fn new(seed: u32) -> Random {
        Random { state: (seed as u64).wrapping_mul(0x9e37_79b9_7f4a_7c15) | 1 }
    }

    fn next(&mut self) -> u64 {
        let mut state = self.state;
        state ^= state << 13;
        state ^= state >> 7;
        state ^= state << 17;
        self.state = state;
        state.wrapping_mul(0x2545_f491_4f6c_dd1d)
    }

    fn below(&mut self, bound: u32) -> u64 {
        (self.next() >> 32) % bound as u64
    }
}

fn log_record(record: StructBuilder<'_>, random: &mut Random, id: u32) {
    record.set_data_field::<u64>(0, id as u64);
    record.set_data_field::<u64>(1, random.next());
    record.set_data_field::<u32>(4, id);
    record.get_pointer_field(0).set_text(NAMES[random.below(4) as usize]);
    if random.below(4) == 0 {
        set_numbers(record.get_pointer_field(1), &SAMPLES[..random.below(12) as usize]);
    }
}

fn table(mut list: ListBuilder<'_>, random: &mut Random, count: u32) {
    for id in 0..count {
        let element = list.reborrow().get_struct_element(id);
        element.set_data_field::<u64>(0, random.next());
        element.set_bool_field(64, id % 3 == 0);
        element.set_data_field::<u32>(3, id);
        element.get_pointer_field(0).set_text(if id % 2 == 0 { "a text that rows share" } else { "its own" });
    }
}

fn tree(node: StructBuilder<'_>, random: &mut Random, depth: u32) {
    node.set_data_field::<u64>(0, random.next());
    if depth > 0 {
        tree(node.get_pointer_field(0).init_struct(NODE), random, depth - 1);
        tree(node.get_pointer_field(1).init_struct(NODE), random, depth - 1);
    }
}

fn texts(mut list: ListBuilder<'_>, random: &mut Random, count: u32) {
    for index in 0..count {
        if let Some(word) = WORDS.get(random.below(5) as usize) {
            list.reborrow().get_pointer_element(index).set_text(word);
        }
    }
}

/// Builds messages in a region, each by a function of its root, and writes those that are to be written.
struct Region<'a> {
    allocator: ScratchSpaceHeapAllocator<'a>,
    writes: bool,
}

impl Region<'_> {
    #[inline(always)]
    fn build(&mut self, fill: impl FnOnce(PointerBuilder<'_>)) {
        let mut message = Builder::new(&mut self.allocator);
        fill(message.init_root::<RootBuilder>().0);
        if self.writes {
            let segments = message.get_segments_for_output();
            let mut output = std::io::stdout().lock();
            output.write_all(&((segments[0].len() as u64 / 8) << 32).to_le_bytes()).unwrap();
            output.write_all(segments[0]).unwrap();
        }
    }
}

/// Composes the message of a shape a number of times.
pub fn compose(shape: &str, times: u32, writes: bool) {
    let mut words = Word::allocate_zeroed_vec(1050000);
    let mut region = Region { allocator: ScratchSpaceHeapAllocator::new(Word::words_to_bytes_mut(&mut words)), writes };
    let samples: Vec<u32> = (0..73u32).map(|index| index * 40503).collect();
    for _ in 0..times {
        region.build(|root| match shape {
            "accounts" => accounts(root.init_struct(ROOT)),
            "records" => records(root.init_struct(ROOT), &samples),
            _ => names(root.init_struct(ROOT)),
        });
    }
}

/// Builds the messages of a benchmark a number of times, and writes those of the last time.
pub fn build(kind: &str, seed: u32, count: u32, times: u32, writes: bool) {
    let mut words = Word::allocate_zeroed_vec(if kind == "records" { 1024 } else { 7 * count as usize + 1024 });
    let mut region = Region { allocator: ScratchSpaceHeapAllocator::new(Word::words_to_bytes_mut(&mut words)), writes: false };
    for time in 0..times {
        let mut random = Random::new(seed);
        region.writes = writes && time + 1 == times;
        match kind {
            "records" => {
                for id in 0..count {
                    region.build(|root| log_record(root.init_struct(LOG_RECORD), &mut random, id));
                }
            }
            "table" => region.build(|root| table(root.init_struct_list(count, TABLE_ELEMENT), &mut random, count)),
            "tree" => region.build(|root| tree(root.init_struct(NODE), &mut random, count.ilog2())),
            _ => region.build(|root| texts(root.init_list(ElementSize::Pointer, count), &mut random, count)),
        }
    }
}
