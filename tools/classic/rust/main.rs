//! As crates/capnp_classic, over the untyped builders and readers of the Rust crate `capnp` 0.14.11, as what its
//! compiler makes calls them. It takes the same words, but for `all`, and prints the same.
mod carsales;
mod catrank;
mod eval;
mod random;
mod root;

use capnp::message::{Allocator, Builder, HeapAllocator, Reader, ReaderOptions, ReaderSegments, ScratchSpaceHeapAllocator};
use capnp::private::layout::{StructBuilder, StructReader, StructSize};
use capnp::{serialize, serialize_packed, Result, Word};
use random::Random;
use root::{RootBuilder, RootReader};
use std::io::Write;

const OPTIONS: ReaderOptions = ReaderOptions { traversal_limit_in_words: Some(8 * 1024 * 1024), nesting_limit: 64 };

/// What a benchmark does with one request.
pub trait Benchmark: Default {
    const REQUEST: StructSize;
    const RESPONSE: StructSize;

    fn request(&mut self, random: &mut Random, root: StructBuilder<'_>) -> u64;
    fn respond(&mut self, request: StructReader<'_>, response: StructBuilder<'_>) -> Result<()>;
    fn said(&self, response: StructReader<'_>) -> Result<u64>;
}

/// Reads the root of a message, whose canonical form is written, framed, where it is wanted.
fn read_root<S: ReaderSegments, T>(message: &Reader<S>, writes: bool, read: impl FnOnce(StructReader<'_>) -> Result<T>) -> Result<T> {
    if writes {
        let words = message.canonicalize()?;
        let mut output = std::io::stdout().lock();
        output.write_all(&((words.len() as u64) << 32).to_le_bytes()).unwrap();
        output.write_all(Word::words_to_bytes(&words)).unwrap();
    }
    read(message.get_root::<RootReader>()?.0)
}

/// Where a message is built, and the stream that it is packed into.
struct Place<A> {
    allocator: A,
    stream: Vec<u8>,
}

/// Requests and responses of one benchmark, each built in its place.
struct Exchange<B> {
    benchmark: B,
    mode: u8, // its first letter
    writes: bool,
    values: u64,
    bytes: u64,
    wrong: u64,
}

impl<B: Benchmark> Exchange<B> {
    /// Passes a message that was built, as the mode says, and reads its root.
    #[inline(always)]
    fn pass<A: Allocator, T>(
        &mut self, message: &Builder<A>, stream: &mut Vec<u8>, read: impl FnOnce(&mut Self, StructReader<'_>) -> Result<T>,
    ) -> Result<T> {
        let writes = self.writes;
        self.bytes += message.get_segments_for_output().iter().map(|segment| segment.len() as u64).sum::<u64>();
        match self.mode {
            b'o' => {
                if writes {
                    let stream = serialize::write_message_to_words(message);
                    read_root(&serialize::read_message(&mut stream.as_slice(), OPTIONS)?, writes, |_| Ok(()))?;
                }
                read(self, message.get_root_as_reader::<RootReader>()?.0)
            }
            b'b' => {
                let stream = serialize::write_message_to_words(message);
                let message = serialize::read_message_from_flat_slice_no_alloc(&mut stream.as_slice(), OPTIONS)?;
                read_root(&message, writes, |root| read(self, root))
            }
            _ => {
                stream.clear();
                serialize_packed::write_message(&mut *stream, message)?;
                let message = serialize_packed::read_message(&mut stream.as_slice(), OPTIONS)?;
                read_root(&message, writes, |root| read(self, root))
            }
        }
    }

    fn exchange<A: Allocator>(&mut self, random: &mut Random, [one, other]: &mut [Place<A>; 2]) -> Result<()> {
        let mut request = Builder::new(&mut one.allocator);
        let expected = self.benchmark.request(random, request.init_root::<RootBuilder>().0.init_struct(B::REQUEST));
        let mut response = Builder::new(&mut other.allocator);
        self.pass(&request, &mut one.stream, |exchange, root| {
            exchange.benchmark.respond(root, response.init_root::<RootBuilder>().0.init_struct(B::RESPONSE))?;
            let said = exchange.pass(&response, &mut other.stream, |exchange, root| exchange.benchmark.said(root))?;
            exchange.values = exchange.values.wrapping_add(said);
            exchange.wrong += (said != expected) as u64;
            Ok(())
        })
    }
}

/// Memory that is used again.
fn region() -> ScratchSpaceHeapAllocator<'static> {
    let words = Box::leak(Word::allocate_zeroed_vec(1 << 16).into_boxed_slice());
    ScratchSpaceHeapAllocator::new(Word::words_to_bytes_mut(words))
}

fn run<B: Benchmark, A: Allocator>(words: &[String], make: fn() -> A, is_fresh: bool) {
    let mut exchange =
        Exchange { benchmark: B::default(), mode: words[2].as_bytes()[0], writes: words.len() > 6, values: 0, bytes: 0, wrong: 0 };
    let mut random = Random::new(words[4].parse().unwrap());
    let mut places = [0, 1].map(|_| Place { allocator: make(), stream: Vec::with_capacity(1 << 19) });
    for _ in 0..words[5].parse::<u32>().unwrap() {
        if is_fresh {
            places.iter_mut().for_each(|place| place.allocator = make());
        }
        exchange.exchange(&mut random, &mut places).unwrap();
    }
    if !exchange.writes {
        println!("{} {} {} {} {}", words[1], words[2], words[3], exchange.values, exchange.bytes);
    }
    std::process::exit((exchange.wrong != 0) as i32);
}

fn run_over<B: Benchmark>(words: &[String]) {
    match words[3].as_str() {
        "reused" => run::<B, _>(words, region, false),
        _ => run::<B, _>(words, HeapAllocator::new, true),
    }
}

fn main() {
    let words: Vec<String> = std::env::args().collect();
    match words[1].as_str() {
        "carsales" => run_over::<carsales::CarSales>(&words),
        "catrank" => run_over::<catrank::CatRank>(&words),
        _ => run_over::<eval::Eval>(&words),
    }
}
