//! Runs requests over the Rust crate (conformance/README.md).
use capnp::message::{Reader, ReaderOptions, ReaderSegments, SegmentArray};
use capnp::private::layout::{ElementSize, ListReader, PointerReader, PrimitiveElement, StructReader};
use capnp::traits::FromPointerReader;
use capnp::{serialize, serialize_packed, Word};
use std::io::BufRead;
use std::panic::{catch_unwind, AssertUnwindSafe};

/// Who is asked what, of which segments.
struct Request<'a> {
    call: &'a str,
    who: &'a str,
    options: ReaderOptions,
    calls: Option<usize>,
    has_buffer: bool,
    path: Vec<usize>,
    segments: Vec<Vec<u8>>,
    arguments: Vec<&'a str>,
}

impl<'a> Request<'a> {
    fn parse(line: &'a str) -> Request<'a> {
        let words: Vec<&str> = line.split(' ').collect();
        let mut options = ReaderOptions::new();
        options.traversal_limit_in_words(words[2].parse().ok()).nesting_limit(words[3].parse().unwrap());
        let unhex = |digits: &str| (0..digits.len() / 2).map(|i| u8::from_str_radix(&digits[2 * i..2 * i + 2], 16).unwrap()).collect();
        Request {
            call: words[0],
            who: words[1],
            options,
            calls: words[4].parse().ok(),
            has_buffer: words[5] != "none",
            path: words[6].split(',').filter_map(|index| index.parse().ok()).collect(),
            segments: words[7].split('|').filter(|digits| *digits != "none").map(unhex).collect(),
            arguments: words[8..].to_vec(),
        }
    }
}

fn shown(bytes: &[u8]) -> String {
    let digits = |word: &[u8]| word.iter().map(|byte| format!("{:02x}", byte)).collect::<String>();
    if bytes.is_empty() { "-".into() } else { bytes.chunks(8).map(digits).collect::<Vec<_>>().join(" ") }
}

fn message_of<S: ReaderSegments>(segments: S) -> String {
    let all = (0..).map_while(|id| segments.get_segment(id).map(shown));
    format!("message {}", all.collect::<Vec<_>>().join(" | "))
}

fn unread(count: usize) -> String {
    if count > 0 { format!("; {} unread", count) } else { "".into() }
}

fn tried<F: FnOnce() -> capnp::Result<String>>(call: F) -> String {
    match catch_unwind(AssertUnwindSafe(call)) {
        Ok(Ok(line)) => line,
        Ok(Err(error)) => format!("error - {}", error.description.replace(['\n', '\t', ';'], " ")),
        Err(_) => "error - PANIC".into(),
    }
}

fn stream(request: &Request) -> String {
    let (mut results, mut source) = (vec![], request.segments[0].as_slice());
    while request.calls.map_or(true, |calls| results.len() < calls) {
        let result = tried(|| {
            let read = if request.call == "packed" {
                serialize_packed::try_read_message(&mut source, request.options)?
            } else {
                serialize::try_read_message(&mut source, request.options)?
            };
            Ok(read.map_or("end".into(), |message| message_of(message.into_segments())))
        });
        let is_last = request.calls.is_none() && !result.starts_with("message");
        results.push(result + &unread(source.len()));
        if is_last {
            break;
        }
    }
    results.join("\t")
}

// Bytes at a place that is aligned.
fn aligned(bytes: &[u8]) -> Vec<Word> {
    let mut words = Word::allocate_zeroed_vec((bytes.len() + 7) / 8);
    Word::words_to_bytes_mut(&mut words)[..bytes.len()].copy_from_slice(bytes);
    words
}

fn flat(request: &Request, bytes: &[u8]) -> String {
    let mut slice = bytes;
    let result = tried(|| {
        Ok(if request.who.ends_with("fields") {
            message_of(serialize::read_message_from_flat_slice_no_alloc(&mut slice, request.options)?.into_segments())
        } else {
            message_of(serialize::read_message_from_flat_slice(&mut slice, request.options)?.into_segments())
        })
    });
    result + &unread(slice.len())
}

fn write(segments: &[&[u8]]) -> String {
    tried(|| {
        let mut bytes = vec![];
        serialize::write_message_segments(&mut bytes, &SegmentArray::new(segments))?;
        Ok(format!("bytes {}", shown(&bytes)))
    })
}

struct Pointer<'a>(PointerReader<'a>);

impl<'a> FromPointerReader<'a> for Pointer<'a> {
    fn get_from_pointer(reader: &PointerReader<'a>, _: Option<&'a [Word]>) -> capnp::Result<Pointer<'a>> {
        Ok(Pointer(*reader))
    }
}

fn shown_pointer(p: PointerReader) -> String { (if p.is_null() { "null" } else { "set" }).into() }

// The data words of a struct, the last of which may be narrower, and which of its pointers are null.
fn shown_struct(fields: StructReader) -> String {
    let mut line = "[".to_string();
    let size = fields.get_data_section_size() as usize;
    for i in 0..size / 64 {
        line += &format!("{:x} ", fields.get_data_field::<u64>(i));
    }
    match size % 64 {
        32 => line += &format!("{:x} ", fields.get_data_field::<u32>(0)),
        16 => line += &format!("{:x} ", fields.get_data_field::<u16>(0)),
        8 => line += &format!("{:x} ", fields.get_data_field::<u8>(0)),
        _ => {}
    }
    line += "|";
    for i in 0..fields.get_pointer_section_size() as usize {
        line += &format!(" {}", shown_pointer(fields.get_pointer_field(i)));
    }
    line + "]"
}

fn field(request: &Request, fields: StructReader) -> String {
    let (index, default) = (request.arguments[1].parse().unwrap(), u64::from_str_radix(request.arguments[2], 16).unwrap());
    let shown = match request.arguments[0] {
        "1" => format!("{:x}", fields.get_bool_field_mask(index, default != 0) as u8),
        "8" => format!("{:x}", fields.get_data_field_mask::<u8>(index, default as u8)),
        "16" => format!("{:x}", fields.get_data_field_mask::<u16>(index, default as u16)),
        "32" => format!("{:x}", fields.get_data_field_mask::<u32>(index, default as u32)),
        "64" => format!("{:x}", fields.get_data_field_mask::<u64>(index, default)),
        "i8" => fields.get_data_field_mask::<i8>(index, default as i8).to_string(),
        "i16" => fields.get_data_field_mask::<i16>(index, default as i16).to_string(),
        "i32" => fields.get_data_field_mask::<i32>(index, default as i32).to_string(),
        "i64" => fields.get_data_field_mask::<i64>(index, default as i64).to_string(),
        "f32" => fields.get_data_field_mask::<f32>(index, default as u32).to_string(),
        _ => fields.get_data_field_mask::<f64>(index, default).to_string(),
    };
    format!("number {}", shown)
}

fn list(elements: &str, pointer: PointerReader) -> capnp::Result<String> {
    let size = match elements.trim_start_matches(&['i', 'f'][..]) {
        "void" => ElementSize::Void,
        "bool" => ElementSize::Bit,
        "8" => ElementSize::Byte,
        "16" => ElementSize::TwoBytes,
        "32" => ElementSize::FourBytes,
        "64" => ElementSize::EightBytes,
        "pointers" => ElementSize::Pointer,
        _ => ElementSize::InlineComposite,
    };
    let element = |list: &ListReader, i: u32| match elements {
        "void" => "0".into(),
        "bool" => format!("{:x}", <bool as PrimitiveElement>::get(list, i) as u8),
        "8" => format!("{:x}", <u8 as PrimitiveElement>::get(list, i)),
        "16" => format!("{:x}", <u16 as PrimitiveElement>::get(list, i)),
        "32" => format!("{:x}", <u32 as PrimitiveElement>::get(list, i)),
        "64" => format!("{:x}", <u64 as PrimitiveElement>::get(list, i)),
        "i8" => <i8 as PrimitiveElement>::get(list, i).to_string(),
        "i16" => <i16 as PrimitiveElement>::get(list, i).to_string(),
        "i32" => <i32 as PrimitiveElement>::get(list, i).to_string(),
        "i64" => <i64 as PrimitiveElement>::get(list, i).to_string(),
        "f32" => <f32 as PrimitiveElement>::get(list, i).to_string(),
        "f64" => <f64 as PrimitiveElement>::get(list, i).to_string(),
        "pointers" => shown_pointer(list.get_pointer_element(i)),
        _ => shown_struct(list.get_struct_element(i)),
    };
    let list = pointer.get_list(size, None)?;
    let mut words = vec![format!("list of {}{}", list.len(), if list.len() > 0 { ":" } else { "" })];
    words.extend((0..list.len().min(64)).map(|i| element(&list, i)));
    words.extend((list.len() > 64).then(|| "..".to_string()));
    Ok(words.join(" "))
}

// What is said of a message from which nothing was read.
fn about_object(request: &Request, segments: &[&[u8]]) -> capnp::Result<String> {
    let reader = Reader::new(SegmentArray::new(segments), request.options);
    if request.call == "canonical" {
        return Ok(match request.who {
            "test" => (if reader.is_canonical()? { "yes" } else { "no" }).into(),
            _ => format!("bytes {}", shown(Word::words_to_bytes(&reader.canonicalize()?))),
        });
    }
    let mut pointer = reader.get_root::<Pointer>()?.0;
    for index in &request.path {
        pointer = pointer.get_struct(None)?.get_pointer_field(*index);
    }
    Ok(match request.who {
        "null" => (if pointer.is_null() { "yes" } else { "no" }).into(),
        "text" => format!("bytes {}", shown(pointer.get_text(None)?.as_bytes())),
        "data" => format!("bytes {}", shown(pointer.get_data(None)?)),
        "struct" => format!("struct {}", shown_struct(pointer.get_struct(None)?)),
        "size" => pointer.total_size()?.word_count.to_string(),
        "field" => field(request, pointer.get_struct(None)?),
        _ => list(request.arguments[0], pointer)?,
    })
}

fn results_of(request: &Request) -> String {
    let aligned: Vec<Vec<Word>> = request.segments.iter().map(|segment| aligned(segment)).collect();
    let slices = aligned.iter().zip(&request.segments).map(|(words, segment)| &Word::words_to_bytes(words)[..segment.len()]);
    let segments: Vec<&[u8]> = slices.collect();
    match (request.call, request.who) {
        ("framed" | "packed", "lenient") if !request.has_buffer => stream(request),
        ("flat", "lenient-words" | "lenient-fields") => flat(request, segments[0]),
        ("write", "framed") => write(&segments),
        ("pointer" | "canonical" | "field", _) | ("list", "upgraded") => tried(|| about_object(request, &segments)),
        _ => String::new(),
    }
}

fn main() {
    std::panic::set_hook(Box::new(|_| {}));
    for line in std::io::stdin().lock().lines() {
        println!("{}", results_of(&Request::parse(&line.unwrap())));
    }
}
