// Runs requests over the C++ library (conformance/README.md).
#include "requests.h"
#include <capnp/any.h>
#include <capnp/layout.h>
#include <capnp/message.h>
#include <capnp/serialize-packed.h>
#include <capnp/serialize.h>
#include <kj/io.h>
#include <cstring>

using Pointer = capnp::_::PointerReader;

static capnp::ReaderOptions options_of(const Request &r) {
    capnp::ReaderOptions options;
    options.traversalLimitInWords = r.limit;
    options.nestingLimit = r.nesting;
    return options;
}

// What a call makes, or the first line of the library's error.
template <typename Call> static std::string tried(Call &&call) {
    std::string result;
    KJ_IF_MAYBE(error, kj::runCatchingExceptions([&] { result = call(); })) {
        std::string text = error->getDescription().cStr();
        size_t at = text.find(';');
        if (text.substr(0, 8) == "expected" && at != std::string::npos) text = text.substr(at + 2);
        for (auto &c : text) if (c == '\n' || c == '\t' || c == ';') c = ' ';
        return "error - " + text;
    }
    return result;
}

static size_t count_of(bool packed, kj::ArrayPtr<const kj::byte> bytes) {
    kj::ArrayInputStream raw(bytes);
    uint32_t head[2];
    if (packed) capnp::_::PackedInputStream(raw).read(head, 8);
    else raw.read(head, 8);
    return uint32_t(head[0] + 1);
}

template <typename Reader> static std::string message_of(Reader &reader, size_t count) {
    std::vector<Bytes> segments;
    for (unsigned id = 0; id < count; id++) {
        auto bytes = reader.getSegment(id).asBytes();
        segments.push_back(Bytes(reinterpret_cast<const char *>(bytes.begin()), bytes.size()));
    }
    return "message " + shown_segments(segments);
}

static std::string stream(const Request &r) {
    auto &bytes = r.segments[0];
    bool packed = r.call == "packed";
    kj::ArrayInputStream source(kj::arrayPtr(reinterpret_cast<const kj::byte *>(bytes.data()), bytes.size()));
    return shown_stream(r, [&](bool &is_last) {
        auto left = source.tryGetReadBuffer();
        std::string result = left.size() == 0 ? "end" : tried([&]() -> std::string {
            size_t count = count_of(packed, left);
            if (packed) {
                capnp::PackedMessageReader reader(source, options_of(r));
                return message_of(reader, count);
            }
            capnp::InputStreamMessageReader reader(source, options_of(r));
            return message_of(reader, count);
        });
        is_last = r.calls < 0 && result.substr(0, 7) != "message";
        return result + unread(source.tryGetReadBuffer().size());
    });
}

static kj::Array<capnp::word> words_of(const Bytes &bytes) {
    auto words = kj::heapArray<capnp::word>(bytes.size() / 8);
    memcpy(words.begin(), bytes.data(), words.size() * 8);
    return words;
}

static std::string flat(const Request &r) {
    auto &bytes = r.segments[0];
    auto words = words_of(bytes);
    return tried([&]() -> std::string {
        capnp::FlatArrayMessageReader reader(words, options_of(r));
        std::string result = message_of(reader, words.size() ? count_of(false, words.asBytes()) : 0);
        return result + unread(bytes.size() - 8 * (reader.getEnd() - words.begin()));
    });
}

template <typename Chars> static std::string shown_chars(Chars &&chars) {
    return "bytes " + shown(Bytes(reinterpret_cast<const char *>(chars.begin()), chars.size()));
}

static std::string pack(const Request &r) {
    return tried([&]() -> std::string {
        kj::VectorOutputStream sink;
        for (auto &chunk : r.segments) capnp::_::PackedOutputStream(sink).write(chunk.data(), chunk.size());
        return shown_chars(sink.getArray());
    });
}

static std::string unpack(const Request &r) {
    auto &bytes = r.segments[0];
    return tried([&]() -> std::string {
        kj::ArrayInputStream source(kj::arrayPtr(reinterpret_cast<const kj::byte *>(bytes.data()), bytes.size()));
        Bytes chunk(std::stoul(r.arguments[0]), 0);
        capnp::_::PackedInputStream(source).read(&chunk[0], chunk.size());
        return "bytes " + shown(chunk) + unread(source.tryGetReadBuffer().size());
    });
}

// Segments as they are: an empty one is there.
struct Segments final : capnp::MessageReader {
    std::vector<kj::Array<capnp::word>> segments;
    explicit Segments(const Request &r) : MessageReader(options_of(r)) {
        for (auto &segment : r.segments) segments.push_back(words_of(segment));
    }
    kj::ArrayPtr<const capnp::word> getSegment(unsigned id) override {
        static const capnp::word nothing[1] = {};
        if (id >= segments.size()) return nullptr;
        return segments[id].size() ? kj::ArrayPtr<const capnp::word>(segments[id]) : kj::arrayPtr(nothing, size_t(0));
    }
};

static std::string write(const Request &r) {
    std::vector<kj::Array<capnp::word>> words;
    for (auto &segment : r.segments) words.push_back(words_of(segment));
    std::vector<kj::ArrayPtr<const capnp::word>> segments;
    for (auto &segment : words) segments.push_back(segment);
    auto all = kj::arrayPtr(segments.data(), segments.size());
    return tried([&] {
        kj::VectorOutputStream sink;
        if (r.who == "packed") capnp::writePackedMessage(sink, all);
        else capnp::writeMessage(sink, all);
        return shown_chars(sink.getArray());
    });
}

// The data words of a struct, the last of which may be narrower, and which of its pointers are null.
static std::string shown_struct(capnp::_::StructReader fields) {
    std::string line = "[";
    unsigned bits = fields.getDataSectionSize() / capnp::BITS;
    for (unsigned i = 0; i < bits / 64; i++) line += hex(fields.getDataField<uint64_t>(i * capnp::ELEMENTS)) + " ";
    if (bits % 64) line += hex(bits == 32 ? fields.getDataField<uint32_t>(0 * capnp::ELEMENTS)
        : bits == 16 ? fields.getDataField<uint16_t>(0 * capnp::ELEMENTS) : fields.getDataField<uint8_t>(0 * capnp::ELEMENTS)) + " ";
    line += "|";
    for (unsigned i = 0; i < fields.getPointerSectionSize() / capnp::POINTERS; i++)
        line += fields.getPointerField(i * capnp::POINTERS).isNull() ? " null" : " set";
    return line + "]";
}

static std::string about_pointer(const Request &r, Pointer p) {
    if (r.who == "null") return p.isNull() ? "yes" : "no";
    if (r.who == "text") return shown_chars(p.getBlob<capnp::Text>(nullptr, 0 * capnp::BYTES));
    if (r.who == "data") return shown_chars(p.getBlob<capnp::Data>(nullptr, 0 * capnp::BYTES));
    if (r.who == "struct") return "struct " + shown_struct(p.getStruct(nullptr));
    if (r.who == "size") return std::to_string(p.targetSize().wordCount);
    auto fields = p.getStruct(nullptr);
    return "number " + by_number(r.arguments[0], [&](auto zero) {
        return shown_number(fields.getDataField<decltype(zero)>(r.index() * capnp::ELEMENTS, r.bits()));
    });
}

static std::string list(const Request &r, Pointer p) {
    auto size = capnp::ElementSize(code_of(r.arguments[0]));
    auto list = p.getList(size, nullptr);
    return shown_elements(list.size() / capnp::ELEMENTS, [&](unsigned i) -> std::string {
        auto at = i * capnp::ELEMENTS;
        if (size == capnp::ElementSize::VOID) return "0";
        if (size == capnp::ElementSize::POINTER) return list.getPointerElement(at).isNull() ? "null" : "set";
        if (size == capnp::ElementSize::INLINE_COMPOSITE) return shown_struct(list.getStructElement(at));
        return by_number(r.arguments[0], [&](auto zero) { return shown_number(list.getDataElement<decltype(zero)>(at)); });
    });
}

// What is said of a message from which nothing was read.
static std::string about_object(const Request &r) {
    Segments reader(r);
    if (r.who == "test") return reader.isCanonical() ? "yes" : "no";
    if (r.who == "form") {
        capnp::MallocMessageBuilder builder(1 << 16, capnp::AllocationStrategy::FIXED_SIZE);
        builder.getRoot<capnp::AnyPointer>().setCanonical(reader.getRoot<capnp::AnyPointer>());
        return shown_chars(builder.getSegmentsForOutput()[0].asBytes());
    }
    Pointer pointer = capnp::_::PointerHelpers<capnp::AnyPointer>::getInternalReader(reader.getRoot<capnp::AnyPointer>());
    for (unsigned index : r.path) pointer = pointer.getStruct(nullptr).getPointerField(index * capnp::POINTERS);
    return r.call == "list" ? list(r, pointer) : about_pointer(r, pointer);
}

static std::string results_of(const Request &r) {
    if (r.call == "pack") return pack(r);
    if (r.call == "unpack") return unpack(r);
    if (r.call == "write") return write(r);
    if (r.call == "flat") return r.who == "lenient-fields" ? flat(r) : "";
    if (r.call == "framed" || r.call == "packed") return r.who == "lenient" && r.buffer < 0 ? stream(r) : "";
    return r.who == "exact" ? "" : tried([&] { return about_object(r); });
}

int main() { return write_results(results_of); }
