// Runs requests over the library for C (conformance/README.md). What the library doesn't tell, as the numbers in an error
// and what is unread after one, is left out.
#include "linsjoar.h"
#include "requests.h"

static const uint8_t *of(const Bytes &bytes) { return reinterpret_cast<const uint8_t *>(bytes.data()); }

static std::string error_of(unsigned number) { return "error " + std::to_string(number) + " " + linsjoar_error_name(number); }

static linsjoar_options options_of(const Request &r) {
    linsjoar_options options = LINSJOAR_DEFAULT_OPTIONS;
    options.traversal_limit_in_words = r.limit == ~0ull ? LINSJOAR_NO_LIMIT : r.limit;
    options.nesting_limit = r.nesting;
    return options;
}

// The segments of the message at the front of framed bytes.
static std::string message_of(const linsjoar_options &options, const Bytes &framed, size_t &end) {
    struct linsjoar_bounds message;
    unsigned number = linsjoar_message_with_options(of(framed), framed.size(), &options, &message);
    if (number) return error_of(number);
    std::vector<Bytes> segments;
    size_t at = message.start;
    for (uint32_t id = 0; id < message.segments; id++) {
        size_t words;
        number = linsjoar_segment_with_options(of(framed), framed.size(), &options, id, &words);
        if (number) return error_of(number);
        segments.push_back(framed.substr(at, 8 * words));
        at += 8 * words;
    }
    end = message.end;
    return at == end ? "message " + shown_segments(segments) : "error - the segments end elsewhere";
}

static std::string flat(const Request &r) {
    auto &bytes = r.segments[0];
    size_t end = 0, next = 0;
    auto options = options_of(r);
    std::string result = message_of(options, bytes, end);
    unsigned number = linsjoar_next_message_with_options(of(bytes), bytes.size(), &options, &next);
    if (bytes.size() && (number ? result != error_of(number) : next != end)) return "error - the next message is elsewhere";
    return result + (result[0] == 'm' ? unread(bytes.size() - end) : "");
}

// Packed messages one after another, until one fails, after which it isn't told what is unread.
static std::string packed(const Request &r) {
    auto bytes = r.segments[0];
    auto options = options_of(r);
    return shown_stream(r, [&](bool &is_last) -> std::string {
        Bytes framed(r.buffer < 0 ? 1 << 16 : r.buffer, 0);
        size_t written, read, end;
        unsigned number = linsjoar_unpack_message_with_options(of(bytes), bytes.size(), &options, reinterpret_cast<uint8_t *>(&framed[0]),
            framed.size(), &written, &read);
        bool is_end = number == LINSJOAR_PREMATURE_END_OF_FILE;
        is_last = number && !(is_end && r.calls >= 0);
        if (number) return is_end ? "end" : error_of(number);
        bytes = bytes.substr(read);
        return message_of(options, framed.substr(0, written), end) + unread(bytes.size());
    });
}

static std::string pack(const Request &r) {
    Bytes all;
    for (auto &chunk : r.segments) {
        Bytes text(2 * chunk.size() + 2, 0);
        size_t written;
        unsigned number = linsjoar_pack(of(chunk), chunk.size(), reinterpret_cast<uint8_t *>(&text[0]), text.size(), &written);
        if (number) return error_of(number);
        all += text.substr(0, written);
    }
    return "bytes " + shown(all);
}

static std::string unpack(const Request &r) {
    auto &text = r.segments[0];
    Bytes words(std::stoul(r.arguments[0]), 0);
    size_t read;
    unsigned number = linsjoar_unpack(of(text), text.size(), reinterpret_cast<uint8_t *>(&words[0]), words.size(), &read);
    return number ? error_of(number) : "bytes " + shown(words) + unread(text.size() - read);
}

// The frame of the segments, where they have one within the limits; else nothing.
static Bytes frame(const Request &r) {
    Bytes framed;
    auto add = [&](uint32_t number) { framed.append(reinterpret_cast<char *>(&number), 4); };
    size_t words = 0;
    add(uint32_t(r.segments.size() - 1));
    for (auto &segment : r.segments) {
        if (segment.size() % 8) return "";
        words += segment.size() / 8;
        add(uint32_t(segment.size() / 8));
    }
    if (r.segments.size() % 2 == 0) add(0);
    for (auto &segment : r.segments) framed += segment;
    return r.segments.empty() || r.segments.size() >= 512 || words > r.limit ? "" : framed;
}

static std::string canonical(const Request &r, const Bytes &framed) {
    auto options = options_of(r);
    size_t size, words;
    unsigned number = linsjoar_canonical_size_with_options(of(framed), framed.size(), &options, &size);
    Bytes form(number ? 1 << 16 : 8 * size, 0);
    unsigned other = linsjoar_canonical_with_options(of(framed), framed.size(), &options, reinterpret_cast<uint8_t *>(&form[0]), form.size(), &words);
    if (number != other || size != words) return "error - another size";
    return number ? error_of(number) : "bytes " + shown(form);
}

static std::string write(const Bytes &framed) {
    Bytes text(2 * framed.size(), 0);
    size_t written;
    unsigned number = linsjoar_pack_message(of(framed), framed.size(), reinterpret_cast<uint8_t *>(&text[0]), text.size(), &written);
    return number ? error_of(number) : "bytes " + shown(text.substr(0, written));
}

// The pointer that a request asks, of a framed message, or why it isn't found.
struct Asked {
    const Bytes &framed;
    linsjoar_options options;
    linsjoar_reader reader;
    linsjoar_place pointer;
    unsigned number = 0;

    Asked(const Request &r, const Bytes &framed) : framed(framed), options(options_of(r)) {
        number = linsjoar_open_with_options(of(framed), framed.size(), &options, &reader);
        if (!number) number = linsjoar_root(of(framed), framed.size(), &reader, &pointer);
        for (unsigned index : r.path) {
            struct linsjoar_struct fields;
            if (!number) number = linsjoar_struct(of(framed), framed.size(), &reader, &pointer, &fields);
            if (!number) number = linsjoar_struct_pointer(&fields, index, &pointer);
        }
    }
};

// The number of these bits.
template <typename T> static T number_of(uint64_t bits) {
    T number;
    memcpy(&number, &bits, sizeof number);
    return number;
}

static std::string field(const Request &r, Asked &a) {
    struct linsjoar_struct fields;
    unsigned number = linsjoar_struct(of(a.framed), a.framed.size(), &a.reader, &a.pointer, &fields);
    return number ? error_of(number) : "number " + by_number(r.arguments[0], [&](auto zero) {
        bool is_bool = std::is_same<decltype(zero), bool>::value;
        uint64_t bits = is_bool ? linsjoar_bool(of(a.framed), &fields, r.index())
            : linsjoar_field(of(a.framed), &fields, r.index() * sizeof zero, sizeof zero);
        return shown_number(number_of<decltype(zero)>(bits ^ r.bits()));
    });
}

static std::string shown_pointer(const Asked &a, const struct linsjoar_place &pointer) {
    uint8_t kind, code;
    unsigned number = linsjoar_kind(of(a.framed), a.framed.size(), &a.reader, &pointer, &kind, &code);
    return !number && kind == LINSJOAR_NULL ? "null" : "set";
}

static std::string shown_struct(const Asked &a, const struct linsjoar_struct &fields) {
    std::string line = "[";
    struct linsjoar_place pointer;
    for (size_t at = 0; at < fields.data_len; at += 8) line += hex(linsjoar_field(of(a.framed), &fields, at, 8)) + " ";
    line += "|";
    for (uint16_t i = 0; i < fields.pointers && !linsjoar_struct_pointer(&fields, i, &pointer); i++)
        line += " " + shown_pointer(a, pointer);
    return line + "]";
}

using Blob = decltype(linsjoar_text);

// The bytes that the pointer points to.
static std::string blob(Asked &a, Blob *call) {
    size_t start, len;
    unsigned number = call(of(a.framed), a.framed.size(), &a.reader, &a.pointer, &start, &len);
    return number ? error_of(number) : "bytes " + shown(a.framed.substr(start, len));
}

static std::string as_struct(Asked &a) {
    struct linsjoar_struct fields;
    unsigned number = linsjoar_struct(of(a.framed), a.framed.size(), &a.reader, &a.pointer, &fields);
    return number ? error_of(number) : "struct " + shown_struct(a, fields);
}

// How many words a copy takes, by a reader that has read nothing.
static std::string size(const Asked &a) {
    linsjoar_reader reader;
    Bytes region(1 << 20, 0);
    auto *block = reinterpret_cast<uint8_t *>(&region[0]);
    struct linsjoar_builder builder;
    uint64_t orphan;
    unsigned number = linsjoar_open_with_options(of(a.framed), a.framed.size(), &a.options, &reader);
    if (!number) number = linsjoar_begin(&builder, block, region.size());
    size_t used = builder.used;
    if (!number)
        number = linsjoar_add_copy(&builder, block, region.size(), of(a.framed), a.framed.size(), &reader, &a.pointer, &orphan);
    return number ? error_of(number) : std::to_string((builder.used - used) / 8);
}

static std::string list(const Request &r, Asked &a) {
    struct linsjoar_list list;
    int code = code_of(r.arguments[0]);
    unsigned found = linsjoar_list(of(a.framed), a.framed.size(), &a.reader, &a.pointer, uint8_t(code), &list);
    return found ? error_of(found) : shown_elements(list.count, [&](uint32_t i) {
        uint64_t bits;
        struct linsjoar_struct fields;
        struct linsjoar_place pointer;
        unsigned number = code == LINSJOAR_STRUCTS ? linsjoar_list_struct(&list, i, &fields)
            : code == LINSJOAR_POINTERS ? linsjoar_list_pointer(&list, i, &pointer)
            : linsjoar_list_number(of(a.framed), a.framed.size(), &list, i, &bits);
        return number ? error_of(number) : code == LINSJOAR_STRUCTS ? shown_struct(a, fields)
            : code == LINSJOAR_POINTERS ? shown_pointer(a, pointer) : code == LINSJOAR_VOID ? hex(bits)
            : by_number(r.arguments[0], [&](auto zero) { return shown_number(number_of<decltype(zero)>(bits)); });
    });
}

static std::string results_of(const Request &r) {
    if (r.call == "pack") return pack(r);
    if (r.call == "unpack") return unpack(r);
    if (r.call == "flat" && r.who == "fields") return flat(r);
    if (r.call == "packed" && r.who == "strict") return packed(r);
    auto framed = frame(r);
    if (framed.empty() || r.call == "framed" || r.call == "packed" || r.call == "flat") return "";
    if (r.call == "write") return r.who == "packed" ? write(framed) : "";
    if (r.call == "canonical") return r.who == "form" ? canonical(r, framed) : "";
    if (r.who == "exact") return "";
    Asked a(r, framed);
    return a.number ? error_of(a.number) : r.call == "list" ? list(r, a) : r.call == "field" ? field(r, a)
        : r.who == "null" ? (shown_pointer(a, a.pointer) == "null" ? "yes" : "no") : r.who == "text" ? blob(a, linsjoar_text)
        : r.who == "data" ? blob(a, linsjoar_data) : r.who == "struct" ? as_struct(a) : size(a);
}

int main() { return write_results(results_of); }
