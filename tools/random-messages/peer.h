// What the C++ programs share: descriptions of messages that are read from the front, as `source` reads them, and what is
// said of messages, as text, as by `shown`.
#pragma once
#include <capnp/any.h>
#include <capnp/message.h>
#include <capnp/orphan.h>
#include <capnp/serialize.h>
#include <cmath>
#include <cstdint>
#include <cstdio>
#include <cstdlib>
#include <cstring>
#include <fstream>
#include <iterator>
#include <string>
#include <type_traits>

struct Source {
    const uint8_t* left;
    const uint8_t* end;

    const uint8_t* take(size_t count) {
        if (size_t(end - left) < count) std::abort();
        left += count;
        return left - count;
    }
    template <typename N>
    N number() {
        N number;
        std::memcpy(&number, take(sizeof(N)), sizeof(N));
        return number;
    }
    bool isNull() { return number<uint8_t>() == 0; }
};

template <>
inline bool Source::number<bool>() { return number<uint8_t>() != 0; }
template <>
inline capnp::Void Source::number<capnp::Void>() { return capnp::VOID; }

struct Shown {
    std::string text;
    std::string messages;  // each as a description has it: framed, after its length
    uint32_t left = 0;

    void word(const std::string& word) { text += ' ' + word; }
    void field(const char* name) { text += std::string("\n") + name; }
    void bits(uint64_t bits) {
        char digits[24];
        std::snprintf(digits, sizeof digits, " %llx", static_cast<unsigned long long>(bits));
        text += digits;
    }
    void bytes(const uint8_t* bytes, size_t count) {
        text += " \"";
        for (size_t index = 0; index < count; index++) {
            text += "0123456789abcdef"[bytes[index] >> 4];
            text += "0123456789abcdef"[bytes[index] & 15];
        }
    }
    void message(capnp::MessageBuilder& message) {
        auto words = capnp::messageToFlatArray(message);
        uint32_t count = words.asBytes().size();
        messages.append(reinterpret_cast<const char*>(&count), sizeof count);
        messages.append(reinterpret_cast<const char*>(words.begin()), count);
    }
    bool enters(uint32_t depth) {
        if (depth == 0 || left == 0) {
            word("..");
            return false;
        }
        left--;
        word("{");
        return true;
    }
};

inline void show(Shown& shown, uint32_t, capnp::Text::Reader text) { shown.bytes(text.asBytes().begin(), text.size()); }
inline void show(Shown& shown, uint32_t, capnp::Data::Reader data) { shown.bytes(data.begin(), data.size()); }
inline void show(Shown&, uint32_t, capnp::Void) {}

template <typename N>
typename std::enable_if<std::is_arithmetic<N>::value || std::is_enum<N>::value>::type
show(Shown& shown, uint32_t, N number) {
    if (number != number) return shown.word("nan");
    uint64_t bits = 0;
    std::memcpy(&bits, &number, sizeof number);
    shown.bits(bits);
}

template <typename List>
auto show(Shown& shown, uint32_t depth, List list) -> decltype(list.begin(), list[0], void()) {
    shown.word("[");
    shown.bits(list.size());
    for (auto element : list) show(shown, depth, element);
    shown.word("]");
}

// Of an any pointer to a `T`, if it is not null.
template <typename T>
void showAny(Shown& shown, uint32_t depth, capnp::AnyPointer::Reader pointer) {
    if (pointer.isNull()) return shown.word("null");
    show(shown, depth, pointer.getAs<T>());
}

inline capnp::Orphan<capnp::Text> textOf(Source& source, capnp::Orphanage objects) {
    auto count = source.number<uint32_t>();
    std::string text(reinterpret_cast<const char*>(source.take(count)), count);
    return objects.newOrphanCopy(capnp::Text::Reader(text.c_str(), count));
}

inline capnp::Orphan<capnp::Data> dataOf(Source& source, capnp::Orphanage objects) {
    auto count = source.number<uint32_t>();
    return objects.newOrphanCopy(capnp::Data::Reader(source.take(count), count));
}

// A list of numbers, each as `N` in the description.
template <typename T, typename N = T>
capnp::Orphan<capnp::List<T>> numbersOf(Source& source, capnp::Orphanage objects) {
    auto count = source.number<uint32_t>();
    auto list = objects.newOrphan<capnp::List<T>>(count);
    for (uint32_t index = 0; index < count; index++) list.get().set(index, static_cast<T>(source.number<N>()));
    return list;
}

template <typename T, typename Make>
capnp::Orphan<capnp::List<T>> structsOf(Source& source, capnp::Orphanage objects, Make make) {
    auto count = source.number<uint32_t>();
    auto list = objects.newOrphan<capnp::List<T>>(count);
    for (uint32_t index = 0; index < count; index++) {
        auto element = make(source, objects);
        list.get().setWithCaveats(index, element.getReader());
    }
    return list;
}

template <typename T, typename Make>
capnp::Orphan<capnp::List<T>> pointersOf(Source& source, capnp::Orphanage objects, Make make) {
    auto count = source.number<uint32_t>();
    auto list = objects.newOrphan<capnp::List<T>>(count);
    for (uint32_t index = 0; index < count; index++) list.get().adopt(index, make(source, objects));
    return list;
}

// Says what the root of a message shows, its text and its canonical form.
template <typename Reader>
void sayRoot(Shown& shown, uint32_t depth, uint32_t most, Reader root) {
    shown.field("canonical");
    auto words = capnp::canonicalize(root);
    shown.bytes(words.asBytes().begin(), words.asBytes().size());
    shown.field("shown");
    shown.left = most;
    show(shown, depth, root);
    shown.field("text");
    shown.word(kj::str(root).cStr());
}

// Says what the reader of a message shows: of one that is framed, or of one that is built, of which its builder comes first.
template <typename T, typename Make, typename Keep>
void say(bool isFramed, Source& source, Shown& shown, uint32_t depth, uint32_t most, Make make, Keep keep) {
    if (isFramed) {
        auto count = source.number<uint32_t>();
        auto words = kj::heapArray<capnp::word>(count / sizeof(capnp::word));
        std::memcpy(words.begin(), source.take(count), count);
        capnp::FlatArrayMessageReader message(words, {1ull << 40, 64});
        return sayRoot(shown, depth, most, message.getRoot<T>());
    }
    capnp::MallocMessageBuilder message(256, capnp::AllocationStrategy::FIXED_SIZE);
    {
        auto root = make(source, message.getOrphanage());
        keep(shown, root.get());
        message.adoptRoot(kj::mv(root));
    }
    shown.message(message);
    sayRoot(shown, depth, most, message.getRoot<T>().asReader());
}
