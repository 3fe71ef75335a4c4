// As tools/library/src/main, over the C++ library and what it makes of messages.capnp. It takes the same words, and further ones, for what
// other programs of ours build:
//
//   values SHAPE TIMES [write]                       as tools/library/src/composed
//   orphans KIND SEED COUNT TIMES [write | alone]    as crates/capnp_bench; with `alone` no message is built
#include "built.h"
#include "views.h"

#include <capnp/any.h>
#include <capnp/serialize.h>

#include <cstdlib>

using Words = kj::ArrayPtr<const capnp::word>;

static capnp::ReaderOptions options() {
    capnp::ReaderOptions options;
    options.traversalLimitInWords = ~0ull >> 4;
    return options;
}

static uint64_t firstNumber(capnp::MessageReader &message) {
    auto data = message.getRoot<capnp::AnyStruct>().getDataSection();
    uint64_t number = 0;
    std::memcpy(&number, data.begin(), sizeof number);
    return number;
}

static uint64_t copy(Words input) {
    std::vector<capnp::word> copied(input.size());
    std::memcpy(static_cast<void *>(copied.data()), input.begin(), input.size() * sizeof(capnp::word));
    asm volatile("" : : "r"(copied.data()) : "memory");
    return copied.size();
}

static uint64_t set(Words input) {
    capnp::FlatArrayMessageReader message(input, options());
    capnp::MallocMessageBuilder builder;
    builder.setRoot(message.getRoot<capnp::AnyPointer>());
    return builder.sizeInWords();
}

static uint64_t flat(Words input) {
    uint64_t sum = 0;
    while (input.size() > 0) {
        capnp::FlatArrayMessageReader message(input, options());
        sum += firstNumber(message);
        input = kj::arrayPtr(message.getEnd(), input.end());
    }
    return sum;
}

static uint64_t into(Words input, kj::ArrayPtr<capnp::word> buffer) {
    kj::ArrayInputStream source(input.asBytes());
    uint64_t sum = 0;
    while (source.tryGetReadBuffer().size() > 0) {
        capnp::InputStreamMessageReader message(source, options(), buffer);
        sum += firstNumber(message);
    }
    return sum;
}

static void askAgain(const std::string &row, int times) {
    std::vector<capnp::word> words(1 << 21), buffer(8192);
    size_t bytes = std::fread(words.data(), 1, words.size() * sizeof(capnp::word), stdin);
    Words input = kj::arrayPtr(words.data(), bytes / sizeof(capnp::word));
    uint64_t sum = 0;
    for (; times > 0; times--) {
        if (row == "copy") {
            sum += copy(input);
        } else if (row == "set") {
            sum += set(input);
        } else if (row == "flat" || row == "flat-no-alloc") {
            sum += flat(input);
        } else if (row == "into") {
            sum += into(input, kj::arrayPtr(buffer.data(), buffer.size()));
        } else {
            capnp::FlatArrayMessageReader message(input, options());
            sum += sumOf(row, message);
        }
    }
    std::printf("%llu\n", static_cast<unsigned long long>(sum));
}

int main(int count, char **arguments) {
    std::vector<std::string> words(arguments + 1, arguments + count);
    auto number = [&](size_t at) { return std::atoi(words.at(at).c_str()); };
    bool writes = words.back() == "write";
    if (words.at(0) == "values") {
        compose(words.at(1), number(2), writes);
    } else if (words.at(0) == "orphans" && words.back() == "alone") {
        for (int times = number(4); times > 0; times--) {
            drawAlone(words.at(1), Random(number(2)), number(3));
        }
    } else if (words.at(0) == "orphans") {
        build(words.at(1), number(2), number(3), number(4), writes);
    } else {
        askAgain(words.at(0), number(1));
    }
}
