// What is built from the root down, in a region that is used again, and that the library makes zero after each message: what
// tools/library/src/composed composes, and what the benchmarks `orphans` of crates/capnp_bench build.
#pragma once
#include "messages.capnp.h"

#include <capnp/message.h>

#include <cstdint>
#include <cstdio>
#include <cstring>
#include <string>
#include <vector>

class Random {
  public:
    explicit Random(uint32_t seed) : state(seed * 0x9e3779b97f4a7c15ull | 1) {}

    uint64_t next() {
        state ^= state << 13;
        state ^= state >> 7;
        state ^= state << 17;
        return state * 0x2545f4914f6cdd1dull;
    }

    uint64_t below(uint32_t bound) { return (next() >> 32) % bound; }

  private:
    uint64_t state;
};

// A region for messages, and whether they are written.
struct Region {
    std::vector<capnp::word> words;
    bool writes = false;

    template <typename Build> void build(Build fill) {
        capnp::MallocMessageBuilder message(kj::arrayPtr(words.data(), words.size()));
        fill(message);
        if (writes) {
            auto segment = message.getSegmentsForOutput()[0];
            uint32_t table[2] = {0, static_cast<uint32_t>(segment.size())};
            std::fwrite(table, 4, 2, stdout);
            std::fwrite(segment.begin(), 8, segment.size(), stdout);
        }
    }
};

static capnp::Text::Reader nameOf(uint32_t index) {
    static const capnp::Text::Reader NAMES[] = {
        "Ann", "Boris Vian", "Clara Schumann", "Dmitri Shostakovich", "Eleanor of Aquitaine",
        "Fyodor Mikhailovich Dostoevsky", "Grace Hopper", "Henri",
    };
    return NAMES[index % 8];
}

static void composeAccounts(capnp::MessageBuilder &message) {
    auto accounts = message.initRoot<Accounts>().initAccounts(190000);
    for (uint32_t index = 0; index < accounts.size(); index++) {
        auto account = accounts[index];
        account.setId(index);
        account.setAmount(index * 7919ull);
        account.setName(nameOf(index));
    }
}

static void composeRecords(capnp::MessageBuilder &message) {
    static const std::vector<uint32_t> SAMPLES = [] {
        std::vector<uint32_t> samples(73);
        for (uint32_t index = 0; index < samples.size(); index++) {
            samples[index] = index * 40503;
        }
        return samples;
    }();
    auto records = message.initRoot<Records>().initRecords(97500);
    for (uint32_t index = 0; index < records.size(); index++) {
        auto record = records[index];
        record.setId(index);
        record.setSamples(kj::arrayPtr(SAMPLES.data() + index % 64, 10));
        record.setName(nameOf(index));
    }
}

static void composeNames(capnp::MessageBuilder &message) {
    auto names = message.initRoot<Names>().initNames(307000);
    for (uint32_t index = 0; index < names.size(); index++) {
        names.set(index, nameOf(index));
    }
}

static void compose(const std::string &shape, int times, bool writes) {
    Region region{std::vector<capnp::word>(1050000), writes};
    auto fill = shape == "accounts" ? composeAccounts : shape == "records" ? composeRecords : composeNames;
    for (; times > 0; times--) {
        region.build(fill);
    }
}

static void fillRecord(LogRecord::Builder record, Random &random, uint32_t id) {
    static const capnp::Text::Reader NAMES[] = {"Ada", "Grace", "Barbara", "Margaret"};
    static const uint32_t SAMPLES[] = {3, 1, 4, 1, 5, 9, 2, 6, 5, 3, 5, 8};
    record.setId(id);
    record.setStamp(random.next());
    record.setNumber(id);
    record.setName(NAMES[random.below(4)]);
    if (random.below(4) == 0) {
        record.setSamples(kj::arrayPtr(SAMPLES, random.below(12)));
    }
}

static void fillTable(capnp::MessageBuilder &message, Random &random, uint32_t count) {
    static const capnp::Text::Reader SHARED = "a text that rows share", OWN = "its own";
    auto elements = message.initRoot<capnp::AnyPointer>().initAs<capnp::List<TableElement>>(count);
    for (uint32_t id = 0; id < count; id++) {
        auto element = elements[id];
        element.setStamp(random.next());
        element.setThird(id % 3 == 0);
        element.setId(id);
        element.setNote(id % 2 == 0 ? SHARED : OWN);
    }
}

static void fillTree(Node::Builder node, Random &random, uint32_t depth) {
    node.setValue(random.next());
    if (depth > 0) {
        fillTree(node.initLeft(), random, depth - 1);
        fillTree(node.initRight(), random, depth - 1);
    }
}

static void fillTexts(capnp::MessageBuilder &message, Random &random, uint32_t count) {
    static const capnp::Text::Reader WORDS[] = {"", "segment", "landing pad", "canonical form of a message"};
    auto texts = message.initRoot<capnp::AnyPointer>().initAs<capnp::List<capnp::Text>>(count);
    for (uint32_t index = 0; index < count; index++) {
        auto word = random.below(5);
        if (word < 4) {
            texts.set(index, WORDS[word]);
        }
    }
}

static void build(const std::string &kind, uint32_t seed, uint32_t count, uint32_t times, bool writes) {
    uint32_t depth = 31 - __builtin_clz(count);
    Region region{std::vector<capnp::word>(kind == "records" ? 1024 : 7 * count + 1024)};
    for (; times > 0; times--) {
        Random random(seed);
        region.writes = writes && times == 1;
        if (kind == "records") {
            for (uint32_t id = 0; id < count; id++) {
                region.build([&](auto &message) { fillRecord(message.template initRoot<LogRecord>(), random, id); });
            }
        } else if (kind == "table") {
            region.build([&](auto &message) { fillTable(message, random, count); });
        } else if (kind == "tree") {
            region.build([&](auto &message) { fillTree(message.template initRoot<Node>(), random, depth); });
        } else {
            region.build([&](auto &message) { fillTexts(message, random, count); });
        }
    }
}

static void copyBytes(const void *from, size_t size) {
    static char place[64];
    std::memcpy(place, from, size);
    asm volatile("" : : "r"(place) : "memory");
}

// The numbers of a benchmark, and copies of its texts and of the bytes of its lists to one place, without a message.
static void drawAlone(const std::string &kind, Random random, uint32_t count) {
    static const uint32_t SIZES[] = {1, 8, 12, 28}, NAMES[] = {4, 6, 8, 9};
    static const char BYTES[64] = {};
    const bool isTree = kind == "tree", isTable = kind == "table", isRecords = kind == "records";
    uint64_t sum = 0;
    for (uint32_t left = isTree ? (2u << (31 - __builtin_clz(count))) - 1 : count; left > 0; left--) {
        if (isTree || isTable || isRecords) {
            sum += random.next();
        } else if (auto word = random.below(5); word < 4) {
            copyBytes(BYTES, SIZES[word]);
        }
        if (isTable) {
            copyBytes(BYTES, left % 2 == 0 ? 23 : 8);
        } else if (isRecords) {
            copyBytes(BYTES, NAMES[random.below(4)]);
            if (random.below(4) == 0) {
                copyBytes(BYTES, 4 * random.below(12));
            }
        }
    }
    copyBytes(&sum, sizeof sum);
}
