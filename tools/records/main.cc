// Reads and builds records as main.c does, by the types of the C++ tool; `main far > FRAMED` writes 200,000 texts in segments of
// 1,440 words, so that far pointers point to them.
#include "records.capnp.h"
#include <capnp/message.h>
#include <capnp/serialize.h>
#include <cstdio>
#include <string>

__attribute__((noinline)) static uint64_t measured_read(Records::Reader records) {
    uint64_t sum = 0;
    for (auto record : records.getAll()) {
        auto name = record.getName(), note = record.getNote();
        sum += record.getId() + uint64_t(record.getAmount()) + uint64_t(record.getRatio());
        sum += record.getIsOpen() + name.size() + uint8_t(note.begin()[0]);
    }
    return sum;
}

__attribute__((noinline)) static uint64_t measured_texts(Records::Reader records) {
    uint64_t sum = 0;
    for (auto text : records.getTexts()) sum += text.size() + uint8_t(text.begin()[0]);
    return sum;
}

__attribute__((noinline)) static void measured_build(capnp::MessageBuilder& message, uint32_t count) {
    auto all = message.initRoot<Records>().initAll(count);
    for (uint32_t i = 0; i < count; i++) {
        auto record = all[i];
        record.setId(i);
        record.setAmount(-int32_t(i));
        record.setRatio(i);
        record.setIsOpen(i % 2);
        record.setName("a name");
        record.setNote("a note of some letters");
    }
}

int main(int count, char** words) {
    if (count > 2) {
        auto memory = kj::heapArray<capnp::word>(1 << 21);
        for (int i = 0; i < 2; i++) {
            capnp::MallocMessageBuilder used(memory), grown;
            auto& message = words[1][0] == 'g' ? grown : used;
            measured_build(message, uint32_t(atol(words[2])));
            if (i == 1) capnp::writeMessageToFd(1, message);
        }
        return 0;
    }
    if (words[1][0] == 'f') {
        capnp::MallocMessageBuilder message(1440, capnp::AllocationStrategy::FIXED_SIZE);
        auto texts = message.initRoot<Records>().initTexts(200000);
        for (uint32_t i = 0; i < 200000; i++) texts.set(i, "text " + std::to_string(i));
        capnp::writeMessageToFd(1, message);
        return 0;
    }
    capnp::StreamFdMessageReader message(0, {1ull << 40, 64});
    auto records = message.getRoot<Records>();
    printf("%llu\n", (unsigned long long)(words[1][0] == 'r' ? measured_read(records) : measured_texts(records)));
}
