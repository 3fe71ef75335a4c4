// As crates/capnp_classic, over the builders and readers that the C++ library's compiler makes of its schemas. It
// takes the same words, but for `all`, and prints the same.
#include "carsales.h"
#include "catrank.h"
#include "eval.h"

#include <capnp/message.h>
#include <capnp/serialize-packed.h>
#include <capnp/serialize.h>
#include <kj/io.h>

#include <cstdio>
#include <cstdlib>
#include <cstring>
#include <memory>
#include <vector>

// Memory for messages that are built, packed and unpacked, which is used again.
struct Room {
    static constexpr size_t WORDS = 1 << 16, BYTES = 1 << 19;
    std::vector<capnp::word> built = std::vector<capnp::word>(WORDS), unpacked = std::vector<capnp::word>(WORDS);
    std::unique_ptr<kj::byte[]> packed{new kj::byte[BYTES]};
};

// A message in a region that is used again, or on the heap.
struct Reused : capnp::MallocMessageBuilder {
    static constexpr bool AGAIN = true;
    explicit Reused(Room &room) : MallocMessageBuilder(kj::arrayPtr(room.built.data(), room.built.size())) {}
};

struct Fresh : capnp::MallocMessageBuilder {
    static constexpr bool AGAIN = false;
    explicit Fresh(Room &) {}
};

// Requests and responses of one benchmark, and what was passed. Each message's canonical form is written, framed, where it is wanted.
template <typename Benchmark, typename Memory> struct Exchange {
    using Request = typename Benchmark::Request;
    using Response = typename Benchmark::Response;

    Benchmark benchmark;
    Random random;
    char mode; // its first letter
    bool writes;
    Room requestRoom, responseRoom;
    uint64_t values = 0, bytes = 0, wrong = 0;

    template <typename Root> void write(Root message) {
        if (writes) {
            auto words = capnp::canonicalize(message);
            uint32_t table[2] = {0, static_cast<uint32_t>(words.size())};
            std::fwrite(table, 4, 2, stdout);
            std::fwrite(words.begin(), 8, words.size(), stdout);
        }
    }

    // Passes a message that was built, as the mode says, and hands its root on.
    template <typename Root, typename Read> void pass(Memory &message, Room &room, Read read) {
        bytes += 8 * message.sizeInWords();
        if (mode == 'o') {
            read(message.template getRoot<Root>().asReader());
        } else if (mode == 'b') {
            auto words = capnp::messageToFlatArray(message);
            capnp::FlatArrayMessageReader reader(words);
            read(reader.getRoot<Root>());
        } else {
            kj::ArrayOutputStream out(kj::arrayPtr(room.packed.get(), Room::BYTES));
            capnp::writePackedMessage(out, message);
            kj::ArrayInputStream in(out.getArray());
            // Unpacked in the room of the message before, or in memory of its own.
            auto place = Memory::AGAIN ? kj::arrayPtr(room.unpacked.data(), room.unpacked.size()) : kj::ArrayPtr<capnp::word>();
            capnp::PackedMessageReader reader(in, capnp::ReaderOptions(), place);
            read(reader.getRoot<Root>());
        }
    }

    void exchange() {
        Memory request(requestRoom);
        auto expected = benchmark.request(random, request.template initRoot<Request>());
        pass<Request>(request, requestRoom, [&](typename Request::Reader root) {
            write(root);
            Memory response(responseRoom);
            benchmark.respond(root, response.template initRoot<Response>());
            pass<Response>(response, responseRoom, [&](typename Response::Reader root) {
                write(root);
                auto said = benchmark.said(root);
                values += said;
                wrong += said != expected;
            });
        });
    }
};

template <typename Benchmark, typename Memory> static int run(char **words) {
    Exchange<Benchmark, Memory> exchange{{}, Random(std::atoi(words[4])), *words[2], words[6] != nullptr, {}, {}};
    for (long left = std::atol(words[5]); left > 0; left--) {
        exchange.exchange();
    }
    if (!exchange.writes) {
        std::printf("%s %s %s %llu %llu\n", words[1], words[2], words[3], (unsigned long long)exchange.values,
                    (unsigned long long)exchange.bytes);
    }
    return exchange.wrong == 0 ? 0 : 1;
}

template <typename Benchmark> static int runOver(char **words) {
    return std::strcmp(words[3], "reused") == 0 ? run<Benchmark, Reused>(words) : run<Benchmark, Fresh>(words);
}

int main(int count, char **words) {
    if (count < 6) {
        std::fprintf(stderr, "usage: JOB MODE MEMORY SEED TIMES [write]\n");
        return 2;
    }
    if (std::strcmp(words[1], "carsales") == 0) {
        return runOver<CarSales>(words);
    }
    return std::strcmp(words[1], "catrank") == 0 ? runOver<CatRank>(words) : runOver<Eval>(words);
}
