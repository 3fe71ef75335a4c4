// The numbers that all messages are made of, as crates/capnp_classic/src/random.rt makes them.
#pragma once
#include <cstdint>

class Random {
  public:
    explicit Random(uint32_t seed) : state(seed * 0x9e3779b97f4a7c15ull | 1) {}

    uint32_t below(uint32_t bound) { return next() % bound; }

    bool flag() { return below(2) == 1; }

    float upTo(float bound) { return static_cast<float>(next() >> 16) * bound / 65535.0f; }

  private:
    uint32_t next() {
        state ^= state >> 12;
        state ^= state << 25;
        state ^= state >> 27;
        return static_cast<uint32_t>(state * 0x2545f4914f6cdd1dull >> 32);
    }

    uint64_t state;
};
