// Random numbers that are the same on every machine.
#pragma once
#include <cstddef>
#include <cstdint>
#include <utility>
#include <vector>

// The finishing step of the generator SplitMix64: spreads the bits of a word.
static uint64_t mixed(uint64_t z) {
    z = (z ^ (z >> 30)) * 0xBF58476D1CE4E5B9u;
    z = (z ^ (z >> 27)) * 0x94D049BB133111EBu;
    return z ^ (z >> 31);
}

// A sequence of random numbers that depends on the seed, on its use and on the thing that it is for.
class Random {
    uint64_t state;

public:
    Random(uint64_t seed, uint64_t use, uint64_t thing = 0) : state(mixed(mixed(seed * 64 + use) + thing)) {}

    uint64_t next() {
        state += 0x9E3779B97F4A7C15u;
        return mixed(state);
    }

    // A number from 0 to bound - 1.
    uint64_t below(uint64_t bound) {
        return static_cast<uint64_t>((static_cast<unsigned __int128>(next()) * bound) >> 64);
    }

    template <class T>
    void shuffle(std::vector<T>& list) {
        for (size_t i = list.size(); i > 1; i--) std::swap(list[i - 1], list[below(i)]);
    }
};
