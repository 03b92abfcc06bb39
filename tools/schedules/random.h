// Random numbers, the same for each seed.
#pragma once

#include <cstdint>

class Random {
    uint64_t state;

public:
    explicit Random(uint64_t seed) : state(seed) {}

    uint64_t next()
    {
        uint64_t word = state += 0x9e3779b97f4a7c15;
        word = (word ^ (word >> 30)) * 0xbf58476d1ce4e5b9;
        word = (word ^ (word >> 27)) * 0x94d049bb133111eb;
        return word ^ (word >> 31);
    }

    // A number below this one, which is not 0.
    uint64_t below(uint64_t bound) { return next() % bound; }

    // True one time in so many.
    bool once_in(uint64_t times) { return below(times) == 0; }
};
