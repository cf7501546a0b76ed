// The library's way to the bound in plain C++, which counts its steps.
#pragma once

#include <cstdint>

// The size of the largest set by the library's algorithm, and the steps that it takes.
struct Model {
    uint32_t vector;
    uint64_t steps = 0;

    uint32_t most_of(uint32_t numbers, uint32_t least) {
        steps++;
        if (uint32_t(__builtin_popcount(numbers)) <= least) return least;
        const uint32_t above = uint32_t(uint64_t(numbers) >> (__builtin_ctz(numbers) + 1));
        return most_of(above, most_of(above & vector, least == 0 ? 0 : least - 1) + 1);
    }

    uint32_t bound() { return most_of(vector, 0) + 1; }
};
