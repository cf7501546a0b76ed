// Unit files of one function, for the measurements.
#pragma once

#include "bench.h"

#include <random>

// One function without marks, whose table starts at byte 6.
inline UnitFile fresh(uint32_t segments, uint32_t columns) {
    return {{1, uint8_t(segments), uint8_t(columns), 0, 6, 0}, 6 + 4 * segments};
}

// Segments and columns are counted from 0.
inline void mark(UnitFile &file, uint32_t segment, uint32_t column) {
    file.bytes[6 + 4 * segment + column / 8] |= uint8_t(1 << column % 8);
}

// A segment for each forbidden latency, with two marks that far apart. For vectors of at most 16.
inline UnitFile with_vector(uint32_t vector) {
    UnitFile file = fresh(uint32_t(__builtin_popcount(vector)), 32);
    uint32_t segment = 0;
    for (uint32_t t = 1; t < 32; t++) {
        if ((vector >> (t - 1) & 1) == 0) continue;
        mark(file, segment, 0);
        mark(file, segment, t);
        segment++;
    }
    return file;
}

// Not by a distribution of the standard library: those differ from one library to the next.
inline UnitFile random_unit(std::mt19937 &random) {
    const uint32_t segments = 1 + random() % 16;
    const uint32_t columns = 1 + random() % 32;
    UnitFile file = fresh(segments, columns);
    for (uint32_t marks = 2 + random() % (3 * segments); marks > 0; marks--) {
        const uint32_t segment = random() % segments;
        mark(file, segment, random() % columns);
    }
    return file;
}
