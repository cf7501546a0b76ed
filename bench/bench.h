// What the parts of the benchmark share: the unit file as input, the plan as output, and the three searches.
#pragma once

#include <limedarts.h>

#include <cstddef>
#include <cstdint>

struct UnitFile {
    uint8_t bytes[LIMEDARTS_FILE];
    size_t length;
};

struct Plan {
    uint32_t count;
    uint32_t sum;
    uint8_t latencies[LIMEDARTS_CYCLE];
};

struct DiagramSize {
    uint32_t states;  // 0 where there are more than 256
    uint32_t arcs;
};

// The collision vector of function 1, column t in bit t - 1. With only one function its table starts at byte 6.
inline uint32_t collision_vector(const UnitFile &file) {
    uint32_t vector = 0;
    for (uint32_t segment = 0; segment < file.bytes[1]; segment++) {
        const uint8_t *at = file.bytes + 6 + 4 * segment;
        uint32_t marks = at[0] | at[1] << 8 | at[2] << 16 | uint32_t(at[3]) << 24;
        // Seen from a mark, the marks above it stand at their distances.
        for (; marks != 0; marks &= marks - 1) vector |= marks >> __builtin_ctz(marks) >> 1;
    }
    return vector;
}

// n, the largest forbidden latency, or 0. At most 31, since a table has at most 32 columns.
inline uint32_t largest_forbidden(uint32_t vector) { return vector == 0 ? 0 : 32 - __builtin_clz(vector); }

// Each goes from the file to a cycle of least average, and leaves a count of 0 where it finds none.
void library_search(const UnitFile &file, Plan &plan);
void howard_search(const UnitFile &file, Plan &plan);
void model_search(const UnitFile &file, Plan &plan);

DiagramSize diagram_size(const UnitFile &file);
