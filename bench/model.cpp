// The library's algorithm in plain C++: the same greedy start, rounds and certificate, with nothing proved.
#include "bench.h"

#include <algorithm>

namespace {

constexpr uint32_t state_limit = 256;
constexpr uint32_t arc_limit = state_limit * 32;
constexpr uint32_t slot_bits = 10;

struct Arc {
    uint8_t latency;
    uint8_t target;
};

struct Link {
    int16_t node;  // -1: none
    uint8_t latency;
};

struct Work {
    uint32_t states[state_limit];
    uint32_t state_count;
    Arc arcs[arc_limit];
    uint32_t arc_count;
    uint32_t first_arc[state_limit + 1];  // the arcs of v stand from first_arc[v] to before first_arc[v + 1], latencies rising
    uint16_t slots[1 << slot_bits];       // hash index of the states: number + 1, or 0
    uint32_t gains[state_limit];
    Link links[state_limit];
};

// The number of the state, which is added where it is new; state_limit where there is no room for it.
uint32_t find_or_add(Work &work, uint32_t state) {
    uint32_t slot = state * 0x9e3779b1u >> (32 - slot_bits);
    for (; work.slots[slot] != 0; slot = (slot + 1) % (1 << slot_bits)) {
        if (work.states[work.slots[slot] - 1] == state) return work.slots[slot] - 1;
    }
    if (work.state_count == state_limit) return state_limit;
    work.states[work.state_count] = state;
    work.slots[slot] = ++work.state_count;
    return work.state_count - 1;
}

// Lists states and arcs; false where there are too many states.
bool list_diagram(Work &work, uint32_t vector) {
    const uint32_t n = largest_forbidden(vector);
    const uint32_t columns = (1u << n) - 1;
    std::fill_n(work.slots, 1 << slot_bits, 0);
    work.state_count = 0;
    work.arc_count = 0;
    find_or_add(work, vector);
    for (uint32_t v = 0; v < work.state_count; v++) {
        work.first_arc[v] = work.arc_count;
        const uint32_t state = work.states[v];
        for (uint32_t permitted = ~state & columns; permitted != 0; permitted &= permitted - 1) {
            const uint32_t latency = __builtin_ctz(permitted) + 1;
            const uint32_t target = find_or_add(work, state >> latency | vector);
            if (target == state_limit) return false;
            work.arcs[work.arc_count++] = {uint8_t(latency), uint8_t(target)};
        }
        work.arcs[work.arc_count++] = {uint8_t(n + 1), 0};
    }
    work.first_arc[work.state_count] = work.arc_count;
    return true;
}

void greedy_cycle(const Work &work, Plan &plan) {
    int16_t met_at[state_limit];
    uint8_t walk[state_limit];
    std::fill_n(met_at, work.state_count, -1);
    int16_t length = 0;
    uint32_t v = 0;
    while (met_at[v] < 0) {
        const Arc arc = work.arcs[work.first_arc[v]];
        met_at[v] = length;
        walk[length++] = arc.latency;
        v = arc.target;
    }
    plan.count = 0;
    plan.sum = 0;
    for (int16_t at = met_at[v]; at < length; at++) {
        plan.latencies[plan.count++] = walk[at];
        plan.sum += walk[at];
    }
}

bool is_above(const Work &work, int16_t x, int16_t v) {
    while (v >= 0 && v != x) v = work.links[v].node;
    return v == x;
}

// The links from x down to v and then the closing arc.
void take_cycle(const Work &work, int16_t x, int16_t v, uint8_t closing, Plan &plan) {
    plan.latencies[0] = closing;
    plan.count = 1;
    plan.sum = closing;
    for (; v != x; v = work.links[v].node) {
        plan.latencies[plan.count++] = work.links[v].latency;
        plan.sum += work.links[v].latency;
    }
    std::reverse(plan.latencies, plan.latencies + plan.count);
}

// One round: true with a better cycle in the plan, or false where the gains prove that there is none.
bool improve(Work &work, Plan &plan) {
    std::fill_n(work.gains, work.state_count, 0);
    std::fill_n(work.links, work.state_count, Link{-1, 0});
    bool changed = true;
    while (changed) {
        changed = false;
        for (uint32_t v = 0; v < work.state_count; v++) {
            const uint32_t reach = work.gains[v] + plan.sum;
            for (uint32_t at = work.first_arc[v]; at < work.first_arc[v + 1]; at++) {
                const Arc arc = work.arcs[at];
                const uint32_t cost = plan.count * arc.latency;
                if (cost >= reach) break;  // nor can a longer latency relax, since no gain is below 0
                if (work.gains[arc.target] + cost >= reach) continue;
                if (is_above(work, arc.target, v)) {
                    take_cycle(work, arc.target, v, arc.latency, plan);
                    return true;
                }
                work.gains[arc.target] = reach - cost;
                work.links[arc.target] = {int16_t(v), arc.latency};
                changed = true;
            }
        }
    }
    return false;
}

// Compares two starts place by place. The one that loses after `same` equal places goes, and with it the `same` starts after it: each
// of them loses to the start as far after the other.
void rotate_to_least(Plan &plan) {
    uint32_t one = 0, other = 1, same = 0;
    while (one < plan.count && other < plan.count && same < plan.count) {
        const uint8_t left = plan.latencies[(one + same) % plan.count];
        const uint8_t right = plan.latencies[(other + same) % plan.count];
        if (left == right) {
            same++;
            continue;
        }
        (left > right ? one : other) += same + 1;
        if (one == other) other++;
        same = 0;
    }
    std::rotate(plan.latencies, plan.latencies + std::min(one, other), plan.latencies + plan.count);
}

// Kept between searches, as the library's working words are.
Work kept;

}  // namespace

void model_search(const UnitFile &file, Plan &plan) {
    plan.count = 0;
    if (!list_diagram(kept, collision_vector(file))) return;
    greedy_cycle(kept, plan);
    while (improve(kept, plan)) {
    }
    rotate_to_least(plan);
}

DiagramSize diagram_size(const UnitFile &file) {
    if (!list_diagram(kept, collision_vector(file))) return {0, 0};
    return {kept.state_count, kept.arc_count};
}
