// Times three ways from a unit file to a cycle of least average, on the same tables in one process.
#include "bench.h"
#include "tables.h"

#include <algorithm>
#include <chrono>
#include <cstdio>
#include <numeric>
#include <random>
#include <set>
#include <vector>

namespace {

constexpr size_t random_tables = 4000;
constexpr uint32_t largest[] = {0x4000015b, 0x4000031b};
constexpr int rounds = 5;
constexpr size_t block = 667;  // a sixth of the tables before the next way has its turn: a slow spell of the machine meets all three alike

struct Way {
    const char *name;
    void (*search)(const UnitFile &, Plan &);
    std::vector<double> best;  // microseconds for each table

    double mean() const { return std::accumulate(best.begin(), best.end(), 0.0) / double(best.size()); }
    double slowest() const { return *std::max_element(best.begin(), best.end()); }
};

// Tables of 100 to 256 states, and the two of the most arcs seen. No vector comes twice: many tables share the small ones.
std::vector<UnitFile> all_tables() {
    std::vector<UnitFile> tables;
    std::set<uint32_t> vectors;
    std::mt19937 random(1);
    while (tables.size() < random_tables) {
        const UnitFile file = random_unit(random);
        if (diagram_size(file).states >= 100 && vectors.insert(collision_vector(file)).second) tables.push_back(file);
    }
    for (uint32_t vector : largest) tables.push_back(with_vector(vector));
    return tables;
}

// Whether the sum is that of the latencies and no two starts are a forbidden latency apart.
bool serves(const Plan &plan, uint32_t vector) {
    if (plan.count == 0 || plan.count > LIMEDARTS_CYCLE) return false;
    uint32_t sum = 0;
    for (uint32_t from = 0; from < plan.count; from++) {
        if (plan.latencies[from] == 0) return false;
        sum += plan.latencies[from];
    }
    for (uint32_t from = 0; from < plan.count; from++) {
        uint32_t interval = plan.latencies[from];
        for (uint32_t at = from + 1; interval < 32; at++) {
            if (vector >> (interval - 1) & 1) return false;
            interval += plan.latencies[at % plan.count];
        }
    }
    return sum == plan.sum;
}

bool agree(const std::vector<Way> &ways, const UnitFile &file) {
    Plan first{}, plan{};
    ways[0].search(file, first);
    for (const Way &way : ways) {
        way.search(file, plan);
        if (!serves(plan, collision_vector(file))) {
            std::printf("vector %#x: the cycle of %s is none, collides or has another sum\n", collision_vector(file), way.name);
            return false;
        }
        if (plan.sum * first.count != first.sum * plan.count) {
            std::printf("vector %#x: %s gives %u / %u, %s %u / %u\n", collision_vector(file), ways[0].name, first.sum, first.count,
                        way.name, plan.sum, plan.count);
            return false;
        }
    }
    return true;
}

void time_block(Way &way, const std::vector<UnitFile> &tables, size_t from) {
    using Clock = std::chrono::steady_clock;
    Plan plan;
    way.best.resize(tables.size(), 1e9);
    for (size_t table = from; table < std::min(from + block, tables.size()); table++) {
        const auto start = Clock::now();
        way.search(tables[table], plan);
        const std::chrono::duration<double, std::micro> taken = Clock::now() - start;
        way.best[table] = std::min(way.best[table], taken.count());
    }
}

uint32_t lent[LIMEDARTS_WORK];

}  // namespace

void library_search(const UnitFile &file, Plan &plan) {
    const uint32_t refusal = limedarts_search(file.bytes, file.length, 1, lent, LIMEDARTS_WORK, plan.latencies, LIMEDARTS_CYCLE,
                                              &plan.count, &plan.sum);
    if (refusal != 0) plan.count = 0;
}

int main() {
    const std::vector<UnitFile> tables = all_tables();
    std::vector<Way> ways = {
        {"a limedarts_search", library_search, {}}, {"b LEMON HowardMmc", howard_search, {}}, {"c plain C++ model", model_search, {}}};

    // A difference ends the run before anything is timed; the pass over all tables also warms up.
    for (const UnitFile &file : tables) {
        if (!agree(ways, file)) return 1;
    }
    for (int round = 0; round < rounds; round++) {
        for (size_t from = 0; from < tables.size(); from += block) {
            for (Way &way : ways) time_block(way, tables, from);
        }
    }

    double states = 0, arcs = 0;
    for (const UnitFile &file : tables) {
        const DiagramSize size = diagram_size(file);
        states += size.states;
        arcs += size.arcs;
    }
    const double count = double(tables.size());
    std::printf("%zu tables, on average %.1f states and %.1f arcs; all three agree on each\n", tables.size(), states / count, arcs / count);
    std::printf("from unit file to best cycle in microseconds; a table's time is the best of %d rounds\n\n", rounds);
    std::printf("%-20s %8s %8s %#10x %#10x\n", "", "mean", "slowest", largest[0], largest[1]);
    for (const Way &way : ways) {
        std::printf("%-20s %8.2f %8.2f %10.2f %10.2f\n", way.name, way.mean(), way.slowest(), way.best[random_tables],
                    way.best[random_tables + 1]);
    }
    std::printf("\nratio howard %.2f model %.2f\n", ways[1].mean() / ways[0].mean(), ways[0].mean() / ways[2].mean());
}
