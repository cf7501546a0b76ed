// Times the bound by itself and within the listing: on random tables, and on the collision vector whose bound takes the most steps.
#include "../tables.h"
#include "model.h"

#include <algorithm>
#include <chrono>
#include <cstdio>
#include <cstdlib>
#include <functional>
#include <numeric>
#include <vector>

namespace {

constexpr size_t random_tables = 4000;
constexpr uint32_t hardest = 0x7fdffbff;  // of all vectors with n up to 31: every.cpp
constexpr int rounds = 9;

// Whether every two of the numbers in the word differ by a forbidden latency.
bool go_together(uint32_t numbers, uint32_t vector) {
    for (; numbers != 0; numbers &= numbers - 1) {
        const uint32_t above = uint32_t(uint64_t(numbers) >> (__builtin_ctz(numbers) + 1));
        if ((above & ~vector) != 0) return false;
    }
    return true;
}

// A table of just this vector: for each latency that is not yet forbidden a segment with as many marks as go together with it.
UnitFile dense(uint32_t vector) {
    UnitFile file = fresh(16, 32);
    uint32_t segment = 0;
    for (uint32_t t = 1; t < 32 && segment < 16; t++) {
        if ((vector & ~collision_vector(file)) >> (t - 1) == 0) break;
        if (((vector & ~collision_vector(file)) >> (t - 1) & 1) == 0) continue;
        uint32_t row = 1u | 1u << t;
        for (uint32_t column = 31; column > 0; column--) {
            if (go_together(row | 1u << column, vector)) row |= 1u << column;
        }
        for (uint32_t column = 0; column < 32; column++) {
            if (row >> column & 1) mark(file, segment, column);
        }
        segment++;
    }
    return file;
}

using Call = std::function<uint32_t(const UnitFile &)>;

// Microseconds for each table, the best of all rounds.
std::vector<double> time_of(const Call &call, const std::vector<UnitFile> &tables) {
    using Clock = std::chrono::steady_clock;
    std::vector<double> best(tables.size(), 1e9);
    for (int round = 0; round < rounds; round++) {
        for (size_t table = 0; table < tables.size(); table++) {
            const auto start = Clock::now();
            if (call(tables[table]) != 0) std::exit(1);
            const std::chrono::duration<double, std::micro> taken = Clock::now() - start;
            best[table] = std::min(best[table], taken.count());
        }
    }
    return best;
}

void show(const char *name, const std::vector<double> &values) {
    const auto end = values.begin() + random_tables;
    std::printf("%-20s %8.2f %8.2f %#10.2f\n", name, std::accumulate(values.begin(), end, 0.0) / double(random_tables),
                *std::max_element(values.begin(), end), values[random_tables]);
}

uint32_t value;
uint8_t area[LIMEDARTS_AREA];

}  // namespace

int main() {
    std::vector<UnitFile> tables;
    std::mt19937 random(1);
    while (tables.size() < random_tables) tables.push_back(random_unit(random));
    tables.push_back(dense(hardest));
    if (collision_vector(tables.back()) != hardest) {
        std::printf("the table for %#x has another vector\n", hardest);
        return 1;
    }

    std::vector<double> steps;
    for (const UnitFile &file : tables) {
        Model model{collision_vector(file)};
        limedarts_bound(file.bytes, file.length, 1, &value);
        if (value != model.bound()) {
            std::printf("vector %#x: the bound is %u, the model's %u\n", model.vector, value, model.bound());
            return 1;
        }
        steps.push_back(double(model.steps));
    }

    const auto bound = time_of([](const UnitFile &file) { return limedarts_bound(file.bytes, file.length, 1, &value); }, tables);
    const auto upper = time_of([](const UnitFile &file) { return limedarts_upper(file.bytes, file.length, 1, &value); }, tables);
    const auto listing =
        time_of([](const UnitFile &file) { return limedarts_listing(file.bytes, file.length, area, LIMEDARTS_AREA, &value); }, tables);

    std::printf("%zu random tables and the vector of the most steps; microseconds, a table's time is the best of %d rounds\n\n", random_tables,
                rounds);
    std::printf("%-20s %8s %8s %#10x\n", "", "mean", "most", hardest);
    show("limedarts_bound", bound);
    show("limedarts_upper", upper);
    show("limedarts_listing", listing);
    show("steps of the bound", steps);

    // The bound's own part of a listing is what its call takes more than that of upper, which reads the same file and counts the vector's 1s.
    std::vector<double> slower;
    for (size_t table = 0; table < tables.size(); table++) {
        slower.push_back(listing[table] / (listing[table] - std::max(0.0, bound[table] - upper[table])));
    }
    show("listing, times", slower);
    const auto above = std::count_if(slower.begin(), slower.begin() + random_tables, [](double times) { return times > 1.5; });
    std::printf("\n'listing, times': how many times as long as the listing without its bound; above 1.5 for %zu random tables\n\n", size_t(above));
}
