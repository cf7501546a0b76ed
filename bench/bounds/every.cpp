// Counts the steps that the bound takes for every collision vector with n up to 31, and names the vector that takes the most. By itself:
//     g++ -std=c++17 -O2 -march=native -pthread -o target/bench/every bench/bounds/every.cpp && target/bench/every
#include "model.h"

#include <cstdio>
#include <functional>
#include <thread>

namespace {

struct Counted {
    uint64_t sum = 0;
    uint64_t most = 0;
    uint32_t vector = 0;
};

// Every vector of one parity, so that two threads share the work.
void count(uint32_t first, Counted &counted) {
    for (uint64_t vector = first; vector < uint64_t(1) << 31; vector += 2) {
        Model model{uint32_t(vector)};
        model.bound();
        counted.sum += model.steps;
        if (model.steps > counted.most) {
            counted.most = model.steps;
            counted.vector = uint32_t(vector);
        }
    }
}

}  // namespace

int main() {
    Counted even, odd;
    std::thread other(count, 1, std::ref(odd));
    count(0, even);
    other.join();
    const Counted &most = odd.most > even.most ? odd : even;
    std::printf("%u vectors: on average %.1f steps, at most %llu, for %#x\n", uint32_t(1) << 31, double(even.sum + odd.sum) / double(uint64_t(1) << 31),
                (unsigned long long)most.most, most.vector);
}
