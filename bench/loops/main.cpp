// Times the search for a loop's latencies in the designer's console: on the largest graphs among random units and lists of tags, found by a listing
// of its own, and on 300 graphs of 100 to 256 states. A graph's time is that of a script with many loops, less that of the same script with one, for each loop more.
//
//   loops PROGRAM FILE    the console, and a file for its scripts
#include <algorithm>
#include <array>
#include <chrono>
#include <cstdint>
#include <cstdio>
#include <cstdlib>
#include <fstream>
#include <map>
#include <random>
#include <string>
#include <vector>

namespace {

constexpr int candidates = 1000000;
constexpr size_t kept = 4;  // for each number of tags
constexpr int repeats = 100;
constexpr int rounds = 3;
constexpr size_t ordinary = 300;
constexpr size_t most_states = 256;

struct Mark {
    int function, segment, column;  // from 1
};

struct Case {
    int functions, segments;
    std::vector<Mark> marks;
    std::vector<int> tags;
    size_t states, arcs;
};

using Bank = std::array<uint32_t, 4>;
using Matrix = std::array<Bank, 4>;  // [function that starts][register]

Matrix matrix_of(const Case &c) {
    Matrix rows{};
    for (const Mark &later : c.marks) {
        for (const Mark &earlier : c.marks) {
            const int t = earlier.column - later.column;
            if (earlier.segment == later.segment && t > 0) rows[size_t(earlier.function - 1)][size_t(later.function - 1)] |= 1u << (t - 1);
        }
    }
    return rows;
}

// Lists the states and counts the arcs; more than 256 states leave 0 arcs.
void count(Case &c) {
    const Matrix rows = matrix_of(c);
    uint32_t all = 0;
    for (const Bank &row : rows) {
        for (uint32_t word : row) all |= word;
    }
    const int longest = all == 0 ? 1 : 33 - __builtin_clz(all);
    std::map<std::pair<size_t, Bank>, size_t> places;
    std::vector<std::pair<size_t, Bank>> states{{0, rows[size_t(c.tags[0] - 1)]}};
    places[states[0]] = 0;
    c.arcs = 0;
    for (size_t at = 0; at < states.size(); at++) {
        const auto [position, bank] = states[at];
        const size_t next = (position + 1) % c.tags.size();
        const size_t tag = size_t(c.tags[next] - 1);
        for (int t = 1; t <= longest; t++) {
            if (bank[tag] >> (t - 1) & 1) continue;
            c.arcs++;
            std::pair<size_t, Bank> to{next, {}};
            for (size_t r = 0; r < 4; r++) to.second[r] = uint32_t(uint64_t(bank[r]) >> t) | rows[tag][r];
            if (places.emplace(to, states.size()).second) states.push_back(to);
            if (states.size() > most_states) {
                c.arcs = 0;
                return;
            }
        }
    }
    c.states = states.size();
}

Case random_case(std::mt19937 &random) {
    Case c{};
    c.functions = 1 + int(random() % 4);
    c.segments = 1 + int(random() % 4);
    for (int marks = 1 + int(random() % (3 * uint32_t(c.functions))); marks > 0; marks--) {
        const int column = random() % 2 == 0 ? 1 + int(random() % 32) : random() % 2 == 0 ? 1 : 32;
        c.marks.push_back({1 + int(random() % uint32_t(c.functions)), 1 + int(random() % uint32_t(c.segments)), column});
    }
    for (int tags = 1 + int(random() % 8); tags > 0; tags--) c.tags.push_back(1 + int(random() % uint32_t(c.functions)));
    return c;
}

bool larger(const Case &a, const Case &b) { return a.arcs > b.arcs; }

// The largest graphs for each number of tags.
std::vector<Case> largest() {
    std::mt19937 random(17);
    std::array<std::vector<Case>, 9> best;
    for (int i = 0; i < candidates; i++) {
        Case c = random_case(random);
        count(c);
        std::vector<Case> &list = best[c.tags.size()];
        if (c.arcs == 0 || (list.size() == kept && c.arcs <= list.back().arcs)) continue;
        list.insert(std::upper_bound(list.begin(), list.end(), c, larger), c);
        if (list.size() > kept) list.pop_back();
    }
    std::vector<Case> all;
    for (const std::vector<Case> &list : best) all.insert(all.end(), list.begin(), list.end());
    return all;
}

void write_script(const char *file, const Case &c, int loops) {
    std::ofstream out(file);
    out << "fresh " << c.functions << ' ' << c.segments << " 32\n";
    for (const Mark &m : c.marks) out << "mark " << m.function << ' ' << m.segment << ' ' << m.column << '\n';
    for (; loops > 0; loops--) {
        out << "loop";
        for (int tag : c.tags) out << ' ' << tag;
        out << '\n';
    }
}

// Microseconds for a run of the console, the best of all rounds.
double time_of(const std::string &command) {
    using Clock = std::chrono::steady_clock;
    double best = 1e12;
    for (int round = 0; round < rounds; round++) {
        const auto start = Clock::now();
        if (std::system(command.c_str()) != 0) std::exit(1);
        best = std::min(best, std::chrono::duration<double, std::micro>(Clock::now() - start).count());
    }
    return best;
}

// Microseconds for one loop.
double time_of(const Case &c, const char *program, const char *file) {
    const std::string command = std::string(program) + " < " + file + " > /dev/null";
    write_script(file, c, 1);
    const double one = time_of(command);
    write_script(file, c, 1 + repeats);
    return (time_of(command) - one) / repeats;
}

std::vector<Case> ordinary_graphs() {
    std::mt19937 random(18);
    std::vector<Case> graphs;
    while (graphs.size() < ordinary) {
        Case c = random_case(random);
        count(c);
        if (c.arcs > 0 && c.states >= 100) graphs.push_back(c);
    }
    return graphs;
}

void report(const char *word, const std::vector<Case> &graphs, const char *program, const char *file) {
    double sum = 0;
    double most = 0;
    for (const Case &c : graphs) {
        const double taken = time_of(c, program, file);
        sum += taken;
        most = std::max(most, taken);
    }
    std::printf("%s: %zu graphs, loop mean %.1f most %.1f microseconds\n", word, graphs.size(), sum / double(graphs.size()), most);
}

}  // namespace

int main(int count, char **words) {
    if (count != 3) return 2;
    const std::vector<Case> large = largest();
    for (const Case &c : large) std::printf("tags %zu states %zu arcs %zu\n", c.tags.size(), c.states, c.arcs);
    report("100 to 256 states", ordinary_graphs(), words[1], words[2]);
    report("largest", large, words[1], words[2]);
}
