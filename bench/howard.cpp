// The same question put to LEMON: the diagram as a graph, and Howard's algorithm for its least mean cycle.
#include "bench.h"

#include <lemon/howard_mmc.h>
#include <lemon/static_graph.h>

#include <unordered_map>
#include <utility>
#include <vector>

namespace {

using Graph = lemon::StaticDigraph;  // of LEMON's graphs the fastest here: compact, built at once from sorted arcs
using Latencies = Graph::ArcMap<int>;
using Howard = lemon::HowardMmc<Graph, Latencies>;

struct Work {
    std::vector<uint32_t> states;
    std::unordered_map<uint32_t, int> numbers;
    std::vector<std::pair<int, int>> arcs;
    std::vector<int> latencies;

    int number_of(uint32_t state) {
        const auto [at, is_new] = numbers.try_emplace(state, int(states.size()));
        if (is_new) states.push_back(state);
        return at->second;
    }

    void add_arc(int from, int to, int latency) {
        arcs.emplace_back(from, to);
        latencies.push_back(latency);
    }
};

void list_diagram(Work &work, uint32_t vector) {
    const int n = largest_forbidden(vector);
    work.states.clear();
    work.numbers.clear();
    work.arcs.clear();
    work.latencies.clear();
    work.number_of(vector);
    for (int v = 0; v < int(work.states.size()); v++) {
        const uint32_t state = work.states[v];
        for (int latency = 1; latency <= n; latency++) {
            if ((state >> (latency - 1) & 1) == 0) work.add_arc(v, work.number_of(state >> latency | vector), latency);
        }
        work.add_arc(v, 0, n + 1);
    }
}

// Kept between searches, as the library's working words are.
Work kept;

}  // namespace

void howard_search(const UnitFile &file, Plan &plan) {
    list_diagram(kept, collision_vector(file));
    Graph graph;
    graph.build(int(kept.states.size()), kept.arcs.begin(), kept.arcs.end());
    Latencies latencies(graph);
    for (int arc = 0; arc < int(kept.latencies.size()); arc++) latencies[graph.arc(arc)] = kept.latencies[arc];

    plan.count = 0;
    plan.sum = 0;
    Howard howard(graph, latencies);
    if (!howard.run()) return;
    for (Howard::Path::ArcIt arc(howard.cycle()); arc != lemon::INVALID; ++arc) {
        plan.latencies[plan.count++] = uint8_t(latencies[arc]);
        plan.sum += latencies[arc];
    }
}
