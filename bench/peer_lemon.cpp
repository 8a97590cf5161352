// Dijkstra's algorithm of LEMON, for bench/peers.py.
#include "peers.hpp"

// (its templates alone, so that nothing is linked)
#define LEMON_ONLY_TEMPLATES
#include <lemon/dijkstra.h>
#include <lemon/static_graph.h>

using Rows = lemon::StaticDigraph;
using Lengths = Rows::ArcMap<uint64_t>;

class Solver {
    Rows rows;
    Lengths lengths;
    lemon::Dijkstra<Rows, Lengths> run;

public:
    Solver(uint32_t n, const std::vector<Arc> &arcs) : lengths(rows), run(rows, lengths) {
        std::vector<uint32_t> starts;
        std::vector<Edge> edges = rows_of(n, arcs, starts);
        std::vector<std::pair<int, int>> ends;
        for (uint32_t v = 1; v <= n; v++)
            for (uint32_t i = starts[v]; i < starts[v + 1]; i++) ends.emplace_back(v - 1, edges[i].head - 1);
        rows.build(n, ends.begin(), ends.end());
        for (size_t i = 0; i < edges.size(); i++) lengths[rows.arc(i)] = edges[i].len;
    }

    void solve(uint32_t source) { run.run(rows.node(source - 1)); }

    uint64_t distance(uint32_t v) const {
        Rows::Node node = rows.node(v - 1);
        return run.reached(node) ? run.dist(node) : unreached;
    }
};

int main(int argc, char **argv) { return answer<Solver>(argc, argv); }
