// Dijkstra's algorithm of the Boost Graph Library, for bench/peers.py.
#include "peers.hpp"

#include <boost/graph/compressed_sparse_row_graph.hpp>
#include <boost/graph/dijkstra_shortest_paths.hpp>

struct Length {
    uint64_t len;
};
using Rows = boost::compressed_sparse_row_graph<boost::directedS, boost::no_property, Length, boost::no_property, uint32_t, uint64_t>;

class Solver {
    Rows rows;
    std::vector<uint64_t> distances;
    std::vector<uint32_t> predecessors;

    static Rows rows_of_arcs(uint32_t n, const std::vector<Arc> &arcs) {
        std::vector<std::pair<uint32_t, uint32_t>> ends;
        std::vector<Length> lengths;
        for (const Arc &arc : arcs) {
            ends.emplace_back(arc.tail - 1, arc.head - 1);
            lengths.push_back({arc.len});
        }
        return Rows(boost::edges_are_unsorted_multi_pass, ends.begin(), ends.end(), lengths.begin(), n);
    }

public:
    Solver(uint32_t n, const std::vector<Arc> &arcs) : rows(rows_of_arcs(n, arcs)), distances(n), predecessors(n) {}

    void solve(uint32_t source) {
        auto index = boost::get(boost::vertex_index, rows);
        boost::dijkstra_shortest_paths(rows, source - 1,
                                       boost::weight_map(boost::get(&Length::len, rows))
                                           .distance_map(boost::make_iterator_property_map(distances.begin(), index))
                                           .predecessor_map(boost::make_iterator_property_map(predecessors.begin(), index)));
    }

    uint64_t distance(uint32_t v) const { return distances[v - 1]; }
};

int main(int argc, char **argv) { return answer<Solver>(argc, argv); }
