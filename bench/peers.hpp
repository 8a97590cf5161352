// What the C++ programs of bench/peers.py share.
#pragma once
#include "reading.hpp"

constexpr uint64_t unreached = UINT64_MAX;

// The program GR OUT SOURCE..: makes a `Solver` of the graph in GR, solves from each source, prints the seconds of each solve,
// and writes into OUT the distances of all vertices, 64 bits each. `Solver` is made of the number of vertices and the arcs, whose
// ends are numbered from 1; `solve(source)` finds distances and predecessors, and `distance(v)` tells a distance afterwards.
template <class Solver> int answer(int argc, char **argv) {
    if (argc < 4) refuse("usage: PROGRAM GR OUT SOURCE..");
    uint32_t n = 0;
    std::vector<Arc> arcs;
    read_arcs(argv[1], n, arcs);
    Solver solver(n, arcs);
    FILE *out = fopen(argv[2], "wb");
    if (!out) refuse("cannot open");
    std::vector<uint64_t> distances(n);
    for (int i = 3; i < argc; i++) {
        Clock::time_point start = Clock::now();
        solver.solve(strtoul(argv[i], nullptr, 10));
        printf("%.9f\n", std::chrono::duration<double>(Clock::now() - start).count());
        for (uint32_t v = 1; v <= n; v++) distances[v - 1] = solver.distance(v);
        if (fwrite(distances.data(), sizeof(uint64_t), n, out) != n) refuse("cannot write");
    }
    return fclose(out);
}
