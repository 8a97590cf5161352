// The words of a tree, as the plain programs of this folder keep them.
#pragma once
#include "reading.hpp"

#include <algorithm>
#include <cstdint>

constexpr uint64_t unreached = UINT64_MAX;

// A word is a distance above a predecessor in one number, so the least word has the least distance and of those the smallest
// predecessor. An entry of a heap is a distance above a vertex. Vertices take the lower `bits`, as few as hold each.
struct Layout {
    uint32_t bits;
    uint64_t low;

    template <class Rows>
    explicit Layout(const Rows &rows) : bits(32 - __builtin_clz(rows.n | 1)), low((uint64_t(1) << bits) - 1) {
        // (a shortest path leaves each vertex once at most, by its longest arc at worst)
        uint64_t farthest = 0;
        for (uint32_t v = 1; v <= rows.n; v++) {
            uint32_t longest = 0;
            for (auto i = rows.starts[v]; i < rows.starts[v + 1]; i++) longest = std::max(longest, rows.edges[i].len);
            farthest += longest;
        }
        if (farthest >= UINT64_MAX >> bits) refuse("a distance may not fit");
    }
};
