/* Routes of a graph that is kept, one and several at once: the worked examples, ties, what is too far, room that is too small, each
 * refusal in its order, and the predecessors of whole trees beside them on graphs drawn by lot. */
#include "count.h"
#include "spt.h"

#include <stdlib.h>
#include <string.h>

#define MOST 40
#define NONE SPT_UNREACHED

static const spt_arc diamond[] = {{1, 2, 3}, {1, 3, 3}, {2, 4, 2}, {3, 4, 2}, {1, 4, 6}};

/* The lists of a call, all of whose places held a byte's pattern before, and the vertices of all routes to a vertex. */
static uint64_t dist[MOST + 1], ends[MOST + 1];
static uint32_t vertices[MOST * MOST + 1];

static void fill(void) {
    memset(dist, 7, sizeof dist);
    memset(ends, 7, sizeof ends);
    memset(vertices, 7, sizeof vertices);
}

/* Whether the distances and ends from one place on, and the vertices from another one on, are as they were. */
static int untouched(size_t told, size_t from) {
    for (size_t i = told; i <= MOST; i++)
        if (dist[i] != 0x0707070707070707 || ends[i] != 0x0707070707070707) return 0;
    for (size_t i = from; i <= MOST * MOST; i++)
        if (vertices[i] != 0x07070707) return 0;
    return 1;
}

static int is(spt_route told, uint32_t status, uint32_t vertex, uint64_t length, uint64_t index, uint64_t many) {
    return told.status == status && told.vertex == vertex && told.dist == length && told.index == index && told.count == many;
}

/* Whether this is the route, with each room up to the number of its vertices and beyond. */
static int has_route(const spt_graph *graph, uint32_t from, uint32_t to, uint64_t length, const uint32_t *wanted, size_t many) {
    int right = 1;
    for (size_t room = 0; room <= many + 2; room++) {
        fill();
        spt_route told = spt_graph_route(graph, from, to, vertices, room);
        size_t held = room < many ? 0 : many;
        right = right && is(told, SPT_OK, 0, length, 0, many) && !memcmp(vertices, wanted, held * sizeof *wanted) && untouched(0, held);
    }
    return right;
}

static int has_none(const spt_graph *graph, uint32_t from, uint32_t to) {
    return has_route(graph, from, to, NONE, vertices, 0);
}

static void examples(void) {
    const uint32_t there[] = {1, 2, 4}, back[] = {4, 2, 1}, direct[] = {1, 5}, around[] = {1, 3, 2, 5};
    const spt_arc ties[] = {{1, 4, 2}, {1, 3, 2}, {4, 2, 1}, {3, 2, 1}, {2, 5, 1}, {1, 5, 4}};
    spt_graph graph = {0}, other = {0};
    count("new", spt_graph_new(diamond, 5, 4, &graph).status == SPT_OK);
    count("from 1 to 4", has_route(&graph, 1, 4, 5, there, 3));
    count("from 1 to 1", has_route(&graph, 1, 1, 0, there, 1));
    count("from 4 to 1", has_none(&graph, 4, 1));
    count("turned", spt_graph_turned(&other, &graph).status == SPT_OK);
    count("towards 4", has_route(&other, 4, 1, 5, back, 3) && has_route(&other, 1, 1, 0, there, 1) && has_none(&other, 1, 4));
    count("both ways", spt_graph_both_ways(&other, &graph).status == SPT_OK);
    count("each way", has_route(&other, 4, 1, 5, back, 3) && has_route(&other, 1, 4, 5, there, 3));
    count("ties", spt_graph_new(ties, 6, 5, &graph).status == SPT_OK);
    count("the direct arc", has_route(&graph, 1, 5, 4, direct, 2));
    count("ties", spt_graph_new(ties, 5, 5, &graph).status == SPT_OK);
    count("the smallest before each", has_route(&graph, 1, 5, 4, around, 4));
    spt_graph_free(&graph);
    spt_graph_free(&other);
}

/* The routes from 1 to four targets of the diamond with a vertex that no arc reaches, with each room. */
static void several(void) {
    const uint32_t to[] = {4, 5, 1, 4}, all[] = {1, 2, 4, 1, 1, 2, 4};
    const uint64_t lengths[] = {5, NONE, 0, 5}, wanted[] = {3, 3, 4, 7};
    spt_graph graph = {0};
    count("new", spt_graph_new(diamond, 5, 5, &graph).status == SPT_OK);
    for (size_t room = 0; room <= 9; room++) {
        fill();
        spt_answer told = spt_graph_routes(&graph, 1, to, 4, dist, 4 + room, ends, MOST, vertices, room);
        size_t held = room < 7 ? 0 : 7;
        count("several", told.status == SPT_OK && !told.vertex && !told.index);
        count("their distances and ends", !memcmp(dist, lengths, sizeof lengths) && !memcmp(ends, wanted, sizeof wanted));
        count("their vertices", !memcmp(vertices, all, held * sizeof *all) && untouched(4, held));
    }
    fill();
    count("to nothing", spt_graph_routes(&graph, 1, NULL, 0, dist, MOST, ends, MOST, vertices, MOST).status == SPT_OK && untouched(0, 0));
    spt_graph_free(&graph);
}

/* A path of the longest arcs, of which the last vertex alone is beyond the reach. */
static void far_vertices(void) {
    enum { N = 4098 };
    static spt_arc path[N];
    static uint32_t list[2 * N];
    for (uint32_t v = 1; v < N; v++) path[v - 1] = (spt_arc){v, v + 1, UINT32_MAX};
    const uint32_t to[] = {N - 1, N, 1};
    const uint64_t within = (uint64_t)(N - 2) * UINT32_MAX;
    spt_graph graph = {0};
    count("the path reaches beyond", within <= spt_reach(N) && spt_reach(N) < within + UINT32_MAX);
    count("new", spt_graph_new(path, N - 1, N, &graph).status == SPT_OK);
    fill();
    count("too far", is(spt_graph_route(&graph, 1, N, vertices, MOST), SPT_TOO_FAR, N, 0, 0, 0) && untouched(0, 0));
    count("no path", is(spt_graph_route(&graph, N, 1, vertices, MOST), SPT_OK, 0, NONE, 0, 0) && untouched(0, 0));
    count("before it", is(spt_graph_route(&graph, 1, N - 1, list, N - 1), SPT_OK, 0, within, 0, N - 1));
    int right = list[N - 1] == 0;
    for (uint32_t v = 1; v < N; v++) right = right && list[v - 1] == v;
    count("each vertex of the path", right);
    memset(list, 7, sizeof list);
    spt_answer told = spt_graph_routes(&graph, 1, to, 3, dist, MOST, ends, MOST, list, 2 * N);
    count("several", told.status == SPT_OK && dist[0] == within && dist[1] == SPT_BEYOND && dist[2] == 0);
    count("their ends", ends[0] == N - 1 && ends[1] == N - 1 && ends[2] == N);
    right = list[N - 1] == 1 && list[N] == 0x07070707;
    for (uint32_t v = 1; v < N; v++) right = right && list[v - 1] == v;
    count("their vertices", right);
    spt_graph_free(&graph);
}

/* What is refused, in the order in which it is tested; each list is as it was. */
static void refusals(void) {
    static const spt_graph none = {0};
    const uint32_t bad[] = {1, 5, 0};
    spt_graph graph = {0};
    count("new", spt_graph_new(diamond, 5, 4, &graph).status == SPT_OK);
    fill();
    count("no graph", is(spt_graph_route(&none, 0, 9, vertices, MOST), SPT_NO_GRAPH, 0, 0, 0, 0));
    count("source 0", is(spt_graph_route(&graph, 0, 9, vertices, MOST), SPT_NO_SUCH_VERTEX, 0, 0, 0, 0));
    count("source 5", is(spt_graph_route(&graph, 5, 1, vertices, 0), SPT_NO_SUCH_VERTEX, 0, 0, 0, 0));
    count("target 5", is(spt_graph_route(&graph, 1, 5, vertices, MOST), SPT_NO_SUCH_VERTEX, 0, 0, 1, 0));
    const struct {
        const spt_graph *graph;
        uint32_t source;
        size_t k, dist_places, ends_places;
        uint32_t status;
        uint64_t index;
    } rows[] = {
        {&none, 0, 3, 0, 0, SPT_NO_GRAPH, 0},
        {&graph, 0, 3, 2, MOST, SPT_BAD_SIZE, 0},
        {&graph, 0, 3, MOST, 2, SPT_BAD_SIZE, 0},
        {&graph, 0, 3, 3, 3, SPT_NO_SUCH_VERTEX, 0},
        {&graph, 5, 0, 0, 0, SPT_NO_SUCH_VERTEX, 0},
        {&graph, 4, 3, 3, 3, SPT_NO_SUCH_VERTEX, 2},
    };
    for (size_t i = 0; i < sizeof rows / sizeof *rows; i++) {
        spt_answer told = spt_graph_routes(rows[i].graph, rows[i].source, bad, rows[i].k, dist, rows[i].dist_places, ends,
                                           rows[i].ends_places, vertices, MOST);
        count("several are refused", told.status == rows[i].status && told.index == rows[i].index && !told.vertex);
    }
    count("each list is as it was", untouched(0, 0));
    spt_graph_free(&graph);
}

/* The same numbers on every machine. */
static uint32_t drawn(uint32_t below) {
    static uint64_t state = 1;
    state = state * 6364136223846793005u + 1442695040888963407u;
    return (uint32_t)(state >> 33) % below;
}

/* The vertices that the predecessors of a tree lead through, from its source to a vertex; none if it isn't reached. */
static size_t walk(const uint64_t *far, const uint32_t *before, uint32_t to, uint32_t *route) {
    size_t many = 0;
    if (far[to - 1] == NONE) return 0;
    for (uint32_t v = to; v; v = before[v - 1]) many++;
    size_t at = many;
    for (uint32_t v = to; v; v = before[v - 1]) route[--at] = v;
    return many;
}

/* Graphs with many ties: the routes to all vertices, one by one and by one call, are those of the whole tree. */
static void by_lot(void) {
    static uint64_t far[MOST];
    static uint32_t before[MOST], route[MOST], all[MOST * MOST], to[MOST];
    for (int round = 0; round < 1000; round++) {
        spt_arc arcs[3 * MOST];
        uint32_t n = 1 + drawn(MOST), source = 1 + drawn(n);
        size_t m = drawn(3 * n + 1), total = 0;
        for (size_t i = 0; i < m; i++) arcs[i] = (spt_arc){1 + drawn(n), 1 + drawn(n), 1 + drawn(3)};
        spt_graph graph = {0};
        int right = spt_graph_new(arcs, m, n, &graph).status == SPT_OK;
        right = right && spt_graph_trees(&graph, &source, 1, 0, far, n, before, n).status == SPT_OK;
        for (uint32_t v = 1; v <= n; v++) {
            size_t many = walk(far, before, v, route);
            right = right && has_route(&graph, source, v, far[v - 1], route, many);
            memcpy(all + total, route, many * sizeof *route);
            total += many;
            to[v - 1] = v;
        }
        fill();
        right = right && spt_graph_routes(&graph, source, to, n, dist, n, ends, n, vertices, total).status == SPT_OK;
        right = right && ends[n - 1] == total && !memcmp(dist, far, n * sizeof *dist) && !memcmp(vertices, all, total * sizeof *all);
        count("a graph by lot", right && untouched(n, total));
        spt_graph_free(&graph);
    }
}

int main(void) {
    examples();
    several();
    far_vertices();
    refusals();
    by_lot();
    return finish();
}
