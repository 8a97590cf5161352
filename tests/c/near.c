/* What lies within a distance, whole and listed, the nearest of several sources, and a matrix, of a graph that is kept: the worked examples, ties,
 * limits, what is too far, each refusal in its order, and a plain Dijkstra beside it on graphs drawn by lot. */
#include "count.h"
#include "spt.h"

#include <stdlib.h>
#include <string.h>

#define MOST 40
#define NONE SPT_UNREACHED

static const spt_arc diamond[] = {{1, 2, 3}, {1, 3, 3}, {2, 4, 2}, {3, 4, 2}, {1, 4, 6}};

/* The lists of a call, all of whose places held a byte's pattern before. */
static uint64_t dist[MOST + 1];
static uint32_t pred[MOST + 1], root[MOST + 1];

static void fill(void) {
    memset(dist, 7, sizeof dist);
    memset(pred, 7, sizeof pred);
    memset(root, 7, sizeof root);
}

/* Whether the places from this one on are as they were. */
static int untouched(size_t from) {
    for (size_t i = from; i <= MOST; i++)
        if (dist[i] != 0x0707070707070707 || pred[i] != 0x07070707 || root[i] != 0x07070707) return 0;
    return 1;
}

static int is(spt_answer told, uint32_t status, uint32_t vertex, uint64_t index) {
    return told.status == status && told.vertex == vertex && told.index == index;
}

/* Whether the list of the part within a limit is this one, in lists that are as long as it and longer, and in none that is shorter. */
static int has_list(const spt_graph *graph, uint32_t n, uint32_t source, uint64_t limit, const uint64_t *wanted, const uint32_t *before) {
    uint64_t many = 0;
    for (uint32_t i = 0; i < n; i++) many += wanted[i] != NONE;
    fill();
    spt_part less[] = {spt_graph_part(graph, source, limit, root, many - 1, dist, MOST, pred, MOST),
                       spt_graph_part(graph, source, limit, root, MOST, dist, many - 1, pred, MOST),
                       spt_graph_part(graph, source, limit, root, MOST, dist, MOST, pred, many - 1)};
    int right = untouched(0);
    for (size_t i = 0; i < 3; i++) right = right && less[i].status == SPT_BAD_SIZE && less[i].count == many;
    for (size_t places = many; places <= MOST; places += MOST - many ? MOST - many : 1) {
        fill();
        spt_part told = spt_graph_part(graph, source, limit, root, places, dist, places, pred, places);
        right = right && told.status == SPT_OK && told.count == many;
        size_t at = 0;
        for (uint32_t i = 0; i < n; i++) {
            if (wanted[i] == NONE) continue;
            right = right && root[at] == i + 1 && dist[at] == wanted[i] && pred[at] == before[i];
            at++;
        }
        right = right && untouched(many);
    }
    return right;
}

/* Whether the part within a limit is this one. */
static int has_part(const spt_graph *graph, uint32_t n, uint32_t source, uint64_t limit, const uint64_t *wanted, const uint32_t *before) {
    const uint64_t deltas[] = {0, 1, 5, spt_reach(n)};
    int right = has_list(graph, n, source, limit, wanted, before);
    for (size_t d = 0; d < 4; d++) {
        fill();
        right = right && is(spt_graph_within(graph, source, limit, deltas[d], dist, n, pred, MOST), SPT_OK, 0, 0);
        for (uint32_t i = 0; i < n; i++) right = right && dist[i] == wanted[i] && pred[i] == before[i];
        for (uint32_t i = 0; i < n; i++) dist[i] = 0x0707070707070707, pred[i] = 0x07070707;
        right = right && untouched(0);
    }
    return right;
}

/* Whether the forest of sources is this one. */
static int has_forest(const spt_graph *graph, uint32_t n, const uint32_t *sources, size_t k, uint64_t limit,
                      const uint64_t *wanted, const uint32_t *before, const uint32_t *roots) {
    const uint64_t deltas[] = {0, 1, 5, spt_reach(n)};
    int right = 1;
    for (size_t d = 0; d < 4; d++) {
        fill();
        spt_answer told = spt_graph_nearest(graph, sources, k, limit, deltas[d], dist, MOST, pred, n, root, n);
        right = right && is(told, SPT_OK, 0, 0);
        for (uint32_t i = 0; i < n; i++) right = right && dist[i] == wanted[i] && pred[i] == before[i] && root[i] == roots[i];
        for (uint32_t i = 0; i < n; i++) dist[i] = 0x0707070707070707, pred[i] = root[i] = 0x07070707;
        right = right && untouched(0);
    }
    return right;
}

static void parts(const spt_graph *graph) {
    const uint64_t within[][4] = {{0, NONE, NONE, NONE}, {0, 3, 3, NONE}, {0, 3, 3, 5}};
    const uint32_t before[][4] = {{0, 0, 0, 0}, {0, 1, 1, 0}, {0, 1, 1, 2}};
    const struct {
        uint64_t limit;
        int part;
    } wanted[] = {{0, 0}, {1, 0}, {2, 0}, {3, 1}, {4, 1}, {5, 2}, {6, 2}, {spt_reach(4), 2}};
    for (size_t i = 0; i < sizeof wanted / sizeof *wanted; i++)
        count("a part", has_part(graph, 4, 1, wanted[i].limit, within[wanted[i].part], before[wanted[i].part]));
}

static void forests(const spt_graph *graph) {
    const uint32_t three[] = {3, 1, 3}, ties[] = {2, 3};
    const uint64_t far[] = {0, 3, 0, 2}, near[] = {0, NONE, 0, 2}, nearest[] = {0, NONE, 0, NONE};
    const uint32_t before[] = {0, 1, 0, 3}, roots[] = {1, 1, 3, 3};
    count("sources 3, 1, 3", has_forest(graph, 4, three, 3, SPT_NO_LIMIT, far, before, roots));
    count("sources 3 and 1", has_forest(graph, 4, three, 2, SPT_NO_LIMIT, far, before, roots));
    count("sources 1 and 3", has_forest(graph, 4, three + 1, 2, SPT_NO_LIMIT, far, before, roots));
    count("within the greatest distance", has_forest(graph, 4, three, 3, spt_reach(4), far, before, roots));
    count("within 3", has_forest(graph, 4, three, 3, 3, far, before, roots));
    count("within 2", has_forest(graph, 4, three, 3, 2, near, (uint32_t[]){0, 0, 0, 3}, (uint32_t[]){1, 0, 3, 3}));
    count("within 1", has_forest(graph, 4, three, 3, 1, nearest, (uint32_t[4]){0}, (uint32_t[]){1, 0, 3, 0}));
    count("within 0", has_forest(graph, 4, three, 3, 0, nearest, (uint32_t[4]){0}, (uint32_t[]){1, 0, 3, 0}));
    const uint64_t none[] = {NONE, NONE, NONE, NONE}, tied[] = {NONE, 0, 0, 2};
    count("no source", has_forest(graph, 4, NULL, 0, SPT_NO_LIMIT, none, (uint32_t[4]){0}, (uint32_t[4]){0}));
    count("no source within 5", has_forest(graph, 4, NULL, 0, 5, none, (uint32_t[4]){0}, (uint32_t[4]){0}));
    count("a tie", has_forest(graph, 4, ties, 2, SPT_NO_LIMIT, tied, (uint32_t[]){0, 0, 0, 2}, (uint32_t[]){0, 2, 3, 2}));
}

/* A tie between two sources themselves, and a source that another's walk reaches. */
static void sources(void) {
    const spt_arc to_one[] = {{3, 1, 5}, {2, 1, 5}}, on[] = {{1, 2, 1}};
    const uint32_t three_two[] = {3, 2}, both[] = {1, 2};
    spt_graph graph = {0};
    count("new", spt_graph_new(to_one, 2, 3, &graph).status == SPT_OK);
    count("the smaller of two", has_forest(&graph, 3, three_two, 2, SPT_NO_LIMIT, (uint64_t[]){5, 0, 0}, (uint32_t[]){2, 0, 0},
                                           (uint32_t[]){2, 2, 3}));
    count("new", spt_graph_new(on, 1, 2, &graph).status == SPT_OK);
    count("both are sources", has_forest(&graph, 2, both, 2, SPT_NO_LIMIT, (uint64_t[]){0, 0}, (uint32_t[]){0, 0}, both));
    spt_graph_free(&graph);
}

static void matrices(const spt_graph *graph) {
    const uint32_t from[] = {1, 4}, to[] = {4, 1, 4};
    const uint64_t wanted[] = {5, 0, 5, 0, NONE, 0};
    const uint64_t deltas[] = {0, 1, 5, spt_reach(4)};
    for (size_t d = 0; d < 4; d++) {
        fill();
        spt_batch told = spt_graph_matrix(graph, from, 2, to, 3, deltas[d], dist, MOST);
        count("a matrix", told.status == SPT_OK && told.done == 2 && !told.index && !told.vertex);
        count("its rows", !memcmp(dist, wanted, sizeof wanted) && untouched(6));
    }
    fill();
    count("no target", spt_graph_matrix(graph, from, 2, NULL, 0, 0, NULL, 0).done == 2 && untouched(0));
    count("no source", spt_graph_matrix(graph, NULL, 0, to, 3, 0, NULL, 0).status == SPT_OK && untouched(0));
}

/* A path of the longest arcs, of which the last vertex alone is beyond the reach. */
static void far_vertices(void) {
    enum { N = 4098 };
    static spt_arc path[N];
    static uint64_t far_dist[N];
    static uint32_t far_pred[N], far_root[N];
    for (uint32_t v = 1; v < N; v++) path[v - 1] = (spt_arc){v, v + 1, UINT32_MAX};
    const uint32_t ends[] = {1, N}, last[] = {N - 1, N, 1};
    const uint64_t within = (uint64_t)(N - 2) * UINT32_MAX;
    spt_graph graph = {0};
    count("the path reaches beyond", within <= spt_reach(N) && spt_reach(N) < within + UINT32_MAX);
    count("new", spt_graph_new(path, N - 1, N, &graph).status == SPT_OK);
    spt_answer part = spt_graph_within(&graph, 1, spt_reach(N), 0, far_dist, N, far_pred, N);
    count("a part is never too far", is(part, SPT_OK, 0, 0) && far_dist[N - 2] == within && far_pred[N - 2] == N - 2);
    count("what is too far is unreached", far_dist[N - 1] == NONE && far_pred[N - 1] == 0);
    memset(far_dist, 7, sizeof far_dist);
    spt_answer far = spt_graph_nearest(&graph, ends, 1, SPT_NO_LIMIT, 0, far_dist, N, far_pred, N, far_root, N);
    count("too far", is(far, SPT_TOO_FAR, N, 0) && far_dist[0] == 0x0707070707070707);
    spt_answer limited = spt_graph_nearest(&graph, ends, 1, spt_reach(N), 0, far_dist, N, far_pred, N, far_root, N);
    count("with a limit nothing is", is(limited, SPT_OK, 0, 0) && far_dist[N - 2] == within && far_root[N - 2] == 1);
    count("and the last is unreached", far_dist[N - 1] == NONE && far_pred[N - 1] == 0 && far_root[N - 1] == 0);
    spt_answer both = spt_graph_nearest(&graph, ends, 2, SPT_NO_LIMIT, 0, far_dist, N, far_pred, N, far_root, N);
    count("from both ends nothing is", is(both, SPT_OK, 0, 0) && far_dist[N - 1] == 0 && far_root[N - 1] == N);
    fill();
    spt_batch rows = spt_graph_matrix(&graph, ends, 2, last, 3, 0, dist, 6);
    const uint64_t wanted[] = {within, SPT_BEYOND, 0, NONE, 0, NONE};
    count("a row with what is too far", rows.status == SPT_OK && rows.done == 2 && !memcmp(dist, wanted, sizeof wanted));
    count("a near target, and one to which no walk leads", untouched(6));
    /* the last vertex exactly at the greatest distance */
    path[N - 2].len = (uint32_t)(spt_reach(N) - within);
    count("new", spt_graph_new(path, N - 1, N, &graph).status == SPT_OK);
    spt_answer at = spt_graph_nearest(&graph, ends, 1, SPT_NO_LIMIT, 0, far_dist, N, far_pred, N, far_root, N);
    count("at the greatest distance", is(at, SPT_OK, 0, 0) && far_dist[N - 1] == spt_reach(N) && far_root[N - 1] == 1);
    part = spt_graph_within(&graph, 1, spt_reach(N) - 1, 0, far_dist, N, far_pred, N);
    count("one below it", is(part, SPT_OK, 0, 0) && far_dist[N - 1] == NONE && far_pred[N - 1] == 0);
    spt_graph_free(&graph);
}

/* What is refused, in the order in which it is tested; each list is as it was. */
static void refusals(const spt_graph *graph) {
    static const spt_graph none = {0};
    const uint32_t bad[] = {1, 5}, zero = 0, one = 1, several[] = {1, 2, 0};
    const uint64_t above = spt_reach(4) + 1;
    fill();
    count("no graph", is(spt_graph_within(&none, 0, UINT64_MAX, UINT64_MAX, dist, 0, pred, 0), SPT_NO_GRAPH, 0, 0));
    count("few distances", is(spt_graph_within(graph, 0, above, above, dist, 3, pred, 4), SPT_BAD_SIZE, 0, 0));
    count("few predecessors", is(spt_graph_within(graph, 0, above, above, dist, 4, pred, 3), SPT_BAD_SIZE, 0, 0));
    count("delta before limit", is(spt_graph_within(graph, 0, above, above, dist, 4, pred, 4), SPT_BAD_DELTA, 0, 0));
    count("limit before source", is(spt_graph_within(graph, 0, above, 0, dist, 4, pred, 4), SPT_BAD_LIMIT, 0, 0));
    count("no limit is none here", is(spt_graph_within(graph, 1, SPT_NO_LIMIT, 0, dist, 4, pred, 4), SPT_BAD_LIMIT, 0, 0));
    count("source 0", is(spt_graph_within(graph, 0, 1, 0, dist, 4, pred, 4), SPT_NO_SUCH_VERTEX, 0, 0));
    count("source 5", is(spt_graph_within(graph, 5, 1, 0, dist, 4, pred, 4), SPT_NO_SUCH_VERTEX, 0, 0));
    spt_part list = spt_graph_part(&none, 0, above, root, 0, dist, 0, pred, 0);
    count("no graph", list.status == SPT_NO_GRAPH && list.count == 0);
    list = spt_graph_part(graph, 0, above, root, 0, dist, 0, pred, 0);
    count("limit before source", list.status == SPT_BAD_LIMIT && list.count == 0);
    list = spt_graph_part(graph, 0, 1, root, 0, dist, 0, pred, 0);
    count("source 0 before the places", list.status == SPT_NO_SUCH_VERTEX && list.count == 0);
    list = spt_graph_part(graph, 5, 1, root, 4, dist, 4, pred, 4);
    count("source 5", list.status == SPT_NO_SUCH_VERTEX && list.count == 0);
    count("no graph", is(spt_graph_nearest(&none, &zero, 1, 1, 0, dist, 4, pred, 4, root, 4), SPT_NO_GRAPH, 0, 0));
    count("few distances", is(spt_graph_nearest(graph, &zero, 1, above, above, dist, 3, pred, 4, root, 4), SPT_BAD_SIZE, 0, 0));
    count("few predecessors", is(spt_graph_nearest(graph, &zero, 1, above, above, dist, 4, pred, 3, root, 4), SPT_BAD_SIZE, 0, 0));
    count("few roots", is(spt_graph_nearest(graph, &zero, 1, above, above, dist, 4, pred, 4, root, 3), SPT_BAD_SIZE, 0, 0));
    count("delta before limit", is(spt_graph_nearest(graph, &zero, 1, above, above, dist, 4, pred, 4, root, 4), SPT_BAD_DELTA, 0, 0));
    count("limit before source", is(spt_graph_nearest(graph, &zero, 1, above, 0, dist, 4, pred, 4, root, 4), SPT_BAD_LIMIT, 0, 0));
    spt_answer limit = spt_graph_nearest(graph, &one, 1, SPT_NO_LIMIT - 1, 0, dist, 4, pred, 4, root, 4);
    count("the number before no limit", is(limit, SPT_BAD_LIMIT, 0, 0));
    count("source 5", is(spt_graph_nearest(graph, bad, 2, 1, 0, dist, 4, pred, 4, root, 4), SPT_NO_SUCH_VERTEX, 0, 1));
    const struct {
        const spt_graph *graph;
        const uint32_t *from, *to;
        size_t k, l, places;
        uint64_t delta;
        uint32_t status;
        uint64_t index;
    } rows[] = {
        {&none, bad, bad, 2, 2, 0, above, SPT_NO_GRAPH, 0},
        {graph, bad, bad, 2, 2, 3, above, SPT_BAD_SIZE, 0},
        {graph, &one, &one, SIZE_MAX / 2, 3, MOST, above, SPT_BAD_SIZE, 0},
        {graph, bad, bad, 2, 2, 4, above, SPT_BAD_DELTA, 0},
        {graph, bad, &zero, 2, 1, 4, 0, SPT_NO_SUCH_VERTEX, 1},
        {graph, &one, several, 1, 3, 4, 0, SPT_NO_SUCH_VERTEX, 3},
        {graph, several, bad, 2, 2, 4, 0, SPT_NO_SUCH_VERTEX, 3},
    };
    for (size_t i = 0; i < sizeof rows / sizeof *rows; i++) {
        spt_batch told = spt_graph_matrix(rows[i].graph, rows[i].from, rows[i].k, rows[i].to, rows[i].l, rows[i].delta, dist,
                                          rows[i].places);
        count("a matrix is refused", told.status == rows[i].status && told.index == rows[i].index && !told.vertex && !told.done);
    }
    count("each list is as it was", untouched(0));
}

/* The least distance of each vertex from any of some sources, by a plain program that goes on until nothing changes. */
static void plain(const spt_arc *arcs, size_t m, uint32_t n, const uint32_t *from, size_t k, uint64_t *found) {
    for (uint32_t v = 0; v < n; v++) found[v] = NONE;
    for (size_t i = 0; i < k; i++) found[from[i] - 1] = 0;
    for (int changed = 1; changed;) {
        changed = 0;
        for (size_t i = 0; i < m; i++) {
            uint64_t *tail = &found[arcs[i].tail - 1], *head = &found[arcs[i].head - 1];
            if (*tail != NONE && *tail + arcs[i].len < *head) *head = *tail + arcs[i].len, changed = 1;
        }
    }
}

/* The predecessors and the roots by their definitions, from the distances; a limit leaves out what is farther. */
static void lead_back(const spt_arc *arcs, size_t m, uint32_t n, uint64_t limit, uint64_t *found, uint32_t *before, uint32_t *roots) {
    for (uint32_t v = 0; v < n; v++) before[v] = roots[v] = 0;
    for (size_t i = 0; i < m; i++) {
        uint32_t tail = arcs[i].tail, *smallest = &before[arcs[i].head - 1];
        int tight = found[tail - 1] != NONE && found[tail - 1] + arcs[i].len == found[arcs[i].head - 1];
        if (tight && (*smallest == 0 || tail < *smallest)) *smallest = tail;
    }
    for (uint32_t v = 1; v <= n; v++) {
        uint32_t at = v;
        while (found[v - 1] != NONE && before[at - 1]) at = before[at - 1];
        roots[v - 1] = found[v - 1] == NONE ? 0 : at;
    }
    for (uint32_t v = 0; v < n; v++)
        if (found[v] > limit) found[v] = NONE, before[v] = roots[v] = 0;
}

/* A number from 1 to the greatest one, the next of a row that is the same in each run. */
static uint32_t draw(uint32_t most) {
    static uint32_t state = 1;
    state = state * 1664525u + 1013904223u;
    return 1 + (state >> 8) % most;
}

static void by_lot(void) {
    static spt_arc arcs[4 * MOST];
    uint64_t wanted[MOST];
    uint32_t before[MOST], roots[MOST], from[MOST];
    for (int turn = 0; turn < 200; turn++) {
        uint32_t n = draw(MOST), m = draw(4 * n) - 1, k = draw(n), longest = turn % 2 ? 3 : 1000;
        for (uint32_t i = 0; i < m; i++) {
            uint32_t tail = draw(n), head = draw(n), len = draw(longest);
            arcs[i] = (spt_arc){tail, head, len};
        }
        for (uint32_t i = 0; i < k; i++) from[i] = draw(n);
        spt_graph graph = {0};
        int right = spt_graph_new(arcs, m, n, &graph).status == SPT_OK;
        const uint64_t limits[] = {0, draw(longest), 3ull * draw(longest), spt_reach(n), SPT_NO_LIMIT};
        for (size_t each = 0; each < 5; each++) {
            plain(arcs, m, n, from, k, wanted);
            lead_back(arcs, m, n, limits[each], wanted, before, roots);
            right = right && has_forest(&graph, n, from, k, limits[each], wanted, before, roots);
            if (limits[each] == SPT_NO_LIMIT) continue;
            plain(arcs, m, n, from, 1, wanted);
            lead_back(arcs, m, n, limits[each], wanted, before, roots);
            right = right && has_part(&graph, n, from[0], limits[each], wanted, before);
        }
        uint64_t block[MOST * 2];
        size_t rows = k < 2 ? k : 2, columns = k;
        spt_batch told = spt_graph_matrix(&graph, from, rows, from, columns, 0, block, MOST * 2);
        right = right && told.status == SPT_OK && told.done == rows;
        for (size_t i = 0; i < rows; i++) {
            plain(arcs, m, n, &from[i], 1, wanted);
            for (size_t j = 0; j < columns; j++) right = right && block[i * columns + j] == wanted[from[j] - 1];
        }
        count("a graph by lot", right);
        spt_graph_free(&graph);
    }
}

int main(void) {
    spt_graph graph = {0};
    count("new", spt_graph_new(diamond, 5, 4, &graph).status == SPT_OK);
    parts(&graph);
    forests(&graph);
    matrices(&graph);
    refusals(&graph);
    spt_graph_free(&graph);
    sources();
    far_vertices();
    by_lot();
    return finish();
}
