/* Every refusal, by its status and what it tells, and that the lists stay as they were. */
#include "count.h"
#include "spt.h"

#include <string.h>

#define N 4
#define M 5

static const spt_arc diamond[M] = {{1, 2, 3}, {1, 3, 3}, {2, 4, 2}, {3, 4, 2}, {1, 4, 6}};
static const uint32_t one = 1;

/* The lists that calls write, and what they hold before. */
static uint64_t dist[2 * N], dist_before[2 * N];
static uint32_t pred[2 * N], pred_before[2 * N];

static void fill(void) {
    memset(dist_before, 0xa5, sizeof dist_before);
    memset(pred_before, 0x5a, sizeof pred_before);
    memcpy(dist, dist_before, sizeof dist);
    memcpy(pred, pred_before, sizeof pred);
}

static int unchanged(void) {
    return !memcmp(dist, dist_before, sizeof dist) && !memcmp(pred, pred_before, sizeof pred);
}

/* spt_tree, and spt_trees of this source alone, refuse with this answer and leave the lists. */
static void refuses(const char *name, const spt_arc *arcs, size_t m, uint32_t n, uint32_t source, uint64_t delta,
                    size_t dist_places, size_t pred_places, spt_answer wanted) {
    spt_answer tree = spt_tree(arcs, m, n, source, delta, dist, dist_places, pred, pred_places);
    count(name, tree.status == wanted.status && tree.vertex == wanted.vertex && tree.index == wanted.index && unchanged());
    spt_batch trees = spt_trees(arcs, m, n, &source, 1, delta, dist, dist_places, pred, pred_places);
    count(name, trees.status == wanted.status && trees.vertex == wanted.vertex && trees.index == wanted.index && trees.done == 0);
    count(name, unchanged());
    spt_answer check = spt_check(arcs, m, n, source, dist, dist_places, pred, pred_places);
    int of_delta = wanted.status == SPT_BAD_DELTA || delta > spt_reach(n);
    count(name, of_delta || (check.status == wanted.status && check.vertex == 0 && check.index == wanted.index));
    spt_found pair = spt_pair(arcs, m, n, source, 1, delta);
    int of_places = wanted.status == SPT_BAD_SIZE && n != 0 && n != UINT32_MAX;
    count(name, of_places || (pair.status == wanted.status && pair.pred == 0 && pair.dist == 0 && pair.index == wanted.index));
}

static spt_answer told(uint32_t status, uint32_t vertex, uint64_t index) {
    return (spt_answer){status, vertex, index};
}

static void sizes(void) {
    spt_answer bad = told(SPT_BAD_SIZE, 0, 0);
    refuses("no vertex", diamond, 0, 0, 1, 3, N, N, bad);
    refuses("too many vertices", diamond, 0, UINT32_MAX, 1, 3, N, N, bad);
    refuses("too few places for distances", diamond, M, N, 1, 3, N - 1, N, bad);
    refuses("too few places for predecessors", diamond, M, N, 1, 3, N, N - 1, bad);
    refuses("a size before all else", diamond, M, 3, 0, spt_reach(3) + 1, 2, 2, bad);
    spt_batch huge = spt_trees(diamond, M, N, &one, SIZE_MAX / N + 2, 3, dist, 2 * N, pred, 2 * N);
    count("more places than a size_t tells", huge.status == SPT_BAD_SIZE && huge.done == 0 && unchanged());
}

static void vertices(void) {
    spt_answer none = told(SPT_NO_SUCH_VERTEX, 0, 0);
    refuses("source 0", diamond, M, N, 0, 3, N, N, none);
    refuses("a source above n", diamond, M, N, N + 1, 3, N, N, none);
    refuses("the greatest source", diamond, M, N, UINT32_MAX, 3, N, N, none);
    uint32_t second[2] = {1, N + 1};
    spt_batch trees = spt_trees(diamond, M, N, second, 2, 3, dist, 2 * N, pred, 2 * N);
    count("the second source", trees.status == SPT_NO_SUCH_VERTEX && trees.index == 1 && trees.done == 0 && unchanged());
    const uint32_t targets[] = {0, N + 1, UINT32_MAX};
    for (size_t i = 0; i < sizeof targets / sizeof *targets; i++) {
        spt_found pair = spt_pair(diamond, M, N, 1, targets[i], 3);
        count("no target", pair.status == SPT_NO_SUCH_VERTEX && pair.index == 1 && pair.dist == 0 && pair.pred == 0);
    }
}

static void deltas(void) {
    refuses("a delta above the reach", diamond, M, N, 1, spt_reach(N) + 1, N, N, told(SPT_BAD_DELTA, 0, 0));
    refuses("the greatest delta", diamond, M, N, 1, UINT64_MAX, N, N, told(SPT_BAD_DELTA, 0, 0));
    refuses("a delta before a source", diamond, M, N, 0, UINT64_MAX, N, N, told(SPT_BAD_DELTA, 0, 0));
}

static void arcs(void) {
    const spt_arc bad[] = {{0, 2, 3}, {N + 1, 2, 3}, {1, 0, 3}, {1, N + 1, 3}, {1, 2, 0}, {UINT32_MAX, UINT32_MAX, UINT32_MAX}};
    for (size_t kind = 0; kind < sizeof bad / sizeof *bad; kind++)
        for (size_t place = 0; place < M; place++) {
            spt_arc given[M];
            memcpy(given, diamond, sizeof given);
            given[place] = bad[kind];
            refuses("an arc that is none", given, M, N, 1, 3, N, N, told(SPT_BAD_ARC, 0, place));
            refuses("a source before an arc", given, M, N, 0, 3, N, N, told(SPT_NO_SUCH_VERTEX, 0, 0));
        }
}

/* A path of the longest arcs, whose end is beyond the reach; and a second source, from which it isn't. */
static void far_vertices(void) {
    enum { LENGTH = 4200 };
    static spt_arc path[LENGTH];
    static uint64_t far_dist[2 * (LENGTH + 1)];
    static uint32_t far_pred[2 * (LENGTH + 1)];
    const uint32_t n = LENGTH + 1, sources[2] = {n, 1};
    for (uint32_t v = 1; v <= LENGTH; v++) path[v - 1] = (spt_arc){v, v + 1, UINT32_MAX};
    uint32_t vertex = (uint32_t)(spt_reach(n) / UINT32_MAX) + 2;
    memset(far_dist, 7, sizeof far_dist);
    spt_answer tree = spt_tree(path, LENGTH, n, 1, 0, far_dist, n, far_pred, n);
    count("too far", tree.status == SPT_TOO_FAR && tree.vertex == vertex && tree.index == 0);
    count("too far: unchanged", far_dist[0] == 0x0707070707070707 && far_pred[0] == 0 && far_dist[n - 1] == far_dist[0]);
    spt_answer check = spt_check(path, LENGTH, n, 1, far_dist, n, far_pred, n);
    count("too far to check", check.status == SPT_TOO_FAR && check.vertex == vertex && check.index == 0);
    spt_found near = spt_pair(path, LENGTH, n, 1, 2, 0), last = spt_pair(path, LENGTH, n, 1, vertex - 1, 0);
    count("a near pair", near.status == SPT_OK && near.pred == 1 && near.dist == UINT32_MAX && near.index == 0);
    uint64_t last_dist = (uint64_t)(vertex - 2) * UINT32_MAX;
    count("the last within reach", last.status == SPT_OK && last.pred == vertex - 2 && last.dist == last_dist && last.index == 0);
    for (uint32_t target = vertex; target <= n; target += n - vertex) {
        spt_found pair = spt_pair(path, LENGTH, n, 1, target, 0);
        count("a pair too far", pair.status == SPT_TOO_FAR && pair.pred == vertex && pair.dist == 0 && pair.index == 0);
    }
    spt_batch trees = spt_trees(path, LENGTH, n, sources, 2, 0, far_dist, 2 * n, far_pred, 2 * n);
    count("the second too far", trees.status == SPT_TOO_FAR && trees.vertex == vertex && trees.done == 1);
    count("the first tree stands", far_dist[n - 1] == 0 && far_dist[0] == SPT_UNREACHED && far_pred[n - 2] == 0);
    count("the second block is as it was", far_dist[n] == 0x0707070707070707 && far_dist[2 * n - 1] == far_dist[n]);
}

/* Pairs are the tree's, and a tree with another distance or predecessor at one place is wrong there. */
static void pairs_and_checks(void) {
    const uint64_t right_dist[N] = {0, 3, 3, 5};
    const uint32_t right_pred[N] = {0, 1, 1, 2};
    count("the right tree", spt_check(diamond, M, N, 1, right_dist, N, right_pred, N).status == SPT_OK);
    for (uint32_t v = 1; v <= N; v++) {
        spt_found pair = spt_pair(diamond, M, N, 1, v, 3);
        count("a pair", pair.status == SPT_OK && pair.dist == right_dist[v - 1] && pair.pred == right_pred[v - 1] && !pair.index);
        uint64_t wrong_dist[N];
        uint32_t wrong_pred[N];
        memcpy(wrong_dist, right_dist, sizeof wrong_dist);
        memcpy(wrong_pred, right_pred, sizeof wrong_pred);
        wrong_pred[v - 1]++;
        spt_answer check = spt_check(diamond, M, N, 1, right_dist, N, wrong_pred, N);
        count("a wrong predecessor", check.status == SPT_WRONG && check.vertex == v && check.index == 0);
        wrong_dist[v - 1]--;
        check = spt_check(diamond, M, N, 1, wrong_dist, N, right_pred, N);
        count("a wrong distance", check.status == SPT_WRONG && check.vertex == v && check.index == 0);
    }
    spt_found none = spt_pair(diamond, M, N, 4, 1, 0);
    count("no walk", none.status == SPT_OK && none.dist == SPT_UNREACHED && none.pred == 0);
}

static void reaches(void) {
    const struct {
        uint32_t n;
        uint64_t reach;
    } wanted[] = {
        {0, 0},
        {1, 17592186044414},
        {1048574, 17592186044414},
        {1048575, 1099511627774},
        {16777214, 1099511627774},
        {16777215, 68719476734},
        {268435454, 68719476734},
        {268435455, 4294967294},
        {4294967294, 4294967294},
        {4294967295, 0},
    };
    for (size_t i = 0; i < sizeof wanted / sizeof *wanted; i++) count("spt_reach", spt_reach(wanted[i].n) == wanted[i].reach);
}

static spt_text read_text(const char *text, spt_arc *into, size_t places) {
    return spt_gr((const uint8_t *)text, strlen(text), into, places);
}

static void texts(void) {
    const struct {
        const char *text;
        uint32_t kind, letter;
        uint64_t line;
    } faults[] = {
        {"p sp 2\n", 2, 0, 1},
        {"a 1 2 3\n", 3, 0, 1},
        {"p sp 2 1\np sp 2 1\n", 4, 0, 2},
        {"p sp 2 1\na 3 1 1\n", 5, 'U', 2},
        {"p sp 2 1\na 1 3 1\n", 5, 'V', 2},
        {"c no length\np sp 2 1\na 1 2 0\n", 5, 'W', 3},
        {"p sp 0 0\n", 5, 'N', 1},
        {"p sp 2 1\na 1 2 3\na 1 2 3\n", 6, 0, 3},
        {"p sp 2 2\na 1 2 3\n", 7, 0, 3},
    };
    spt_arc room[2] = {{7, 7, 7}, {7, 7, 7}}, before[2] = {{7, 7, 7}, {7, 7, 7}};
    for (size_t i = 0; i < sizeof faults / sizeof *faults; i++) {
        spt_text got = read_text(faults[i].text, room, 2);
        int fault = got.kind == faults[i].kind && got.letter == faults[i].letter && got.line == faults[i].line;
        count(faults[i].text, got.status == SPT_BAD_TEXT && fault && got.n == 0 && got.m == 0);
        count(faults[i].text, !memcmp(room, before, sizeof room));
    }
    const char *text = "p sp 3 2\na 1 2 3\na 2 3 4\n";
    spt_text small = read_text(text, room, 1);
    count("too few places for arcs", small.status == SPT_BAD_SIZE && small.n == 3 && small.m == 2);
    count("too few places: unchanged", !memcmp(room, before, sizeof room));
    spt_text whole = read_text(text, room, 2);
    count("a text", whole.status == SPT_OK && whole.n == 3 && whole.m == 2);
    count("its arcs", room[0].len == 3 && room[1].tail == 2 && room[1].head == 3 && room[1].len == 4);
}

int main(void) {
    fill();
    sizes();
    vertices();
    deltas();
    arcs();
    far_vertices();
    pairs_and_checks();
    reaches();
    texts();
    return finish();
}
