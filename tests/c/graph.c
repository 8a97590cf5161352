/* A graph that is kept between calls: made, shared by four threads, replaced, refused, freed. Its trees are those of spt_trees.
 * Under the address sanitizer no block is left, and none is used after its end. */
#include "count.h"
#include "spt.h"

#include <pthread.h>
#include <stdlib.h>
#include <string.h>

#define N 1501
#define M 6000
#define K 4
#define THREADS 4
#define ROUNDS 6

static const spt_arc diamond[] = {{1, 2, 3}, {1, 3, 3}, {2, 4, 2}, {3, 4, 2}, {1, 4, 6}};
static const uint32_t sources[K] = {1, 7, 700, N};
static spt_arc arcs[M];
static uint64_t right_dist[K * N];
static uint32_t right_pred[K * N];

/* The lists of a thread. */
typedef struct lists {
    uint64_t dist[K * N];
    uint32_t pred[K * N];
} lists;

static void make_arcs(void) {
    for (uint32_t i = 0; i < M; i++)
        arcs[i] = (spt_arc){1 + i * 7919 % N, 1 + i * 104729 % N, 1 + i * 31 % 97};
    spt_batch told = spt_trees(arcs, M, N, sources, K, 0, right_dist, K * N, right_pred, K * N);
    count("spt_trees", told.status == SPT_OK && told.done == K);
}

/* Whether the trees of the kept graph are those of spt_trees, byte for byte. */
static int has_trees(spt_graph *graph, uint64_t delta) {
    lists *own = malloc(sizeof *own);
    if (!own) return 0;
    spt_batch told = spt_graph_trees(graph, sources, K, delta, own->dist, K * N, own->pred, K * N);
    int same = !memcmp(own->dist, right_dist, sizeof right_dist) && !memcmp(own->pred, right_pred, sizeof right_pred);
    free(own);
    return same && told.status == SPT_OK && told.done == K;
}

/* Whether the diamond is kept. */
static int has_diamond(spt_graph *graph) {
    const uint64_t wanted[] = {0, 3, 3, 5, 9};
    const uint32_t before[] = {0, 1, 1, 2, 9};
    uint64_t dist[] = {9, 9, 9, 9, 9};
    uint32_t pred[] = {9, 9, 9, 9, 9}, one = 1;
    spt_batch told = spt_graph_trees(graph, &one, 1, 0, dist, 5, pred, 5);
    return told.status == SPT_OK && told.done == 1 && !memcmp(dist, wanted, sizeof dist) && !memcmp(pred, before, sizeof pred);
}

/* Whether this is told of a call, and its lists are as they were. */
static int refuses(spt_graph *graph, uint32_t source, size_t k, uint64_t delta, size_t places, uint32_t status, uint64_t index) {
    uint64_t dist[4] = {9, 9, 9, 9};
    uint32_t pred[4] = {9, 9, 9, 9}, asked[2] = {1, source};
    spt_batch told = spt_graph_trees(graph, k == 1 ? &source : asked, k, delta, dist, places, pred, places);
    int same = 1;
    for (int i = 0; i < 4; i++) same = same && dist[i] == 9 && pred[i] == 9;
    return same && told.status == status && told.index == index && told.vertex == 0 && told.done == 0;
}

static void refusals(void) {
    spt_graph graph = {0};
    count("none is kept", refuses(&graph, 0, 1, UINT64_MAX, 0, SPT_NO_GRAPH, 0));
    count("new", spt_graph_new(diamond, 5, 4, &graph).status == SPT_OK);
    count("places before delta", refuses(&graph, 0, 1, UINT64_MAX, 3, SPT_BAD_SIZE, 0));
    count("places for two", refuses(&graph, 2, 2, 0, 4, SPT_BAD_SIZE, 0));
    count("delta before source", refuses(&graph, 0, 1, spt_reach(4) + 1, 4, SPT_BAD_DELTA, 0));
    count("source 0", refuses(&graph, 0, 1, 0, 4, SPT_NO_SUCH_VERTEX, 0));
    count("source 5", refuses(&graph, 5, 1, 0, 4, SPT_NO_SUCH_VERTEX, 0));
    count("no vertex", spt_graph_new(diamond, 5, 0, &graph).status == SPT_BAD_SIZE);
    count("too many", spt_graph_new(diamond, 5, UINT32_MAX, &graph).status == SPT_BAD_SIZE);
    spt_answer told = spt_graph_new(diamond, 5, 3, &graph);
    count("bad arc", told.status == SPT_BAD_ARC && told.index == 2 && told.vertex == 0);
    count("it keeps what it kept", has_diamond(&graph));
    spt_graph_free(&graph);
    count("none is kept after free", refuses(&graph, 1, 1, 0, 4, SPT_NO_GRAPH, 0));
    spt_graph_free(&graph);
}

/* Whether a target is refused so. */
static int refuses_pair(const spt_graph *graph, uint32_t source, uint32_t target, uint64_t delta, uint32_t status, uint64_t index) {
    spt_found told = spt_graph_pair(graph, source, target, delta);
    return told.status == status && told.index == index && told.dist == 0 && told.pred == 0;
}

/* Pairs of the kept graph are those of its trees, by each width of a bucket. */
static void pairs(void) {
    spt_graph graph = {0};
    count("none is kept", refuses_pair(&graph, 1, 1, 0, SPT_NO_GRAPH, 0));
    count("new", spt_graph_new(arcs, M, N, &graph).status == SPT_OK);
    const uint64_t deltas[] = {0, 1, 40, spt_reach(N)};
    for (size_t d = 0; d < 4; d++)
        for (size_t k = 0; k < K; k++) {
            int right = 1;
            for (uint32_t t = 1; t <= N; t++) {
                spt_found told = spt_graph_pair(&graph, sources[k], t, deltas[d]);
                size_t at = k * N + t - 1;
                right = right && told.status == SPT_OK && told.dist == right_dist[at] && told.pred == right_pred[at] && !told.index;
            }
            count("pairs of a source", right);
        }
    count("delta before ends", refuses_pair(&graph, 0, 0, spt_reach(N) + 1, SPT_BAD_DELTA, 0));
    count("source 0", refuses_pair(&graph, 0, 0, 0, SPT_NO_SUCH_VERTEX, 0));
    count("source above n", refuses_pair(&graph, N + 1, 1, 0, SPT_NO_SUCH_VERTEX, 0));
    count("target 0", refuses_pair(&graph, 1, 0, 0, SPT_NO_SUCH_VERTEX, 1));
    count("target above n", refuses_pair(&graph, 1, N + 1, 0, SPT_NO_SUCH_VERTEX, 1));
    count("it is kept", has_trees(&graph, 0));
    count("diamond", spt_graph_new(diamond, 5, 4, &graph).status == SPT_OK);
    spt_found none = spt_graph_pair(&graph, 4, 1, 0);
    count("no walk", none.status == SPT_OK && none.dist == SPT_UNREACHED && none.pred == 0 && none.index == 0);
    spt_graph_free(&graph);
}

static int has_counts(const spt_graph *graph, uint32_t status, uint32_t n, uint64_t m) {
    spt_counts told = spt_graph_counts(graph);
    return told.status == status && told.n == n && told.m == m;
}

static void counts(void) {
    const spt_arc twice[] = {{1, 1, 2}, {1, 2, 7}, {1, 2, 7}};
    spt_graph graph = {0};
    count("counts of none", has_counts(&graph, SPT_NO_GRAPH, 0, 0));
    count("new", spt_graph_new(diamond, 5, 4, &graph).status == SPT_OK && has_counts(&graph, SPT_OK, 4, 5));
    count("fewer", spt_graph_new(diamond, 2, 9, &graph).status == SPT_OK && has_counts(&graph, SPT_OK, 9, 2));
    count("twice", spt_graph_new(twice, 3, 2, &graph).status == SPT_OK && has_counts(&graph, SPT_OK, 2, 3));
    spt_graph_free(&graph);
    count("counts after free", has_counts(&graph, SPT_NO_GRAPH, 0, 0));
}

/* A place where nothing is kept may stand where nobody can write; another is as it was. */
static void constants(void) {
    static const spt_graph none = {0};
    spt_graph graph = {0}, other = {0};
    uint32_t one = 1;
    uint64_t dist[4];
    uint32_t pred[4];
    count("pair of none", spt_graph_pair(&none, 1, 1, 0).status == SPT_NO_GRAPH);
    count("counts of none", spt_graph_counts(&none).status == SPT_NO_GRAPH);
    count("trees of none", spt_graph_trees(&none, &one, 1, 0, dist, 4, pred, 4).status == SPT_NO_GRAPH);
    count("share of none", spt_graph_share(&none, &other).status == SPT_OK && other.state == 0);
    count("new", spt_graph_new(diamond, 5, 4, &graph).status == SPT_OK);
    const spt_graph *seen = &graph;
    void *at = graph.at;
    count("pair", spt_graph_pair(seen, 1, 4, 0).dist == 5 && graph.at == at && graph.state == 1);
    count("counts", spt_graph_counts(seen).m == 5 && graph.at == at && graph.state == 1);
    count("trees", spt_graph_trees(seen, &one, 1, 0, dist, 4, pred, 4).done == 1 && graph.at == at && graph.state == 1);
    count("share", spt_graph_share(seen, &other).status == SPT_OK && graph.at == at && graph.state == 1 && other.state == 1);
    spt_graph_free(&graph);
    spt_graph_free(&other);
}

static void places(void) {
    spt_graph graph = {0}, other = {0}, moved;
    count("new", spt_graph_new(arcs, M, N, &graph).status == SPT_OK);
    count("trees", has_trees(&graph, 0) && has_trees(&graph, 1) && has_trees(&graph, spt_reach(N)));
    count("share", spt_graph_share(&graph, &other).status == SPT_OK);
    count("replaced", spt_graph_new(diamond, 5, 4, &graph).status == SPT_OK && has_diamond(&graph));
    count("the other keeps it", has_trees(&other, 0));
    memcpy(&moved, &other, sizeof moved);
    count("moved", has_trees(&moved, 0));
    count("share over", spt_graph_share(&graph, &moved).status == SPT_OK && has_diamond(&moved));
    spt_graph_free(&graph);
    count("the last", has_diamond(&moved));
    count("share of none", spt_graph_share(&graph, &moved).status == SPT_OK);
    count("none", refuses(&moved, 1, 1, 0, 4, SPT_NO_GRAPH, 0));
}

static void *use(void *given) {
    spt_graph mine, copy = {0};
    memcpy(&mine, given, sizeof mine);
    intptr_t right = 1;
    for (int turn = 0; turn < ROUNDS; turn++) {
        right = right && spt_graph_share(&mine, &copy).status == SPT_OK && has_trees(&mine, 0) && has_trees(&copy, 40);
        if (turn % 3 == 0) spt_graph_free(&copy);
    }
    spt_graph_free(&copy);
    spt_graph_free(&mine);
    return (void *)right;
}

static void threads(void) {
    spt_graph graph = {0}, given[THREADS] = {{0}};
    pthread_t running[THREADS];
    int started = 0;
    count("new", spt_graph_new(arcs, M, N, &graph).status == SPT_OK);
    for (; started < THREADS; started++) {
        if (spt_graph_share(&graph, &given[started]).status != SPT_OK) break;
        if (pthread_create(&running[started], NULL, use, &given[started])) break;
    }
    count("threads", started == THREADS);
    count("meanwhile", has_trees(&graph, 0));
    spt_graph_free(&graph);
    for (int each = 0; each < started; each++) {
        void *right;
        count("a thread's trees", !pthread_join(running[each], &right) && right != NULL);
    }
}

int main(void) {
    make_arcs();
    refusals();
    pairs();
    counts();
    constants();
    places();
    threads();
    return finish();
}
