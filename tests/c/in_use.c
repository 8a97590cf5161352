/* A place in use, seen by a call that comes while another one runs: here each allocation of a call calls every function with the
 * same place. All report SPT_IN_USE and change nothing, and the first call is right. One place given twice is in use as well.
 * Link with -Wl,--wrap=malloc,--wrap=realloc,--wrap=free. */
#include "count.h"
#include "spt.h"

#include <stdlib.h>
#include <string.h>

#define N 4
#define M 5
#define PACKED (4 * (N + 2 * M + 9))

void *__real_malloc(size_t bytes);
void *__real_realloc(void *at, size_t bytes);
void __real_free(void *at);
void *__wrap_malloc(size_t bytes);
void *__wrap_realloc(void *at, size_t bytes);
void __wrap_free(void *at);

static const spt_arc diamond[M] = {{1, 2, 3}, {1, 3, 3}, {2, 4, 2}, {3, 4, 2}, {1, 4, 6}};
static const uint32_t one = 1;

/* The place that the first call uses, if one runs; and how many calls have come in between, and how many of them were wrong. */
static spt_graph *used;
static int is_between, between, wrong;

/* A place with a graph of its own, and lists, which calls in between must leave as they are. */
static spt_graph other;
static uint64_t dist[N], ends[N];
static uint32_t pred[N], third[N];
static uint8_t bytes[PACKED];

/* What the place, the other place and the lists hold. */
typedef struct seen {
    spt_graph used, other;
    uint64_t dist[N], ends[N];
    uint32_t pred[N], third[N];
    uint8_t bytes[PACKED];
} seen;

static seen look(void) {
    seen now;
    memset(&now, 0, sizeof now);
    now.used = *used;
    now.other = other;
    memcpy(now.dist, dist, sizeof dist);
    memcpy(now.ends, ends, sizeof ends);
    memcpy(now.pred, pred, sizeof pred);
    memcpy(now.third, third, sizeof third);
    memcpy(now.bytes, bytes, sizeof bytes);
    return now;
}

/* A call in between has this status, and has changed nothing. */
static void refused(uint32_t status, const seen *before) {
    seen after = look();
    between++;
    wrong += status != SPT_IN_USE || memcmp(before, &after, sizeof after) != 0;
}

static void call_each(void) {
    seen before = look();
    spt_graph *place = used;
    refused(spt_graph_new(diamond, 2, 3, place).status, &before);
    refused(spt_graph_share(place, &other).status, &before);
    refused(spt_graph_share(&other, place).status, &before);
    refused(spt_graph_free(place), &before);
    refused(spt_graph_trees(place, &one, 1, 0, dist, N, pred, N).status, &before);
    refused(spt_graph_pair(place, 1, 4, 0).status, &before);
    refused(spt_graph_within(place, 1, 3, 0, dist, N, pred, N).status, &before);
    refused(spt_graph_part(place, 1, 3, third, N, dist, N, pred, N).status, &before);
    refused(spt_graph_nearest(place, &one, 1, SPT_NO_LIMIT, 0, dist, N, pred, N, third, N).status, &before);
    refused(spt_graph_matrix(place, &one, 1, &one, 1, 0, dist, N).status, &before);
    refused(spt_graph_route(place, 1, 4, third, N).status, &before);
    refused(spt_graph_routes(place, 1, &one, 1, dist, N, ends, N, third, N).status, &before);
    refused(spt_graph_counts(place).status, &before);
    refused(spt_graph_turned(place, &other).status, &before);
    refused(spt_graph_turned(&other, place).status, &before);
    refused(spt_graph_both_ways(place, &other).status, &before);
    refused(spt_graph_both_ways(&other, place).status, &before);
    refused(spt_graph_load(place, bytes, PACKED).status, &before);
    refused(spt_graph_save(place, bytes, PACKED).status, &before);
    /* a refusal of something else comes after it */
    refused(spt_graph_new(diamond, 5, 0, place).status, &before);
    refused(spt_graph_pair(place, 0, 9, UINT64_MAX).status, &before);
    refused(spt_graph_load(place, bytes, 1).status, &before);
}

static void come_between(void) {
    if (!used || is_between) return;
    is_between = 1;
    call_each();
    is_between = 0;
}

void *__wrap_malloc(size_t size) {
    come_between();
    return __real_malloc(size);
}

void *__wrap_realloc(void *at, size_t size) {
    come_between();
    return __real_realloc(at, size);
}

void __wrap_free(void *at) {
    __real_free(at);
}

static int has_diamond(const spt_graph *place) {
    spt_found told = spt_graph_pair(place, 1, 4, 0);
    return told.status == SPT_OK && told.dist == 5 && told.pred == 2 && spt_graph_counts(place).m == M;
}

/* Two places with the diamond, none of which keeps memory for near targets. */
static spt_graph begin(void) {
    spt_graph place = {0};
    count("new", spt_graph_new(diamond, M, N, &place).status == SPT_OK && spt_graph_share(&place, &other).status == SPT_OK);
    memset(dist, 7, sizeof dist);
    memset(ends, 7, sizeof ends);
    memset(pred, 7, sizeof pred);
    memset(third, 7, sizeof third);
    memset(bytes, 7, sizeof bytes);
    between = wrong = 0;
    return place;
}

/* Others came in between, all of them were refused, and both places can be used again. */
static void end(const char *name, spt_graph *place, uint64_t arcs) {
    used = NULL;
    count(name, between > 0);
    count(name, wrong == 0);
    count(name, spt_graph_counts(place).m == arcs && has_diamond(&other));
    count(name, spt_graph_free(place) == SPT_OK && spt_graph_free(&other) == SPT_OK);
}

/* The call must not write the lists of the calls in between, so each has its own. */
static uint64_t own_dist[N], own_ends[N];
static uint32_t own_pred[N], own_third[N];
static uint8_t own_bytes[PACKED];

static void queries(void) {
    spt_graph place = begin();
    used = &place;
    spt_batch trees = spt_graph_trees(&place, &one, 1, 0, own_dist, N, own_pred, N);
    used = NULL;
    count("trees", trees.status == SPT_OK && trees.done == 1 && own_dist[3] == 5);
    end("trees", &place, M);
    place = begin();
    used = &place;
    spt_found pair = spt_graph_pair(&place, 1, 4, 0);
    used = NULL;
    count("pair", pair.status == SPT_OK && pair.dist == 5);
    end("pair", &place, M);
    place = begin();
    used = &place;
    spt_answer within = spt_graph_within(&place, 1, 3, 0, own_dist, N, own_pred, N);
    used = NULL;
    count("within", within.status == SPT_OK && own_dist[1] == 3 && own_dist[3] == SPT_UNREACHED);
    end("within", &place, M);
    place = begin();
    used = &place;
    spt_part part = spt_graph_part(&place, 1, 3, own_third, N, own_dist, N, own_pred, N);
    used = NULL;
    count("part", part.status == SPT_OK && part.count == 3);
    end("part", &place, M);
    place = begin();
    used = &place;
    spt_answer nearest = spt_graph_nearest(&place, &one, 1, SPT_NO_LIMIT, 0, own_dist, N, own_pred, N, own_third, N);
    used = NULL;
    count("nearest", nearest.status == SPT_OK && own_dist[3] == 5 && own_third[3] == 1);
    end("nearest", &place, M);
    place = begin();
    used = &place;
    spt_batch matrix = spt_graph_matrix(&place, &one, 1, &one, 1, 0, own_dist, N);
    used = NULL;
    count("matrix", matrix.status == SPT_OK && matrix.done == 1 && own_dist[0] == 0);
    end("matrix", &place, M);
    place = begin();
    used = &place;
    spt_route route = spt_graph_route(&place, 1, 4, own_third, N);
    used = NULL;
    count("route", route.status == SPT_OK && route.dist == 5 && route.count == 3 && own_third[1] == 2);
    end("route", &place, M);
    place = begin();
    used = &place;
    spt_answer routes = spt_graph_routes(&place, 1, &one, 1, own_dist, N, own_ends, N, own_third, N);
    used = NULL;
    count("routes", routes.status == SPT_OK && own_dist[0] == 0 && own_ends[0] == 1 && own_third[0] == 1);
    end("routes", &place, M);
    place = begin();
    used = &place;
    spt_saved saved = spt_graph_save(&place, own_bytes, PACKED);
    used = NULL;
    count("save", saved.status == SPT_OK && saved.count == PACKED);
    end("save", &place, M);
}

static void changes(void) {
    spt_graph source = {0}, place = begin();
    used = &place;
    count("new", spt_graph_new(diamond, 2, 3, &place).status == SPT_OK);
    end("new", &place, 2);
    count("source", spt_graph_new(diamond, 3, N, &source).status == SPT_OK);
    place = begin();
    used = &place;
    count("share", spt_graph_share(&place, &source).status == SPT_OK);
    used = NULL;
    count("share from it", has_diamond(&source));
    end("share from it", &place, M);
    count("source", spt_graph_new(diamond, 3, N, &source).status == SPT_OK);
    place = begin();
    used = &place;
    count("share", spt_graph_share(&source, &place).status == SPT_OK);
    end("share to it", &place, 3);
    place = begin();
    used = &place;
    count("turned", spt_graph_turned(&place, &source).status == SPT_OK);
    used = NULL;
    count("turned to it", spt_graph_counts(&source).m == 3);
    end("turned to it", &place, 3);
    place = begin();
    used = &place;
    count("turned", spt_graph_turned(&source, &place).status == SPT_OK);
    used = NULL;
    count("turned from it", spt_graph_pair(&source, 4, 1, 0).dist == 5);
    end("turned from it", &place, M);
    place = begin();
    used = &place;
    count("both ways", spt_graph_both_ways(&place, &source).status == SPT_OK);
    used = NULL;
    count("both ways to it", spt_graph_counts(&source).m == M);
    end("both ways to it", &place, 2 * M);
    place = begin();
    used = &place;
    count("both ways", spt_graph_both_ways(&source, &place).status == SPT_OK);
    used = NULL;
    count("both ways from it", spt_graph_counts(&source).m == 2 * M);
    end("both ways from it", &place, M);
    place = begin();
    used = &place;
    count("load", spt_graph_load(&place, own_bytes, PACKED).status == SPT_OK);
    end("load", &place, M);
    spt_graph_free(&source);
}

/* One place given twice. */
static void twice(void) {
    spt_graph place = begin(), none = {0};
    count("share", spt_graph_share(&place, &place).status == SPT_IN_USE && has_diamond(&place));
    count("turned", spt_graph_turned(&place, &place).status == SPT_IN_USE && has_diamond(&place));
    count("both ways", spt_graph_both_ways(&place, &place).status == SPT_IN_USE && has_diamond(&place));
    count("share of none", spt_graph_share(&none, &none).status == SPT_IN_USE);
    count("turned of none", spt_graph_turned(&none, &none).status == SPT_IN_USE);
    count("none", spt_graph_counts(&none).status == SPT_NO_GRAPH && spt_graph_free(&none) == SPT_OK);
    count("free", spt_graph_free(&place) == SPT_OK && spt_graph_free(&other) == SPT_OK);
}

int main(void) {
    queries();
    changes();
    twice();
    return finish();
}
