/* Each allocation of each call refused in turn: the call tells SPT_MEMORY and leaves what isn't done, or went on without and is
 * right; and no block is left. And how many blocks a call for a near target takes. Link with -Wl,--wrap=malloc,--wrap=realloc,--wrap=free. */
#include "count.h"
#include "spt.h"

#include <stdlib.h>
#include <string.h>

#define N 2001
#define M 4000
#define K 3

void *__real_malloc(size_t bytes);
void *__real_realloc(void *at, size_t bytes);
void __real_free(void *at);
void *__wrap_malloc(size_t bytes);
void *__wrap_realloc(void *at, size_t bytes);
void __wrap_free(void *at);

/* How many allocations come before the one that is refused, below 0 for none; blocks taken and not given back; allocations. */
static long before_refusal = -1, blocks, requests;

static int refused(void) {
    requests++;
    return before_refusal >= 0 && before_refusal-- == 0;
}

void *__wrap_malloc(size_t bytes) {
    if (refused()) return NULL;
    blocks++;
    return __real_malloc(bytes);
}

void *__wrap_realloc(void *at, size_t bytes) {
    if (refused()) return NULL;
    blocks += at == NULL;
    return __real_realloc(at, bytes);
}

void __wrap_free(void *at) {
    blocks -= at != NULL;
    __real_free(at);
}

static spt_arc arcs[M], read_arcs[M], no_arcs[M];
static uint64_t dist[K * N], right_dist[K * N], no_dist[K * N];
static uint32_t pred[K * N], right_pred[K * N], no_pred[K * N];
static const uint32_t sources[K] = {1, 7, N};
static char text[M * 24 + 32];
static size_t bytes;

static void make_graph(void) {
    bytes = (size_t)sprintf(text, "p sp %d %d\n", N, M);
    for (uint32_t i = 0; i < M; i++) {
        arcs[i] = (spt_arc){1 + i * 7919 % N, 1 + i * 104729 % N, 1 + i % 97};
        unsigned tail = arcs[i].tail, head = arcs[i].head, len = arcs[i].len;
        bytes += (size_t)sprintf(text + bytes, "a %u %u %u\n", tail, head, len);
    }
    memset(no_dist, 7, sizeof no_dist);
    memset(no_pred, 7, sizeof no_pred);
}

/* Whether the first `done` trees stand, and the places beyond are as they were. */
static int stand(size_t done) {
    size_t held = done * N, left = (K - done) * N;
    return !memcmp(dist, right_dist, held * sizeof *dist) && !memcmp(pred, right_pred, held * sizeof *pred)
        && !memcmp(dist + held, no_dist + held, left * sizeof *dist) && !memcmp(pred + held, no_pred + held, left * sizeof *pred);
}

static uint32_t one_tree(int *right) {
    spt_answer told = spt_tree(arcs, M, N, sources[0], 50, dist, N, pred, N);
    *right = stand(told.status == SPT_OK);
    return told.status;
}

static uint32_t several_trees(int *right) {
    spt_batch told = spt_trees(arcs, M, N, sources, K, 50, dist, K * N, pred, K * N);
    *right = stand(told.done) && (told.status != SPT_OK || told.done == K);
    return told.status;
}

static uint32_t one_pair(int *right) {
    spt_found told = spt_pair(arcs, M, N, sources[1], N, 50);
    int found = told.dist == right_dist[2 * N - 1] && told.pred == right_pred[2 * N - 1];
    *right = told.status == SPT_OK ? found : told.dist == 0 && told.pred == 0;
    return told.status;
}

static uint32_t a_check(int *right) {
    spt_answer told = spt_check(arcs, M, N, sources[0], right_dist, N, right_pred, N);
    *right = told.vertex == 0;
    return told.status;
}

static uint32_t a_kept_graph(int *right) {
    spt_graph graph = {0}, other = {0};
    spt_batch told = {0};
    uint32_t status = spt_graph_new(arcs, M, N, &graph).status;
    if (status == SPT_OK) status = spt_graph_share(&graph, &other).status;
    if (status == SPT_OK) {
        told = spt_graph_trees(&other, sources, K, 50, dist, K * N, pred, K * N);
        status = told.status;
    }
    *right = stand(told.done) && (status != SPT_OK || told.done == K);
    spt_graph_free(&graph);
    spt_graph_free(&other);
    return status;
}

static uint32_t a_kept_pair(int *right) {
    spt_graph graph = {0};
    spt_found told = {0};
    uint32_t status = spt_graph_new(arcs, M, N, &graph).status;
    if (status == SPT_OK) {
        told = spt_graph_pair(&graph, sources[1], N, 50);
        status = told.status;
    }
    int found = told.dist == right_dist[2 * N - 1] && told.pred == right_pred[2 * N - 1];
    *right = status == SPT_OK ? found && spt_graph_counts(&graph).m == M : told.dist == 0 && told.pred == 0;
    spt_graph_free(&graph);
    return status;
}

/* Each call about a graph that is kept, with its lists as it leaves them; and they are as they were where it is refused. */
static spt_graph kept;
static uint64_t near_dist[N], right_near[N], block[K * K], right_block[K * K];
static uint32_t near_pred[N], right_near_pred[N], near_root[N], right_near_root[N];

/* A place of its own for a call, since what a call keeps behind its place is freed with it. */
static spt_graph own(void) {
    spt_graph place = {0};
    spt_graph_share(&kept, &place);
    return place;
}

/* Frees it, and returns the status: without a graph there was no memory for the place. */
static uint32_t freed(spt_graph *place, uint32_t status) {
    spt_graph_free(place);
    return status == SPT_NO_GRAPH ? SPT_MEMORY : status;
}

static int same_block(size_t rows) {
    size_t held = rows * K * sizeof *block;
    return !memcmp(block, right_block, held) && !memcmp((char *)block + held, (char *)no_dist + held, sizeof block - held);
}

static uint32_t a_part(int *right) {
    memcpy(near_dist, no_dist, sizeof near_dist);
    memcpy(near_pred, no_pred, sizeof near_pred);
    spt_graph place = own();
    spt_answer told = spt_graph_within(&place, sources[0], 900, 50, near_dist, N, near_pred, N);
    told.status = freed(&place, told.status);
    int all = told.status != SPT_OK;
    for (size_t v = 0; v < N; v++) {
        int near = right_dist[v] <= 900;
        uint64_t wanted = near ? right_dist[v] : SPT_UNREACHED;
        all = all && !(near_dist[v] != no_dist[v] || near_pred[v] != no_pred[v]);
        if (told.status == SPT_OK && (near_dist[v] != wanted || near_pred[v] != (near ? right_pred[v] : 0))) return *right = 0, told.status;
    }
    *right = (told.status == SPT_OK || all) && spt_graph_counts(&kept).m == M;
    return told.status;
}

static uint32_t a_list(int *right) {
    memcpy(near_dist, no_dist, sizeof near_dist);
    memcpy(near_pred, no_pred, sizeof near_pred);
    memcpy(near_root, no_pred, sizeof near_root);
    spt_graph place = own();
    spt_part told = spt_graph_part(&place, sources[0], 900, near_root, N, near_dist, N, near_pred, N);
    told.status = freed(&place, told.status);
    size_t at = 0;
    int all = 1;
    for (size_t v = 0; v < N && told.status == SPT_OK; v++) {
        if (right_dist[v] > 900) continue;
        all = all && near_root[at] == v + 1 && near_dist[at] == right_dist[v] && near_pred[at] == right_pred[v];
        at++;
    }
    size_t left = N - at;
    *right = all && told.count == at && !memcmp(near_dist + at, no_dist + at, left * sizeof *near_dist)
        && !memcmp(near_pred + at, no_pred + at, left * sizeof *near_pred) && !memcmp(near_root + at, no_pred + at, left * sizeof *near_root);
    return told.status;
}

static uint32_t a_forest(int *right) {
    memcpy(near_dist, no_dist, sizeof near_dist);
    memcpy(near_pred, no_pred, sizeof near_pred);
    memcpy(near_root, no_pred, sizeof near_root);
    spt_graph place = own();
    spt_answer told = spt_graph_nearest(&place, sources, K, SPT_NO_LIMIT, 50, near_dist, N, near_pred, N, near_root, N);
    told.status = freed(&place, told.status);
    int is_done = told.status == SPT_OK;
    *right = !memcmp(near_dist, is_done ? right_near : no_dist, sizeof near_dist)
        && !memcmp(near_pred, is_done ? right_near_pred : no_pred, sizeof near_pred)
        && !memcmp(near_root, is_done ? right_near_root : no_pred, sizeof near_root);
    return told.status;
}

static uint32_t a_matrix(int *right) {
    memcpy(block, no_dist, sizeof block);
    spt_graph place = own();
    spt_batch told = spt_graph_matrix(&place, sources, K, sources, K, 50, block, K * K);
    told.status = freed(&place, told.status);
    *right = same_block(told.done) && (told.status == SPT_OK) == (told.done == K);
    return told.status;
}

/* From sources[1]: no route, one to itself, and the one to the farthest vertex, whose vertices these are. */
static uint32_t targets[K], right_route[N];
static size_t right_count;

static uint32_t a_route(int *right) {
    spt_graph place = own();
    spt_route told = spt_graph_route(&place, sources[1], targets[2], pred, N);
    told.status = freed(&place, told.status);
    size_t held = told.status == SPT_OK ? right_count : 0;
    *right = told.count == held && told.dist == (held ? right_dist[N + targets[2] - 1] : 0)
        && !memcmp(pred, right_route, held * sizeof *pred) && !memcmp(pred + held, no_pred + held, (N - held) * sizeof *pred);
    return told.status;
}

static uint32_t several_routes(int *right) {
    const uint64_t wanted[2 * K] = {SPT_UNREACHED, 0, right_dist[N + targets[2] - 1], 0, 1, 1 + right_count};
    memcpy(block, no_dist, sizeof block);
    spt_graph place = own();
    spt_answer told = spt_graph_routes(&place, sources[1], targets, K, block, K, block + K, K, pred, K * N);
    told.status = freed(&place, told.status);
    size_t held = told.status == SPT_OK ? 1 + right_count : 0, put = held ? sizeof wanted : 0;
    int same = !held || (pred[0] == sources[1] && !memcmp(pred + 1, right_route, right_count * sizeof *pred));
    *right = same && !memcmp(pred + held, no_pred + held, (K * N - held) * sizeof *pred)
        && !memcmp(block, wanted, put) && !memcmp((char *)block + put, (char *)no_dist + put, sizeof block - put);
    return told.status;
}

static uint8_t packed[4 * (N + 2 * M + 9)], room[sizeof packed];

static uint32_t a_packed_graph(int *right) {
    spt_graph place = own();
    memset(room, 7, sizeof room);
    spt_saved told = spt_graph_save(&place, room, sizeof room);
    uint8_t first = room[0];
    *right = told.status == SPT_OK ? told.count == sizeof room && !memcmp(room, packed, sizeof room) : told.count == 0 && first == 7;
    return freed(&place, told.status);
}

static uint32_t a_loaded_graph(int *right) {
    spt_graph place = {0};
    spt_packed told = spt_graph_load(&place, packed, sizeof packed);
    spt_counts found = spt_graph_counts(&place);
    *right = told.status == SPT_OK ? told.m == M && found.m == M : told.m == 0 && told.byte == 0 && found.status == SPT_NO_GRAPH;
    return freed(&place, told.status);
}

static uint32_t a_turned_graph(int *right) {
    spt_graph place = own(), turned = {0};
    spt_answer told = spt_graph_turned(&turned, &place);
    *right = (told.status == SPT_OK) == (spt_graph_counts(&turned).m == M);
    spt_graph_free(&turned);
    return freed(&place, told.status);
}

static uint32_t a_graph_both_ways(int *right) {
    spt_graph place = own(), streets = {0};
    spt_answer told = spt_graph_both_ways(&streets, &place);
    *right = (told.status == SPT_OK) == (spt_graph_counts(&streets).m == 2 * M);
    spt_graph_free(&streets);
    return freed(&place, told.status);
}

static void near_calls(void) {
    count("a graph is kept", spt_graph_new(arcs, M, N, &kept).status == SPT_OK);
    spt_answer nearest = spt_graph_nearest(&kept, sources, K, SPT_NO_LIMIT, 50, right_near, N, right_near_pred, N, right_near_root, N);
    int right = nearest.status == SPT_OK;
    for (size_t v = 0; v < N; v++)
        for (size_t k = 0; k < K; k++) right = right && right_near[v] <= right_dist[k * N + v];
    count("the nearest with ample memory", right);
    for (size_t k = 0; k < K; k++)
        for (size_t t = 0; t < K; t++) right_block[k * K + t] = right_dist[k * N + sources[t] - 1];
    targets[0] = sources[0], targets[1] = targets[2] = sources[1];
    for (uint32_t v = 1; v <= N; v++)
        if (right_dist[N + v - 1] != SPT_UNREACHED && right_dist[N + v - 1] > right_dist[N + targets[2] - 1]) targets[2] = v;
    for (uint32_t v = targets[2]; v; v = right_pred[N + v - 1]) right_count++;
    size_t at = right_count;
    for (uint32_t v = targets[2]; v; v = right_pred[N + v - 1]) right_route[--at] = v;
    count("a long route, and none", right_count > 100 && right_route[0] == sources[1] && right_dist[N + targets[0] - 1] == SPT_UNREACHED);
}

/* Fans in a chain: each bucket has the FAN heads of one vertex, and a run that goes on to the last of them takes many blocks. A target that lies
 * near takes few. */
static void near_targets(void) {
    enum { FAN = 9, FEW = 50 };
    static spt_arc fans[N - 1];
    for (uint32_t v = 2; v <= N; v++) fans[v - 2] = (spt_arc){(v - 2) / FAN * FAN + 1, v, 1000};
    uint64_t farthest = ((N - 2) / FAN + 1) * 1000;
    spt_graph graph = {0};
    count("fans in a chain", spt_graph_new(fans, N - 1, N, &graph).status == SPT_OK);
    long start = requests;
    spt_batch tree = spt_graph_trees(&graph, sources, 1, 1, dist, N, pred, N);
    count("many for a whole tree", tree.status == SPT_OK && requests - start >= 2 * FEW);
    start = requests;
    spt_found near = spt_graph_pair(&graph, 1, 3, 1);
    count("few for a near target of a kept graph", near.dist == 1000 && near.pred == 1 && requests - start < FEW);
    start = requests;
    near = spt_pair(fans, N - 1, N, 1, 3, 1);
    count("few for a near target", near.dist == 1000 && near.pred == 1 && requests - start < FEW);
    start = requests;
    spt_found last = spt_graph_pair(&graph, 1, N, 1);
    count("all for the last", last.dist == farthest && last.pred == (N - 2) / FAN * FAN + 1 && requests - start >= 2 * FEW);
    spt_graph_free(&graph);
}

static uint32_t a_text(int *right) {
    spt_text told = spt_gr((const uint8_t *)text, bytes, read_arcs, M);
    *right = !memcmp(read_arcs, told.status == SPT_OK ? arcs : no_arcs, sizeof arcs);
    return told.status == SPT_BAD_TEXT && told.kind == 8 ? SPT_MEMORY : told.status;
}

static void refuse_each(const char *name, uint32_t (*call)(int *right)) {
    long number = 0, start = blocks;
    uint32_t status = SPT_MEMORY;
    for (int met = 1; met; number++) {
        int right;
        memcpy(dist, no_dist, sizeof dist);
        memcpy(pred, no_pred, sizeof pred);
        memset(read_arcs, 0, sizeof read_arcs);
        before_refusal = number;
        status = call(&right);
        met = before_refusal < 0;
        before_refusal = -1;
        count(name, right && blocks == start && (status == SPT_OK || (met && status == SPT_MEMORY)));
    }
    count(name, status == SPT_OK && number > 1);
    printf("%s: %ld refusals\n", name, number - 1);
}

int main(void) {
    make_graph();
    spt_batch told = spt_trees(arcs, M, N, sources, K, 50, right_dist, K * N, right_pred, K * N);
    count("with ample memory", told.status == SPT_OK && told.done == K);
    refuse_each("spt_tree", one_tree);
    refuse_each("spt_trees", several_trees);
    refuse_each("spt_pair", one_pair);
    refuse_each("spt_check", a_check);
    refuse_each("spt_graph_new, share and trees", a_kept_graph);
    refuse_each("spt_graph_new and spt_graph_pair", a_kept_pair);
    refuse_each("spt_gr", a_text);
    near_targets();
    near_calls();
    refuse_each("spt_graph_within", a_part);
    refuse_each("spt_graph_part", a_list);
    refuse_each("spt_graph_nearest", a_forest);
    refuse_each("spt_graph_matrix", a_matrix);
    refuse_each("spt_graph_route", a_route);
    refuse_each("spt_graph_routes", several_routes);
    spt_saved saved = spt_graph_save(&kept, packed, sizeof packed);
    count("packed with ample memory", saved.status == SPT_OK && saved.count == sizeof packed);
    refuse_each("spt_graph_save", a_packed_graph);
    refuse_each("spt_graph_load", a_loaded_graph);
    refuse_each("spt_graph_turned", a_turned_graph);
    refuse_each("spt_graph_both_ways", a_graph_both_ways);
    spt_graph_free(&kept);
    count("no block is left", blocks == 0);
    return finish();
}
