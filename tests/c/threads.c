/* One place in several threads at once: each call is right, or reports SPT_IN_USE and has changed nothing. Under the address
 * sanitizer no block is left, and none is used after its end. */
#include "count.h"
#include "spt.h"

#include <pthread.h>
#include <sched.h>
#include <string.h>

#define N 1501
#define M 6000
#define THREADS 4
#define ROUNDS 400

static spt_arc arcs[M], few[2] = {{1, 2, 7}, {2, 3, 1}};
static uint64_t right_dist[N];
static uint32_t right_pred[N];

/* The place that all threads use, and how often a call of a thread found it in use, was right, and was neither. */
static spt_graph shared;

typedef struct tally {
    long in_use, right, none, wrong;
} tally;

static void make_arcs(void) {
    for (uint32_t i = 0; i < M; i++)
        arcs[i] = (spt_arc){1 + i * 7919 % N, 1 + i * 104729 % N, 1 + i * 31 % 97};
    spt_answer told = spt_tree(arcs, M, N, 1, 0, right_dist, N, right_pred, N);
    count("spt_tree", told.status == SPT_OK);
}

/* Counts a call by its status; a call that was made must be right, and one that wasn't must have left all as it was. */
static void add(tally *sum, uint32_t status, int is_right, int is_unchanged) {
    if (status == SPT_OK && is_right) sum->right++;
    else if (status == SPT_IN_USE && is_unchanged) sum->in_use++;
    else if (status == SPT_NO_GRAPH && is_unchanged) sum->none++;
    else sum->wrong++;
}

static int all_are(const uint64_t *dist, const uint32_t *pred, uint64_t d, uint32_t p) {
    int same = 1;
    for (int i = 0; i < N; i++) same = same && dist[i] == d && pred[i] == p;
    return same;
}

/* Queries of the shared place. */
static void query(tally *sum, uint32_t turn) {
    uint32_t target = 1 + turn * 37 % N, one = 1;
    spt_found pair = spt_graph_pair(&shared, 1, target, 0);
    int is_right = pair.dist == right_dist[target - 1] && pair.pred == right_pred[target - 1];
    add(sum, pair.status, is_right, pair.dist == 0 && pair.pred == 0);
    spt_counts counts = spt_graph_counts(&shared);
    add(sum, counts.status, counts.n == N && counts.m == M, counts.n == 0 && counts.m == 0);
    if (turn % 8) return;
    uint64_t dist[N];
    uint32_t pred[N];
    for (int i = 0; i < N; i++) dist[i] = 9, pred[i] = 8;
    spt_batch trees = spt_graph_trees(&shared, &one, 1, 0, dist, N, pred, N);
    int is_tree = !memcmp(dist, right_dist, sizeof dist) && !memcmp(pred, right_pred, sizeof pred);
    add(sum, trees.status, is_tree && trees.done == 1, trees.done == 0 && all_are(dist, pred, 9, 8));
}

/* Fills a place of the thread's own from the shared one. */
static void share(tally *sum, spt_graph *own) {
    spt_graph before = *own;
    spt_answer told = spt_graph_share(&shared, own);
    int is_full = own->state == 1 && spt_graph_counts(own).m == M && spt_graph_pair(own, 1, N, 0).dist == right_dist[N - 1];
    int is_of_none = told.status == SPT_OK && own->state == 0;
    add(sum, is_of_none ? (uint32_t)SPT_NO_GRAPH : told.status, is_full, is_of_none || !memcmp(&before, own, sizeof before));
}

typedef enum job { QUERY, SHARE, FREE, REPLACE } job;

typedef struct worker {
    pthread_t thread;
    job job;
    int seed;
    tally sum;
} worker;

static void *work(void *given) {
    worker *mine = given;
    spt_graph own = {0};
    for (int turn = 0; turn < ROUNDS; turn++) {
        switch (mine->job) {
        case QUERY: query(&mine->sum, (uint32_t)(turn + 100 * mine->seed)); break;
        case SHARE:
            share(&mine->sum, &own);
            if (turn % 3) break;
            uint32_t status = spt_graph_free(&own);
            add(&mine->sum, status, own.state == 0, 0);
            break;
        case FREE: add(&mine->sum, spt_graph_free(&shared), 1, 1); break;
        case REPLACE: add(&mine->sum, spt_graph_new(arcs, M, N, &shared).status, 1, 1); break;
        }
        if (turn % 16 == 0) sched_yield();
    }
    mine->sum.wrong += spt_graph_free(&own) != SPT_OK;
    return NULL;
}

/* Runs these jobs at once on the shared place, which keeps the graph before, and returns what came of each. */
static void run(const char *name, const job jobs[THREADS], int may_be_empty) {
    worker workers[THREADS];
    memset(workers, 0, sizeof workers);
    count(name, spt_graph_new(arcs, M, N, &shared).status == SPT_OK);
    int started = 0;
    for (; started < THREADS; started++) {
        workers[started].job = jobs[started];
        workers[started].seed = started;
        if (pthread_create(&workers[started].thread, NULL, work, &workers[started])) break;
    }
    count(name, started == THREADS);
    tally all = {0, 0, 0, 0};
    for (int i = 0; i < started; i++) {
        count(name, !pthread_join(workers[i].thread, NULL));
        all.in_use += workers[i].sum.in_use;
        all.right += workers[i].sum.right;
        all.none += workers[i].sum.none;
        all.wrong += workers[i].sum.wrong;
    }
    count(name, all.wrong == 0);
    count(name, may_be_empty || all.none == 0);
    count(name, all.right > 0);
    if (all.wrong || (all.none && !may_be_empty)) printf("%s: %ld right, %ld in use, %ld without a graph, %ld wrong\n", name, all.right, all.in_use, all.none, all.wrong);
    count(name, spt_graph_free(&shared) == SPT_OK && spt_graph_counts(&shared).status == SPT_NO_GRAPH);
}

/* A place is as good as new afterwards. */
static void afterwards(void) {
    count("new", spt_graph_new(few, 2, 3, &shared).status == SPT_OK && spt_graph_pair(&shared, 1, 3, 0).dist == 8);
    count("free", spt_graph_free(&shared) == SPT_OK && spt_graph_free(&shared) == SPT_OK);
}

int main(void) {
    make_arcs();
    run("queries", (const job[]){QUERY, QUERY, QUERY, QUERY}, 0);
    run("shares", (const job[]){SHARE, SHARE, SHARE, SHARE}, 0);
    run("shares beside queries", (const job[]){SHARE, SHARE, QUERY, QUERY}, 0);
    run("new graphs beside queries", (const job[]){REPLACE, SHARE, QUERY, QUERY}, 0);
    run("frees beside queries", (const job[]){FREE, REPLACE, QUERY, SHARE}, 1);
    afterwards();
    return finish();
}
