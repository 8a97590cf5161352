/* spt: shortest-path trees for C, by the engine that the repository proves.
 *
 * Link with libspt.a or libspt.so (pkg-config spt). The library uses malloc, realloc, free, memcpy, memmove and memset of the
 * C library, and nothing else. It has no global data, starts no thread, opens no file and writes no text.
 *
 * Vertices are numbered from 1 to n, and vertex v has index v - 1 in a list. Every call tests all its arguments, and reports in
 * a status what it refuses. The caller must ensure what no call can test:
 *   - A pointer is aligned and not null, and points to at least the stated number of places. With 0 places any pointer is
 *     allowed, including NULL.
 *   - The lists that a call writes overlap no other list of the call.
 *   - During the call, no other thread writes the call's lists, or reads those that the call writes.
 *   - A place for a graph (spt_graph) started as zeros, and only this library has written it.
 *
 * Any calls may run at the same time, in any threads, even with the same arcs; but a call that is given a place which another call
 * is using changes nothing and returns SPT_IN_USE. So each thread that queries a graph needs a place of its own, which
 * spt_graph_share fills with the same graph. No call waits for another.
 *
 * A call that takes a `const spt_graph *` leaves the place as it was, and doesn't write a place that keeps no graph. If the place
 * keeps a graph, the call uses the place until it returns. Behind the place a call may keep memory for the next one
 * (spt_graph_pair).
 *
 * A program or a language that calls the functions by their symbols, without this header, must pass no null pointer, not even
 * with 0 places. */
#ifndef SPT_H
#define SPT_H

#include <stdbool.h>
#include <stddef.h>
#include <stdint.h>

/* The version of this header. SPT_VERSION_NUMBER grows with it; spt_version() returns the version of the library. */
#define SPT_VERSION "1.6.0"
#define SPT_VERSION_MAJOR 1
#define SPT_VERSION_MINOR 6
#define SPT_VERSION_PATCH 0
#define SPT_VERSION_NUMBER (SPT_VERSION_MAJOR * 10000 + SPT_VERSION_MINOR * 100 + SPT_VERSION_PATCH)

/* The number in the soname, libspt.so.1. It changes only when programs that are already linked would no longer work. */
#define SPT_ABI 1

#ifdef __cplusplus
extern "C" {
#endif

/* An arc from tail to head. Its length is from 1 to 4294967295, in any unit. */
typedef struct spt_arc {
    uint32_t tail, head, len;
} spt_arc;

/* The status of a call. The fields `status` below hold one of these. */
typedef enum spt_status {
    SPT_OK = 0,             /* the lists hold everything that was asked for */
    SPT_BAD_SIZE = 1,       /* n is 0 or above 4294967294, or a list has too few places */
    SPT_BAD_DELTA = 2,      /* delta is above spt_reach(n) */
    SPT_BAD_ARC = 3,        /* arcs[index] leads from or to no vertex, or has length 0; the arcs before it are valid */
    SPT_NO_SUCH_VERTEX = 4, /* sources[index] is 0 or above n; those before it are vertices */
    SPT_TOO_FAR = 5,        /* some least length is above spt_reach(n): vertex is the smallest vertex with such a length */
    SPT_MEMORY = 6,         /* malloc or realloc failed; the call has freed what it had allocated */
    SPT_BAD_TEXT = 7,       /* the text spells no graph; kind, letter, and line or byte describe its first error */
    SPT_LONG_TEXT = 8,      /* the text has more than 2^62 bytes */
    SPT_WRONG = 9,          /* the lists hold a different tree: vertex is the smallest vertex at which they differ */
    SPT_NO_GRAPH = 10,      /* the place keeps no graph */
    SPT_BAD_LIMIT = 11,     /* limit is above spt_reach(n). Since 1.2 */
    SPT_IN_USE = 12         /* another call is using the place, and this call has changed nothing. Since 1.5 */
} spt_status;

/* Returns a status in a few words, for messages, or "unknown status" for any other number. */
static inline const char *spt_status_text(uint32_t status) {
    switch (status) {
    case SPT_OK: return "ok";
    case SPT_BAD_SIZE: return "bad number of vertices, or too few places";
    case SPT_BAD_DELTA: return "delta above the greatest distance";
    case SPT_BAD_ARC: return "bad arc";
    case SPT_NO_SUCH_VERTEX: return "no such vertex";
    case SPT_TOO_FAR: return "a vertex is too far";
    case SPT_MEMORY: return "no memory";
    case SPT_BAD_TEXT: return "bad text of a graph";
    case SPT_LONG_TEXT: return "text too long";
    case SPT_WRONG: return "not the shortest-path tree";
    case SPT_NO_GRAPH: return "no graph is kept";
    case SPT_BAD_LIMIT: return "limit above the greatest distance";
    case SPT_IN_USE: return "place in use by another call";
    default: return "unknown status";
    }
}

/* Returns the version of the library, as SPT_VERSION_NUMBER gives that of the header. Since 1.1. */
uint32_t spt_version(void);

/* The distance of a vertex that no path reaches; its predecessor is 0. */
#define SPT_UNREACHED UINT64_MAX

/* What spt_graph_matrix writes for a target that is too far. Since 1.2. */
#define SPT_BEYOND (UINT64_MAX - 1)

/* The limit of spt_graph_nearest that leaves nothing out. Since 1.2. */
#define SPT_NO_LIMIT UINT64_MAX

/* The result of a call. vertex is set with SPT_TOO_FAR and SPT_WRONG, and index (from 0) with SPT_BAD_ARC and
 * SPT_NO_SUCH_VERTEX; otherwise they are 0. */
typedef struct spt_answer {
    uint32_t status, vertex;
    uint64_t index;
} spt_answer;

/* The result of a call for several sources: the first `done` of them have their trees. If that isn't all of them, status, vertex
 * and index say why the next one has no tree, or why the call was refused. */
typedef struct spt_batch {
    uint32_t status, vertex;
    uint64_t index, done;
} spt_batch;

/* Returns the greatest distance in a graph of n vertices: 17592186044414 for n up to 1048574, 1099511627774 up to 16777214,
 * 68719476734 up to 268435454, 4294967294 up to 4294967294; and 0 if n is 0 or 4294967295. */
uint64_t spt_reach(uint32_t n);

/* Finds the shortest-path tree from source in the graph of n vertices with these m arcs, which may come in any order; parallel
 * arcs and loops are allowed. dist[v - 1] becomes the least length of a path from source to v, and pred[v - 1] the vertex before
 * v on such a path, the smallest-numbered one if there are several; both are 0 for source.
 *
 * delta is ignored, except that one above spt_reach(n) is refused (SPT_BAD_DELTA): pass 0. The call finds the width of its buckets
 * itself.
 *
 * dist and pred each need at least n places. If the status isn't SPT_OK they are unchanged, and with SPT_NO_SUCH_VERTEX index is
 * 0. If several things are wrong, the first of size, delta, source and arcs is reported. */
spt_answer spt_tree(const spt_arc *arcs, size_t m, uint32_t n, uint32_t source, uint64_t delta,
                    uint64_t *dist, size_t dist_places, uint32_t *pred, size_t pred_places);

/* Finds the trees from k sources, up to the first that has none. The graph is prepared once, so this takes less time than k
 * calls. The tree of sources[i] starts at dist[i * n] and pred[i * n]; dist and pred each need at least k * n places. After
 * SPT_TOO_FAR and SPT_MEMORY the lists hold the first `done` trees; after any other refusal done is 0. Places after these trees
 * are unchanged. */
spt_batch spt_trees(const spt_arc *arcs, size_t m, uint32_t n, const uint32_t *sources, size_t k, uint64_t delta,
                    uint64_t *dist, size_t dist_places, uint32_t *pred, size_t pred_places);

/* The result for a target. With SPT_OK it has the target's distance and predecessor, as in the tree, or SPT_UNREACHED and 0 if no
 * path reaches the target and no vertex is too far. With SPT_TOO_FAR pred is the smallest vertex that is too far, and the target
 * has no distance up to spt_reach(n); a target that has one is found even if other vertices are too far. index is set with
 * SPT_BAD_ARC; with SPT_NO_SUCH_VERTEX it is 0 for source and 1 for target. A field that the status doesn't use is 0. */
typedef struct spt_found {
    uint32_t status, pred;
    uint64_t dist, index;
} spt_found;

/* Finds one target of source. Once the graph is prepared, the call ends as soon as the target's distance and predecessor are
 * final, so it takes no longer than the tree, and less if the target is near. spt_graph_pair, whose graph is already prepared,
 * then takes far less. */
spt_found spt_pair(const spt_arc *arcs, size_t m, uint32_t n, uint32_t source, uint32_t target, uint64_t delta);

/* Checks whether the first n places of dist and pred hold the tree from source. The status is SPT_OK, SPT_WRONG, or the refusal
 * of spt_tree. The tree is computed again. */
spt_answer spt_check(const spt_arc *arcs, size_t m, uint32_t n, uint32_t source,
                     const uint64_t *dist, size_t dist_places, const uint32_t *pred, size_t pred_places);

/* A place that keeps a graph between calls, prepared once. A place whose bytes are all 0 keeps none, so it starts as
 * `spt_graph graph = {0};`, and from then on only the functions below may write it. It may be moved, for example by memcpy, while no
 * call uses it, but the copy that is left behind must not be used again.
 *
 * From its start to its end a call uses the places that it is given. Each function below that takes a place returns SPT_IN_USE if
 * another call is using the place, or if one place is given twice; then no place and no list has changed. SPT_IN_USE is reported
 * before any other refusal.
 *
 * What a call does to a place that it finds free or in use is proved. That calls in several threads exclude each other, and what one
 * place given twice leads to, is tested: it rests on the processor's atomic exchange of `state`. */
typedef struct spt_graph {
    void *at;
    uint64_t state; /* for the library alone: 0 if the place keeps no graph, 1 if it keeps one, 2 while a call uses it */
} spt_graph;

/* Keeps the graph of n vertices with these m arcs, in place of what was kept. The arcs are copied, which takes about 12 bytes for
 * each arc and 4 for each vertex. The refusals are SPT_IN_USE, SPT_BAD_SIZE (n is 0 or above 4294967294), SPT_BAD_ARC (index is that
 * of the arc) and SPT_MEMORY, tested in this order; after a refusal the place keeps what it kept. */
spt_answer spt_graph_new(const spt_arc *arcs, size_t m, uint32_t n, spt_graph *graph);

/* Keeps the graph of `from` in `to` as well, in place of what that kept; if `from` keeps none, `to` keeps none either. The call
 * allocates a few bytes, and copies no arc. After SPT_IN_USE (one of the places is in use) and SPT_MEMORY both places keep what they
 * kept. Each place has memory of its own for near targets and small parts (spt_graph_pair), so keep a place for each thread rather
 * than one for each call. Threads that fill their places from one place at the same time can get SPT_IN_USE: fill the places before
 * the threads start, or call again. */
spt_answer spt_graph_share(const spt_graph *from, spt_graph *to);

/* Lets the place keep no graph any more, and returns SPT_OK. If another call is using the place, returns SPT_IN_USE, and the place
 * keeps its graph. The graph's memory is freed with the last place that keeps it. A place that keeps none may be freed again. Before
 * 1.5 the function returned nothing.
 *
 * It is proved that the place then keeps none, that no call uses memory which was freed, and that none is freed twice. That all
 * memory is freed in the end is tested, here and after SPT_MEMORY, and isn't proved. */
uint32_t spt_graph_free(spt_graph *graph);

/* Works like spt_trees on the graph that is kept, without testing and sorting its arcs again. The place still keeps the graph,
 * whatever the status is. If it keeps none, the status is SPT_NO_GRAPH, and nothing is changed. */
spt_batch spt_graph_trees(const spt_graph *graph, const uint32_t *sources, size_t k, uint64_t delta,
                          uint64_t *dist, size_t dist_places, uint32_t *pred, size_t pred_places);

/* Works like spt_pair on the graph that is kept. The status is SPT_NO_GRAPH if the place keeps none, and SPT_IN_USE if another call
 * is using it.
 *
 * If the target is near, the call takes little time, however large the graph is: behind the place it keeps 8 bytes for each vertex,
 * which the first such call allocates and later ones use again, until spt_graph_free. spt_graph_within, spt_graph_part,
 * spt_graph_nearest with a limit, spt_graph_matrix, spt_graph_route and spt_graph_routes use them as well. If there is no memory for
 * them the calls do without.
 * Since 1.1; it keeps this memory since 1.3. */
spt_found spt_graph_pair(const spt_graph *graph, uint32_t source, uint32_t target, uint64_t delta);

/* The result of a call for a route. With SPT_OK dist is the target's distance and count the number of vertices on the route, or
 * SPT_UNREACHED and 0 if no path reaches the target and no vertex is too far. With SPT_TOO_FAR vertex is the smallest vertex that is
 * too far, as for spt_pair. With SPT_NO_SUCH_VERTEX index is 0 for source and 1 for target. A field that the status doesn't use is 0.
 * Since 1.6. */
typedef struct spt_route {
    uint32_t status, vertex;
    uint64_t dist, index, count;
} spt_route;

/* Finds the route from source to target in the graph that is kept: the shortest path that takes, read from target backwards, the
 * smallest-numbered vertex each time. vertices[0] is source, vertices[count - 1] is target, and each vertex but the first has the
 * one before it for its predecessor in the tree from source. If target is source, count is 1.
 *
 * If room is less than count, vertices is unchanged and the status is SPT_OK all the same, so a call with room for 0 finds the number.
 * A route has at most n vertices, so there is always room for n. Places after the route are unchanged in any case. The refusals are
 * SPT_NO_GRAPH, SPT_NO_SUCH_VERTEX (source is tested first), SPT_TOO_FAR and SPT_MEMORY; after a refusal vertices is unchanged. A near
 * target takes as little time as with spt_graph_pair. Since 1.6. */
spt_route spt_graph_route(const spt_graph *graph, uint32_t source, uint32_t target, uint32_t *vertices, size_t room);

/* Finds the routes from source to k targets in the graph that is kept, by one search: dist[i] becomes the distance of targets[i], with
 * SPT_UNREACHED and SPT_BEYOND as spt_graph_matrix writes them, and ends[i] the number of vertices on the routes to targets[0] to
 * targets[i] together. The routes stand in vertices, one after another: the route to targets[i] is vertices[ends[i - 1]] to
 * vertices[ends[i] - 1], from vertices[0] on for targets[0]. A target without a route has no vertices.
 *
 * dist and ends each need at least k places. If room is less than ends[k - 1], vertices is unchanged, while dist and ends are written
 * and the status is SPT_OK. Places after the k distances and ends and after the routes are unchanged in any case. The refusals are
 * SPT_NO_GRAPH, SPT_BAD_SIZE (dist or ends has fewer than k places), SPT_NO_SUCH_VERTEX (index is 0 for source and 1 + i for
 * targets[i]) and SPT_MEMORY, tested in this order; after a refusal the lists are unchanged. Since 1.6. */
spt_answer spt_graph_routes(const spt_graph *graph, uint32_t source, const uint32_t *targets, size_t k,
                            uint64_t *dist, size_t dist_places, uint64_t *ends, size_t ends_places, uint32_t *vertices, size_t room);

/* Finds the part of the tree from source that is within limit, in the graph that is kept: dist and pred as spt_tree writes them
 * for each vertex whose least length is at most limit, and SPT_UNREACHED and 0 for every other. Vertices beyond limit have no effect,
 * so the status is never SPT_TOO_FAR. The call goes no farther than limit, so a small part of a large graph takes little time.
 *
 * dist and pred each need at least n places. The refusals are SPT_NO_GRAPH, SPT_BAD_SIZE, SPT_BAD_DELTA, SPT_BAD_LIMIT (limit is
 * above spt_reach(n)), SPT_NO_SUCH_VERTEX (index is 0) and SPT_MEMORY, tested in this order; after a refusal dist and pred are
 * unchanged. Since 1.2. */
spt_answer spt_graph_within(const spt_graph *graph, uint32_t source, uint64_t limit, uint64_t delta,
                            uint64_t *dist, size_t dist_places, uint32_t *pred, size_t pred_places);

/* The number of vertices in a part: with SPT_OK they are listed, and with SPT_BAD_SIZE each list needs a place for each of them. With
 * any other status count is 0. Since 1.3. */
typedef struct spt_part {
    uint32_t status;
    uint64_t count;
} spt_part;

/* Lists the part of the tree from source that is within limit, in the graph that is kept: vertex[0] to vertex[count - 1] become the
 * vertices whose least length is at most limit, source among them, by rising number, and dist[i] and pred[i] what spt_tree writes for
 * vertex[i]. So a small part takes little time, however large the graph is, while spt_graph_within writes n places.
 *
 * If a list has fewer than count places, the status is SPT_BAD_SIZE and count says how many are needed, so a call with 0 places finds
 * the number. The refusals are SPT_NO_GRAPH, SPT_BAD_LIMIT (limit is above spt_reach(n)), SPT_NO_SUCH_VERTEX (source is none),
 * SPT_MEMORY and SPT_BAD_SIZE, tested in this order. If the status isn't SPT_OK the lists are unchanged, and places after the part
 * are in any case. Since 1.3. */
spt_part spt_graph_part(const spt_graph *graph, uint32_t source, uint64_t limit, uint32_t *vertex, size_t vertex_places,
                        uint64_t *dist, size_t dist_places, uint32_t *pred, size_t pred_places);

/* Finds the nearest of k sources for each vertex v of the graph that is kept: dist[v - 1] becomes the least length of a path to v
 * from any source, pred[v - 1] the vertex before v on such a path, the smallest-numbered one if there are several, and root[v - 1]
 * the source to which the predecessors lead back. A source has 0, 0 and itself, even if a path from another source reaches it. The order
 * of the sources and repetitions make no difference; without a source, no vertex is reached. A vertex that no path reaches, or that
 * is beyond limit, has SPT_UNREACHED, 0 and 0; SPT_NO_LIMIT leaves nothing out.
 *
 * dist, pred and root each need at least n places. The refusals are those of spt_graph_within, in the same order, with index that of
 * the source; and, only with SPT_NO_LIMIT, SPT_TOO_FAR: some vertex is farther than spt_reach(n) from every source that leads there,
 * and vertex is the smallest one that an arc reaches from a vertex which isn't. After a refusal the lists are unchanged. Since 1.2. */
spt_answer spt_graph_nearest(const spt_graph *graph, const uint32_t *sources, size_t k, uint64_t limit, uint64_t delta,
                             uint64_t *dist, size_t dist_places, uint32_t *pred, size_t pred_places,
                             uint32_t *root, size_t root_places);

/* Finds the distances of l targets from each of k sources in the graph that is kept: dist[i * l + j] becomes that of targets[j] from
 * sources[i]. It is SPT_UNREACHED if no path reaches the target and no vertex is too far, and SPT_BEYOND if the target has no
 * distance up to spt_reach(n) and some vertex is too far. Each row ends as soon as its targets' distances are final, so near targets
 * take little time.
 *
 * dist needs at least k * l places. After SPT_MEMORY it holds the first `done` rows, and after any other refusal done is 0. Places
 * after these rows are unchanged. The refusals are those of spt_graph_trees, with index k + j for targets[j]; the sources are tested
 * before the targets. Since 1.2. */
spt_batch spt_graph_matrix(const spt_graph *graph, const uint32_t *sources, size_t k, const uint32_t *targets, size_t l,
                           uint64_t delta, uint64_t *dist, size_t dist_places);

/* The numbers of vertices and arcs of the graph that is kept with SPT_OK; both are 0 with SPT_NO_GRAPH and SPT_IN_USE. */
typedef struct spt_counts {
    uint32_t status, n;
    uint64_t m;
} spt_counts;

/* Returns the numbers of vertices and arcs of the graph that is kept. Since 1.1. */
spt_counts spt_graph_counts(const spt_graph *graph);

/* Keeps in the first place the graph of the second with each arc turned round, in place of what was kept: a path to v in the one
 * graph is a path from v in the other, so a query from v finds the paths towards v. The refusals are
 * SPT_IN_USE (one of the places is in use), SPT_NO_GRAPH (`from` keeps none) and SPT_MEMORY; after a refusal both places keep what
 * they kept. Since 1.4. */
spt_answer spt_graph_turned(spt_graph *graph, const spt_graph *from);

/* Works like spt_graph_turned, but the first place then keeps the arcs of `from` and, for each of them, one from its head to its
 * tail of the same length: a loop appears twice, and so does an arc that already had its opposite. A graph of 2147483648 arcs
 * or more is refused with SPT_MEMORY, too. Since 1.4. */
spt_answer spt_graph_both_ways(spt_graph *graph, const spt_graph *from);

/* The result of loading packed bytes: with SPT_OK the numbers of vertices and arcs of their graph, and with SPT_BAD_TEXT their first
 * error. A field that the status doesn't use is 0. Since 1.4. */
typedef struct spt_packed {
    uint32_t status, n;
    uint64_t m;
    uint32_t kind;   /* 5 OutOfRange, 6 TooMany, 7 TooFew, 10 OtherForm, 11 OtherSum */
    uint32_t letter; /* the field out of range: 'N' or 'M' a count, 'E' the end of a row, 'V' a head, 'W' a length; otherwise 0 */
    uint64_t byte;   /* the number of bytes before the word with the error */
} spt_packed;

/* Keeps the graph that was packed into these bytes (by spt_graph_save or `spt pack`), in place of what was kept. All bytes
 * are checked: either the graph is the one that was packed, or the status is SPT_BAD_TEXT and the first error is the one that `spt`
 * would report. The other refusals are SPT_IN_USE, SPT_LONG_TEXT and SPT_MEMORY; after a refusal the place keeps what it kept. Since 1.4. */
spt_packed spt_graph_load(spt_graph *graph, const uint8_t *bytes, size_t len);

/* The number of bytes of a packed graph: with SPT_OK they are written, and with SPT_BAD_SIZE there is no room for them. With any other
 * status count is 0. Since 1.4. */
typedef struct spt_saved {
    uint32_t status;
    uint64_t count;
} spt_saved;

/* Packs the graph that is kept: bytes[0] to bytes[count - 1] become the 4 * (n + 2 * m + 9) bytes that `spt pack` writes, the same
 * for each order of the arcs. If there is room for fewer, the status is SPT_BAD_SIZE and count says how many are needed, so a call
 * with room for 0 finds the number. The refusals are SPT_NO_GRAPH, SPT_BAD_SIZE and SPT_MEMORY (the call takes memory for the bytes
 * once more), tested in this order; a graph of more than 1073741824 arcs can't be packed, and is SPT_BAD_SIZE with count 0. If the
 * status isn't SPT_OK the bytes are unchanged, and those behind the packed graph are in any case. Since 1.4. */
spt_saved spt_graph_save(const spt_graph *graph, uint8_t *bytes, size_t room);

/* The result of reading a text: with SPT_OK and SPT_BAD_SIZE the numbers of vertices and arcs of its graph, and with SPT_BAD_TEXT its
 * first error. A field that the status doesn't use is 0. */
typedef struct spt_text {
    uint32_t status, n;
    uint64_t m;
    uint32_t kind;   /* 1 LongLine, 2 BadLine, 3 NoProblem, 4 SecondProblem, 5 OutOfRange, 6 TooMany, 7 TooFew, 8 Memory */
    uint32_t letter; /* the field out of range: 'U' or 'V' a vertex, 'W' a length, 'N' or 'M' a count; otherwise 0 */
    uint64_t line;   /* the number of the line, from 1 */
} spt_text;

/* Reads the text of a .gr file (p sp N M, then lines a TAIL HEAD LENGTH) and writes its arcs, in the order of their lines, from
 * arcs[0] on. If there are fewer than m places the status is SPT_BAD_SIZE, and n and m say what is needed, so a first call with
 * 0 places finds the sizes. If the status isn't SPT_OK, arcs is unchanged. */
spt_text spt_gr(const uint8_t *text, size_t bytes, spt_arc *arcs, size_t places);

/* ## NULL with 0 places
 *
 * The library's own functions take no null pointer. For a list with 0 places, a call by its name therefore passes the address of
 * a place that stays unchanged. The names of these calls are macros that do this. */

static inline spt_answer spt_tree_or_null(const spt_arc *arcs, size_t m, uint32_t n, uint32_t source, uint64_t delta,
                                          uint64_t *dist, size_t dist_places, uint32_t *pred, size_t pred_places) {
    spt_arc no_arc = {0, 0, 0};
    uint64_t no_dist = 0;
    uint32_t no_pred = 0;
    return spt_tree(m ? arcs : &no_arc, m, n, source, delta,
                    dist_places ? dist : &no_dist, dist_places, pred_places ? pred : &no_pred, pred_places);
}

static inline spt_batch spt_trees_or_null(const spt_arc *arcs, size_t m, uint32_t n, const uint32_t *sources, size_t k,
                                          uint64_t delta, uint64_t *dist, size_t dist_places, uint32_t *pred,
                                          size_t pred_places) {
    spt_arc no_arc = {0, 0, 0};
    uint64_t no_dist = 0;
    uint32_t no_source = 0, no_pred = 0;
    return spt_trees(m ? arcs : &no_arc, m, n, k ? sources : &no_source, k, delta,
                     dist_places ? dist : &no_dist, dist_places, pred_places ? pred : &no_pred, pred_places);
}

static inline spt_found spt_pair_or_null(const spt_arc *arcs, size_t m, uint32_t n, uint32_t source, uint32_t target,
                                         uint64_t delta) {
    spt_arc no_arc = {0, 0, 0};
    return spt_pair(m ? arcs : &no_arc, m, n, source, target, delta);
}

static inline spt_answer spt_check_or_null(const spt_arc *arcs, size_t m, uint32_t n, uint32_t source,
                                           const uint64_t *dist, size_t dist_places, const uint32_t *pred, size_t pred_places) {
    spt_arc no_arc = {0, 0, 0};
    uint64_t no_dist = 0;
    uint32_t no_pred = 0;
    return spt_check(m ? arcs : &no_arc, m, n, source,
                     dist_places ? dist : &no_dist, dist_places, pred_places ? pred : &no_pred, pred_places);
}

static inline spt_answer spt_graph_new_or_null(const spt_arc *arcs, size_t m, uint32_t n, spt_graph *graph) {
    spt_arc no_arc = {0, 0, 0};
    return spt_graph_new(m ? arcs : &no_arc, m, n, graph);
}

static inline spt_batch spt_graph_trees_or_null(const spt_graph *graph, const uint32_t *sources, size_t k, uint64_t delta,
                                                uint64_t *dist, size_t dist_places, uint32_t *pred, size_t pred_places) {
    uint64_t no_dist = 0;
    uint32_t no_source = 0, no_pred = 0;
    return spt_graph_trees(graph, k ? sources : &no_source, k, delta,
                           dist_places ? dist : &no_dist, dist_places, pred_places ? pred : &no_pred, pred_places);
}

static inline spt_route spt_graph_route_or_null(const spt_graph *graph, uint32_t source, uint32_t target, uint32_t *vertices,
                                                size_t room) {
    uint32_t no_vertex = 0;
    return spt_graph_route(graph, source, target, room ? vertices : &no_vertex, room);
}

static inline spt_answer spt_graph_routes_or_null(const spt_graph *graph, uint32_t source, const uint32_t *targets, size_t k,
                                                  uint64_t *dist, size_t dist_places, uint64_t *ends, size_t ends_places,
                                                  uint32_t *vertices, size_t room) {
    uint64_t no_dist = 0, no_end = 0;
    uint32_t no_target = 0, no_vertex = 0;
    return spt_graph_routes(graph, source, k ? targets : &no_target, k, dist_places ? dist : &no_dist, dist_places,
                            ends_places ? ends : &no_end, ends_places, room ? vertices : &no_vertex, room);
}

static inline spt_answer spt_graph_within_or_null(const spt_graph *graph, uint32_t source, uint64_t limit, uint64_t delta,
                                                  uint64_t *dist, size_t dist_places, uint32_t *pred, size_t pred_places) {
    uint64_t no_dist = 0;
    uint32_t no_pred = 0;
    return spt_graph_within(graph, source, limit, delta,
                            dist_places ? dist : &no_dist, dist_places, pred_places ? pred : &no_pred, pred_places);
}

static inline spt_part spt_graph_part_or_null(const spt_graph *graph, uint32_t source, uint64_t limit, uint32_t *vertex,
                                              size_t vertex_places, uint64_t *dist, size_t dist_places, uint32_t *pred,
                                              size_t pred_places) {
    uint64_t no_dist = 0;
    uint32_t no_vertex = 0, no_pred = 0;
    return spt_graph_part(graph, source, limit, vertex_places ? vertex : &no_vertex, vertex_places,
                          dist_places ? dist : &no_dist, dist_places, pred_places ? pred : &no_pred, pred_places);
}

static inline spt_answer spt_graph_nearest_or_null(const spt_graph *graph, const uint32_t *sources, size_t k, uint64_t limit,
                                                   uint64_t delta, uint64_t *dist, size_t dist_places, uint32_t *pred,
                                                   size_t pred_places, uint32_t *root, size_t root_places) {
    uint64_t no_dist = 0;
    uint32_t no_source = 0, no_pred = 0, no_root = 0;
    return spt_graph_nearest(graph, k ? sources : &no_source, k, limit, delta,
                             dist_places ? dist : &no_dist, dist_places, pred_places ? pred : &no_pred, pred_places,
                             root_places ? root : &no_root, root_places);
}

static inline spt_batch spt_graph_matrix_or_null(const spt_graph *graph, const uint32_t *sources, size_t k, const uint32_t *targets,
                                                 size_t l, uint64_t delta, uint64_t *dist, size_t dist_places) {
    uint64_t no_dist = 0;
    uint32_t no_source = 0, no_target = 0;
    return spt_graph_matrix(graph, k ? sources : &no_source, k, l ? targets : &no_target, l, delta,
                            dist_places ? dist : &no_dist, dist_places);
}

static inline spt_packed spt_graph_load_or_null(spt_graph *graph, const uint8_t *bytes, size_t len) {
    uint8_t no_byte = 0;
    return spt_graph_load(graph, len ? bytes : &no_byte, len);
}

static inline spt_saved spt_graph_save_or_null(const spt_graph *graph, uint8_t *bytes, size_t room) {
    uint8_t no_byte = 0;
    return spt_graph_save(graph, room ? bytes : &no_byte, room);
}

static inline spt_text spt_gr_or_null(const uint8_t *text, size_t bytes, spt_arc *arcs, size_t places) {
    uint8_t no_text = 0;
    spt_arc no_arc = {0, 0, 0};
    return spt_gr(bytes ? text : &no_text, bytes, places ? arcs : &no_arc, places);
}

#define spt_tree spt_tree_or_null
#define spt_trees spt_trees_or_null
#define spt_pair spt_pair_or_null
#define spt_check spt_check_or_null
#define spt_graph_new spt_graph_new_or_null
#define spt_graph_trees spt_graph_trees_or_null
#define spt_graph_route spt_graph_route_or_null
#define spt_graph_routes spt_graph_routes_or_null
#define spt_graph_within spt_graph_within_or_null
#define spt_graph_part spt_graph_part_or_null
#define spt_graph_nearest spt_graph_nearest_or_null
#define spt_graph_matrix spt_graph_matrix_or_null
#define spt_graph_load spt_graph_load_or_null
#define spt_graph_save spt_graph_save_or_null
#define spt_gr spt_gr_or_null

#ifdef __cplusplus
}
#endif
#endif
