/* What the header gives beside the calls: versions, names of statuses, and NULL where a list has 0 places. It is C and C++. */
#include "count.h"
#include "spt.h"

#include <stdlib.h>
#include <string.h>

static void versions(void) {
    char wanted[32];
    snprintf(wanted, sizeof wanted, "%d.%d.%d", SPT_VERSION_MAJOR, SPT_VERSION_MINOR, SPT_VERSION_PATCH);
    count("the parts of the version", !strcmp(wanted, SPT_VERSION));
    int parts = SPT_VERSION_MAJOR * 10000 + SPT_VERSION_MINOR * 100 + SPT_VERSION_PATCH;
    count("the number of the version", SPT_VERSION_NUMBER == parts && SPT_VERSION_NUMBER >= 10600);
    count("the library is of this header", spt_version() == SPT_VERSION_NUMBER);
#if SPT_VERSION_NUMBER < 10600
    count("the preprocessor reads it", 0);
#endif
}

/* Each status has a text of its own, and other numbers have another. */
static void statuses(void) {
    const spt_status all[] = {SPT_OK, SPT_BAD_SIZE, SPT_BAD_DELTA, SPT_BAD_ARC, SPT_NO_SUCH_VERTEX, SPT_TOO_FAR,
                              SPT_MEMORY, SPT_BAD_TEXT, SPT_LONG_TEXT, SPT_WRONG, SPT_NO_GRAPH, SPT_BAD_LIMIT,
                              SPT_IN_USE};
    const uint32_t many = sizeof all / sizeof *all;
    for (uint32_t i = 0; i < many; i++) {
        const char *text = spt_status_text(all[i]);
        count("a status is its number", all[i] == (spt_status)i && strlen(text) > 1);
        for (uint32_t k = 0; k < i; k++) count("texts differ", strcmp(text, spt_status_text(k)) != 0);
        count("no status", strcmp(text, spt_status_text(many)) != 0);
    }
    count("other numbers", !strcmp(spt_status_text(many), spt_status_text(UINT32_MAX)));
    spt_answer told = spt_tree(NULL, 0, 0, 1, 0, NULL, 0, NULL, 0);
    count("of an answer", !strcmp(spt_status_text(told.status), spt_status_text(SPT_BAD_SIZE)));
}

/* Lists of 0 places may be NULL in each call. */
static void nulls(void) {
    uint64_t dist[2] = {9, 9};
    uint32_t pred[2] = {9, 9}, one = 1;
    spt_answer tree = spt_tree(NULL, 0, 2, 1, 0, dist, 2, pred, 2);
    count("no arcs", tree.status == SPT_OK && dist[0] == 0 && dist[1] == SPT_UNREACHED && pred[0] == 0 && pred[1] == 0);
    count("no arcs to check", spt_check(NULL, 0, 2, 1, dist, 2, pred, 2).status == SPT_OK);
    count("no places to check", spt_check(NULL, 0, 2, 1, NULL, 0, NULL, 0).status == SPT_BAD_SIZE);
    count("no places", spt_tree(NULL, 0, 2, 1, 0, NULL, 0, NULL, 0).status == SPT_BAD_SIZE);
    spt_batch trees = spt_trees(NULL, 0, 2, NULL, 0, 0, NULL, 0, NULL, 0);
    count("no sources", trees.status == SPT_OK && trees.done == 0);
    trees = spt_trees(NULL, 0, 2, &one, 1, 0, dist, 2, pred, 2);
    count("a source", trees.status == SPT_OK && trees.done == 1);
    spt_found pair = spt_pair(NULL, 0, 2, 1, 2, 0);
    count("a pair", pair.status == SPT_OK && pair.dist == SPT_UNREACHED && pair.pred == 0);

    spt_graph graph = {NULL, 0};
    count("a graph of no arcs", spt_graph_new(NULL, 0, 2, &graph).status == SPT_OK);
    trees = spt_graph_trees(&graph, NULL, 0, 0, NULL, 0, NULL, 0);
    count("no sources of a graph", trees.status == SPT_OK && trees.done == 0);
    count("a part of no graph's arcs", spt_graph_within(&graph, 1, 0, 0, dist, 2, pred, 2).status == SPT_OK && dist[1] == SPT_UNREACHED);
    count("no places for a part", spt_graph_within(&graph, 1, 0, 0, NULL, 0, NULL, 0).status == SPT_BAD_SIZE);
    spt_part part = spt_graph_part(&graph, 1, 0, NULL, 0, NULL, 0, NULL, 0);
    count("no places for a list", part.status == SPT_BAD_SIZE && part.count == 1);
    uint32_t root[2] = {9, 9};
    spt_answer nearest = spt_graph_nearest(&graph, NULL, 0, SPT_NO_LIMIT, 0, dist, 2, pred, 2, root, 2);
    count("the nearest of no sources", nearest.status == SPT_OK && dist[0] == SPT_UNREACHED && pred[0] == 0 && root[0] == 0);
    nearest = spt_graph_nearest(&graph, NULL, 0, SPT_NO_LIMIT, 0, NULL, 0, NULL, 0, NULL, 0);
    count("no places for the nearest", nearest.status == SPT_BAD_SIZE);
    trees = spt_graph_matrix(&graph, NULL, 0, NULL, 0, 0, NULL, 0);
    count("a matrix of nothing", trees.status == SPT_OK && trees.done == 0);
    spt_route route = spt_graph_route(&graph, 1, 1, NULL, 0);
    count("no room for a route", route.status == SPT_OK && route.dist == 0 && route.count == 1);
    spt_answer routes = spt_graph_routes(&graph, 1, NULL, 0, NULL, 0, NULL, 0, NULL, 0);
    count("routes to nothing", routes.status == SPT_OK);
    routes = spt_graph_routes(&graph, 1, &one, 1, NULL, 0, NULL, 0, NULL, 0);
    count("no places for routes", routes.status == SPT_BAD_SIZE);
    spt_graph_free(&graph);

    spt_text text = spt_gr(NULL, 0, NULL, 0);
    count("no text", text.status == SPT_BAD_TEXT && text.kind == 3);
    const char *spelled = "p sp 3 2\na 1 2 3\na 2 3 4\n";
    text = spt_gr((const uint8_t *)spelled, strlen(spelled), NULL, 0);
    count("the sizes of a text", text.status == SPT_BAD_SIZE && text.n == 3 && text.m == 2);
}

int main(void) {
    versions();
    statuses();
    nulls();
    return finish();
}
