/* Packed graphs, and graphs with their arcs turned: the worked examples, each cut and each changed byte, and refusals. */
#include "count.h"
#include "spt.h"

#include <stdlib.h>
#include <string.h>

#define BYTES 92

static const spt_arc diamond[] = {{1, 2, 3}, {1, 3, 3}, {2, 4, 2}, {3, 4, 2}, {1, 4, 6}};
static const spt_arc other_order[] = {{1, 4, 6}, {3, 4, 2}, {2, 4, 2}, {1, 3, 3}, {1, 2, 3}};
static const uint32_t diamond_words[] = {0x54505389, 0x011A0A0D, 4, 5, 0, 3, 4, 5, 5, 2, 3, 3, 3, 4, 6, 4, 2, 4, 2,
                                         0x556A5DD1, 0, 0x55CAEA2C, 6};

/* The four bytes of each word, the lowest first. */
static void put_words(uint8_t *bytes, const uint32_t *words, size_t many) {
    for (size_t i = 0; i < 4 * many; i++) bytes[i] = (uint8_t)(words[i / 4] >> 8 * (i % 4));
}

static void put_word(uint8_t *bytes, size_t at, uint32_t word) { put_words(bytes + 4 * at, &word, 1); }

/* Whether this is told of the bytes, and the place keeps what it kept. */
static int has_fault(const uint8_t *bytes, size_t len, uint64_t byte, uint32_t kind, uint32_t letter) {
    spt_graph graph = {0};
    spt_answer made = spt_graph_new(diamond, 5, 4, &graph);
    uint8_t *own = malloc(len ? len : 1);
    if (!own || made.status != SPT_OK) return 0;
    memcpy(own, bytes, len);
    spt_packed told = spt_graph_load(&graph, own, len);
    free(own);
    spt_counts kept = spt_graph_counts(&graph);
    spt_graph_free(&graph);
    return told.status == SPT_BAD_TEXT && told.byte == byte && told.kind == kind && told.letter == letter && told.n == 0
        && told.m == 0 && kept.status == SPT_OK && kept.n == 4 && kept.m == 5;
}

/* Whether the graph is packed to these bytes, and no place behind them is written. */
static int packs_to(const spt_graph *graph, const uint8_t *bytes, size_t many) {
    uint8_t room[2 * BYTES];
    memset(room, 7, sizeof room);
    spt_saved told = spt_graph_save(graph, room, sizeof room);
    int rest = 1;
    for (size_t i = many; i < sizeof room; i++) rest = rest && room[i] == 7;
    return told.status == SPT_OK && told.count == many && !memcmp(room, bytes, many) && rest;
}

/* Whether these are the distances and predecessors of the tree from a source in a graph of four vertices. */
static int has_tree(const spt_graph *graph, uint32_t source, const uint64_t *dist, const uint32_t *pred) {
    uint64_t found[4];
    uint32_t before[4];
    spt_batch told = spt_graph_trees(graph, &source, 1, 0, found, 4, before, 4);
    return told.status == SPT_OK && !memcmp(found, dist, sizeof found) && !memcmp(before, pred, sizeof before);
}

static void example_1(const uint8_t *packed) {
    spt_graph graph = {0}, other = {0};
    count("made", spt_graph_new(diamond, 5, 4, &graph).status == SPT_OK);
    count("example 1: 92 bytes", packs_to(&graph, packed, BYTES));
    count("made in another order", spt_graph_new(other_order, 5, 4, &other).status == SPT_OK);
    count("example 1: another order", packs_to(&other, packed, BYTES));
    spt_packed told = spt_graph_load(&graph, packed, BYTES);
    count("loaded", told.status == SPT_OK && told.n == 4 && told.m == 5 && !told.kind && !told.letter && !told.byte);
    count("example 1: of its own output", packs_to(&graph, packed, BYTES));
    const uint64_t dist[] = {0, 3, 3, 5};
    const uint32_t pred[] = {0, 1, 1, 2};
    count("the tree of what was loaded", has_tree(&graph, 1, dist, pred));
    spt_graph_free(&graph);
    spt_graph_free(&other);
}

static void example_2(void) {
    const uint64_t towards[] = {5, 2, 2, 0}, both[] = {3, 0, 4, 2};
    const uint32_t next[] = {2, 4, 4, 0}, before[] = {2, 0, 4, 2};
    spt_graph graph = {0}, turned = {0}, streets = {0};
    count("made", spt_graph_new(diamond, 5, 4, &graph).status == SPT_OK);
    count("turned", spt_graph_turned(&turned, &graph).status == SPT_OK);
    count("example 2: towards 4", has_tree(&turned, 4, towards, next));
    count("both ways", spt_graph_both_ways(&streets, &graph).status == SPT_OK && spt_graph_counts(&streets).m == 10);
    count("example 2: both ways from 2", has_tree(&streets, 2, both, before));
    count("turned, of both ways", spt_graph_turned(&turned, &streets).status == SPT_OK && has_tree(&turned, 2, both, before));
    count("the graph is kept still", spt_graph_counts(&graph).m == 5);
    count("turned into a place that is kept", spt_graph_turned(&streets, &graph).status == SPT_OK && has_tree(&streets, 4, towards, next));
    spt_graph_free(&graph);
    spt_graph_free(&turned);
    spt_graph_free(&streets);
}

/* One word of the packed diamond made another one. */
static int word_fault(const uint8_t *packed, size_t at, uint32_t word, uint64_t byte, uint32_t kind, char letter) {
    uint8_t bytes[BYTES];
    memcpy(bytes, packed, BYTES);
    put_word(bytes, at, word);
    return has_fault(bytes, BYTES, byte, kind, (uint32_t)letter);
}

static void example_3(const uint8_t *packed) {
    uint8_t longer[BYTES + 1];
    memcpy(longer, packed, BYTES);
    longer[BYTES] = 'x';
    count("example 3: the first 50", has_fault(packed, 50, 48, 7, 0));
    count("example 3: one byte behind", has_fault(longer, BYTES + 1, 92, 6, 0));
    count("example 3: n = 0", word_fault(packed, 2, 0, 8, 5, 'N'));
    count("example 3: m = 1073741825", word_fault(packed, 3, 1073741825, 12, 5, 'M'));
    count("example 3: word 5 is 0", word_fault(packed, 5, 0, 64, 5, 'W'));
    count("example 3: word 6 is 1", word_fault(packed, 6, 1, 24, 5, 'E'));
    count("example 3: the second word", word_fault(packed, 1, 0x021A0A0D, 4, 10, 0));
    count("a head above n", word_fault(packed, 9, 5, 36, 5, 'V'));
    count("another sum", word_fault(packed, 20, 1, 80, 11, 0));
    count("nothing at all", has_fault(packed, 0, 0, 7, 0));
    count("a text", has_fault((const uint8_t *)"p sp 1 0\n", 9, 0, 10, 0));
}

static void example_4(void) {
    const uint32_t words[] = {0x54505389, 0x011A0A0D, 1, 0, 0, 0};
    const spt_arc loop = {1, 1, 5};
    uint8_t bytes[40];
    uint64_t first = 0, second = 0;
    for (int i = 0; i < 6; i++) {
        first += words[i];
        second += first;
    }
    const uint32_t sum[] = {(uint32_t)first, (uint32_t)(first >> 32), (uint32_t)second, (uint32_t)(second >> 32)};
    put_words(bytes, words, 6);
    put_words(bytes + 24, sum, 4);
    spt_graph graph = {0}, streets = {0};
    count("one vertex", spt_graph_new(NULL, 0, 1, &graph).status == SPT_OK);
    count("example 4: 40 bytes", packs_to(&graph, bytes, 40));
    count("a loop", spt_graph_new(&loop, 1, 1, &graph).status == SPT_OK && spt_graph_both_ways(&streets, &graph).status == SPT_OK);
    uint8_t packed[2 * BYTES];
    spt_saved told = spt_graph_save(&streets, packed, sizeof packed);
    const uint32_t twice[] = {0, 2, 1, 5, 1, 5};
    uint8_t wanted[24];
    put_words(wanted, twice, 6);
    count("example 4: a loop stands twice", told.status == SPT_OK && told.count == 56 && !memcmp(packed + 16, wanted, 24));
    spt_graph_free(&graph);
    spt_graph_free(&streets);
}

/* Cut at each byte, and each byte changed: nothing of it is loaded. */
static void each_byte(const uint8_t *packed) {
    uint8_t bytes[BYTES];
    for (size_t k = 0; k < BYTES; k++) count("cut", has_fault(packed, k, k / 4 * 4, 7, 0));
    for (size_t k = 0; k < BYTES; k++) {
        const uint8_t others[] = {(uint8_t)(packed[k] + 1), (uint8_t)(packed[k] - 1), (uint8_t)(packed[k] ^ 0x80)};
        for (size_t i = 0; i < sizeof others; i++) {
            spt_graph graph = {0};
            memcpy(bytes, packed, BYTES);
            bytes[k] = others[i];
            spt_packed told = spt_graph_load(&graph, bytes, BYTES);
            count("changed", told.status == SPT_BAD_TEXT && told.byte % 4 == 0 && told.byte < BYTES);
            count("none is kept", spt_graph_counts(&graph).status == SPT_NO_GRAPH);
        }
    }
}

static void refusals(const uint8_t *packed) {
    spt_graph graph = {0}, other = {0};
    uint8_t room[BYTES];
    memset(room, 7, sizeof room);
    spt_saved saved = spt_graph_save(&graph, room, BYTES);
    count("save of none", saved.status == SPT_NO_GRAPH && saved.count == 0);
    count("other", spt_graph_new(diamond, 5, 4, &other).status == SPT_OK);
    count("turned of none", spt_graph_turned(&other, &graph).status == SPT_NO_GRAPH && spt_graph_counts(&other).m == 5);
    count("both ways of none", spt_graph_both_ways(&other, &graph).status == SPT_NO_GRAPH && spt_graph_counts(&other).m == 5);
    saved = spt_graph_save(&other, NULL, 0);
    count("how many are needed", saved.status == SPT_BAD_SIZE && saved.count == BYTES);
    saved = spt_graph_save(&other, room, BYTES - 1);
    int same = 1;
    for (size_t i = 0; i < sizeof room; i++) same = same && room[i] == 7;
    count("one place too few", saved.status == SPT_BAD_SIZE && saved.count == BYTES && same);
    saved = spt_graph_save(&other, room, BYTES);
    count("just enough", saved.status == SPT_OK && !memcmp(room, packed, BYTES));
    count("load of nothing", spt_graph_load(&other, NULL, 0).status == SPT_BAD_TEXT && spt_graph_counts(&other).m == 5);
    spt_graph_free(&graph);
    spt_graph_free(&other);
}

int main(void) {
    uint8_t packed[BYTES];
    put_words(packed, diamond_words, BYTES / 4);
    example_1(packed);
    example_2();
    example_3(packed);
    example_4();
    each_byte(packed);
    refusals(packed);
    return finish();
}
