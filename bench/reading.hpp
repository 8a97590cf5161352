// What the plain programs of this folder share: lines, numbers and their digits, arcs of a `.gr` file, and their rows.
#pragma once
#include <chrono>
#include <cstdint>
#include <cstdio>
#include <cstdlib>
#include <cstring>
#include <fcntl.h>
#include <string>
#include <sys/mman.h>
#include <sys/stat.h>
#include <unistd.h>
#include <vector>

using Clock = std::chrono::steady_clock;

[[noreturn]] static void refuse(const char *words) {
    fprintf(stderr, "bench: %s\n", words);
    exit(1);
}

// ## Lines

// Calls `take` with the bounds of each line of a file, which is read in pieces of 64 KiB. Tells the number of bytes.
template <class Take> static uint64_t each_line(const char *path, Take take) {
    FILE *file = fopen(path, "rb");
    if (!file) refuse("cannot open");
    setvbuf(file, nullptr, _IONBF, 0);
    std::vector<char> piece(1 << 16);
    std::string rest;
    uint64_t bytes = 0;
    while (size_t got = fread(piece.data(), 1, piece.size(), file)) {
        bytes += got;
        const char *at = piece.data(), *end = at + got;
        while (at < end) {
            const char *line_end = static_cast<const char *>(memchr(at, '\n', end - at));
            if (!line_end) {
                rest.append(at, end);
                break;
            }
            if (rest.empty()) {
                take(at, line_end);
            } else {
                rest.append(at, line_end);
                take(rest.data(), rest.data() + rest.size());
                rest.clear();
            }
            at = line_end + 1;
        }
    }
    fclose(file);
    return bytes;
}

// A number after blanks, of at most `most`. Its line has an end, which is no digit.
static uint64_t number(const char *&at, uint64_t most) {
    while (*at == ' ') at++;
    const char *next = at;
    uint64_t digit = uint64_t(*next) - '0', value = 0;
    for (; digit < 10; digit = uint64_t(*++next) - '0') value = value * 10 + digit;
    if (uint64_t(next - at) - 1 > 17 || value > most) refuse("no number in range");
    at = next;
    return value;
}

static bool begins(const char *&at, const char *end, const char *words) {
    size_t length = strlen(words);
    if (size_t(end - at) < length || memcmp(at, words, length) != 0) return false;
    at += length;
    return true;
}

// The two digits of each number below 100.
struct Pairs {
    char digits[200];

    constexpr Pairs() : digits() {
        for (int i = 0; i < 100; i++) {
            digits[2 * i] = '0' + i / 10;
            digits[2 * i + 1] = '0' + i % 10;
        }
    }
};

constexpr Pairs pairs;

// ## Graphs

struct Arc {
    uint32_t tail, head, len;
};

struct Edge {
    uint32_t head, len;
};

// The arc of a line behind its `a`.
static Arc arc_of(const char *&at, uint32_t n) {
    Arc arc;
    arc.tail = number(at, n);
    arc.head = number(at, n);
    arc.len = number(at, UINT32_MAX);
    if (!arc.tail || !arc.head || !arc.len) refuse("out of range");
    return arc;
}

// Takes a line that is no arc's: the graph's size, or nothing.
static void take_line(const char *at, const char *end, uint32_t &n, uint64_t &m) {
    if (at == end || *at == 'c') return;
    if (!begins(at, end, "p sp ")) refuse("bad line");
    n = number(at, (1u << 28) - 2);
    m = number(at, 1u << 30);
    if (at != end) refuse("bad line");
}

// The arcs of a text whose lines all have an end. Room for them all is taken where their number is told.
[[maybe_unused]] static void take_arcs(const char *at, const char *end, uint32_t &n, uint64_t &m, std::vector<Arc> &arcs) {
    while (at < end) {
        if (at[0] == 'a' && at[1] == ' ') {
            at += 2;
            arcs.push_back(arc_of(at, n));
            if (*at != '\n') refuse("bad line");
        } else {
            const char *line_end = static_cast<const char *>(memchr(at, '\n', end - at));
            take_line(at, line_end, n, m);
            if (arcs.capacity() < m) arcs.reserve(m);
            at = line_end;
        }
        at++;
    }
}

// A file, mapped; each of its lines has an end.
struct Mapped {
    const char *at = nullptr;
    size_t length = 0;

    explicit Mapped(const char *path) {
        int file = open(path, O_RDONLY);
        struct stat told;
        if (file < 0 || fstat(file, &told) != 0) refuse("cannot open");
        length = told.st_size;
        if (length) at = static_cast<const char *>(mmap(nullptr, length, PROT_READ, MAP_PRIVATE, file, 0));
        if (at == MAP_FAILED) refuse("cannot read");
        close(file);
        if (length && at[length - 1] != '\n') refuse("a line without an end");
    }
    ~Mapped() {
        if (length) munmap(const_cast<char *>(at), length);
    }

    // Has the system lay out the pages from one place to another at once, where it can.
    void touch(size_t from, size_t to) const {
#ifdef MADV_POPULATE_READ
        size_t page = 4095, begun = reinterpret_cast<size_t>(at + from) & ~page;
        madvise(reinterpret_cast<void *>(begun), reinterpret_cast<size_t>(at + to) - begun, MADV_POPULATE_READ);
#else
        (void)from, (void)to;
#endif
    }

    // Where the first line begins that doesn't begin before a place.
    size_t line_at(size_t place) const {
        if (place == 0 || place >= length) return place < length ? place : length;
        return static_cast<const char *>(memchr(at + place - 1, '\n', length - place + 1)) + 1 - at;
    }
};

// The arcs of a graph's file, and the number of its bytes.
[[maybe_unused]] static uint64_t read_arcs(const char *path, uint32_t &n, std::vector<Arc> &arcs) {
    Mapped file(path);
    file.touch(0, file.length);
    uint64_t m = 0;
    take_arcs(file.at, file.at + file.length, n, m, arcs);
    if (m != arcs.size()) refuse("number of arcs");
    return file.length;
}

// Puts arcs into rows by counting.
[[maybe_unused]] static std::vector<Edge> rows_of(uint32_t n, const std::vector<Arc> &arcs, std::vector<uint32_t> &starts) {
    starts.assign(n + 2, 0);
    for (const Arc &arc : arcs) starts[arc.tail + 1]++;
    for (uint32_t v = 1; v <= n + 1; v++) starts[v] += starts[v - 1];
    std::vector<uint32_t> places(starts);
    std::vector<Edge> edges(arcs.size());
    for (const Arc &arc : arcs) edges[places[arc.tail]++] = {arc.head, arc.len};
    return edges;
}
