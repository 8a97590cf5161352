// Loaded before the C library (LD_PRELOAD), it refuses one request for memory, number REFUSE_AT from 1 on, and leaves the
// number of requests that were made in the file that REFUSE_TOLD names: 8 bytes in the machine's order. Reads of the file that
// READS_OF names fail after READ_FAILS_AT bytes.
#define _GNU_SOURCE
#include <dlfcn.h>
#include <errno.h>
#include <fcntl.h>
#include <stdatomic.h>
#include <stddef.h>
#include <stdlib.h>
#include <sys/mman.h>
#include <sys/stat.h>
#include <unistd.h>

// The number of requests. It stands in the file itself, so that it is told however the program ends.
static _Atomic long unshared;
static _Atomic long *asked = &unshared;
static long refused_at = 0;
static void *(*next_malloc)(size_t);
static void *(*next_realloc)(void *, size_t);
static ssize_t (*next_read)(int, void *, size_t);

// The file whose reads fail, and how many bytes of it are still read before; none where this is less than 0.
static struct stat failing;
static long left = -1;

static void find_next(void) {
    next_malloc = (void *(*)(size_t))dlsym(RTLD_NEXT, "malloc");
    next_realloc = (void *(*)(void *, size_t))dlsym(RTLD_NEXT, "realloc");
    next_read = (ssize_t (*)(int, void *, size_t))dlsym(RTLD_NEXT, "read");
}

// Leaves the number in the file from here on.
static void share(const char *path) {
    int file = open(path, O_RDWR | O_CREAT, 0600);
    if (file < 0) return;
    if (ftruncate(file, sizeof *asked) == 0) {
        void *shared = mmap(NULL, sizeof *asked, PROT_READ | PROT_WRITE, MAP_SHARED, file, 0);
        if (shared != MAP_FAILED) asked = shared;
    }
    close(file);
}

__attribute__((constructor)) static void begin(void) {
    const char *at = getenv("REFUSE_AT"), *told = getenv("REFUSE_TOLD");
    const char *path = getenv("READS_OF"), *room = getenv("READ_FAILS_AT");
    find_next();
    if (path && room && stat(path, &failing) == 0) left = atol(room);
    if (told) share(told);
    atomic_store(asked, 0);
    refused_at = at ? atol(at) : 0;
}

static int is_refused(void) {
    if (atomic_fetch_add(asked, 1) + 1 != refused_at) return 0;
    errno = ENOMEM;
    return 1;
}

void *malloc(size_t size) {
    if (!next_malloc) find_next();
    return is_refused() ? NULL : next_malloc(size);
}

void *realloc(void *place, size_t size) {
    if (!next_realloc) find_next();
    return is_refused() ? NULL : next_realloc(place, size);
}

static int is_failing(int file) {
    struct stat it;
    return left >= 0 && fstat(file, &it) == 0 && it.st_dev == failing.st_dev && it.st_ino == failing.st_ino;
}

ssize_t read(int file, void *place, size_t size) {
    if (!next_read) find_next();
    if (!is_failing(file)) return next_read(file, place, size);
    if (left == 0) {
        errno = EIO;
        return -1;
    }
    ssize_t count = next_read(file, place, size < (size_t)left ? size : (size_t)left);
    if (count > 0) left -= count;
    return count;
}
