/* Gives libjt_ffi.a the memory of the C library, and counts it against the limit of each thread.
 * libjt.a and libjt.so.0 contain this file.
 *
 * The library asks for alignments that divide 16, which malloc ensures. */
#include "jt.h"

#include <malloc.h>
#include <stdlib.h>

struct tried {
    bool ok;
    unsigned char *p;
};

/* What p points to if there is no memory. */
static unsigned char nothing;

/* The memory of this thread: what it holds more than when its limit was set, and that limit. (The
 * model lets no access allocate, which could end the process.) */
static _Thread_local __attribute__((tls_model("initial-exec"))) struct {
    int64_t held, limit;
} memory = {0, INT64_MAX};

uint64_t jt_memory_limit(uint64_t bytes) {
    const int64_t limit = memory.limit, held = memory.held;
    memory.held = 0;
    memory.limit = bytes < INT64_MAX ? (int64_t)bytes : INT64_MAX;
    if (limit == INT64_MAX) {
        return JT_NO_LIMIT;
    }
    return held < limit ? (uint64_t)limit - (uint64_t)held : 0;
}

int64_t jt_memory_held(void) { return memory.held; }

/* Returns whether the thread may hold `size` bytes more. */
static bool fits(size_t size) {
    return size <= INT64_MAX && memory.held <= memory.limit - (int64_t)size;
}

static struct tried refused(void) { return (struct tried){false, &nothing}; }

static struct tried counted(void *p, int64_t before) {
    if (p == NULL) {
        return refused();
    }
    memory.held += (int64_t)malloc_usable_size(p) - before;
    return (struct tried){true, p};
}

struct tried rattle_alloc(size_t size, size_t align) {
    return fits(size) ? counted(malloc(size != 0 ? size : align), 0) : refused();
}

struct tried rattle_realloc(unsigned char *p, size_t kept, size_t size, size_t align) {
    (void)kept;
    const size_t before = malloc_usable_size(p);
    if (size > before && !fits(size - before)) {
        return refused();
    }
    return counted(realloc(p, size != 0 ? size : align), (int64_t)before);
}

void rattle_dealloc(unsigned char *p) {
    memory.held -= (int64_t)malloc_usable_size(p);
    free(p);
}
