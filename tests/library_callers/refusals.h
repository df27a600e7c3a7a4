/*
 * Requests for memory that are counted, and refused where the test says so. Linked so that malloc, realloc and free are those of this file.
 */
#ifndef REFUSALS_H
#define REFUSALS_H
#include "callers.h"

/* While the library works, its requests are counted, with the blocks that it holds, and one is refused, or all from one on, but while
   `spares`. */
static bool works, spares, all_after;
static long requests, refused_at, held;

void *__real_malloc(size_t bytes);
void *__real_realloc(void *block, size_t bytes);
void __real_free(void *block);
void *__wrap_malloc(size_t bytes);
void *__wrap_realloc(void *block, size_t bytes);
void __wrap_free(void *block);

static bool is_refused(void) {
    if (!works || spares)
        return false;
    long request = ++requests;
    return all_after ? request >= refused_at : request == refused_at;
}

void *__wrap_malloc(size_t bytes) {
    void *block = is_refused() ? NULL : __real_malloc(bytes);
    held += works && block;
    return block;
}

void *__wrap_realloc(void *block, size_t bytes) {
    return is_refused() ? NULL : __real_realloc(block, bytes);
}

void __wrap_free(void *block) {
    held -= works && block;
    __real_free(block);
}

/* From now on the library works, and the request at this place is refused, counted from 1, or all from there on; at 0 none is. */
static void begin(long place, bool after) {
    requests = 0;
    refused_at = place;
    all_after = after;
    works = true;
}

#endif
