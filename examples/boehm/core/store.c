/* The one store, what its answers mean for a cord, and the cells that cords lead to. */
#include "core.h"
#include <stdio.h>
#include <stdlib.h>
#include <string.h>

void (*CORD_oom_fn)(void) = NULL;

void stop(const char *call, const char *why) {
    fprintf(stderr, "cord: %s: %s\n", call, why);
    abort();
}

void no_room(const char *why) {
    if (CORD_oom_fn) CORD_oom_fn();
    stop("out of memory", why);
}

struct cord_store *the_store(void) {
    static struct cord_store store = CORD_STORE_NONE;
    if (!store.open) must(cord_store_begin(&store));
    return &store;
}

void must(uint32_t answer) {
    switch (answer) {
    case CORD_DONE: return;
    case CORD_MEMORY: no_room("malloc refuses");
    case CORD_TABLE_FULL: no_room("the store has 16,777,216 nodes");
    case CORD_POOL_FULL: no_room("the store has 4,294,967,295 bytes");
    case CORD_TOO_LONG: no_room("a cord of 2^40 bytes or more");
    default: stop("the store", "an answer that it does not give here");
    }
}

/* ---- Cells: block k has FIRST << k of them. A cord stays for ever, and so do they. */

union cell {
    struct made made;
    char text[SHORT + 1];
};

enum { FIRST = 1024, BLOCKS = 40 };
static union cell *blocks[BLOCKS];
static size_t block_count, used;

static union cell *fresh_cell(void) {
    size_t room = block_count ? (size_t)FIRST << (block_count - 1) : 0;
    if (used == room) {
        union cell *block = block_count < BLOCKS ? malloc(((size_t)FIRST << block_count) * sizeof *block) : NULL;
        if (!block) no_room("malloc refuses");
        blocks[block_count++] = block;
        used = 0;
    }
    return &blocks[block_count - 1][used++];
}

const struct made *made_of(CORD x) {
    for (size_t k = block_count; k-- > 0;) {
        uintptr_t from = (uintptr_t)x - (uintptr_t)blocks[k];
        if (from < ((size_t)FIRST << k) * sizeof(union cell) && from % sizeof(union cell) == 0) return (const struct made *)x;
    }
    stop("a cord", "it is an empty C string, or no cord at all; CORD_EMPTY is 0");
}

CORD short_cord(const char *text, size_t len) {
    if (len == 0) return CORD_EMPTY;
    char *copy = fresh_cell()->text;
    memcpy(copy, text, len);
    copy[len] = '\0';
    return copy;
}

CORD cord_of(cord_rope rope, size_t len) {
    char text[SHORT];
    if (len <= SHORT) {
        copy_rope(rope, 0, text, len);
        if (!memchr(text, '\0', len)) return short_cord(text, len);
    }
    union cell *cell = fresh_cell();
    cell->made = (struct made){'\0', rope, len};
    return (CORD)cell;
}
