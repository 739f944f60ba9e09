/* core.h: what the files of the core share. A cord is 0, a C string, or leads to a struct made, whose first byte is 0. */
#ifndef CORDKIT_BOEHM_CORE_H
#define CORDKIT_BOEHM_CORE_H

#include "cord_session.h"
#include <gc/cord.h>
#include <stddef.h>
#include <stdint.h>

#pragma GCC visibility push(hidden)

enum {
    SHORT = 15,    /* a result of so many bytes or fewer is a C string, unless it has a NUL */
    LONG = 256,    /* a C string of so many bytes or more is kept in mind, so that its bytes are copied once */
    PIECE = 65536, /* so many bytes are handed to the store at once */
    WINDOW = 4096  /* so many are read at once */
};

struct made {
    char nul;
    cord_rope rope;
    size_t len;
};

/* Ends the program with a line on standard error. */
_Noreturn void stop(const char *call, const char *why);

/* Calls CORD_oom_fn. Where there is none, or it returns, the program ends. */
_Noreturn void no_room(const char *why);

/* The store of all ropes, which is begun by the first call. */
struct cord_store *the_store(void);

/* Goes on where the store answered CORD_DONE. */
void must(uint32_t answer);

/* What a cord leads to that is neither 0 nor a C string. */
const struct made *made_of(CORD x);

/* The cord of a text of at most SHORT bytes without NUL, and that of a rope of so many bytes. */
CORD short_cord(const char *text, size_t len);
CORD cord_of(cord_rope rope, size_t len);

/* The rope of a cord, that of bytes behind a rope, and that of two ropes. */
cord_rope rope_of(CORD x);
cord_rope append_bytes(cord_rope x, const char *bytes, size_t n);
cord_rope joined(cord_rope x, cord_rope y);

/* The rope that a long C string was copied into, or 0. */
cord_rope known_rope(const char *string, size_t len);

/* The rope of n bytes of a rope from a place on, which are copied in anew. So is made what goes through more pieces than the store balances. */
cord_rope copied(cord_rope x, size_t from, size_t n);

/* Copies bytes of a rope or a cord from a place on: as many as there are, and at most n; copy_run by one read, to the end of the run there. */
size_t copy_run(cord_rope x, size_t from, char *out, size_t n);
size_t copy_rope(cord_rope x, size_t from, char *out, size_t n);
size_t copy_out(CORD x, size_t from, char *out, size_t n);

#pragma GCC visibility pop
#endif
