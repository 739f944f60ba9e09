/* Cords are made of others, of strings and of functions; their lengths; what they are made of. */
#include "core.h"
#include <stdlib.h>
#include <string.h>

size_t CORD_len(CORD x) { return !x ? 0 : CORD_IS_STRING(x) ? strlen(x) : made_of(x)->len; }

/* The bytes of a cord and then others, where they are few: a C string, where there is no NUL, or a rope of one leaf. */
static CORD gathered(CORD x, size_t m, const char *bytes, size_t n) {
    char text[2 * LONG];
    copy_out(x, 0, text, m);
    memcpy(text + m, bytes, n);
    if (m + n <= SHORT && !memchr(text, '\0', m + n)) return short_cord(text, m + n);
    return cord_of(append_bytes(0, text, m + n), m + n);
}

CORD CORD_cat_char_star(CORD x, const char *y, size_t leny) {
    if (leny == 0) return x;
    size_t m = CORD_len(x);
    if (leny < LONG && (m + leny <= SHORT || (m < LONG && (!x || CORD_IS_STRING(x))))) return gathered(x, m, y, leny);
    return cord_of(append_bytes(rope_of(x), y, leny), m + leny);
}

CORD CORD_cat(CORD x, CORD y) {
    if (!x) return y;
    if (!y) return x;
    size_t m = CORD_len(x), n = CORD_len(y);
    if (CORD_IS_STRING(y) && n < LONG) return CORD_cat_char_star(x, y, n);
    if (m + n > SHORT) return cord_of(joined(rope_of(x), rope_of(y)), m + n);
    char text[SHORT];
    copy_out(y, 0, text, n);
    return gathered(x, m, text, n);
}

static cord_rope part(cord_rope x, size_t i, size_t n) {
    cord_rope rope;
    uint32_t answer = cord_store_substr(the_store(), x, i, n, &rope);
    if (answer == CORD_MANY_PIECES) return copied(x, i, n);
    must(answer);
    return rope;
}

/* A part of a C string, which has no NUL. All of the string is copied where at least half of it is asked for. */
static CORD part_of_string(CORD x, size_t len, size_t i, size_t n) {
    if (n <= SHORT) return short_cord(x + i, n);
    cord_rope whole = n < LONG ? 0 : n < len / 2 ? known_rope(x, len) : rope_of(x);
    return cord_of(whole ? part(whole, i, n) : append_bytes(0, x + i, n), n);
}

CORD CORD_substr(CORD x, size_t i, size_t n) {
    size_t len = CORD_len(x);
    char text[SHORT];
    if (i >= len || n == 0) return CORD_EMPTY;
    if (n > len - i) n = len - i;
    if (n == len) return x;
    if (CORD_IS_STRING(x)) return part_of_string(x, len, i, n);
    if (n <= SHORT && copy_out(x, i, text, n) == n && !memchr(text, '\0', n)) return short_cord(text, n);
    return cord_of(part(rope_of(x), i, n), n);
}

/* The function is asked for each of its characters once, in their order, before the call returns. */
CORD CORD_from_fn(CORD_fn fn, void *client_data, size_t len) {
    cord_rope rope = 0;
    char few[SHORT], *piece = few;
    if (len > SHORT && !(piece = malloc(len < PIECE ? len : PIECE))) no_room("malloc refuses");
    for (size_t i = 0, n; i < len; i += n) {
        for (n = 0; n < PIECE && i + n < len; n++) piece[n] = fn(i + n, client_data);
        if (piece == few) return gathered(CORD_EMPTY, 0, few, len);
        rope = append_bytes(rope, piece, n);
    }
    if (piece != few) free(piece);
    return cord_of(rope, len);
}

CORD CORD_balance(CORD x) {
    if (!x || CORD_IS_STRING(x)) return x;
    const struct made *made = made_of(x);
    cord_rope rope;
    uint32_t answer = cord_store_balance(the_store(), made->rope, &rope);
    if (answer == CORD_MANY_PIECES) rope = copied(made->rope, 0, SIZE_MAX);
    else must(answer);
    return rope == made->rope ? x : cord_of(rope, made->len);
}

/* A line for the cord, and one for each of its pieces: its place, its length, and where its bytes stand in the store. */
void CORD_dump(CORD x) {
    uint32_t depth;
    struct cord_run run;
    if (!x) {
        puts("empty cord");
    } else if (CORD_IS_STRING(x)) {
        printf("C string of %zu bytes: \"%s\"\n", strlen(x), x);
    } else {
        const struct made *made = made_of(x);
        must(cord_store_depth(the_store(), made->rope, &depth));
        printf("rope %llu of %zu bytes, depth %u\n", (unsigned long long)made->rope, made->len, (unsigned)depth);
        for (size_t at = 0; at < made->len; at += run.len) {
            must(cord_store_locate(the_store(), made->rope, at, &run));
            printf("  from %zu on %llu bytes, stored at %llu\n", at, (unsigned long long)run.len, (unsigned long long)run.start);
        }
    }
    fflush(stdout);
}
