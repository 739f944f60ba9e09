/* Bytes into the store, and out of it; ropes of cords, and ropes that are joined. */
#include "core.h"
#include <stdlib.h>
#include <string.h>

static size_t least(size_t a, size_t b) { return a < b ? a : b; }

cord_rope append_bytes(cord_rope x, const char *bytes, size_t n) {
    for (size_t done = 0, now; done < n; done += now) {
        now = least(n - done, PIECE);
        uint32_t answer = cord_store_append(the_store(), x, (const uint8_t *)bytes + done, now, &x);
        if (answer == CORD_MANY_PIECES) answer = cord_store_append(the_store(), copied(x, 0, SIZE_MAX), (const uint8_t *)bytes + done, now, &x);
        must(answer);
    }
    return x;
}

cord_rope joined(cord_rope x, cord_rope y) {
    cord_rope rope;
    uint32_t answer = cord_store_cat(the_store(), x, y, &rope);
    if (answer == CORD_MANY_PIECES) answer = cord_store_cat(the_store(), copied(x, 0, SIZE_MAX), copied(y, 0, SIZE_MAX), &rope);
    must(answer);
    return rope;
}

cord_rope copied(cord_rope x, size_t from, size_t n) {
    cord_rope rope = 0;
    char *piece = malloc(PIECE);
    if (!piece) no_room("malloc refuses");
    for (size_t all = 0, now = 1; all < n && now > 0; all += now) {
        now = copy_rope(x, from + all, piece, least(n - all, PIECE));
        rope = append_bytes(rope, piece, now);
    }
    free(piece);
    return rope;
}

size_t copy_run(cord_rope x, size_t from, char *out, size_t n) {
    size_t got;
    must(cord_store_read(the_store(), cord_no_sources, 0, x, from, (uint8_t *)out, n, &got));
    return got;
}

size_t copy_rope(cord_rope x, size_t from, char *out, size_t n) {
    size_t all = 0;
    for (size_t got = 1; all < n && got > 0; all += got) got = copy_run(x, from + all, out + all, n - all);
    return all;
}

size_t copy_out(CORD x, size_t from, char *out, size_t n) {
    if (!x) return 0;
    if (!CORD_IS_STRING(x)) return copy_rope(made_of(x)->rope, from, out, n);
    size_t len = strlen(x);
    if (from >= len) return 0;
    n = least(n, len - from);
    memcpy(out, x + from, n);
    return n;
}

/* ---- The last long C strings, so that one that is used again and again is copied once. Their bytes are compared, for another string may stand
 * there by now. */

enum { KNOWN = 16 };
static struct {
    const char *at;
    size_t len;
    cord_rope rope;
} known[KNOWN];
static size_t next_known;

static bool has_bytes(cord_rope rope, const char *bytes, size_t len) {
    char window[WINDOW];
    for (size_t all = 0, got; all < len; all += got) {
        got = copy_run(rope, all, window, sizeof window);
        if (memcmp(window, bytes + all, got) != 0) return false;
    }
    return true;
}

cord_rope known_rope(const char *string, size_t len) {
    for (size_t k = 0; k < KNOWN; k++)
        if (known[k].at == string && known[k].len == len && has_bytes(known[k].rope, string, len)) return known[k].rope;
    return 0;
}

static cord_rope rope_of_long(const char *string, size_t len) {
    cord_rope rope = known_rope(string, len);
    if (rope) return rope;
    rope = append_bytes(0, string, len);
    known[next_known].at = string;
    known[next_known].len = len;
    known[next_known].rope = rope;
    next_known = (next_known + 1) % KNOWN;
    return rope;
}

cord_rope rope_of(CORD x) {
    if (!x) return 0;
    if (!CORD_IS_STRING(x)) return made_of(x)->rope;
    size_t len = strlen(x);
    return len < LONG ? append_bytes(0, x, len) : rope_of_long(x, len);
}
